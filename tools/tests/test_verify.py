"""tools/verify: worked rows, faults of files, bad input, and random and damaged documents against the program."""
import importlib.util
import json
import random
import re
import threading
import time
import unittest
from concurrent.futures import ThreadPoolExecutor
from dataclasses import dataclass
from importlib.machinery import SourceFileLoader
from pathlib import Path
from types import ModuleType

from common import ROOT, TOOLS, FolderTest, needs_finder, run_finder, run_tool, topology
from test_finderlib import LIST

RANDOM_NETWORKS = 250
DAMAGES_OF_EACH = 8


def load(name: str, path: Path) -> ModuleType:
    """A script as a module."""
    spec = importlib.util.spec_from_loader(name, SourceFileLoader(name, str(path)))
    module = importlib.util.module_from_spec(spec)
    spec.loader.exec_module(module)
    return module


VERIFY = load("verify", TOOLS / "verify")
NETWORKS = load("random_networks", ROOT / "checks" / "random_networks.py")


@dataclass
class Case:
    """A topology in shorthand, and a document of it."""
    elements: list[str]
    document: str

    def files(self) -> list[bytes]:
        return [topology("d", *self.elements)]


TUNNEL_PORTS = ["P c1 enc=eth", "P s1 enc=otn hasService=ad isSource=t", "P s2 enc=otn hasService=de isSink=t", "P c2 enc=eth"]

ONE = Case(["P a isSource=l", "P b isSink=l", "L l"], """\
circuit 1
request a any b any
outcome found 1 1
hop 1 link l a - b - d
domain d
rule 1 carry l a - b -
top a - 0 0
top b - 1 1
end
""")

MISMATCHED = Case([*TUNNEL_PORTS, "A ad f=gfp providesPort=c1", "D de f=ppp providesPort=c2", "L t"], """\
circuit 1
request c1 any c2 any
outcome none
top c1 - 0 0
seg s1 - s1 - 0 0
seg s1 - s2 - 0 0
end
""")

TWO = Case(["P a isSource=l1,l2", "P b isSink=l1,l2", "L l1 cost=3", "L l2 cost=2"], """\
circuit 1
request a any b any
outcome found 2 1
hop 1 link l2 a - b - d
domain d
rule 1 carry l2 a - b -
top a - 0 0
top b - 2 1
end
""")

TUNNEL = Case([*TUNNEL_PORTS, "A ad f=gfp providesPort=c1", "D de f=gfp providesPort=c2", "L t"], """\
circuit 1
request c1 any c2 any
outcome found 3 3
hop 1 adapt ad c1 - s1 - d
hop 2 link t s1 - s2 - d
hop 3 deadapt de s2 - c2 - d
domain d
rule 1 wrap ad c1 - s1 -
rule 2 carry t s1 - s2 -
rule 3 unwrap de s2 - c2 -
top c1 - 0 0
top c2 - 3 3
seg s1 - s1 - 0 0
seg s1 - s2 - 1 1
end
""")

LABELLED = Case([
    "PG c1 enc=eth labels=vlan:1-5", "P s1 enc=otn hasService=ad isSource=t", "P s2 enc=otn hasService=de isSink=t",
    "PG c2 enc=eth labels=vlan:3-9 isSource=k", "PG d enc=eth labels=vlan:3-9 isSink=k",
    "A ad f=gfp providesPort=c1", "D de f=gfp providesPort=c2", "L t", "L k cost=2"], """\
circuit 1
request c1 3 d any
outcome found 5 4
hop 1 adapt ad c1 3 s1 - d
hop 2 link t s1 - s2 - d
hop 3 deadapt de s2 - c2 3 d
hop 4 link k c2 3 d 3 d
domain d
rule 1 wrap ad c1 3 s1 -
rule 2 carry t s1 - s2 -
rule 3 unwrap de s2 - c2 3
rule 4 carry k c2 3 d 3
top c1 3 0 0
top c2 3 3 3
top d 3 5 4
seg s1 - s1 - 0 0
seg s1 - s2 - 1 1
end
""")

APART = Case(["P a", "P b"], """\
circuit 1
request a any b any
outcome none
top a - 0 0
end
""")

AGAIN = Case([
    "P a isAlias=a2 isSource=m", "P a2 isSink=l", "P s hasService=ad isSource=l", "P e hasService=de isSink=m", "P b",
    "A ad f=gfp providesPort=a", "D de f=gfp providesPort=b", "L l", "L m"], """\
circuit 1
request a any b any
outcome found 4 4
hop 1 adapt ad a - s - d
hop 2 link l s - a2 - d again 0
hop 3 link m a - e - d
hop 4 deadapt de e - b - d
domain d
rule 1 wrap ad a - s -
rule 2 carry l s - a2 -
rule 3 carry m a - e -
rule 4 unwrap de e - b -
top a - 0 0
top b - 4 4
top e - 1 1
seg s - a - 1 1
seg s - b - 5 5
seg s - e - 2 2
seg s - s - 0 0
end
""")

# what is shown, the case, lines of its document with what stands in their place, the verdict
ROWS = [
    ("valid", ONE, {}, "valid found 1 1"),
    ("10: a weight too high behind a hop", ONE, {8: ["top b - 2 1"]}, "not-valid 7 10"),
    ("1: no end", ONE, {9: []}, "not-valid 9 1"),
    ("9: no potentials", ONE, {7: [], 8: []}, "not-valid 3 9"),
    ("a weight below the least one is valid", MISMATCHED, {}, "valid none"),
    ("the cheaper of two links", TWO, {}, "valid found 2 1"),
    ("13: a dearer walk than the potentials tell", TWO,
     {3: ["outcome found 3 1", "hop 1 link l1 a - b - d"], 4: [], 6: ["rule 1 carry l1 a - b -"]}, "not-valid 3 13"),
    ("13: none, although TO is listed", TWO, {3: ["outcome none"], 4: [], 5: [], 6: []}, "not-valid 3 13"),
    ("13: past, although it is not", TWO, {3: ["outcome past"], 4: [], 5: [], 6: []}, "not-valid 3 13"),
    ("13: TO listed below the walk", TWO, {8: ["top b - 1 1"]}, "not-valid 3 13"),
    ("1: a line behind the end", TUNNEL, {15: ["end", "end"]}, "not-valid 16 1"),
    ("1: two spaces", TUNNEL, {4: ["hop  1 adapt ad c1 - s1 - d"]}, "not-valid 4 1"),
    ("1: a domain line twice", TUNNEL, {7: ["domain d", "domain d"]}, "not-valid 8 1"),
    ("1: potentials out of order", TUNNEL, {11: ["top c2 - 3 3", "top c1 - 0 0"], 12: []}, "not-valid 12 1"),
    ("1: a hop left out", TUNNEL, {5: []}, "not-valid 5 1"),
    ("1: hops without a circuit", TUNNEL, {3: ["outcome none"]}, "not-valid 4 1"),
    ("1: a zero in front of a label", TUNNEL, {2: ["request c1 01 c2 any"]}, "not-valid 2 1"),
    ("5: another cost", TUNNEL, {3: ["outcome found 2 3"]}, "not-valid 3 5"),
    ("3: another element", TUNNEL, {4: ["hop 1 adapt de c1 - s1 - d"]}, "not-valid 4 3"),
    ("6: a flag too many", TUNNEL, {5: ["hop 2 link t s1 - s2 - d again 0"]}, "not-valid 5 6"),
    ("7: another verb", TUNNEL, {8: ["rule 1 carry ad c1 - s1 -"]}, "not-valid 8 7"),
    ("13: TO listed below the walk", TUNNEL, {12: ["top c2 - 2 2"]}, "not-valid 3 13"),
    ("12: a weight too high behind a nest", TUNNEL, {12: ["top c2 - 4 4"]}, "not-valid 11 12"),
    ("11: no roots", TUNNEL, {13: [], 14: []}, "not-valid 11 11"),
    ("9: a root without its own line", TUNNEL, {13: []}, "not-valid 13 9"),
    ("10: under a root too", TUNNEL, {14: ["seg s1 - s2 - 2 2"]}, "not-valid 13 10"),
    ("8: no port", TUNNEL, {13: ["top c9 - 7 7", "seg s1 - s1 - 0 0"]}, "not-valid 13 8"),
    ("2: no port", TUNNEL, {2: ["request c1 any q any"]}, "not-valid 2 2"),
    ("a place that is not reached is valid", TUNNEL, {13: ["top s2 - 0 0", "seg s1 - s1 - 0 0"]}, "valid found 3 3"),
    ("a document is valid", LABELLED, {}, "valid found 5 4"),
    ("a pair too many is no fault, if what leads on from it is listed", LABELLED,
     {16: ["top d 4 7 7", "seg s1 - s1 - 0 0"]}, "valid found 5 4"),
    ("a root too many neither", LABELLED, {18: ["seg s2 - s2 - 0 0", "end"]}, "valid found 5 4"),
    ("1: no end", LABELLED, {18: []}, "not-valid 18 1"),
    ("1: a line behind the end", LABELLED, {18: ["end", "end"]}, "not-valid 19 1"),
    ("1: a number left out", LABELLED, {5: ["hop 3 link t s1 - s2 - d"]}, "not-valid 5 1"),
    ("1: two spaces", LABELLED, {8: ["domain  d"]}, "not-valid 8 1"),
    ("1: potentials out of order", LABELLED, {14: ["top d 3 5 4", "top c2 3 3 3"], 15: []}, "not-valid 15 1"),
    ("1: a potential twice", LABELLED, {16: ["top d 3 5 4", "seg s1 - s1 - 0 0"]}, "not-valid 16 1"),
    ("1: a zero in front", LABELLED, {15: ["top d 3 05 4"]}, "not-valid 15 1"),
    ("1: a cost of 2^64", LABELLED, {15: ["top d 3 18446744073709551616 4"]}, "not-valid 15 1"),
    ("1: more than 2^40 hops", LABELLED, {15: ["top d 3 5 1099511627777"]}, "not-valid 15 1"),
    ("1: a connection that swaps", LABELLED, {12: ["rule 4 connect k c2 3 d 4"]}, "not-valid 12 1"),
    ("1: a swap that does not", LABELLED, {12: ["rule 4 swap k c2 3 d 3"]}, "not-valid 12 1"),
    ("2: an unknown end", LABELLED, {2: ["request c1 3 e any"]}, "not-valid 2 2"),
    ("2: a label that is not there", LABELLED, {2: ["request c1 3 d 2"]}, "not-valid 2 2"),
    ("3: a hop to another port", LABELLED, {5: ["hop 2 link t s1 - s1 - d"]}, "not-valid 5 3"),
    ("3: a hop of another kind", LABELLED, {5: ["hop 2 cross t s1 - s2 - d"]}, "not-valid 5 3"),
    ("3: a hop of another domain", LABELLED, {5: ["hop 2 link t s1 - s2 - e"]}, "not-valid 5 3"),
    ("3: it begins with another label than the stated one", LABELLED, {4: ["hop 1 adapt ad c1 4 s1 - d"]}, "not-valid 4 3"),
    ("3: a frame taken off at another label", LABELLED, {6: ["hop 3 deadapt de s2 - c2 4 d"]}, "not-valid 6 3"),
    ("4: it ends before TO", LABELLED, {3: ["outcome found 3 3"], 7: [], 12: []}, "not-valid 3 4"),
    ("4: it ends at another label than the stated one", LABELLED, {2: ["request c1 3 d 4"]}, "not-valid 3 4"),
    ("5: another cost", LABELLED, {3: ["outcome found 6 4"]}, "not-valid 3 5"),
    ("5: another number of hops", LABELLED, {3: ["outcome found 5 5"]}, "not-valid 3 5"),
    ("6: a flag too many", LABELLED, {5: ["hop 2 link t s1 - s2 - d again 1"]}, "not-valid 5 6"),
    ("7: another rule", LABELLED, {10: ["rule 2 carry t s1 - s1 -"]}, "not-valid 10 7"),
    ("7: a rule too few", LABELLED, {12: []}, "not-valid 12 7"),
    ("7: a rule too many", LABELLED, {13: ["rule 5 carry k c2 3 d 3", "top c1 3 0 0"]}, "not-valid 13 7"),
    ("7: no rules", LABELLED, {8: [], 9: [], 10: [], 11: [], 12: []}, "not-valid 8 7"),
    ("8: a label that is not kept", LABELLED, {16: ["top d 5 7 7", "seg s1 - s1 - 0 0"]}, "not-valid 16 8"),
    ("8: a place that is not open", LABELLED, {16: ["top s1 4 7 7", "seg s1 - s1 - 0 0"]}, "not-valid 16 8"),
    ("8: a root that is not open", LABELLED, {18: ["seg s2 1 s2 - 0 0", "end"]}, "not-valid 18 8"),
    ("9: the start left out", LABELLED, {13: []}, "not-valid 3 9"),
    ("9: the start above zero", LABELLED, {13: ["top c1 3 0 1"]}, "not-valid 3 9"),
    ("9: a root without its own line", LABELLED, {16: []}, "not-valid 16 9"),
    ("10: a cost too high behind a hop", LABELLED, {15: ["top d 3 6 4"]}, "not-valid 14 10"),
    ("10: a number of hops too high", LABELLED, {15: ["top d 3 5 5"]}, "not-valid 14 10"),
    ("10: under a root too", LABELLED, {17: []}, "not-valid 16 10"),
    ("11: an adaptation whose root is not listed", LABELLED, {16: [], 17: []}, "not-valid 13 11"),
    ("12: a weight too high behind a nest", LABELLED, {14: ["top c2 3 4 3"]}, "not-valid 13 12"),
    ("12: too low within one", LABELLED, {17: ["seg s1 - s2 - 0 1"]}, "not-valid 13 12"),
    ("the least rule comes before the least line", LABELLED, {12: ["rule 4 carry k c2 3 c2 3"], 15: ["top d 3 6 4"]}, "not-valid 12 7"),
    ("without a walk too", APART, {}, "valid none"),
    ("where a place is passed again too", AGAIN, {}, "valid found 4 4"),
    ("6: a flag too few", AGAIN, {5: ["hop 2 link l s - a2 - d"]}, "not-valid 5 6"),
    ("6: a flag that names another place", AGAIN, {5: ["hop 2 link l s - a2 - d again 1"]}, "not-valid 5 6"),
    ("8: a port that is not the first of its class", AGAIN, {14: ["top a2 - 4 4", "top b - 4 4"]}, "not-valid 14 8"),
]

# lines of files with the fault that they have; a file is the domain `d`, or `e` for the second
FAULTS = [
    ([b""], "fault 1 0 json"),
    ([b"\xff"], "fault 1 0 json"),
    ([b"\xef\xbb\xbf{}"], "fault 1 0 json"),
    ([b"{} {}"], "fault 1 0 json"),
    ([b"NaN"], "fault 1 0 json"),
    ([b'{"x":1e999}'], "fault 1 0 json"),
    ([b'{"x":1' + b"0" * 400 + b"}"], "fault 1 0 json"),
    ([b'{"x":"\\ud800"}'], "fault 1 0 json"),
    ([b'{"x":"\\ud800","x":1}'], "fault 1 0 json"),
    ([b'{"\\udc00":1}'], "fault 1 0 json"),
    ([b'{"x":"\x01"}'], "fault 1 0 json"),
    ([b"[" * 128 + b"]" * 128], "fault 1 0 json"),
    ([b"[" * 127 + b"]" * 127], "fault 1 0 shape 1"),
    ([b'{"x":"\\ud83d\\ude00 \\\\ud800 [[["}'], "fault 1 0 shape 2"),
    ([b'{"format":2,"topology":"d","elements":[]}'], "fault 1 0 shape 2"),
    ([b'{"format":true,"topology":"d","elements":[]}'], "fault 1 0 shape 2"),
    ([b'{"format":1.0,"topology":"d","elements":[]}'], "fault 1 0 shape 2"),
    ([b'{"format":1,"topology":"d d","elements":[]}'], "fault 1 0 shape 3"),
    ([b'{"format":1,"topology":"d","encoding":"","elements":[]}'], "fault 1 0 shape 4"),
    ([b'{"format":1,"topology":"d","elements":null}'], "fault 1 0 shape 5"),
    ([b'{"format":1,"topology":"d","elements":[1]}'], "fault 1 1 shape 6"),
    ([b'{"format":1,"topology":"d","elements":[{"type":null}]}'], "fault 1 1 shape 7"),
    ([b'{"format":1,"topology":"d","elements":[{"type":"Port"}]}'], "fault 1 1 shape 8"),
    ([b'{"format":1,"topology":"d","elements":[{"type":"Port","id":"a","isSource":["l",1]}]}'], "fault 1 1 shape 9"),
    ([b'{"format":1,"topology":"d","elements":[{"type":"SwitchingService","id":"s","labelSwapping":0}]}'], "fault 1 1 shape 10"),
    ([b'{"format":1,"topology":"d","elements":[{"type":"AdaptationService","id":"s"}]}'], "fault 1 1 shape 11"),
    ([b'{"format":1,"topology":"d","elements":[{"type":"Link","id":"l","cost":-0}]}'], "fault 1 1 shape 12"),
    ([b'{"format":1,"topology":"d","elements":[{"type":"Link","id":"l","cost":18446744073709551616}]}'], "fault 1 1 shape 12"),
    ([b'{"format":1,"topology":"d","elements":[{"type":"Port","id":"a","hasLabel":{"labeltype":"v","value":4294967296}}]}'],
     "fault 1 1 shape 13"),
    ([b'{"format":1,"topology":"d","elements":[{"type":"PortGroup","id":"a","hasLabelGroup":{"labeltype":"v"}}]}'],
     "fault 1 1 shape 14"),
    ([b'{"format":1,"topology":"d","elements":[{"type":"Link","id":"l","existsDuring":{"start":9,"end":9}}]}'], "fault 1 1 shape 15"),
    ([b'{"format":1,"topology":"d","elements":[{"type":"Node","id":"n","existsDuring":[1,2]}]}'], "fault 1 1 shape 15"),
    ([topology("d", "PG p labels=v:")], "fault 1 1 label 0"),
    ([topology("d", "PG p labels=v:5-3")], "fault 1 1 label 1"),
    ([topology("d", "PG p labels=v:100,")], "fault 1 1 label 3"),
    ([topology("d", "PG p labels=v:01")], "fault 1 1 label 1"),
    ([topology("d", "PG p labels=v:4294967296")], "fault 1 1 label 9"),
    ([topology("d", "PG p labels=v:1,7-4294967296")], "fault 1 1 label 13"),
    ([topology("d", "P a"), topology("d", "P a")], "fault 2 0 duplicate-topology d 1"),
    ([topology("d", "P a"), topology("e", "P a")], "fault 2 1 duplicate-id a 1 1"),
    ([topology("d", "P a isSource=b", "P b")], "fault 1 1 wrong-kind isSource b"),
    ([topology("d", "P a enc=eth isAlias=b"), topology("e", "P b enc=otn")], "fault 2 1 alias-encoding a b"),
    ([topology("d", "P a label=vlan:1 isAlias=b", "P b")], "fault 1 2 alias-label a b"),
    ([topology("d", "P a enc=eth isSource=l", "P b enc=otn isSink=l", "L l")], "fault 1 3 link-layer l b"),
    ([topology("d", "P a label=vlan:1 isSource=l", "P b isSink=l", "L l")], "fault 1 3 link-label l b"),
    ([topology("d", "P a enc=eth", "P b enc=otn", "S s hasInboundPort=a hasOutboundPort=b")], "fault 1 3 switch-layer s b"),
    ([topology("d", "P a label=vlan:1", "P b", "S s hasInboundPort=a hasOutboundPort=b")], "fault 1 3 switch-label s b"),
]


def edited(document: str, edits: dict[int, list[str]]) -> bytes:
    lines = document.splitlines()
    return "".join(line + "\n" for number, old in enumerate(lines, 1) for line in edits.get(number, [old])).encode()


class Rows(unittest.TestCase):
    def test_documents(self) -> None:
        for shown, case, edits, verdict in ROWS:
            with self.subTest(shown):
                self.assertEqual(VERIFY.verdict(edited(case.document, edits), case.files())[1], verdict)

    def test_fronts_of_a_document(self) -> None:
        """Each front of a document fails rule 1 behind its last whole line."""
        whole = LABELLED.document.encode()
        for length in range(len(whole)):
            self.assertEqual(VERIFY.verdict(whole[:length], LABELLED.files()), (9, f"not-valid {whole[:length].count(10) + 1} 1"))

    def test_faults(self) -> None:
        for files, fault in FAULTS:
            with self.subTest(fault):
                self.assertEqual(VERIFY.verdict(b"", files), (3, fault))

    def test_table_of_formats(self) -> None:
        """The table of part 6 of docs/FORMATS.md, which changes one line of a document."""
        text = (ROOT / "docs" / "FORMATS.md").read_text()
        table = text[text.index("| change | first failing rule"):]
        rows = re.findall(r"^\| (.*?) \| (\w+) \| ?(\d*) ?\|$", table, re.MULTILINE)
        self.assertEqual(len(rows), 11)
        for change, rule, line in rows:
            with self.subTest(change):
                number = re.search(r"line (\d+)|the last line", change)
                new = re.search("`(.*)`", change)
                edits = {int(number[1] or 9): [new[1]] if new else []} if number else {}
                verdict = f"not-valid {line} {rule}" if line else "valid found 1 1"
                self.assertEqual(VERIFY.verdict(edited(ONE.document, edits), ONE.files())[1], verdict)


class Lists(FolderTest):
    def test_walks_of_a_list(self) -> None:
        contents = [(ROOT / "examples" / "backup.json").read_bytes()]
        lines = LIST.decode().split("\n")
        rows = [(3, "walk 1 461 1", "not-valid 3 5"), (4, "hop 1 link north stavanger - bergen - coast", "not-valid 4 3"),
                (4, "hop 1 link south oslo - stavanger - coast", "not-valid 3 4"), (5, "walk 2 761 2", "not-valid 5 5"),
                (7, "hop 2 link north oslo - bergen - coast", "not-valid 7 3"), (5, "walk 2 459 2", "not-valid 5 1"), (5, "walk 3 760 2", "not-valid 5 1"),
                (5, "walk 2 760 1", "not-valid 7 1"), (4, lines[3] + " again 0", "not-valid 4 1"), (2, "request oslo any narvik any", "not-valid 2 2"),
                (2, "request oslo 7 bergen any", "not-valid 2 2"), (8, "more long 760 65536", "not-valid 8 1"), (8, "end", "not-valid 8 1"),
                (9, "ends", "not-valid 9 1"), (8, "more none", "listed 2 none"), (8, "more long 760 65537", "listed 2 long 760 65537")]
        self.assertEqual(VERIFY.list_verdict(LIST, contents), (0, "listed 2 enough"))
        for at, text, due in rows:
            with self.subTest(text):
                data = "\n".join([*lines[:at - 1], text, *lines[at:]]).encode()
                self.assertEqual(VERIFY.list_verdict(data, contents), (9 if due.startswith("not") else 0, due))
        twice = "\n".join([*lines[:4], "walk 2 460 1", lines[3], *lines[7:]]).encode()
        self.assertEqual(VERIFY.list_verdict(twice, contents)[1], "not-valid 6 1")
        for count in range(len(LIST)):
            self.assertEqual(VERIFY.list_verdict(LIST[:count], contents), (9, f"not-valid {LIST[:count].count(10) + 1} 1"))
        self.assertEqual(VERIFY.list_verdict(LIST, [b""]), (3, "fault 1 0 json"))

    def test_labels_are_kept(self) -> None:
        file = topology("d", "PG a labels=v:5-9 isSource=l", "PG b labels=v:5-9 isSink=l", "L l")
        data = "circuits 1\nrequest a any b any\nwalk 1 1 1\nhop 1 link l a {0} b {0} d\nmore none\nend\n"
        for label, due in ((5, "listed 1 none"), (6, "not-valid 4 8")):
            self.assertEqual(VERIFY.list_verdict(data.format(label).encode(), [file])[1], due)

    def test_command(self) -> None:
        ran = run_tool("verify", "--list", "-", str(ROOT / "examples" / "backup.json"), data=LIST)
        self.assertEqual((ran.returncode, ran.stdout, ran.stderr), (0, b"listed 2 enough\n", b""))


class Command(FolderTest):
    def test_statuses(self) -> None:
        document = self.put("document", ONE.document.encode())
        file = self.put("one.json", ONE.files()[0])
        broken = self.put("broken.json", b"{}")
        for words, status, out in [
                ([document, file], 0, b"valid found 1 1\n"),
                ([file, file], 9, b"not-valid 1 1\n"),
                ([document, broken], 3, b"fault 1 0 shape 2\n"),
                ([document, file, "gone.json"], 2, b""),
                ([document], 2, b""),
                ([], 2, b""),
                ([document] + [file] * 65, 2, b""),
                ([str(self.folder), file], 2, b"")]:
            with self.subTest(words[-2:]):
                run = run_tool("verify", *words, folder=self.folder)
                self.assertEqual((run.returncode, run.stdout), (status, out))
                self.assertEqual(status == 2, run.stderr != b"")
        self.assertEqual(run_tool("verify", "-", file, data=ONE.document.encode()).stdout, b"valid found 1 1\n")
        self.assertEqual(run_tool("verify", "--help").returncode, 0)

    def test_any_bytes(self) -> None:
        rng = random.Random(1)
        for _ in range(300):
            data = rng.randbytes(rng.randint(0, 60))
            status, line = VERIFY.verdict(ONE.document[:rng.randint(0, 99)].encode() + data, ONE.files())
            self.assertEqual((status, line.endswith(" 1")), (9, True))
            self.assertEqual(VERIFY.verdict(b"", [data])[0], 3)

    def test_long_documents_take_linear_time(self) -> None:
        """Rings of ports: each has one potential."""
        def seconds(size: int, target: str, verdict: str) -> float:
            ports = [{"type": "Port", "id": f"p{n:05}", "isSource": [f"l{n}"], "isSink": [f"l{(n - 1) % size}"]} for n in range(size)]
            links = [{"type": "Link", "id": f"l{n}"} for n in range(size)]
            file = json.dumps({"format": 1, "topology": "d", "elements": ports + links}).encode()
            top = "".join(f"top p{n:05} - {n} {n}\n" for n in range(size))
            document = f"circuit 1\nrequest p00000 any {target} any\noutcome none\n{top}end\n".encode()
            start = time.process_time()
            self.assertEqual(VERIFY.verdict(document, [file])[1], verdict)
            return time.process_time() - start
        self.assertLess(seconds(8_000, "p00009", "not-valid 3 13"), 12 * seconds(2_000, "p00009", "not-valid 3 13") + 1)
        seconds(2_000, "gone", "not-valid 2 2")


# ---- random networks

WORDS = ["any", "-", "0", "1", "2", "past", "link", "cross", "adapt", "deadapt", "convert", "swap", "connect", "18446744073709551615"]


class Damage:
    """Changes a document here and there, mostly so that it still fits the layout."""

    def __init__(self, rng: random.Random, document: str):
        self.rng = rng
        self.lines = document.splitlines()
        self.words = WORDS + re.findall("[^ \n]+", document)

    def document(self) -> bytes:
        for _ in range(self.rng.choice([1, 1, 1, 2, 3])):
            self.rng.choice([self.weigh, self.weigh, self.weigh, self.drop, self.add, self.change_word, self.change_word, self.flag,
                             self.change_outcome, self.repeat, self.swap])()
        text = "".join(line + "\n" for line in self.lines)
        return text[:self.rng.randint(0, len(text))].encode() if self.rng.random() < 0.02 else text.encode()

    def numbers_of(self, *kinds: str) -> list[int]:
        return [number for number, line in enumerate(self.lines) if line.split(" ")[0] in kinds]

    def one_of(self, *kinds: str) -> list[int]:
        """The place of one line of these kinds, if there is any."""
        numbers = self.numbers_of(*kinds)
        return [self.rng.choice(numbers)] if numbers else []

    def weigh(self) -> None:
        for number in self.one_of("top", "seg"):
            *front, cost, hops = self.lines[number].split(" ")
            weight = (2**64, 0) if cost == "past" else (int(cost), int(hops)) if (cost + hops).isdigit() else (0, 0)
            cost, hops = (max(0, part + self.rng.choice([-1, 0, 1, -part])) for part in weight)
            self.lines[number] = " ".join([*front, *(["past", "-"] if cost >= 2**64 else [str(cost), str(hops)])])

    def drop(self) -> None:
        kinds = self.rng.choice([("top", "seg"), ("top", "seg"), ("rule", "domain"), ("hop", "end")])
        for number in self.one_of(*kinds):
            del self.lines[number]

    def add(self) -> None:
        """A potential more, of places that stand in the document, in its order."""
        ports = [word for word in self.words if re.fullmatch("[pxmy][0-9a-c]*", word)] or ["a"]
        places = [[self.rng.choice(ports), self.rng.choice(["-", "-", "0", "1", "3", "5"])] for _ in range(2)]
        weight = self.rng.choice([["0", "0"], ["past", "-"], ["9", "9"]])
        line = " ".join(self.rng.choice([["top", *places[0], *weight], ["seg", *places[0], *places[1], *weight]]))
        potentials = [self.lines[number] for number in self.numbers_of("top", "seg")]
        others = [line for line in self.lines if line not in potentials and line != "end"]
        self.lines = others + sorted({*potentials, line}, key=place_order) + ["end"]

    def change_word(self) -> None:
        number = self.rng.randrange(len(self.lines))
        words = self.lines[number].split(" ")
        words[self.rng.randrange(len(words))] = self.rng.choice(self.words)
        self.lines[number] = " ".join(words)

    def flag(self) -> None:
        for number in self.one_of("hop"):
            line, _, again = self.lines[number].partition(" again ")
            self.lines[number] = line if again and self.rng.random() < 0.5 else f"{line} again {self.rng.randint(0, 6)}"

    def change_outcome(self) -> None:
        if len(self.lines) > 3:
            self.lines[2] = "outcome " + self.rng.choice(["none", "past", "long 3 70000", "long 3 65536", "found 0 0", "found 3 3"])
            if self.lines[2].split(" ")[1] != "found":
                self.lines = [line for line in self.lines if line.split(" ")[0] not in ("hop", "domain", "rule")]

    def repeat(self) -> None:
        number = self.rng.randrange(len(self.lines))
        self.lines.insert(number, self.lines[number])

    def swap(self) -> None:
        number = self.rng.randrange(len(self.lines))
        self.lines[number - 1], self.lines[number] = self.lines[number], self.lines[number - 1]


def place_order(line: str) -> tuple:
    words = line.split(" ")[:-2]
    tags = [-1 if tag == "-" else int(tag) if tag.isdigit() else 0 for tag in words[2::2]]
    return words[0] == "seg", list(zip(words[1::2], tags))


def random_request(rng: random.Random, network: object, ids: list[str]) -> list[str]:
    """A request, mostly from one end of a tower of tunnels to the other."""
    ends = rng.choice(ids), rng.choice(ids)
    if "x1" in ids and rng.random() < 0.7:
        level = rng.choice([port[1] for port in ids if port[0] == "x"])
        ends = f"x{level}", f"y{level}"
    return [word for end in ends for word in (end, NETWORKS.random_wish(rng, network, end))]


def damaged_file(rng: random.Random, domain: dict) -> bytes:
    """A topology file with a member changed, or a byte."""
    domain = json.loads(json.dumps(domain))
    element = rng.choice(domain["elements"] or [domain])
    member = rng.choice(list(element))
    ids = [entry.get("id", "x") for entry in domain["elements"]]
    element[member] = rng.choice([
        None, True, 1, -1, 2**64, 1.5, "x", "a b", "", [], {}, "eth", "Port", "PortGroup", "Link", rng.choice(ids or ["x"]),
        [rng.choice(ids or ["x"])], [1], {"labeltype": "vlan", "value": 3}, {"labeltype": "vlan", "values": "1,5-3"},
        {"labeltype": "vlan", "values": "2-4"}, {"labeltype": "vlan", "values": ""}, {"labeltype": None, "value": 3}])
    if rng.random() < 0.2:
        domain[rng.choice(["format", "topology", "encoding", "elements"])] = rng.choice([None, 1, 2, "d0", "d1", "eth", {}, []])
    data = bytearray(json.dumps(domain).encode())
    if rng.random() < 0.1:
        data[rng.randrange(len(data))] = rng.choice(b'"{}[]:,0\\\xff')
    return bytes(data)


@needs_finder
class Random(FolderTest):
    """Documents and files made at random, over which the tool and the program have to agree."""

    def random_network(self, seed: int) -> tuple[random.Random, list[dict], list[str]]:
        """Files of a network, and what `find` has to be told; the files are written."""
        rng = random.Random(seed)
        domains, ids = NETWORKS.random_network(rng)
        request = random_request(rng, NETWORKS.Network(domains), ids)
        names = [self.put(f"{number}.json", json.dumps(domain).encode()) for number, domain in enumerate(domains)]
        return rng, domains, [*request, *names]

    def test_documents_of_the_program_are_valid(self) -> None:
        for seed in range(RANDOM_NETWORKS):
            _, domains, words = self.random_network(seed)
            document = run_finder("find", *words).stdout
            outcome = document.split(b"\n")[2].decode().removeprefix("outcome ")
            files = [json.dumps(domain).encode() for domain in domains]
            self.assertEqual(VERIFY.verdict(document, files), (0, f"valid {outcome}"), f"seed {seed}")

    def test_documents_of_the_examples_are_valid(self) -> None:
        """All requests of the examples, those that are shown by `route` too."""
        requests = set(re.findall(r"^\$ finder (?:find|route) ([^|\\\n]*[^|\\\n ])", (ROOT / "examples" / "README.md").read_text(), re.MULTILINE))
        self.assertTrue(requests)
        for words in map(str.split, requests):
            document = run_finder("find", *words, folder=ROOT / "examples").stdout
            files = [(ROOT / "examples" / name).read_bytes() for name in words[4:]]
            self.assertEqual(VERIFY.verdict(document, files)[0], 0, words)

    def test_damaged_documents(self) -> None:
        if self.judge(ONE.document.encode(), [self.put("one.json", ONE.files()[0])])[0] == 2:
            self.skipTest("the program has no check yet")
        for shown, case, edits, verdict in ROWS:
            document = edited(case.document, edits)
            self.assertEqual(self.judge(document, [self.put("row.json", case.files()[0])])[1], verdict, shown)
        with ThreadPoolExecutor() as pool:  # the program runs beside the tool
            for seed in range(RANDOM_NETWORKS):
                rng, domains, words = self.random_network(seed)
                text = run_finder("find", *words).stdout.decode()
                files = [json.dumps(domain).encode() for domain in domains]
                documents = [Damage(rng, text).document() for _ in range(DAMAGES_OF_EACH)]
                judged = pool.map(self.judge, documents, [words[4:]] * len(documents))
                for turn, (document, due) in enumerate(zip(documents, judged, strict=True)):
                    self.assertEqual(VERIFY.verdict(document, files), due, f"seed {seed}, {turn}:\n{document}")

    def judge(self, document: bytes, names: list[str]) -> tuple[int, str]:
        """The status and the line of the program."""
        run = run_finder("check", self.put(f"document-{threading.get_ident()}", document), *names)
        return run.returncode, run.stdout.decode().removesuffix("\n")

    def test_damaged_files(self) -> None:
        if run_finder("survey", self.put("one.json", ONE.files()[0])).returncode == 2:
            self.skipTest("the program has no survey yet")
        with ThreadPoolExecutor() as pool:  # the program runs beside the tool
            for seed in range(4 * RANDOM_NETWORKS):
                rng = random.Random(seed)
                domains, _ = NETWORKS.random_network(rng)
                place = rng.randrange(len(domains))
                files = [json.dumps(domain).encode() for domain in domains]
                files[place] = damaged_file(rng, domains[place])
                names = [self.put(f"{number}.json", data) for number, data in enumerate(files)]
                running = pool.submit(run_finder, "survey", *names)
                told = VERIFY.verdict(b"", files)
                run = running.result()
                due = (3, run.stdout.decode()[:-1]) if run.returncode == 3 else (9, "not-valid 1 1")
                self.assertEqual(told, due, f"seed {seed}")


if __name__ == "__main__":
    unittest.main()
