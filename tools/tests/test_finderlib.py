"""Tests of the shared package: documents, replies, topology files, faults, and how tools fail."""
import json
import os
import random
import time
import unittest

import common
from common import FolderTest, topology

from finderlib.commands import ToolFault, printable, read_bytes, write_whole
from finderlib.documents import Answer, DocumentFault, Outcome, Place, Potential, Request, Weight, read_answer, write_answer
from finderlib.faults import accepted_network, load_network
from finderlib.replies import read_counts, read_line, write_counts, write_line
from finderlib.topologies import Network, TopologyFault, meet, read_domain, read_group_text, write_domain

TUNNEL = b"""circuit 1
request c1 any c2 105
outcome found 3 3
hop 1 adapt ad c1 105 s1 - d
hop 2 link t s1 - s2 - d
hop 3 deadapt de s2 - c2 105 d again 0
domain d
rule 1 wrap ad c1 105 s1 -
rule 2 carry t s1 - s2 -
rule 3 unwrap de s2 - c2 105
top c1 105 0 0
top c2 105 18446744073709551615 1099511627776
top c2 106 past -
seg s1 - s1 - 0 0
seg s1 - s2 - 1 1
end
"""


LIST = b"""circuits 1
request oslo any bergen any
walk 1 460 1
hop 1 link inland oslo - bergen - coast
walk 2 760 2
hop 1 link south oslo - stavanger - coast
hop 2 link north stavanger - bergen - coast
more enough
end
"""


def changed(line: int, text: str) -> bytes:
    """The document above with another line in a line's place."""
    lines = TUNNEL.decode().split("\n")
    lines[line - 1] = text
    return "\n".join(lines).encode()


class Documents(unittest.TestCase):
    def test_read_and_written_to_the_byte(self) -> None:
        answer = read_answer(TUNNEL)
        self.assertEqual(write_answer(answer), TUNNEL)
        self.assertEqual(answer.request, Request("c1", None, "c2", 105))
        self.assertEqual(answer.outcome, Outcome("found", Weight(3, 3)))
        self.assertEqual(answer.hops[2].target, Place("c2", 105))
        self.assertEqual(answer.hops[2].again, 0)
        self.assertEqual(answer.tops[2], Potential(None, Place("c2", 106), None))
        self.assertEqual(answer.segs[1].root, Place("s1", None))

    def test_refused_at_the_first_line_that_does_not_fit(self) -> None:
        rows = [
            (1, "circuit 2"), (1, " circuit 1"), (2, "request c1 any c2"), (2, "request c1 - c2 105"), (2, "request c1 007 c2 105"),
            (2, "request c1 4294967296 c2 any"), (2, "request c1 any " + "x" * 256 + " any"), (2, "request c\u00e9 any c2 any"),
            (3, "outcome found 01 1"), (3, "outcome found 18446744073709551616 3"), (3, "outcome found 3 1099511627777"),
            (3, "outcome found past -"), (3, "outcome none 1 1"), (4, "hop 2 adapt ad c1 105 s1 - d"), (5, "hop 2 jump t s1 - s2 - d"),
            (5, "hop 2 link t s1 - s2 - d "), (6, "hop 3 deadapt de s2 - c2 105 d again -1"), (8, "end"),
            (8, "rule 0 wrap ad c1 105 s1 -"), (9, "rule 1 carry t s1 - s2 -"), (9, "rule 2 swap t s1 7 s2 7"),
            (9, "rule 2 connect t s1 7 s2 8"), (12, "top c1 105 0 0"), (12, "top c1 - 0 0"), (13, "top c2 9 past -"), (13, "top c2 107 past"),
            (14, "domain d"), (15, "seg s1 - r 1 1 1"), (16, "END"), (15, "seg s1 - s1 - 1 1"), (16, "end\r"), (11, ""),
        ]
        for line, text in rows:
            with self.subTest(text), self.assertRaises(DocumentFault) as caught:
                read_answer(changed(line, text))
            self.assertEqual(caught.exception.line, line)

    def test_refused_at_the_ends(self) -> None:
        rows = [(b"", 1), (b"\n", 1), (TUNNEL + b"end\n", 17), (TUNNEL + b"x", 17), (TUNNEL[:-1], 16), (TUNNEL[:-4], 16), (bytes(range(256)), 1),
                (changed(3, "outcome none"), 4), (TUNNEL.replace(b"hop 3", b"hop \xb3"), 6)]
        for data, line in rows:
            with self.subTest(data), self.assertRaises(DocumentFault) as caught:
                read_answer(data)
            self.assertEqual(caught.exception.line, line)

    def test_a_text_spells_one_answer(self) -> None:
        rng = random.Random(7)
        read = 0
        for _ in range(3000):
            lines = TUNNEL.decode().split("\n")
            words = lines[rng.randrange(len(lines) - 1)].split(" ")
            other = rng.choice(TUNNEL.decode().split())
            words[rng.randrange(len(words))] = rng.choice([other, "-", "0", "7", "any", "\\", "é", "", "<&\"'>"])
            lines[rng.randrange(len(lines) - 1)] = " ".join(words)
            data = "\n".join(lines).encode()
            try:
                answer = read_answer(data)
            except DocumentFault:
                continue
            read += 1
            self.assertEqual(write_answer(answer), data)
        self.assertGreater(read, 10)

    def test_long_documents_in_linear_time(self) -> None:
        def seconds(count: int) -> float:
            lines = "".join(f"top p{at:07} - {at} {at}\n" for at in range(count))
            data = f"circuit 1\nrequest a any b any\noutcome none\n{lines}end\n".encode()
            start = time.process_time()
            answer = read_answer(data)
            self.assertEqual(len(write_answer(answer)), len(data))
            return time.process_time() - start
        self.assertLess(seconds(100_000), 12 * seconds(25_000) + 1)


class Replies(unittest.TestCase):
    def test_lines_come_back(self) -> None:
        rows = [
            ("fault 2 0 json", {"file": 2}), ("fault 1 3 shape 14", {"file": 1, "element": 3, "rule": 14}),
            ("fault 1 3 label 0", {"file": 1, "element": 3, "length": 0}),
            ("fault 2 0 duplicate-topology d 1", {"file": 2, "topology": "d", "firstFile": 1}),
            ("fault 2 4 duplicate-id {x} 1 2", {"file": 2, "element": 4, "id": "{x}", "firstFile": 1, "firstElement": 2}),
            ("fault 1 1 wrong-kind isSource b", {"file": 1, "element": 1, "member": "isSource", "target": "b"}),
            ("fault 1 2 alias-label a b", {"file": 1, "element": 2, "firstPort": "a", "port": "b"}),
            ("fault 1 3 link-layer l b", {"file": 1, "element": 3, "link": "l", "port": "b"}),
            ("fault 1 3 switch-label s b", {"file": 1, "element": 3, "service": "s", "port": "b"}),
            ("request unknown-port \"<q>", {"port": "\"<q>"}), ("request label-not-here a 7", {"port": "a", "label": 7}),
            ("read 0 absent", {"number": 0}), ("read 1 too-big", {"number": 1}), ("usage: find|route FROM ..", {"words": "find|route FROM .."}),
            ("valid found 1 1", {"cost": 1, "hops": 1}), ("valid none", {}), ("not-valid 7 10", {"line": 7, "rule": 10}),
            ("carried 6 numbered", {"hops": 6}), ("not-carried 2 no-hop", {"rule": 2}),
        ]
        for text, fields in rows:
            with self.subTest(text):
                line = read_line(text.encode() + b"\n")
                self.assertEqual(line.fields, fields)
                self.assertEqual(write_line(line), text.encode() + b"\n")

    def test_other_lines_are_refused(self) -> None:
        for text in ("", "\n", "fault 1 0 json", "fault 1 1 json\n", "fault 1 1 shape x\n", "read 1 gone\n", "request unknown-port a b\n",
                     "fault 1 1 wrong-kind isPort b\n", "read 18446744073709551616 absent\n", "read 1 absent\nread 2 absent\n"):
            with self.subTest(text), self.assertRaises(DocumentFault):
                read_line(text.encode())

    def test_counts_come_back(self) -> None:
        data = b"survey\ndomain west 7\ndomain east 5\nports 12\nclasses 11\nlinks 6\nservices 3\nopen-references 1\n"
        counts = read_counts(data)
        self.assertEqual(counts.domains, [("west", 7), ("east", 5)])
        self.assertEqual(write_counts(counts), data)
        for line, bad in ((1, b"survey 1\n"), (2, b"survey\nports 1\n"), (9, data + b"x"), (9, data + b"\n"), (8, data[:-18])):
            with self.subTest(bad), self.assertRaises(DocumentFault) as caught:
                read_counts(bad)
            self.assertEqual(caught.exception.line, line)


class Topologies(unittest.TestCase):
    def test_group_texts(self) -> None:
        rows = [("300,100-200,150-250", ((100, 250), (300, 300)), None), ("0", ((0, 0),), None), ("1,2,3-4", ((1, 4),), None),
                ("4294967295", ((4294967295, 4294967295),), None), ("", (), 0), ("5-3", (), 1), ("100,", (), 3), ("01", (), 1),
                ("4294967296", (), 9), ("1-", (), 1), ("7-42949672960", (), 11), (" 1", (), 0), ("1, 2", (), 1), ("1-2-3", (), 3)]
        for text, ranges, length in rows:
            with self.subTest(text):
                self.assertEqual(read_group_text(text), (ranges, length))

    def test_sets_meet(self) -> None:
        self.assertEqual(meet(((100, 110), (120, 130)), ((105, 121), (130, 140))), ((105, 110), (120, 121), (130, 130)))
        self.assertEqual(meet(((7, 7),), ((8, 8),)), ())

    def test_members_and_defaults(self) -> None:
        data = topology("d", "PG p labels=vlan:5,1-3 isSource=l,l,m", "L l", "S s swap cost=0 hasInboundPort=", "A a f=gfp providesPort=p",
                        encoding="eth")
        domain = read_domain(data)
        port, link, switch, adaptation = domain.elements
        self.assertEqual((domain.id, domain.encoding), ("d", "eth"))
        self.assertEqual(port.targets("isSource"), ("l", "m"))
        self.assertTrue(2 in port.labels and 4 not in port.labels and 5 in port.labels and 6 not in port.labels and 0 not in port.labels)
        self.assertEqual((link.cost, link.encoding, switch.cost, switch.swapping, adaptation.function), (1, None, 0, True, "gfp"))
        self.assertEqual(switch.relations, {"hasInboundPort": ()})

    def test_written_as_finder_writes(self) -> None:
        data = (b'{"elements":[{"hasLabelGroup":{"labeltype":"v","values":"1-3,5"},"id":"p","isSource":["l"],"type":"PortGroup"},'
                b'{"cost":1,"hasInboundPort":[],"id":"s","labelSwapping":true,"type":"SwitchingService"},'
                b'{"cost":7,"hasLabel":{"labeltype":"v","value":5},"id":"l","type":"Link"}],"encoding":"eth","format":1,"topology":"d"}')
        self.assertEqual(write_domain(read_domain(data)), data)

    def test_unread_elements_keep_their_numbers(self) -> None:
        data = json.dumps({"format": 1, "topology": "d", "elements": [{"type": "Location", "id": 5}, {"type": "Port", "id": "p"}]}).encode()
        self.assertEqual([(element.id, element.number) for element in read_domain(data).elements], [("p", 2)])

    def test_faults(self) -> None:
        def one(*members: str) -> bytes:
            return b'{"format":1,"topology":"d","elements":[%s]}' % ",".join(members).encode()
        port = '{"type":"Port","id":"p"%s}'
        rows = [
            ([b""], "fault 1 0 json"), ([b"\xff"], "fault 1 0 json"), ([b"\xef\xbb\xbf{}"], "fault 1 0 json"), ([b"{} x"], "fault 1 0 json"),
            ([b"[" * 100_000], "fault 1 0 json"), ([b"[" * 128 + b"]" * 128], "fault 1 0 json"), ([b"[" * 127 + b"]" * 127], "fault 1 0 shape 1"),
            ([b'{"x":1e999}'], "fault 1 0 json"), ([b'{"x":' + b"9" * 5000 + b"}"], "fault 1 0 json"), ([b'{"x":NaN}'], "fault 1 0 json"),
            ([b'{"x":"\\ud800"}'], "fault 1 0 json"), ([b'{"format":1.0}'], "fault 1 0 shape 2"), ([b'{"format":true}'], "fault 1 0 shape 2"),
            ([b'{"format":1,"topology":"a b"}'], "fault 1 0 shape 3"), ([b'{"format":1,"topology":"d","encoding":5}'], "fault 1 0 shape 4"),
            ([b'{"format":1,"topology":"d"}'], "fault 1 0 shape 5"), ([one("5")], "fault 1 1 shape 6"), ([one("{}")], "fault 1 1 shape 7"),
            ([one('{"type":"Port","id":""}')], "fault 1 1 shape 8"), ([one(port % ',"isAlias":"q"')], "fault 1 1 shape 9"),
            ([one('{"type":"SwitchingService","id":"s","labelSwapping":1}')], "fault 1 1 shape 10"),
            ([one('{"type":"AdaptationService","id":"a"}')], "fault 1 1 shape 11"),
            ([one('{"type":"Link","id":"l","cost":-0}')], "fault 1 1 shape 12"),
            ([one('{"type":"Link","id":"l","cost":18446744073709551616}')], "fault 1 1 shape 12"),
            ([one(port % ',"hasLabel":{"labeltype":"v","value":4294967296}')], "fault 1 1 shape 13"),
            ([one('{"type":"PortGroup","id":"p","hasLabelGroup":{"labeltype":"v"}}')], "fault 1 1 shape 14"),
            ([one('{"type":"Link","id":"l","existsDuring":{"start":9,"end":9}}')], "fault 1 1 shape 15"),
            ([one('{"type":"Node","id":"n","existsDuring":{"start":1.5}}')], "fault 1 1 shape 15"),
            ([one('{"type":"PortGroup","id":"p","hasLabelGroup":{"labeltype":"v","values":"5-3"}}')], "fault 1 1 label 1"),
            ([topology("d"), topology("d")], "fault 2 0 duplicate-topology d 1"),
            ([topology("d", "P a"), topology("e", "P b", "L a")], "fault 2 2 duplicate-id a 1 1"),
            ([topology("d", "P a isSource=b", "P b")], "fault 1 1 wrong-kind isSource b"),
            ([topology("d", "N n hasService=a", "P p hasService=s", "A a f=f", "S s")], "fault 1 2 wrong-kind hasService s"),
            ([topology("d", "P a enc=eth isAlias=b"), topology("e", "P b enc=otn")], "fault 2 1 alias-encoding a b"),
            ([topology("d", "P a label=vlan:1 isAlias=b", "P b")], "fault 1 2 alias-label a b"),
            ([topology("d", "P a enc=eth isSource=l", "P b enc=otn isSink=l", "L l")], "fault 1 3 link-layer l b"),
            ([topology("d", "P a label=vlan:1 isSource=l", "P b isSink=l", "L l")], "fault 1 3 link-label l b"),
            ([topology("d", "P a enc=eth", "P b enc=otn", "S s hasInboundPort=a hasOutboundPort=b")], "fault 1 3 switch-layer s b"),
            ([topology("d", "P a label=vlan:1", "P b", "S s hasInboundPort=a hasOutboundPort=b")], "fault 1 3 switch-label s b"),
        ]
        for contents, line in rows:
            with self.subTest(line=line, contents=contents[0][:60]), self.assertRaises(TopologyFault) as caught:
                accepted_network(contents)
            self.assertEqual(str(caught.exception), line)

    def test_networks(self) -> None:
        network = accepted_network([
            topology("d", "PG a labels=v:1-9 isSource=l hasService=ad", "P c enc=otn", "L l", "S s enc=eth",
                     "N n hasInboundPort=a,c hasOutboundPort=b hasService=s", "A ad f=f providesPort=c,gone", encoding="eth"),
            topology("e", "PG b labels=v:5-20 isAlias=x isSink=l", "PG x labels=v:7-30 isAlias=a", encoding="eth")])
        self.assertEqual(network.class_of, {"a": "a", "b": "a", "x": "a", "c": "c"})
        self.assertEqual(network.labels_of["a"].ranges, ((7, 9),))
        self.assertEqual([port.id for port in network.ports_of(network.elements["s"], "hasInboundPort")], ["a"])
        self.assertEqual([port.id for port in network.servers("ad")], ["a"])
        self.assertEqual([port.id for port in network.senders("l") + network.takers("l")], ["a", "b"])
        self.assertEqual([(element.id, *named) for element, *named in network.open_references()], [("ad", "providesPort", "gone")])
        self.assertEqual(network.domain_of(network.elements["b"]), "e")

    def test_long_alias_chains_take_linear_time(self) -> None:
        def seconds(count: int) -> float:
            domain = read_domain(topology("d", *(f"P p{at} isAlias=p{at + 1}" for at in range(count))))
            start = time.process_time()
            self.assertEqual(len(Network([domain]).members_of), 1)
            return time.process_time() - start
        self.assertLess(seconds(40_000), 12 * seconds(10_000) + 1)


@common.needs_finder
class AgainstFinder(FolderTest):
    def test_the_same_faults_and_counts(self) -> None:
        contents = [b"", b"\xff{}", b"[" * 128, b'{"a":1e400}', b'{"a":"\\ud83d"}',
                    b'{"format":1,"topology":"d","elements":[{"type":"Link","id":"l","cost":-0}]}',
                    topology("d", "P a isSource=l", "P b isSink=l,gone", "L l"), topology("d", "PG p labels=v:7-42949672960"),
                    topology("d", "PG p labels=v:10-9,"), topology("d", "PG p labels=v:3,x")]
        for data in contents:
            path = self.put("t.json", data)
            printed = common.run_finder("survey", path)
            with self.subTest(data[:60]):
                try:
                    network = accepted_network([data])
                except TopologyFault as fault:
                    self.assertEqual((printed.stdout.decode(), printed.returncode), (f"{fault}\n", 3))
                    continue
                counts = read_counts(printed.stdout)
                self.assertEqual(counts.totals["open-references"], len(list(network.open_references())))
                self.assertEqual(counts.totals["classes"], len(network.members_of))


class Commands(FolderTest):
    def test_files_appear_whole_or_not_at_all(self) -> None:
        write_whole(str(self.folder / "out"), b"x")
        self.assertEqual((self.folder / "out").read_bytes(), b"x")
        for path in (str(self.folder / "no" / "out"), str(self.folder), "a\0b"):
            with self.subTest(path), self.assertRaises(ToolFault):
                write_whole(path, b"x")
        self.assertEqual([path.name for path in self.folder.iterdir()], ["out"])

    def test_only_files_are_renamed_over(self) -> None:
        """A pipe and a link stay what they are; a folder is refused."""
        pipe, target, link = (self.folder / name for name in ("pipe", "target", "link"))
        os.mkfifo(pipe)
        reader = os.open(pipe, os.O_RDONLY | os.O_NONBLOCK)
        self.addCleanup(os.close, reader)
        write_whole(str(pipe), b"through")
        self.assertEqual((os.read(reader, 99), pipe.is_fifo()), (b"through", True))
        link.symlink_to(target)
        for data in (b"one", b"two"):
            write_whole(str(link), data)
            self.assertEqual((link.is_symlink(), target.read_bytes()), (True, data))
        with self.assertRaises(ToolFault):
            write_whole(str(self.folder), b"x")

    def test_files_that_are_not_read(self) -> None:
        path = self.put("f", b"12345")
        self.assertEqual(read_bytes(path, 5), b"12345")
        for bad, limit in ((path, 4), (str(self.folder / "gone"), 9), (str(self.folder), 9), ("a\0b", 9)):
            with self.subTest(bad), self.assertRaises(ToolFault):
                read_bytes(bad, limit)
        with self.assertRaises(ToolFault):
            load_network([])

    def test_messages_are_printable(self) -> None:
        self.assertEqual(printable("a\x1b[31m\n\u00e9'"), "a\\x1b[31m\\n\\xe9'")


if __name__ == "__main__":
    unittest.main()
