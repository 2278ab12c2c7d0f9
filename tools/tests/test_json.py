"""Tests of tools/json: what finder prints, to JSON and back to the byte."""
import json
import resource
import shutil
import subprocess
import unittest

import common
from common import FolderTest, run_tool, topology
from test_finderlib import LIST, TUNNEL

from finderlib.as_json import JsonFault, from_json, json_lines, read_text, write_text
from finderlib.documents import DocumentFault

LINES = [b"fault 1 3 link-layer l\"<b\\ x\n", b"fault 2 0 json\n", b"request label-not-here a 7\n", b"read 2 absent\n",
         b"valid long 18446744073709551615 70000\n", b"usage: find|route FROM LABEL TO LABEL FILE.. | survey FILE..\n", b"not-carried 0 text\n"]
COUNTS = b"survey\ndomain west 7\ndomain e\"ast 5\nports 12\nclasses 11\nlinks 6\nservices 3\nopen-references 1\n"
DRILLS = [b"drill 10\ndomains 11 ports 32 links 8 services 40\noutcome found 5116 5116\ncheck valid\nreplay carried 5116 numbered\n",
          b"drill 60\ndomains 61 ports 182 links 8 services 240\noutcome long 5764607523034234876 1099511627776\ncheck valid\nreplay -\n",
          b"drill 70\ndomains 71 ports 212 links 8 services 280\noutcome past\ncheck valid\nreplay -\n"]
BARE_LISTS = [b"circuits 1\nrequest a 4294967295 b any\n%s\nend\n" % rest for rest in (
    b"more none", b"more past", b"more long 18446744073709551615 1099511627776", b"walk 1 0 0\nmore none", b"walk 1 0 0\nmore long 0 65537")]
STRANGE = TUNNEL.replace(b"c1", b"\"<c&1>\\").replace(b"d again 0", b"'; again 18446744073709551615")


class ThereAndBack(FolderTest):
    def test_to_the_byte(self) -> None:
        bare = b"circuit 1\nrequest a 4294967295 b any\noutcome %s\nend\n"
        for text in [TUNNEL, LIST, *BARE_LISTS, COUNTS, *DRILLS, *LINES, *(bare % word for word in (b"none", b"past", b"long 5 70000", b"found 0 0"))]:
            with self.subTest(text):
                there = "\n".join(json_lines(read_text(text))).encode()
                json.loads(there)
                self.assertEqual(write_text(from_json(there)), text)

    def test_any_ids_come_back(self) -> None:
        there = run_tool("json", data=STRANGE)
        self.assertEqual(json.loads(there.stdout)["request"]["from"], '"<c&1>\\')
        back = run_tool("json", "--back", data=there.stdout)
        self.assertEqual((back.returncode, back.stdout, back.stderr), (0, STRANGE, b""))

    def test_what_it_looks_like(self) -> None:
        tree = json.loads(run_tool("json", data=TUNNEL).stdout)
        self.assertEqual(tree["kind"], "answer")
        self.assertEqual(tree["request"], {"from": "c1", "fromLabel": None, "to": "c2", "toLabel": 105})
        self.assertEqual(tree["outcome"], {"word": "found", "cost": "3", "hops": 3})
        ends = {"number": 1, "element": "ad", "from": "c1", "fromLabel": 105, "to": "s1", "toLabel": None}
        self.assertEqual(tree["hops"][0], {**ends, "kind": "adapt", "domain": "d", "again": None})
        self.assertEqual(tree["domains"][0]["rules"][0], {**ends, "verb": "wrap"})
        self.assertEqual(tree["top"][1], {"port": "c2", "label": 105, "cost": "18446744073709551615", "hops": 1099511627776})
        self.assertEqual(tree["top"][2]["cost"], None)
        self.assertEqual(tree["seg"][1], {"root": "s1", "rootLabel": None, "port": "s2", "label": None, "cost": "1", "hops": 1})
        self.assertEqual(json.loads(run_tool("json", data=LINES[0]).stdout),
                         {"kind": "fault", "word": "link-layer", "file": 1, "element": 3, "link": "l\"<b\\", "port": "x"})
        self.assertEqual(json.loads(run_tool("json", data=COUNTS).stdout)["totals"]["open-references"], 1)

    def test_what_a_list_looks_like(self) -> None:
        tree = json.loads(run_tool("json", data=LIST).stdout)
        self.assertEqual((tree["kind"], tree["more"]), ("list", {"word": "enough", "cost": None, "hops": None}))
        self.assertEqual([(walk["number"], walk["cost"], len(walk["hops"])) for walk in tree["walks"]], [(1, "460", 1), (2, "760", 2)])
        self.assertEqual(tree["walks"][1]["hops"][1], {"number": 2, "kind": "link", "element": "north", "from": "stavanger", "fromLabel": None,
                                                       "to": "bergen", "toLabel": None, "domain": "coast"})

    def test_layout_of_the_json_does_not_matter(self) -> None:
        tree = json.loads(run_tool("json", data=TUNNEL).stdout)
        turned = json.dumps(dict(reversed(tree.items())), indent=3).encode()
        self.assertEqual(run_tool("json", "--back", data=turned).stdout, TUNNEL)

    def test_files(self) -> None:
        source, target, back = self.put("doc", TUNNEL), str(self.folder / "doc.json"), str(self.folder / "back")
        self.assertEqual(run_tool("json", source, "-o", target).returncode, 0)
        self.assertEqual(run_tool("json", "--back", target, "-o", back).returncode, 0)
        self.assertEqual((self.folder / "back").read_bytes(), TUNNEL)

    def test_a_long_document_in_linear_time(self) -> None:
        def seconds(count: int) -> float:
            lines = "".join(f"top p{at:07} - {at} {at}\n" for at in range(count))
            data = f"circuit 1\nrequest a any b any\noutcome none\n{lines}end\n".encode()
            start = resource.getrusage(resource.RUSAGE_CHILDREN).ru_utime
            there = run_tool("json", data=data)
            self.assertEqual(run_tool("json", "--back", data=there.stdout).stdout, data)
            return resource.getrusage(resource.RUSAGE_CHILDREN).ru_utime - start
        self.assertLess(seconds(24_000), 12 * seconds(6_000) + 2)


class Refused(FolderTest):
    def refused(self, *words: str, data: bytes = b"", says: str = "") -> None:
        ended = run_tool("json", *words, data=data, folder=self.folder)
        self.assertEqual((ended.returncode, ended.stdout), (2, b""), words)
        self.assertIn(says, ended.stderr.decode("ascii"))
        self.assertNotIn("Traceback", ended.stderr.decode())

    def test_texts(self) -> None:
        for data, line in ((b"", 1), (bytes(range(256)), 1), (TUNNEL[:-4], 16), (b"circuit\n", 1), (b"survey\n", 2),
                           (b"fault 1 2\n", 1), (b"\x1b[31m\n", 1), (COUNTS + COUNTS, 9), (TUNNEL + b"\n", 17), (DRILLS[0][:-1], 5),
                           (DRILLS[0] + b"\n", 6), (b"drill x\n", 1), (DRILLS[1].replace(b"ports", b"port"), 2),
                           (DRILLS[2].replace(b"past", b"long"), 3), (DRILLS[2].replace(b"valid", b"none"), 4)):
            with self.subTest(data), self.assertRaises(DocumentFault) as caught:
                read_text(data)
            self.assertEqual(caught.exception.line, line)
        self.refused(data=b"\x1b[31m\n", says="-: line 1 of the document does not fit")

    def test_lists(self) -> None:
        lines = LIST.decode().splitlines(keepends=True)
        first, second = lines[2:4], lines[4:7]
        rows = [(1, "circuits 2"), (1, "circuits"), (1, "circuits 1 "), (2, "request oslo any bergen"), (3, "walk 0 460 1"), (3, "walk 2 460 1"),
                (3, "walk 01 460 1"), (3, "walk 1 18446744073709551616 1"), (3, "walk 1 460 65537"), (3, "walk 1 460"), (3, "more"), (3, "end"),
                (4, "hop 2 link inland oslo - bergen - coast"), (4, "hop 1 link inland oslo - bergen - coast again 0"), (4, "walk 2 760 2"),
                (3, "walk 1 460 0\nhop 1 link inland oslo - bergen - coast"), (5, "walk 3 760 2"), (5, "walk 2 459 2"), (5, "walk 2 460 0"),
                (7, "hop 2 jump north stavanger - bergen - coast"), (7, "more enough"), (8, "more"), (8, "more long"), (8, "more long 760 65536"),
                (8, "more long 759 65537"), (8, "more long 760 1099511627777"), (8, "more found"), (8, "more enough 1 1"), (9, "END"), (9, "more none")]
        texts = [("".join([*lines[:line - 1], text + "\n", *lines[line:]]), line + text.count("\n")) for line, text in rows]
        texts += [("".join([*lines[:2], *first, first[0].replace("walk 1", "walk 2"), first[1], *lines[7:]]), 6),
                  ("".join([*lines[:2], "more enough\n", "end\n"]), 3), ("".join([*lines, "end\n"]), 10), (LIST.decode()[:-1], 9),
                  ("".join(lines[:8]), 9), ("".join([*lines[:2], *second, *lines[7:]]), 3), ("circuits 1\n", 2)]
        for text, line in texts:
            with self.subTest(text), self.assertRaises(DocumentFault) as caught:
                read_text(text.encode())
            self.assertEqual(caught.exception.line, line)
        many = "".join(f"walk {at} 1 1\nhop 1 link l{at} a - b - d\n" for at in range(1, 102))
        with self.assertRaises(DocumentFault) as caught:
            read_text(f"circuits 1\nrequest a any b any\n{many}more none\nend\n".encode())
        self.assertEqual(caught.exception.line, 203)

    def test_json_of_lists(self) -> None:
        tree = json.loads(run_tool("json", data=LIST).stdout)
        first, second = tree["walks"]
        for change in ({"walks": [second, first]}, {"walks": [first, {**first, "number": 2}]}, {"walks": [{**first, "cost": 460}]},
                       {"walks": [{**first, "number": 2}]}, {"walks": [{**first, "more": 1}]}, {"walks": []}, {"walks": {}}, {"more": None},
                       {"walks": [{**first, "hops": [{**first["hops"][0], "again": None}]}]}, {"more": {"word": "found", "cost": "1", "hops": 1}},
                       {"more": {"word": "long", "cost": "760", "hops": 65536}}, {"more": {"word": "long", "cost": None, "hops": None}},
                       {"outcome": None}):
            with self.subTest(change), self.assertRaises(JsonFault):
                from_json(json.dumps({**tree, **change}).encode())

    def test_json(self) -> None:
        tree = json.loads(run_tool("json", data=TUNNEL).stdout)
        rows = [b"", b"\xff", b"[]", b"5", b"NaN", b"[" * 100_000, b'{"kind":"answer"}', b'{"kind":"\\ud800"}', b'{"kind":[]}',
                b'{"kind":"request","word":"unknown-port","port":"a b"}', b'{"kind":"usage","word":"","words":"x\\ny"}',
                b'{"kind":"fault","word":"gone","file":1}']
        rows += [b'{"kind":"fault","word":"json","file":%s}' % number for number in (b"1.0", b"-1", b"true", b"null", b"9" * 5000, b'1,"more":2')]
        for member, value in (("outcome", {"word": "found", "cost": 3, "hops": 3}), ("outcome", {"word": "none", "cost": "3", "hops": 3}),
                              ("hops", {}), ("hops", [5]), ("request", None), ("top", tree["top"][::-1]), ("note", 1),
                              ("domains", [{"domain": "d", "rules": []}])):
            rows.append(json.dumps({**tree, member: value}).encode())
        for data in rows:
            with self.subTest(data[:80]), self.assertRaises(JsonFault):
                from_json(data)
        self.refused("--back", data=rows[0], says="no JSON")

    def test_files(self) -> None:
        self.refused("gone", says="gone: not read")
        self.refused(".", says="not read")
        self.refused("--back", "gone", says="not read")
        self.refused("--nonsense")
        self.refused("-o", "no/such/folder", data=TUNNEL, says="not written")
        self.put("out", b"old")
        self.refused("-o", "out", data=TUNNEL[:-1], says="line 16")
        self.assertEqual((self.folder / "out").read_bytes(), b"old")


@common.needs_finder
class AgainstFinder(FolderTest):
    def test_all_that_is_printed_comes_back(self) -> None:
        self.put("t.json", topology("d", "PG c1 enc=eth labels=vlan:100-110", "P s1 enc=otn hasService=ad isSource=t",
                                    "P s2 enc=otn hasService=de isSink=t", "PG c2 enc=eth labels=vlan:105-120", "A ad f=gfp providesPort=c1", "D de f=gfp providesPort=c2", "L t"))
        for words in ("find c1 any c2 any t.json", "route c1 any c2 any t.json", "find c2 any c1 any t.json", "survey t.json",
                      "survey t.json t.json", "find c1 5 c2 any t.json",
                      "find q any c2 any t.json", "survey gone.json", "survey .", "find", ""):
            with self.subTest(words):
                printed = common.run_finder(*words.split(), folder=self.folder).stdout
                there = "\n".join(json_lines(read_text(printed))).encode()
                self.assertEqual(write_text(from_json(there)), printed)


@unittest.skipUnless(shutil.which("jq"), "jq is not there")
class Jq(unittest.TestCase):
    def test_jq_reads_it(self) -> None:
        there = run_tool("json", data=TUNNEL).stdout
        ended = subprocess.run(["jq", "-r", ".hops[].element"], input=there, capture_output=True, check=True)
        self.assertEqual(ended.stdout, b"ad\nt\nde\n")


if __name__ == "__main__":
    unittest.main()
