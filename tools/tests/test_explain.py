"""tools/explain: each line that refuses, and what is said of it."""
import unittest

from common import FolderTest, run_tool, topology
from test_finderlib import LIST
from test_verify import FAULTS, LABELLED, ONE

from finderlib.commands import ToolFault
from finderlib.explanations import RULES, Explanation, explain
from finderlib.replies import FORMS, read_line

STRANGE = '"<a&b>\\\''

# the words, the line, and what the explanation has to say
REQUESTS = [
    (["find", "w", "any", "b", "any"], "request unknown-port w", "FROM of the request"),
    (["find", "w", "any", "w", "any"], "request unknown-port w", "FROM and TO of the request"),
    (["find", "l", "any", "b", "any"], "request unknown-port l", "is no port but a Link: file 1"),
    (["find", "a", "any", "x", "any"], "request unknown-port x", "which finder reads over"),
    (["find", "a", "7", "b", "any"], "request label-not-here a 7", "has no labels"),
    (["find", "a", "any", "p", "2"], "request label-not-here p 2", "these lack it: q (3-4)"),
    (["k-find", "3", "a", "any", "w", "any"], "request unknown-port w", "TO of the request"),
    (["find", "a", "any", STRANGE, "9"], f"request label-not-here {STRANGE} 9", "It has 1-5"),
]
USAGE = [
    ([], "There are no words"),
    (["--help"], "is no command"),
    (["find", "a", "any", "b"], "needs at least 5 words"),
    (["find", "a b", "any", "b", "any", "f"], "is no id"),
    (["find", "a", "07", "b", "any", "f"], "is no label"),
    (["route", "a", "any", "b", "4294967296", "f"], "is no label"),
    (["survey"] + ["f"] * 65, "64 is the most"),
    (["k-find", "2", "a", "any", "b", "f"], "needs at least 6 words"),
    (["k-find", "0", "a", "any", "b", "any", "f"], "from 1 to 100"),
    (["k-find", "2", "a", "any", "b", "x", "f"], "is no label"),
    (["drill", "0"], "from 1 to 4096"),
    (["survey", ""], "is empty"),
]


class Explain(FolderTest):
    def explain(self, line: str, words: list[str]) -> str:
        """All that is said of a line."""
        explanation = explain(read_line(f"{line}\n".encode()), words)
        self.assertIsInstance(explanation, Explanation)
        return " | ".join([explanation.where, explanation.wrong, explanation.remedy])

    def test_faults(self) -> None:
        words = set()
        for files, fault in FAULTS:
            names = [self.put(f"{number}.json", data) for number, data in enumerate(files, 1)]
            with self.subTest(fault):
                said = self.explain(fault, ["survey", *names])
                self.assertIn(f"file {fault.split(' ')[1]}, ", said)
                words.add((fault.split(" ")[3], fault.split(" ")[4:][0] if " shape " in fault else ""))
        self.assertEqual({word for word, _ in words}, {word for kind, word in FORMS if kind == "fault"})
        self.assertEqual(len([rule for word, rule in words if word == "shape"]), 15)

    def test_requests(self) -> None:
        file = self.put("f.json", topology(
            "d", "P a isSource=l", "P b isSink=l", "L l", "PG p labels=v:1-4 isAlias=q", "PG q labels=v:3-4", f"PG {STRANGE} labels=v:1-5")
            .replace(b'"elements": [', b'"elements": [{"type":"BidirectionalPort","id":"x"},'))
        for words, line, due in REQUESTS:
            with self.subTest(line):
                self.assertIn(due, self.explain(line, [*words, file]))

    def test_usage(self) -> None:
        for words, due in USAGE:
            with self.subTest(words[:3]):
                self.assertIn(due, self.explain("usage: find|route FROM LABEL TO LABEL FILE..", words))

    def test_reads(self) -> None:
        for line, due in [("read 0 absent", "the document, ans"), ("read 1 failed", "file 1, f"), ("read 2 too-big", "16,777,216")]:
            with self.subTest(line):
                self.assertIn(due, self.explain(line, ["check", "ans", "f", "g"]))

    def test_documents(self) -> None:
        document = self.put("ans", LABELLED.document.encode())
        for rule in RULES:
            said = self.explain(f"not-valid 5 {rule}", ["check", document, "f"])
            self.assertIn(f"line 5: hop 2 link t s1 - s2 - d | Rule {rule} fails", said)
        self.assertIn("behind its last line", self.explain("not-valid 19 1", ["check", document, "f"]))
        for word in ("no-hop", "label", "frame", "end", "number", "outcome", "request"):
            self.assertIn(document, self.explain(f"not-carried 2 {word}", ["replay", document, "f"]))
        listed = self.put("listed", LIST)
        for words, line in ((["check", listed, "f"], "not-valid 1 1"), (["replay", listed, "f"], "not-carried 0 text")):
            self.assertIn("a list of `k-find`", self.explain(line, words))
        broken = self.put("broken", b"circuit 2\n")
        self.assertIn("line 1 does not fit", self.explain("not-carried 0 text", ["replay", broken, "f"]))

    def test_every_line_that_refuses_is_explained(self) -> None:
        from finderlib.explanations import EXPLAINERS
        self.assertEqual(set(EXPLAINERS), {form for form in FORMS if form[0] not in ("valid", "carried")})

    def test_lines_that_do_not_fit(self) -> None:
        file = self.put("one.json", ONE.files()[0])
        for line, words in [("fault 1 0 json", ["survey", file]), ("fault 1 9 shape 9", ["survey", file]), ("fault 2 0 json", ["survey", file]),
                            ("request unknown-port a", ["find", "a", "any", "b", "any", file]), ("valid none", ["check", file, file]),
                            ("read 3 absent", ["survey", file]), ("not-valid 1 14", ["check", file, file]),
                            ("request unknown-port a", ["survey", file])]:
            with self.subTest(line), self.assertRaises(ToolFault):
                explain(read_line(f"{line}\n".encode()), words)

    def test_command(self) -> None:
        file = self.put("one.json", ONE.files()[0])
        words = ["find", "a", "any", "q", "any", file]
        run = run_tool("explain", *words, data=b"request unknown-port q\n")
        self.assertEqual((run.returncode, run.stdout.split(b"\n")[0], run.stderr), (0, b"request unknown-port q", b""))
        self.assertEqual(run_tool("explain", "--line", "request unknown-port q", *words).stdout, run.stdout)
        self.assertEqual(run_tool("explain", "--help").returncode, 0)
        for data in (b"", b"\xff\x00", b"circuit 1\n", LIST, b"request unknown-port q\n\n", b"fault 1 0 json\n"):
            run = run_tool("explain", *words, data=data)
            self.assertEqual((run.returncode, run.stdout), (2, b""))
            self.assertTrue(run.stderr.startswith(b"explain: "), run.stderr)


if __name__ == "__main__":
    unittest.main()
