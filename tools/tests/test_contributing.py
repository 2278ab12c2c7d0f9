"""The files that CONTRIBUTING.md sends its reader to are there, and what it says of them by name stands in them."""
import re
import unittest
from pathlib import Path

from common import ROOT

PAGE = (ROOT / "CONTRIBUTING.md").read_text()
CODE = re.compile(r"`([^`\n]+)`")
PATH = re.compile(r"(?:crates|tools|docs|checks|prebuilt|completion|examples|\.ci)/[\w./-]*\w/?")
NAME = re.compile(r"[A-Za-z][\w-]*[_-][\w-]+|[A-Z][a-z]+[A-Z]\w+")


def rows_of_the_command() -> list[tuple[list[str], str]]:
    """The rows of the table of `survey`: the files, and what is said to stand there."""
    table = PAGE.partition("| step | file | what stands there of `survey` |\n")[2].partition("\n\n")[0]
    cells = [line.split(" | ") for line in table.splitlines()[1:]]
    return [(CODE.findall(row[1]), row[2]) for row in cells]


class ContributingTest(unittest.TestCase):
    def test_the_files_are_there(self) -> None:
        named = [code for code in CODE.findall(PAGE) if PATH.fullmatch(code)]
        self.assertGreater(len(named), 40)
        self.assertEqual([path for path in named if not (ROOT / path).exists()], [])

    def test_what_is_named_stands_in_its_file(self) -> None:
        rows = rows_of_the_command()
        self.assertGreater(len(rows), 15)
        for files, said in rows:
            text = "".join(path.read_text() for file in files for path in self.texts_of(file))
            for name in filter(NAME.fullmatch, CODE.findall(said)):
                with self.subTest(files=files, name=name):
                    self.assertIn(name, text)

    def texts_of(self, file: str) -> list[Path]:
        path = ROOT / file
        return [it for it in path.rglob("*") if it.suffix in (".antt", ".edit")] if path.is_dir() else [path]


if __name__ == "__main__":
    unittest.main()
