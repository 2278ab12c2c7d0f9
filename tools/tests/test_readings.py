"""The rows of readings.txt on the program: small networks, each of which tells one reading of the rules."""
import json
import re
import unittest
from dataclasses import dataclass, field
from pathlib import Path

from common import FolderTest, needs_finder, run_finder, topology

TEXT = Path(__file__).resolve().parent / "readings.txt"
REPEATED = re.compile(r"(\w)\{(\d+)\}")


@dataclass
class Row:
    """What is shown, the words, the changed lines of the document, and what is due."""
    shown: str
    words: list[str]
    changed: dict[int, list[str]] = field(default_factory=dict)
    is_cut: bool = False
    status: int = -1
    printed: str = ""


@dataclass
class Readings:
    """The files by their names, and the rows over them."""
    files: dict[str, bytes] = field(default_factory=dict)
    rows: list[Row] = field(default_factory=list)


def network_of(lines: list[str]) -> bytes:
    """A topology file of elements in shorthand or in JSON."""
    told = dict(line.split(" ") for line in lines if line.startswith(("topology ", "encoding ")))
    elements = [REPEATED.sub(lambda it: it[1] * int(it[2]), line) for line in lines if not line.startswith(("topology ", "encoding "))]
    tree = json.loads(topology(told.get("topology", "d"), *(it for it in elements if not it.startswith("{")), encoding=told.get("encoding")))
    short = iter(tree["elements"])
    tree["elements"] = [json.loads(it) if it.startswith("{") else next(short) for it in elements]
    return json.dumps(tree).encode()


def row_of(shown: str, lines: list[str]) -> Row:
    row = Row(shown, lines[0].split(" "))
    for line in lines[1:]:
        word, _, rest = line.partition(" ")
        if word == "line":
            number, _, new = rest.partition(" ")
            row.changed[int(number)] = [new] if new else []
        elif word == "cut":
            row.is_cut = True
        elif word == "status":
            row.status = int(rest)
        elif word == ">":
            row.printed += rest + "\n"
        else:
            raise ValueError(f"no line of a row: {line!r}")
    return row


def read(text: str) -> Readings:
    """The blocks of the text. A file stands before the rows that name it."""
    readings = Readings()
    for block in text.split("\n\n"):
        first, *lines = [line.removeprefix("    ") for line in block.splitlines() if not line.startswith("#")] or [""]
        kind, _, name = first.partition(" ")
        if kind == "network":
            readings.files[name] = network_of(lines)
        elif kind == "document":
            readings.files[name] = "".join(line + "\n" for line in lines).encode()
        elif kind == "blank":
            readings.files[name] = b" " * int(lines[0])
        elif kind == "row":
            readings.rows.append(row_of(name, lines))
        elif first:
            raise ValueError(f"no block: {first!r}")
    return readings


def is_document(data: bytes) -> bool:
    return not data.startswith((b"{", b" "))


def content(row: Row, data: bytes) -> bytes:
    """A document with the changes of a row."""
    lines = data.decode().splitlines()
    text = "".join(line + "\n" for number, old in enumerate(lines, 1) for line in row.changed.get(number, [old]))
    return text.removesuffix("\n" if row.is_cut else "").encode()


@needs_finder
class ReadingsTest(FolderTest):
    def test_rows(self) -> None:
        readings = read(TEXT.read_text())
        self.assertEqual(len({row.shown for row in readings.rows}), 169)
        for row in readings.rows:
            with self.subTest(row.shown):
                for word in row.words:
                    data = readings.files.get(word)
                    if data is not None:
                        (self.folder / word).write_bytes(content(row, data) if is_document(data) else data)
                ran = run_finder(*row.words, folder=self.folder)
                self.assertEqual((ran.returncode, ran.stdout.decode()), (row.status, row.printed))


if __name__ == "__main__":
    unittest.main()
