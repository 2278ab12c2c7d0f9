"""The words and statuses of finder, as the tables of FORMATS.md have them: the one table that other pages are made from."""
import re
from dataclasses import dataclass
from pathlib import Path

FORMATS = Path(__file__).resolve().parent.parent.parent / "docs" / "FORMATS.md"
_COMMAND = re.compile(r"^\| `([a-z-]+)((?: [A-Z]+(?:\.\.)?)*)` \| (.+?) \|$", re.MULTILINE)
_STATUS = re.compile(r"^\| (\d+) \| (.+?) \| ((?:[^|\\]|\\.)*)\|$", re.MULTILINE)
_PART = re.compile(r"^## 3\. The words$(.*?)^## ", re.MULTILINE | re.DOTALL)


@dataclass(frozen=True)
class Command:
    """A command: its name, the words behind it, and what it does."""

    name: str
    words: tuple[str, ...]
    does: str


@dataclass(frozen=True)
class Status:
    """An exit status: where it comes, and what is printed."""

    number: int
    comes: str
    prints: str


@dataclass(frozen=True)
class Table:
    commands: tuple[Command, ...]
    statuses: tuple[Status, ...]


def read_table(formats: str) -> Table:
    """The table of the text of FORMATS.md."""
    part = _PART.search(formats)
    if not part:
        raise ValueError("FORMATS.md has no part 3 on the words")
    commands = (Command(it[1], tuple(it[2].split()), it[3]) for it in _COMMAND.finditer(part[1]))
    statuses = (Status(int(it[1]), _plain(it[2]), _plain(it[3])) for it in _STATUS.finditer(part[1]))
    return Table(tuple(commands), tuple(statuses))


def table() -> Table:
    """The table of this checkout."""
    return read_table(FORMATS.read_text())


def _plain(cell: str) -> str:
    return cell.strip().replace("\\|", "|")
