"""What the pages show is what happens: each transcript is run, and compared to the byte; links lead somewhere.

A transcript is a fenced block that begins with `$ `: commands behind `$ `, each with what a terminal shows of it, standard error
included. Where the words `Status N` follow the block, N is the status of its last command. A command that begins with `./` or
`tools/` runs at the top of the checkout, any other in examples/, where `finder` is the program. The commands of a page run one after
another, in a copy of the examples of its own. A fence such as ```json my.json makes the file my.json of what it shows. Where a table
has the columns words, prints and status, each row is run too: the first line that it has in code has to be printed.
"""
import os
import re
import shutil
import subprocess
import unittest
from dataclasses import dataclass
from pathlib import Path

from common import ROOT, FolderTest, finder_path, kept_files, needs_finder

PAGES = sorted({*ROOT.glob("*.md"), *ROOT.glob("docs/**/*.md"), *ROOT.glob("examples/**/*.md"), *ROOT.glob("prebuilt/*.md"), *ROOT.glob("tools/**/*.md")})
FENCE = re.compile(r"^```([^\n]*)\n(.*?)^```$", re.MULTILINE | re.DOTALL)
STATUS = re.compile(r"\s*Status (\d+)\b")
TABLE = re.compile(r"^\| words \| prints \| status \|\n\|[-|]+\|\n((?:\|.*\n)+)", re.MULTILINE)
ROW = re.compile(r"^\| `(.*?)` \| (.*) \| (\d+) \|$", re.MULTILINE)
CODE = re.compile(r"`([^`]+)`")
LINK = re.compile(r"\]\(([^)#\s]+)(?:#[^)]*)?\)|(?:src|href)=\"([^\"#]+)\"")
# Runs each command in one shell, and tells what it printed and its status.
SHELL = 'last=0; for command; do (exit $last); eval "$command" 2>&1; last=$?; printf "\\0%d\\0" $last; done'
SECONDS = 60


@dataclass
class Command:
    """A command of a page: all that it prints, or a line of that, and its status if the page has it."""

    line: int
    words: str
    prints: str = ""
    status: int | None = None
    is_row: bool = False


@dataclass
class Block:
    """What runs in one shell, or a file that the page makes."""

    start: int
    commands: list[Command]
    file: str = ""
    text: str = ""


def blocks_of(page: str) -> list[Block]:
    """The transcripts, files and tables of a page in their order."""
    found = []
    for fence in FENCE.finditer(page):
        line, (kind, text) = page.count("\n", 0, fence.start()) + 2, fence.groups()
        if " " in kind:
            found.append(Block(fence.start(), [], kind.split()[1], text))
        elif text.startswith("$ "):
            commands = commands_of(text, line)
            status = STATUS.match(page, fence.end())
            commands[-1].status = int(status[1]) if status else None
            found.append(Block(fence.start(), commands))
    for table in TABLE.finditer(page):
        for row in ROW.finditer(page, *table.span(1)):
            shown = CODE.search(row[2])
            command = Command(page.count("\n", 0, row.start()) + 1, f"finder {row[1]}", shown[1] if shown else "", int(row[3]), is_row=True)
            found.append(Block(row.start(), [command]))
    return sorted(found, key=lambda it: it.start)


def commands_of(text: str, line: int) -> list[Command]:
    """The commands of a transcript. A backslash at the end of a command's line leads to the next."""
    commands: list[Command] = []
    goes_on = False
    for number, shown in enumerate(text.splitlines(keepends=True), line):
        if goes_on:
            commands[-1].words += shown
        elif shown.startswith("$ "):
            commands.append(Command(number, shown[2:]))
        else:
            commands[-1].prints += shown
        goes_on = (goes_on or shown.startswith("$ ")) and shown.endswith("\\\n")
    return commands


def lacks(commands: list[Command]) -> list[str]:
    """The programs that a transcript calls, by itself or by tools/draw, and this machine lacks."""
    parts = [part.split() for it in commands for part in re.split(r"[|;&]+", it.words) if part.split()]
    called = [part[0] for part in parts] + ["dot" for part in parts if part[0].endswith("tools/draw") and lays_out(part)]
    return [it for it in called if it in ("jq", "dot", "man", "zsh", "chromium", "parallel") and not shutil.which(it)]


def lays_out(words: list[str]) -> bool:
    """Whether these words of tools/draw ask for the picture of a topology."""
    return not {"-a", "--answer"} & set(words) or bool({"-t", "--topology"} & set(words)) or words[-1].endswith(".html")


class PageTest(FolderTest):
    def setUp(self) -> None:
        super().setUp()
        for path in [*kept_files("examples"), *kept_files("docs")]:
            to = self.folder / path.relative_to(ROOT)
            to.parent.mkdir(parents=True, exist_ok=True)
            shutil.copyfile(path, to)
        for name in ("tools", "prebuilt"):
            os.symlink(ROOT / name, self.folder / name)
        program = finder_path()
        if program:
            os.symlink(program, self.folder / "finder")

    def run_block(self, page: Path, block: Block) -> None:
        if block.file:
            (self.folder / "examples" / block.file).write_text(block.text)
            return
        if lacking := lacks(block.commands):
            self.skipTest(f"{page.name}: {', '.join(lacking)} is not there")
        is_at_top = block.commands[0].words.startswith(("./", "tools/"))
        environment = os.environ | {"PATH": f"{self.folder}:{os.environ['PATH']}", "LC_ALL": "C.UTF-8"}
        words = ["bash", "-c", SHELL, "transcript", *[it.words for it in block.commands]]
        ran = subprocess.run(words, cwd=self.folder if is_at_top else self.folder / "examples", env=environment, capture_output=True, timeout=SECONDS, check=True)
        told = ran.stdout.decode().split("\0")[:-1]
        for command, printed, status in zip(block.commands, told[0::2], told[1::2], strict=True):
            self.compare(f"{page.relative_to(ROOT)}, line {command.line}: {command.words.strip()}", command, printed, int(status))

    def compare(self, where: str, command: Command, printed: str, status: int) -> None:
        if command.is_row:
            self.assertIn(f"{command.prints}\n", printed, where)
        else:
            self.assertEqual(printed, command.prints, where)
        if command.status is not None:
            self.assertEqual(status, command.status, where)

    def run_page(self, page: Path) -> None:
        for block in blocks_of(page.read_text()):
            self.run_block(page, block)


def tests_of(page: Path) -> type[unittest.TestCase]:
    """A test of one page."""

    @needs_finder
    def test_transcripts(self: PageTest) -> None:
        self.run_page(page)

    def test_links(self: PageTest) -> None:
        for found in LINK.finditer(page.read_text()):
            path = found[1] or found[2]
            if not path.startswith(("http:", "https:", "mailto:")):
                self.assertTrue((page.parent / path).exists(), f"{page.relative_to(ROOT)} leads to {path}, which is not there")

    name = "".join(it.capitalize() for it in re.split(r"\W+", str(page.relative_to(ROOT).with_suffix(""))))
    return type(f"{name}Page", (PageTest,), {"test_transcripts": test_transcripts, "test_links": test_links})


def load_tests(loader: unittest.TestLoader, tests: unittest.TestSuite, pattern: str | None) -> unittest.TestSuite:
    """A test class for each page."""
    return unittest.TestSuite([tests, *[loader.loadTestsFromTestCase(tests_of(page)) for page in PAGES]])


class ReadingTest(unittest.TestCase):
    def test_a_page_is_read_as_its_rules_say(self) -> None:
        page = "a\n\n```\n$ finder x \\\n  y\nout\n$ echo\n\n```\n\nStatus 3. b\n\n```json f.json\n{}\n```\n\n| words | prints | status |\n|---|---|---|\n| `find a` | `none`, and `b` | 1 |\n"
        transcript, file, row = blocks_of(page)
        self.assertEqual(transcript.commands, [Command(4, "finder x \\\n  y\n", "out\n"), Command(7, "echo\n", "\n", 3)])
        self.assertEqual((file.file, file.text), ("f.json", "{}\n"))
        self.assertEqual(row.commands, [Command(19, "finder find a", "none", 1, is_row=True)])
