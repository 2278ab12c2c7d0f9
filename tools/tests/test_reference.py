"""The manual page and the completions are what the tables of FORMATS.md make, and the program knows the words of these tables."""
import re
import shutil
import subprocess
import tempfile
import unittest
from importlib.machinery import SourceFileLoader
from importlib.util import module_from_spec, spec_from_loader
from pathlib import Path

from common import ROOT, TOOLS, needs_finder, run_finder, run_tool

from finderlib.words import Command, read_table, table

ANSWERS = {"FROM": "a", "TO": "b", "LABEL": "any", "FILE..": "/nowhere/file", "ANSWER": "/nowhere/answer", "K": "1", "N": "1"}
# A call of the program in the code of a page.
CALL = re.compile(r"(?:`|^\$ |^    |\| )(?:\./)?finder ([a-z-]+) ", re.MULTILINE)
BASH = 'source "$1"; shift; COMP_WORDS=("$@"); COMP_CWORD=$(($# - 1)); _finder; printf "%s\\n" "${COMPREPLY[@]}"'
ZSH = '_describe() { print -l $known }; _files() { print files $* }; compadd() { print -l $* }; complete() { source $file }; ' \
    'file=$1; shift; words=("$@"); CURRENT=$#; complete'


def made() -> dict[str, str]:
    """What tools/reference makes, by path."""
    loader = SourceFileLoader("reference", str(TOOLS / "reference"))
    spec = spec_from_loader("reference", loader)
    assert spec
    module = module_from_spec(spec)
    loader.exec_module(module)
    return module.pages()


class ReferenceTest(unittest.TestCase):
    def test_what_stands_here_is_what_is_made(self) -> None:
        for path, text in made().items():
            with self.subTest(path):
                self.assertEqual((ROOT / path).read_text(), text, f"call tools/reference, which makes {path} anew")

    def test_help(self) -> None:
        self.assertEqual(run_tool("reference", "--help").returncode, 0)
        self.assertEqual(run_tool("reference", "more").returncode, 2)

    @unittest.skipUnless(shutil.which("groff"), "groff is not there")
    def test_the_manual_page_is_well_formed(self) -> None:
        ran = subprocess.run(["groff", "-man", "-Tutf8", "-P-cbou", "-ww", ROOT / "docs/finder.1"], capture_output=True, text=True, check=True)
        self.assertEqual(ran.stderr, "")
        for command in table().commands:
            self.assertIn(command.name, ran.stdout)


class TableTest(unittest.TestCase):
    def test_a_table_is_read(self) -> None:
        text = "## 3. The words\n\n| words | do |\n|---|---|\n| `a LABEL FILE..` | do it |\n\n| status | comes | printed |\n|---|---|---|\n| 0 | `a`: done | `x\\|y` |\n| 9 | not yet | |\n\n## 4. More\n"
        found = read_table(text)
        self.assertEqual(found.commands, (Command("a", ("LABEL", "FILE.."), "do it"),))
        self.assertEqual([(it.number, it.comes, it.prints) for it in found.statuses], [(0, "`a`: done", "`x|y`"), (9, "not yet", "")])
        self.assertRaises(ValueError, read_table, "")

    def test_statuses_are_numbered_without_a_gap(self) -> None:
        self.assertEqual([it.number for it in table().statuses], list(range(12)))

    @needs_finder
    def test_the_program_knows_the_commands_of_the_table_and_no_others(self) -> None:
        usage = next(it for it in table().statuses if it.number == 2).prints.strip("`")
        named = {name: words for part in usage.removeprefix("usage: ").split(" | ") for head, *words in [part.split()] for name in head.split("|")}
        known = {it.name: list(it.words) for it in table().commands}
        self.assertEqual({name: known.get(name) for name in named}, named)
        for name, words in known.items():
            with self.subTest(name):
                self.assertNotEqual(run_finder(name, *[ANSWERS[it] for it in words]).returncode, 2)
        self.assertEqual(run_finder().stdout.decode(), f"{usage}\n")


    def test_the_first_pages_name_no_other_commands(self) -> None:
        known = {it.name for it in table().commands}
        for page in ("README.md", "START.md"):
            named = CALL.findall((ROOT / page).read_text())
            self.assertGreater(len(named), 2, page)
            self.assertEqual({name for name in named if name not in known}, set(), page)


class CompletionTest(unittest.TestCase):
    def setUp(self) -> None:
        self.folder = Path(tempfile.mkdtemp(prefix="finder-tools-"))
        self.addCleanup(shutil.rmtree, self.folder)
        for name in ("net one.json", "net.txt"):
            (self.folder / name).write_text("")
        (self.folder / "nets").mkdir()

    def complete(self, shell: list[str], script: str, file: str, *words: str) -> list[str]:
        ran = subprocess.run([*shell, script, "complete", ROOT / "completion" / file, "finder", *words], cwd=self.folder, capture_output=True, text=True, check=True)
        self.assertEqual(ran.stderr, "")
        return ran.stdout.split("\n")[:-1]

    def test_bash(self) -> None:
        names = [it.name for it in table().commands]
        for words, found in {("",): names, ("su",): ["survey"], ("find", ""): [""], ("k-find", "2", "a", ""): ["any"], ("find", "a", ""): ["any"], ("find", "a", "1"): [""],
                             ("find", "a", "any", "b", "a"): ["any"], ("find", "a", "any", "b", "any", "n"): ["net one.json", "nets"],
                             ("survey", "net one.json", "nets"): ["nets"], ("nothing", ""): [""]}.items():
            with self.subTest(words):
                self.assertEqual(self.complete(["bash", "-c"], BASH, "finder.bash", *words), found)

    @unittest.skipUnless(shutil.which("zsh"), "zsh is not there")
    def test_zsh(self) -> None:
        names = [f"{it.name}:{it.does}" for it in table().commands]
        for words, found in {("",): names, ("find", ""): [], ("find", "a", ""): ["any"], ("route", "a", "any", "b", ""): ["any"],
                             ("find", "a", "any", "b", "any", "n"): ["files -g *.json"], ("survey", ""): ["files -g *.json"]}.items():
            with self.subTest(words):
                self.assertEqual(self.complete(["zsh", "-fc"], ZSH, "_finder", *words), found)
