"""The pictures of the examples are what tools/draw makes by the commands that examples/README.md shows."""
import os
import re
import shutil
import subprocess
import unittest
import xml.etree.ElementTree as ElementTree
from pathlib import Path

from common import ROOT, FolderTest, finder_path, needs_dot, needs_finder

EXAMPLES = ROOT / "examples"
COMMAND = re.compile(r"^\$ (finder .*? -o (pictures/[\w-]+\.svg))$", re.MULTILINE | re.DOTALL)
TITLE = "{http://www.w3.org/2000/svg}title"


def commands() -> list[tuple[str, str]]:
    """Each command that makes a picture, and the picture."""
    behind = (EXAMPLES / "README.md").read_text().partition("\n## The pictures\n")[2]
    return [(match[1], match[2]) for match in COMMAND.finditer(behind)]


def titles(picture: Path) -> list[str]:
    return [title.text or "" for title in ElementTree.parse(picture).iter(TITLE)]


class Pictures(FolderTest):
    def draw(self, command: str) -> None:
        """Runs a command in a copy of the examples, beside the tools and the program."""
        if not (self.folder / "examples").exists():
            shutil.copytree(EXAMPLES, self.folder / "examples")
            os.symlink(ROOT / "tools", self.folder / "tools")
            os.symlink(finder_path() or "", self.folder / "finder")
        environment = os.environ | {"PATH": f"{self.folder}:{os.environ['PATH']}"}
        subprocess.run(["bash", "-c", command], cwd=self.folder / "examples", env=environment, capture_output=True, check=True)

    @needs_finder
    def test_circuits_are_drawn_so(self) -> None:
        for command, name in commands():
            if " -t " not in command:
                with self.subTest(name):
                    self.draw(command)
                    self.assertEqual((self.folder / "examples" / name).read_bytes(), (EXAMPLES / name).read_bytes())

    @needs_finder
    @needs_dot
    def test_topologies_have_the_same_parts(self) -> None:
        for command, name in commands():
            if " -t " in command:
                with self.subTest(name):
                    self.draw(command)
                    self.assertEqual(titles(self.folder / "examples" / name), titles(EXAMPLES / name))

    def test_each_picture_has_its_command(self) -> None:
        made = [name for _, name in commands()]
        self.assertEqual(sorted(made), sorted(f"pictures/{path.name}" for path in (EXAMPLES / "pictures").iterdir()))
        self.assertEqual(sorted(made), sorted(re.findall(r"\]\((pictures/.*?)\)", (EXAMPLES / "README.md").read_text())))


if __name__ == "__main__":
    unittest.main()
