"""What the tests of the tools share: where the tools and the built program are, a folder for each test, and topologies in shorthand.

Importing it lets tests import finderlib.
"""
import json
import os
import shutil
import subprocess
import sys
import tempfile
import unittest
from pathlib import Path

TOOLS = Path(__file__).resolve().parent.parent
ROOT = TOOLS.parent
sys.path.insert(0, str(TOOLS))

TYPES = {
    "P": "Port", "PG": "PortGroup", "L": "Link", "LG": "LinkGroup", "N": "Node", "S": "SwitchingService",
    "A": "AdaptationService", "D": "DeadaptationService", "C": "ConversionService",
}
MEMBERS = {"enc": "encoding", "f": "adaptationFunction"}


def finder_path() -> Path | None:
    """The program: that of the environment variable FINDER, else the one built in this checkout, else none."""
    named = os.environ.get("FINDER")
    path = Path(named) if named else ROOT / "crates" / "finder" / "out" / "finder"
    return path.resolve() if path.is_file() else None


needs_finder = unittest.skipUnless(finder_path(), "the program is not built, and FINDER names none")
needs_dot = unittest.skipUnless(shutil.which("dot"), "Graphviz's dot is not there")


def browser_path() -> str | None:
    """A Chromium, by any of its names, or none."""
    return next(filter(None, map(shutil.which, ("chromium", "chromium-browser", "google-chrome"))), None)


needs_browser = unittest.skipUnless(browser_path(), "no Chromium is there")


def kept_files(folder: str) -> list[Path]:
    """The files of a folder of the checkout, without those that were made in it, as by commands of the pages, where git can tell."""
    ran = subprocess.run(["git", "ls-files", "-z", folder], cwd=ROOT, capture_output=True, check=False) if shutil.which("git") else None
    names = ran.stdout.split(b"\0")[:-1] if ran and ran.returncode == 0 else []
    paths = [ROOT / os.fsdecode(name) for name in names] or sorted((ROOT / folder).rglob("*"))
    return [path for path in paths if path.is_file()]


def run_tool(name: str, *words: str, data: bytes = b"", folder: Path | None = None) -> subprocess.CompletedProcess[bytes]:
    """Runs a tool with words, and bytes for its standard input."""
    return subprocess.run([sys.executable, str(TOOLS / name), *words], input=data, capture_output=True, cwd=folder, check=False)


def run_finder(*words: str, folder: Path | None = None) -> subprocess.CompletedProcess[bytes]:
    """Runs the program, which has to be there."""
    return subprocess.run([str(finder_path()), *words], capture_output=True, cwd=folder, check=False)


class FolderTest(unittest.TestCase):
    """A test with a folder of its own, which is gone behind it."""

    def setUp(self) -> None:
        self.folder = Path(tempfile.mkdtemp(prefix="finder-tools-"))
        self.addCleanup(shutil.rmtree, self.folder, ignore_errors=True)

    def put(self, name: str, data: bytes) -> str:
        """Writes a file and gives its path. One of the name is taken away first: to cut it off may wait for the disk."""
        path = self.folder / name
        path.unlink(missing_ok=True)
        path.write_bytes(data)
        return str(path)


def topology(name: str, *elements: str, encoding: str | None = None) -> bytes:
    """A topology file from elements in shorthand, a line each: type, id, members.

    `PG p labels=vlan:100-200 isSource=l,m`, `P q enc=otn label=vlan:7`, `A ad f=gfp providesPort=p cost=3`, `S s swap`.
    """
    tree = {"format": 1, "topology": name, "elements": [_element(text.split()) for text in elements]}
    if encoding is not None:
        tree["encoding"] = encoding
    return json.dumps(tree).encode()


def _element(words: list[str]) -> dict[str, object]:
    element: dict[str, object] = {"type": TYPES[words[0]], "id": words[1]}
    for word in words[2:]:
        member, _, value = word.partition("=")
        if member == "swap":
            element["labelSwapping"] = True
        elif member in ("label", "labels"):
            labeltype, _, labels = value.partition(":")
            element["hasLabel" if member == "label" else "hasLabelGroup"] = (
                {"labeltype": labeltype, "value": int(labels)} if member == "label" else {"labeltype": labeltype, "values": labels})
        elif member == "cost":
            element["cost"] = int(value)
        elif member in MEMBERS:
            element[MEMBERS[member]] = value
        else:
            element[member] = value.split(",") if value else []
    return element
