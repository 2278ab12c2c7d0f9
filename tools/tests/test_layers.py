"""The layers of the crates hold, and what ARCHITECTURE.md and its picture say of the crates is what crates.txt says."""
import re
import subprocess
import sys
import unittest
import xml.etree.ElementTree as ET

from common import ROOT

sys.path.insert(0, str(ROOT / "checks"))
import layers  # noqa: E402

CRATES = (ROOT / "crates.txt").read_text()
TABLE = re.compile(r"^\| crate \| what it is \| stands on \| kit crates \|\n\|[-|]+\|\n((?:\|.*\n)+)", re.MULTILINE)
CODE = re.compile(r"`([^`]+)`")
SMALL = "low: thiserror\n# a line\nmiddle: low thiserror\nhigh: middle low\n"


def names_in(cell: str) -> list[str]:
    return sorted(CODE.findall(cell))


def rows_of(page: str) -> list[list[str]]:
    """The cells of the table of crates."""
    table = TABLE.search(page)
    assert table, "ARCHITECTURE.md has no table of crates"
    return [re.split(r" *(?<!\\)\| *", line)[1:-1] for line in table[1].splitlines()]


class CratesTest(unittest.TestCase):
    def setUp(self) -> None:
        self.own, self.kit = layers.read_crates(CRATES)
        self.house = layers.house_of(self.own, layers.LAYERS)

    def test_no_crate_stands_on_a_layer_that_it_should_not_see(self) -> None:
        ran = subprocess.run([sys.executable, ROOT / "checks" / "layers.py"], capture_output=True, text=True, check=False)
        self.assertEqual((ran.returncode, ran.stderr), (0, ""))
        self.assertIn("\n    knuth_search: deriv_arena root_order segment_grammar\n", ran.stdout)

    def test_architecture_has_each_crate_once_with_what_it_stands_on(self) -> None:
        rows = rows_of((ROOT / "docs" / "ARCHITECTURE.md").read_text())
        self.assertEqual(sorted(name for row in rows for name in names_in(row[0])), sorted(self.own))
        for name, _, below, kit in rows:
            with self.subTest(name):
                self.assertEqual(names_in(below), sorted(self.house.direct[name.strip("`")]))
                self.assertLessEqual(set(names_in(kit)), set(self.kit[name.strip("`")]))

    def test_the_picture_is_of_these_crates(self) -> None:
        titles = [it.text or "" for it in ET.parse(layers.PICTURE).iter("{http://www.w3.org/2000/svg}title")]
        shown = {it for it in titles if it != "crates" and not it.startswith("cluster_")}
        due = {*self.own, *(f"{name}->{it}" for name, names in self.house.direct.items() for it in names)}
        self.assertEqual(shown, due, "call python3 checks/layers.py --draw, which makes docs/crates.svg anew")


class LayersTest(unittest.TestCase):
    def faults(self, crates: str, known: dict[tuple[str, str], str], **named: str) -> list[str]:
        return layers.faults_of(layers.read_crates(crates)[0], named, known)

    def test_what_follows_is_dropped(self) -> None:
        own, kit = layers.read_crates(SMALL)
        house = layers.house_of(own, {"all": "low middle high"})
        self.assertEqual(house.direct, {"low": [], "middle": ["low"], "high": ["middle"]})
        self.assertEqual(kit["middle"], ["thiserror"])
        self.assertEqual(layers.chain_to("high", house.direct), ["low", "middle", "high"])

    def test_faults(self) -> None:
        self.assertEqual(self.faults(SMALL, {}, one="low middle", two="high"), [])
        for said, known, named in [
            (["middle (one) stands on low (two)", "high (one) stands on low (two)"], {}, {"one": "middle high", "two": "low"}),
            ([], {("middle", "low"): "so", ("high", "low"): "so"}, {"one": "middle high", "two": "low"}),
            (["it is known that high stands on low, and it does not"], {("high", "low"): "so"}, {"one": "low", "two": "middle high"}),
            (["high is in no layer"], {}, {"one": "low middle"}),
            (["low is in 2 layers"], {}, {"one": "low middle high", "two": "low"}),
            (["the layers have other, which crates.txt has not"], {}, {"one": "low middle high other"}),
        ]:
            with self.subTest(named):
                self.assertEqual(self.faults(SMALL, known, **named), said)

    def test_a_circle_is_told(self) -> None:
        crates = "low:\na: low b\nb: low c\nc: low a\ntop: a low\n"
        self.assertEqual(self.faults(crates, {}, all="low a b c top"), ["a circle: a on b on c on a"])


if __name__ == "__main__":
    unittest.main()
