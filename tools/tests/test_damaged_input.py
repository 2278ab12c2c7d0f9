"""Twenty seconds of damaged files and documents: checks/damaged_input.py with a fixed seed. By hand it runs as long as one likes."""
import subprocess
import sys
import unittest

from common import ROOT, FolderTest, finder_path, needs_finder

SECONDS = 20
SCRIPT = ROOT / "checks" / "damaged_input.py"

# a program that says what finder says, and always ends as if all were well
WRONG = """#!/bin/sh
"{program}" "$@"
exit 0
"""


def sent(program: str, *words: str) -> subprocess.CompletedProcess[str]:
    return subprocess.run([sys.executable, str(SCRIPT), program, *words], capture_output=True, text=True, check=False)


@needs_finder
class DamagedInput(FolderTest):
    def test_no_difference(self) -> None:
        ran = sent(str(finder_path()), "--seed", "1", "--seconds", str(SECONDS))
        self.assertEqual((ran.returncode, ran.stderr), (0, ""), ran.stdout)
        self.assertRegex(ran.stdout, r"\n[1-9]\d* inputs?, no difference; by status ")

    def test_a_difference_is_told(self) -> None:
        """With the seed that makes it again."""
        wrong = self.folder / "wrong"
        wrong.write_text(WRONG.format(program=finder_path()))
        wrong.chmod(0o755)
        ran = sent(str(wrong), "--seed", "1", "--count", "30")
        self.assertEqual(ran.returncode, 1, ran.stdout)
        seed = ran.stdout.partition("\nseed ")[2].partition(":")[0]
        again = sent(str(wrong), "--seed", seed, "--count", "1")
        self.assertIn(f"\nseed {seed}: ", again.stdout)
        self.assertIn("1 inputs, 1 difference; ", again.stdout)


if __name__ == "__main__":
    unittest.main()
