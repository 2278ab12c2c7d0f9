"""What the program does at its edges: words of any bytes, memory for the words, files of the system, and standard output."""
import os
import resource
import subprocess
import unittest

from common import FolderTest, finder_path, needs_finder, run_finder, topology

USAGE = b"usage: find|route FROM LABEL TO LABEL FILE.. | check|replay ANSWER FILE.. | survey FILE.. | drill N\n"
COUNTS = b"survey\ndomain d 3\nports 2\nclasses 2\nlinks 1\nservices 0\nopen-references 0\n"
LITTLE_MEMORY = 16 << 20
ENOUGH_MEMORY = 256 << 20


def run_in_memory(room: int, words: list[str]) -> subprocess.CompletedProcess[bytes]:
    def limit() -> None:
        resource.setrlimit(resource.RLIMIT_AS, (room, room))

    return subprocess.run([str(finder_path()), *words], capture_output=True, preexec_fn=limit, check=False)


@needs_finder
class WordsTest(unittest.TestCase):
    def test_a_word_that_is_no_utf_8_spells_no_command(self) -> None:
        for words in ([b"\xff"], [b"survey", b"\xff.json"], [b"drill", b"3", b"\xc3"]):
            with self.subTest(words=words):
                ran = subprocess.run([str(finder_path()), *words], capture_output=True, check=False)
                self.assertEqual((ran.returncode, ran.stdout), (2, USAGE))

    def test_no_memory_for_the_words(self) -> None:
        """Of 150,000 words, the texts and the list of them need more than this; one word does not."""
        ran = run_in_memory(LITTLE_MEMORY, ["drill"])
        self.assertEqual((ran.returncode, ran.stdout), (2, USAGE))
        ran = run_in_memory(LITTLE_MEMORY, ["a"] * 150_000)
        self.assertEqual((ran.returncode, ran.stdout), (10, b""))
        ran = run_finder(*["a"] * 150_000)
        self.assertEqual((ran.returncode, ran.stdout), (2, USAGE))


@needs_finder
class EdgeTest(FolderTest):
    def setUp(self) -> None:
        super().setUp()
        self.file = self.put("net.json", topology("d", "P a isSource=l", "P b isSink=l", "L l"))

    def test_files(self) -> None:
        (self.folder / "folder").mkdir()
        rows = [
            ("net.json", 0, COUNTS), ("gone.json", 5, b"read 1 absent\n"), ("folder", 5, b"read 1 failed\n"),
            ("net.json/below", 5, b"read 1 failed\n"),
        ]
        for name, status, printed in rows:
            with self.subTest(name=name):
                ran = run_finder("survey", name, folder=self.folder)
                self.assertEqual((ran.returncode, ran.stdout), (status, printed))

    @unittest.skipUnless(os.path.exists("/dev/zero"), "there is no /dev/zero")
    def test_a_file_without_end_is_read_up_to_its_limit(self) -> None:
        ran = run_in_memory(ENOUGH_MEMORY, ["survey", "/dev/zero"])
        self.assertEqual((ran.returncode, ran.stdout), (11, b"read 1 too-big\n"))

    def survey_into(self, out: int) -> int:
        return subprocess.run([str(finder_path()), "survey", self.file], stdout=out, check=False).returncode

    def test_a_closed_pipe(self) -> None:
        reading, writing = os.pipe()
        os.close(reading)
        try:
            self.assertEqual(self.survey_into(writing), 6)
        finally:
            os.close(writing)

    @unittest.skipUnless(os.path.exists("/dev/full"), "there is no /dev/full")
    def test_a_full_device(self) -> None:
        with open("/dev/full", "wb") as full:
            self.assertEqual(self.survey_into(full.fileno()), 6)


if __name__ == "__main__":
    unittest.main()
