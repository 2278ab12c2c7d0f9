"""tools/batch: answers in order, whole or not at all; runs that are taken up; and the same on three workers of which one is killed."""
import json
import os
import signal
import subprocess
import sys
import time
import unittest
from functools import cache
from unittest import mock

from common import TOOLS, FolderTest, finder_path, needs_finder, run_finder, run_tool, topology

WAIT_SECONDS = 300  # on a machine with much else to do
VLANS = topology("d", "PG p labels=vlan:1-400 isSource=l", "PG q labels=vlan:200-600 isSink=l", "LG l cost=3")
REQUESTS = "".join(f"p {label} q any\n" for label in range(190, 230)) + "p any q 600\np any nowhere any\nq any q any\n"


@cache
def python_with_distributed() -> str | None:
    """A Python that has Dask's distributed: this one, or the system's."""
    search = "import importlib.util, sys; sys.exit(importlib.util.find_spec('distributed') is None)"
    for python in (sys.executable, "/usr/bin/python3"):
        if os.path.exists(python) and subprocess.run([python, "-c", search], capture_output=True, check=False).returncode == 0:
            return python
    return None


class BatchTest(FolderTest):
    """What the tests of batches share: a topology, requests, and a program that takes its time."""

    def setUp(self) -> None:
        super().setUp()
        self.file = self.put("vlans.json", VLANS)
        self.requests = self.put("requests", REQUESTS.encode())

    def batch(self, *words: str) -> subprocess.CompletedProcess[bytes]:
        return run_tool("batch", "--finder", str(finder_path()), *words, folder=self.folder)

    def slow_program(self, seconds: str) -> str:
        """The program, each run of which takes a while and leaves a line in `runs`, or in what the environment has for RUNS."""
        path = self.put("slow", f"#!/bin/sh\necho run >> {self.folder}/${{RUNS:-runs}}\nsleep {seconds}\nexec {finder_path()} \"$@\"\n".encode())
        os.chmod(path, 0o755)
        return path

    def runs(self, name: str = "runs") -> int:
        path = self.folder / name
        return len(path.read_text().splitlines()) if path.exists() else 0


@needs_finder
class Batches(BatchTest):
    def test_answers(self) -> None:
        run = self.batch(self.requests, self.file)
        self.assertEqual((run.returncode, run.stderr), (0, b""))
        trees = [json.loads(line) for line in run.stdout.splitlines()]
        self.assertEqual([tree["number"] for tree in trees], list(range(1, 44)))
        self.assertEqual(trees[20], {"number": 21, "from": "p", "fromLabel": 210, "to": "q", "toLabel": None, "status": 0,
                                     "outcome": {"word": "found", "cost": "3", "hops": 1}})
        self.assertEqual(trees[0]["outcome"], {"word": "none"})
        self.assertEqual((trees[41]["status"], trees[41]["refusal"]), (4, "request unknown-port nowhere"))

    def test_documents(self) -> None:
        self.assertEqual(self.batch("--documents", "docs", "-o", "answers", "--jobs", "3", self.requests, self.file).returncode, 0)
        trees = [json.loads(line) for line in (self.folder / "answers").read_bytes().splitlines()]
        for tree, request in zip(trees, REQUESTS.splitlines()):
            due = run_finder("find", *request.split(" "), self.file)
            self.assertEqual(tree["status"], due.returncode)
            if "document" in tree:
                self.assertEqual((self.folder / "docs" / tree["document"]).read_bytes(), due.stdout)
        self.assertEqual(len(os.listdir(self.folder / "docs")), 42)
        self.assertEqual(self.batch("--documents", "docs", self.requests, self.file).returncode, 2)
        self.assertEqual(sorted(os.listdir(self.folder)), ["answers", "docs", "requests", "vlans.json"])
        self.assertIn(b"top p", (self.folder / "docs" / "21").read_bytes())
        self.assertEqual(self.batch("--route", "--documents", "routes", self.requests, self.file).returncode, 0)
        self.assertNotIn(b"top p", (self.folder / "routes" / "21").read_bytes())

    def test_the_program_of_a_launcher(self) -> None:
        """What leads to the launcher of a checkout is asked once where the program is."""
        checkout = self.folder / "checkout"
        (checkout / "prebuilt").mkdir(parents=True)
        (checkout / "prebuilt" / "sources").touch()
        (checkout / "finder").write_text(f"#!/bin/sh\necho asked >>{self.folder}/runs\n[ -n \"$FINDER_PLACE\" ] && echo {finder_path()}\n")
        (checkout / "finder").chmod(0o755)
        (self.folder / "linked").symlink_to(checkout / "finder")
        run = self.batch("--finder", "linked", self.requests, self.file)
        self.assertEqual((run.returncode, run.stdout, self.runs()), (0, self.batch(self.requests, self.file).stdout, 1))
        (checkout / "finder").write_text("#!/bin/sh\nexit 125\n")
        self.assertEqual(self.batch("--finder", "linked", self.requests, self.file).returncode, 2)

    def test_bad_input(self) -> None:
        broken = self.put("broken.json", b"[")
        for requests, words in [(b"p any q\n", [self.file]), (b"p any q any\np 07 q any\n", [self.file]), (b"p  any q any\n", [self.file]),
                                (b"\xff any q any\n", [self.file]), (b"p any q any\n\n", [self.file]), (b"p any q any\n", [broken]),
                                (b"p any q any\n", ["gone.json"]), (b"p any q any\n", []), (b"p any q any\n", [self.file] * 65),
                                (b"p any q any\n", ["--share", "0", self.file]), (b"p any q any\n", ["--finder", "/gone", self.file]),
                                (b"p any q any\n", ["--finder", "/bin/false-not", self.file])]:
            with self.subTest(requests=requests, words=words[-2:]):
                run = self.batch("-o", "never", self.put("bad", requests), *words)
                self.assertEqual((run.returncode, run.stdout, (self.folder / "never").exists()), (2, b"", False))
                self.assertTrue(run.stderr)
        self.assertEqual(self.batch(self.put("none", b""), self.file).stdout, b"")
        self.assertEqual(self.batch("--help").returncode, 0)
        self.assertEqual(self.batch("-o", "no/such/folder", "--documents", "docs", self.requests, self.file).returncode, 2)
        self.assertFalse((self.folder / "docs").exists())

    def test_a_second_run_goes_on(self) -> None:
        """A run that is interrupted leaves its shares; the next one runs the others alone."""
        words = ["--jobs", "2", "--share", "5", "--keep", "kept", "--documents", "docs", self.requests, self.file]
        whole = self.batch(self.requests, self.file).stdout
        slow = self.slow_program("0.1")
        process = subprocess.Popen([sys.executable, str(TOOLS / "batch"), "--finder", slow, "-o", "answers", *words], cwd=self.folder,
                                   stderr=subprocess.PIPE)
        while not any(name.startswith("share-") for name in (os.listdir(self.folder / "kept") if (self.folder / "kept").exists() else [])):
            time.sleep(0.05)
        process.send_signal(signal.SIGTERM)
        self.assertIn(b"kept has what is done", process.communicate()[1])
        self.assertEqual((process.returncode, (self.folder / "answers").exists(), (self.folder / "docs").exists()), (2, False, False))
        done = sum(name.startswith("share-") for name in os.listdir(self.folder / "kept"))
        other = self.batch(*words[:-2], self.put("other", b"p any q any\n"), self.file)
        self.assertEqual((other.returncode, b"another batch" in other.stderr), (2, True))
        with mock.patch.dict(os.environ, RUNS="others"):
            run = run_tool("batch", "--finder", slow, *words, folder=self.folder)
        self.assertEqual(run.returncode, 0, run.stderr)
        # one more run is to find out which program it is
        self.assertEqual(self.runs("others"), 43 - 5 * done + 1)
        self.assertEqual(without_documents(run.stdout), whole)
        self.assertEqual((len(os.listdir(self.folder / "docs")), (self.folder / "kept").exists()), (42, False))


def without_documents(lines: bytes) -> bytes:
    trees = [json.loads(line) for line in lines.splitlines()]
    return "".join(json.dumps({name: value for name, value in tree.items() if name != "document"}) + "\n" for tree in trees).encode()


@needs_finder
@unittest.skipUnless(python_with_distributed(), "no Python here has Dask's distributed")
class Scheduled(BatchTest):
    """The same on a cluster of three workers on this machine."""

    def cluster(self, workers: int) -> tuple[str, list[subprocess.Popen[bytes]]]:
        """The address of a scheduler, and its workers."""
        place = self.folder / "scheduler.json"
        self.start("dask_scheduler", "--port", "0", "--host", "127.0.0.1", "--scheduler-file", str(place), "--no-dashboard")
        self.wait(place.exists)
        processes = [self.start("dask_worker", "--scheduler-file", str(place), "--nthreads", "1", "--no-nanny", "--no-dashboard",
                                "--local-directory", str(self.folder / f"worker-{number}")) for number in range(workers)]
        return json.loads(place.read_text())["address"], processes

    def start(self, module: str, *words: str) -> subprocess.Popen[bytes]:
        process = subprocess.Popen([str(python_with_distributed()), "-m", f"distributed.cli.{module}", *words], cwd=self.folder,
                                   stdout=subprocess.DEVNULL, stderr=subprocess.DEVNULL)
        self.addCleanup(process.wait)
        self.addCleanup(process.kill)
        return process

    def wait(self, condition: object) -> None:
        limit = time.monotonic() + WAIT_SECONDS
        while not condition():
            self.assertLess(time.monotonic(), limit, "the cluster does not work")
            time.sleep(0.05)

    def test_a_lost_worker(self) -> None:
        """One of three workers is killed on the way, and every answer is there once."""
        whole = self.batch(self.requests, self.file).stdout
        address, workers = self.cluster(3)
        slow = self.slow_program("0.05")
        batch = subprocess.Popen([str(python_with_distributed()), str(TOOLS / "batch"), "--finder", slow, "--scheduler", address, "--share", "3",
                                  self.requests, self.file], stdout=subprocess.PIPE, stderr=subprocess.PIPE)
        self.addCleanup(batch.communicate)
        self.addCleanup(batch.kill)
        self.wait(lambda: self.runs() > 12)
        workers[0].kill()
        out, errors = batch.communicate(timeout=WAIT_SECONDS)
        self.assertEqual(batch.returncode, 0, errors)
        self.assertEqual(out, whole)
        sent = [path for folder in self.folder.glob("worker-*") for path in folder.rglob("finder-files/*")]
        self.assertLessEqual(len(sent), 6)

    def test_no_scheduler(self) -> None:
        run = subprocess.run([str(python_with_distributed()), str(TOOLS / "batch"), "--finder", str(finder_path()), "--scheduler", "nonsense",
                              self.requests, self.file], capture_output=True, check=False)
        self.assertEqual((run.returncode, run.stdout), (2, b""), run.stderr)
        self.assertTrue(run.stderr.startswith(b"batch: no scheduler is reached at nonsense"), run.stderr)


if __name__ == "__main__":
    unittest.main()
