"""Many requests over the same files: read, split into shares, run on this machine or by a scheduler, and put together in their order."""
import errno
import hashlib
import json
import os
import shutil
import sys
import tempfile
from collections.abc import Iterator
from concurrent.futures import ThreadPoolExecutor, as_completed
from contextlib import contextmanager
from dataclasses import dataclass
from pathlib import Path
from typing import Any, Protocol

from finderlib import shares
from finderlib.commands import ToolFault, read_bytes, write_whole
from finderlib.documents import LABEL_LIMIT
from finderlib.shares import Answer, ProgramFault, Request
from finderlib.topologies import FILE_LIMIT

REQUESTS_LIMIT = 2**30
PROGRAM_LIMIT = 2**28
SHARES = 64  # few enough to be cheap, many enough that all workers end together
SHARE_MOST = 100


# ---- requests

def read_requests(path: str) -> list[Request]:
    """The requests of a file, one a line: FROM LABEL TO LABEL, with one space between two words."""
    lines = read_bytes(path, REQUESTS_LIMIT).decode("latin-1").split("\n")
    if lines[-1] == "":
        lines.pop()
    return [read_request(path, number, line) for number, line in enumerate(lines, 1)]


def read_request(path: str, number: int, line: str) -> Request:
    words = line.split(" ")
    if len(words) != 4:
        raise ToolFault(f"{path}: line {number}: FROM LABEL TO LABEL are due, with one space between two words")
    for name, label in (words[:2], words[2:]):
        if not (1 <= len(name) <= 255 and all("!" <= letter <= "~" for letter in name)):
            raise ToolFault(f"{path}: line {number}: {name[:40]!r} is no id")
        if label != "any" and not (label.isascii() and label.isdigit() and len(label) <= 10 and str(int(label)) == label
                                   and int(label) < LABEL_LIMIT):
            raise ToolFault(f"{path}: line {number}: {label[:40]!r} is no label: `any`, or a number from 0 to 4294967295")
    return words[0], words[1], words[2], words[3]


# ---- the batch

@dataclass
class Batch:
    """What is asked: each request is one run of the command of the program over the files."""
    program: str
    command: str
    requests: list[Request]
    files: list[str]
    share_size: int

    def shares(self) -> list[list[Request]]:
        return [self.requests[at:at + self.share_size] for at in range(0, len(self.requests), self.share_size)]

    def digest(self, with_documents: bool) -> str:
        """What tells this batch from others: the bytes of the program and files, the requests, how they are split, and what is kept."""
        parts = [self.command, str(self.share_size), str(with_documents), *(" ".join(request) for request in self.requests)]
        contents = [digest_of(self.program, PROGRAM_LIMIT), *(digest_of(name, FILE_LIMIT) for name in self.files)]
        return hashlib.sha256("\n".join([*contents, *parts]).encode()).hexdigest()


def digest_of(path: str, limit: int) -> str:
    return hashlib.sha256(read_bytes(path, limit)).hexdigest()


def share_size(requests: int) -> int:
    """How many requests are run together. The number of workers does not count, so that it may change between two runs."""
    return max(1, min(SHARE_MOST, requests // SHARES))


def check_files(batch: Batch) -> None:
    """Runs the first request, and refuses files over which none could be answered."""
    answer = shares.run_request(batch.program, batch.command, batch.requests[0], batch.files)
    if answer.status in (2, 3, 5, 11):
        raise ToolFault(f"{batch.program} refuses these files: {answer.text.decode('latin-1').strip()}")


# ---- engines

class Engine(Protocol):
    """What runs shares: gives each with its number, as it is done, in any order."""

    def run(self, batch: Batch, due: list[tuple[int, list[Request]]]) -> Iterator[tuple[int, list[Answer]]]: ...


class LocalEngine:
    """The cores of this machine, a thread for each process that runs at a time."""

    def __init__(self, jobs: int):
        self.jobs = jobs

    def run(self, batch: Batch, due: list[tuple[int, list[Request]]]) -> Iterator[tuple[int, list[Answer]]]:
        with ThreadPoolExecutor(self.jobs) as pool:
            futures = {pool.submit(shares.run_share, batch.program, batch.command, requests, batch.files): number for number, requests in due}
            try:
                for future in as_completed(futures):
                    yield futures[future], future.result()
            finally:
                pool.shutdown(wait=True, cancel_futures=True)


# ---- finished shares

class Kept:
    """A folder of finished shares, each with its answers as lines of JSON, and their documents where they are asked for."""

    def __init__(self, folder: Path, with_documents: bool):
        self.folder = folder
        self.documents = folder / "documents" if with_documents else None

    def open(self, digest: str) -> None:
        """Makes the folder the one of a batch, or refuses it where it is that of another."""
        name = self.folder / "batch"
        if name.exists():
            if read_bytes(str(name), 1000).decode("latin-1") != digest:
                raise ToolFault(f"{self.folder} holds shares of another batch: other requests, files, program or words")
            return
        if self.folder.exists() and any(self.folder.iterdir()):
            raise ToolFault(f"{self.folder} is not empty, and holds no batch")
        (self.documents or self.folder).mkdir(parents=True, exist_ok=True)
        write_whole(str(name), digest.encode())

    def path(self, number: int) -> Path:
        return self.folder / f"share-{number}"

    def has(self, number: int) -> bool:
        return self.path(number).exists()

    def put(self, batch: Batch, number: int, answers: list[Answer]) -> None:
        """Keeps a share: its documents first, so that it counts as done only where all of it is there."""
        lines = []
        first = number * batch.share_size + 1
        for place, (request, answer) in enumerate(zip(batch.requests[first - 1:], answers), first):
            tree = answer_tree(place, request, answer)
            if self.documents is not None and "outcome" in tree:
                tree["document"] = str(place)
                write_whole(str(self.documents / str(place)), answer.text)
            lines.append(json.dumps(tree) + "\n")
        write_whole(str(self.path(number)), "".join(lines).encode("ascii"))

    def lines(self, number: int) -> bytes:
        return self.path(number).read_bytes()


def answer_tree(number: int, request: Request, answer: Answer) -> dict[str, Any]:
    """An answer as a tree of JSON: costs are texts, since they may be above 2^53."""
    source, source_label, target, target_label = request
    tree: dict[str, Any] = {"number": number, "from": source, "fromLabel": label_tree(source_label), "to": target, "toLabel": label_tree(target_label),
                            "status": answer.status}
    lines = answer.text[:4000].decode("latin-1").split("\n")
    words = lines[2].split(" ") if len(lines) > 3 and lines[0] == "circuit 1" else []
    if words[:1] == ["outcome"]:
        weight = {"cost": words[2], "hops": int(words[3])} if len(words) == 4 else {}
        tree["outcome"] = {"word": words[1], **weight}
    else:
        tree["refusal"] = lines[0]
    return tree


def label_tree(label: str) -> int | None:
    return None if label == "any" else int(label)


# ---- running

def run_batch(batch: Batch, engine: Engine, output: str, documents: str | None, keep: str | None, progress: Any) -> None:
    """Runs what is not done yet, and writes all answers in the order of the requests."""
    if documents is not None and os.path.lexists(documents):
        raise ToolFault(f"{documents} is there already")
    with kept_folder(keep, documents) as folder:
        kept = Kept(folder, documents is not None)
        kept.open(batch.digest(documents is not None))
        split = batch.shares()
        due = [(number, requests) for number, requests in enumerate(split) if not kept.has(number)]
        progress.update(len(batch.requests) - sum(len(requests) for _, requests in due))
        if due:
            run_shares(batch, engine, kept, due, progress)
        data = b"".join(kept.lines(number) for number in range(len(split)))
        if documents is not None:
            move_whole(str(folder / "documents"), documents)
        try:
            write_whole(output, data)
        except ToolFault:
            if documents is not None:
                move_whole(documents, str(folder / "documents"))
            raise


def move_whole(folder: str, place: str) -> None:
    """Moves a folder to a place where it appears whole, on another file system too."""
    try:
        try:
            os.replace(folder, place)
        except OSError as error:
            if error.errno != errno.EXDEV:
                raise
            beside = tempfile.mkdtemp(dir=os.path.dirname(os.path.abspath(place)))
            shutil.copytree(folder, beside, dirs_exist_ok=True)
            os.replace(beside, place)
    except OSError as error:
        raise ToolFault(f"{place}: not written: {error.strerror}") from error


def run_shares(batch: Batch, engine: Engine, kept: Kept, due: list[tuple[int, list[Request]]], progress: Any) -> None:
    try:
        check_files(batch)
        for number, answers in engine.run(batch, due):
            kept.put(batch, number, answers)
            progress.update(len(answers))
    except ProgramFault as fault:
        raise ToolFault(str(fault)) from fault


@contextmanager
def kept_folder(keep: str | None, documents: str | None) -> Iterator[Path]:
    """The folder for finished shares: a named one, which stays until all is written, or one of its own beside the documents."""
    if keep is not None:
        yield Path(keep)
        shutil.rmtree(keep)
        return
    beside = os.path.dirname(os.path.abspath(documents)) if documents is not None else None
    try:
        folder = tempfile.mkdtemp(prefix="finder-batch-", dir=beside)
    except OSError as error:
        raise ToolFault(f"{beside}: no folder can be made there: {error.strerror}") from error
    try:
        yield Path(folder)
    finally:
        shutil.rmtree(folder, ignore_errors=True)


class NoProgress:
    """Where no bar is to be shown."""

    def update(self, number: int) -> None:
        pass

    def close(self) -> None:
        pass


def progress_bar(total: int) -> Any:
    """A bar on standard error where it is a terminal and tqdm is there; else nothing."""
    if not sys.stderr.isatty():
        return NoProgress()
    try:
        from tqdm import tqdm
    except ImportError:
        return NoProgress()
    return tqdm(total=total, unit="request", file=sys.stderr)
