"""A share of the requests of a batch: what one process of a machine runs. It stands alone, so that it can be sent to a worker as it is."""
import hashlib
import os
import subprocess
import tempfile
from dataclasses import dataclass

Request = tuple[str, str, str, str]


@dataclass
class Answer:
    """The status that the program ended with, and what it printed."""
    status: int
    text: bytes


class ProgramFault(Exception):
    """The program cannot be run, or was ended from outside."""


def run_share(program: str, command: str, requests: list[Request], files: list[str]) -> list[Answer]:
    """The answers to requests over files, in their order."""
    return [run_request(program, command, request, files) for request in requests]


def run_request(program: str, command: str, request: Request, files: list[str]) -> Answer:
    try:
        run = subprocess.run([program, command, *request, *files], stdin=subprocess.DEVNULL, stdout=subprocess.PIPE, check=False)
    except OSError as error:
        raise ProgramFault(f"{program} cannot be run: {error.strerror}") from error
    if run.returncode < 0:
        raise ProgramFault(f"{program} was ended by signal {-run.returncode}")
    return Answer(run.returncode, run.stdout)


def run_on_worker(program: bytes, command: str, requests: list[Request], files: list[bytes]) -> list[tuple[int, bytes]] | str:
    """The same on a worker of a scheduler, which was sent the program and the files: each stands once in the worker's own folder, under its
    digest. The answers as plain values, or why the program cannot be run."""
    from distributed import get_worker
    folder = os.path.join(getattr(get_worker(), "local_directory", None) or tempfile.gettempdir(), "finder-files")
    try:
        answers = run_share(put(folder, program, 0o700), command, requests, [put(folder, data) for data in files])
    except (ProgramFault, OSError) as fault:
        return str(fault)
    return [(answer.status, answer.text) for answer in answers]


def put(folder: str, data: bytes, mode: int = 0o600) -> str:
    """The path of a file of these bytes in a folder, where it appears whole."""
    path = os.path.join(folder, hashlib.sha256(data).hexdigest())
    if not os.path.exists(path):
        os.makedirs(folder, exist_ok=True)
        handle, beside = tempfile.mkstemp(dir=folder)
        with os.fdopen(handle, "wb") as file:
            file.write(data)
        os.chmod(beside, mode)
        os.replace(beside, path)
    return path
