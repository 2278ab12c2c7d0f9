"""How a tool reads its files, writes them whole or not at all, and fails: one line on stderr and status 2."""
import os
import sys
import tempfile
from collections.abc import Callable

FAILED = 2


class ToolFault(Exception):
    """What ends a tool with a message and status 2."""


def read_bytes(path: str, limit: int) -> bytes:
    """The bytes of a file, or of standard input where the path is `-`; at most `limit` of them."""
    try:
        if path == "-":
            data = sys.stdin.buffer.read(limit + 1)
        else:
            with open(path, "rb") as file:
                data = file.read(limit + 1)
    except (OSError, ValueError) as error:
        raise ToolFault(f"{path}: not read: {_reason(error)}") from error
    if len(data) > limit:
        raise ToolFault(f"{path}: has more than {limit} bytes")
    return data


def write_whole(path: str, data: bytes) -> None:
    """Writes a file beside its place and renames it, so that it appears whole or not at all; `-` is standard output.

    A link stays, and the file that it leads to is renamed over. What is there and is no file, as a device or a pipe, is never renamed over:
    the bytes are written into it.
    """
    if path == "-":
        sys.stdout.buffer.write(data)
        sys.stdout.buffer.flush()
        return
    beside = ""
    try:
        path = os.path.realpath(path)
        if os.path.exists(path) and not os.path.isfile(path):
            with open(path, "wb") as place:
                place.write(data)
            return
        handle, beside = tempfile.mkstemp(dir=os.path.dirname(path) or ".", prefix=os.path.basename(path)[:64] + ".")
        with os.fdopen(handle, "wb") as file:
            file.write(data)
        os.chmod(beside, 0o666 & ~_umask())
        os.replace(beside, path)
    except (OSError, ValueError) as error:
        if beside and os.path.exists(beside):
            os.unlink(beside)
        raise ToolFault(f"{path}: not written: {_reason(error)}") from error


def run(name: str, main: Callable[[], int]) -> None:
    """Runs a tool and ends the process with its status."""
    try:
        status = main()
    except ToolFault as fault:
        print(f"{name}: {printable(str(fault))}", file=sys.stderr)
        status = FAILED
    except BrokenPipeError:
        os.dup2(os.open(os.devnull, os.O_WRONLY), sys.stdout.fileno())
        status = FAILED
    except MemoryError:
        print(f"{name}: want of memory", file=sys.stderr)
        status = FAILED
    sys.exit(status)


def printable(text: str) -> str:
    """The text in one line of printable ASCII, so that no file can write to a terminal what it likes."""
    return "".join(letter if " " <= letter <= "~" else ascii(letter)[1:-1] for letter in text)


def _reason(error: OSError | ValueError) -> str:
    return getattr(error, "strerror", None) or str(error)


def _umask() -> int:
    mask = os.umask(0)
    os.umask(mask)
    return mask
