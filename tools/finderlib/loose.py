"""Topology files as they stand, accepted or not: every member of every object, those that are read over too."""
import json
from dataclasses import dataclass, field
from typing import Any


class Object(dict):
    """An object of a JSON text, with the names that stand in it more than once."""

    def __init__(self, pairs: list[tuple[str, Any]]):
        super().__init__(pairs)
        self.repeated = [] if len(self) == len(pairs) else _repeated(name for name, _ in pairs)


def _repeated(names: Any) -> list[str]:
    seen: set[str] = set()
    return list(dict.fromkeys(name for name in names if name in seen or seen.add(name)))


@dataclass(slots=True)
class LooseFile:
    """What is in a file, as far as it can be told; `fault` says why it is no JSON."""
    tree: Any = None
    fault: str | None = None
    entries: list[Any] = field(default_factory=list)

    def entry(self, number: int) -> Any:
        """The element of a number from 1, or None."""
        return self.entries[number - 1] if 1 <= number <= len(self.entries) else None


def read_loosely(data: bytes) -> LooseFile:
    try:
        tree = json.loads(data.decode("utf-8"), object_pairs_hook=Object, parse_int=_integer)
    except UnicodeDecodeError as error:
        return LooseFile(fault=f"it is no UTF-8 from byte {error.start + 1} on")
    except json.JSONDecodeError as error:
        return LooseFile(fault=f"at line {error.lineno}, column {error.colno}: {error.msg[0].lower()}{error.msg[1:]}")
    except RecursionError:
        return LooseFile(fault="it nests deeper than 127")
    elements = tree.get("elements") if isinstance(tree, dict) else None
    return LooseFile(tree, None, elements if isinstance(elements, list) else [])


def _integer(text: str) -> int | float:
    """A whole number, or a float where it has more digits than any that is read."""
    return int(text) if len(text) <= 400 else float(text)


def shown(value: Any, most: int = 60) -> str:
    """A value in a few words of ASCII."""
    if isinstance(value, str):
        value = value[:most]
    elif isinstance(value, list):
        value = value[:most // 2]
    text = json.dumps(value)
    return text if len(text) <= most else text[:most - 3] + "..."


def title(entry: Any) -> str:
    """An element by its type and id, as far as it has them."""
    if not isinstance(entry, dict):
        return shown(entry, 30)
    kind, name = entry.get("type"), entry.get("id")
    return f"{kind if _is_plain(kind) else 'of no type'} {name if _is_plain(name) else 'without an id'}"


def _is_plain(text: Any) -> bool:
    return isinstance(text, str) and 0 < len(text) <= 255 and all("!" <= letter <= "~" for letter in text)
