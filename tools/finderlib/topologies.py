"""Topology files, part 1 of docs/FORMATS.md: elements, their members and defaults, and the network that several files make.

A fault of reading, merging or layers is told by the line that finder prints for it (faults of merging and layers: finderlib.faults).
"""
import json
import re
from bisect import bisect_right
from collections.abc import Iterable, Iterator
from dataclasses import dataclass, field
from functools import cached_property
from typing import Any

FILE_LIMIT = 16_777_216
FILES_MOST = 64
ELEMENTS_MOST = 16_777_216
NESTING_MOST = 127
COST_LIMIT = 2**64
TIME_LIMIT = 2**64
LABEL_LIMIT = 2**32
COST_ABSENT = 1
ENCODING_ABSENT = "none"

PORTS = frozenset({"Port", "PortGroup"})
LINKS = frozenset({"Link", "LinkGroup"})
ADAPTATIONS = frozenset({"AdaptationService", "DeadaptationService"})
SERVICES = ADAPTATIONS | {"SwitchingService", "ConversionService"}

_PORT_MEMBERS = ("isSource", "isSink", "hasService", "isAlias")
_TWO_WAYS = ("hasInboundPort", "hasOutboundPort")
LIFETIME = "existsDuring"
# the members of each type that is read, behind its id, in the order in which they are looked at
MEMBERS: dict[str, tuple[str, ...]] = {
    "Node": (*_TWO_WAYS, "hasService", LIFETIME),
    "Port": ("encoding", "hasLabel", *_PORT_MEMBERS, LIFETIME),
    "PortGroup": ("encoding", "hasLabelGroup", *_PORT_MEMBERS, LIFETIME),
    "Link": ("encoding", "hasLabel", "cost", LIFETIME),
    "LinkGroup": ("encoding", "hasLabelGroup", "cost", LIFETIME),
    "SwitchingService": ("encoding", "labelSwapping", "cost", *_TWO_WAYS, LIFETIME),
    "AdaptationService": ("adaptationFunction", "cost", "providesPort", LIFETIME),
    "DeadaptationService": ("adaptationFunction", "cost", "providesPort", LIFETIME),
    "ConversionService": ("cost", *_TWO_WAYS, LIFETIME),
}
RELATIONS = frozenset({*_PORT_MEMBERS, *_TWO_WAYS, "providesPort"})

_ID = re.compile("[!-~]{1,255}")
_ITEM = re.compile("(0|[1-9][0-9]{0,9})(?:-(0|[1-9][0-9]{0,9}))?")

Ranges = tuple[tuple[int, int], ...]


class TopologyFault(Exception):
    """A fault of the files: its message is the line that finder prints."""


def targets_of(element_type: str, relation: str) -> frozenset[str]:
    """The types that a relation of an element may name."""
    if relation in ("isSource", "isSink"):
        return LINKS
    if relation == "hasService":
        return SERVICES if element_type == "Node" else ADAPTATIONS
    return PORTS


@dataclass(frozen=True, slots=True)
class Labels:
    """A label type and a set of labels, as ranges that rise with a gap between each two."""
    labeltype: str
    ranges: Ranges

    def __contains__(self, label: int) -> bool:
        at = bisect_right(self.ranges, (label, LABEL_LIMIT))
        return at > 0 and label <= self.ranges[at - 1][1]

    def text(self) -> str:
        return ",".join(str(low) if low == high else f"{low}-{high}" for low, high in self.ranges)


@dataclass(frozen=True, slots=True)
class Lifetime:
    """From a start on, and up to an end if there is one. The end is above the start."""
    start: int
    end: int | None

    def tree(self) -> dict[str, int]:
        return {"start": self.start} | ({} if self.end is None else {"end": self.end})


@dataclass(slots=True)
class Element:
    """An element that is read. `file` and `number` count from 1; `encoding` is what it states itself."""
    type: str
    id: str
    file: int
    number: int
    encoding: str | None = None
    labels: Labels | None = None
    cost: int = COST_ABSENT
    swapping: bool = False
    function: str = ""
    relations: dict[str, tuple[str, ...]] = field(default_factory=dict)
    lifetime: Lifetime | None = None

    def targets(self, relation: str) -> tuple[str, ...]:
        """The ids of a relation, each once; empty where it is absent."""
        return self.relations.get(relation, ())


@dataclass(slots=True)
class Domain:
    """What one file says. `encoding` is that of ports which state none."""
    id: str
    encoding: str | None
    elements: list[Element]


# ---- reading one file

def read_domain(data: bytes, file: int = 1) -> Domain:
    """The domain that a file's bytes spell; raises TopologyFault at the first fault. `file` is its number in the words."""
    tree = _parse(data, file)
    if not isinstance(tree, dict):
        raise _shape(file, 0, 1)
    if not _is_whole(tree.get("format"), 2) or tree["format"] != 1:
        raise _shape(file, 0, 2)
    name = _id(tree.get("topology"), file, 0, 3)
    encoding = _optional_id(tree.get("encoding"), file, 0, 4)
    members = tree.get("elements")
    if not isinstance(members, list) or len(members) > ELEMENTS_MOST:
        raise _shape(file, 0, 5)
    read = (_read_element(member, file, number) for number, member in enumerate(members, 1))
    return Domain(name, encoding, [element for element in read if element is not None])


def _read_element(member: Any, file: int, number: int) -> Element | None:
    if not isinstance(member, dict):
        raise _shape(file, number, 6)
    kind = member.get("type")
    if not isinstance(kind, str):
        raise _shape(file, number, 7)
    if kind not in MEMBERS:
        return None
    element = Element(kind, _id(member.get("id"), file, number, 8), file, number)
    for name in MEMBERS[kind]:
        value = member.get(name)
        if name in RELATIONS:
            _read_relation(element, name, value)
        else:
            _READERS[name](element, value)
    return element


def _read_relation(element: Element, name: str, value: Any) -> None:
    if value is None:
        return
    if not isinstance(value, list) or not all(_is_id(target) for target in value):
        raise _shape(element.file, element.number, 9)
    element.relations[name] = tuple(dict.fromkeys(value))


def _read_encoding(element: Element, value: Any) -> None:
    element.encoding = _optional_id(value, element.file, element.number, 4)


def _read_swapping(element: Element, value: Any) -> None:
    if not isinstance(value, bool | None):
        raise _shape(element.file, element.number, 10)
    element.swapping = value is True


def _read_function(element: Element, value: Any) -> None:
    element.function = _id(value, element.file, element.number, 11)


def _read_cost(element: Element, value: Any) -> None:
    if value is None:
        return
    if not _is_whole(value, COST_LIMIT):
        raise _shape(element.file, element.number, 12)
    element.cost = value


def _read_label(element: Element, value: Any) -> None:
    if value is None:
        return
    if not isinstance(value, dict) or not _is_id(value.get("labeltype")) or not _is_whole(value.get("value"), LABEL_LIMIT):
        raise _shape(element.file, element.number, 13)
    element.labels = Labels(value["labeltype"], ((value["value"], value["value"]),))


def _read_labels(element: Element, value: Any) -> None:
    if value is None:
        return
    if not isinstance(value, dict) or not _is_id(value.get("labeltype")) or not isinstance(value.get("values"), str):
        raise _shape(element.file, element.number, 14)
    ranges, length = read_group_text(value["values"])
    if length is not None:
        raise TopologyFault(f"fault {element.file} {element.number} label {length}")
    element.labels = Labels(value["labeltype"], ranges)


def _read_lifetime(element: Element, value: Any) -> None:
    if value is None:
        return
    if not isinstance(value, dict):
        raise _shape(element.file, element.number, 15)
    start, end = (value.get(name) for name in ("start", "end"))
    start = 0 if start is None else start
    if not _is_whole(start, TIME_LIMIT) or not (end is None or _is_whole(end, TIME_LIMIT) and start < end):
        raise _shape(element.file, element.number, 15)
    element.lifetime = Lifetime(start, end)


_READERS = {
    "encoding": _read_encoding,
    "labelSwapping": _read_swapping,
    "adaptationFunction": _read_function,
    "cost": _read_cost,
    "hasLabel": _read_label,
    "hasLabelGroup": _read_labels,
    LIFETIME: _read_lifetime,
}


def read_group_text(text: str) -> tuple[Ranges, int | None]:
    """The ranges of a group text and None; or none and the length of the longest prefix that is one."""
    items, start, fits = [], 0, 0
    while match := _ITEM.match(text, start):
        low, high, fits = _read_item(match)
        items.append((low, high))
        if fits == len(text):
            return merged(items), None
        if text[fits] != ",":
            break
        start = fits + 1
    return (), fits


def _read_item(match: re.Match[str]) -> tuple[int, int, int]:
    """The least and the greatest label of the longest prefix of an item that fits, and where it ends."""
    first, second = match.groups()
    digits, low = _longest_label(first)
    if second is None or digits < len(first):
        return low, low, match.start() + digits
    more, high = _longest_label(second)
    return (low, high, match.start(2) + more) if low <= high else (low, low, match.end(1))


def _longest_label(digits: str) -> tuple[int, int]:
    """The length and value of the longest prefix of these digits that is a label."""
    length = len(digits) if int(digits) < LABEL_LIMIT else len(digits) - 1
    return length, int(digits[:length])


def merged(items: Iterable[tuple[int, int]]) -> Ranges:
    """The ranges of a set: those given, in order, joined where they meet or overlap."""
    ranges: list[tuple[int, int]] = []
    for low, high in sorted(items):
        if ranges and low <= ranges[-1][1] + 1:
            ranges[-1] = (ranges[-1][0], max(high, ranges[-1][1]))
        else:
            ranges.append((low, high))
    return tuple(ranges)


def meet(first: Ranges, second: Ranges) -> Ranges:
    """The ranges of the labels that both sets have."""
    found, at, other = [], 0, 0
    while at < len(first) and other < len(second):
        low = max(first[at][0], second[other][0])
        high = min(first[at][1], second[other][1])
        if low <= high:
            found.append((low, high))
        if first[at][1] < second[other][1]:
            at += 1
        else:
            other += 1
    return tuple(found)


# ---- JSON as finder reads it

class _NotWhole:
    """A number that is no whole number: signed, with a fraction, with an exponent, or too large."""


class _Object(dict[str, Any]):
    """An object; `hidden` are values whose name stands again behind them, which are looked at for faults of the text alone."""
    __slots__ = ("hidden",)

    def __init__(self, pairs: list[tuple[str, Any]]):
        super().__init__(pairs)
        self.hidden = [value for name, value in pairs if self[name] is not value] if len(self) < len(pairs) else []


def _parse(data: bytes, file: int) -> Any:
    try:
        tree = json.loads(data.decode("utf-8"), object_pairs_hook=_Object, parse_int=_integer, parse_float=_float, parse_constant=_constant)
        if _surrogate_or_deep(tree):
            raise ValueError
    except (ValueError, RecursionError):
        raise TopologyFault(f"fault {file} 0 json") from None
    return tree


def _integer(text: str) -> int | _NotWhole:
    if len(text) <= 20 and text[0] != "-":
        return int(text)
    return _float(text)


def _float(text: str) -> _NotWhole:
    if float(text) in (float("inf"), float("-inf")):
        raise ValueError
    return _NotWhole()


def _constant(text: str) -> Any:
    raise ValueError(text)


def _surrogate_or_deep(tree: Any) -> bool:
    """Whether a tree nests too deep, or has a text with half of a pair of surrogates."""
    level, depth = [tree], 0
    while level:
        below: list[Any] = []
        nests = False
        for value in level:
            if isinstance(value, str):
                if not value.isascii() and any("\ud800" <= letter <= "\udfff" for letter in value):
                    return True
            elif isinstance(value, _Object):
                nests = True
                below.extend(value.keys())
                below.extend(value.values())
                below.extend(value.hidden)
            elif isinstance(value, list):
                nests = True
                below.extend(value)
        depth += nests
        if depth > NESTING_MOST:
            return True
        level = below
    return False


def _is_id(value: Any) -> bool:
    return isinstance(value, str) and _ID.fullmatch(value) is not None


def _is_whole(value: Any, limit: int) -> bool:
    return isinstance(value, int) and not isinstance(value, bool) and value < limit


def _id(value: Any, file: int, number: int, rule: int) -> str:
    if not _is_id(value):
        raise _shape(file, number, rule)
    return value


def _optional_id(value: Any, file: int, number: int, rule: int) -> str | None:
    return None if value is None else _id(value, file, number, rule)


def _shape(file: int, number: int, rule: int) -> TopologyFault:
    return TopologyFault(f"fault {file} {number} shape {rule}")


# ---- writing one file

def write_domain(domain: Domain) -> bytes:
    """A domain as finder itself would write it: compact, the members of each object in byte order of their names."""
    tree: dict[str, Any] = {"format": 1, "topology": domain.id, "elements": [_tree_of(element) for element in domain.elements]}
    if domain.encoding is not None:
        tree["encoding"] = domain.encoding
    return json.dumps(tree, sort_keys=True, separators=(",", ":")).encode("ascii")


def _tree_of(element: Element) -> dict[str, Any]:
    tree: dict[str, Any] = {"type": element.type, "id": element.id}
    members = MEMBERS[element.type]
    if element.encoding is not None:
        tree["encoding"] = element.encoding
    if element.labels is not None:
        labeltype = element.labels.labeltype
        if "hasLabel" in members:
            tree["hasLabel"] = {"labeltype": labeltype, "value": element.labels.ranges[0][0]}
        else:
            tree["hasLabelGroup"] = {"labeltype": labeltype, "values": element.labels.text()}
    if "cost" in members:
        tree["cost"] = element.cost
    if element.swapping:
        tree["labelSwapping"] = True
    if "adaptationFunction" in members:
        tree["adaptationFunction"] = element.function
    for name, targets in element.relations.items():
        if targets or element.type == "SwitchingService":
            tree[name] = list(targets)
    if element.lifetime is not None:
        tree[LIFETIME] = element.lifetime.tree()
    return tree


# ---- the network of several files

class Network:
    """What several files say together. Meaningful where the ids of the elements differ."""

    def __init__(self, domains: list[Domain]):
        self.domains = domains
        self.elements = {element.id: element for domain in domains for element in domain.elements}
        self.ports = [element for element in self.every() if element.type in PORTS]

    def every(self) -> Iterator[Element]:
        """All elements, in the order of files and elements."""
        return (element for domain in self.domains for element in domain.elements)

    def domain_of(self, element: Element) -> str:
        return self.domains[element.file - 1].id

    def is_port(self, name: str) -> bool:
        return name in self.elements and self.elements[name].type in PORTS

    def encoding_of(self, port: Element) -> str:
        """The encoding of a port: its own, else its file's, else `none`."""
        return port.encoding or self.domains[port.file - 1].encoding or ENCODING_ABSENT

    @cached_property
    def class_of(self) -> dict[str, str]:
        """The class of each port, by the id of the first port of the class."""
        linked: dict[str, list[str]] = {port.id: [] for port in self.ports}
        for port in self.ports:
            for other in port.targets("isAlias"):
                if other in linked:
                    linked[port.id].append(other)
                    linked[other].append(port.id)
        found: dict[str, str] = {}
        for port in self.ports:
            waiting = [] if port.id in found else [port.id]
            while waiting:
                other = waiting.pop()
                if other not in found:
                    found[other] = port.id
                    waiting.extend(linked[other])
        return found

    @cached_property
    def members_of(self) -> dict[str, list[Element]]:
        """The ports of each class, in order."""
        members: dict[str, list[Element]] = {}
        for port in self.ports:
            members.setdefault(self.class_of[port.id], []).append(port)
        return members

    @cached_property
    def labels_of(self) -> dict[str, Labels | None]:
        """The label set of each class, which may be empty; None where the class is unlabelled."""
        return {name: _common_labels(members) for name, members in self.members_of.items()}

    @cached_property
    def _namers(self) -> dict[tuple[str, str], list[Element]]:
        """For a relation and an id, the ports and Nodes that name the id in it, in order."""
        namers: dict[tuple[str, str], list[Element]] = {}
        for element in self.every():
            for relation in ("isSource", "isSink", "hasService"):
                for target in element.targets(relation):
                    namers.setdefault((relation, target), []).append(element)
        return namers

    def senders(self, link: str) -> list[Element]:
        """The ports that send into a link."""
        return self._namers.get(("isSource", link), [])

    def takers(self, link: str) -> list[Element]:
        """The ports that take from a link."""
        return self._namers.get(("isSink", link), [])

    def servers(self, service: str) -> list[Element]:
        """The server ports of an adaptation or deadaptation."""
        return [element for element in self._namers.get(("hasService", service), []) if element.type in PORTS]

    def nodes(self, service: str) -> list[Element]:
        """The Nodes that name a service."""
        return [element for element in self._namers.get(("hasService", service), []) if element.type == "Node"]

    def ports_of(self, service: Element, relation: str) -> list[Element]:
        """The ports that a service has by `hasInboundPort`, `hasOutboundPort` or `providesPort`; a SwitchingService that lists
        none in either direction is lent those of its Nodes, of its own encoding where it states one."""
        if service.type != "SwitchingService" or any(name in service.relations for name in _TWO_WAYS):
            return self._ports(service.targets(relation))
        lent = dict.fromkeys(target for node in self.nodes(service.id) for target in node.targets(relation))
        return [port for port in self._ports(lent) if service.encoding in (None, self.encoding_of(port))]

    def _ports(self, names: Iterable[str]) -> list[Element]:
        return [self.elements[name] for name in names if self.is_port(name)]

    def open_references(self) -> Iterator[tuple[Element, str, str]]:
        """The element, the relation and the id of each reference to what no file has."""
        for element in self.every():
            for relation, targets in element.relations.items():
                yield from ((element, relation, target) for target in targets if target not in self.elements)


def _common_labels(members: list[Element]) -> Labels | None:
    first = members[0].labels
    if first is None:
        return None
    ranges = first.ranges
    for member in members[1:]:
        ranges = meet(ranges, member.labels.ranges if member.labels else ())
    return Labels(first.labeltype, ranges)
