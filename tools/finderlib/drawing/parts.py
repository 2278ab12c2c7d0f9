"""What of a network is drawn: boxes, the ways between them, and the groups that domains and Nodes make of the boxes."""
from collections.abc import Iterator
from dataclasses import dataclass, field
from itertools import islice

from finderlib.commands import ToolFault
from finderlib.drawing.plans import Group, Way
from finderlib.drawing.svg import IDS, LINE, SMALL, shorten, width_of
from finderlib.topologies import LINKS, PORTS, Element, Labels, Network

PARTS_MOST = 1500
SIGN_ROOM = 26
SIGNS = {"SwitchingService": "cross", "ConversionService": "convert", "AdaptationService": "adapt", "DeadaptationService": "deadapt"}


@dataclass(slots=True)
class Box:
    """What is drawn in a box: a port, a service, or a link that does not lead from one port to one port."""
    element: Element
    lines: list[str]

    def sign(self) -> str:
        """The kind of hop whose sign the box bears, if it is that of a service."""
        return SIGNS.get(self.element.type, "")

    def sign_room(self) -> float:
        return SIGN_ROOM if self.sign() else 0

    def size(self) -> tuple[float, float]:
        return max(width_of(line, IDS) for line in self.lines) + 16 + self.sign_room(), LINE * len(self.lines) + 9.0


@dataclass(slots=True)
class Line:
    """A way between boxes: a link with words beside it, an end of a service or of a link, or, without an element, an alias."""
    tail: str
    head: str
    element: Element | None
    words: list[str] = field(default_factory=list)

    def room(self) -> tuple[float, float] | None:
        return (max(width_of(line, SMALL) for line in self.words) + 8, 13.0 * len(self.words) + 2) if self.words else None


@dataclass(slots=True)
class Device:
    """A Node with the boxes that stand in it."""
    node: Element
    boxes: list[str]


class Parts:
    """The boxes and ways of a network, and the devices of each of its domains."""

    def __init__(self, network: Network):
        self.network = network
        self.boxes = {box.element.id: box for box in islice(self._boxes(), PARTS_MOST + 1)}
        self.lines = list(islice(self._lines(), PARTS_MOST + 1))
        if len(self.boxes) + len(self.lines) > PARTS_MOST:
            raise ToolFault(f"the topology has more than {PARTS_MOST} boxes and ways, and is not laid out")
        self.devices = [self._devices(file) for file in range(1, len(network.domains) + 1)]

    def groups(self) -> list[Group]:
        """The group of each domain, with the groups of its devices."""
        return [self._group(file) for file in range(1, len(self.network.domains) + 1)]

    def ways(self) -> list[Way]:
        numbers = self._numbers()
        return [Way(numbers[line.tail], numbers[line.head], line.room(), line.element is not None) for line in self.lines]

    def _numbers(self) -> dict[str, int]:
        return {name: number for number, name in enumerate(self.boxes)}

    # ---- boxes

    def _boxes(self) -> Iterator[Box]:
        for element in self.network.every():
            if element.type in PORTS:
                yield Box(element, [shorten(element.id, 24), *self._layer(element)])
            elif element.type in SIGNS:
                function = [shorten(element.function, 20)] if element.function else ["swaps labels"] if element.swapping else []
                yield Box(element, [shorten(element.id, 22), *function, f"cost {element.cost}"])
            elif element.type in LINKS and not self._is_plain(element):
                yield Box(element, [shorten(element.id, 22), f"link, cost {element.cost}"])

    def _layer(self, port: Element) -> list[str]:
        encoding = self.network.encoding_of(port)
        words = ([] if encoding == "none" else [shorten(encoding, 12)]) + _labels(port.labels)
        return [" \u00b7 ".join(words)] if words else []

    def _is_plain(self, link: Element) -> bool:
        """Whether a link leads from one port to one port."""
        return len(self.network.senders(link.id)) == len(self.network.takers(link.id)) == 1

    # ---- ways

    def _lines(self) -> Iterator[Line]:
        for element in self.network.every():
            if element.type in PORTS:
                yield from (Line(element.id, alias, None) for alias in element.targets("isAlias") if alias in self.network.class_of)
            elif element.type in LINKS:
                yield from self._link_lines(element)
            elif element.type in SIGNS:
                before, behind = self._ends(element)
                yield from (Line(port.id, element.id, element) for port in before)
                yield from (Line(element.id, port.id, element) for port in behind)

    def _link_lines(self, link: Element) -> Iterator[Line]:
        senders, takers = self.network.senders(link.id), self.network.takers(link.id)
        if self._is_plain(link):
            yield Line(senders[0].id, takers[0].id, link, [shorten(link.id, 22), *_labels(link.labels), f"cost {link.cost}"])
        else:
            yield from (Line(port.id, link.id, link) for port in senders)
            yield from (Line(link.id, port.id, link) for port in takers)

    def _ends(self, service: Element) -> tuple[list[Element], list[Element]]:
        """The ports from which a service takes, and those to which it gives."""
        if service.type == "AdaptationService":
            return self.network.ports_of(service, "providesPort"), self.network.servers(service.id)
        if service.type == "DeadaptationService":
            return self.network.servers(service.id), self.network.ports_of(service, "providesPort")
        return self.network.ports_of(service, "hasInboundPort"), self.network.ports_of(service, "hasOutboundPort")

    # ---- groups

    def _devices(self, file: int) -> list[Device]:
        """The Nodes of a file, each with the boxes of the file that it names and no earlier Node does."""
        taken: set[str] = set()
        found = []
        for node in (element for element in self.network.domains[file - 1].elements if element.type == "Node"):
            names = dict.fromkeys(name for targets in node.relations.values() for name in targets)
            inside = [name for name in names if name in self.boxes and name not in taken and self.boxes[name].element.file == file]
            taken.update(inside)
            if inside:
                found.append(Device(node, inside))
        return found

    def _group(self, file: int) -> Group:
        domain, devices, numbers = self.network.domains[file - 1], self.devices[file - 1], self._numbers()
        inside = {name for device in devices for name in device.boxes}
        boxes = [numbers[element.id] for element in domain.elements if element.id in numbers and element.id not in inside]
        groups = [Group((width_of(shorten(device.node.id, 30), IDS) + 12, 15.0), [numbers[name] for name in device.boxes])
                  for device in devices]
        return Group((width_of(shorten(domain.id, 40), 12) + 16, 20.0), boxes, groups)


def _labels(labels: Labels | None) -> list[str]:
    return [] if labels is None else [f"{shorten(labels.labeltype, 10)} {shorten(labels.text(), 16)}"]
