"""The picture of a topology: ports, links and services in their domains and Nodes, and on demand an answer upon it."""
import math
from collections.abc import Iterator
from dataclasses import dataclass, field

from finderlib.documents import Answer, Potential, hop_line, potential_line
from finderlib.drawing.parts import Box, Device, Line, Parts
from finderlib.drawing.plans import Edges, Spline, plan
from finderlib.drawing.svg import FAINT, IDS, INK, LINE, MARGIN, MONO, SMALL, colours_of, document, glyph, heading, heading_width
from finderlib.drawing.svg import shorten, tag, text, tint, title
from finderlib.drawing.words import outcome_words, request_words
from finderlib.topologies import LINKS, PORTS, Element, Network

LINES_MOST = 12
REACHED = "#2e7d32"
REACHED_WORDS = "green: reached from FROM; broken green: reached inside tunnels alone"

STYLE = f"""
.domain {{ font-weight: bold; font-size: 12px; }}
.device {{ font-family: {MONO}; font-size: {IDS}px; fill: #52606d; }}
.apart {{ opacity: 0.38; }}
.part:hover rect, .part:hover .way {{ stroke-width: 3.6; }}
"""


@dataclass(slots=True)
class Marks:
    """What of an answer is marked: the ids of elements and ports that it uses, the ways (tail, head and element, or nothing for an
    alias), the hops of elements, and the potentials of classes."""
    used: set[str] = field(default_factory=set)
    ways: set[tuple[str, str, str]] = field(default_factory=set)
    hops: dict[str, list[str]] = field(default_factory=dict)
    potentials: dict[str, list[Potential]] = field(default_factory=dict)


class NetworkPicture:
    """Draws a network, and an answer upon it where one is given."""

    def __init__(self, network: Network, answer: Answer | None = None, is_headed: bool = True):
        """A picture that is headed has the request and the outcome above it, where an answer is given."""
        self.network = network
        self.answer = answer
        self.colours = colours_of(sorted(domain.id for domain in network.domains))
        self.parts = Parts(network)
        self.marks = _marks_of(answer) if answer is not None else Marks()
        self.head = self._head(answer) if is_headed and answer is not None else None

    def svg(self) -> str:
        """The whole picture."""
        boxes = list(self.parts.boxes.values())
        laid = plan([box.size() for box in boxes], self.parts.groups(), self.parts.ways())
        edges = iter(laid.groups)
        drawn = []
        for domain, devices in zip(self.network.domains, self.parts.devices):
            drawn.append(self._domain(domain.id, next(edges)))
            drawn += [_device(device, next(edges)) for device in devices]
        drawn += [self._line(line, spline) for line, spline in zip(self.parts.lines, laid.ways)]
        drawn += [self._box(box, place) for box, place in zip(boxes, laid.boxes)]
        top = 70 if self.head else MARGIN
        width = max(laid.width + 2 * MARGIN, heading_width(*self.head) if self.head else 0)
        moved = tag("g", *drawn, transform=f"translate({MARGIN} {top})")
        head = heading(*self.head) if self.head else []
        return document(math.ceil(width), math.ceil(laid.height + top + MARGIN), STYLE, [*head, moved])

    def _head(self, answer: Answer) -> tuple[str, str]:
        said = outcome_words(answer.outcome)
        return request_words(answer.request), f"{said}; {REACHED_WORDS}" if self.marks.potentials else said

    def _domain(self, name: str, edges: Edges | None) -> str:
        """The ground of a domain, or nothing where no box is in it."""
        if edges is None:
            return ""
        left, top, right, bottom = edges
        colour = self.colours[name]
        ground = tag("rect", title([f"domain {name}"]), x=left, y=top, width=right - left, height=bottom - top, rx=10,
                     fill=tint(colour, 0.08), stroke=tint(colour, 0.6))
        return ground + text(left + 12, top + 18, shorten(name, 40), class_="domain", style=f"fill:{colour}")

    # ---- boxes

    def _box(self, box: Box, place: tuple[float, float]) -> str:
        element, reached, ends = box.element, self._potentials_at(box.element), self._ends_at(box.element)
        width, height = box.size()
        left, top = place[0] - width / 2, place[1] - height / 2
        middle = left + box.sign_room() + (width - box.sign_room()) / 2
        drawn = [title(self._box_lines(element, reached)), self._ground(element, reached, left, top, width, height)]
        if box.sign():
            drawn.append(glyph(box.sign(), left + 16, place[1], self._colour(element)))
        drawn += [text(middle, top + LINE * at + 15, line, class_="id" if at == 0 else "layer", text_anchor="middle")
                  for at, line in enumerate(box.lines)]
        if ends:
            drawn.append(text(left + 1, top - 4, ends, class_="end"))
        return tag("g", *drawn, class_=self._class(element.id in self.marks.used or bool(reached or ends)))

    def _ground(self, element: Element, reached: list[Potential], left: float, top: float, width: float, height: float) -> str:
        is_port, is_used = element.type in PORTS, element.id in self.marks.used
        is_inside = not is_used and bool(reached) and all(potential.root is not None for potential in reached)
        return tag("rect", x=left, y=top, width=width, height=height, rx=6 if is_port else 2,
                   fill=tint(self._colour(element), 0.2) if is_port else "#ffffff",
                   stroke=INK if is_used else REACHED if reached else self._colour(element),
                   stroke_width=2.4 if is_used or reached else 1.1, stroke_dasharray="5 3" if is_inside else None)

    def _box_lines(self, element: Element, reached: list[Potential]) -> Iterator[str]:
        yield f"{element.type} {element.id}"
        yield f"element {element.number} of file {element.file}, domain {self.network.domain_of(element)}"
        if element.type in PORTS:
            yield f"encoding {self.network.encoding_of(element)}"
            members = self.network.members_of[self.network.class_of[element.id]]
            if len(members) > 1:
                yield "one class: " + " = ".join(port.id for port in members[:LINES_MOST])
        if element.labels is not None:
            yield f"labels {element.labels.labeltype} {shorten(element.labels.text(), 200)}"
        yield from _first(self.marks.hops.get(element.id, []), "hops")
        yield from _first([potential_line(potential) for potential in reached], "potentials")

    # ---- ways

    def _line(self, line: Line, spline: Spline) -> str:
        element, is_used = line.element, self._is_used(line)
        colour = FAINT if element is None else self._colour(element)
        width = 3.2 if is_used else 1.8 if element is not None and element.type in LINKS else 1.1
        drawn = [title(self._line_lines(line)),
                 tag("path", d=spline.path, fill="none", stroke=colour, stroke_width=width, class_="way",
                     stroke_dasharray="2 4" if element is None else None)]
        if spline.tip is not None:
            drawn.append(_arrow(spline.tip, spline.before_tip, colour, 5.0 if is_used else 3.6))
        if spline.words is not None:
            x, y = spline.words[0], spline.words[1] - 6.5 * len(line.words) - 2
            drawn += [text(x, y + 13 * at + 10, words, class_="id" if at == 0 else "layer", font_size=f"{SMALL}px", text_anchor="middle")
                      for at, words in enumerate(line.words)]
        return tag("g", *drawn, class_=self._class(is_used))

    def _line_lines(self, line: Line) -> Iterator[str]:
        if line.element is None:
            yield f"alias: {line.tail} = {line.head}"
            return
        yield f"{line.element.type} {line.element.id}, cost {line.element.cost}: {line.tail} to {line.head}"
        yield from _first(self.marks.hops.get(line.element.id, []), "hops")

    # ---- marks

    def _colour(self, element: Element) -> str:
        return self.colours[self.network.domain_of(element)]

    def _class(self, is_marked: bool) -> str:
        return "part" if is_marked or self.answer is None else "part apart"

    def _is_used(self, line: Line) -> bool:
        if line.element is None:
            return (line.tail, line.head, "") in self.marks.ways or (line.head, line.tail, "") in self.marks.ways
        return (line.tail, line.head, line.element.id) in self.marks.ways

    def _potentials_at(self, element: Element) -> list[Potential]:
        return self.marks.potentials.get(self.network.class_of[element.id], []) if element.type in PORTS else []

    def _ends_at(self, element: Element) -> str:
        """Which ends of the request a port is."""
        if self.answer is None:
            return ""
        ends = (("FROM", self.answer.request.source), ("TO", self.answer.request.target))
        return " ".join(word for word, port in ends if port == element.id)


def _marks_of(answer: Answer) -> Marks:
    marks = Marks()
    last = answer.request.source
    for number, hop in enumerate(answer.hops, 1):
        source, target = hop.source.port, hop.target.port
        marks.used.update((source, target, hop.element))
        marks.ways.update(((source, target, hop.element), (source, hop.element, hop.element), (hop.element, target, hop.element),
                           (last, source, "")))
        marks.hops.setdefault(hop.element, []).append(hop_line(number, hop))
        last = target
    marks.ways.add((last, answer.request.target, ""))
    for potential in (*answer.tops, *answer.segs):
        marks.potentials.setdefault(potential.place.port, []).append(potential)
    return marks


def _first(lines: list[str], what: str) -> list[str]:
    """The first lines, and how many more there are."""
    return lines[:LINES_MOST] + ([f"and {len(lines) - LINES_MOST} more {what}"] if len(lines) > LINES_MOST else [])


def _device(device: Device, edges: Edges | None) -> str:
    if edges is None:
        return ""
    left, top, right, bottom = edges
    ground = tag("rect", title([f"Node {device.node.id}"]), x=left, y=top, width=right - left, height=bottom - top, rx=7, fill="#ffffff",
                 fill_opacity=0.75, stroke="#9aa5b1")
    return ground + text(left + 9, top + 15, shorten(device.node.id, 30), class_="device")


def _arrow(tip: tuple[float, float], foot: tuple[float, float], colour: str, half: float) -> str:
    """The head of an arrow, `half` as wide to either side of its foot."""
    (x, y), (foot_x, foot_y) = tip, foot
    length = math.hypot(x - foot_x, y - foot_y) or 1.0
    across_x, across_y = -(y - foot_y) / length * half, (x - foot_x) / length * half
    way = f"M{x:.1f} {y:.1f}L{foot_x + across_x:.1f} {foot_y + across_y:.1f}L{foot_x - across_x:.1f} {foot_y - across_y:.1f}Z"
    return tag("path", d=way, fill=colour)
