"""The picture of a document: its hops across, the depth of the stack down, domains in colours, repeated places tied."""
import math
from collections.abc import Iterator

from finderlib.documents import Answer, Hop, hop_line, potential_line, request_line
from finderlib.drawing.sheets import TIES_MOST, Row, Sheet, inset
from finderlib.drawing.svg import ADVANCE, FAINT, INK, LINE, MARGIN, MONO, colours_of, document, glyph, heading, heading_width, shorten
from finderlib.drawing.svg import tag, text, tint, title
from finderlib.drawing.walks import Frame, Stop, Walk
from finderlib.drawing.words import outcome_words, request_words
from finderlib.topologies import Network

# the potentials of places: not in the picture, there but not seen until they are asked for, or seen
ABSENT, HIDDEN, SEEN = "absent", "hidden", "seen"
TIE = "#c2185b"
POTENTIAL = "#2e7d32"
FRAME_SIZE = 9.5

STYLE = f"""
.number, .depth {{ font-family: {MONO}; font-size: 9px; fill: {FAINT}; }}
.strip {{ font-weight: bold; font-size: 11px; fill: #ffffff; }}
.frame {{ font-size: {FRAME_SIZE}px; fill: #52606d; font-family: {MONO}; }}
.number.again {{ fill: {TIE}; font-weight: bold; }}
.potential {{ fill: {POTENTIAL}; font-family: {MONO}; font-size: 9.5px; }}
.hop {{ cursor: default; }}
.hop:hover .way, .hop.lit .way {{ stroke-width: 4.5; }}
.hop:hover .id, .hop.lit .id {{ font-weight: bold; }}
"""


class CircuitPicture:
    """Draws the hops of an answer, or a part of them."""

    def __init__(self, answer: Answer, network: Network, hops: tuple[int, int] | None = None, potentials: str = ABSENT,
                 is_headed: bool = True):
        """`hops` are the first and the last hop that are drawn; `potentials` says whether those of the places are there; a picture
        that is headed has the request and the outcome above it."""
        self.answer = answer
        self.network = network
        self.potentials = potentials
        self.is_headed = is_headed
        self.walk = Walk(answer, network)
        self.sheet = Sheet(self.walk, hops, potentials != ABSENT)
        domains = {domain.id for domain in network.domains} | {hop.domain for hop in answer.hops}
        self.colours = colours_of(sorted(domains))
        self.frame_at = {frame.first: frame for frame in self.walk.frames}
        self.opened: list[Frame] = []

    def svg(self) -> str:
        """The whole picture."""
        top = 62.0 if self.is_headed else 6.0
        rows = self.sheet.rows(top)
        parts = [title([request_line(self.answer.request)])]
        words = request_words(self.answer.request), self._said()
        if self.is_headed:
            parts += heading(*words)
        self.opened = [frame for frame in self.walk.frames if rows and frame.first < self.sheet.first <= frame.last]
        self.opened.sort(key=lambda frame: frame.first)
        for row in rows:
            parts += self._row(row)
        if not rows:
            parts += self._apart(top + 40)
        width = max([heading_width(*words) if self.is_headed else 300.0, *(self.sheet.right(row, row.last) + MARGIN for row in rows)])
        height = self.sheet.bottom(rows[-1]) if rows else top + 80
        style = STYLE + (".potential { display: none; }\n" if self.potentials == HIDDEN else "")
        return document(math.ceil(width), math.ceil(height), style, parts)

    def _said(self) -> str:
        words = outcome_words(self.answer.outcome)
        if self.sheet.last - self.sheet.first < len(self.walk.hops):
            words += f"; drawn are the hops {self.sheet.first + 1} to {self.sheet.last} (--hops A-B draws others)"
        if self.potentials == SEEN and self.walk.stops:
            words += "; green: the least cost, in how many hops, from FROM or from where the tunnel begins"
        return words

    def _apart(self, middle: float) -> Iterator[str]:
        """Both ends of a request without listed hops, and a broken line between them."""
        request = self.answer.request
        left = float(MARGIN)
        for port, wish, word in ((request.source, request.source_wish, "FROM"), (request.target, request.target_wish, "TO")):
            stop = Stop(0, (port,), wish, 0, None)
            width, height = self.sheet.size_of(stop)
            yield from self._box(stop, left, middle - height / 2, width, height)
            yield text(left + 1, middle - height / 2 - 4, word, class_="end")
            if word == "FROM":
                yield tag("line", x1=left + width + 8, y1=middle, x2=left + width + 112, y2=middle, stroke=FAINT, stroke_width=2,
                          stroke_dasharray="7 6")
            left += width + 120

    # ---- a row

    def _row(self, row: Row) -> Iterator[str]:
        for frame in self._frames_of(row):
            yield self._frame(row, frame)
        yield from self._depths(row)
        yield from self._domains(row)
        yield from self._ties(row)
        for hop in range(row.first + 1, row.last + 1):
            yield self._hop(row, hop)
        for stop in row.stops():
            yield self._stop(row, self.walk.stops[stop])

    def _depths(self, row: Row) -> Iterator[str]:
        for depth in range(row.least_depth, row.greatest_depth + 1):
            y = self.sheet.level_of(row, depth)
            yield tag("line", x1=MARGIN, y1=y, x2=self.sheet.right(row, row.last), y2=y, stroke="#cbd2d9", stroke_dasharray="1 5")
            yield text(MARGIN, y - 4, f"depth {depth}", class_="depth")

    def _frames_of(self, row: Row) -> list[Frame]:
        """The frames that are open over stops of a row and whose depth the row shows. Rows are asked in order."""
        shown = []
        for stop in row.stops():
            while self.opened and self.opened[-1].last < stop:
                self.opened.pop()
            if stop in self.frame_at and (not self.opened or self.opened[-1] is not self.frame_at[stop]):
                self.opened.append(self.frame_at[stop])
                shown += [self.frame_at[stop]] if stop > row.first else []
            if stop == row.first:
                shown += self._visible(row)
        return shown

    def _visible(self, row: Row) -> list[Frame]:
        """Of the open frames those whose depth a row shows, the outermost first."""
        found = []
        for frame in reversed(self.opened):
            if frame.depth < row.least_depth:
                break
            found.append(frame)
        return found[::-1]

    def _frame(self, row: Row, frame: Frame) -> str:
        """The tunnel of a frame: a ground below all stops over which it is open."""
        first, last = max(frame.first, row.first), min(frame.last, row.last)
        deepest = max(self.walk.stops[stop].depth for stop in range(first, last + 1))
        half = self.sheet.box_height / 2
        left, right = self.sheet.left(row, first) - 9, self.sheet.right(row, last) + 9
        top = self.sheet.level_of(row, frame.depth) - half - 30
        bottom = self.sheet.level_of(row, deepest) + half + 24 + inset(deepest - frame.depth)
        words = self._frame_words(frame)
        letters = max(3, int((right - left - 12) / (FRAME_SIZE * ADVANCE)))
        colour = self.colours[frame.hop.domain]
        shape = tag("rect", title([f"the frame of hop {frame.first}", words]), x=left, y=top, width=right - left, height=bottom - top, rx=9,
                    fill=tint(colour, 0.07 if frame.depth % 2 else 0.15), stroke=tint(colour, 0.5), stroke_dasharray="5 3")
        return shape + text(left + 7, top + 11, shorten(words, letters), class_="frame")

    def _frame_words(self, frame: Frame) -> str:
        """What a frame remembers: the function, and the place that it was put on."""
        element = self.sheet.element_of(frame.hop)
        inside = self.sheet.layer_of(self.walk.stops[frame.first - 1])
        function = element.function if element is not None and element.function else frame.hop.element
        return f"{function}: {inside}" if inside else function

    def _domains(self, row: Row) -> Iterator[str]:
        """A strip above the hops of each domain."""
        first = row.first
        while first < row.last:
            domain = self.walk.hops[first].domain
            last = first + 1
            while last < row.last and self.walk.hops[last].domain == domain:
                last += 1
            left = (self.sheet.left(row, first) if first == row.first else row.middle(first)) + 1.5
            right = (self.sheet.right(row, last) if last == row.last else row.middle(last)) - 1.5
            words = shorten(domain, max(1, int((right - left - 10) / 6.6)))
            yield tag("rect", title([f"domain {domain}"]), x=left, y=row.top + 8, width=right - left, height=18, rx=3,
                      fill=self.colours[domain])
            yield text((left + right) / 2, row.top + 21, words, class_="strip", text_anchor="middle", pointer_events="none")
            first = last

    def _ties(self, row: Row) -> Iterator[str]:
        """A way below the row between the visits of each place that is passed again."""
        floor = self.sheet.floor(row)
        for at, (first, last) in enumerate(self.sheet.ties(row)):
            low = floor + 4 + 9 * (at % TIES_MOST)
            x1, x2 = row.middle(first) - 5, row.middle(last) + 5
            y1, y2 = self._below(row, first), self._below(row, last)
            way = f"M{x1:.1f} {y1:.1f}V{low - 6:.1f}q0 6 6 6H{x2 - 6:.1f}q6 0 6 -6V{y2:.1f}"
            yield tag("path", title([f"place {last} is place {first}"]), d=way, fill="none", stroke=TIE, stroke_width=1.4,
                      stroke_dasharray="4 3")

    def _below(self, row: Row, stop: int) -> float:
        """Where a tie meets a place: below its box and its potential."""
        room = 16 if self.sheet.has_potentials else 2
        return self.sheet.level_of(row, self.walk.stops[stop].depth) + self.sheet.height(stop) / 2 + room

    # ---- places

    def _stop(self, row: Row, stop: Stop) -> str:
        width, height = self.sheet.width(stop.number), self.sheet.height(stop.number)
        left, top = self.sheet.left(row, stop.number), self.sheet.level_of(row, stop.depth) - height / 2
        number = str(stop.number) if stop.again is None else f"{stop.number} = {stop.again}"
        parts = [title(self._stop_lines(stop)), *self._box(stop, left, top, width, height),
                 text(left + 1, top - 4, number, class_="number" if stop.again is None else "number again")]
        if stop.number == 0:
            parts.append(text(left + 12, top - 4, "FROM", class_="end"))
        if stop.number == len(self.walk.hops):
            parts.append(text(left + width, top - 4, "TO", class_="end", text_anchor="end" if self.walk.hops else "start"))
        if self.sheet.has_potentials:
            parts.append(text(left + width / 2, top + height + 12, self.sheet.potential_of(stop), class_="potential", text_anchor="middle"))
        return tag("g", *parts, class_="stop")

    def _box(self, stop: Stop, left: float, top: float, width: float, height: float) -> Iterator[str]:
        """The box of a place, in a shade of each domain that has a port there."""
        shades = [tint(self.colours.get(self._domain_of(port), FAINT), 0.2) for port in stop.ports]
        yield tag("rect", x=left, y=top, width=width, height=height, rx=6, fill=shades[0])
        if shades[-1] != shades[0]:
            half, right = left + width / 2, left + width
            way = f"M{half:.1f} {top:.1f}H{right - 6:.1f}a6 6 0 0 1 6 6v{height - 12:.1f}a6 6 0 0 1 -6 6H{half:.1f}Z"
            yield tag("path", d=way, fill=shades[-1])
        yield tag("rect", x=left, y=top, width=width, height=height, rx=6, fill="none", stroke=INK if stop.again is None else TIE,
                  stroke_width=2.2 if stop.number in (0, len(self.walk.hops)) else 1.1)
        for at, line in enumerate(self.sheet.lines_of(stop)):
            yield text(left + width / 2, top + LINE * at + 15, line, class_="id" if at < len(stop.ports) else "layer", text_anchor="middle")

    def _domain_of(self, port: str) -> str:
        """The domain of a port, or nothing where no file has the port."""
        return self.network.domain_of(self.network.elements[port]) if self.network.is_port(port) else ""

    def _stop_lines(self, stop: Stop) -> Iterator[str]:
        yield f"place {stop.number}, depth {stop.depth}"
        yield from (f"port {port} of {self._domain_of(port) or 'no file'}" for port in stop.ports)
        if self.sheet.layer_of(stop):
            yield self.sheet.layer_of(stop)
        if stop.again is not None:
            yield f"the same as place {stop.again}"
        potential = self.walk.potential_at(stop)
        if potential is not None:
            yield potential_line(potential)

    # ---- hops

    def _hop(self, row: Row, number: int) -> str:
        hop = self.walk.hops[number - 1]
        x1, x2 = self.sheet.right(row, number - 1), self.sheet.left(row, number)
        y1, y2 = (self.sheet.level_of(row, self.walk.stops[stop].depth) for stop in (number - 1, number))
        middle, colour = (x1 + x2) / 2, self.colours[hop.domain]
        way = f"M{x1:.1f} {y1:.1f}C{middle:.1f} {y1:.1f} {middle:.1f} {y2:.1f} {x2 - 6:.1f} {y2:.1f}"
        lines = [hop_line(number, hop), *self.walk.rules_of(number)]
        parts = [title([*lines, f"in domain {hop.domain}", *self._element_lines(hop)]),
                 tag("path", d=way, fill="none", stroke="#000000", stroke_opacity=0, stroke_width=34, pointer_events="stroke"),
                 tag("path", d=way, fill="none", stroke=colour, stroke_width=2.6, class_="way"),
                 tag("path", d=f"M{x2:.1f} {y2:.1f}l-9 -4.5v9z", fill=colour),
                 glyph(hop.kind, middle, (y1 + y2) / 2, colour),
                 *_beside(*self.sheet.words_of(number), middle, y1, y2)]
        return tag("g", *parts, class_="hop", data_hop=number, data_lines="\n".join(lines))

    def _element_lines(self, hop: Hop) -> Iterator[str]:
        element = self.sheet.element_of(hop)
        if element is None:
            yield "no file has this element"
            return
        yield f"{element.type}, cost {element.cost}"
        if element.function:
            yield f"function {element.function}"


def _beside(name: str, detail: str, x: float, y1: float, y2: float) -> list[str]:
    """The words of a hop: above and below its way, or above the tunnel beside the sign of a hop that changes the depth."""
    if y1 == y2:
        return [text(x, y1 - 13, name, class_="id", text_anchor="middle"), text(x, y1 + 21, detail, class_="detail", text_anchor="middle")]
    side, anchor = (14, "start") if y1 < y2 else (-14, "end")
    middle = (y1 + y2) / 2
    return [text(x + side, middle - 19, name, class_="id", text_anchor=anchor),
            text(x + side, middle - 6, detail, class_="detail", text_anchor=anchor)]
