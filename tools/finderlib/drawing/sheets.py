"""Where the places of a walk stand on a sheet: in rows, hops across, the depth of the stack down."""
from collections.abc import Iterator
from dataclasses import dataclass
from itertools import accumulate, pairwise

from finderlib.documents import Hop
from finderlib.drawing.svg import IDS, LINE, MARGIN, SMALL, shorten, width_of
from finderlib.drawing.walks import Stop, Walk
from finderlib.topologies import Element

ROW_WIDTH = 1240
GUTTER = 62
HOPS_MOST = 2000
ID_LETTERS = 22
NAME_LETTERS = 20
TIES_MOST = 8
VERBS = {"link": "carry", "adapt": "wrap", "deadapt": "unwrap", "convert": "convert"}


@dataclass(slots=True)
class Row:
    """The stops of one row, both ends with it, and where their middles are."""
    first: int
    last: int
    middles: list[float]
    top: float
    least_depth: int
    greatest_depth: int

    def middle(self, stop: int) -> float:
        return self.middles[stop - self.first]

    def stops(self) -> range:
        return range(self.first, self.last + 1)


class Sheet:
    """The stops between two hops of a walk, with what stands in their boxes and beside their hops."""

    def __init__(self, walk: Walk, hops: tuple[int, int] | None, has_potentials: bool):
        """`hops` are the first and the last hop that are drawn; with potentials, there is room below the boxes."""
        self.walk = walk
        self.has_potentials = has_potentials
        every = len(walk.hops)
        first, last = hops or (1, min(every, HOPS_MOST))
        self.first, self.last = min(max(first - 1, 0), every), min(last, every)
        self.sizes = [self.size_of(stop) for stop in walk.stops[self.first:self.last + 1]]
        self.box_height = max((height for _, height in self.sizes), default=0.0)
        self.level = self.box_height + 62

    # ---- words

    def lines_of(self, stop: Stop) -> list[str]:
        """What stands in the box of a place: its ports, and what is known of its layer."""
        layer = self.layer_of(stop)
        return [shorten(port, ID_LETTERS) for port in stop.ports] + ([layer] if layer else [])

    def layer_of(self, stop: Stop) -> str:
        """The encoding of a place and its label, as far as there is either."""
        network = self.walk.network
        port = network.elements[stop.ports[0]] if network.is_port(stop.ports[0]) else None
        encoding = network.encoding_of(port) if port else "none"
        labeltype = port.labels.labeltype if port and port.labels else "label"
        words = [] if encoding == "none" else [shorten(encoding, 12)]
        if stop.label is not None:
            words.append(f"{shorten(labeltype, 10)} {stop.label}")
        return " \u00b7 ".join(words)

    def potential_of(self, stop: Stop) -> str:
        """What stands below a place: its potential, or nothing where none is known."""
        potential = self.walk.potential_at(stop)
        if potential is None:
            return ""
        return "past 2\u2076\u2074" if potential.weight is None else f"{potential.weight.cost} in {potential.weight.hops}"

    def words_of(self, number: int) -> tuple[str, str]:
        """What stands above and below a hop, by its number: its element, and what is done there with the cost."""
        hop = self.walk.hops[number - 1]
        verb = VERBS.get(hop.kind) or ("connect" if hop.source.label == hop.target.label else "swap")
        element = self.element_of(hop)
        return shorten(hop.element, NAME_LETTERS), verb if element is None else f"{verb} \u00b7 {element.cost}"

    def element_of(self, hop: Hop) -> Element | None:
        return self.walk.network.elements.get(hop.element)

    # ---- sizes

    def size_of(self, stop: Stop) -> tuple[float, float]:
        """The width and the height of the box of a place; what stands above and below it is no wider."""
        lines = self.lines_of(stop)
        widths = [width_of(line, IDS) + 16 for line in lines]
        if stop.number == len(self.walk.hops):
            widths.append(width_of(str(stop.number), SMALL) + 26)
        if self.has_potentials:
            widths.append(width_of(self.potential_of(stop), SMALL) - 8)
        return max(widths), LINE * len(lines) + 9.0

    def width(self, stop: int) -> float:
        return self.sizes[stop - self.first][0]

    def height(self, stop: int) -> float:
        return self.sizes[stop - self.first][1]

    def _gap(self, hop: int) -> float:
        """The room between the boxes on both sides of a hop. Above a tunnel of one place, the words of both its hops stand there."""
        name, detail = self.words_of(hop)
        words = max(width_of(name, IDS), width_of(detail, SMALL))
        kinds = [part.kind for part in self.walk.hops[max(hop - 2, 0):hop + 1]]
        if ("adapt", "deadapt") in pairwise(kinds):
            return 2 * words + 28
        return max(words, 40.0) + 24

    # ---- rows

    def rows(self, top: float) -> list[Row]:
        """The stops in rows of about equal width, below `top`; the last stop of a row comes again at the head of the next."""
        steps = [self._gap(hop) + (self.width(hop - 1) + self.width(hop)) / 2 for hop in range(self.first + 1, self.last + 1)]
        rows, at = [], self.first
        for count in _even_rows(steps, ROW_WIDTH - MARGIN - GUTTER) if self.sizes else []:
            row = self._row(at, steps[at - self.first:at - self.first + count], top)
            rows.append(row)
            at, top = row.last, self.bottom(row)
        return rows

    def _row(self, first: int, steps: list[float], top: float) -> Row:
        middles = list(accumulate(steps, initial=GUTTER + MARGIN + self.width(first) / 2))
        depths = [self.walk.stops[stop].depth for stop in range(first, first + len(steps) + 1)]
        return Row(first, first + len(steps), middles, top, min(depths), max(depths))

    def left(self, row: Row, stop: int) -> float:
        return row.middle(stop) - self.width(stop) / 2

    def right(self, row: Row, stop: int) -> float:
        return row.middle(stop) + self.width(stop) / 2

    def level_of(self, row: Row, depth: int) -> float:
        """How far down the middles of the boxes of a depth are."""
        return row.top + (62 if row.least_depth <= 0 else 72) + self.box_height / 2 + (depth - row.least_depth) * self.level

    def floor(self, row: Row) -> float:
        """The lower edge of the deepest boxes of a row, with what stands below them."""
        below = 30 if self.has_potentials or row.greatest_depth > 0 else 16
        return self.level_of(row, row.greatest_depth) + self.box_height / 2 + below + inset(row.greatest_depth - row.least_depth)

    def bottom(self, row: Row) -> float:
        """The lower edge of a row, with the ties of its places."""
        ties = sum(1 for _ in self.ties(row))
        return self.floor(row) + (14 + 9 * min(ties, TIES_MOST) if ties else 0) + 10

    def ties(self, row: Row) -> Iterator[tuple[int, int]]:
        """The stops of a row that are one place: the first visit and the later one."""
        for stop in row.stops():
            again = self.walk.stops[stop].again
            if again is not None and row.first <= again < stop:
                yield again, stop


def inset(depth: int) -> int:
    """How much lower the tunnel of an outer frame ends than one that is so much deeper."""
    return 5 * min(depth, 8)


def _even_rows(steps: list[float], room: float) -> list[int]:
    """How many steps each row has, in as few rows as the room allows, and those about equally wide."""
    fewest = _filled_rows(steps, room)
    narrow = room / 2
    for _ in range(8):
        middle = (narrow + room) / 2
        rows = _filled_rows(steps, middle)
        if len(rows) == len(fewest):
            fewest, room = rows, middle
        else:
            narrow = middle
    return fewest


def _filled_rows(steps: list[float], room: float) -> list[int]:
    """How many steps each row has, each row filled before the next begins."""
    rows, filled = [0], 0.0
    for step in steps:
        if rows[-1] and filled + step > room:
            rows.append(0)
            filled = 0.0
        rows[-1] += 1
        filled += step
    return rows
