"""The walk of a document as a picture needs it: its places with their depth, and the frames that are open over them."""
from collections.abc import Iterator
from dataclasses import dataclass

from finderlib.documents import Answer, Hop, Place, Potential, rule_line
from finderlib.topologies import Network


@dataclass(frozen=True, slots=True)
class Stop:
    """A place of the walk by its number; two ports where the hops on both sides name different ones of its class."""
    number: int
    ports: tuple[str, ...]
    label: int | None
    depth: int
    again: int | None


@dataclass(frozen=True, slots=True)
class Frame:
    """A frame by the stops between which it is on the stack, its depth among the frames from 1, and the hop that put it there."""
    first: int
    last: int
    depth: int
    hop: Hop


class Walk:
    """The hops of an answer over a network; what the network does not have is shown as the document says it."""

    def __init__(self, answer: Answer, network: Network):
        self.answer = answer
        self.network = network
        self.hops = answer.hops
        self.stops = list(self._stops())
        self.frames = list(self._frames())
        self._rules: dict[int, list[str]] = {}
        for part in answer.domains:
            for rule in part.rules:
                self._rules.setdefault(rule.number, []).append(rule_line(rule))
        self._potentials = {(potential.root, potential.place): potential for potential in (*answer.tops, *answer.segs)}
        self._roots = self._open_roots()

    def rules_of(self, hop: int) -> list[str]:
        """The rule lines of a hop's number, from 1."""
        return self._rules.get(hop, [])

    def potential_at(self, stop: Stop) -> Potential | None:
        """The potential of a stop: under the request on the empty stack, else under the place that the topmost frame entered."""
        return self._potentials.get((self._roots[stop.number], self._named(stop)))

    def _stops(self) -> Iterator[Stop]:
        request = self.answer.request
        if not self.hops:
            if self.answer.outcome.word in ("found", "listed"):
                wish = request.target_wish if request.source_wish is None else request.source_wish
                yield Stop(0, _different(request.source, request.target), wish, 0, None)
            return
        depth = 0
        yield Stop(0, _different(request.source, self.hops[0].source.port), self.hops[0].source.label, depth, None)
        for number, hop in enumerate(self.hops, 1):
            depth += {"adapt": 1, "deadapt": -1}.get(hop.kind, 0)
            onward = self.hops[number].source.port if number < len(self.hops) else request.target
            yield Stop(number, _different(hop.target.port, onward), hop.target.label, depth, hop.again)

    def _frames(self) -> Iterator[Frame]:
        opened: list[int] = []
        for number, hop in enumerate(self.hops, 1):
            if hop.kind == "adapt":
                opened.append(number)
            elif hop.kind == "deadapt" and opened:
                first = opened.pop()
                yield Frame(first, number - 1, self.stops[first].depth, self.hops[first - 1])
        for first in opened:
            yield Frame(first, len(self.hops), self.stops[first].depth, self.hops[first - 1])

    def _open_roots(self) -> list[Place | None]:
        """For each stop the place that the topmost frame entered, or None on the empty stack."""
        roots: list[Place | None] = [None]
        opened: list[Place] = []
        for stop, hop in zip(self.stops[1:], self.hops):
            if hop.kind == "adapt":
                opened.append(self._named(stop))
            elif hop.kind == "deadapt" and opened:
                opened.pop()
            roots.append(opened[-1] if opened else None)
        return roots

    def _named(self, stop: Stop) -> Place:
        return Place(self.network.class_of.get(stop.ports[0], stop.ports[0]), stop.label)


def _different(first: str, second: str) -> tuple[str, ...]:
    return (first,) if first == second else (first, second)
