"""Lists of the cheapest circuits, part 10 of docs/FORMATS.md: read exactly or refused at the first line that does not fit, written to the byte."""
import re
from collections.abc import Iterator
from dataclasses import dataclass, field

from finderlib.documents import END_LINE, HOP_LINE, NUMBER_TEXT, Answer, DomainRules, Hop, Lines, Outcome, Place, Request, Rule, Weight, hop_line
from finderlib.documents import read_hop, read_request, request_line
from finderlib.topologies import Network

WALKS_MOST = 100
LISTED_HOPS_MOST = 65_536
MORE_WORDS = ("enough", "none", "past", "long")
_HEADING = re.compile("circuits 1")
_WALK = re.compile(rf"walk ({NUMBER_TEXT}) ({NUMBER_TEXT}) ({NUMBER_TEXT})")
_MORE = re.compile(rf"more (?:(enough|none|past)|(long) ({NUMBER_TEXT}) ({NUMBER_TEXT}))")
VERBS = {"link": "carry", "adapt": "wrap", "deadapt": "unwrap", "convert": "convert"}


@dataclass(slots=True)
class ListedWalk:
    """A walk of a list; its hops have no `again`."""
    weight: Weight
    hops: list[Hop] = field(default_factory=list)


@dataclass(slots=True)
class WalkList:
    """What `k-find` prints; `more` is why there are no more, with the weight of the lightest others where it is `long`."""
    request: Request
    walks: list[ListedWalk]
    more: Outcome


# ---- reading

def read_list(data: bytes) -> WalkList:
    """The list that a text spells; raises DocumentFault at the first line that does not fit."""
    lines = Lines(data)
    lines.need(_HEADING, "`circuits 1`")
    request = read_request(lines)
    walks = list(_read_walks(lines))
    more = _read_more(lines, walks)
    lines.need(END_LINE, "`end`")
    lines.at_end()
    return WalkList(request, walks, more)


def _read_walks(lines: Lines) -> Iterator[ListedWalk]:
    last = Weight(0, 0)
    listed = set()
    due = 1
    while match := lines.take(_WALK):
        number, cost, count = match.groups()
        if number != str(due) or due > WALKS_MOST:
            raise lines.refuse(f"walk {due} is due" if due <= WALKS_MOST else f"a list has at most {WALKS_MOST} walks")
        weight = Weight(lines.number(cost), lines.number(count, LISTED_HOPS_MOST + 1))
        if weight < last:
            raise lines.refuse("walks rise by their cost, then by their hops")
        walk = ListedWalk(weight, list(_read_hops(lines, weight.hops)))
        spelled = tuple(map(hop_line, range(1, weight.hops + 1), walk.hops))
        if spelled in listed:
            raise lines.refuse("a walk of the same hops stands above")
        listed.add(spelled)
        yield walk
        last = weight
        due += 1


def _read_hops(lines: Lines, count: int) -> Iterator[Hop]:
    for due in range(1, count + 1):
        hop = read_hop(lines, lines.need(HOP_LINE, f"hop {due} of {count}"), due)
        if hop.again is not None:
            raise lines.refuse("hops of a list have no `again`")
        yield hop


def _read_more(lines: Lines, walks: list[ListedWalk]) -> Outcome:
    bare, long, cost, hops = lines.need(_MORE, "a walk or `more ..`").groups()
    if bare == "enough" and not walks:
        raise lines.refuse("no walk is listed, which is not enough")
    if not long:
        return Outcome(bare, None)
    weight = lines.weight(cost, hops)
    if weight.hops <= LISTED_HOPS_MOST:
        raise lines.refuse(f"a walk of at most {LISTED_HOPS_MOST} hops is not too long")
    if walks and weight < walks[-1].weight:
        raise lines.refuse("no other walk weighs less than the last")
    return Outcome(long, weight)


# ---- writing

def write_list(part: WalkList) -> bytes:
    """The text of a list."""
    return "".join(line + "\n" for line in _list_lines(part)).encode("ascii")


def _list_lines(part: WalkList) -> Iterator[str]:
    yield "circuits 1"
    yield request_line(part.request)
    for number, walk in enumerate(part.walks, 1):
        yield f"walk {number} {walk.weight.cost} {walk.weight.hops}"
        yield from map(hop_line, range(1, len(walk.hops) + 1), walk.hops)
    weight = part.more.weight
    yield f"more {part.more.word}" + ("" if weight is None else f" {weight.cost} {weight.hops}")
    yield "end"


# ---- a walk as an answer, for pictures

def answer_of(part: WalkList, number: int, network: Network) -> Answer:
    """A listed walk, by its number from 1, as an answer with flags and rules and without potentials; its outcome is `listed`."""
    walk = part.walks[number - 1]
    rules: dict[str, list[Rule]] = {}
    for at, hop in enumerate(walk.hops, 1):
        verb = VERBS.get(hop.kind) or ("connect" if hop.source.label == hop.target.label else "swap")
        rules.setdefault(hop.domain, []).append(Rule(at, verb, hop.element, hop.source, hop.target))
    return Answer(part.request, Outcome("listed", walk.weight), list(_flagged(walk.hops, network)),
                  [DomainRules(domain, rules[domain]) for domain in sorted(rules)])


def empty_answer(part: WalkList) -> Answer:
    """A list without walks as an answer, without potentials."""
    return Answer(part.request, part.more)


def _flagged(hops: list[Hop], network: Network) -> Iterator[Hop]:
    """The hops, each with the number of the first visit of the place behind it, where there was one."""
    first: dict[Place, int] = {}
    for number, hop in enumerate(hops):
        first.setdefault(_named(hop.source, network), number)
        behind = _named(hop.target, network)
        yield Hop(hop.kind, hop.element, hop.source, hop.target, hop.domain, first.get(behind))
        first.setdefault(behind, number + 1)


def _named(place: Place, network: Network) -> Place:
    """A place by the name of its class; a port that no file has names itself."""
    return Place(network.class_of.get(place.port, place.port), place.label)
