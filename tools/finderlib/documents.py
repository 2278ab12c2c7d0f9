"""Answer documents, format 1 of docs/FORMATS.md: read exactly or refused at the first line that does not fit, and written to the byte."""
import re
from collections.abc import Iterator
from dataclasses import dataclass, field
from typing import NamedTuple

NUMBER_LIMIT = 2**64
LABEL_LIMIT = 2**32
HOPS_MOST = 2**40
KINDS = ("link", "cross", "adapt", "deadapt", "convert")
VERBS = ("carry", "connect", "swap", "wrap", "unwrap", "convert")

ID_TEXT = r"[!-~]{1,255}"
NUMBER_TEXT = r"0|[1-9][0-9]{0,19}"
_ID = rf"({ID_TEXT})"
_NUMBER = rf"({NUMBER_TEXT})"
_TAG = rf"(-|{NUMBER_TEXT})"
_WISH = rf"(any|{NUMBER_TEXT})"
_WEIGHT = rf"(?:(past) -|{_NUMBER} {_NUMBER})"
_HEADING = re.compile("circuit 1")
REQUEST_LINE = re.compile(rf"request {_ID} {_WISH} {_ID} {_WISH}")
_OUTCOME = re.compile(rf"outcome (?:(none|past)|(found|long) {_NUMBER} {_NUMBER})")
HOP_LINE = re.compile(rf"hop {_NUMBER} ({'|'.join(KINDS)}) {_ID} {_ID} {_TAG} {_ID} {_TAG} {_ID}(?: again {_NUMBER})?")
_DOMAIN = re.compile(rf"domain {_ID}")
_RULE = re.compile(rf"rule {_NUMBER} ({'|'.join(VERBS)}) {_ID} {_ID} {_TAG} {_ID} {_TAG}")
_TOP = re.compile(rf"top {_ID} {_TAG} {_WEIGHT}")
_SEG = re.compile(rf"seg {_ID} {_TAG} {_ID} {_TAG} {_WEIGHT}")
END_LINE = re.compile("end")


class DocumentFault(Exception):
    """A text that is no document; `line` is the first line, from 1, that does not fit."""

    def __init__(self, line: int, reason: str):
        super().__init__(f"line {line} of the document does not fit: {reason}")
        self.line = line
        self.reason = reason


class Place(NamedTuple):
    """A port with a label, or with None where there is no label."""
    port: str
    label: int | None

    def order(self) -> tuple[str, int]:
        """The order of places in a document: the port, then no label, then the label."""
        return self.port, -1 if self.label is None else self.label

    def text(self) -> str:
        return f"{self.port} {'-' if self.label is None else self.label}"


class Weight(NamedTuple):
    cost: int
    hops: int


@dataclass(slots=True)
class Request:
    """FROM, its wished label, TO, its wished label; None is the wish `any`."""
    source: str
    source_wish: int | None
    target: str
    target_wish: int | None


@dataclass(slots=True)
class Outcome:
    """`found`, `none`, `past` or `long`; the weight stands with `found` and `long` alone. A walk of a list is `listed`, with its weight."""
    word: str
    weight: Weight | None


@dataclass(slots=True)
class Hop:
    """A hop; `again` is the number of the first visit of the place behind it, where there was one."""
    kind: str
    element: str
    source: Place
    target: Place
    domain: str
    again: int | None


@dataclass(slots=True)
class Rule:
    number: int
    verb: str
    element: str
    source: Place
    target: Place


@dataclass(slots=True)
class DomainRules:
    domain: str
    rules: list[Rule]


@dataclass(slots=True)
class Potential:
    """The least weight to a place, from the request (root None) or from an entered place; None is a cost of 2^64 or more."""
    root: Place | None
    place: Place
    weight: Weight | None

    def order(self) -> tuple[tuple[str, int], ...]:
        return (self.place.order(),) if self.root is None else (self.root.order(), self.place.order())


@dataclass(slots=True)
class Answer:
    request: Request
    outcome: Outcome
    hops: list[Hop] = field(default_factory=list)
    domains: list[DomainRules] = field(default_factory=list)
    tops: list[Potential] = field(default_factory=list)
    segs: list[Potential] = field(default_factory=list)


# ---- reading

class Lines:
    """The lines of a text, taken one after another where they fit a pattern."""

    def __init__(self, data: bytes):
        self.lines = data.decode("latin-1").split("\n")
        self.unfinished = self.lines.pop()
        self.taken = 0

    def take(self, pattern: re.Pattern[str]) -> re.Match[str] | None:
        if self.taken == len(self.lines):
            return None
        match = pattern.fullmatch(self.lines[self.taken])
        if match:
            self.taken += 1
        return match

    def need(self, pattern: re.Pattern[str], what: str) -> re.Match[str]:
        match = self.take(pattern)
        if match is None:
            raise self.due(what)
        return match

    def due(self, what: str) -> DocumentFault:
        """The fault of the line behind those taken, where something else is due."""
        ended = self.taken == len(self.lines) and not self.unfinished
        return DocumentFault(self.taken + 1, f"{what} is due, but {'the text ends' if ended else 'not this'}")

    def refuse(self, reason: str) -> DocumentFault:
        """The fault of the line that was taken last."""
        return DocumentFault(self.taken, reason)

    def number(self, text: str, limit: int = NUMBER_LIMIT) -> int:
        value = int(text)
        if value >= limit:
            raise self.refuse(f"the number {text} is too large")
        return value

    def label(self, text: str, absent: str = "-") -> int | None:
        return None if text == absent else self.number(text, LABEL_LIMIT)

    def place(self, port: str, tag: str) -> Place:
        return Place(port, self.label(tag))

    def weight(self, cost: str, hops: str) -> Weight:
        return Weight(self.number(cost), self.number(hops, HOPS_MOST + 1))

    def at_end(self) -> None:
        if self.taken < len(self.lines) or self.unfinished:
            raise DocumentFault(self.taken + 1, "the document ended before it")


def read_answer(data: bytes) -> Answer:
    """The answer that a text spells; raises DocumentFault at the first line that does not fit."""
    lines = Lines(data)
    lines.need(_HEADING, "`circuit 1`")
    request = read_request(lines)
    outcome = _read_outcome(lines)
    answer = Answer(request, outcome)
    if outcome.word == "found":
        answer.hops.extend(_read_hops(lines))
        answer.domains.extend(_read_domains(lines))
    answer.tops.extend(_read_potentials(lines, _TOP))
    answer.segs.extend(_read_potentials(lines, _SEG))
    lines.need(END_LINE, "another line of its kind, one of a later kind, or `end`")
    lines.at_end()
    return answer


def read_outcome(text: str, line: int) -> Outcome:
    """The outcome that one line spells, without its newline; `line` is its number in messages."""
    try:
        return _read_outcome(Lines(text.encode("latin-1") + b"\n"))
    except DocumentFault as fault:
        raise DocumentFault(line, fault.reason) from fault


def read_request(lines: Lines) -> Request:
    """The request of the next line."""
    source, source_wish, target, target_wish = lines.need(REQUEST_LINE, "`request ID WISH ID WISH`").groups()
    return Request(source, lines.label(source_wish, "any"), target, lines.label(target_wish, "any"))


def _read_outcome(lines: Lines) -> Outcome:
    bare, weighed, cost, hops = lines.need(_OUTCOME, "`outcome ..`").groups()
    return Outcome(bare, None) if bare else Outcome(weighed, lines.weight(cost, hops))


def _read_hops(lines: Lines) -> Iterator[Hop]:
    due = 1
    while match := lines.take(HOP_LINE):
        yield read_hop(lines, match, due)
        due += 1


def read_hop(lines: Lines, match: re.Match[str], due: int) -> Hop:
    """The hop of a line that was taken; `due` is its number."""
    number, kind, element, source, source_tag, target, target_tag, domain, again = match.groups()
    if number != str(due):
        raise lines.refuse(f"hop {due} is due")
    return Hop(kind, element, lines.place(source, source_tag), lines.place(target, target_tag), domain,
               None if again is None else lines.number(again))


def _read_domains(lines: Lines) -> Iterator[DomainRules]:
    last = ""
    while match := lines.take(_DOMAIN):
        domain = match[1]
        if domain <= last:
            raise lines.refuse("domains rise in byte order")
        rules = list(_read_rules(lines))
        if not rules:
            raise lines.due("a rule of the domain")
        yield DomainRules(domain, rules)
        last = domain


def _read_rules(lines: Lines) -> Iterator[Rule]:
    last = 0
    while match := lines.take(_RULE):
        number, verb, element, source, source_tag, target, target_tag = match.groups()
        rule = Rule(lines.number(number), verb, element, lines.place(source, source_tag), lines.place(target, target_tag))
        if rule.number <= last:
            raise lines.refuse("the rules of a domain rise, from 1 or more")
        if verb in ("connect", "swap") and (verb == "swap") == (source_tag == target_tag):
            raise lines.refuse("`connect` keeps the label and `swap` changes it")
        yield rule
        last = rule.number


def _read_potentials(lines: Lines, pattern: re.Pattern[str]) -> Iterator[Potential]:
    last = None
    while match := lines.take(pattern):
        *places, past, cost, hops = match.groups()
        ends = [lines.place(port, tag) for port, tag in zip(places[::2], places[1::2])]
        potential = Potential(ends[0] if len(ends) == 2 else None, ends[-1], None if past else lines.weight(cost, hops))
        order = potential.order()
        if last is not None and order <= last:
            raise lines.refuse("potentials rise by their places")
        yield potential
        last = order


# ---- writing

def write_answer(answer: Answer) -> bytes:
    """The text of an answer. It is a document where the answer keeps the rules of the format."""
    return "".join(line + "\n" for line in answer_lines(answer)).encode("ascii")


def answer_lines(answer: Answer) -> Iterator[str]:
    yield "circuit 1"
    yield request_line(answer.request)
    yield outcome_line(answer.outcome)
    for number, hop in enumerate(answer.hops, 1):
        yield hop_line(number, hop)
    for part in answer.domains:
        yield domain_line(part)
        yield from map(rule_line, part.rules)
    yield from map(potential_line, answer.tops)
    yield from map(potential_line, answer.segs)
    yield "end"


def request_line(request: Request) -> str:
    return f"request {request.source} {_wish(request.source_wish)} {request.target} {_wish(request.target_wish)}"


def outcome_line(outcome: Outcome) -> str:
    return f"outcome {outcome.word}" if outcome.weight is None else f"outcome {outcome.word} {_weight(outcome.weight)}"


def hop_line(number: int, hop: Hop) -> str:
    flag = "" if hop.again is None else f" again {hop.again}"
    return f"hop {number} {hop.kind} {hop.element} {hop.source.text()} {hop.target.text()} {hop.domain}{flag}"


def domain_line(part: DomainRules) -> str:
    return f"domain {part.domain}"


def rule_line(rule: Rule) -> str:
    return f"rule {rule.number} {rule.verb} {rule.element} {rule.source.text()} {rule.target.text()}"


def potential_line(potential: Potential) -> str:
    weight = "past -" if potential.weight is None else _weight(potential.weight)
    if potential.root is None:
        return f"top {potential.place.text()} {weight}"
    return f"seg {potential.root.text()} {potential.place.text()} {weight}"


def _wish(wish: int | None) -> str:
    return "any" if wish is None else str(wish)


def _weight(weight: Weight) -> str:
    return f"{weight.cost} {weight.hops}"
