"""What finder prints, as JSON, and JSON of that form as what finder prints. Costs are texts, since they pass 2^53."""
import json
import re
from collections.abc import Iterator
from typing import Any

from finderlib.documents import HOPS_MOST, KINDS, LABEL_LIMIT, NUMBER_LIMIT, NUMBER_TEXT, VERBS, Answer, DocumentFault, DomainRules, Hop
from finderlib.documents import Outcome, Place, Potential, Request, Rule, Weight, read_answer, write_answer
from finderlib.lists import MORE_WORDS, ListedWalk, WalkList, read_list, write_list
from finderlib.replies import DRILL_TOTALS, FORMS, KINDS_OF_LINES, TOTALS, Counts, Drill, Line, fields_of, is_text_field
from finderlib.replies import read_counts, read_drill, read_line, write_counts, write_drill, write_line

Text = Answer | WalkList | Counts | Drill | Line
Tree = dict[str, Any]
LISTED_HOP = ("number", "kind", "element", "from", "fromLabel", "to", "toLabel", "domain")


class JsonFault(Exception):
    """JSON that has no form of this page; the message says where and why."""


def read_text(data: bytes) -> Text:
    """A document, a list, counts, what `drill` prints, or a line that refuses or judges; raises DocumentFault."""
    for start, read in ((b"circuits", read_list), (b"circuit", read_answer), (b"survey", read_counts), (b"drill", read_drill)):
        if data.startswith(start):
            return read(data)
    return read_line(data)


def write_text(text: Text) -> bytes:
    if isinstance(text, Answer):
        return write_answer(text)
    if isinstance(text, WalkList):
        return write_list(text)
    if isinstance(text, Counts):
        return write_counts(text)
    return write_drill(text) if isinstance(text, Drill) else write_line(text)


# ---- to JSON

def json_lines(text: Text) -> Iterator[str]:
    """The JSON of a text, in lines: those of an answer's lists have one item each."""
    if isinstance(text, Answer):
        yield from _answer_lines(text)
    elif isinstance(text, WalkList):
        yield from _walk_list_lines(text)
    elif isinstance(text, Counts):
        domains = [{"domain": name, "elements": number} for name, number in text.domains]
        yield _compact({"kind": "survey", "domains": domains, "totals": text.totals})
    elif isinstance(text, Drill):
        replay = None if text.replay is None else _line_tree(text.replay)
        yield _compact({"kind": "drill", "levels": text.levels, "totals": text.totals, "outcome": _outcome_tree(text.outcome), "replay": replay})
    else:
        yield _compact(_line_tree(text))


def _answer_lines(answer: Answer) -> Iterator[str]:
    yield '{"kind":"answer",'
    yield f'"request":{_compact(_request_tree(answer.request))},'
    yield f'"outcome":{_compact(_outcome_tree(answer.outcome))},'
    yield from _list_lines("hops", (_hop_tree(number, hop) for number, hop in enumerate(answer.hops, 1)), ",")
    yield from _list_lines("domains", map(_domain_tree, answer.domains), ",")
    yield from _list_lines("top", map(_top_tree, answer.tops), ",")
    yield from _list_lines("seg", map(_seg_tree, answer.segs), "}")


def _walk_list_lines(part: WalkList) -> Iterator[str]:
    yield '{"kind":"list",'
    yield f'"request":{_compact(_request_tree(part.request))},'
    yield from _list_lines("walks", (_walk_tree(number, walk) for number, walk in enumerate(part.walks, 1)), ",")
    yield f'"more":{_compact(_outcome_tree(part.more))}}}'


def _list_lines(name: str, items: Iterator[Tree], behind: str) -> Iterator[str]:
    last = next(items, None)
    if last is None:
        yield f'"{name}":[]{behind}'
        return
    yield f'"{name}":['
    for item in items:
        yield _compact(last) + ","
        last = item
    yield f"{_compact(last)}]{behind}"


def _compact(tree: Any) -> str:
    return json.dumps(tree, separators=(",", ":"))


def _request_tree(request: Request) -> Tree:
    return {"from": request.source, "fromLabel": request.source_wish, "to": request.target, "toLabel": request.target_wish}


def _outcome_tree(outcome: Outcome) -> Tree:
    return {"word": outcome.word, **_weight_tree(outcome.weight)}


def _weight_tree(weight: Weight | None) -> Tree:
    return {"cost": None, "hops": None} if weight is None else {"cost": str(weight.cost), "hops": weight.hops}


def _ends_tree(part: Hop | Rule) -> Tree:
    return {"element": part.element, "from": part.source.port, "fromLabel": part.source.label,
            "to": part.target.port, "toLabel": part.target.label}


def _hop_tree(number: int, hop: Hop) -> Tree:
    return {**_listed_hop_tree(number, hop), "again": hop.again}


def _listed_hop_tree(number: int, hop: Hop) -> Tree:
    return {"number": number, "kind": hop.kind, **_ends_tree(hop), "domain": hop.domain}


def _walk_tree(number: int, walk: ListedWalk) -> Tree:
    hops = [_listed_hop_tree(at, hop) for at, hop in enumerate(walk.hops, 1)]
    return {"number": number, "cost": str(walk.weight.cost), "hops": hops}


def _domain_tree(part: DomainRules) -> Tree:
    return {"domain": part.domain, "rules": [{"number": rule.number, "verb": rule.verb, **_ends_tree(rule)} for rule in part.rules]}


def _top_tree(potential: Potential) -> Tree:
    return {"port": potential.place.port, "label": potential.place.label, **_weight_tree(potential.weight)}


def _seg_tree(potential: Potential) -> Tree:
    assert potential.root is not None
    return {"root": potential.root.port, "rootLabel": potential.root.label, **_top_tree(potential)}


def _line_tree(line: Line) -> Tree:
    return {"kind": line.kind, "word": line.word, **{name: _field_tree(name, value) for name, value in line.fields.items()}}


def _field_tree(name: str, value: int | str) -> int | str:
    return str(value) if name == "cost" else value


# ---- from JSON

def from_json(data: bytes) -> Text:
    """The text that JSON spells; raises JsonFault where it spells none."""
    try:
        tree = json.loads(data.decode("utf-8"), parse_float=_no_number, parse_constant=_no_number)
    except (ValueError, RecursionError) as error:
        raise JsonFault(f"no JSON: {error}") from error
    text = _text_of(_Part(tree, "the JSON"))
    try:
        read_text(write_text(text))
    except DocumentFault as fault:
        raise JsonFault(f"finder prints no such text: {fault}") from fault
    return text


def _no_number(text: str) -> Any:
    raise ValueError(f"{text} is no whole number")


class _Part:
    """An object of the JSON, whose members are asked for one by one; `where` names it in messages."""

    def __init__(self, tree: Any, where: str):
        if not isinstance(tree, dict):
            raise JsonFault(f"{where} is not an object")
        self.tree = tree
        self.where = where

    def only(self, *names: str) -> None:
        """Refuses members of other names, which would be lost, and absent ones."""
        for name in self.tree:
            if name not in names:
                raise JsonFault(f"{self.where} has a member {json.dumps(name)} that has no place in the text")
        for name in names:
            if name not in self.tree:
                raise JsonFault(f"{self.where} has no member {json.dumps(name)}")

    def text(self, name: str) -> str:
        value = self.tree.get(name)
        if not isinstance(value, str) or not value.isascii():
            raise self.bad(name, "not a text of ASCII")
        return value

    def word(self, name: str, words: tuple[str, ...]) -> str:
        value = self.text(name)
        if value not in words:
            raise self.bad(name, f"none of {', '.join(words)}")
        return value

    def number(self, name: str, limit: int = NUMBER_LIMIT) -> int:
        value = self.tree.get(name)
        if not isinstance(value, int) or isinstance(value, bool) or not 0 <= value < limit:
            raise self.bad(name, f"not a whole number below {limit}")
        return value

    def due(self, name: str, due: int) -> None:
        """Refuses another number than the one that is due."""
        if self.number(name) != due:
            raise self.bad(name, f"not {due}")

    def number_or_none(self, name: str, limit: int = NUMBER_LIMIT) -> int | None:
        return None if self.tree.get(name) is None else self.number(name, limit)

    def cost(self, name: str) -> int:
        value = self.tree.get(name)
        if not isinstance(value, str) or not re.fullmatch(NUMBER_TEXT, value):
            raise self.bad(name, "not a number as a text")
        return int(value)

    def weight(self) -> Weight | None:
        if self.tree.get("cost") is None and self.tree.get("hops") is None:
            return None
        return Weight(self.cost("cost"), self.number("hops", HOPS_MOST + 1))

    def place(self, port: str, label: str) -> Place:
        return Place(self.text(port), self.number_or_none(label, LABEL_LIMIT))

    def parts(self, name: str) -> Iterator["_Part"]:
        items = self.tree.get(name)
        if not isinstance(items, list):
            raise self.bad(name, "not an array")
        return (_Part(item, f"{name}[{at}]") for at, item in enumerate(items))

    def part(self, name: str) -> "_Part":
        return _Part(self.tree.get(name), f"the member {json.dumps(name)}")

    def bad(self, name: str, reason: str) -> JsonFault:
        return JsonFault(f"{self.where}: {json.dumps(name)} is {reason}")


def _text_of(part: _Part) -> Text:
    kind = part.text("kind")
    if kind == "answer":
        return _answer_of(part)
    if kind == "list":
        return _list_of(part)
    if kind == "survey":
        return _counts_of(part)
    if kind == "drill":
        return _drill_of(part)
    if kind in KINDS_OF_LINES:
        return _line_of(part, kind)
    raise part.bad("kind", "none that finder prints")


def _answer_of(part: _Part) -> Answer:
    part.only("kind", "request", "outcome", "hops", "domains", "top", "seg")
    return Answer(_request_of(part.part("request")), _outcome_of(part.part("outcome")),
                  [_hop_of(hop, number) for number, hop in enumerate(part.parts("hops"), 1)],
                  list(map(_domain_of, part.parts("domains"))),
                  list(map(_top_of, part.parts("top"))), list(map(_seg_of, part.parts("seg"))))


def _request_of(part: _Part) -> Request:
    part.only("from", "fromLabel", "to", "toLabel")
    return Request(part.text("from"), part.number_or_none("fromLabel", LABEL_LIMIT),
                   part.text("to"), part.number_or_none("toLabel", LABEL_LIMIT))


def _outcome_of(part: _Part, words: tuple[str, ...] = ("found", "none", "past", "long")) -> Outcome:
    part.only("word", "cost", "hops")
    word = part.word("word", words)
    weight = part.weight()
    if (weight is None) == (word in ("found", "long")):
        raise part.bad("cost", f"{'absent' if weight is None else 'given'}, which {word} does not allow")
    return Outcome(word, weight)


def _hop_of(part: _Part, due: int) -> Hop:
    part.only(*LISTED_HOP, "again")
    return _any_hop_of(part, due)


def _listed_hop_of(part: _Part, due: int) -> Hop:
    part.only(*LISTED_HOP)
    return _any_hop_of(part, due)


def _any_hop_of(part: _Part, due: int) -> Hop:
    part.due("number", due)
    return Hop(part.word("kind", KINDS), part.text("element"), part.place("from", "fromLabel"), part.place("to", "toLabel"),
               part.text("domain"), part.number_or_none("again"))


def _list_of(part: _Part) -> WalkList:
    part.only("kind", "request", "walks", "more")
    return WalkList(_request_of(part.part("request")), [_walk_of(walk, number) for number, walk in enumerate(part.parts("walks"), 1)],
                    _outcome_of(part.part("more"), MORE_WORDS))


def _walk_of(part: _Part, due: int) -> ListedWalk:
    part.only("number", "cost", "hops")
    part.due("number", due)
    hops = [_listed_hop_of(hop, number) for number, hop in enumerate(part.parts("hops"), 1)]
    return ListedWalk(Weight(part.cost("cost"), len(hops)), hops)


def _domain_of(part: _Part) -> DomainRules:
    part.only("domain", "rules")
    return DomainRules(part.text("domain"), list(map(_rule_of, part.parts("rules"))))


def _rule_of(part: _Part) -> Rule:
    part.only("number", "verb", "element", "from", "fromLabel", "to", "toLabel")
    return Rule(part.number("number"), part.word("verb", VERBS), part.text("element"),
                part.place("from", "fromLabel"), part.place("to", "toLabel"))


def _top_of(part: _Part) -> Potential:
    part.only("port", "label", "cost", "hops")
    return Potential(None, part.place("port", "label"), part.weight())


def _seg_of(part: _Part) -> Potential:
    part.only("root", "rootLabel", "port", "label", "cost", "hops")
    return Potential(part.place("root", "rootLabel"), part.place("port", "label"), part.weight())


def _counts_of(part: _Part) -> Counts:
    part.only("kind", "domains", "totals")
    domains = []
    for domain in part.parts("domains"):
        domain.only("domain", "elements")
        domains.append((domain.text("domain"), domain.number("elements")))
    return Counts(domains, _totals_of(part.part("totals"), TOTALS))


def _totals_of(part: _Part, names: tuple[str, ...]) -> dict[str, int]:
    part.only(*names)
    return {name: part.number(name) for name in names}


def _drill_of(part: _Part) -> Drill:
    part.only("kind", "levels", "totals", "outcome", "replay")
    replay = None if part.tree["replay"] is None else _carried_of(part.part("replay"))
    return Drill(part.number("levels"), _totals_of(part.part("totals"), DRILL_TOTALS), _outcome_of(part.part("outcome")), replay)


def _carried_of(part: _Part) -> Line:
    return _line_of(part, part.word("kind", ("carried",)))


def _line_of(part: _Part, kind: str) -> Line:
    word = part.word("word", tuple(known for of, known in FORMS if of == kind))
    names = fields_of(kind, word)
    part.only("kind", "word", *names)
    return Line(kind, word, {name: _field_of(part, name) for name in names})


def _field_of(part: _Part, name: str) -> int | str:
    if name == "cost":
        return part.cost(name)
    return part.text(name) if is_text_field(name) else part.number(name)
