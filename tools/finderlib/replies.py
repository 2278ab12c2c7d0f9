"""The texts that finder prints besides answer documents: counts, what `drill` prints, and single lines that refuse or judge."""
import re
from collections.abc import Iterator
from dataclasses import dataclass

from finderlib.documents import ID_TEXT, NUMBER_LIMIT, NUMBER_TEXT, DocumentFault, Outcome, outcome_line, read_outcome
from finderlib.topologies import RELATIONS

# each line by its kind and its word, with the names of its fields in braces
FORMS: dict[tuple[str, str], str] = {
    ("fault", "json"): "fault {file} 0 json",
    ("fault", "shape"): "fault {file} {element} shape {rule}",
    ("fault", "label"): "fault {file} {element} label {length}",
    ("fault", "duplicate-topology"): "fault {file} 0 duplicate-topology {topology} {firstFile}",
    ("fault", "duplicate-id"): "fault {file} {element} duplicate-id {id} {firstFile} {firstElement}",
    ("fault", "wrong-kind"): "fault {file} {element} wrong-kind {member} {target}",
    ("fault", "alias-encoding"): "fault {file} {element} alias-encoding {firstPort} {port}",
    ("fault", "alias-label"): "fault {file} {element} alias-label {firstPort} {port}",
    ("fault", "link-layer"): "fault {file} {element} link-layer {link} {port}",
    ("fault", "link-label"): "fault {file} {element} link-label {link} {port}",
    ("fault", "switch-layer"): "fault {file} {element} switch-layer {service} {port}",
    ("fault", "switch-label"): "fault {file} {element} switch-label {service} {port}",
    ("request", "unknown-port"): "request unknown-port {port}",
    ("request", "label-not-here"): "request label-not-here {port} {label}",
    ("read", "absent"): "read {number} absent",
    ("read", "failed"): "read {number} failed",
    ("read", "too-big"): "read {number} too-big",
    ("usage", ""): "usage: {words}",
    ("valid", "found"): "valid found {cost} {hops}",
    ("valid", "long"): "valid long {cost} {hops}",
    ("valid", "none"): "valid none",
    ("valid", "past"): "valid past",
    ("not-valid", ""): "not-valid {line} {rule}",
    ("carried", "any-order"): "carried {hops} any-order",
    ("carried", "numbered"): "carried {hops} numbered",
    **{("not-carried", word): f"not-carried {{rule}} {word}"
       for word in ("text", "outcome", "request", "number", "no-hop", "label", "frame", "end")},
}
KINDS_OF_LINES = frozenset(kind for kind, _ in FORMS)
TOTALS = ("ports", "classes", "links", "services", "open-references")
DRILL_TOTALS = ("domains", "ports", "links", "services")

_ID_FIELDS = frozenset({"topology", "id", "target", "port", "firstPort", "link", "service"})
_FIELD = re.compile(r"\{(\w+)\}")
_DOMAIN = re.compile(rf"domain ({ID_TEXT}) ({NUMBER_TEXT})")


@dataclass(slots=True)
class Line:
    """A line that refuses or judges; its fields are numbers, or texts: ids, a relation's name, the words of the usage line."""
    kind: str
    word: str
    fields: dict[str, int | str]


@dataclass(slots=True)
class Counts:
    """What `survey` prints: each domain with the number of its elements, and the totals by their names."""
    domains: list[tuple[str, int]]
    totals: dict[str, int]


@dataclass(slots=True)
class Drill:
    """What `drill` prints: the levels, the totals of the network by their names, the outcome, and the line of `carried`, if any."""
    levels: int
    totals: dict[str, int]
    outcome: Outcome
    replay: Line | None


def fields_of(kind: str, word: str) -> list[str]:
    """The names of the fields of a line, in order."""
    return _FIELD.findall(FORMS[kind, word])


def is_text_field(name: str) -> bool:
    return name in _ID_FIELDS or name in ("member", "words")


def _pattern(template: str) -> re.Pattern[str]:
    """What a line matches, a group for each of its fields."""
    parts = []
    for at, part in enumerate(_FIELD.split(template)):
        if at % 2 == 0:
            parts.append(re.escape(part))
        elif part in _ID_FIELDS:
            parts.append(f"({ID_TEXT})")
        elif part == "member":
            parts.append(f"({'|'.join(sorted(RELATIONS))})")
        elif part == "words":
            parts.append("([ -~]*)")
        else:
            parts.append(f"({NUMBER_TEXT})")
    return re.compile("".join(parts))


_PATTERNS = {form: _pattern(template) for form, template in FORMS.items()}


def read_line(data: bytes) -> Line:
    """The one line that a text is; raises DocumentFault where it is none."""
    text, newline, more = data.decode("latin-1").partition("\n")
    form, match = next(((form, match) for form, pattern in _PATTERNS.items() if (match := pattern.fullmatch(text))), (None, None))
    if form is None or match is None:
        raise DocumentFault(1, "finder prints no such line")
    if not newline:
        raise DocumentFault(1, "no newline ends it")
    if more:
        raise DocumentFault(2, "the text has one line alone")
    return Line(*form, {name: value if is_text_field(name) else _number(value, 1) for name, value in zip(fields_of(*form), match.groups())})


def write_line(line: Line) -> bytes:
    return (FORMS[line.kind, line.word].format(**line.fields) + "\n").encode("ascii")


def read_counts(data: bytes) -> Counts:
    """The counts that a text spells; raises DocumentFault at the first line that does not fit."""
    lines = data.decode("latin-1").split("\n")
    unfinished = lines.pop()
    if not lines or lines[0] != "survey":
        raise DocumentFault(1, "`survey` is due")
    domains = []
    for at in range(1, len(lines)):
        match = _DOMAIN.fullmatch(lines[at])
        if match is None:
            break
        domains.append((match[1], _number(match[2], at + 1)))
    if not domains:
        raise DocumentFault(2, "a domain is due")
    totals = {}
    for at, name in enumerate(TOTALS, 1 + len(domains)):
        match = re.fullmatch(f"{name} ({NUMBER_TEXT})", lines[at]) if at < len(lines) else None
        if match is None:
            raise DocumentFault(at + 1, f"`{name} N` is due")
        totals[name] = _number(match[1], at + 1)
    past = 1 + len(domains) + len(TOTALS)
    if past < len(lines) or unfinished:
        raise DocumentFault(past + 1, "the counts ended before it")
    return Counts(domains, totals)


def write_counts(counts: Counts) -> bytes:
    return "".join(line + "\n" for line in _count_lines(counts)).encode("ascii")


def _count_lines(counts: Counts) -> Iterator[str]:
    yield "survey"
    yield from (f"domain {name} {number}" for name, number in counts.domains)
    yield from (f"{name} {counts.totals[name]}" for name in TOTALS)


def read_drill(data: bytes) -> Drill:
    """What `drill` printed; raises DocumentFault at the first line that does not fit."""
    lines = data.decode("latin-1").split("\n")
    unfinished = lines.pop()
    lines += [""] * (5 - len(lines))
    levels = re.fullmatch(f"drill ({NUMBER_TEXT})", lines[0])
    if levels is None:
        raise DocumentFault(1, "`drill N` is due")
    totals = re.fullmatch(" ".join(f"{name} ({NUMBER_TEXT})" for name in DRILL_TOTALS), lines[1])
    if totals is None:
        raise DocumentFault(2, "the totals are due")
    outcome = read_outcome(lines[2], 3)
    if lines[3] != "check valid":
        raise DocumentFault(4, "`check valid` is due")
    replay = _read_replay(lines[4])
    if len(lines) > 5 or unfinished:
        raise DocumentFault(6, "the text ended before it")
    numbers = {name: _number(number, 2) for name, number in zip(DRILL_TOTALS, totals.groups())}
    return Drill(_number(levels[1], 1), numbers, outcome, replay)


def _read_replay(text: str) -> Line | None:
    if text == "replay -":
        return None
    line = read_line(text.removeprefix("replay ").encode("latin-1") + b"\n") if text.startswith("replay carried ") else None
    if line is None:
        raise DocumentFault(5, "`replay -` or `replay carried ..` is due")
    return line


def write_drill(drill: Drill) -> bytes:
    totals = " ".join(f"{name} {drill.totals[name]}" for name in DRILL_TOTALS)
    replay = "-" if drill.replay is None else write_line(drill.replay).decode("ascii").rstrip("\n")
    return f"drill {drill.levels}\n{totals}\n{outcome_line(drill.outcome)}\ncheck valid\nreplay {replay}\n".encode("ascii")


def _number(text: str, line: int) -> int:
    value = int(text)
    if value >= NUMBER_LIMIT:
        raise DocumentFault(line, f"the number {text} is too large")
    return value
