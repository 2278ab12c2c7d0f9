"""What the lines mean with which finder refuses or judges: where it is, what is wrong, and what to do."""
from collections.abc import Callable
from dataclasses import dataclass
from functools import cached_property
from typing import Any

from finderlib.commands import ToolFault, read_bytes
from finderlib.documents import Answer, DocumentFault, read_answer, rule_line
from finderlib.faults import accepted_network
from finderlib.loose import LooseFile, read_loosely, shown, title
from finderlib.replies import Line, write_line
from finderlib.topologies import FILE_LIMIT, FILES_MOST, MEMBERS, PORTS, RELATIONS, Labels, Network, TopologyFault, read_domain, targets_of

ANSWER_LIMIT = 2**30
AN_ID = "an id: 1 to 255 characters, printable ASCII without spaces"


@dataclass(slots=True)
class Explanation:
    where: str
    wrong: str
    remedy: str


# At which word FROM stands, of the commands that have a request.
REQUEST_AT = {"find": 1, "route": 1, "k-find": 2}


class Words:
    """The words that finder was called with, and the files that they name, read when they are asked for."""

    def __init__(self, words: list[str]):
        self.words = words
        self.command = words[0] if words else ""
        first = {"find": 5, "route": 5, "k-find": 6, "check": 2, "replay": 2, "survey": 1}.get(self.command, len(words))
        self.files = words[first:]
        self.answer_file = words[1] if self.command in ("check", "replay") and len(words) > 1 else None
        self._contents: dict[int, LooseFile] = {}

    def name(self, number: int) -> str:
        """The file of a number from 1; 0 is the document."""
        name = self.answer_file if number == 0 else self.files[number - 1] if 1 <= number <= len(self.files) else None
        if name is None:
            raise ToolFault(f"the line speaks of file {number}, and the words name none: give the words that finder was called with")
        return name

    def file(self, number: int) -> str:
        return f"file {number}, {self.name(number)}"

    def data(self, number: int) -> bytes:
        return read_bytes(self.name(number), ANSWER_LIMIT if number == 0 else FILE_LIMIT)

    def loose(self, number: int) -> LooseFile:
        if number not in self._contents:
            self._contents[number] = read_loosely(self.data(number))
        return self._contents[number]

    def entry(self, file: int, element: int) -> Any:
        """An element as it stands, which has to be there."""
        return self.loose(file).entry(element)

    def at(self, file: int, element: int) -> str:
        """Where an element stands."""
        if element == 0:
            return self.file(file)
        return f"{self.file(file)}, element {element}: {title(self.entry(file, element))}"

    @cached_property
    def network(self) -> Network:
        """The network of the files, which have no fault of reading."""
        return Network([read_domain(self.data(number), number) for number in range(1, len(self.files) + 1)])

    @cached_property
    def fault(self) -> str | None:
        """The first fault of the files, as its line."""
        try:
            accepted_network([self.data(number) for number in range(1, len(self.files) + 1)])
        except TopologyFault as fault:
            return str(fault)
        return None

    def refusal(self) -> str | None:
        """The refusal of a request over accepted files, as its line."""
        at = REQUEST_AT.get(self.command)
        if at is None or len(self.words) < at + 5:
            return None
        source, source_wish, target, target_wish = self.words[at:at + 4]
        for port in (source, target):
            if not self.network.is_port(port):
                return f"request unknown-port {port}"
        for port, wish in ((source, source_wish), (target, target_wish)):
            labels = self.network.labels_of[self.network.class_of[port]]
            if wish != "any" and (labels is None or int(wish) not in labels):
                return f"request label-not-here {port} {wish}"
        return None

    def require(self, line: Line) -> None:
        """Refuses a line about files or a request that is not the one that finder prints for these words."""
        if line.kind in ("fault", "request"):
            due = self.fault or (self.refusal() if line.kind == "request" else None)
            if write_line(line) != f"{due}\n".encode():
                said = f"with `{due}`" if due else "with no such line"
                raise ToolFault(f"over these words and files finder ends {said}: give those that it was called with")

    @cached_property
    def document(self) -> bytes:
        return self.data(0)

    def document_line(self, number: int) -> str:
        lines = self.document.decode("latin-1").split("\n")
        if number > len(lines) or (number == len(lines) and not lines[-1]):
            return f"{self.name(0)}, behind its last line"
        return f"{self.name(0)}, line {number}: {lines[number - 1][:200]}"


# ---- faults of reading

# for each shape rule: the member that it is about, and what it has to be
SHAPES: dict[int, tuple[str, str]] = {
    2: ("format", "the whole number 1"),
    3: ("topology", f"{AN_ID}. It names the domain"),
    4: ("encoding", f"{AN_ID}; or it is left out"),
    5: ("elements", "an array of at most 16,777,216 elements"),
    7: ("type", "a text, such as \"Port\" or \"Link\""),
    8: ("id", AN_ID),
    10: ("labelSwapping", "true or false; or it is left out, which means false"),
    11: ("adaptationFunction", f"{AN_ID}. An adaptation and a deadaptation match where they have the same"),
    12: ("cost", "a whole number from 0 to 18446744073709551615, without a point, an exponent or quotes; or it is left out, which means 1"),
    13: ("hasLabel", "an object with \"labeltype\", an id, and \"value\", a whole number from 0 to 4294967295; or it is left out"),
    14: ("hasLabelGroup", "an object with \"labeltype\", an id, and \"values\", a text such as \"100-200,300\"; or it is left out"),
    15: ("existsDuring", "an object with \"start\", a whole number, or 0 where it is left out, and \"end\", a greater whole number, or no end where it is left out; both at most 18446744073709551615; or it is left out, which means always"),
}


def explain_json(words: Words, fields: dict[str, Any]) -> Explanation:
    file = fields["file"]
    fault = words.loose(file).fault or ("it nests deeper than 127, has a number too large for a float, or a text with half of a pair of "
                                        "surrogates (\\ud800 to \\udfff)")
    return Explanation(words.file(file), f"The file is no JSON that finder reads: {fault}.",
                       "Mend the text there. A file is one JSON object in UTF-8, without a byte order mark and with nothing behind it.")


def explain_shape(words: Words, fields: dict[str, Any]) -> Explanation:
    file, number, rule = fields["file"], fields["element"], fields["rule"]
    entry = words.entry(file, number) if number else words.loose(file).tree
    where = words.at(file, number)
    if rule in (1, 6):
        what = "file" if rule == 1 else "element"
        return Explanation(where, f"The {what} is {shown(entry)}, and no object.", f"Write the {what} as an object: {{...}}.")
    member, due = (_wrong_relation(entry), "an array of ids, such as [\"a\",\"b\"]; or it is left out") if rule == 9 else SHAPES[rule]
    value = entry.get(member)
    state = "is not there" if value is None else f"is {shown(value)}"
    if rule == 5 and isinstance(value, list):
        state = f"has {len(value)} elements"
    return Explanation(where, f"\"{member}\" {state}.", f"\"{member}\" has to be {due}.")


def _wrong_relation(entry: dict[str, Any]) -> str:
    """The first relation of an element, in the order of reading, that is no array of ids."""
    members = MEMBERS.get(str(entry.get("type")), ())
    for name in members:
        value = entry.get(name)
        if name in RELATIONS and value is not None and not (isinstance(value, list) and all(_is_id(target) for target in value)):
            return name
    return ""


def _is_id(value: Any) -> bool:
    return isinstance(value, str) and 1 <= len(value) <= 255 and all("!" <= letter <= "~" for letter in value)


def explain_label(words: Words, fields: dict[str, Any]) -> Explanation:
    file, number, length = fields["file"], fields["element"], fields["length"]
    text = words.entry(file, number)["hasLabelGroup"]["values"]
    fits = f"{shown(text[:length])} fits, and {shown(text[length:])} behind it does not" if length else "nothing at its beginning fits"
    return Explanation(words.at(file, number), f"\"values\" of \"hasLabelGroup\" is {shown(text)}: {fits}.",
                       "Write labels `a` and ranges `a-b`, a at most b, joined by commas without spaces. A label is a number from 0 to "
                       "4294967295 without a zero in front.")


# ---- faults of merging and of the layers

def explain_duplicate_topology(words: Words, fields: dict[str, Any]) -> Explanation:
    first = words.file(fields["firstFile"])
    return Explanation(words.file(fields["file"]), f"Its topology id {fields['topology']} is that of {first} too.",
                       "Name each file once, and give each domain an id of its own.")


def explain_duplicate_id(words: Words, fields: dict[str, Any]) -> Explanation:
    first = words.at(fields["firstFile"], fields["firstElement"])
    return Explanation(words.at(fields["file"], fields["element"]), f"Its id is that of another element: {first}.",
                       "Ids are unique over all files of a run. Give one of them another id, with all that name it; where both mean one port "
                       "of two domains, give it two ids and an isAlias from one to the other.")


def explain_wrong_kind(words: Words, fields: dict[str, Any]) -> Explanation:
    member, target = fields["member"], fields["target"]
    kind = words.entry(fields["file"], fields["element"])["type"]
    named = words.network.elements[target]
    what = f"a {named.type} ({words.file(named.file)}, element {named.number})"
    remedy = f"{member} of a {kind} may name: {', '.join(sorted(targets_of(kind, member)))}."
    if member in ("isSource", "isSink"):
        remedy += " A port says `isSource` of the link that it sends into and `isSink` of the link that it takes from."
    if member == "hasService" and kind in PORTS:
        remedy += " A switching service is named by a Node, or lists its ports itself."
    return Explanation(words.at(fields["file"], fields["element"]), f"It names {target} in {member}, and {target} is {what}.", remedy)


def _layer(words: Words, port: str) -> str:
    element = words.network.elements[port]
    return f"the encoding {words.network.encoding_of(element)} and {_labels(element.labels)}"


def _labels(labels: Labels | None) -> str:
    return "no labels" if labels is None else f"labels of the type {labels.labeltype}"


def explain_alias(words: Words, fields: dict[str, Any], what: str) -> Explanation:
    first, port = fields["firstPort"], fields["port"]
    return Explanation(words.at(fields["file"], fields["element"]),
                       f"Ports that are linked by isAlias are one place of one layer, and {first} and {port} have different {what}s: "
                       f"{first} has {_layer(words, first)}, {port} has {_layer(words, port)}.",
                       f"Give all ports of the class the same {what}, or take the isAlias away. A port without an encoding has that of its "
                       "file, else `none`. What leads from one layer to another is an adaptation or a conversion.")


def explain_joined(words: Words, fields: dict[str, Any], kind: str, what: str) -> Explanation:
    name, port = fields[kind], fields["port"]
    element = words.network.elements[name]
    own = [] if element.encoding is None else [f"the encoding {element.encoding}"]
    if element.labels is not None:
        own.append(_labels(element.labels))
    stated = f"It states {' and '.join(own)}" if own else "It states neither, so that its first port decides"
    others = "all ports that name it in isSource or isSink" if kind == "link" else "all its inbound and outbound ports"
    return Explanation(words.at(fields["file"], fields["element"]),
                       f"A {'link' if kind == 'link' else 'switching service'} joins ports of one layer, and {port} differs in its {what}. {stated}. "
                       f"{port} has {_layer(words, port)}.",
                       f"Give {others} the same {what}"
                       + (", or let the Node lend the service fewer ports by an encoding of the service." if kind == "service" else ".")
                       + " A port without an encoding has that of its file, else `none`.")


# ---- refusals of a request

def explain_unknown_port(words: Words, fields: dict[str, Any]) -> Explanation:
    port = fields["port"]
    named = words.network.elements.get(port)
    wrong = f"No Port or PortGroup of the files has the id {port}."
    if named is not None:
        wrong = f"{port} is no port but a {named.type}: {words.file(named.file)}, element {named.number}."
    else:
        for number in range(1, len(words.files) + 1):
            place = next((at for at, entry in enumerate(words.loose(number).entries, 1) if isinstance(entry, dict) and entry.get("id") == port), None)
            if place is not None:
                wrong = f"{port} is {words.at(number, place)}, which finder reads over: its type is none of those that are read."
    return Explanation(_end(words, port), wrong,
                       "Name a port by its whole id, letter by letter, and name all files that the circuit may use.")


def _end(words: Words, port: str) -> str:
    first = REQUEST_AT.get(words.command, len(words.words))
    ends = [end for end, at in (("FROM", first), ("TO", first + 2)) if words.words[at:at + 1] == [port]]
    return f"{' and '.join(ends)} of the request" if ends else "the request"


def explain_label_not_here(words: Words, fields: dict[str, Any]) -> Explanation:
    port, label = fields["port"], fields["label"]
    name = words.network.class_of[port]
    members, labels = words.network.members_of[name], words.network.labels_of[name]
    if labels is None:
        return Explanation(_end(words, port), f"{port} has no labels, and the request states the label {label}.", "Say `any` there.")
    lacking = [member for member in members if member.labels is None or label not in member.labels]
    who = ", ".join(f"{member.id} ({shown(member.labels.text() if member.labels else '', 40)[1:-1]})" for member in lacking[:5])
    return Explanation(_end(words, port),
                       f"The label {label} is not at {port}. " + (f"It is one class with its aliases, and these lack it: {who}."
                                                                if len(members) > 1 else f"It has {shown(labels.text(), 80)[1:-1]}."),
                       f"The labels there are {shown(labels.text(), 80)[1:-1] or 'none'}. Say one of them, or `any`.")


# ---- files that are not read, and words

def explain_read(words: Words, fields: dict[str, Any], word: str) -> Explanation:
    number = fields["number"]
    limit = "1,073,741,824" if number == 0 else "16,777,216"
    wrong, remedy = {
        "absent": ("There is no file of this name.", "Look at its name, and at the folder in which finder was called."),
        "failed": ("The system did not let it be read: it may be a folder, or not be yours to read.", "Look at what it is, and at its rights."),
        "too-big": (f"It has more than {limit} bytes.", "Split the domain into several files, each with a topology id of its own: up to 64."),
    }[word]
    return Explanation(f"file {number}, {words.name(number)}" if number else f"the document, {words.name(0)}", wrong, remedy)


def explain_usage(words: Words, fields: dict[str, Any]) -> Explanation:
    return Explanation("the words", _wrong_words(words), f"finder takes these: {fields['words']}.")


def _wrong_words(words: Words) -> str:
    needed = {"find": 6, "route": 6, "k-find": 7, "check": 3, "replay": 3, "survey": 2, "drill": 2}
    if words.command not in needed:
        return f"{shown(words.command)} is no command." if words.words else "There are no words."
    if len(words.words) < needed[words.command]:
        return f"`{words.command}` needs at least {needed[words.command] - 1} words behind it, and has {len(words.words) - 1}."
    if words.command == "k-find" and words.words[1] not in [str(number) for number in range(1, 101)]:
        return "`k-find` takes first a number from 1 to 100 without a zero in front."
    if words.command in REQUEST_AT:
        first = REQUEST_AT[words.command]
        for at in (first, first + 2):
            if not _is_id(words.words[at]):
                return f"{shown(words.words[at])} is no id: 1 to 255 characters, printable ASCII without spaces."
        for at in (first + 1, first + 3):
            if words.words[at] != "any" and not (words.words[at].isascii() and words.words[at].isdigit()
                                                 and str(int(words.words[at][:20])) == words.words[at] and int(words.words[at]) < 2**32):
                return f"{shown(words.words[at])} is no label: `any`, or a number from 0 to 4294967295 without a zero in front."
    if len(words.files) > FILES_MOST:
        return f"There are {len(words.files)} files, and 64 is the most."
    if words.command == "drill":
        return "`drill` takes one number from 1 to 4096 without a zero in front."
    return "A name of a file is empty, or the command is not built into this finder."


# ---- documents

RULES = {
    1: "The text does not fit the layout of a document at this line.",
    2: "FROM or TO of the request is no port of the files, or a stated label is not at its port.",
    3: "This hop does not take the unit that the hops before it left: its element, ports, labels or domain are not so in the files, or "
       "another frame is on top.",
    4: "The hops do not end at TO with a label that the request allows and without a frame; or there are none, and FROM and TO are not one place.",
    5: "The stated cost and number of hops are not those of the hops, or the number is on the wrong side of 65,536.",
    6: "`again` does not tell where the place behind this hop was first.",
    7: "The domain and rule lines are not those of the hops.",
    8: "A place of this line is not named by the first port of its class, is not open, or its label is not the least of those that nothing "
       "tells apart.",
    9: "A place where the request begins is not listed with `0 0`, or an entered place is not listed at itself with `0 0`. A document of "
       "`route` has no potentials, and fails here.",
    10: "A hop leads from the place of this line to a place that is listed with more than the sum, or not at all.",
    11: "An adaptation leads from the place of this line to a place from which no `seg` line begins.",
    12: "An adaptation, a `seg` line and a deadaptation lead from the place of this line to a place that is listed with more than the sum, or "
        "not at all.",
    13: "The outcome is not the least weight that is listed at TO.",
}
FRESH = ("A document is believed only as it was printed, over the files that it was found for, in the same order. Call `find` again where the "
         "files have changed.")

A_LIST = "This is a list of `k-find`, and `check` and `replay` take documents alone: those of `find`, and for `replay` those of `route` too."


def explain_not_valid(words: Words, fields: dict[str, Any]) -> Explanation:
    rule = fields["rule"]
    if rule not in RULES:
        raise ToolFault(f"there is no rule {rule}")
    remedy = A_LIST if words.document.startswith(b"circuits ") else FRESH
    return Explanation(words.document_line(fields["line"]), f"Rule {rule} fails here. {RULES[rule]}", remedy)


def explain_not_carried(words: Words, fields: dict[str, Any], word: str) -> Explanation:
    number = fields["rule"]
    if word == "text":
        remedy = A_LIST if words.document.startswith(b"circuits ") else FRESH
        return Explanation(f"the document, {words.name(0)}", _misfit(words), remedy)
    answer = _answer(words)
    if word == "outcome":
        return Explanation(words.document_line(3), "No circuit is found, so that there is none to carry a unit over.",
                           "Replay a document whose outcome is found.")
    if word == "request":
        return Explanation(words.document_line(2), RULES[2], FRESH)
    if word == "number":
        times = sum(rule.number == number for part in answer.domains for rule in part.rules)
        return Explanation(f"the document, {words.name(0)}", f"Rule {number} stands there {'not at all' if not times else f'{times} times'}; each "
                           "number from 1 to the number of rules is due once.", "Hand over the rules of all domains, each once.")
    if word == "end":
        return Explanation(f"the document, {words.name(0)}", f"The {number} rules carry the unit, and it is not at TO without a frame behind them.",
                           "Rules are missing at the end, or the request is another one.")
    rules = [rule_line(rule) for part in answer.domains for rule in part.rules if rule.number == number]
    wrong = {
        "no-hop": "It is no hop of the unit: its element is not there, is of another kind or domain or does not relate its two ports, or the "
                  "unit is not at its first port.",
        "label": "A label does not fit: the unit has another, it is not at the port, or the link or service does not let it pass.",
        "frame": "It takes off a frame that is not on top of the unit.",
    }[word]
    return Explanation(f"{words.name(0)}: {rules[0] if rules else f'rule {number}'}", wrong,
                       "The rule, or one before it, is not that of a circuit over these files. " + FRESH)


def _misfit(words: Words) -> str:
    try:
        read_answer(words.document)
    except DocumentFault as fault:
        return f"The text is no document: line {fault.line} does not fit, {fault.reason}."
    return "The text is no document."


def _answer(words: Words) -> Answer:
    try:
        return read_answer(words.document)
    except DocumentFault as fault:
        raise ToolFault(f"{words.name(0)}: {fault}") from fault


EXPLAINERS: dict[tuple[str, str], Callable[[Words, dict[str, Any]], Explanation]] = {
    ("fault", "json"): explain_json,
    ("fault", "shape"): explain_shape,
    ("fault", "label"): explain_label,
    ("fault", "duplicate-topology"): explain_duplicate_topology,
    ("fault", "duplicate-id"): explain_duplicate_id,
    ("fault", "wrong-kind"): explain_wrong_kind,
    ("fault", "alias-encoding"): lambda words, fields: explain_alias(words, fields, "encoding"),
    ("fault", "alias-label"): lambda words, fields: explain_alias(words, fields, "label type"),
    ("fault", "link-layer"): lambda words, fields: explain_joined(words, fields, "link", "encoding"),
    ("fault", "link-label"): lambda words, fields: explain_joined(words, fields, "link", "label type"),
    ("fault", "switch-layer"): lambda words, fields: explain_joined(words, fields, "service", "encoding"),
    ("fault", "switch-label"): lambda words, fields: explain_joined(words, fields, "service", "label type"),
    ("request", "unknown-port"): explain_unknown_port,
    ("request", "label-not-here"): explain_label_not_here,
    ("usage", ""): explain_usage,
    ("not-valid", ""): explain_not_valid,
    **{("read", word): lambda words, fields, word=word: explain_read(words, fields, word) for word in ("absent", "failed", "too-big")},
    **{("not-carried", word): lambda words, fields, word=word: explain_not_carried(words, fields, word)
       for word in ("text", "outcome", "request", "number", "no-hop", "label", "frame", "end")},
}


def explain(line: Line, words: list[str]) -> Explanation:
    """What a line means; raises ToolFault where it refuses nothing, or does not fit the words and files."""
    explainer = EXPLAINERS.get((line.kind, line.word))
    if explainer is None:
        raise ToolFault(f"`{line.kind} {line.word}` refuses nothing")
    called = Words(words)
    called.require(line)
    return explainer(called, line.fields)
