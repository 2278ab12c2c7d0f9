#!/usr/bin/env python3
"""Sends damaged files, documents and words to `finder`, and compares what it says with a plain reading of docs/FORMATS.md.

    python3 checks/damaged_input.py PROGRAM [--seconds N] [--seed N] [--count N] [--fixed]

An input is a small random network whose files are cut, doubled or flipped in a bit, have ids renamed across files, numbers at their limits,
surrogates and other escapes in texts, nesting at 126 to 128, members repeated, bytes that are no UTF-8, or are empty, gone, folders or too
big; or a document over it that is damaged in such ways; or words out of form. It goes to `find`, `route`, `survey`, `check` or `replay`.

The plain reading takes files, their faults and the verdict on a document from tools/verify, a checker that was written from FORMATS.md. It
adds here the words, reading, the faults of a request, counts, replay, and the least weights over kept labels (random_networks.py).

One input in five is a file that no dice make: a number, text or depth at the limits, in a place where one may stand, or a member of a
type with one of some values. With `--fixed` all of these are sent first.

Each input has a seed, from the first on. A difference is printed with its seed and what is due, and the exit status is 1. `--seed N
--count 1` makes that one input again. Without `--seed` the first seed is drawn from the clock, and printed.
"""
import argparse
import collections
import json
import os
import random
import re
import subprocess
import sys
import tempfile
import time

sys.path.insert(0, os.path.dirname(os.path.abspath(__file__)))
import random_networks as networks

VERIFY = networks.VERIFY
MOST_DIFFERENCES = 20
USAGE = (2, "usage: find|route FROM LABEL TO LABEL FILE.. | check|replay ANSWER FILE.. | survey FILE.. | drill N")
STATUSES = {"found": 0, "none": 1, "past": 7, "long": 8}
KINDS = {"carry": "link", "connect": "cross", "swap": "cross", "wrap": "adapt", "unwrap": "deadapt", "convert": "convert"}
FOLDER = object()


# ---- the plain reading: words and reading

def is_label(word):
    return word == "any" or (VERIFY.NUMBER.fullmatch(word) is not None and int(word) < VERIFY.LABELS)


def command_of(words):
    """The command, the words of its request, and the words that name its files; or nothing where this is usage."""
    command, *rest = words or [""]
    front = {"find": 4, "route": 4, "k-find": 5, "survey": 0, "check": 1, "replay": 1}.get(command)
    if front is None or not 1 <= len(rest) - front <= VERIFY.FILES_LIMIT or "" in rest:
        return None
    if command == "k-find" and rest[0] not in [str(k) for k in range(1, 101)]:
        return None
    source, source_wish, target, target_wish = rest[front - 4:front] if front >= 4 else ("a", "any", "b", "any")
    if not (VERIFY.is_id(source) and is_label(source_wish) and VERIFY.is_id(target) and is_label(target_wish)):
        return None
    names = rest if front == 1 else rest[front:]
    return None if any(re.search("[\ud800-\udfff]", word) for word in words) else (command, rest[max(front - 4, 0):front], names)


def unread(contents, first):
    """What is due for the first file that is not read, or nothing. `first` is its number: a document is 0."""
    for number, data in enumerate(contents, first):
        if data is None or data is FOLDER:
            return 5, f"read {number} {'absent' if data is None else 'failed'}"
        if len(data) > (VERIFY.FILE_LIMIT if number else VERIFY.ANSWER_LIMIT):
            return 11, f"read {number} too-big"
    return None


# ---- the plain reading: counts

def counts(domains, network):
    """The lines of `survey`."""
    everything = network.elements.values()
    kinds = collections.Counter(element.kind for element in everything)
    missing = sum(target not in network.elements for element in everything for targets in element.relations.values() for target in targets)
    totals = [("ports", len(network.ports)), ("classes", len(network.members)), ("links", sum(kinds[kind] for kind in VERIFY.LINKS)),
              ("services", sum(kinds[kind] for kind in VERIFY.SERVICES)), ("open-references", missing)]
    return ["survey", *(f"domain {name} {len(elements)}" for name, elements in domains), *(f"{name} {number}" for name, number in totals)]


# ---- the plain reading: replay

def rules_of(answer):
    """The number of each rule with its hop."""
    rules, domain = [], None
    for line in answer.rules:
        words = line.split(" ")
        if words[0] == "domain":
            domain = words[1]
            continue
        _, number, verb, element, source, tag, target, other = words
        hop = VERIFY.Hop(KINDS[verb], element, source, VERIFY.label_of(tag), target, VERIFY.label_of(other), domain, None)
        rules.append((int(number), hop))
    return rules


def replayed(network, document):
    """The line that `replay` owes."""
    try:
        answer = VERIFY.read_document(document)
    except VERIFY.NotValid:
        return "not-carried 0 text"
    if answer.outcome[0] != "found":
        return "not-carried 0 outcome"
    try:
        VERIFY.check_request(network, answer)
    except VERIFY.NotValid:
        return "not-carried 0 request"
    rules = rules_of(answer)
    standing = collections.Counter(number for number, _ in rules)
    missing = next((number for number in range(1, len(rules) + 1) if standing[number] != 1), None)
    if missing:
        return f"not-carried {missing} number"
    return carried(network, answer.request, [hop for _, hop in sorted(rules, key=lambda it: it[0])])


def carried(network, request, hops):
    """The line on hops that are taken one after another."""
    source, wish, target, target_wish = request
    if not hops:
        return "carried 0 any-order" if VERIFY.serves_both_ends(network, request) else "not-carried 0 end"
    places, stack = [network.place(source, hops[0].source_label if wish is None else wish)], []
    for number, hop in enumerate(hops, 1):
        refusal = refused(network, hop, places[-1], stack)
        if refusal:
            return f"not-carried {number} {refusal}"
        places.append(network.place(hop.target, hop.target_label))
    if stack or not network.is_allowed(places[-1], target, target_wish):
        return f"not-carried {len(hops)} end"
    return f"carried {len(hops)} {'any-order' if len(set(places)) == len(places) else 'numbered'}"


def refused(network, hop, place, stack):
    """Why a unit at this place does not take the hop, or nothing; then the stack is that behind the hop."""
    if network.class_of.get(hop.source) != place[0] or not VERIFY.relates(network, hop):
        return "no-hop"
    if hop.source_label != place[1] or not VERIFY.fits_labels(network, hop):
        return "label"
    function = network.elements[hop.element].function
    if hop.kind == "adapt":
        stack.append(network.frame(function, place))
    if hop.kind == "deadapt" and (not stack or stack.pop() != network.frame(function, network.place(hop.target, hop.target_label))):
        return "frame"
    return None


# ---- the plain reading: find and route

def request_of(words):
    source, wish, target, target_wish = words
    return source, VERIFY.wish_of(wish), target, VERIFY.wish_of(target_wish)


def request_fault(network, request):
    """The first fault of a request, or nothing."""
    ends = request[:2], request[2:]
    for port, _ in ends:
        if port not in network.ports:
            return f"request unknown-port {port}"
    for port, wish in ends:
        if wish is not None and not network.is_open(network.place(port, wish)):
            return f"request label-not-here {port} {wish}"
    return None


def kept_hops(network, steps):
    """Every hop over kept labels between classes, as `least_weights` takes them."""
    for name, (sources, targets) in network.ends.items():
        element = network.elements[name]
        places = [[place for port in dict.fromkeys(map(network.class_of.get, ports)) for place in steps.kept_places(port)]
                  for ports in (sources, targets)]
        keeps = element.kind not in ("AdaptationService", "DeadaptationService", "ConversionService") and not element.swapping
        for x in places[0]:
            for y in places[1]:
                own = element.labels is None or element.kind not in VERIFY.LINKS or VERIFY.has(element.labels, x[1])
                if own and (not keeps or x[1] == y[1]):
                    push = network.frame(element.function, x) if element.kind == "AdaptationService" else None
                    pop = network.frame(element.function, y) if element.kind == "DeadaptationService" else None
                    yield None, x, y, element.cost, push, pop


def place_words(place):
    return f"{place[0]} {'-' if place[1] == VERIFY.NO_LABEL else place[1]}"


def searched(network, request):
    """The outcome line, and the lines of potentials."""
    steps = VERIFY.Steps(network, request)
    source, wish, target, target_wish = request
    starts = [place for place in steps.kept_places(network.class_of[source]) if wish in (None, place[1])]
    weights = networks.least_weights(network, starts, list(kept_hops(network, steps)))
    top = weights.pop(None, {})
    found = [weight for place, weight in top.items() if network.is_allowed(place, target, target_wish)]
    lines = [f"top {place_words(y)} {networks.weight_words(top[y])}" for y in sorted(top)]
    for x in sorted(weights):
        lines += [f"seg {place_words(x)} {place_words(y)} {networks.weight_words(weights[x][y])}" for y in sorted(weights[x])]
    if not found:
        return "outcome none", lines
    cost, hops = min(found)
    word = "past" if cost >= VERIFY.COSTS else "long" if hops > VERIFY.HOP_LIMIT else "found"
    return f"outcome {word}" + ("" if word == "past" else f" {cost} {min(hops, VERIFY.MOST_HOPS)}"), lines


def wrong_document(text, words, network, contents, outcome, potentials):
    """Why this is no document of `find` or `route` that tells this, or nothing."""
    lines = text.split("\n")
    heading = ["circuit 1", "request " + " ".join(words[1:5]), outcome]
    if lines[:3] != heading:
        return f"the heading is not {heading}"
    potentials = potentials if words[0] == "find" else []
    if lines[-2 - len(potentials):] != [*potentials, "end", ""]:
        return "it does not end in\n" + "\n".join([*potentials, "end"])
    try:
        answer = VERIFY.read_document(text.encode())
        for rules in (VERIFY.check_request, VERIFY.check_hops, VERIFY.check_weight, VERIFY.check_flags, VERIFY.check_rules):
            rules(network, answer)
    except VERIFY.NotValid as failing:
        return "line {} fails rule {}".format(*failing.args)
    steps = VERIFY.Steps(network, answer.request)
    ends = [network.place(*end) for hop in answer.hops for end in ((hop.source, hop.source_label), (hop.target, hop.target_label))]
    if not all(map(steps.is_kept, ends)):
        return "a hop is not over kept labels"
    verdict = VERIFY.verdict(text.encode(), contents)
    due = (0, outcome.replace("outcome", "valid")) if words[0] == "find" else verdict
    return None if verdict == due else f"its verdict is {verdict}"


# ---- the plain reading: everything

def difference(words, stored, status, text):
    """What is due where this status and text are not, or nothing. `stored` has the content of each name."""
    spelled = command_of(words)
    if spelled is None:
        return told(USAGE, status, text)
    command, request, names = spelled
    contents = [stored.get(name) for name in names]
    is_document = command in ("check", "replay")
    gone = unread(contents, 0 if is_document else 1)
    if gone:
        return told(gone, status, text)
    document, files = (contents[0], contents[1:]) if is_document else (None, contents)
    try:
        domains = VERIFY.read_files(files)
        network = VERIFY.Network(domains)
    except VERIFY.Fault as fault:
        return told((3, str(fault)), status, text)
    if command == "survey":
        return told((0, "\n".join(counts(domains, network))), status, text)
    if command == "check":
        return told(VERIFY.verdict(document, files), status, text)
    if command == "replay":
        line = replayed(network, document)
        return told((0 if line.startswith("carried") else 9, line), status, text)
    fault = request_fault(network, request_of(request))
    if fault:
        return told((4, fault), status, text)
    outcome, potentials = searched(network, request_of(request))
    if status != STATUSES[outcome.split(" ")[1]]:
        return f"{outcome}, status {STATUSES[outcome.split(' ')[1]]}"
    if command == "k-find":
        return None
    return wrong_document(text, words, network, files, outcome, potentials)


def told(due, status, text):
    return None if (status, text) == (due[0], due[1] + "\n") else f"status {due[0]}: {due[1]}"


# ---- damage

NUMBERS = [
    "0", "1", "2", "-1", "-0", "1.0", "1e0", "1E0", "0e0", "0.5", "65536", "65537", "4294967294", "4294967295", "4294967296", "99999999999",
    "1099511627776", "1099511627777", "9223372036854775807", "9223372036854775808", "18446744073709551615", "18446744073709551616",
    "18446744073709551617", "99999999999999999999", "100000000000000000000", "1e19", "1e308", "1.7976931348623157e308",
    "1.7976931348623159e308", "1e309", "-1e309", "1e999", "1e-999", "0e999", "-0e-999", "1e99999999999", "1e-99999999999", "1" + "0" * 308,
    "1" + "0" * 309, "9" * 400, "0." + "0" * 400 + "1", "0." + "0" * 400 + "1e401", "1" + "0" * 400 + "e-400", "01", "00", "+1", ".5", "1.",
    "1e", "1e+", "0x1", "1_0", "--1", "NaN", "Infinity", "-Infinity", "true", "null", "١"]
LABEL_TEXTS = [
    "", "0", "1", "7", "0-7", "3-3", "5-3", "1,2", "2,1,1-5", "1-", "-1", "1--2", "1,,2", ",1", "1,", "01", "1-02", "0-4294967295",
    "4294967295", "4294967296", "1-4294967296", "4294967295-4294967296", "42949672950", "1,7-42949672960", "1 ,2", " 1", "1-2-3", "0-0",
    "00", "1.0", "1-5,x"]
ESCAPES = [
    rb"\ud800", rb"\udc00", rb"\ud83d\ude00", rb"\udc00\ud800", rb"\ud800\ud800", rb"\uD800\u0041", rb"\udbff\udfff", rb"\ud800\\udc00",
    rb"\u0000", rb"\u0041", rb"\u00e9", rb"\n", rb"\/", rb"\"", rb"\\", rb"\x", rb"\u12", rb"\u", rb"\uGGGG", b"\xff", b"\xc3\xa9",
    b"\xc0\x80", b"\xed\xa0\x80", b"\xf4\x90\x80\x80", b"\xf0\x9f\x98\x80", b"\xef\xbb\xbf", b"\x00", b"\x01", b"\x1f", b"\x7f", b" ",
    b"\t", b"\xe2\x80\xa8"]
MEMBERS = sorted({"format", "topology", "encoding", "elements", "type", "id"}.union(*VERIFY.MEMBERS.values()))
VALUES = [
    None, True, False, 0, 1, -1, 1.0, 2**32 - 1, 2**32, 2**64 - 1, 2**64, "", "x", "a b", "eth", "vlan", "é", "i" * 255, "i" * 256, "Port",
    "Link", "Node", "SwitchingService", "LinkGroup", "Topology", "port", [], [[]], [None], [1], [""], ["gone"], ["gone", "gone"], {},
    {"labeltype": "vlan"}, {"labeltype": "vlan", "value": 3}, {"labeltype": None, "value": 3}, {"labeltype": "vlan", "value": None},
    {"labeltype": "vlan", "values": "1-4"}, {"labeltype": "vlan", "values": ["1"]}, {"labeltype": "", "values": "1"}, {"value": 3},
    {"values": "1"}, {"labeltype": "b", "value": 3, "values": "5-3"}]
STRING = re.compile(rb'"[^"\\]*"')
NUMBER = re.compile(rb"(?<=[:,\[ ])[0-9]+(?=[,}\] ])")


class Damage:
    """Ways to damage the bytes of files. Each takes the files of a network, and changes one of them."""

    def __init__(self, rng, files, ids):
        self.rng, self.files, self.ids = rng, files, ids

    def once(self):
        at = self.rng.randrange(len(self.files))
        way = self.rng.choice([
            self.cut, self.doubled, self.flipped, self.flipped, self.emptied, self.renamed, self.renamed, self.renamed, self.numbered,
            self.numbered, self.labelled, self.labelled, self.escaped, self.escaped, self.nested, self.repeated, self.repeated,
            self.revalued, self.revalued, self.revalued, self.framed, self.spelled, self.same, self.retuned, self.retuned, self.retuned])
        self.files[at] = way(self.files[at])

    def place(self, data):
        return self.rng.randint(0, len(data))

    def cut(self, data):
        at = self.place(data)
        return data[:at] if self.rng.random() < 0.7 else data[at:]

    def doubled(self, data):
        low, high = sorted([self.place(data), self.place(data)])
        return self.rng.choice([data + data, data[:high] + data[low:], data[:low] + data[high:]])

    def flipped(self, data):
        if not data:
            return data
        changed = bytearray(data)
        changed[self.rng.randrange(len(data))] ^= 1 << self.rng.randrange(8)
        return bytes(changed)

    def emptied(self, _):
        return self.rng.choice([b"", b" ", b"{}", b"[]", b"null", b"1", b'""', b'{"format":1}', b"\xff\xfe", b"\xef\xbb\xbf{}"])

    def renamed(self, data):
        """An id becomes another one of any file, once or wherever the file has it."""
        old, new = (b'"%s"' % self.rng.choice(self.ids).encode() for _ in range(2))
        return data.replace(old, new, self.rng.choice([1, -1]))

    def replaced(self, pattern, data, new):
        """The data with one match of a pattern replaced by what `new` makes of it."""
        found = list(pattern.finditer(data))
        if not found:
            return data
        match = self.rng.choice(found)
        return data[:match.start()] + new(match.group()) + data[match.end():]

    def numbered(self, data):
        return self.replaced(NUMBER, data, lambda _: self.rng.choice(NUMBERS).encode())

    def labelled(self, data):
        return self.replaced(re.compile(rb'(?<="values": )"[^"]*"'), data, lambda _: json.dumps(self.rng.choice(LABEL_TEXTS)).encode())

    def escaped(self, data):
        def within(text):
            at = self.rng.randint(1, len(text) - 1)
            return text[:at] + self.rng.choice(ESCAPES) + text[at:]
        return self.replaced(STRING, data, within)

    def spelled(self, data):
        """A text with one letter as its escape: the text stays the same."""
        def within(text):
            at = self.rng.randrange(len(text))
            return text[:at] + b"\\u%04x" % text[at] + text[at + 1:] if text[at:at + 1] != b'"' else text
        return self.replaced(STRING, data, within)

    def nested(self, data):
        """A value that nests to 126, 127 or 128 behind the start of some object."""
        found = [it.end() for it in re.finditer(rb"\{", data)]
        if not found:
            return b"[" * 127 + b"]" * 127
        at = self.rng.choice(found)
        front = data[:at]
        depth = sum(map(front.count, (b"{", b"["))) - sum(map(front.count, (b"}", b"]")))
        value = b""
        for _ in range(max(0, self.rng.choice([126, 127, 127, 128]) - depth)):
            value = self.rng.choice([b"[%s]", b'{"x":%s}' if value else b"{}%s"]) % value
        name = self.rng.choice(["unread", self.rng.choice(MEMBERS)]).encode()
        return front + b'"%s":%s,' % (name, value or b"0") + data[at:]

    def repeated(self, data):
        """One member more at the start or the end of some object, perhaps one that it has."""
        value = json.dumps(self.rng.choice(VALUES), ensure_ascii=self.rng.random() < 0.5)
        member = b'"%s":%s' % (self.rng.choice(MEMBERS).encode(), value.encode())
        if self.rng.random() < 0.5:
            return self.replaced(re.compile(rb"\{"), data, lambda it: it + member + b",")
        return self.replaced(re.compile(rb"\}"), data, lambda it: b"," + member + it)

    def revalued(self, data):
        """A member of the file, or of one element, with another value, or without it."""
        try:
            tree = json.loads(data)
            item = self.rng.choice([tree, self.rng.choice(tree["elements"]), self.rng.choice(tree["elements"])])
            name = self.rng.choice([*item, self.rng.choice(MEMBERS)])
            item[name] = self.rng.choice([*VALUES, self.rng.choice(self.ids), [self.rng.choice(self.ids)], [self.rng.choice(self.ids)]])
            if self.rng.random() < 0.2:
                del item[name]
            return json.dumps(tree).encode()
        except (ValueError, TypeError, LookupError, RecursionError):
            return data

    def retuned(self, data):
        """An encoding or a label type becomes another, once."""
        return self.replaced(re.compile(rb'"(?:eth|otn|vlan|lambda|F|G)"'), data, lambda _: self.rng.choice(
            [b'"eth"', b'"otn"', b'"none"', b'"vlan"', b'"lambda"', b'"F"', b'"G"']))

    def framed(self, data):
        frames = [b"", b" \n\t\r", b"\xef\xbb\xbf", b"\x0c", b"\x00", b",", b"{}", b"[", b"]", b"//"]
        return self.rng.choice(frames) + data + self.rng.choice(frames)

    def same(self, _):
        return self.rng.choice(self.files)


def damaged_document(rng, data):
    """A document that is cut, doubled, flipped, or changed by lines and words."""
    for _ in range(rng.choice([1, 1, 1, 2, 3])):
        data = rng.choice([damaged_bytes, damaged_lines, damaged_word, damaged_number, damaged_number, damaged_number])(rng, data)
    return data


def damaged_bytes(rng, data):
    changed = bytearray(data)
    if data:
        changed[rng.randrange(len(data))] ^= 1 << rng.randrange(8)
    return rng.choice([
        data[:rng.randint(0, len(data))], bytes(changed), bytes(changed), data + data, b"", data + b"\n", data[:-1],
        data.replace(b"\n", b"\r\n"), b"\n" + data, data + b"end\n"])


def damaged_lines(rng, data):
    """A line less, one more, or two that change places."""
    lines = data.split(b"\n")
    at, other = rng.randrange(len(lines)), rng.randrange(len(lines))
    swapped = list(lines)
    swapped[at], swapped[other] = lines[other], lines[at]
    return b"\n".join(rng.choice([lines[:at] + lines[at + 1:], lines[:at] + [lines[other]] + lines[at:], swapped]))


def damaged_word(rng, data):
    """A word becomes another of the document, or one at the limits."""
    lines = data.split(b"\n")
    at = rng.randrange(len(lines))
    words = lines[at].split(b" ")
    words[rng.randrange(len(words))] = rng.choice([
        rng.choice(NUMBERS).encode(), rng.choice([b"any", b"-", b"past", b"none", b"again", b"\xff", b"", b"i" * 256]),
        rng.choice(rng.choice(lines).split(b" ")), rng.choice(rng.choice(lines).split(b" "))])
    return b"\n".join(lines[:at] + [b" ".join(words)] + lines[at + 1:])


def damaged_number(rng, data):
    """A number, as of a weight or a label, is one more or one less."""
    found = list(re.finditer(rb"(?<= )[0-9]+(?=[ \n])", data))
    if not found:
        return data
    match = rng.choice(found)
    return data[:match.start()] + b"%d" % abs(int(match.group()) + rng.choice([-1, 1])) + data[match.end():]


# ---- inputs that no dice make

FLOATS = [
    "1e308", "10e307", "0.1e309", "0.18e309", "1.8e308", "2e308", "-1.8e308", "1.7976931348623158e308", "1.797693134862315807e308",
    "1.797693134862315808e308", "17976931348623157081e289", "1797693134862315708145e287", "0.00017976931348623157e312", "1e+308", "1e+309",
    "1e0000000308", "1e-0000400", "1" + "0" * 308 + ".0", "9" * 308, "9" * 309,
    "17976931348623157" + "0" * 292, "17976931348623159" + "0" * 292]


def bare(more="", behind="", kind="Link", name="l"):
    """The bytes of a file with one element, and what more stands in it and behind it."""
    text = '{"format":1,"topology":"d","elements":[{"type":"%s","id":"%s"%s}]%s}' % (kind, name, more, behind)
    return text.encode("utf-8", "surrogateescape")


def fixed_files():
    """Each value at the limits, in each place where one may stand."""
    for number in NUMBERS + FLOATS:
        yield from (bare(more % number) for more in (',"x":[%s]', ',"cost":%s', ',"hasLabel":{"labeltype":"v","value":%s}'))
        yield bare(behind=f',"x":{number}')
        yield bare().replace(b'"format":1', b'"format":' + number.encode())
    for escape in (it.decode("utf-8", "surrogateescape") for it in ESCAPES):
        yield from (bare(more % escape) for more in (',"x":"%s"', ',"%s":1', ',"hasLabel":{"labeltype":"%s","value":1}'))
        yield from (bare(kind=f"Link{escape}"), bare(name=f"l{escape}"), bare(f',"id{escape}":"m"'))
    for text in LABEL_TEXTS + ["1-4294967295,0", "4294967295,", "1-4294967295-", "0,0,0", "1-1-", "-", ",", "1,-", "1-,2", "1-5,6-7,"]:
        yield bare(',"hasLabelGroup":{"labeltype":"v","values":%s}' % json.dumps(text), kind="LinkGroup")
    for start in (*NUMBERS, *FLOATS, '"1"', "null", "true"):
        yield from (bare(',"existsDuring":{"%s":%s}' % (name, start)) for name in ("start", "end"))
        yield from (bare(',"existsDuring":{"start":%s,"end":%s}' % pair) for pair in ((start, 9), (9, start), (start, start)))
    for depth in range(120, 131):
        for value in ("[" * depth + "]" * depth, '{"a":' * depth + "1" + "}" * depth):
            yield from (value.encode(), bare(f',"x":{value}'), bare(behind=f',"x":{value}'))
    for kind, members in VERIFY.MEMBERS.items():
        due = ',"adaptationFunction":"f"' if "adaptationFunction" in members else ""
        yield from (bare(f'{due},"{member}":{json.dumps(value)}', kind=kind) for member in ("type", "id", *members) for value in VALUES)
    for member in ("format", "topology", "encoding", "elements"):
        yield from (bare(behind=f',"{member}":{json.dumps(value)}') for value in VALUES)


def compare_fixed(sender):
    """The number of files that no dice make, and what is not as it is due."""
    number, wrong = 0, []
    for number, data in enumerate(sender.fixed, 1):
        sender.store({"file": data})
        status, printed = sender.run(["survey", "file"])
        due = difference(["survey", "file"], {"file": data}, status, printed.decode("latin-1"))
        if due:
            wrong.append(f"{data[:400]!r}: status {status}, printed {printed[:400]!r}; due: {due}")
    return number, wrong


# ---- inputs

class Sender:
    """Runs the program over files of one folder."""

    def __init__(self, program, folder):
        self.program, self.folder, self.fixed = os.path.abspath(program), folder, list(fixed_files())

    def store(self, stored):
        for entry in os.scandir(self.folder):
            os.rmdir(entry) if entry.is_dir() else os.remove(entry)
        for name, data in stored.items():
            path = os.path.join(self.folder, name)
            if data is FOLDER:
                os.mkdir(path)
            else:
                with open(path, "wb") as out:
                    out.write(data)

    def run(self, words):
        ran = subprocess.run([self.program, *words], cwd=self.folder, capture_output=True, timeout=60)
        return ran.returncode, ran.stdout


def random_request(rng, network, ports):
    """A request, mostly of a circuit of many hops; one end may be out of form, or no port, or not there with its label."""
    request = networks.random_request(rng, network, ports)
    if rng.random() < 0.1:
        request[rng.choice([0, 2])] = rng.choice(["gone", "i" * 255, "i" * 256, "", "a b", "é", "\udcff"])
    if rng.random() < 0.2:
        label = str(rng.choice(networks.LABELS))
        request[rng.choice([1, 3])] = rng.choice([label, label, rng.choice(NUMBERS), "-", ""])
    return request


def random_input(rng, sender):
    """The words, and the contents by name."""
    if rng.random() < 0.2:
        return ["survey", "file"], {"file": rng.choice(sender.fixed)}
    domains, ports = networks.random_network(rng)
    network = networks.Network(domains)
    names = [f"{number}.json" for number in range(len(domains))]
    stored = {name: json.dumps(domain).encode() for name, domain in zip(names, domains)}
    command = rng.choice(["find", "find", "route", "survey", "survey", "check", "check", "check", "replay", "replay"])
    words = [command, *(random_request(rng, network, ports) if command in ("find", "route") else []), *names]
    damages_files = rng.random() < (0.3 if command in ("check", "replay") else 0.85)
    if command in ("check", "replay"):
        words[1:1] = ["answer"]
        stored["answer"] = random_document(rng, sender, stored, [*random_request(rng, network, ports), *names])
        if not damages_files or rng.random() < 0.5:
            stored["answer"] = damaged_document(rng, stored["answer"])
    if damages_files:
        ids = [element["id"] for domain in domains for element in domain["elements"]]
        damage = Damage(rng, [stored[name] for name in names], ids)
        for _ in range(rng.choice([1, 1, 1, 2, 3])):
            damage.once()
        stored.update(zip(names, damage.files))
    if rng.random() < 0.03:
        name = rng.choice(list(stored))
        stored[name] = rng.choice([None, FOLDER, b" " * (VERIFY.FILE_LIMIT + 1), stored[name].ljust(VERIFY.FILE_LIMIT)])
    if rng.random() < 0.02:
        at = rng.randrange(len(words))
        words[at:at + 1] = rng.choice([[], [words[at], words[at]], [""], ["\udcff"], ["--help"], names * 65])
    return words, {name: data for name, data in stored.items() if data is not None}


def random_document(rng, sender, stored, words):
    """What `find` or `route` prints over whole files, mostly; whatever it is, it is only a document to be judged."""
    sender.store({name: data for name, data in stored.items() if name in words})
    return sender.run([rng.choice(["find", "find", "find", "route"]), *words])[1]


def tried(seed, sender):
    """The status of an input, and what is not as it is due, with its words."""
    rng = random.Random(seed)
    words, stored = random_input(rng, sender)
    sender.store(stored)
    try:
        status, printed = sender.run(words)
    except subprocess.TimeoutExpired:
        return "timeout", f"no answer in 60 seconds: {words}"
    wrong = difference(words, stored, status, printed.decode("latin-1"))
    return status, wrong and f"{words}: status {status}, printed {printed[:400]!r}; due: {wrong}"


def main():
    parser = argparse.ArgumentParser(description=__doc__, formatter_class=argparse.RawDescriptionHelpFormatter)
    parser.add_argument("program")
    parser.add_argument("--seconds", type=float, default=60)
    parser.add_argument("--seed", type=int, default=int(time.time()) * 1000)
    parser.add_argument("--count", type=int)
    parser.add_argument("--fixed", action="store_true")
    options = parser.parse_args()
    print(f"the first seed is {options.seed}", flush=True)
    seen, differences, seed = collections.Counter(), 0, options.seed
    with tempfile.TemporaryDirectory() as folder:
        sender = Sender(options.program, folder)
        if options.fixed:
            number, wrong = compare_fixed(sender)
            print("\n".join([f"{number} fixed files, {len(wrong) or 'no'} difference{'s' if len(wrong) > 1 else ''}", *wrong]), flush=True)
            differences += len(wrong)
        end = time.monotonic() + options.seconds
        while differences < MOST_DIFFERENCES:
            if seed == options.seed + options.count if options.count else time.monotonic() >= end:
                break
            status, wrong = tried(seed, sender)
            seen[status] += 1
            if wrong:
                differences += 1
                print(f"seed {seed}: {wrong}", flush=True)
            seed += 1
    statuses = ", ".join(f"{status}: {number}" for status, number in sorted(seen.items(), key=str))
    print(f"{seed - options.seed} inputs, {differences or 'no'} difference{'s' if differences > 1 else ''}; by status {statuses}")
    sys.exit(1 if differences else 0)


if __name__ == "__main__":
    main()
