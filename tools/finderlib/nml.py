"""OGF NML in XML, namespace http://schemas.ogf.org/nml/2013/05/base#, to a domain of a topology file and back.

Each reading tells what it leaves out and why. No document type is read, so that a text has no entities and names nothing outside of itself.
"""
import re
from collections.abc import Iterator
from dataclasses import dataclass, field
from xml.parsers import expat
from xml.sax.saxutils import escape, quoteattr

from finderlib.topologies import COST_ABSENT, LABEL_LIMIT, MEMBERS, RELATIONS, Domain, Element, Labels, Ranges, merged

NAMESPACE = "http://schemas.ogf.org/nml/2013/05/base#"
NESTING_MOST = 100
READ = frozenset(MEMBERS) - {"ConversionService"}  # NML has no such service
LABELS = ("Label", "LabelGroup")
TRUTHS = {"true": True, "1": True, "false": False, "0": False}


class NmlFault(Exception):
    """A text that is no NML that can be read."""


# ---- XML

@dataclass(slots=True)
class Tag:
    """An element of XML: its name, without the namespace where that is NML's, and the line where it begins. Only labels have a text."""
    name: str
    attributes: dict[str, str]
    line: int
    children: list["Tag"] = field(default_factory=list)
    parts: list[str] = field(default_factory=list)

    def text(self) -> str:
        return "".join(self.parts).strip()

    def relation(self) -> str:
        """The name of a Relation's type, without the namespace where that is NML's."""
        return self.attributes.get("type", "").removeprefix(NAMESPACE)


def read_xml(data: bytes) -> Tag:
    """The root of a text; raises NmlFault where it is no XML, has a document type, or nests too deep."""
    root = Tag("", {}, 0)
    path = [root]
    parser = expat.ParserCreate(namespace_separator=" ")

    def begin(name: str, attributes: dict[str, str]) -> None:
        if len(path) > NESTING_MOST:
            raise NmlFault(f"line {parser.CurrentLineNumber}: it nests deeper than {NESTING_MOST}")
        namespace, _, local = name.rpartition(" ")
        tag = Tag(local if namespace == NAMESPACE else f"{namespace} {local}", attributes, parser.CurrentLineNumber)
        path[-1].children.append(tag)
        path.append(tag)

    def end(_: str) -> None:
        path.pop()

    def text(part: str) -> None:
        if path[-1].name in LABELS:
            path[-1].parts.append(part)

    def refuse(*_: object) -> None:
        raise NmlFault(f"line {parser.CurrentLineNumber}: a document type or an entity is refused")

    parser.StartElementHandler, parser.EndElementHandler, parser.CharacterDataHandler = begin, end, text
    parser.StartDoctypeDeclHandler = parser.EntityDeclHandler = parser.ExternalEntityRefHandler = refuse
    parser.buffer_text = True
    try:
        parser.Parse(data, True)
    except expat.ExpatError as error:
        raise NmlFault(f"line {error.lineno}: {expat.errors.messages[error.code]}") from error
    except (LookupError, ValueError) as error:
        raise NmlFault(f"it is in an encoding that is not read: {error}") from error
    return root.children[0]


# ---- from NML

# what has no place in a topology file, and why
REASONS = {
    "name": "names do not matter to a circuit",
    "version": "a file holds one version",
    "Location": "where things stand does not matter to a circuit",
    "locatedAt": "where things stand does not matter to a circuit",
    "Lifetime": "a file holds what is there now",
    "existsDuring": "a file holds what is there now",
    "BidirectionalPort": "a port each way stands in its place, and those that it names are read",
    "BidirectionalLink": "a link each way stands in its place, and those that it names are read",
    "noReturnTraffic": "links go one way",
    "isSerialCompoundLink": "that a link is made of others is not said; they are links of their own",
    "Group": "memberships do not matter to a circuit",
    "hasPort": "memberships do not matter to a circuit",
    "hasLink": "memberships do not matter to a circuit",
    "hasNode": "memberships do not matter to a circuit",
    "OrderedList": "the links of a list are links of their own",
    "ListItem": "the links of a list are links of their own",
    "Topology": "a topology within another is read as part of it",
    "hasTopology": "a topology within another is read as part of it",
    "implementedBy": "that one device is made of others does not matter to a circuit",
    "providesLink": "the links that a switching service provides are its own hops",
    "canProvidePort": "a port that is not provided yet is not there",
}
# the same of relations that a Topology has, as an element may have them too
OF_TOPOLOGIES = {
    "hasInboundPort": "memberships do not matter to a circuit",
    "hasOutboundPort": "memberships do not matter to a circuit",
    "hasService": "a Topology lends its services no ports: they list theirs, or a Node lends them",
}
MATTER = frozenset({"Lifetime", "existsDuring", "Topology", "hasTopology", "isSerialCompoundLink", "canProvidePort"})  # of these reasons
HIDDEN = frozenset({"providesLink", "canProvidePort"})  # what stands within them is not read either
AN_ID = "1 to 255 printable ASCII characters without spaces"
ITEM = re.compile(r"\s*([0-9]{1,19})\s*(?:-\s*([0-9]{1,19})\s*)?")


@dataclass(slots=True)
class LeftOut:
    """Something that the other form does not say: the line where it stands, what, why, and whether circuits may be others for it."""
    line: int
    what: str
    why: str
    matters: bool


class Reading:
    """A Topology that is being read. An element that cannot be read is `broken`, and left out at the end."""

    def __init__(self) -> None:
        self.elements: dict[str, Element] = {}
        self.lines: dict[str, int] = {}
        self.broken: dict[str, str] = {}
        self.left_out: list[LeftOut] = []

    def leave_out(self, tag: Tag, what: str, why: str | None = None) -> None:
        """Notes what is left out: for one of the known reasons, or for another, which matters."""
        known = REASONS.get(what) or OF_TOPOLOGIES.get(what, "")
        self.left_out.append(LeftOut(tag.line, what, why or known, why is not None or what in MATTER))

    def finish(self) -> list[Element]:
        for name, why in self.broken.items():
            kind = self.elements.pop(name).type
            self.left_out.append(LeftOut(self.lines[name], f"{kind} {name}", why, True))
        for number, element in enumerate(self.elements.values(), 1):
            element.number = number
        return list(self.elements.values())

    # -- tags

    def read_all(self, tag: Tag) -> None:
        """What stands in a Topology, or in what is left out but not hidden. Nesting is bounded."""
        for child in tag.children:
            if child.name in READ:
                self.define(child)
            elif child.name == "Relation":
                self.read_loose_relation(child)
            elif child.name in REASONS:
                self.leave_out(child, child.name)
                self.read_all(child)
            else:
                self.leave_out(child, child.name.rpartition(" ")[2], "a topology file has nothing of this name")

    def read_loose_relation(self, tag: Tag) -> None:
        """A relation of a Topology, or of what is left out: what stands within it belongs to the Topology, but for aliases."""
        relation = tag.relation()
        if relation in REASONS or relation in OF_TOPOLOGIES:
            self.leave_out(tag, relation)
        else:
            self.leave_out(tag, relation or "Relation", "only elements have relations, and a Topology is none")
        if relation == "isAlias":
            self.read_targets(tag)
        elif relation not in HIDDEN:
            self.read_all(tag)

    def read_targets(self, tag: Tag) -> None:
        """What stands within a relation of an element: with no more than an id it is a name alone."""
        for child in tag.children:
            if child.name in READ and not child.children and child.attributes.keys() <= {"id"}:
                continue
            self.read_all(Tag("", {}, child.line, [child]))

    # -- elements

    def define(self, tag: Tag) -> None:
        name = tag.attributes.get("id", "")
        if not is_id(name):
            self.leave_out(tag, tag.name, f"its id {name[:40]!r} is not {AN_ID}" if name else "it has no id")
            return
        element = self.elements.get(name)
        if element is None:
            element = self.elements[name] = Element(tag.name, name, 1, 0)
            self.lines[name] = tag.line
        if element.type != tag.name:
            raise NmlFault(f"line {tag.line}: {name} is a {tag.name}, and a {element.type} at line {self.lines[name]}")
        for attribute, value in tag.attributes.items():
            self.read_attribute(tag, element, attribute, value)
        for child in tag.children:
            self.read_part(child, element)
        if "adaptationFunction" in MEMBERS[element.type] and not element.function:
            self.broken[name] = "it has no adaptationFunction"

    def read_attribute(self, tag: Tag, element: Element, attribute: str, value: str) -> None:
        if attribute == "id":
            return
        if attribute not in MEMBERS[element.type]:
            self.leave_out(tag, attribute, None if attribute in REASONS else f"a {element.type} has no such member")
        elif attribute == "labelSwapping":
            if value.strip() not in TRUTHS:
                raise NmlFault(f"line {tag.line}: labelSwapping is {value[:40]!r}, and neither true nor false")
            element.swapping = TRUTHS[value.strip()]
        elif not is_id(value):
            self.broken[element.id] = f"its {attribute} {value[:40]!r} is not {AN_ID}"
        else:
            member = "function" if attribute == "adaptationFunction" else "encoding"
            if getattr(element, member) not in (None, "", value):
                raise NmlFault(f"line {tag.line}: the {attribute} of {element.id} is stated twice, and differs")
            setattr(element, member, value)

    def read_part(self, tag: Tag, element: Element) -> None:
        if tag.name == "Relation":
            self.read_relation(tag, element)
        elif tag.name in LABELS:
            self.read_labels(tag, element)
        else:
            self.read_all(Tag("", {}, tag.line, [tag]))

    def read_relation(self, tag: Tag, element: Element) -> None:
        relation = tag.relation()
        if relation in RELATIONS and relation in MEMBERS[element.type]:
            names = [child.attributes.get("id", "") for child in tag.children]
            for name in (name for name in names if not is_id(name)):
                self.leave_out(tag, relation, f"it names {name[:40]!r}, which is not {AN_ID}")
            targets = dict.fromkeys([*element.targets(relation), *filter(is_id, names)])
            if targets:
                element.relations[relation] = tuple(targets)
        else:
            self.leave_out(tag, relation or "Relation", None if relation in REASONS else f"a {element.type} has no such relation")
        if relation not in HIDDEN:
            self.read_targets(tag)

    def read_labels(self, tag: Tag, element: Element) -> None:
        labeltype, ranges = tag.attributes.get("labeltype", ""), read_items(tag.text())
        is_group = element.type.endswith("Group")
        if not {"hasLabel", "hasLabelGroup"} & set(MEMBERS[element.type]):
            self.leave_out(tag, tag.name, f"a {element.type} has no labels")
        elif not is_id(labeltype):
            self.broken[element.id] = f"its labeltype {labeltype[:40]!r} is not {AN_ID}"
        elif ranges is None:
            self.broken[element.id] = f"its label {tag.text()[:40]!r} is no whole number below 2^32, or no set of such"
        elif not is_group and (tag.name == "LabelGroup" or ranges[0][0] != ranges[-1][1]):
            self.broken[element.id] = f"a {element.type} has one label, and a {element.type}Group more"
        elif element.labels not in (None, Labels(labeltype, ranges)):
            self.broken[element.id] = "it has several labels, and only a group has a set of them"
        else:
            element.labels = Labels(labeltype, ranges)


def read_items(text: str) -> Ranges | None:
    """The set of labels and ranges, joined by commas, or None where the text spells none. Spaces and zeros in front do not matter."""
    items = []
    for part in text.split(","):
        match = ITEM.fullmatch(part)
        if match is None:
            return None
        low = int(match[1])
        high = low if match[2] is None else int(match[2])
        if low > high or high >= LABEL_LIMIT:
            return None
        items.append((low, high))
    return merged(items)


def from_nml(data: bytes, topology: str | None = None) -> tuple[Domain, list[LeftOut]]:
    """The domain of the one outermost Topology of a text, or of the one with an id, and what is left out of it."""
    root = pick_topology(read_xml(data), topology)
    name = root.attributes.get("id", "")
    if not is_id(name):
        raise NmlFault(f"line {root.line}: the id {name[:40]!r} of the Topology is not {AN_ID}")
    reading = Reading()
    for attribute in root.attributes.keys() - {"id"}:
        reading.leave_out(root, attribute, None if attribute in REASONS else "a domain has no such member")
    reading.read_all(root)
    return Domain(name, None, reading.finish()), sorted(reading.left_out, key=lambda item: item.line)


def pick_topology(root: Tag, wanted: str | None) -> Tag:
    found, waiting = [], [root]
    while waiting:
        tag = waiting.pop()
        if tag.name == "Topology" and wanted in (None, tag.attributes.get("id")):
            found.append(tag)
        else:
            waiting.extend(reversed(tag.children))
    if not found:
        raise NmlFault(f"there is no Topology {'' if wanted is None else wanted + ' '}of the namespace {NAMESPACE}")
    if len(found) > 1:
        names = ", ".join(tag.attributes.get("id", "without an id") for tag in found[:10])
        raise NmlFault(f"it has {len(found)} topologies, of which one has to be named: {names}")
    return found[0]


def is_id(text: str) -> bool:
    return 1 <= len(text) <= 255 and all("!" <= letter <= "~" for letter in text)


# ---- to NML

DEFAULT_TARGETS = {"isSource": "Link", "isSink": "Link", "hasService": "AdaptationService"}


def to_nml(domain: Domain) -> tuple[bytes, list[LeftOut]]:
    """A domain as a Topology of NML, and what is left out of it; there the line is the number of the element."""
    left_out = list(unsaid(domain))
    kinds = {element.id: element.type for element in domain.elements}
    lines = ['<?xml version="1.0" encoding="UTF-8"?>', f"<nml:Topology xmlns:nml={quoteattr(NAMESPACE)} id={quoteattr(domain.id)}>"]
    for element in domain.elements:
        if element.type in READ:
            lines.extend(element_lines(element, element.encoding or encoding_of(domain, element), kinds))
    lines.append("</nml:Topology>")
    return "".join(line + "\n" for line in lines).encode("ascii"), left_out


def encoding_of(domain: Domain, element: Element) -> str | None:
    return domain.encoding if element.type in ("Port", "PortGroup") else None


def unsaid(domain: Domain) -> Iterator[LeftOut]:
    for element in domain.elements:
        what = f"{element.type} {element.id}"
        if element.type not in READ:
            yield LeftOut(element.number, what, "NML has no service that converts", True)
        elif element.cost != COST_ABSENT:
            yield LeftOut(element.number, f"cost {element.cost} of {what}", "NML has no costs, and back it is 1", True)
        for relation, targets in element.relations.items():
            if not targets and element.type == "SwitchingService":
                yield LeftOut(element.number, f"the empty {relation} of {what}", "NML does not tell an empty list from none, and back its Nodes "
                              "lend it ports where the other list is empty too", True)


def element_lines(element: Element, encoding: str | None, kinds: dict[str, str]) -> Iterator[str]:
    attributes = {"id": element.id, "encoding": encoding, "labelSwapping": "true" if element.swapping else None,
                  "adaptationFunction": element.function or None}
    stated = "".join(f" {name}={quoteattr(value)}" for name, value in attributes.items() if value is not None)
    inner = list(inner_lines(element, kinds))
    if not inner:
        yield f"  <nml:{element.type}{stated}/>"
        return
    yield f"  <nml:{element.type}{stated}>"
    yield from inner
    yield f"  </nml:{element.type}>"


def inner_lines(element: Element, kinds: dict[str, str]) -> Iterator[str]:
    if element.labels is not None:
        name = "LabelGroup" if element.type.endswith("Group") else "Label"
        yield f"    <nml:{name} labeltype={quoteattr(element.labels.labeltype)}>{escape(element.labels.text())}</nml:{name}>"
    for relation, targets in element.relations.items():
        known = [target for target in targets if kinds.get(target) != "ConversionService"]
        if known:
            yield f'    <nml:Relation type="{NAMESPACE}{relation}">'
            for target in known:
                kind = kinds.get(target) or default_target(element, relation)
                yield f"      <nml:{kind} id={quoteattr(target)}/>"
            yield "    </nml:Relation>"


def default_target(element: Element, relation: str) -> str:
    """The kind of what another file has, as far as the relation tells it."""
    return "SwitchingService" if element.type == "Node" and relation == "hasService" else DEFAULT_TARGETS.get(relation, "Port")
