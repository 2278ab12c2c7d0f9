"""What finder reads over in silence, or takes as it stands although it leads nowhere: found in files whose reading has no fault."""
import difflib
from collections.abc import Iterator
from dataclasses import dataclass
from functools import lru_cache

from finderlib.faults import check_merging
from finderlib.loose import LooseFile, Object, read_loosely, shown, title
from finderlib.topologies import ADAPTATIONS, LINKS, MEMBERS, PORTS, Domain, Element, Labels, Network, meet, read_domain

FILE_MEMBERS = ("format", "topology", "encoding", "elements")
NESTED_MEMBERS = {"hasLabel": ("labeltype", "value"), "hasLabelGroup": ("labeltype", "values"), "existsDuring": ("start", "end")}
HINTS_MOST = 64  # longer names get no hint

# types and members of NML that are left out, and what stands in their place
LEFT_OUT = {
    "BidirectionalPort": "a port each way stands in its place",
    "BidirectionalLink": "a link each way stands in its place",
    "Topology": "each domain is a file of its own",
    "Location": "where things stand does not matter to a circuit",
    "Lifetime": "files hold what is there now",
}

# each kind of finding, and what it is
KINDS = {
    "unread-type": "an element whose type is none of the nine that are read",
    "unread-member": "a member that is not read of its type",
    "repeated-member": "a name that stands twice in an object: the last counts",
    "open-reference": "an id that no element of the files has",
    "no-port": "a link or service without ports at one of its ends: it leads nowhere",
    "alias-layer": "aliases of different encodings or label types",
    "no-label": "a class of aliases whose labels have none in common: it has no open place",
    "no-match": "an adaptation whose frames no deadaptation takes off, or the other way round",
    "near-name": "encodings, label types or functions that differ in case or punctuation alone",
}


@dataclass(slots=True, order=True)
class Finding:
    """What is found at an element of a file, both from 1; element 0 is the file itself."""
    file: int
    element: int
    kind: str
    title: str
    sentence: str


def findings(contents: list[bytes]) -> list[Finding]:
    """All findings in the order of files and elements; raises TopologyFault where the files have a fault of reading or merging."""
    domains = [read_domain(data, number) for number, data in enumerate(contents, 1)]
    check_merging(domains)
    files = [read_loosely(data) for data in contents]
    network = Network(domains)
    found = [finding for number, file in enumerate(files, 1) for finding in file_findings(number, file)]
    unread = unread_ids(files)
    found += open_references(network, unread)
    for check in (bare_ends, alias_layers, empty_classes, unmatched_functions):
        found += check(network)
    found += near_names(domains)
    return sorted(found)


# ---- what is read over

def file_findings(number: int, file: LooseFile) -> Iterator[Finding]:
    """Findings in what one file says, whatever the others say."""
    tree = file.tree
    where = shown(tree["topology"], 80)[1:-1]
    yield from object_findings(number, 0, f"domain {where}", tree, FILE_MEMBERS, "the file")
    for place, entry in enumerate(file.entries, 1):
        kind = entry["type"]
        if kind not in MEMBERS:
            yield Finding(number, place, "unread-type", title(entry), f"the type {shown(kind)} is read over{type_hint(kind)}")
            continue
        yield from object_findings(number, place, title(entry), entry, ("type", "id", *MEMBERS[kind]), kind)
        for member, names in NESTED_MEMBERS.items():
            if member in MEMBERS[kind] and isinstance(entry.get(member), Object):
                yield from object_findings(number, place, title(entry), entry[member], names, member)


def object_findings(file: int, element: int, name: str, tree: Object, known: tuple[str, ...], what: str) -> Iterator[Finding]:
    for member in tree:
        if member not in known:
            yield Finding(file, element, "unread-member", name, f"{shown(member)} is not read of {what}{member_hint(member, known)}")
    for member in tree.repeated:
        yield Finding(file, element, "repeated-member", name, f"{shown(member)} stands there more than once, and the last counts")


@lru_cache(maxsize=1000)
def type_hint(kind: str) -> str:
    if kind in LEFT_OUT:
        return f": {LEFT_OUT[kind]}"
    near = nearest(kind, tuple(MEMBERS))
    return f": {near} is meant?" if near else ""


@lru_cache(maxsize=1000)
def member_hint(member: str, known: tuple[str, ...]) -> str:
    others = [kind for kind, members in MEMBERS.items() if member in members]
    if others:
        return f": it is of {', '.join(others)}"
    near = nearest(member, known)
    return f": {near} is meant?" if near else ""


def nearest(name: str, known: tuple[str, ...]) -> str | None:
    """The known name that is most like another, if any is like it at all."""
    if len(name) > HINTS_MOST:
        return None
    same = [other for other in known if plain(other) == plain(name)]
    return next(iter(same or difflib.get_close_matches(name, known, 1, 0.75)), None)


def plain(text: str) -> str:
    """A text without case and punctuation."""
    return "".join(letter for letter in text.casefold() if letter.isalnum()) or text


# ---- what is named and not there

def unread_ids(files: list[LooseFile]) -> dict[str, str]:
    """The ids of elements that are read over, with their types."""
    return {entry["id"]: entry["type"] for file in files for entry in file.entries
            if entry["type"] not in MEMBERS and isinstance(entry.get("id"), str)}


def open_references(network: Network, unread: dict[str, str]) -> Iterator[Finding]:
    near = {plain(name): name for name in network.elements}
    for element, relation, target in network.open_references():
        hint = ""
        if target in unread:
            hint = f": that element is of the type {shown(unread[target])}, which is read over"
        elif plain(target) in near:
            hint = f": {near[plain(target)]} is meant?"
        yield finding(element, "open-reference", f"{relation} names {target}, which no file has{hint}")


def finding(element: Element, kind: str, sentence: str) -> Finding:
    return Finding(element.file, element.number, kind, f"{element.type} {element.id}", sentence)


# ---- what leads nowhere

def bare_ends(network: Network) -> Iterator[Finding]:
    for element in network.every():
        for sentence in lacking(network, element):
            yield finding(element, "no-port", sentence)


def lacking(network: Network, element: Element) -> Iterator[str]:
    """Why a link or service leads nowhere."""
    if element.type in LINKS:
        if not network.senders(element.id):
            yield "no port sends into it: none names it in isSource"
        if not network.takers(element.id):
            yield "no port takes from it: none names it in isSink"
    elif element.type in ADAPTATIONS:
        if not network.servers(element.id):
            yield "it has no server port: none names it in hasService"
        if not network.ports_of(element, "providesPort"):
            yield "it has no client port: providesPort names none"
    elif element.type in ("SwitchingService", "ConversionService"):
        yield from lacking_ends(network, element)


def lacking_ends(network: Network, service: Element) -> Iterator[str]:
    lists = "hasInboundPort" in service.relations or "hasOutboundPort" in service.relations
    lent = service.type == "SwitchingService" and not lists
    if lent and not network.nodes(service.id):
        yield "it lists no ports, and no Node names it in hasService, so that none lends it ports"
        return
    for relation in ("hasInboundPort", "hasOutboundPort"):
        if not network.ports_of(service, relation):
            encoding = f" of the encoding {service.encoding}" if lent and service.encoding is not None else ""
            yield f"its Nodes lend it nothing{encoding} by {relation}" if lent else f"{relation} names no port"


# ---- layers

def alias_layers(network: Network) -> Iterator[Finding]:
    """Each statement of an alias between two layers; finder itself tells the first alone, as a fault."""
    for port in network.ports:
        for other in (network.elements[name] for name in port.targets("isAlias") if network.is_port(name)):
            for what, here, there in (("encoding", network.encoding_of(port), network.encoding_of(other)),
                                      ("label type", labeltype(port.labels), labeltype(other.labels))):
                if here != there:
                    yield finding(port, "alias-layer", f"its alias {other.id} has the {what} {there}, and it has {here}")


def labeltype(labels: Labels | None) -> str:
    return "none" if labels is None else labels.labeltype


def empty_classes(network: Network) -> Iterator[Finding]:
    for name, members in network.members_of.items():
        labels = network.labels_of[name]
        if labels is None or labels.ranges:
            continue
        first = members[0].labels
        lone = next((other for other in members[1:] if first and other.labels and not meet(first.ranges, other.labels.ranges)), None)
        with_whom = f"it and its alias {lone.id}" if lone else f"the {len(members)} ports of its class"
        yield finding(members[0], "no-label", f"{with_whom} have no label in common, so that nothing passes")


def unmatched_functions(network: Network) -> Iterator[Finding]:
    """Adaptations without a deadaptation of the same function over client ports of the same encoding and label type, and the reverse."""
    layers: dict[str, set[tuple[str, str, str]]] = {kind: set() for kind in ADAPTATIONS}
    for element in network.every():
        if element.type in ADAPTATIONS:
            layers[element.type].update(client_layers(network, element))
    other = {"AdaptationService": "DeadaptationService", "DeadaptationService": "AdaptationService"}
    for element in network.every():
        if element.type in ADAPTATIONS:
            own = client_layers(network, element)
            if own and not own & layers[other[element.type]]:
                yield finding(element, "no-match", f"no {other[element.type]} has the function {element.function} and a client port of the same "
                                                   "encoding and label type")


def client_layers(network: Network, service: Element) -> set[tuple[str, str, str]]:
    return {(service.function, network.encoding_of(port), labeltype(port.labels)) for port in network.ports_of(service, "providesPort")}


def near_names(domains: list[Domain]) -> Iterator[Finding]:
    """Encodings, label types and functions that are written in more than one way, each at the first element that has the later one."""
    spellings: dict[tuple[str, str], str] = {}
    told: set[tuple[str, str]] = set()
    for what, text, element in (item for domain in domains for item in texts_of(domain)):
        first = spellings.setdefault((what, plain(text)), text)
        if text != first and (what, text) not in told:
            told.add((what, text))
            yield finding(element, "near-name", f"the {what} {text} is another than {first}, which stands before it")


def texts_of(domain: Domain) -> Iterator[tuple[str, str, Element]]:
    for element in domain.elements:
        encoding = element.encoding or (domain.encoding if element.type in PORTS else None)
        if encoding is not None:
            yield "encoding", encoding, element
        if element.labels is not None:
            yield "label type", element.labels.labeltype, element
        if element.type in ADAPTATIONS:
            yield "function", element.function, element


def describe(name: str, found: Finding) -> str:
    """A finding in one line, with the name of its file."""
    at = f"element {found.element}, {found.title}" if found.element else found.title
    return f"{name}: {at}: {found.kind}: {found.sentence}"
