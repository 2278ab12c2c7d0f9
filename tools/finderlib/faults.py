"""The faults of several files together, phases 2 and 3 of part 2 of docs/FORMATS.md, and the network of files that have none."""
from collections.abc import Iterator

from finderlib.commands import ToolFault, read_bytes
from finderlib.topologies import FILE_LIMIT, FILES_MOST, LINKS, MEMBERS, RELATIONS, Domain, Element, Labels, Network, TopologyFault
from finderlib.topologies import read_domain, targets_of


def load_network(paths: list[str]) -> Network:
    """The network of files by their paths; a fault ends the tool with the line that finder prints for it."""
    if not 1 <= len(paths) <= FILES_MOST:
        raise ToolFault(f"1 to {FILES_MOST} topology files are due, not {len(paths)}")
    contents = [read_bytes(path, FILE_LIMIT) for path in paths]
    try:
        return accepted_network(contents)
    except TopologyFault as fault:
        raise ToolFault(f"the files are no accepted topology: {fault}") from fault


def accepted_network(contents: list[bytes]) -> Network:
    """The network of files by their contents; raises TopologyFault at the first fault."""
    domains = [read_domain(data, file) for file, data in enumerate(contents, 1)]
    check_merging(domains)
    network = Network(domains)
    check_layers(network)
    return network


def check_merging(domains: list[Domain]) -> None:
    """Raises the first fault of phase 2."""
    files: dict[str, int] = {}
    for file, domain in enumerate(domains, 1):
        if domain.id in files:
            raise TopologyFault(f"fault {file} 0 duplicate-topology {domain.id} {files[domain.id]}")
        files[domain.id] = file
    elements: dict[str, Element] = {}
    for element in _every(domains):
        first = elements.setdefault(element.id, element)
        if first is not element:
            raise TopologyFault(f"{_at(element)} duplicate-id {element.id} {first.file} {first.number}")
    for element in _every(domains):
        for relation in filter(RELATIONS.__contains__, MEMBERS[element.type]):
            for target in element.targets(relation):
                if target in elements and elements[target].type not in targets_of(element.type, relation):
                    raise TopologyFault(f"{_at(element)} wrong-kind {relation} {target}")


def check_layers(network: Network) -> None:
    """Raises the first fault of phase 3."""
    for members in network.members_of.values():
        _check_class(network, members)
    for link in (element for element in network.every() if element.type in LINKS):
        ports = _in_order(network.senders(link.id) + network.takers(link.id))
        _check_ports(network, link, ports, link.labels, "link")
    for service in (element for element in network.every() if element.type == "SwitchingService"):
        ports = _in_order([port for relation in ("hasInboundPort", "hasOutboundPort") for port in network.ports_of(service, relation)])
        _check_ports(network, service, ports, None, "switch")


def _check_class(network: Network, members: list[Element]) -> None:
    first = members[0]
    for word, differs in (("alias-encoding", lambda port: network.encoding_of(port) != network.encoding_of(first)),
                          ("alias-label", lambda port: _type(port.labels) != _type(first.labels))):
        second = next(filter(differs, members), None)
        if second is not None:
            raise TopologyFault(f"{_at(second)} {word} {first.id} {second.id}")


def _check_ports(network: Network, element: Element, ports: list[Element], labels: Labels | None, word: str) -> None:
    if not ports:
        return
    encoding = element.encoding or network.encoding_of(ports[0])
    labeltype = _type(labels or ports[0].labels)
    for fault, differs in ((f"{word}-layer", lambda port: network.encoding_of(port) != encoding),
                           (f"{word}-label", lambda port: _type(port.labels) != labeltype)):
        port = next(filter(differs, ports), None)
        if port is not None:
            raise TopologyFault(f"{_at(element)} {fault} {element.id} {port.id}")


def _every(domains: list[Domain]) -> Iterator[Element]:
    return (element for domain in domains for element in domain.elements)


def _in_order(ports: list[Element]) -> list[Element]:
    return sorted(ports, key=lambda port: (port.file, port.number))


def _type(labels: Labels | None) -> str | None:
    return None if labels is None else labels.labeltype


def _at(element: Element) -> str:
    return f"fault {element.file} {element.number}"
