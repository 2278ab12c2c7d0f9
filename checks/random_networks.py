#!/usr/bin/env python3
"""Compares what `finder` says with a plain reading of docs/MODEL.md, over small random networks.

    python3 checks/random_networks.py PROGRAM [--count N] [--seed N]

Each network has one to three files, with aliases over the files, labels, groups, swapping, Nodes, conversions, adaptations that
may nest without end, and costs from 0 to 2^64 - 1. The reference knows nothing of machines or derivations. For the outcome it takes
all labels, and lowers the weight of each pair of a root and a place until nothing changes. For the potentials it does the same
over the kept labels. The hops of a document are replayed, and its flags and rules made anew from them. What `k-find` lists is held against
the walks over kept labels themselves, one after another by weight, as far as they are made. Then `check` is to say valid to what
`find` prints, and `replay` to carry what `route` prints; and of documents with a line dropped, doubled, moved or changed, `check` is to say
what tools/verify says, a second checker that was written from docs/FORMATS.md. A difference is printed with its files, and the exit status
is 1.
"""
import argparse
import heapq
import importlib.machinery
import importlib.util
import json
import os
import random
import subprocess
import sys
import tempfile

# After so many begun walks no more are made.
BEGUN = 3000

COSTS = [0, 0, 1, 1, 1, 2, 3, 5, 2**63, 2**64 - 1]
LABELS = range(8)


# ---- networks

def group_text(rng, labels):
    """The labels as a group text, in any order and with overlaps."""
    items = []
    for label in labels:
        if rng.random() < 0.3 and label + 1 in labels:
            items.append(f"{label}-{label + 1}")
        else:
            items.append(str(label))
    rng.shuffle(items)
    return ",".join(items)


def label_member(rng, element, kind, labeltype, labels):
    """Gives a port or a link its labels: one label, or a group."""
    if labeltype is None:
        return kind
    if len(labels) == 1 and rng.random() < 0.5:
        element["hasLabel"] = {"labeltype": labeltype, "value": labels[0]}
        return kind
    element["hasLabelGroup"] = {"labeltype": labeltype, "values": group_text(rng, labels)}
    return kind + "Group"


def sample(rng, items, most):
    items = list(items)
    return rng.sample(items, min(len(items), rng.randint(0, most)))


def random_labels(rng):
    return sorted(rng.sample(LABELS, rng.randint(1, 5)))


def random_network(rng):
    """Files of a network that has no fault, and the ids of its ports."""
    domains = rng.randint(1, 3)
    defaults = [rng.choice([None, "eth", "otn"]) for _ in range(domains)]
    files = [[] for _ in range(domains)]
    layers = [(encoding, labeltype) for encoding in ("eth", "otn") for labeltype in (None, "vlan", "lambda")]
    ports, aliases, layer_of = {}, {}, {}
    layers = rng.sample(layers, rng.choice([1, 1, 2, 3]))
    for number in range(rng.randint(2, 7)):
        layer = rng.choice(layers)
        members = [f"p{number}{'abc'[member]}" for member in range(rng.choice([1, 1, 1, 2, 3]))]
        for member in members:
            add_port(rng, member, layer, files, defaults, ports, layer_of)
        for one, other in zip(members, members[1:]):
            first, second = rng.sample([one, other], 2)
            ports[first]["isAlias"].append(second)
        if rng.random() < 0.1:
            ports[members[0]]["isAlias"].append("nowhere")
    if rng.random() < 0.6:
        add_tower(rng, files, defaults, ports, layer_of)
    ids = sorted(ports)
    by_layer = {layer: [p for p in ids if layer_of[p] == layer] for layer in layers}
    for number in range(rng.randint(1, 8)):
        add_link(rng, f"l{number}", rng.choice(files), ports, by_layer)
    for number in range(rng.randint(0, 2)):
        add_switch(rng, f"s{number}", rng.choice(files), ports, by_layer)
    for number in range(rng.randint(0, 4)):
        add_adaptation(rng, f"a{number}", "AdaptationService", rng.choice(files), ports, ids)
    for number in range(rng.randint(0, 4)):
        add_adaptation(rng, f"u{number}", "DeadaptationService", rng.choice(files), ports, ids)
    if rng.random() < 0.4:
        rng.choice(files).append({
            "type": "ConversionService", "id": "c0", "cost": rng.choice(COSTS),
            "hasInboundPort": sample(rng, ids, 2), "hasOutboundPort": sample(rng, ids, 2)})
    for elements in files:
        for element in elements:
            for relation in ("isSource", "isSink", "hasService", "isAlias"):
                if element.get(relation) == []:
                    del element[relation]
        rng.shuffle(elements)
    texts = []
    for number, elements in enumerate(files):
        domain = {"format": 1, "topology": f"d{number}", "elements": elements}
        if defaults[number] is not None:
            domain["encoding"] = defaults[number]
        texts.append(domain)
    return texts, ids


def add_port(rng, name, layer, files, defaults, ports, layer_of):
    domain = rng.randrange(len(files))
    port = {"id": name}
    if defaults[domain] != layer[0]:
        port["encoding"] = layer[0]
    port["type"] = label_member(rng, port, "Port", layer[1], random_labels(rng))
    for relation in ("isSource", "isSink", "hasService", "isAlias"):
        port[relation] = []
    files[domain].append(port)
    ports[name] = port
    layer_of[name] = layer


def add_tower(rng, files, defaults, ports, layer_of):
    """Tunnels in tunnels: from xK to yK a circuit may run once or twice through level K - 1."""
    def service(kind, name, function, client, server):
        rng.choice(files).append({
            "type": kind, "id": name, "cost": rng.choice(COSTS), "adaptationFunction": function, "providesPort": [client]})
        ports[server]["hasService"].append(name)

    for level in range(rng.randint(1, 3) + 1):
        layer = rng.choice([("eth", None), ("otn", None), ("eth", "vlan")])
        for end in "xmy":
            add_port(rng, f"{end}{level}", layer, files, defaults, ports, layer_of)
        if level == 0:
            ports["x0"]["isSource"].append("l")
            ports["y0"]["isSink"].append("l")
            rng.choice(files).append({"type": "Link", "id": "l", "cost": rng.choice(COSTS)})
            continue
        below = level - 1
        functions = rng.choice(["FF", "FG", "FG"])
        middle = rng.choice("mmy")
        service("AdaptationService", f"f{level}", functions[0], f"x{level}", f"x{below}")
        service("DeadaptationService", f"g{level}", functions[0], f"{middle}{level}", f"y{below}")
        service("AdaptationService", f"h{level}", functions[1], f"m{level}", f"x{below}")
        service("DeadaptationService", f"i{level}", functions[1], f"y{level}", f"y{below}")


def add_link(rng, name, elements, ports, by_layer):
    layer = rng.choice([layer for layer in by_layer if by_layer[layer]])
    link = {"id": name, "cost": rng.choice(COSTS)}
    if link["cost"] == 1 and rng.random() < 0.5:
        del link["cost"]
    labelled = layer[1] if rng.random() < 0.4 else None
    link["type"] = label_member(rng, link, "Link", labelled, random_labels(rng))
    if rng.random() < 0.3:
        link["encoding"] = layer[0]
    for relation in ("isSource", "isSink"):
        for port in sample(rng, by_layer[layer], 2):
            ports[port][relation].append(name)
    elements.append(link)


def add_switch(rng, name, elements, ports, by_layer):
    layer = rng.choice([layer for layer in by_layer if by_layer[layer]])
    service = {"type": "SwitchingService", "id": name, "cost": rng.choice(COSTS)}
    if rng.random() < 0.5:
        service["labelSwapping"] = rng.random() < 0.7
    if rng.random() < 0.3:
        service["encoding"] = layer[0]
    if rng.random() < 0.6:
        for relation in ("hasInboundPort", "hasOutboundPort"):
            if rng.random() < 0.9:
                service[relation] = sample(rng, by_layer[layer], 3)
    else:
        node = {"type": "Node", "id": "n" + name, "hasService": [name]}
        for relation in ("hasInboundPort", "hasOutboundPort"):
            node[relation] = sample(rng, by_layer[layer], 3)
        elements.append(node)
    elements.append(service)


def add_adaptation(rng, name, kind, elements, ports, ids):
    elements.append({
        "type": kind, "id": name, "cost": rng.choice(COSTS),
        "adaptationFunction": rng.choice("FFG"), "providesPort": sample(rng, ids, 3)})
    for port in sample(rng, ids, 3):
        ports[port]["hasService"].append(name)


# ---- the reference

def labels_of(element):
    """The label type and the set of a port or a link, or nothing where it is unlabelled."""
    if "hasLabel" in element:
        return element["hasLabel"]["labeltype"], {element["hasLabel"]["value"]}
    if "hasLabelGroup" in element:
        labels = set()
        for item in element["hasLabelGroup"]["values"].split(","):
            low, _, high = item.partition("-")
            labels |= set(range(int(low), int(high or low) + 1))
        return element["hasLabelGroup"]["labeltype"], labels
    return None, None


class Network:
    def __init__(self, domains):
        self.elements, self.domain_of, self.ports, self.encoding = {}, {}, {}, {}
        for domain in domains:
            for element in domain["elements"]:
                self.elements[element["id"]] = element
                self.domain_of[element["id"]] = domain["topology"]
                if element["type"] in ("Port", "PortGroup"):
                    self.ports[element["id"]] = element
                    self.encoding[element["id"]] = element.get("encoding", domain.get("encoding", "none"))
        self.class_of = self.classes()
        self.open = {}
        for port, name in self.class_of.items():
            if port == name:
                members = [self.ports[p] for p in self.ports if self.class_of[p] == name]
                sets = [labels_of(p)[1] for p in members]
                self.open[name] = [None] if sets[0] is None else sorted(set.intersection(*sets))

    def classes(self):
        """The first port, in the order of files and elements, that a chain of aliases leads to."""
        near = {p: set() for p in self.ports}
        for p, port in self.ports.items():
            for q in port.get("isAlias", []):
                if q in self.ports:
                    near[p].add(q)
                    near[q].add(p)
        found = {}
        for first in self.ports:
            if first in found:
                continue
            wave = [first]
            while wave:
                p = wave.pop()
                if p not in found:
                    found[p] = first
                    wave.extend(near[p])
        return found

    def naming(self, relation, element):
        return [p for p in self.ports if element in self.ports[p].get(relation, [])]

    def known(self, ids):
        return [p for p in dict.fromkeys(ids) if p in self.ports]

    def switched(self, service):
        """The inbound and the outbound ports of a SwitchingService."""
        if "hasInboundPort" in service or "hasOutboundPort" in service:
            return [self.known(service.get(r, [])) for r in ("hasInboundPort", "hasOutboundPort")]
        ends = []
        for relation in ("hasInboundPort", "hasOutboundPort"):
            ids = [p for node in self.elements.values() if node["type"] == "Node" and service["id"] in node.get("hasService", [])
                   for p in node.get(relation, [])]
            ends.append([p for p in self.known(ids) if service.get("encoding", self.encoding[p]) == self.encoding[p]])
        return ends

    def frame(self, function, port, label):
        first = self.class_of[port]
        return function, self.encoding[first], labels_of(self.ports[first])[0], label

    def hops(self):
        """Every hop: its text, its places, its cost, and the frame that it puts on the stack or takes off."""
        for name, element in self.elements.items():
            kind, swaps = element["type"], False
            if kind in ("Link", "LinkGroup"):
                word, ends = "link", (self.naming("isSource", name), self.naming("isSink", name))
            elif kind == "SwitchingService":
                word, ends, swaps = "cross", self.switched(element), element.get("labelSwapping", False)
            elif kind == "ConversionService":
                word, swaps = "convert", True
                ends = [self.known(element.get(r, [])) for r in ("hasInboundPort", "hasOutboundPort")]
            elif kind == "AdaptationService":
                word, swaps = "adapt", True
                ends = self.known(element.get("providesPort", [])), self.naming("hasService", name)
            elif kind == "DeadaptationService":
                word, swaps = "deadapt", True
                ends = self.naming("hasService", name), self.known(element.get("providesPort", []))
            else:
                continue
            own = labels_of(element)[1] if word == "link" else None
            for p in ends[0]:
                for q in ends[1]:
                    for m in self.open[self.class_of[p]]:
                        for n in self.open[self.class_of[q]]:
                            if (swaps or m == n) and (own is None or m in own):
                                push = self.frame(element["adaptationFunction"], p, m) if word == "adapt" else None
                                pop = self.frame(element["adaptationFunction"], q, n) if word == "deadapt" else None
                                text = [word, name, p, tag(m), q, tag(n), self.domain_of[name]]
                                yield text, (self.class_of[p], m), (self.class_of[q], n), element.get("cost", 1), push, pop

    def allowed(self, port, wish):
        name = self.class_of[port]
        return [(name, label) for label in self.open[name] if wish == "any" or tag(label) == wish]


def tag(label):
    return "-" if label is None else str(label)


def lower(weights, root, place, weight):
    """Lists the weight where it is below what is listed, and tells whether it was."""
    at = weights.setdefault(root, {})
    if place in at and at[place] <= weight:
        return False
    at[place] = weight
    return True


def least_weights(network, starts, hops):
    """The least weight of each pair of a root and a place by these hops: cost and hops, without bound."""
    weights = {}
    for place in starts:
        lower(weights, None, place, (0, 0))
    changed = True
    while changed:
        changed = False
        for _, x, y, cost, push, pop in hops:
            for root in list(weights):
                if pop is not None or x not in weights[root]:
                    continue
                weight = weights[root][x]
                if push is None:
                    changed |= lower(weights, root, y, (weight[0] + cost, weight[1] + 1))
                    continue
                changed |= lower(weights, y, y, (0, 0))
                for _, z, w, other, _, frame in hops:
                    if frame == push and z in weights[y]:
                        inner = weights[y][z]
                        sum_of = (weight[0] + cost + inner[0] + other, weight[1] + 1 + inner[1] + 1)
                        changed |= lower(weights, root, w, sum_of)
    return weights


def outcome(network, request):
    """The outcome line, and the least weight where there is one."""
    start, target = network.allowed(request[0], request[1]), network.allowed(request[2], request[3])
    found = least_weights(network, start, list(network.hops())).get(None, {})
    weights = [found[place] for place in target if place in found]
    if not weights:
        return "outcome none", None
    least = min(weights)
    if least[0] >= 2**64:
        return "outcome past", least
    if least[1] > 65536:
        return f"outcome long {least[0]} {min(least[1], 2**40)}", least
    return f"outcome found {least[0]} {least[1]}", least


def check_hops(network, request, lines, least):
    """Why the printed hops are no walk of this weight, or nothing."""
    hops = {tuple(hop[0]): hop for hop in network.hops()}
    stack, place, cost = [], None, 0
    for number, line in enumerate(lines, 1):
        words = line.split(" ")
        hop = hops.get(tuple(words[2:9]))
        if words[:2] != ["hop", str(number)] or hop is None:
            return f"no hop: {line}"
        _, x, y, price, push, pop = hop
        if place is None and x not in network.allowed(request[0], request[1]):
            return "it does not start at FROM"
        if place is not None and x != place:
            return f"it is not there: {line}"
        if push is not None:
            stack.append(push)
        if pop is not None and (not stack or stack.pop() != pop):
            return f"another frame is on top: {line}"
        place, cost = y, cost + price
    if lines and place not in network.allowed(request[2], request[3]):
        return "it does not end at TO"
    if stack:
        return "frames are left"
    if (cost, len(lines)) != least:
        return "it has another weight"
    return None


# ---- the document

def kept_labels(network, request):
    """The kept labels of each label type: the least of the labels of a set that no set and no stated label tells apart."""
    tests = {}
    for name, labels in network.open.items():
        tests.setdefault(labels_of(network.ports[name])[0], []).append(set(labels))
    for element in network.elements.values():
        if element["type"] in ("Link", "LinkGroup") and labels_of(element)[0] is not None:
            tests.setdefault(labels_of(element)[0], []).append(labels_of(element)[1])
    kept = {}
    for labeltype, sets in tests.items():
        if labeltype is None:
            continue
        stated = [{int(wish)} for port, wish in (request[:2], request[2:])
                  if wish != "any" and labels_of(network.ports[network.class_of[port]])[0] == labeltype]
        least = {}
        for label in sorted(set().union(*sets)):
            least.setdefault(tuple(label in one for one in sets + stated), label)
        kept[labeltype] = set(least.values())
    return kept


def has_kept(network, kept, place):
    return place[1] is None or place[1] in kept[labels_of(network.ports[place[0]])[0]]


def over_kept(network, request):
    """The hops and the starts over kept labels."""
    kept = kept_labels(network, request)
    hops = [hop for hop in network.hops() if has_kept(network, kept, hop[1]) and has_kept(network, kept, hop[2])]
    return hops, [place for place in network.allowed(request[0], request[1]) if has_kept(network, kept, place)]


def place_key(place):
    return place[0].encode(), -1 if place[1] is None else place[1]


def place_words(place):
    return f"{place[0]} {tag(place[1])}"


def weight_words(weight):
    return "past -" if weight[0] >= 2**64 else f"{weight[0]} {min(weight[1], 2**40)}"


def potential_lines(network, request):
    """The lines of the least weights over kept labels."""
    hops, starts = over_kept(network, request)
    weights = least_weights(network, starts, hops)
    top = weights.pop(None, {})
    lines = [f"top {place_words(y)} {weight_words(top[y])}" for y in sorted(top, key=place_key)]
    for x in sorted(weights, key=place_key):
        lines += [f"seg {place_words(x)} {place_words(y)} {weight_words(weights[x][y])}" for y in sorted(weights[x], key=place_key)]
    return lines


def again(network, hops):
    """For each hop, the first earlier place that is the one behind it, as the words that end its line."""
    if not hops:
        return []
    places = [(network.class_of[hops[0][3]], hops[0][4])] + [(network.class_of[hop[5]], hop[6]) for hop in hops]
    return [f" again {places.index(place)}" if places.index(place) < at else "" for at, place in enumerate(places)][1:]


VERBS = {"link": "carry", "adapt": "wrap", "deadapt": "unwrap", "convert": "convert"}


def rule_lines(hops):
    """The rules of hops, by domain and number."""
    lines, last = [], None
    for hop in sorted(hops, key=lambda hop: (hop[7].encode(), int(hop[0]))):
        verb = VERBS.get(hop[1]) or ("connect" if hop[4] == hop[6] else "swap")
        if hop[7] != last:
            lines.append(f"domain {hop[7]}")
        lines.append(f"rule {hop[0]} {verb} {' '.join(hop[2:7])}")
        last = hop[7]
    return lines


def check_document(network, request, lines, least, potentials):
    """Why lines behind the outcome are no end of a document with these potentials, or nothing."""
    hops = [line for line in lines if line.startswith("hop ")]
    if least is None and hops:
        return "hops without a circuit"
    if least is not None:
        told = check_hops(network, request, hops, least)
        if told is not None:
            return told
    words = [line.split(" ")[1:9] for line in hops]
    want = [f"hop {' '.join(hop)}{flag}" for hop, flag in zip(words, again(network, words))]
    want += rule_lines(words) + potentials + ["end"]
    for number, (line, due) in enumerate(zip(lines + [None] * len(want), want + [None] * len(lines)), 4):
        if line != due:
            return f"line {number} is {line}, wanted {due}"
    return None


# ---- lists

def leads_on(hops, targets):
    """The places from which hops lead to a target, whatever is on the stack."""
    places, grows = set(targets), True
    while grows:
        more = {hop[1] for hop in hops if hop[2] in places} - places
        places |= more
        grows = bool(more)
    return places


def begin_walks(network, request):
    """Walks over kept labels by weight, each with the lines of its hops but for their numbers, and where it ends, with its stack: all that
    begin so, walks or not. No two have the same hops."""
    hops, starts = over_kept(network, request)
    targets = network.allowed(request[2], request[3])
    places = leads_on(hops, targets)
    waiting = [((0, 0), number, (), place, ()) for number, place in enumerate(starts) if place in places]
    count, empty = len(waiting), False
    heapq.heapify(waiting)
    while waiting:
        (cost, length), _, walk, place, stack = heapq.heappop(waiting)
        is_walk = not stack and place in targets and not (empty and not walk)
        empty = empty or (is_walk and not walk)
        yield (cost, length), walk, is_walk
        for text, x, y, price, push, pop in hops:
            if x != place or y not in places or (pop is not None and (not stack or stack[-1] != pop)):
                continue
            after = stack + (push,) if push is not None else stack[:-1] if pop is not None else stack
            count += 1
            heapq.heappush(waiting, ((cost + price, length + 1), count, walk + (" ".join(text),), y, after))


def walks_of(network, request, most):
    """The first walks by weight, at most so many, and the weight below which there are no others: nothing where there are none at all."""
    found = []
    for number, (weight, walk, is_walk) in enumerate(begin_walks(network, request)):
        if number == BEGUN or len(found) == most:
            return found, weight
        if is_walk:
            found.append((weight, walk))
    return found, None


def read_list(lines):
    """The walks of a list, each with its weight, and the words of its end."""
    walks = []
    for line in lines[2:-2]:
        words = line.split(" ")
        if words[0] == "walk":
            walks.append(((int(words[2]), int(words[3])), []))
        else:
            walks[-1][1].append(line)
    return walks, lines[-2].split(" ")


def check_list(network, request, k, lines, want):
    """Why these lines are no list of the k cheapest walks, or nothing."""
    walks, end = read_list(lines)
    again = [f"walk {number} {weight[0]} {weight[1]}" for number, (weight, _) in enumerate(walks, 1)]
    if [line for line in lines if line.startswith("walk ")] != again or lines[-1] != "end" or len(walks) > k:
        return "it is no list"
    for weight, hops in walks:
        told = check_hops(network, request, hops, weight)
        if told is not None or weight[0] >= 2**64:
            return told or "a walk is past"
    listed = [(weight, tuple(line.split(" ", 2)[2] for line in hops)) for weight, hops in walks]
    if listed != sorted(listed, key=lambda walk: walk[0]) or len(set(listed)) < len(listed):
        return "the walks do not rise, or one stands twice"
    found, bound = walks_of(network, request, k + 1)
    others = [walk for walk in found if walk not in listed]
    if any(bound is None or walk[0] < bound for walk in set(listed) - set(found)):
        return "a listed walk is none over kept labels"
    if any(other[0] < walk[0] for other in others for walk in listed):
        return f"a lighter walk is not listed: {others[0]}"
    if (end == ["more", "enough"]) != (len(listed) == k):
        return "the end is wrong"
    if end in (["more", "none"], ["more", "past"]) and any(end[1] == "none" or other[0][0] < 2**64 for other in others):
        return f"there is another walk: {others[0]}"
    if end == ["more", "past"] and bound is None and not others:
        return "there is no other walk"
    if not listed and end[1:] != want.split(" ")[1:]:
        return f"the end is {' '.join(end)}, wanted {want}"
    return None


# ---- documents

def load_verify():
    """The second checker, as a module."""
    path = os.path.join(os.path.dirname(os.path.abspath(__file__)), os.pardir, "tools", "verify")
    loader = importlib.machinery.SourceFileLoader("verify", path)
    module = importlib.util.module_from_spec(importlib.util.spec_from_loader("verify", loader))
    sys.modules["verify"] = module
    loader.exec_module(module)
    return module


VERIFY = load_verify()


def damaged(rng, text):
    """The document with a few lines dropped, doubled, moved or changed in a word."""
    lines = text.splitlines()
    for _ in range(rng.randint(1, 2)):
        at = rng.randrange(len(lines))
        change = rng.randrange(4)
        if change == 0 and len(lines) > 1:
            del lines[at]
        elif change == 1:
            lines.insert(at, lines[at])
        elif change == 2:
            other = rng.randrange(len(lines))
            lines[at], lines[other] = lines[other], lines[at]
        else:
            words = lines[at].split(" ")
            words[rng.randrange(len(words))] = rng.choice(["0", "1", "2", "7", "any", "-", "past", "again", rng.choice(words)])
            lines[at] = " ".join(words)
    return "\n".join(lines) + ("\n" if rng.random() < 0.9 else "")


def said_of(program, command, text, folder, names):
    """What a command says of a document, with its status."""
    name = os.path.join(folder, "answer")
    with open(name, "w") as out:
        out.write(text)
    run = subprocess.run([program, command, name, *names], capture_output=True, text=True)
    return run.returncode, run.stdout


def examined(program, folder, names, want, found, routed, rng):
    """What `check` or `replay` says of these documents that is not so, or nothing."""
    hops = [line for line in routed.splitlines() if line.startswith("hop ")]
    order = "numbered" if any(" again " in line for line in hops) else "any-order"
    replayed = (0, f"carried {len(hops)} {order}\n") if want.startswith("outcome found") else (9, "not-carried 0 outcome\n")
    contents = [open(name, "rb").read() for name in names]
    rows = [("check", found, (0, want.replace("outcome", "valid", 1) + "\n")), ("replay", routed, replayed)]
    for text in (routed, damaged(rng, found), damaged(rng, found), damaged(rng, found)):
        status, line = VERIFY.verdict(text.encode(), contents)
        rows.append(("check", text, (status, line.rstrip("\n") + "\n")))
    for command, text, due in rows:
        said = said_of(program, command, text, folder, names)
        if said != due:
            return f"{command}: {said}, wanted {due}, of\n{text}"
    return None


# ---- comparing

def difference(program, folder, domains, request, rng):
    """What is printed for the request that is not so, or nothing."""
    names = []
    for number, domain in enumerate(domains):
        name = os.path.join(folder, f"{number}.json")
        with open(name, "w") as out:
            json.dump(domain, out)
        names.append(name)
    network = Network(domains)
    want, least = outcome(network, request)
    status = {"none": 1, "past": 7, "long": 8, "found": 0}[want.split(" ")[1]]
    documents = []
    for command, potentials in (("find", potential_lines(network, request)), ("route", [])):
        run = subprocess.run([program, command, *request, *names], capture_output=True, text=True)
        lines = run.stdout.splitlines()
        heading = ["circuit 1", "request " + " ".join(request), want]
        if lines[:3] != heading or run.returncode != status:
            return f"{command}: printed {lines[:3]}, status {run.returncode}; wanted {heading}, status {status}"
        told = check_document(network, request, lines[3:], least if status == 0 else None, potentials)
        if told is not None:
            return f"{command}: {told}"
        documents.append(run.stdout)
    k = rng.choice([1, 2, 3, 5, 9])
    run = subprocess.run([program, "k-find", str(k), *request, *names], capture_output=True, text=True)
    lines = run.stdout.splitlines()
    if lines[:2] != ["circuits 1", "request " + " ".join(request)] or run.returncode != status:
        return f"k-find {k}: printed {lines[:2]}, status {run.returncode}; wanted status {status}"
    told = check_list(network, request, k, lines, want)
    if told is not None:
        return f"k-find {k}: {told}, in\n{run.stdout}"
    return examined(program, folder, names, want, *documents, rng)


def random_request(rng, network, ids):
    """A request, mostly the one of a few whose cheapest circuit has the most hops."""
    requests = []
    for _ in range(rng.choice([1, 6, 12])):
        ends = rng.choice(ids), rng.choice(ids)
        if "x1" in ids and rng.random() < 0.7:
            level = rng.choice([port[1] for port in ids if port[0] == "x"])
            ends = "x" + level, "y" + level
        requests.append([ends[0], random_wish(rng, network, ends[0]), ends[1], random_wish(rng, network, ends[1])])
    return max(requests, key=lambda request: (outcome(network, request)[1] or (0, -1))[1])


def random_wish(rng, network, port):
    labels = [label for label in network.open[network.class_of[port]] if label is not None]
    return str(rng.choice(labels)) if labels and rng.random() < 0.5 else "any"


def main():
    parser = argparse.ArgumentParser(description=__doc__, formatter_class=argparse.RawDescriptionHelpFormatter)
    parser.add_argument("program")
    parser.add_argument("--count", type=int, default=2000)
    parser.add_argument("--seed", type=int, default=1)
    options = parser.parse_args()
    seen, longest = {}, 0
    with tempfile.TemporaryDirectory() as folder:
        for seed in range(options.seed, options.seed + options.count):
            rng = random.Random(seed)
            domains, ids = random_network(rng)
            network = Network(domains)
            request = random_request(rng, network, ids)
            word, least = outcome(network, request)
            word = word.split(" ")[1]
            seen[word] = seen.get(word, 0) + 1
            longest = max(longest, least[1] if least else 0)
            told = difference(options.program, folder, domains, request, rng)
            if told is not None:
                print(f"seed {seed}: {' '.join(request)}: {told}")
                print(json.dumps(domains))
                sys.exit(1)
    print(f"{options.count} networks, no difference: {seen}, at most {longest} hops")


if __name__ == "__main__":
    main()
