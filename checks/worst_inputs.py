#!/usr/bin/env python3
"""Makes the worst inputs that we know for each command, runs `finder` over three sizes of each, and prints the table of docs/LIMITS.md.

    python3 checks/worst_inputs.py PROGRAM [--only WORD] [--seconds N] [--gigabytes N]

A family of inputs has a number that grows. The table tells the bytes of all files at the largest number, the seconds of processor time and
the peak of memory there, and by which power of the number both grew from the middle to the largest. A run that takes more processor time
or memory than the bounds is ended, and shown by `over`. `--only` takes the families whose name or command has the word.
"""
import argparse
import functools
import json
import math
import os
import random
import resource
import subprocess
import sys
import tempfile

FAMILIES = []
FILE_LIMIT = 16_777_216


def family(command, grows, *sizes):
    """Enters a function that makes the words behind the command, and the files by name, from a number."""
    def enter(make):
        FAMILIES.append((command, make.__doc__, grows, sizes, make))
        return make
    return enter


# ---- writing files

def element(kind, name, **members):
    return json.dumps({"type": kind, "id": name, **members}, separators=(",", ":"))


port = functools.partial(element, "Port")
link = functools.partial(element, "Link")
switch = functools.partial(element, "SwitchingService")


def group(name, values, **members):
    return element("PortGroup", name, hasLabelGroup={"labeltype": "v", "values": values}, **members)


def labelled(name, value, **members):
    return port(name, hasLabel={"labeltype": "v", "value": value}, **members)


def adaptation(name, clients, kind="AdaptationService", function="F"):
    return element(kind, name, adaptationFunction=function, providesPort=clients)


def deadaptation(name, clients, function="F"):
    return adaptation(name, clients, "DeadaptationService", function)


def domain(elements, name="d", more=""):
    return ('{"format":1,"topology":"%s","elements":[%s]%s}' % (name, ",\n".join(elements), more)).encode()


def names(letter, count):
    return [f"{letter}{number}" for number in range(count)]


def ends():
    """Two ports and a link, so that there is something to find."""
    return [port("from", isSource=["way"]), port("to", isSink=["way"]), link("way")]


def found(elements, source="from any", target="to any"):
    return f"{source} {target} net".split(" "), {"net": domain(elements)}


def surveyed(elements, more=""):
    return ["net"], {"net": domain(elements, more=more)}


def judged(lines, elements, request="from any to any", outcome="none"):
    text = "\n".join(["circuit 1", f"request {request}", f"outcome {outcome}", *lines, "end", ""])
    return ["answer", "net"], {"answer": text.encode(), "net": domain(elements)}


# ---- JSON

@family("survey", "empty arrays in a member that is read over", 1_000_000, 2_000_000, 5_500_000)
def empty_arrays(count):
    """`[]` again and again"""
    return surveyed(ends(), ',"x":[%s]' % ",".join(["[]"] * count))


@family("survey", "objects in a member that is read over", 500_000, 1_000_000, 2_000_000)
def small_objects(count):
    """`{"":0}` again and again"""
    return surveyed(ends(), ',"x":[%s]' % ",".join(['{"":0}'] * count))


@family("survey", "arrays of depth 125", 15_000, 30_000, 60_000)
def deep_arrays(count):
    """nesting at its limit, again and again"""
    return surveyed(ends(), ',"x":[%s]' % ",".join(["[" * 125 + "]" * 125] * count))


@family("survey", "members of one object", 250_000, 500_000, 1_000_000)
def many_members(count):
    """an object of many members, in falling order"""
    return surveyed(ends(), ',"x":{%s}' % ",".join(f'"{number}":0' for number in range(count + 999_999, 999_999, -1)))


@family("survey", "digits of one number", 4_000_000, 8_000_000, 16_000_000)
def long_number(count):
    """one number of many digits"""
    return surveyed(ends(), ',"x":0.%s1' % ("0" * count))


@family("survey", "escapes in one text", 700_000, 1_400_000, 2_700_000)
def escapes(count):
    """a text all of escapes"""
    return surveyed(ends(), ',"x":"%s"' % (r"\u0041" * count))


# ---- ids and relations

def folded_multiply(one, other):
    product = one * other
    return (product & (2**64 - 1)) ^ (product >> 64)


@functools.cache
def front_of_equal_hashes(length):
    """24 bytes behind which the next 8 do not count: the hash of the first 16 stands in the next 8, so that a product is zero."""
    initial, multiplier = 0x243F_6A88_85A3_08D3, 0x9E37_79B9_7F4A_7C15
    rng = random.Random(1)
    while True:
        front = bytes(rng.choice(range(0x30, 0x7B)) for _ in range(16)).replace(b"\\", b"x")
        low, high = (int.from_bytes(part, "little") for part in (front[:8], front[8:]))
        state = folded_multiply(low ^ (initial + length & 2**64 - 1), high ^ multiplier).to_bytes(8, "little")
        if all(0x23 <= byte <= 0x7E and byte != 0x5C for byte in state):
            return (front + state).decode()


def equal_hashes(count):
    """Ids whose hash is the same under the default hasher of the kit, which has a fixed seed."""
    return [f"{front_of_equal_hashes(48)}{number:08}{'t' * 16}" for number in range(count)]


@family("survey", "ports", 5_000, 10_000, 20_000)
def hashes_of_ports(count):
    """ids of equal hash"""
    return surveyed(map(port, equal_hashes(count)))


@family("survey", "open references", 5_000, 10_000, 20_000)
def hashes_of_references(count):
    """a relation of open references of equal hash"""
    return surveyed([port("a", isAlias=equal_hashes(count))])


@family("survey", "members of one object", 5_000, 10_000, 20_000)
def hashes_of_members(count):
    """an object whose names have equal hashes"""
    return surveyed(ends(), ',"x":{%s}' % ",".join(f'"{name}":0' for name in equal_hashes(count)))


@family("survey", "ports", 14_000, 28_000, 56_000)
def long_ids(count):
    """ids of 255 bytes that differ in the last ones"""
    return surveyed(port("i" * 248 + f"{number:07}") for number in range(count))


@family("survey", "ids in one relation", 800_000, 1_600_000, 3_200_000)
def repeated_targets(count):
    """a relation that names one id again and again"""
    return surveyed([port("a", isAlias=["a"] * count)])


@family("survey", "ids in one relation", 350_000, 700_000, 1_400_000)
def open_targets(count):
    """a relation of different open references"""
    return surveyed([port("a", isAlias=names("x", count))])


@family("survey", "ports", 75_000, 150_000, 300_000)
def alias_chain(count):
    """a chain of aliases, from the last port to the first"""
    return surveyed(port(f"p{number}", isAlias=[f"p{number + 1}"]) for number in range(count))


@family("survey", "ports", 75_000, 150_000, 300_000)
def alias_tree(count):
    """aliases at random, most of them in one class"""
    rng = random.Random(1)
    return surveyed(port(f"p{number}", isAlias=[f"p{rng.randrange(count)}"]) for number in range(count))


@family("survey", "ports of one class, with 1,000 ranges each", 250, 500, 1_000)
def sets_of_a_class(count):
    """a class of ports with many ranges each"""
    rng = random.Random(1)
    texts = [",".join(f"{at * 50}-{at * 50 + rng.randint(20, 48)}" for at in range(1_000)) for _ in range(count)]
    return surveyed(group(f"p{number}", text, isAlias=["p0"]) for number, text in enumerate(texts))


@family("survey", "ranges of one set, in falling order", 350_000, 700_000, 1_400_000)
def many_ranges(count):
    """a group text of many labels"""
    return surveyed([group("p", ",".join(str(number * 2) for number in range(count, 0, -1)))])


@family("survey", "services, and ports", 2_000, 4_000, 8_000)
def lent_ports(count):
    """a Node that lends its ports to services without ports"""
    services, ports = names("s", count), names("p", count)
    node = element("Node", "n", hasInboundPort=ports, hasOutboundPort=ports, hasService=services)
    return surveyed([node, *map(switch, services), *map(port, ports)])


@family("survey", "ports", 30_000, 60_000, 120_000)
def one_link(count):
    """a link that all ports send into and take from"""
    return surveyed([*(port(name, isSource=["l"], isSink=["l"]) for name in names("p", count)), link("l")])


@family("survey", "ports of each of 64 files", 1_000, 2_000, 4_000)
def many_files(count):
    """64 files that name each other's ports"""
    def ports(file):
        return [port(f"p{file}-{number}", isAlias=[f"p{(file + 1) % 64}-{number}"]) for number in range(count)]

    files = {f"f{file}": domain(ports(file), f"d{file}") for file in range(64)}
    return list(files), files


# ---- hops

@family("find", "ports before and behind one link", 1_000, 2_000, 4_000)
def between_many(count):
    """a link with many ports at both ends"""
    before = [port(name, isSource=["l"]) for name in names("p", count)]
    behind = [port(name, isSink=["l"]) for name in names("q", count)]
    return found([*before, *behind, link("l")], "p0 any", "q0 any")


@family("find", "services, and ports", 75, 150, 300)
def lent_hops(count):
    """the same of services that a Node lends its ports"""
    return ["p0", "any", "p1", "any", *lent_ports(count)[0]], lent_ports(count)[1]


def one_label_each(count):
    """Ports that make each of so many labels a kept one."""
    return [labelled(f"x{number}", number) for number in range(count)]


@family("find", "kept labels", 1_000, 2_000, 4_000)
def swapped_labels(count):
    """a service that swaps many kept labels"""
    values = f"0-{count - 1}"
    return found([*one_label_each(count), group("p", values), group("q", values),
                  switch("s", labelSwapping=True, hasInboundPort=["p"], hasOutboundPort=["q"])], "p any", "q any")


@family("find", "kept labels, and ports that have them all", 1_000, 2_000, 4_000)
def unreached_places(count):
    """many labels at many ports, of which the request reaches none"""
    return found([*ends(), *one_label_each(count), *(group(name, "0-99999") for name in names("p", count))])


@family("find", "labels of ports before and behind", 4_000, 8_000, 16_000)
def labels_that_differ(count):
    """a service whose ports have no label in common"""
    before, behind = names("p", count), names("q", count)
    return found([*ends(), *(labelled(name, number) for number, name in enumerate(before)),
                  *(labelled(name, count + number) for number, name in enumerate(behind)),
                  switch("s", hasInboundPort=before, hasOutboundPort=behind)])


@family("find", "labels of a port, and links", 4_000, 8_000, 16_000)
def links_without_labels(count):
    """links whose own labels are none of their ports'"""
    links = names("l", count)
    return found([*ends(), *one_label_each(count), group("p", f"0-{count - 1}", isSource=links),
                  group("q", f"0-{count - 1}", isSink=links),
                  *(link(name, hasLabel={"labeltype": "v", "value": 10**9}) for name in links)])


@family("find", "ranges of each of 20 sets", 2_500, 5_000, 10_000)
def crossing_sets(count):
    """sets of ranges that cross at random"""
    rng = random.Random(1)
    texts = [",".join(f"{low}-{low + 2**29 // count}" for low in (rng.randrange(2**31) for _ in range(count))) for _ in range(20)]
    return found([*ends(), *(group(f"p{number}", text) for number, text in enumerate(texts))])


@family("find", "label types", 40_000, 80_000, 160_000)
def many_label_types(count):
    """ports with a label type each"""
    return found([*ends(), *(port(f"p{n}", hasLabel={"labeltype": f"t{n}", "value": n}) for n in range(count))])


@family("find", "functions", 10_000, 20_000, 40_000)
def many_functions(count):
    """services of a function each, at one port"""
    into = [adaptation(f"a{n}", ["from"], function=f"F{n}") for n in range(count)]
    out = [deadaptation(f"u{n}", ["to"], function=f"F{n}") for n in range(count)]
    return found([*ends(), port("s", hasService=names("a", count)), *into, *out])


@family("find", "links", 10_000, 20_000, 40_000)
def links_of_no_cost(count):
    """a ring of links that cost nothing"""
    ports = [port(f"p{n}", isSource=[f"l{n}"], isSink=[f"l{(n - 1) % count}"]) for n in range(count)]
    return found([*ports, *(link(name, cost=0) for name in names("l", count))], "p0 any", f"p{count - 1} any")


@family("find", "links", 10_000, 20_000, 40_000)
def sets_in_sets(count):
    """links whose sets of labels lie in one another"""
    links = [element("LinkGroup", f"l{n}", hasLabelGroup={"labeltype": "v", "values": f"{n}-{2 * count - n}"}) for n in range(count)]
    return found([*ends(), *links])


@family("find", "ranges of one set", 350_000, 700_000, 1_400_000)
def label_not_here(count):
    """a request with a label that no range has"""
    return found([group("p", ",".join(str(number * 2) for number in range(count)))], "p 7", "p any")


@family("find", "clients before and behind one server port", 4_000, 8_000, 16_000)
def nests(count):
    """ways into one layer and out of it"""
    return found(nested_clients(count), target="q0 any")


def nested_clients(count):
    before, behind = names("p", count), names("q", count)
    return [port("from", isSource=["in"]), *(port(name, isSink=["in"]) for name in before), *map(port, behind), link("in"),
            port("s", hasService=["a", "u"]), adaptation("a", before), deadaptation("u", behind)]


@family("find", "functions, and ports behind", 2_000, 4_000, 8_000)
def frames_that_differ(count):
    """ways into one layer by many functions, and ways out of it by another"""
    return found(unmatched_frames(count), "c any", "to any")


def unmatched_frames(count):
    inside = [port(name, isSink=["l"], hasService=["u"]) for name in names("q", count)]
    services = names("a", count)
    return [*ends(), port("c"), port("s", isSource=["l"], hasService=services), link("l"), *inside,
            *(adaptation(name, ["c"], function=f"F{name}") for name in services), deadaptation("u", ["c"], "G")]


@family("find", "roots, and places of each, behind one link", 100, 200, 400)
def pairs_behind_one_link(count):
    """layers that are entered at each of the ports of a link with many ports at both ends"""
    return found(entered_everywhere(count), "c any", "to any")


def entered_everywhere(count):
    ports = [port(name, isSource=["l"], isSink=["l"], hasService=["a"]) for name in names("p", count)]
    return [*ends(), port("c"), *ports, link("l"), adaptation("a", ["c"])]


@family("find", "roots, each with all places", 250, 500, 1_000)
def roots_in_a_circle(count):
    """layers that nest in a circle"""
    ports = [port(f"p{n}", hasService=[f"a{n}"], isSource=[f"l{n}"], isSink=[f"l{(n - 1) % count}"]) for n in range(count)]
    adaptations = [adaptation(f"a{n}", [f"p{(n + 1) % count}"]) for n in range(count)]
    return found([*ports, *map(link, names("l", count)), *adaptations], "p0 any", "p1 any")


@family("find", "layers in one another", 8_000, 16_000, 32_000)
def deep_layers(count):
    """tunnels in tunnels"""
    elements = [port("x0", isSource=["l"], hasService=["a1"]), port("y0", isSink=["l"], hasService=["u1"]), link("l")]
    for level in range(1, count + 1):
        services = ([f"a{level + 1}"], [f"u{level + 1}"]) if level < count else ([], [])
        elements += [port(f"x{level}", hasService=services[0]), port(f"y{level}", hasService=services[1]),
                     adaptation(f"a{level}", [f"x{level}"]), deadaptation(f"u{level}", [f"y{level}"])]
    return found(elements, f"x{count} any", f"y{count} any")


@family("find", "links in a row", 16_384, 32_768, 65_536)
def long_circuit(count):
    """a circuit at the hop limit"""
    ports = [port(f"p{n}", isSource=[f"l{n}"], isSink=[f"l{n - 1}"] if n else []) for n in range(count + 1)]
    return found([*ports, *map(link, names("l", count))], "p0 any", f"p{count} any")


@family("find", "ports", 5_000, 10_000, 20_000)
def search_of_equal_hashes(count):
    """a request over ids of equal hash"""
    ids = equal_hashes(count)
    return found([*ends(), *(port(name, isAlias=[ids[0]]) for name in ids)])


# ---- documents

@family("check", "potentials of places that are not there", 250_000, 500_000, 1_000_000)
def many_potentials(count):
    """a document of many potentials over a small network"""
    return judged([f"top p{number:07} - 0 0" for number in range(count)], ends())


@family("check", "hops to and fro", 100_000, 200_000, 400_000)
def many_hops(count):
    """a document of many hops between two ports"""
    hop = ("link l a - b - d", "link m b - a - d")
    lines = [f"hop {number + 1} {hop[number % 2]}" + (f" again {(number + 1) % 2}" if number else "") for number in range(count)]
    return judged(lines, [port("a", isSource=["l"], isSink=["m"]), port("b", isSource=["m"], isSink=["l"]), link("l"), link("m")],
                  "a any a any", f"found {count} {count}")


@family("check", "clients before and behind one server port", 2_000, 4_000, 8_000)
def checked_nests(count):
    """ways into one layer and out of it, all listed"""
    before, behind = names("p", count), names("q", count)
    lines = ["top from - 0 0", *(f"top {name} - 1 1" for name in before), *(f"top {name} - 3 3" for name in behind)]
    return judged([*sorted(lines), "seg s - s - 0 0"], nested_clients(count), "from any q0 any", "past")


@family("check", "functions, and ports behind", 2_000, 4_000, 8_000)
def checked_frames(count):
    """ways into one layer by many functions, and ways out of it by another, all listed"""
    inside = [f"seg s - {name} - 1 1" for name in sorted(names("q", count))]
    return judged(["top c - 0 0", *inside, "seg s - s - 0 0"], unmatched_frames(count), "c any to any", "past")


@family("check", "roots, and places of each, behind one link", 100, 200, 400)
def checked_pairs(count):
    """layers that are entered at each of the ports of a link with many ports at both ends, all listed"""
    order = sorted(names("p", count))
    lines = ["top c - 0 0", *(f"seg {x} - {y} - {int(x != y)} {int(x != y)}" for x in order for y in order)]
    return judged(lines, entered_everywhere(count), "c any to any", "past")


@family("check", "bytes of one line", 4_000_000, 8_000_000, 16_000_000)
def one_line(count):
    """a document without a newline"""
    return ["answer", "net"], {"answer": b"a" * count, "net": domain(ends())}


def rules_of(hops):
    return ["domain d", *(f"rule {number} carry {hop}" for number, hop in enumerate(hops, 1))]


@family("replay", "rules to and fro", 150_000, 300_000, 600_000)
def many_rules(count):
    """a document of many rules between two ports"""
    hops = [("l a - b -", "m b - a -")[number % 2] for number in range(count)]
    return judged(rules_of(hops), [port("a", isSource=["l"], isSink=["m"]), port("b", isSource=["m"], isSink=["l"]), link("l"), link("m")],
                  "a any b any", f"found {count} {count}")


@family("replay", "domains of one rule", 100_000, 200_000, 400_000)
def many_domains(count):
    """a document of many domains"""
    lines = [line for number in range(count) for line in (f"domain d{number:07}", f"rule {count - number} carry l a - b -")]
    return judged(lines, ends(), "from any to any", "found 1 1")


@family("replay", "rules, and ports of the one link", 10_000, 20_000, 40_000)
def rules_over_one_link(count):
    """rules over a link with many ports at both ends"""
    ports = [port(name, isSource=["l"], isSink=["l"]) for name in names("p", count)]
    hops = [f"l p{count - 1 - number} - p{count - 2 - number} -" for number in range(count - 1)]
    return judged(rules_of(hops), [*ports, link("l")], f"p{count - 1} any p0 any", "found 1 1")


@family("replay", "rules, and links of the one port", 10_000, 20_000, 40_000)
def rules_over_many_links(count):
    """rules over the links of a port with many links"""
    links = names("l", count)
    hops = [f"l{count - 1 - number} p - p -" for number in range(count)]
    return judged(rules_of(hops), [port("p", isSource=links, isSink=links), *map(link, links)], "p any p any", "found 1 1")


@family("replay", "rules, services, and ports", 500, 1_000, 2_000)
def rules_over_lent_ports(count):
    """rules over services that a Node lends its ports"""
    hops = [f"s{number} p{count - 1 - number} - p{count - 2 - number} -" for number in range(count - 1)]
    lines = ["domain d", *(f"rule {number} connect {hop}" for number, hop in enumerate(hops, 1))]
    words, files = judged(lines, [], f"p{count - 1} any p0 any", "found 1 1")
    return words, files | lent_ports(count)[1]


@family("drill", "levels", 1_024, 2_048, 4_096)
def drilled(count):
    """the deepest drill"""
    return [str(count)], {}


# ---- measuring

def write(make, size, folder):
    """Writes the files of an input, and gives its words. Another process does it: what it takes would count as memory of the run."""
    writer = os.fork()
    if writer == 0:
        words, files = make(size)
        for name, data in {**files, "words": json.dumps(words).encode()}.items():
            with open(os.path.join(folder, name), "wb") as out:
                out.write(data)
        os._exit(0)
    if os.waitpid(writer, 0)[1] != 0:
        sys.exit(f"{make.__name__} {size}: its files cannot be written")
    with open(os.path.join(folder, "words")) as words:
        return json.load(words)


def measured(program, command, make, size, bounds):
    """The status, the seconds of processor time and the peak of memory of one run, and the bytes of its files."""
    seconds, room = bounds

    def limit():
        resource.setrlimit(resource.RLIMIT_CPU, (seconds, seconds))
        resource.setrlimit(resource.RLIMIT_AS, (room, room))

    with tempfile.TemporaryDirectory() as folder:
        words = write(make, size, folder)
        sizes = {name: os.path.getsize(os.path.join(folder, name)) for name in os.listdir(folder) if name != "words"}
        if any(length > FILE_LIMIT for name, length in sizes.items() if name != "answer"):
            sys.exit(f"{make.__name__} {size}: a file is over its limit")
        run = subprocess.Popen([program, command, *words], cwd=folder, preexec_fn=limit, stdout=subprocess.DEVNULL)
        _, status, usage = os.wait4(run.pid, 0)
        run.returncode = os.waitstatus_to_exitcode(status)
    return run.returncode, usage.ru_utime + usage.ru_stime, usage.ru_maxrss * 1024, sum(sizes.values())


def power(before, behind, sizes):
    return f"{math.log(behind / before) / math.log(sizes[-1] / sizes[-2]):.1f}" if min(before, behind) > 0 else "-"


def row(program, given, bounds):
    """The line of a family."""
    command, shown, grows, sizes, make = given
    runs = []
    for size in sizes:
        status, seconds, memory, total = measured(program, command, make, size, bounds)
        runs.append((seconds, memory, total))
        if status < 0 or status == 10:
            return cells(command, shown, f"{grows}: {size:,}", total, ["", ""], f"over, status {status}", memory)
    middle, last = runs[-2:]
    powers = [power(middle[column], last[column], sizes) for column in (0, 1)]
    return cells(command, shown, f"{grows}: {sizes[-1]:,}", last[2], powers, f"{last[0]:.2f}", last[1])


def cells(command, shown, grows, total, powers, seconds, memory):
    return f"| {' | '.join([f'`{command}`', shown, grows, f'{total / 1e6:.2f} MB', *powers, seconds, f'{memory / 1e6:,.0f} MB'])} |"


def main():
    parser = argparse.ArgumentParser(description=__doc__, formatter_class=argparse.RawDescriptionHelpFormatter)
    parser.add_argument("program")
    parser.add_argument("--only", default="")
    parser.add_argument("--seconds", type=int, default=60)
    parser.add_argument("--gigabytes", type=float, default=8)
    options = parser.parse_args()
    program, bounds = os.path.abspath(options.program), (options.seconds, int(options.gigabytes * 1e9))
    heads = ["command", "input", "what grows, and how many at the largest", "bytes", "power of time", "of memory", "seconds", "memory"]
    print(f"| {' | '.join(heads)} |\n" + "|---" * len(heads) + "|")
    for given in FAMILIES:
        if options.only in given[0] or options.only in given[1] or options.only in given[4].__name__:
            print(row(program, given, bounds), flush=True)


if __name__ == "__main__":
    main()
