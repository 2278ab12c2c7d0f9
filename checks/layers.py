#!/usr/bin/env python3
"""Tells what each crate stands on, layer by layer, and whether one stands on a layer that it should not see.

    python3 checks/layers.py [--draw]

crates.txt lists for each crate all that is below it. What follows from the rest is dropped here: where a crate stands on another, what
that one stands on is not named again. The longest chain of crates to the last one of crates.txt, the program, is told too. A layer sees
itself and the layers before it in LAYERS. The exit status is 1, with a line for each reason on standard error, where

- a crate of crates.txt is in no layer or in two, or one of LAYERS is not in crates.txt;
- crates stand on each other in a circle;
- a crate stands on one of a later layer and KNOWN does not say why, or KNOWN has what is no longer so.

`--draw` writes the same as a picture, docs/crates.svg, by `dot` of Graphviz. A crate points to those that it stands on.
"""
import argparse
import subprocess
import sys
from dataclasses import dataclass
from pathlib import Path

TOP = Path(__file__).resolve().parent.parent
PICTURE = TOP / "docs" / "crates.svg"

# The layers from the bottom, each with its crates. A new crate goes into the lowest layer that has all that its subject needs.
LAYERS = {
    "base": "ml_base walk_grammar walk_derivations io_edges label_sets label_atoms alias_merge keyed_hash",
    "machine": "adapt_machine marked_machine segment_grammar pair_check root_order deriv_arena knuth_search k_cheapest route_unfold repeat_flags machine_bench",
    "network": "nml_elements circuit_spec place_names device_rules topo_gen nml_inventory kept_table layer_check open_places"
               " packet_replay machine_build machine_lift table_replay",
    "meaning": "answer_spec k_answers potential_lift finder_core k_solver",
    "text": "line_text line_fault id_numbers sizes_text domain_config answer_text k_text document_bench",
    "judging": "verdict hop_check potential_check cert_check rule_replay",
    "commands": "command_words replies file_words find_command k_find_command check_command drill_command survey_command finder_cli run_rows finder use_run use_solve",
}

# What stands on a later layer, and why.
KNOWN: dict[tuple[str, str], str] = {}

Edges = dict[str, list[str]]


def read_crates(text: str) -> tuple[Edges, Edges]:
    """For each crate of crates.txt in order the crates of the repository that it lists, and those of the kit."""
    lines = [line.partition("#")[0].partition(":") for line in text.splitlines()]
    listed = {name.split()[0]: below.split() for name, colon, below in lines if colon}
    own = {name: [it for it in below if it in listed] for name, below in listed.items()}
    return own, {name: [it for it in below if it not in listed] for name, below in listed.items()}


def circle_of(own: Edges) -> list[str]:
    """Crates each of which stands on the next, the last on the first, if there are any."""
    left = dict(own)
    while bottom := [name for name, below in left.items() if not any(it in left for it in below)]:
        for name in bottom:
            del left[name]
    path = list(left)[:1]
    while path and (lower := next(it for it in left[path[-1]] if it in left)) not in path:
        path.append(lower)
    return path[path.index(lower):] if path else []


def below_of(own: Edges) -> dict[str, set[str]]:
    """All that each crate stands on, directly or not. There must be no circle."""
    below: dict[str, set[str]] = {}

    def visit(name: str) -> set[str]:
        if name not in below:
            below[name] = set(own[name]).union(*(visit(it) for it in own[name]))
        return below[name]

    for name in own:
        visit(name)
    return below


def chain_to(name: str, direct: Edges) -> list[str]:
    """The longest chain of crates that ends with this one, each on the one before it: what a build of it waits for."""
    longest: dict[str, list[str]] = {}

    def visit(crate: str) -> list[str]:
        if crate not in longest:
            longest[crate] = [*max((visit(it) for it in direct[crate]), key=len, default=[]), crate]
        return longest[crate]

    return visit(name)


def without_what_follows(names: list[str], below: dict[str, set[str]]) -> list[str]:
    """The names that are not below another of them."""
    return [name for name in names if not any(name in below[it] for it in names)]


@dataclass
class House:
    """The crates, the layer of each by its place, and what they stand on: directly, and at all."""

    layers: dict[str, list[str]]
    direct: Edges
    below: dict[str, set[str]]

    def level(self, crate: str) -> int:
        return next(place for place, crates in enumerate(self.layers.values()) if crate in crates)

    def too_high(self) -> list[tuple[str, str]]:
        """The crates that stand on one of a later layer, each with the one that it does so by."""
        pairs = []
        for name, below in self.below.items():
            later = [it for it in sorted(below) if self.level(it) > self.level(name)]
            pairs += [(name, it) for it in without_what_follows(later, self.below)]
        return pairs


def house_of(own: Edges, layers: dict[str, str]) -> House:
    below = below_of(own)
    direct = {name: without_what_follows(names, below) for name, names in own.items()}
    return House({layer: names.split() for layer, names in layers.items()}, direct, below)


def faults_of(own: Edges, layers: dict[str, str], known: dict[tuple[str, str], str]) -> list[str]:
    """What is wrong, a line each."""
    placed = [name for names in layers.values() for name in names.split()]
    counts = {name: placed.count(name) for name in own}
    faults = [f"{name} is in {count or 'no'} layer{'s' * (count > 1)}" for name, count in counts.items() if count != 1]
    faults += [f"the layers have {name}, which crates.txt has not" for name in placed if name not in own]
    if circle := circle_of(own):
        faults.append(f"a circle: {' on '.join([*circle, circle[0]])}")
    if faults:
        return faults
    house = house_of(own, layers)
    high, names = house.too_high(), list(layers)
    new = [pair for pair in high if pair not in known]
    faults += [f"{name} ({names[house.level(name)]}) stands on {it} ({names[house.level(it)]})" for name, it in new]
    return faults + [f"it is known that {name} stands on {it}, and it does not" for name, it in known if (name, it) not in high]


def text_of(house: House, known: dict[tuple[str, str], str]) -> str:
    """The layers from the bottom, each crate with those that it stands on."""
    lines = []
    for layer, crates in house.layers.items():
        lines += [layer, *(f"    {' '.join([f'{name}:', *house.direct[name]]).rstrip(':')}" for name in crates)]
    if known:
        lines += ["on a later layer", *(f"    {name} on {it}: {why}" for (name, it), why in known.items())]
    top = list(house.direct)[-1]
    chain = chain_to(top, house.direct)
    return "\n".join([*lines, f"the longest chain to {top}, {len(chain)} crates", f"    {' '.join(chain)}"])


def dot_of(house: House, known: dict[tuple[str, str], str]) -> str:
    """The same for dot, the top layer above. What is known to stand on a later layer is red."""
    lines = ["digraph crates {", 'rankdir=TB; ranksep=0.45; nodesep=0.12; fontname="sans-serif"; fontsize=15; labeljust=l;',
             'node [shape=box, style="rounded,filled", fillcolor=white, fontname="sans-serif", fontsize=11, height=0.3];',
             'node [margin="0.08,0.04"];',
             'edge [arrowsize=0.5, color="#607080"];']
    for place, (layer, crates) in reversed(list(enumerate(house.layers.items()))):
        lines += [f'subgraph cluster_{place} {{ label="{layer}"; style=filled; color="#e8eef4";', *(f"{it};" for it in crates), "}"]
    for name, names in house.direct.items():
        for it in names:
            is_high = house.level(it) > house.level(name)
            lines.append(f"{name} -> {it}{' [color=red, constraint=false]' if is_high else ''};")
    return "\n".join([*lines, "}", ""])


def draw(dot: str) -> None:
    made = subprocess.run(["dot", "-Tsvg"], input=dot, capture_output=True, text=True, check=True)
    PICTURE.write_text(made.stdout)


def main() -> int:
    parser = argparse.ArgumentParser(description=__doc__, formatter_class=argparse.RawDescriptionHelpFormatter)
    parser.add_argument("--draw", action="store_true", help="write docs/crates.svg by dot")
    words = parser.parse_args()
    own, _ = read_crates((TOP / "crates.txt").read_text())
    if faults := faults_of(own, LAYERS, KNOWN):
        print("\n".join(faults), file=sys.stderr)
        return 1
    house = house_of(own, LAYERS)
    print(text_of(house, KNOWN))
    if words.draw:
        try:
            draw(dot_of(house, KNOWN))
        except FileNotFoundError:
            print("there is no dot of Graphviz, so no picture is written", file=sys.stderr)
            return 1
    return 0


if __name__ == "__main__":
    sys.exit(main())
