"""Where Graphviz's dot puts boxes, groups of boxes and ways between them. It is told sizes and numbers alone, never a text."""
import json
import shutil
import subprocess
from collections.abc import Iterator
from dataclasses import dataclass, field
from itertools import count

from finderlib.commands import ToolFault

SECONDS_MOST = 120
POINTS = 72

# left, top, right, bottom
Edges = tuple[float, float, float, float]


@dataclass(slots=True)
class Way:
    """A way from a box to a box by their numbers; `room` is the width and height of what stands beside it."""
    tail: int
    head: int
    room: tuple[float, float] | None = None
    arrow: bool = True


@dataclass(slots=True)
class Group:
    """Boxes and groups that stand together below a heading of this width and height."""
    room: tuple[float, float]
    boxes: list[int] = field(default_factory=list)
    groups: list["Group"] = field(default_factory=list)


@dataclass(slots=True)
class Spline:
    """The points of a way, as an SVG path has them, the point of its arrow, and the middle of its words."""
    path: str
    tip: tuple[float, float] | None
    before_tip: tuple[float, float]
    words: tuple[float, float] | None


@dataclass(slots=True)
class Plan:
    """The middles of boxes and the splines of ways, in their order, and the edges of groups, in their order, an outer one before
    those inside it; a group without boxes has no place."""
    width: float
    height: float
    boxes: list[tuple[float, float]]
    groups: list[Edges | None]
    ways: list[Spline]


def has_dot() -> bool:
    return shutil.which("dot") is not None


def plan(sizes: list[tuple[float, float]], groups: list[Group], ways: list[Way]) -> Plan:
    """Lays boxes of these sizes out; each box is in one group at most."""
    if not has_dot():
        raise ToolFault("Graphviz's `dot` is not there, which lays topologies out (Debian: apt-get install graphviz)")
    text = "\n".join(_dot_lines(sizes, groups, ways))
    try:
        ended = subprocess.run(["dot", "-Tjson0"], input=text.encode("ascii"), capture_output=True, timeout=SECONDS_MOST, check=True)
    except subprocess.TimeoutExpired as error:
        raise ToolFault(f"dot found no layout within {SECONDS_MOST} seconds") from error
    except (OSError, subprocess.CalledProcessError) as error:
        raise ToolFault(f"dot failed: {error}") from error
    return _plan_of(json.loads(ended.stdout), len(sizes), len(ways))


def _dot_lines(sizes: list[tuple[float, float]], groups: list[Group], ways: list[Way]) -> Iterator[str]:
    yield "digraph { rankdir=LR nodesep=0.2 ranksep=0.45 node [shape=box fixedsize=true label=\"\"] edge [fontsize=1]"
    for number, (width, height) in enumerate(sizes):
        yield f"n{number} [width={width / POINTS:.4f} height={height / POINTS:.4f}]"
    counter = count()
    for group in groups:
        yield from _group_lines(group, counter)
    for number, way in enumerate(ways):
        words = f" label={_room(way.room)}" if way.room else ""
        yield f"n{way.tail} -> n{way.head} [id=\"{number}\"{words}{'' if way.arrow else ' dir=none'}]"
    yield "}"


def _group_lines(group: Group, counter: Iterator[int]) -> Iterator[str]:
    yield f"subgraph cluster_{next(counter)} {{ margin=10 labeljust=l label={_room(group.room)}"
    yield from (f"n{box}" for box in group.boxes)
    for inner in group.groups:
        yield from _group_lines(inner, counter)
    yield "}"


def _room(room: tuple[float, float]) -> str:
    """A label without a text, of this width and height."""
    cell = f'<td fixedsize="true" width="{room[0]:.0f}" height="{room[1]:.0f}"></td>'
    return f'<<table border="0" cellborder="0" cellspacing="0" cellpadding="0"><tr>{cell}</tr></table>>'


def _plan_of(tree: dict, boxes: int, ways: int) -> Plan:
    _, _, width, height = map(float, tree["bb"].split(","))

    def point(words: str) -> tuple[float, float]:
        x, y = map(float, words.split(","))
        return x, height - y

    def edges(words: str) -> Edges:
        left, low, right, high = map(float, words.split(","))
        return left, height - high, right, height - low

    places: list[tuple[float, float]] = [(0.0, 0.0)] * boxes
    groups: dict[int, Edges | None] = {}
    for item in tree.get("objects", []):
        if item["name"].startswith("cluster_"):
            groups[int(item["name"][8:])] = edges(item["bb"]) if "bb" in item else None
        else:
            places[int(item["name"][1:])] = point(item["pos"])
    splines: list[Spline] = [Spline("", None, (0.0, 0.0), None)] * ways
    for item in tree.get("edges", []):
        words = item["pos"].split()
        tip = next((point(word[2:]) for word in words if word.startswith("e,")), None)
        points = [point(word) for word in words if word[0] not in "es"]
        path = f"M{points[0][0]:.1f} {points[0][1]:.1f}C" + " ".join(f"{x:.1f} {y:.1f}" for x, y in points[1:])
        splines[int(item["id"])] = Spline(path, tip, points[-1], point(item["lp"]) if "lp" in item else None)
    return Plan(width, height, places, [groups[number] for number in sorted(groups)], splines)
