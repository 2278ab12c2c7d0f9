"""The parts of an SVG: elements with escaped texts, lengths, colours of domains, and texts that fit."""
import colorsys
from collections.abc import Iterable
from html import escape

# the advance of a letter in the fonts that are named below, as a part of the font's size
ADVANCE = 0.605
MONO = "'DejaVu Sans Mono',Menlo,Consolas,'Liberation Mono',monospace"
INK = "#1f2933"
FAINT = "#7b8794"

# sizes of letters: ids, and what stands beside them
IDS = 11
SMALL = 10
STYLE = f"""
text {{ font-family: 'Helvetica Neue',Arial,'Liberation Sans',sans-serif; font-size: {SMALL}px; fill: {INK}; }}
.id {{ font-family: {MONO}; font-size: {IDS}px; }}
.layer, .detail {{ fill: #52606d; font-family: {MONO}; font-size: {SMALL}px; }}
.head {{ font-size: 17px; font-weight: bold; }}
.said {{ font-size: 12.5px; fill: #52606d; }}
.end {{ font-weight: bold; font-size: 9px; letter-spacing: 1px; }}
"""

# the height of a line in a box, and the room at the edges of a picture
LINE = 14
MARGIN = 22

_FIRST_COLOURS = ("#0072b2", "#d55e00", "#7b4fa3", "#8a6d00", "#00838f", "#b3322c", "#5b5fc7", "#6d7a00")
_SIGNS = {"cross": "M-4.5 -3.5L4.5 3.5M-4.5 3.5L4.5 -3.5", "convert": "M-4.5 0L0 -5L4.5 0L0 5Z", "adapt": "M-5 -3.5H5L0 5Z",
          "deadapt": "M-5 3.5H5L0 -5Z"}
_GOLDEN_TURN = 0.6180339887


def tag(name: str, *inside: str, **attributes: object) -> str:
    """An element. Attribute names have `_` for `-`, and `class_` is `class`; those that are None are left out."""
    words = [f' {key.rstrip("_").replace("_", "-")}="{_value(value)}"' for key, value in attributes.items() if value is not None]
    return f"<{name}{''.join(words)}>{''.join(inside)}</{name}>" if inside else f"<{name}{''.join(words)}/>"


def text(x: float, y: float, words: str, **attributes: object) -> str:
    return tag("text", escape(words), x=x, y=y, **attributes)


def title(lines: Iterable[str]) -> str:
    """What a pointer that rests on the element around it is shown."""
    return tag("title", escape("\n".join(lines)))


def document(width: int, height: int, style: str, parts: Iterable[str]) -> str:
    """A whole SVG with a white ground."""
    ground = tag("rect", width=width, height=height, fill="#ffffff")
    return tag("svg", tag("style", STYLE + style), ground, *parts, xmlns="http://www.w3.org/2000/svg", width=width, height=height,
               viewBox=f"0 0 {width} {height}")


def heading(head: str, said: str) -> list[str]:
    """What stands above a picture, in two lines."""
    return [text(MARGIN, 32, head, class_="head"), text(MARGIN, 53, said, class_="said")]


def heading_width(head: str, said: str) -> float:
    return MARGIN * 2 + max(width_of(head, 17), width_of(said, 12.5) * 0.9)


def glyph(kind: str, x: float, y: float, colour: str) -> str:
    """The sign of a hop or of a service, by its kind; a link has none."""
    if kind not in _SIGNS:
        return ""
    return tag("g", tag("circle", r=9, fill="#ffffff", stroke=colour, stroke_width=1.6),
               tag("path", d=_SIGNS[kind], fill="none" if kind == "cross" else colour, stroke=colour, stroke_width=1.6),
               transform=f"translate({x:.1f} {y:.1f})")


def shorten(words: str, most: int) -> str:
    """The words, or both of their ends where they are longer."""
    if len(words) <= most:
        return words
    behind = max(most - 1, 0) // 3
    return f"{words[:most - 1 - behind]}\u2026{words[len(words) - behind:]}"


def width_of(words: str, size: float) -> float:
    return len(words) * size * ADVANCE


def colours_of(names: Iterable[str]) -> dict[str, str]:
    """A colour for each name, by the order of the names."""
    return {name: _colour(at) for at, name in enumerate(dict.fromkeys(names))}


def tint(colour: str, strength: float = 0.14) -> str:
    """A light shade of a colour."""
    parts = (int(colour[at:at + 2], 16) for at in (1, 3, 5))
    return "#" + "".join(f"{round(255 - (255 - part) * strength):02x}" for part in parts)


def _colour(at: int) -> str:
    if at < len(_FIRST_COLOURS):
        return _FIRST_COLOURS[at]
    red, green, blue = colorsys.hls_to_rgb(at * _GOLDEN_TURN % 1, 0.38, 0.6)
    return f"#{round(red * 255):02x}{round(green * 255):02x}{round(blue * 255):02x}"


def _value(value: object) -> str:
    if isinstance(value, float):
        return f"{value:.1f}".removesuffix(".0")
    return escape(str(value), quote=True).replace("\n", "&#10;")
