"""Elements of SVG, the shapes of loops, and the style sheet."""
from __future__ import annotations

from html import escape
from typing import Any, Iterable

from .colours import Colour
from .story import CAST_ON, KNIT, TUCK, YARN_OVER

STYLE = """
text { font: 11px sans-serif; fill: #333 }
.small { font-size: 9px; fill: #666 }
.number { font-size: 9px; fill: #666; text-anchor: middle }
.count { font-size: 8px; font-weight: bold; text-anchor: middle }
.end { text-anchor: end }
.carrier { font-size: 9px; text-anchor: middle; paint-order: stroke; stroke: #fff; stroke-width: 3px }
.error { fill: #d00000 }
.guide { stroke: #eee }
.bed { fill: none; stroke: #999 }
path, rect { stroke-linecap: round; stroke-linejoin: round }
.loop path, .sample path, .yarn, .link { fill: none }
.run, .yarn { stroke-width: 1.4 }
.top { stroke-width: 3.2 }
.plated .top { stroke-width: 1.8 }
.float { stroke-width: 2.2 }
.edge { fill: none; stroke: #444; stroke-width: 2.6 }
.edge.top { stroke-width: 4.6 }
.plated .edge.top, .edge.float { stroke-width: 3.2 }
.link { stroke-width: 1; stroke-dasharray: 3 2 }
.transfer { fill: none; stroke: #222; stroke-width: 1.2 }
.drop { fill: none; stroke: #222; stroke-width: 2 }
.held { fill: #fff; stroke-width: 3.5 }
.rim { fill: none; stroke: #444 }
.wrong { fill: none; stroke: #d00000; stroke-width: 2 }
.legend { stroke: #555 }
"""

# Each shape is drawn from the loop's middle: the run of the yarn, from one foot to the other, and thick what lies on
# top: the legs of a loop of the front bed, and the head of one of the back bed.
HALF, FOOT, HEAD = 9, 7, 7
SHAPES = {
    KNIT: (
        "m-9 7c6 0 7-3 5-7c-5-10 13-10 8 0c-2 4-1 7 5 7",
        "m-2.4 5l-2.8-9.5m10.4 0l-2.8 9.5",
        "m-4.2 0c-5-9.6 13.4-9.6 8.4 0",
    ),
    TUCK: ("m-9 7c6 0 5-13 9-13s3 13 9 13", "m-4.6 3l2.6-7.4m4 0l2.6 7.4", "m-3-3.6c1.6-3.2 4.4-3.2 6 0"),
    CAST_ON: (
        "m-9 7c9 0 13-3 13-8c0-8-8-8-8 0c0 5 4 8 13 8",
        "m4-1c0 3-3 5-7 7m-1-7c0 3 3 5 7 7",
        "m-4.2 0c-1-9 9.4-9 8.4 0",
    ),
    YARN_OVER: (
        "m-9 7c6 0 5-13 9-13s3 13 9 13",
        "m-4-1a4 4 0 1 0 8 0a4 4 0 1 0-8 0",
        "m-2-1a2 2 0 1 0 4 0a2 2 0 1 0-4 0",
    ),
}
CROSS = "m-3-3l6 6m0-6l-6 6"


def xml(text: str) -> str:
    """A text for XML, which has no place for control characters."""
    return escape("".join(it if it.isprintable() else "\ufffd" for it in text))


def element(tag: str, kind: str = "", inner: str = "", title: str = "", **values: Any) -> str:
    """An element of SVG, of a class, with a title that is shown when the pointer rests on it."""
    numbers = {name: f"{value:g}" if isinstance(value, float) else value for name, value in values.items()}
    words = "".join(f' {name}="{value}"' for name, value in {**({"class": kind} if kind else {}), **numbers}.items())
    inner = f"<title>{xml(title)}</title>{inner}" if title else inner
    return f"<{tag}{words}>{inner}</{tag}>" if inner else f"<{tag}{words}/>"


def style_sheet(colours: Iterable[tuple[int, Colour]]) -> str:
    """The style sheet, with a class for each colour."""
    lines = [f".y{number} {{ {colour.style} }}\n" for number, colour in colours]
    return element("style", inner=STYLE + "".join(lines))


def shape(kind: str, is_front: bool, x: float, y: float, colour: str, is_edged: bool = False) -> str:
    """A loop's run and what lies on top, in the class of a colour; edged where the colour may be too light."""
    run, front, back = SHAPES[kind]
    parts = {"run": f"M{x:g} {y:g}{run}", "top": f"M{x:g} {y:g}{front if is_front else back}"}
    edges = [element("path", f"edge {part}", d=d) for part, d in parts.items()] if is_edged else []
    return "".join([*edges, *(element("path", f"{part} {colour}", d=d) for part, d in parts.items())])


def arrow(x: float, y: float, to_x: float, to_y: float) -> str:
    """The path of a line with a head at its end."""
    length = ((to_x - x) ** 2 + (to_y - y) ** 2) ** 0.5 or 1.0
    dx, dy = (to_x - x) / length, (to_y - y) / length
    barbs = [(to_x - 4 * dx + side * 2.4 * dy, to_y - 4 * dy - side * 2.4 * dx) for side in (1, -1)]
    ends = "".join(f"M{to_x:.4g} {to_y:.4g}L{barb[0]:.5g} {barb[1]:.5g}" for barb in barbs)
    return f"M{x:.5g} {y:.5g}L{to_x:.5g} {to_y:.5g}{ends}"
