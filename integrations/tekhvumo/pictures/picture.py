"""The picture of a story: the beds above, and below them the courses, the first at the bottom."""
from __future__ import annotations

import textwrap
from typing import Any, Sequence

from .beds import Beds
from .fabric import Fabric
from .layout import Layout
from .legend import Legend
from .part import Part
from .svg import element, style_sheet


def picture_of(at: Layout, words: Sequence[str], when: str, is_broken: bool) -> str:
    """The whole picture, as SVG, below some lines of words, of which the later ones may tell a fault."""
    title, legend, beds, fabric = Part(at), Legend(at), Beds(at), Fabric(at)
    y = 18.0
    for place, line in enumerate(words):
        for piece in textwrap.wrap(line, 100) or [""]:
            title.text(10, y, piece, "error" if is_broken and place else "")
            at.right = max(at.right, 10 + 6.4 * len(piece))
            y += 16
    y = legend.whole(y + 10)
    y = beds.whole(y, when)
    height = round(fabric.whole(y + 24))
    width = round(max(at.right + 10, 480))
    paper = element("rect", width=width, height=height, fill="#fff")
    elements = [style_sheet(enumerate(at.story.colours.all)), paper]
    for part in (title, legend, beds, fabric):
        elements += part.elements
    size: dict[str, Any] = {"width": width, "height": height, "viewBox": f"0 0 {width} {height}"}
    inner = "\n".join(elements)
    return element("svg", inner=f"\n{inner}\n", xmlns="http://www.w3.org/2000/svg", **size) + "\n"
