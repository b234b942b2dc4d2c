"""A part of a picture: elements of SVG, drawn by a layout."""
from __future__ import annotations

from typing import Any

from ..lines import Needle
from .layout import Layout
from .svg import element, xml


class Part:
    """Elements that are drawn by a layout, in the order in which they lie above one another."""

    def __init__(self, at: Layout) -> None:
        self.at = at
        self.story, self.state = at.story, at.state
        self.elements: list[str] = []

    def draw(self, tag: str, kind: str = "", inner: str = "", title: str = "", **values: Any) -> None:
        """Draws an element."""
        self.elements.append(element(tag, kind, inner, title, **values))

    def text(self, x: float, y: float, words: str, kind: str = "") -> None:
        """Draws words."""
        self.draw("text", kind, xml(words), x=x, y=y)

    def numbers(self, bed: str, y: float, is_racked: bool) -> None:
        """The numbers of a bed's needles, as it is racked, or as its loops are drawn."""
        for number in range(self.at.low, self.at.high + 1):
            if number % 5 == 0 or self.at.high - self.at.low < 30:
                needle = Needle(bed, number)
                self.text(self.at.bed_x(needle) if is_racked else self.at.x(needle), y, str(number), "number")
