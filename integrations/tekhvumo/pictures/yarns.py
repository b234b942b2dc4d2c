"""The yarns of a picture, from loop to loop."""
from __future__ import annotations

from .layout import Layout
from .part import Part
from .story import Stitch, Strand
from .svg import FOOT, HALF, element, xml

# Needles: a yarn that goes so far aside from row to row is a float.
FLOAT = 3
# How far two yarns of one loop lie from one another, to the right and down.
PLATED = 2.4, 2


class Yarns(Part):
    """The yarns; `above` has what lies above the loops: floats from row to row, and the carriers' names."""

    def __init__(self, at: Layout) -> None:
        super().__init__(at)
        self.above: list[str] = []
        self.names: list[str] = []

    def whole(self) -> None:
        """Each from loop to loop, and its ends."""
        ways: dict[tuple[int, bool], list[str]] = {}
        for strand in self.story.strands:
            for first, second in zip(strand.stitches, strand.stitches[1:]):
                colour = second.colours[second.loop.yarns.index(strand.carrier)]
                kind = colour, self.is_float(first, second)
                ways.setdefault(kind, []).append(self.way(strand.carrier, first, second))
            if strand.stitches:
                self.tails(strand, ways)
        for (colour, is_float), pieces in ways.items():
            kind, elements = ("yarn float", self.above) if is_float else ("yarn", self.elements)
            if self.at.needs_edge(colour):
                elements.append(element("path", f"{kind} edge", d="".join(pieces)))
            elements.append(element("path", f"{kind} y{colour}", d="".join(pieces)))
        self.above += self.names

    def is_float(self, first: Stitch, second: Stitch) -> bool:
        """Whether a yarn goes far aside from one row to another."""
        one, two = first.loop.needle, second.loop.needle
        far = abs(self.at.x(one) - self.at.x(two)) >= FLOAT * self.at.slot
        return far and first.row != second.row and not self.at.is_across(one, two)

    def foot(self, carrier: str, stitch: Stitch, side: int) -> tuple[float, float]:
        """Where a yarn enters a loop (its side -1), or leaves it (1)."""
        at = stitch.loop.yarns.index(carrier)
        aside = self.at.x(stitch.loop.needle) + PLATED[0] * at
        return aside + side * stitch.step * HALF, self.at.y(stitch) + FOOT + PLATED[1] * at

    def way(self, carrier: str, first: Stitch, second: Stitch) -> str:
        """The path of a yarn from one loop to the next: along the row, as a float where needles are passed over; round
        the edge; or to the other panel, of which the ends are drawn."""
        (x, y), (to_x, to_y) = self.foot(carrier, first, 1), self.foot(carrier, second, -1)
        if self.at.is_across(first.loop.needle, second.loop.needle):
            leaves = f"M{x:g} {y:g}q{8 * first.step} 0 {12 * first.step} -5"
            return f"{leaves}M{to_x:g} {to_y:g}q{-8 * second.step} 0 {-12 * second.step} -5"
        if first.row == second.row and first.step == second.step:
            sag = min(6.0, max(0.0, (abs(to_x - x) - self.at.slot) / 8))
            return f"M{x:g} {y:g}Q{(x + to_x) / 2:g} {y + sag:g} {to_x:g} {to_y:g}"
        return f"M{x:g} {y:g}C{x + 14 * first.step:g} {y:g} {to_x - 14 * second.step:g} {to_y:g} {to_x:g} {to_y:g}"

    def tails(self, strand: Strand, ways: dict[tuple[int, bool], list[str]]) -> None:
        """The beginning of a yarn with its carrier's name, and its end."""
        first, last = strand.stitches[0], strand.stitches[-1]
        at = first.loop.yarns.index(strand.carrier)
        x, y = self.foot(strand.carrier, first, -1)
        ways.setdefault((first.colours[at], False), []).append(f"M{x:g} {y:g}h{-6 * first.step}")
        name = element("text", "carrier", xml(strand.carrier[:4]), x=x - 11 * first.step, y=y + 3 + 7 * at)
        self.names.append(name)
        x, y = self.foot(strand.carrier, last, 1)
        end = f"M{x:g} {y:g}q{6 * last.step} 0 {8 * last.step} {4 if strand.ends else -8}"
        ways.setdefault((last.colours[last.loop.yarns.index(strand.carrier)], False), []).append(end)
