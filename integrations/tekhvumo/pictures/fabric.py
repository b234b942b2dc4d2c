"""The fabric of a picture: its rows of loops, and what became of them."""
from __future__ import annotations

from typing import Sequence

from ..lines import Needle
from .beds import BEDS
from .part import Part
from .story import Stitch
from .svg import CROSS, FOOT, HEAD, arrow, shape
from .yarns import PLATED, Yarns


class Fabric(Part):
    """The courses from the bottom."""

    def whole(self, top: float) -> float:
        """The courses from the bottom, with the numbers of the needles below them; where they end."""
        self.at.bottom = top + self.at.heights[-1]
        self.guides(top)
        for panel, labels in self.at.labels.items():
            for row, label in labels if self.at.stitches else []:
                place = self.at.panels[-1 if panel == "b" else 0].left - 32
                self.text(place, self.at.bottom - self.at.heights[row] + 4, label, "small end row")
        self.links()
        yarns = Yarns(self.at)
        yarns.whole()
        self.elements += yarns.elements
        for stitch in self.at.stitches:
            self.loop(stitch)
        self.elements += yarns.above
        self.marks()
        y = self.at.bottom + 26
        for bed in ("f", "b"):
            if any(needle.bed[0] == bed for course in self.at.courses for needle in course.needles):
                place = self.at.panel_of(Needle(bed, 0))
                self.text(place.left - 14, y, BEDS[bed], "small end")
                self.numbers(bed, y, is_racked=False)
                y += 0 if self.at.is_apart else 13
        return y + 12

    def guides(self, top: float) -> None:
        """A line at each fifth needle, so that the eye finds its number."""
        for panel in self.at.panels:
            numbers = [number for number in range(self.at.low, self.at.high + 1) if number % 5 == 0]
            places = [panel.left + self.at.slot * (number - self.at.low) for number in numbers]
            if places:
                ways = "".join(f"M{x:g} {top - 10:g}V{self.at.bottom + 14:g}" for x in places)
                self.draw("path", "guide", d=ways)

    def links(self) -> None:
        """A line from each loop to what it was pulled through, and to the needle that holds it, where these aren't next
        to one another."""
        ways: dict[int, list[str]] = {}
        for stitch in self.at.stitches:
            to = self.at.x(stitch.loop.needle), self.at.y(stitch) + FOOT
            parents = self.at.parents(stitch)
            if len(parents) < len(stitch.loop.through):
                ways.setdefault(stitch.colours[0], []).append(f"M{to[0]:g} {to[1]:g}v8")
            # (a transferred loop has an arrow instead)
            for parent in (it for it in parents if not it.moved(stitch.loop.line)):
                x, y = self.at.x(parent.loop.needle), self.at.y(parent) - HEAD
                if (x, y) != to and not self.at.is_across(parent.loop.needle, stitch.loop.needle):
                    ways.setdefault(parent.colours[0], []).append(f"M{x:g} {y:g}L{to[0]:g} {to[1]:g}")
        for needle, lines in self.state.needles.items():
            for held in (self.story.stitches[line] for line in lines if line in self.story.stitches):
                if not held.way and self.at.shows(needle):
                    begin = f"M{self.at.x(held.loop.needle):g} {self.at.y(held) - HEAD:g}"
                    end = f"L{self.at.bed_x(needle):g} {self.at.below_beds:g}"
                    ways.setdefault(held.colours[0], []).append(begin + end)
        for colour, links in ways.items():
            kind = "legend" if self.at.needs_edge(colour) else f"y{colour}"
            self.draw("path", f"link {kind}", d="".join(links))

    def marks(self) -> None:
        """An arrow for each transferred loop, to where it went; a cross for each that is dropped."""
        ends = {line: needle for needle, lines in self.state.needles.items() for line in lines}
        for stitch in self.at.stitches:
            loop, x, y = stitch.loop, self.at.x(stitch.loop.needle), self.at.y(stitch)
            for parent in self.at.parents(stitch):
                if parent.moved(loop.line):
                    self.transfer(parent, parent.moved(loop.line), x, y + FOOT)
            if stitch.way and loop.line in ends and self.at.shows(ends[loop.line]):
                needle = ends[loop.line]
                self.transfer(stitch, stitch.way, self.at.bed_x(needle), self.at.lines_of_beds[needle.bed] + 6)
            if stitch.dropped:
                self.drop(stitch, x, y - HEAD - 4)

    def drop(self, stitch: Stitch, x: float, y: float) -> None:
        """The cross of a dropped loop, at the end of its arrow where it was transferred before."""
        if stitch.way and not self.at.is_across(stitch.way[-1][1], stitch.loop.needle):
            x, y = self.at.x(stitch.way[-1][1]), y - 8
            self.transfer(stitch, stitch.way, x, y + 3)
        title = f"the loop of line {stitch.loop.line} is dropped by line {stitch.dropped}"
        self.draw("path", "drop", title=title, d=f"M{x:g} {y:g}{CROSS}")

    def transfer(self, stitch: Stitch, way: Sequence[tuple[int, Needle]], x: float, y: float) -> None:
        """The arrow of a transferred loop to a place; to the other panel it is a short one."""
        place, head = self.at.x(stitch.loop.needle), self.at.y(stitch) - HEAD + 4
        if self.at.is_across(way[-1][1], stitch.loop.needle):
            x, y = place + (8 if stitch.loop.needle.is_front else -8), head - 8
        title = f"the loop of line {stitch.loop.line} is transferred{told(way)}"
        self.draw("path", "transfer", title=title, d=arrow(place, head, x, y))

    def loop(self, stitch: Stitch) -> None:
        """A loop, once for each of its yarns."""
        loop, x, y = stitch.loop, self.at.x(stitch.loop.needle), self.at.y(stitch)
        strokes = []
        for at, colour in enumerate(stitch.colours):
            is_edged = self.at.needs_edge(colour)
            place = x + PLATED[0] * at, y + PLATED[1] * at
            strokes.append(shape(stitch.kind, loop.needle.is_front, *place, f"y{colour}", is_edged))
        through = f", through {' '.join(map(str, loop.through))}" if loop.through else ""
        moved = f", transferred{told(stitch.way)}" if stitch.way else ""
        dropped = f", dropped by line {stitch.dropped}" if stitch.dropped else ""
        said = f"line {loop.line}: {stitch.kind} {loop.direction} {loop.needle} with {' '.join(loop.yarns)}"
        kind = f"loop {'front' if loop.needle.is_front else 'back'} {stitch.kind}"
        kind += " plated" if len(loop.yarns) > 1 else ""
        self.draw("g", kind, "".join(strokes), f"{said}{through}{moved}{dropped}")


def told(way: Sequence[tuple[int, Needle]]) -> str:
    """The needles that a loop was moved to, and by which lines."""
    return "".join(f" to {needle} by line {line}" for line, needle in way)
