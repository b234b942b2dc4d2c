"""Where each loop and needle stands in a picture."""
from __future__ import annotations

from typing import Iterator, NamedTuple, Sequence

from ..lines import Needle
from ..program import State
from .courses import Course, courses_of, lie_apart, set_rows
from .story import Stitch, Story

# A needle's width, and that of one with a loop of the other bed beside it; a row's height, and more below one that is
# pulled through transferred loops; what is left beside a panel.
SLOT, WIDE_SLOT, ROW, GAP, MARGIN = 20, 30, 14, 14, 36
# Needles: one this far from all others isn't drawn.
FAR = 40


class Panel(NamedTuple):
    """A part of the picture: the beds whose loops it shows, and where its lowest needle stands."""

    beds: str
    left: float


class Layout:
    """Where what a story tells, and the state in which it ends, stands in a picture; lengths are in pixels."""

    def __init__(self, story: Story, state: State, wrong: Sequence[Needle], apart: bool | None = None) -> None:
        self.story, self.state = story, state
        self.stitches = list(story.stitches.values())
        self.courses = courses_of(self.stitches)
        self.is_apart = lie_apart(self.courses, story.stitches) if apart is None else apart
        self.rows = set_rows(self.courses, self.is_apart)
        numbers = [stitch.loop.needle.number for stitch in self.stitches] or [it.number for it in state.needles] or [1]
        low, high = min(numbers), max(numbers)
        # A needle far off, most likely a typo, or of another piece, would only make the picture wide.
        near = [it.number for it in (*wrong, *state.needles) if low - FAR < it.number < high + FAR]
        self.low, self.high = min([low, *near]), max([high, *near])
        self.wrong = [it for it in wrong if self.low <= it.number <= self.high]
        # Back loops stand between the front ones where a course has both of one number, as in a full-gauge rib.
        crowded = any(len({it.number for it in course.needles}) < len(course.needles) for course in self.courses)
        self.shift, self.slot = (0.5, WIDE_SLOT) if crowded and not self.is_apart else (0.0, SLOT)
        self.labels = {beds: list(self.row_labels(beds)) for beds in (("f", "b") if self.is_apart else ("fb",))}
        self.panels = list(self.make_panels())
        self.right = self.panels[-1].left + self.slot * (self.high - self.low) + self.slot * (1 + max(0.0, self.racked))
        self.heights = self.heights_of_rows()
        # Where the lowest row lies, each bed's line, and what is left below the beds; they are told as these are drawn.
        self.bottom = self.below_beds = 0.0
        self.lines_of_beds: dict[str, float] = {}

    @property
    def racked(self) -> float:
        """How far the back bed is drawn aside."""
        return 0.0 if self.is_apart else float(self.state.rack)

    def row_labels(self, beds: str) -> Iterator[tuple[int, str]]:
        """The lines of each row of a panel, and their directions."""
        rows: dict[int, list[Course]] = {}
        for course in self.courses:
            if beds == "fb" or course.beds == {beds == "f"} or len(course.beds) == 2:
                rows.setdefault(course.stitches[0].row, []).append(course)
        for row, courses in rows.items():
            lines = [line for course in courses for line in course.lines]
            arrows = "".join(sorted({"\u2192" if it.stitches[0].step > 0 else "\u2190" for it in courses}))
            yield row, "\u2013".join(str(line) for line in sorted({min(lines), max(lines)})) + f" {arrows}"

    def make_panels(self) -> Iterator[Panel]:
        """One panel, or the front one and right of it the back one."""
        left = 0.0
        for beds, labels in self.labels.items():
            longest = max([len(label) for _, label in labels] + [10])
            left += 6 * longest + MARGIN + self.slot * max(0.0, -self.racked)
            yield Panel(beds, left)
            left += self.slot * (self.high - self.low) + self.slot

    def panel_of(self, needle: Needle) -> Panel:
        return self.panels[-1 if not needle.is_front else 0]

    def x(self, needle: Needle) -> float:
        """Where a loop of a needle is drawn: at its number, whatever the rack was."""
        number = needle.number - self.low + (0.0 if needle.is_front else self.shift)
        return self.panel_of(needle).left + self.slot * number

    def y(self, stitch: Stitch) -> float:
        return self.bottom - self.heights[stitch.row]

    def bed_x(self, needle: Needle) -> float:
        """Where a needle stands in the beds, the back one as it is racked."""
        racked = 0.0 if needle.is_front else self.racked
        return self.panel_of(needle).left + self.slot * (needle.number - self.low + racked)

    def shows(self, needle: Needle) -> bool:
        """Whether a needle lies in the picture."""
        return self.low <= needle.number <= self.high

    def parents(self, stitch: Stitch) -> list[Stitch]:
        """The loops that one is pulled through, as far as they are drawn."""
        return [self.story.stitches[line] for line in stitch.loop.through if line in self.story.stitches]

    def is_across(self, first: Needle, second: Needle) -> bool:
        """Whether two needles lie on different panels."""
        return self.panel_of(first) != self.panel_of(second)

    def needs_edge(self, colour: int) -> bool:
        """Whether the colour of a number may be too light to be seen."""
        return self.story.colours.all[colour].needs_edge

    def heights_of_rows(self) -> list[float]:
        """How high each row lies, with a gap where loops were transferred or dropped between it and the one below."""
        raised = {stitch.row + 1 for stitch in self.stitches if stitch.dropped}
        for stitch in self.stitches:
            if any(parent.moved(stitch.loop.line) for parent in self.parents(stitch)):
                raised.add(stitch.row)
        heights = [0.0]
        for row in range(1, self.rows):
            heights.append(heights[-1] + ROW + (GAP if row in raised else 0))
        return heights
