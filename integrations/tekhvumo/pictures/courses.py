"""Stitches by courses, and courses by the rows of a picture."""
from __future__ import annotations

from dataclasses import dataclass, field
from typing import Iterable, Sequence

from ..lines import Needle
from .story import CAST_ON, YARN_OVER, Stitch


@dataclass
class Course:
    """Stitches that are made one after another in one direction with the same yarns, their needles, lines and beds, of
    which True is the front one."""

    stitches: list[Stitch] = field(default_factory=list)
    needles: set[Needle] = field(default_factory=set)
    lines: set[int] = field(default_factory=set)
    beds: set[bool] = field(default_factory=set)

    def goes_on_with(self, stitch: Stitch) -> bool:
        """Whether a stitch may belong to it: it lies ahead, and on no needle and through no loop of the course."""
        last, loop = self.stitches[-1], stitch.loop
        ahead = (stitch.place - last.place) * stitch.step
        is_same = (last.loop.direction, last.loop.yarns) == (loop.direction, loop.yarns)
        # (by less than a needle it may lie behind: the beds of a full-gauge rib are named in either order)
        return is_same and ahead > -1 and loop.needle not in self.needles and not self.lines & set(loop.through)

    def add(self, stitch: Stitch) -> None:
        self.stitches.append(stitch)
        self.needles.add(stitch.loop.needle)
        self.lines.add(stitch.loop.line)
        self.beds.add(stitch.loop.needle.is_front)


def courses_of(stitches: Iterable[Stitch]) -> list[Course]:
    """Stitches by courses. Where none of a course is pulled through a loop, it is cast on."""
    courses: list[Course] = []
    for stitch in stitches:
        if not courses or not courses[-1].goes_on_with(stitch):
            courses.append(Course())
        courses[-1].add(stitch)
    for course in courses:
        if not any(stitch.loop.through for stitch in course.stitches):
            for stitch in course.stitches:
                stitch.kind = CAST_ON if stitch.kind == YARN_OVER else stitch.kind
    return courses


def lie_apart(courses: Sequence[Course], lines: dict[int, Stitch]) -> bool:
    """Whether front and back are two fabrics, as in a tube: each has a good part of the loops, and few courses are on
    both beds, or are pulled through loops of the other."""
    both = front = back = 0
    for course in courses:
        count = len(course.stitches)
        through = [lines[line].loop for stitch in course.stitches for line in stitch.loop.through if line in lines]
        crosses = any(loop.needle.is_front not in course.beds for loop in through)
        both += count if len(course.beds) == 2 or crosses else 0
        front += count if course.beds == {True} else 0
        back += count if course.beds == {False} else 0
    return min(front, back) * 4 >= front + back and both * 3 < front + back


def set_rows(courses: Sequence[Course], are_apart: bool) -> int:
    """Gives each stitch its row from below, and says how many there are.

    A course shares the row of the one before where it lies beside it: on the other panel, or in the same direction with
    other yarns, as in intarsia and fair isle.
    """
    row: list[Course] = []
    number = -1
    for course in courses:
        if not row or not all(shares_row(course, other, are_apart) for other in row):
            row, number = [], number + 1
        row.append(course)
        for stitch in course.stitches:
            stitch.row = number
    return number + 1


def shares_row(course: Course, other: Course, are_apart: bool) -> bool:
    """Whether a course may lie in one row with an earlier one."""
    if any(other.lines & set(stitch.loop.through) for stitch in course.stitches):
        return False
    if are_apart and not course.beds & other.beds:
        return True
    one, two = course.stitches[0].loop, other.stitches[0].loop
    numbers = {needle.number for needle in course.needles} & {needle.number for needle in other.needles}
    return one.direction == two.direction and not set(one.yarns) & set(two.yarns) and not numbers
