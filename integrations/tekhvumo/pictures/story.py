"""What the lines of a program do to loops, as far as a picture shows it."""
from __future__ import annotations

import re
from dataclasses import dataclass, field
from fractions import Fraction
from typing import Mapping, Sequence

from ..lines import Needle, Source, needle_of
from ..program import Loop
from .colours import Colours

KNIT, TUCK, CAST_ON, YARN_OVER = "knit", "tuck", "cast-on", "yarn-over"


@dataclass
class Stitch:
    """A loop as it is drawn, with what becomes of it: the needles that it is moved to, and the line that drops it.

    `place` is where its needle stood when it was made, and `colours` has the number of a colour for each of its yarns.
    """

    loop: Loop
    place: float
    colours: tuple[int, ...]
    kind: str
    way: list[tuple[int, Needle]] = field(default_factory=list)
    dropped: int = 0
    row: int = 0

    @property
    def step(self) -> int:
        return 1 if self.loop.direction == "+" else -1

    def moved(self, line: int) -> list[tuple[int, Needle]]:
        """The part of its way above a line."""
        return [it for it in self.way if it[0] < line]


@dataclass
class Strand:
    """A carrier's yarn from where it comes in, or the first line that is drawn, to where it goes out."""

    carrier: str
    begins: bool
    ends: bool = False
    stitches: list[Stitch] = field(default_factory=list)


class Story:
    """The stitches that the lines `first` to `last` make, and the strands that these hang on.

    The lines are carried out from what lies on the needles above them. Which loops a loop is pulled through isn't
    worked out here: check_main has told it.
    """

    def __init__(self, source: Source, loops: Sequence[Loop], first: int, last: int) -> None:
        self.loops = {loop.line: loop for loop in loops}
        self.stitches: dict[int, Stitch] = {}
        self.strands: list[Strand] = []
        self.colours = Colours(source.declared)
        self.needles: dict[Needle, list[int]] = {}
        # The needles that held loops, and the carriers that came in above the first line.
        self.used: set[Needle] = set()
        self.rack = 0.0
        self.running: dict[str, Strand] = {}
        self.read_colours(source, first)
        self.source, self.first, self.last = source, first, last

    def read_colours(self, source: Source, first: int) -> None:
        """The colours that lines above the first give."""
        for number in range(source.head_length + 1, first):
            if b"x-vis-color" in source.pieces[number - 1]:
                self.colours.give(words_of(source, number))

    def run(self, needles: Mapping[Needle, Sequence[int]], rack: Fraction) -> Story:
        """This story, once the lines are carried out from a state of the needles."""
        self.needles = {needle: list(lines) for needle, lines in needles.items()}
        self.used = set(self.needles)
        self.rack = float(rack)
        for number in range(self.first, self.last + 1):
            words = words_of(self.source, number)
            if words:
                self.carry_out(number, words)
        return self

    def carry_out(self, number: int, words: Sequence[str]) -> None:
        """One line of a program that runs."""
        word, loop = words[0], self.loops.get(number)
        if word == "x-vis-color":
            self.colours.give(words)
        elif word == "rack":
            self.rack = float(words[1])
        elif word in ("in", "inhook", "out", "outhook"):
            self.carriers(word, words[1:])
        elif word in ("knit", "tuck", "split", "xfer", "drop"):
            needles = [needle for text in words[1:4] if (needle := needle_of(text))]
            if word in ("split", "xfer"):
                self.move(number, needles[0], needles[1])
            elif word == "drop" or (word == "knit" and not loop):
                self.drop(number, needles[0])
            if loop:
                self.form(loop, word == "tuck")

    def carriers(self, word: str, names: Sequence[str]) -> None:
        for name in names:
            strand = self.running.pop(name, None)
            if word.startswith("in"):
                self.running[name] = Strand(name, begins=True)
                self.strands.append(self.running[name])
            elif strand:
                strand.ends = True

    def move(self, number: int, first: Needle, second: Needle) -> None:
        lines = self.needles.pop(first, [])
        if lines:
            self.needles.setdefault(second, []).extend(lines)
            self.used.add(second)
        for line in lines:
            if line in self.stitches:
                self.stitches[line].way.append((number, second))

    def drop(self, number: int, needle: Needle) -> None:
        for line in self.needles.pop(needle, []):
            if line in self.stitches:
                self.stitches[line].dropped = number

    def form(self, loop: Loop, is_tuck: bool) -> None:
        needle = loop.needle
        colours = tuple(self.colours.now(name) for name in loop.yarns)
        place = needle.number + (0.0 if needle.is_front else self.rack)
        stitch = Stitch(loop, place, colours, self.kind(loop, is_tuck))
        self.stitches[loop.line] = stitch
        if is_tuck:
            self.needles.setdefault(needle, []).append(loop.line)
        else:
            self.needles[needle] = [loop.line]
        self.used.add(needle)
        for name in loop.yarns:
            if name not in self.running:
                self.running[name] = Strand(name, begins=False)
                self.strands.append(self.running[name])
            self.running[name].stitches.append(stitch)

    def kind(self, loop: Loop, is_tuck: bool) -> str:
        """What a knitter calls a loop: one through none that lies on a needle which was emptied amid others is a
        yarn-over, as long as its course isn't cast on as a whole."""
        if loop.through:
            return KNIT
        if is_tuck and loop.needle in self.needles:
            return TUCK
        numbers = [needle.number for needle in self.needles]
        is_amid = any(it < loop.needle.number for it in numbers) and any(it > loop.needle.number for it in numbers)
        return YARN_OVER if is_amid and loop.needle in self.used else CAST_ON


def words_of(source: Source, number: int) -> list[str]:
    """The tokens of a line before its comment."""
    return re.findall(r"[^ \t]+", source.line(number).partition(";")[0])
