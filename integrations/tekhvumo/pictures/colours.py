"""The colours of yarns: one for each carrier, or as `x-vis-color COLOUR CARRIER..` says."""
from __future__ import annotations

import re
from typing import NamedTuple, Sequence

# Eight that the colour-blind can tell apart, and two more.
USUAL = ["#0072b2", "#d55e00", "#009e73", "#cc79a7", "#b8860b", "#56b4e9", "#7b4fa3", "#8c5a3c", "#555555", "#a3a500"]
# What may stand in a style sheet as a colour; one that is none leaves the carrier's usual one.
COLOUR = re.compile(r"#([0-9a-fA-F]{3,4}|[0-9a-fA-F]{6}|[0-9a-fA-F]{8})|[a-zA-Z]{3,24}")


class Colour(NamedTuple):
    """A carrier's colour: its usual one, and the one that a line of the program gives it."""

    carrier: str
    usual: str
    given: str = ""

    @property
    def style(self) -> str:
        """Its declarations; an unknown name in the second leaves the first."""
        return f"stroke: {self.usual};" + (f" stroke: {self.given};" if self.given else "")

    @property
    def needs_edge(self) -> bool:
        """Whether it may be too light to be seen on white."""
        if not self.given.startswith("#"):
            return bool(self.given)
        digits = self.given[1:]
        parts = [digits[at : at + 2] for at in (0, 2, 4)] if len(digits) > 4 else [2 * it for it in digits[:3]]
        red, green, blue = (int(part, 16) for part in parts)
        return 0.3 * red + 0.6 * green + 0.1 * blue > 150


class Colours:
    """The colours that carriers have in the course of a program; a number stands for each."""

    def __init__(self, declared: Sequence[str]) -> None:
        self.all = [Colour(name, USUAL[place % len(USUAL)]) for place, name in enumerate(declared)]
        self.numbers = {colour.carrier: place for place, colour in enumerate(self.all)}

    def now(self, carrier: str) -> int:
        """The number of a carrier's colour by now."""
        return self.numbers[carrier]

    def give(self, words: Sequence[str]) -> None:
        """What a line `x-vis-color` says; one that says nothing is passed over."""
        if len(words) < 3 or not COLOUR.fullmatch(words[1]):
            return
        for name in words[2:]:
            if name in self.numbers:
                self.all.append(self.all[self.numbers[name]]._replace(given=words[1]))
                self.numbers[name] = len(self.all) - 1
