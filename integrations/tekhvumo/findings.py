"""Findings: what is wrong at a place of a file, and what would cure it."""
from __future__ import annotations

from typing import NamedTuple

from .lines import Source

# One sentence for each rule, refusal and warning, for formats that explain names; each room adds its own.
SUMMARIES: dict[str, str] = {}


class Cure(NamedTuple):
    """An edit that cures a finding: `lines` in the place of the lines `first` to `last` of the file.

    Where `last` is `first` - 1 no line goes, and `lines` come above line `first`.
    """

    title: str
    first: int
    last: int
    lines: tuple[str, ...]

    def of(self, source: Source) -> Source:
        """The source with this edit."""
        return source.with_lines(self.first, self.last, self.lines)

    @property
    def grows(self) -> int:
        """How many lines more the text has with it."""
        return len(self.lines) - (self.last - self.first + 1)


class Finding(NamedTuple):
    """What is wrong at a place: a line from 1, and columns in characters from 1, the last one behind the token.

    `level` is error or warning. `cures` were tried on the whole file; the first is the best.
    """

    file: str
    line: int
    column: int
    end_column: int
    level: str
    rule: str
    message: str
    cures: tuple[Cure, ...] = ()


class Report(NamedTuple):
    """What is found in a file, and its status."""

    findings: list[Finding]
    status: int


def fault(name: str, rule: str, message: str) -> Finding:
    """A finding about a file as a whole."""
    return Finding(name, 1, 1, 2, "error", rule, message)
