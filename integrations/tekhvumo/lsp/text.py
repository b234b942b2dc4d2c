"""A document's text by lines, and places in it as an editor counts them: columns in units of UTF-16."""
from __future__ import annotations

import re
from typing import Any, Mapping, NamedTuple, Sequence

from ..serve.requests import MOST_TEXT_BYTES

Position = Mapping[str, Any]
HALF = re.compile("[\ud800-\udfff]")


class Change(NamedTuple):
    """The lines from `first` to `end`, which isn't among them, are `lines` others now; lines count from 0."""

    first: int
    end: int
    lines: int

    @property
    def grows(self) -> int:
        """How many lines more there are."""
        return self.lines - (self.end - self.first)


def whole_characters(text: str) -> str:
    """A text with other signs in the place of halves of characters, which no file can have."""
    return text if text.isascii() else HALF.sub("\ufffd", text)


def index_of(line: str, units: int) -> int:
    """The place among a line's characters that lies so many units of UTF-16 behind its beginning."""
    if line.isascii():
        return max(0, min(units, len(line)))
    seen = 0
    for index, sign in enumerate(line):
        seen += 2 if sign > "\uffff" else 1
        if seen > units:
            return index
    return len(line)


def units_of(line: str, index: int) -> int:
    """How many units of UTF-16 stand before a place among a line's characters."""
    part = line[:index]
    return len(part) if part.isascii() else len(part.encode("utf-16-le", "replace")) // 2


class Text:
    """Lines as check_main cuts them: at line feeds alone. The last piece may be empty.

    (The protocol lets a carriage return end a line as well; the editors that are known either have none in a line, or
    count it as a sign of the line.)
    """

    def __init__(self, text: str) -> None:
        self.lines = whole_characters(text).split("\n")
        # The bytes of the whole, each line with a line feed, and how many lines are too long for a conversation.
        self.size, self.long_lines = measured(self.lines)

    def replace(self, start: Position, end: Position, text: str) -> Change:
        """Puts a text in the place of what stands from one position to another."""
        (first, begin), (last, until) = sorted((self.place(start), self.place(end)))
        head, tail = self.lines[first][:begin], self.lines[last][until:]
        lines = f"{head}{whole_characters(text)}{tail}".split("\n")
        for sign, part in ((-1, self.lines[first : last + 1]), (1, lines)):
            size, long_lines = measured(part)
            self.size += sign * size
            self.long_lines += sign * long_lines
        self.lines[first : last + 1] = lines
        return Change(first, last + 1, len(lines))

    def place(self, position: Position) -> tuple[int, int]:
        """The line of a position, and the place among its characters; one that lies behind an end is the end."""
        line, units = int(position["line"]), int(position["character"])
        if line >= len(self.lines):
            return len(self.lines) - 1, len(self.lines[-1])
        text = self.lines[max(0, line)]
        index = index_of(text, units)
        is_behind_return = index == len(text) and text.endswith("\r") and line + 1 < len(self.lines)
        return max(0, line), index - is_behind_return

    def above(self, line: int) -> bytes:
        """The lines above one, as a file has them."""
        return "\n".join([*self.lines[:line], ""]).encode()

    def whole(self) -> bytes:
        """The text as a file has it."""
        return "\n".join(self.lines).encode()


def measured(lines: Sequence[str]) -> tuple[int, int]:
    """The bytes of lines, each with its line feed, and how many have more than a conversation takes."""
    text = "\n".join(lines)
    if text.isascii():
        return len(text) + 1, sum(len(line) > MOST_TEXT_BYTES for line in lines)
    sizes = [len(line.encode()) for line in lines]
    return sum(sizes) + len(sizes), sum(size > MOST_TEXT_BYTES for size in sizes)


def range_in(line: str, number: int, begin: int, end: int) -> dict[str, Any]:
    """The range of the characters of a line from one place to another, as the protocol has it; the line counts from 0."""
    return {
        "start": {"line": number, "character": units_of(line, begin)},
        "end": {"line": number, "character": units_of(line, end)},
    }
