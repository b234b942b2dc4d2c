"""Edits of a broken line and of those above it, and what the lines beside say of what was meant."""
from __future__ import annotations

import re
from typing import Iterable, Iterator

from .findings import Cure
from .hints import Place, carriers_of
from .lines import Needle, needle_of, shown
from .unreadable import with_words

Candidates = Iterator[Cure]


def leave_out(place: Place) -> Cure:
    """The broken line left out."""
    return Cure("leave this line out", place.number, place.number, ())


def leave_out_line(place: Place, number: int) -> Cure:
    """A line above left out."""
    return Cure(f"leave out `{shown(place.source.line(number))}` of line {number}", number, number, ())


def above(place: Place, line: str, number: int = 0) -> Cure:
    """A line above the broken one, or above another."""
    at = number or place.number
    where = f"line {at}" if number else "this line"
    return Cure(f"`{shown(line)}` above {where}", at, at - 1, (line,))


def written(place: Place, line: str) -> Cure:
    """Another text for the broken line."""
    return Cure(f"write `{shown(line.strip())}`", place.number, place.number, (line,))


def rewritten(place: Place, number: int, line: str) -> Cure:
    """Another text for a line above."""
    return Cure(f"write `{shown(line.strip())}` in line {number}", number, number, (line,))


def swapped(place: Place, at: int, text: str) -> Cure:
    """The broken line with another word at a place."""
    token = place.tokens[at]
    line = with_words(place.text, token, text) if text else with_words(place.text, token)
    title = f"write `{shown(text)}` for `{shown(token.text)}`" if text else f"leave `{shown(token.text)}` out"
    return Cure(title, place.number, place.number, (line,))


# ---------------------------------------------------------------- what the lines beside say


def near_carriers(place: Place) -> list[str]:
    """The carriers that the lines beside name, the nearest first."""
    return list(dict.fromkeys(name for tokens in place.near for name in carriers_of(tokens)))


def lines_above(place: Place, *words: str) -> Iterator[tuple[int, list[str]]]:
    """The lines above that have one of the words first, with their words, the nearest first."""
    for number in place.source.lines_above(place.number, words):
        yield number, [token.text for token in place.source.tokens(number)]


def needle_at(place: Place, number: int, at: int) -> Needle | None:
    """The needle at a place of a line, if the line has the word of the broken one."""
    if not place.source.head_length < number <= place.source.length:
        return None
    tokens = place.source.tokens(number)
    return needle_of(tokens[at].text) if len(tokens) > at and tokens[0].text == place.word else None


def expected_needles(place: Place, at: int) -> Iterator[Needle]:
    """The needles that would go on the row of the two lines above, or below, or stand between its neighbours."""
    before, behind = needle_at(place, place.number - 1, at), needle_at(place, place.number + 1, at)
    if before and behind and (before.number + behind.number) % 2 == 0:
        yield Needle(before.bed, (before.number + behind.number) // 2)
    for side, needle in ((-1, before), (1, behind)):
        further = needle_at(place, place.number + 2 * side, at)
        if needle and further:
            yield Needle(further.bed, 2 * needle.number - further.number)
        token = place.tokens[1].text if len(place.tokens) > 1 else ""
        if needle and token in ("+", "-"):
            yield Needle(needle.bed, needle.number - side * (1 if token == "+" else -1))


def needles_instead(place: Place, at: int) -> Candidates:
    """Other needles at a place: what the row expects, the other bed, a digit fewer."""
    for needle in expected_needles(place, at):
        yield swapped(place, at, str(needle))
    text = place.tokens[at].text
    found = re.fullmatch(r"([fbs]+)(-?)([0-9]+)", text)
    if found and len(found[3]) > 1:
        for drop in range(len(found[3])):
            yield swapped(place, at, f"{found[1]}{found[2]}{found[3][:drop]}{found[3][drop + 1:]}")


def carriers_instead(place: Place, names: Iterable[str]) -> Candidates:
    """Other carriers in the place of the wrong one."""
    named = place.carriers()
    for name in dict.fromkeys(names):
        if name not in named:
            yield swapped(place, place.at, name)
