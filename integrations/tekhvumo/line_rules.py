"""The rules that need the line alone, as MODEL.md has them, so that all lines that break one can be told at once."""
from __future__ import annotations

import re
from typing import Sequence

from .instructions import FORMS, SHAPES, Action, Instruction, instruction_of
from .lines import PORTION, Source
from .program import Broken, Limits

# So many lines are looked at before it is asked whether enough are found.
AT_A_TIME = 4096


def broken_lines(source: Source, first: int, limits: Limits, most: int) -> list[Broken]:
    """The lines from one on that break one of the rules that need no state: all, or so many."""
    declared = frozenset(source.declared)
    is_short = len(source.data) - source.offset(first) < PORTION
    body = [piece for _, piece in source.lines_from(first)] if is_short else source.pieces[first - 1 :]
    known: dict[bytes, tuple[str, int] | None] = {}
    found: list[Broken] = []
    for begin in range(0, len(body), AT_A_TIME):
        part = body[begin : begin + AT_A_TIME]
        for piece in set(part).difference(known):
            words = re.findall(r"[^ \t]+", piece.removesuffix(b"\r").decode(errors="replace").partition(";")[0])
            known[piece] = broken_rule(words, declared, limits) if words else None
        found += [Broken(number, *broken) for number, piece in enumerate(part, first + begin) if (broken := known[piece])]
        if len(found) >= most:
            break
    return found[:most]


def broken_rule(words: Sequence[str], declared: frozenset[str], limits: Limits) -> tuple[str, int] | None:
    """The first rule that a line breaks by itself, and the place of the token; None where it breaks none."""
    instruction = instruction_of(words)
    if instruction is None:
        return "Unreadable", 0
    shape = SHAPES.get(instruction.word)
    if shape is None:
        return None
    for at, needle in zip(shape.needles, instruction.needles):
        if not limits.low <= needle.number <= limits.high:
            return "OffBed", at
    return needle_rule(instruction, shape.needles) or carrier_rule(words, shape.carriers, declared) or (
        rack_rule(words[1], limits) if instruction.action is Action.RACK else None
    )


def needle_rule(instruction: Instruction, places: Sequence[int]) -> tuple[str, int] | None:
    """The rule of sliders and beds that an instruction breaks."""
    needles = instruction.needles
    if instruction.action in FORMS and needles[0].is_slider:
        return "SliderForm", places[0]
    if len(needles) == 2:
        if needles[0].is_front == needles[1].is_front:
            return "SameBed", places[1]
        if needles[0].is_slider and needles[1].is_slider:
            return "TwoSliders", places[1]
    return None


def carrier_rule(words: Sequence[str], begin: int | None, declared: frozenset[str]) -> tuple[str, int] | None:
    """The rule of names that an instruction breaks."""
    names = words[begin:] if begin is not None else []
    for at, name in enumerate(names, begin or 0):
        if name not in declared:
            return "NoCarrier", at
    for at, name in enumerate(names):
        if name in names[:at]:
            return "CarrierTwice", at + (begin or 0)
    return None


def rack_rule(number: str, limits: Limits) -> tuple[str, int] | None:
    """The rule of racks that a number breaks."""
    from fractions import Fraction

    rack = Fraction(number)
    if (4 * rack).denominator != 1:
        return "RackStep", 1
    return ("RackLimit", 1) if abs(rack) > limits.rack else None
