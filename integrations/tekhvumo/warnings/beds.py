"""Warnings of needles: empty ones, facing ones in one row, forgotten carriers, a fabric that is too wide."""
from __future__ import annotations

from ..instructions import FORMS, SHAPES, Action, Instruction
from ..lines import Needle, shown
from .machine import Machine, Watcher


class ForgottenCarriers(Watcher):
    """ForgottenCarrier: a line would form a loop if it named a carrier."""

    actions = frozenset({Action.DROP, Action.MOVE, Action.NOTHING})
    INSTEAD = {"knit": "a `drop`", "tuck": "an `amiss`", "split": "an `xfer`"}

    def see(self, number: int, instruction: Instruction) -> None:
        if instruction.lacks_carrier:
            word = instruction.word
            said = f"`{word}` without a carrier is {self.INSTEAD[word]}; name the carrier, or write that"
            self.warn(number, 0, "ForgottenCarrier", said)


class EmptyNeedles(Watcher):
    """EmptyNeedle and KnitCastOn: a loop would be pulled through none, or a transfer has nothing to move."""

    actions = FORMS | {Action.MOVE}

    def __init__(self, machine: Machine) -> None:
        super().__init__(machine)
        # The row of needles without loops that are knitted one after another, each with its line and place.
        self.row: list[tuple[int, int, Needle]] = []
        self.row_key: tuple[int, tuple[str, ...]] = (0, ())
        self.row_is_edge = False

    def see(self, number: int, instruction: Instruction) -> None:
        needle = instruction.needles[0]
        is_empty = not self.machine.loops.get(needle)
        if instruction.action is Action.MOVE:
            if is_empty:
                at = SHAPES[instruction.word].needles[0]
                self.warn(number, at, "EmptyNeedle", f"{needle} holds no loop to transfer")
            return
        if not is_empty and not self.row:
            return
        is_empty = is_empty and instruction.action is not Action.TUCK
        key = instruction.step, instruction.carriers
        if self.row and (not is_empty or key != self.row_key):
            self.finish_row()
        if is_empty and needle not in self.machine.given_away:
            if not self.row:
                self.row_key, self.row_is_edge = key, self.is_edge(needle)
            self.row.append((number, SHAPES[instruction.word].needles[0], needle))

    def is_edge(self, needle: Needle) -> bool:
        """Whether a needle stands beside a piece of fabric, which grows by a stitch there."""
        loops = self.machine.loops
        sides = [any(loops.get(Needle(needle.bed, needle.number + side * far)) for far in (1, 2)) for side in (-1, 1)]
        return sides[0] != sides[1]

    def finish_row(self) -> None:
        """What is said of a row that has ended."""
        number, at, needle = self.row[0]
        if len(self.row) > 1:
            said = f"{len(self.row)} needles without loops are knitted from here on; `tuck` casts on"
            self.warn(number, at, "KnitCastOn", said)
        elif not self.row_is_edge:
            self.warn(number, at, "EmptyNeedle", f"{needle} holds no loop to pull this one through; `tuck` casts on")
        self.row = []

    def stop(self) -> None:
        if self.row:
            self.finish_row()


class FacingNeedles(Watcher):
    """FacingNeedles: a row knits on both beds where needles face each other, and would collide."""

    actions = FORMS | {Action.RACK}

    def __init__(self, machine: Machine) -> None:
        super().__init__(machine)
        self.key: tuple[int, tuple[str, ...]] = (0, ())
        self.places: dict[float, Needle] = {}
        self.last = 0.0
        self.pairs: list[tuple[int, int, Needle, Needle]] = []
        self.is_told = False

    def see(self, number: int, instruction: Instruction) -> None:
        if instruction.action is Action.RACK:
            self.key, self.is_told = (0, ()), False
            return
        if self.is_told:
            return
        needle, key = instruction.needles[0], (instruction.step, instruction.carriers)
        x = self.machine.x(needle)
        if key != self.key or (self.last - x) * instruction.step > 1:
            self.key, self.places, self.pairs = key, {}, []
        self.last = x
        other = self.places.setdefault(x, needle)
        if other.bed[0] != needle.bed[0]:
            self.pairs.append((number, SHAPES[instruction.word].needles[0], other, needle))
            if len(self.pairs) == 2:
                self.is_told = True
                first, at, one, facing = self.pairs[0]
                said = f"{one} and {facing} face each other and knit in one row, and would collide"
                self.warn(first, at, "FacingNeedles", f"{said}; `rack 0.25` lets them pass one another")


class Width(Watcher):
    """FabricTooWide: the needles that form loops lie further apart than the machine is wide."""

    actions = FORMS

    def __init__(self, machine: Machine, width: int, name: str) -> None:
        super().__init__(machine)
        self.width = width
        self.name = name
        self.lowest = self.highest = 0
        self.is_told = self.is_begun = False

    def see(self, number: int, instruction: Instruction) -> None:
        place = instruction.needles[0].number
        if not self.is_begun:
            self.lowest = self.highest = place
            self.is_begun = True
        if self.lowest <= place <= self.highest:
            return
        self.lowest, self.highest = min(self.lowest, place), max(self.highest, place)
        if self.highest - self.lowest >= self.width and not self.is_told:
            self.is_told = True
            has = f"{shown(self.name)} has {self.width}" if self.name else f"the machine has {self.width}"
            said = f"from {self.lowest} to {self.highest} are {self.highest - self.lowest + 1} needles, and {has}"
            self.warn(number, SHAPES[instruction.word].needles[0], "FabricTooWide", said)
