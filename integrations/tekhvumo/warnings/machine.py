"""The machine as the lines that run move it, as far as warnings look at it."""
from __future__ import annotations

from collections import Counter
from typing import NamedTuple

from ..instructions import FORMS, Action, Instruction
from ..lines import Needle


CHANGE_LOOPS = FORMS | {Action.MOVE, Action.DROP}


class Machine:
    """What stands before a line: the rack, the loops on needles, the carriers that are in, and what the hook holds.

    It moves as check_main says that a sound program does, and is moved over lines that run alone.
    """

    def __init__(self) -> None:
        self.rack = 0.0
        self.loops: Counter[Needle] = Counter()
        self.inside: dict[str, int] = {}
        self.hook: tuple[str, ...] = ()
        self.hooked_at = 0
        # Needles whose last event was a transfer away from them, so that a knit there is a yarn-over.
        self.given_away: set[Needle] = set()

    def x(self, needle: Needle) -> float:
        """Where a needle stands, counted in needles of the front bed."""
        return needle.number if needle.bed[0] == "f" else needle.number + self.rack

    def carry_out(self, number: int, instruction: Instruction) -> None:
        """Does what a line says."""
        action = instruction.action
        if action in CHANGE_LOOPS:
            self.move_loops(instruction)
        elif action is Action.RACK:
            self.rack = instruction.rack
        elif action is Action.BRING_IN or action is Action.BRING_IN_HOOKED:
            self.inside.update(dict.fromkeys(instruction.carriers, number))
            if action is Action.BRING_IN_HOOKED:
                self.hook, self.hooked_at = instruction.carriers, number
        elif action is Action.TAKE_OUT:
            for name in instruction.carriers:
                self.inside.pop(name, None)
        elif action is Action.RELEASE:
            self.hook = ()

    def move_loops(self, instruction: Instruction) -> None:
        """The loops that an instruction makes, moves and drops."""
        action, needle = instruction.action, instruction.needles[0]
        if action is Action.TUCK:
            self.loops[needle] += 1
        else:
            held = self.loops.pop(needle, 0)
            if action is not Action.KNIT and action is not Action.DROP:
                second = instruction.needles[1]
                if held:
                    self.loops[second] += held
                self.given_away.discard(second)
            if action is Action.KNIT or action is Action.SPLIT:
                self.loops[needle] = 1
        if action is Action.MOVE:
            self.given_away.add(needle)
        elif self.given_away:
            self.given_away.discard(needle)


class Spot(NamedTuple):
    """A warning before it has a file: the line, the place of the token there, the warning's name and its words."""

    line: int
    at: int
    rule: str
    message: str


class Watcher:
    """Looks at each instruction of some actions before it is carried out, and at the machine at the end."""

    actions: frozenset[Action] = frozenset()

    def __init__(self, machine: Machine) -> None:
        self.machine = machine
        self.spots: list[Spot] = []

    def warn(self, line: int, at: int, rule: str, message: str) -> None:
        """Keeps a warning."""
        self.spots.append(Spot(line, at, rule, message))

    def see(self, number: int, instruction: Instruction) -> None:
        """An instruction of a line, which is carried out next."""

    def stop(self) -> None:
        """The end of the lines that run."""

    def end(self) -> None:
        """The end of a sound program, behind `stop`."""
