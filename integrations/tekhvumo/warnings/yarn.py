"""Warnings of yarns: floats, carriers that are behind or unused, a hook held for long."""
from __future__ import annotations

from ..instructions import FORMS, SHAPES, Action, Instruction
from ..lines import listed, shown
from .machine import Machine, Watcher

# A carrier this many needles behind can have been left so on purpose, as behind a cable or at the edge of a shape.
USUAL_DISTANCE = 3


class Carrier:
    """Where a carrier is, and since its last loop."""

    __slots__ = ("line", "at", "x", "step", "line_here", "stitch", "stitch_line")

    def __init__(self, line: int, at: int) -> None:
        self.line = line
        self.at = at
        self.x: float | None = None
        self.step = 0
        self.line_here = 0
        self.stitch: float | None = None
        self.stitch_line = 0

    def is_far(self, x: float) -> bool:
        """Whether a place isn't beside the carrier, or not beside its last loop."""
        if self.x is None:
            return False
        if abs(x - self.x) > USUAL_DISTANCE:
            return True
        return self.stitch is not None and abs(x - self.stitch) > USUAL_DISTANCE


class Yarns(Watcher):
    """LongFloat, CarrierBehind, CarrierUnused, and ReleasedUnused."""

    actions = FORMS | {Action.MISS, Action.BRING_IN, Action.BRING_IN_HOOKED, Action.TAKE_OUT, Action.RELEASE}

    def __init__(self, machine: Machine, longest: int) -> None:
        super().__init__(machine)
        self.longest = longest
        self.carriers: dict[str, Carrier] = {}

    def see(self, number: int, instruction: Instruction) -> None:
        action = instruction.action
        if action is Action.BRING_IN or action is Action.BRING_IN_HOOKED:
            for at, name in enumerate(instruction.carriers, 1):
                self.carriers[name] = Carrier(number, at)
        elif action is Action.TAKE_OUT:
            for name in instruction.carriers:
                self.unused(name, self.carriers.pop(name))
        elif action is Action.RELEASE:
            self.released(number, instruction)
        else:
            self.moved(number, instruction)

    def moved(self, number: int, instruction: Instruction) -> None:
        """Carriers that go along the bed, and form a loop or none."""
        x, step = self.machine.x(instruction.needles[0]), instruction.step
        for place, name in enumerate(instruction.carriers):
            carrier = self.carriers[name]
            if instruction.action is not Action.MISS:
                # (most loops lie beside the one before)
                if carrier.is_far(x):
                    at = (SHAPES[instruction.word].carriers or 0) + place
                    self.far_away(number, at, name, carrier, x, step)
                carrier.stitch, carrier.stitch_line = x, number
            carrier.x, carrier.step, carrier.line_here = x, step, number

    def far_away(self, number: int, at: int, name: str, carrier: Carrier, x: float, step: int) -> None:
        """A loop that may be behind its carrier, or far from the loop before."""
        if carrier.x is None:
            return
        if carrier.step == step and (carrier.x - x) * step > USUAL_DISTANCE:
            side = "right" if step > 0 else "left"
            away = abs(carrier.x - x)
            said = f"carrier {shown(name)} stands {away:g} needles away, where line {carrier.line_here} left it"
            self.warn(number, at, "CarrierBehind", f"{said}, and a row to the {side} would begin behind it")
        elif carrier.stitch is not None and abs(x - carrier.stitch) > self.longest:
            away = abs(x - carrier.stitch)
            said = f"yarn {shown(name)} floats over {away:g} needles from its loop of line {carrier.stitch_line}"
            self.warn(number, at, "LongFloat", said)

    def released(self, number: int, instruction: Instruction) -> None:
        """Yarns that the hook lets go of."""
        for at, name in enumerate(instruction.carriers, 1):
            if name in self.carriers and self.carriers[name].stitch is None:
                said = f"the hook lets go of yarn {shown(name)} before a loop holds it"
                self.warn(number, at, "ReleasedUnused", said)

    def unused(self, name: str, carrier: Carrier) -> None:
        """A carrier that goes out, or is in at the end."""
        if carrier.stitch is None:
            said = f"carrier {shown(name)} comes in here and forms no loop"
            self.warn(carrier.line, carrier.at, "CarrierUnused", said)

    def end(self) -> None:
        for name, carrier in self.carriers.items():
            self.unused(name, carrier)


class Hook(Watcher):
    """HookHeldLong: the hook holds a yarn over many courses."""

    actions = FORMS

    def __init__(self, machine: Machine, longest: int) -> None:
        super().__init__(machine)
        self.longest = longest
        self.since = 0
        self.courses = 0
        self.step = 0

    def see(self, number: int, instruction: Instruction) -> None:
        machine = self.machine
        if not machine.hook:
            return
        if machine.hooked_at != self.since:
            self.since, self.courses, self.step = machine.hooked_at, 0, 0
        if instruction.step != self.step:
            self.step = instruction.step
            self.courses += 1
            if self.courses == self.longest + 1:
                names = listed(machine.hook)
                said = f"the hook holds {names} over more than {self.longest} courses"
                self.warn(self.since, 1, "HookHeldLong", f"{said}; `releasehook {names}` behind the first ones")
