"""Warnings of what a sound program leaves behind, each at the line that put it there."""
from __future__ import annotations

from ..instructions import FORMS, SHAPES, Action, Instruction
from ..lines import Needle, listed, shown
from .machine import Machine, Watcher


class Ends(Watcher):
    """CarrierLeftIn, HookLeftHolding, LoopOnSlider, LoopsLeft, RackLeft."""

    actions = FORMS | {Action.BRING_IN, Action.BRING_IN_HOOKED, Action.MOVE, Action.DROP, Action.RACK}

    def __init__(self, machine: Machine) -> None:
        super().__init__(machine)
        self.came_in: dict[str, tuple[int, int]] = {}
        self.hooked: dict[str, tuple[int, int]] = {}
        self.on_slider: dict[Needle, tuple[int, int]] = {}
        self.dropped_at = 0
        self.racked_at = 0

    def see(self, number: int, instruction: Instruction) -> None:
        action = instruction.action
        if action is Action.KNIT or action is Action.TUCK:
            self.dropped_at = 0
        elif action is Action.DROP:
            if self.machine.loops.get(instruction.needles[0]):
                self.dropped_at = number
        elif action is Action.RACK:
            self.racked_at = number
        elif action is Action.MOVE or action is Action.SPLIT:
            second = instruction.needles[1]
            if second.is_slider:
                self.on_slider[second] = number, SHAPES[instruction.word].needles[1]
        else:
            for at, name in enumerate(instruction.carriers, 1):
                self.came_in[name] = number, at
                if action is Action.BRING_IN_HOOKED:
                    self.hooked[name] = number, at

    def end(self) -> None:
        machine = self.machine
        for name in machine.inside:
            said = f"carrier {shown(name)} is in to the end; `out {shown(name)}` takes it out"
            self.warn(*self.came_in[name], "CarrierLeftIn", said)
        for name in machine.hook:
            said = f"the hook holds {shown(name)} to the end; `releasehook {listed(machine.hook)}` lets it go"
            self.warn(*self.hooked[name], "HookLeftHolding", said)
        for needle in machine.loops:
            if needle.is_slider:
                said = f"a loop stays on {needle} to the end; transfer it to a hook"
                self.warn(*self.on_slider[needle], "LoopOnSlider", said)
        left = sorted(needle for needle in machine.loops if not needle.is_slider)
        if left and self.dropped_at:
            said = f"loops stay on {shown(' '.join(map(str, left)))} to the end, though others are dropped here"
            self.warn(self.dropped_at, 0, "LoopsLeft", said)
        if machine.rack:
            said = f"the rack stays at {machine.rack:g} to the end; `rack 0` takes it back"
            self.warn(self.racked_at, 1, "RackLeft", said)
