"""What is lawful, and most likely a mistake."""
from __future__ import annotations

from ..findings import Finding
from ..instructions import Action, instructions
from ..lines import Source, Token
from ..settings import Settings
from .beds import EmptyNeedles, FacingNeedles, ForgottenCarriers, Width
from .ends import Ends
from .machine import Machine, Spot, Watcher
from .yarn import Hook, Yarns


def watchers(machine: Machine, settings: Settings) -> list[Watcher]:
    """What looks at a program."""
    found: list[Watcher] = [
        ForgottenCarriers(machine),
        EmptyNeedles(machine),
        FacingNeedles(machine),
        Yarns(machine, settings.unwarned_float),
        Hook(machine, settings.hook_courses),
        Ends(machine),
    ]
    return [*found, Width(machine, settings.width, settings.machine)] if settings.width else found


def spots(source: Source, end: int, is_sound: bool, settings: Settings) -> list[Spot]:
    """What is found in the lines above line `end`, which run, and at the end of a sound program."""
    machine = Machine()
    all_watchers = watchers(machine, settings)
    for_action = {action: [it.see for it in all_watchers if action in it.actions] for action in Action}
    carry_out = machine.carry_out
    for number, instruction in instructions(source, end):
        for see in for_action[instruction.action]:
            see(number, instruction)
        carry_out(number, instruction)
    for watcher in all_watchers:
        watcher.stop()
        if is_sound:
            watcher.end()
    found = [spot for watcher in all_watchers for spot in watcher.spots if spot.rule not in settings.silent]
    return sorted(found, key=lambda spot: (spot.line, spot.at))


def warnings(source: Source, end: int, is_sound: bool, settings: Settings) -> list[Finding]:
    """What a knitter calls a mistake in the lines above line `end`, by lines."""
    found = []
    for spot in spots(source, end, is_sound, settings):
        tokens = source.tokens(spot.line)
        token = tokens[spot.at] if spot.at < len(tokens) else Token("", 1, 2)
        found.append(
            Finding(source.name, spot.line, token.column, token.end, "warning", spot.rule, spot.message)
        )
    return found
