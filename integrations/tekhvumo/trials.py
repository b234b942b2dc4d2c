"""Cures, each tried on the whole file: the best is the one with which it runs furthest, then the least change."""
from __future__ import annotations

from typing import NamedTuple

from .cures import candidates
from .findings import Cure
from .hints import Place
from .program import Broken
from .settings import Settings

# The runs of check_main that one file may cost, and how much text they may read: a long file gets fewer.
MOST_RUNS = 48
MOST_READ = 6_000_000
# The same for who waits for the first cures; the lines of which warnings are counted; and the lines that are looked at
# because they break a rule by themselves.
HASTY_RUNS, HASTY_READ, HASTY_LINES, HASTY_ALONE = 10, 1_000_000, 4_000, 200
# So many cures are offered, and so many edits tried, for one mistake.
MOST_CURES = 5
MOST_TRIED = 16
BEYOND_ALL = 1 << 40


class Budget:
    """The trials that are left for a file of some size, and the lines of which warnings may be counted to rank them.

    Who waits for the first cures has a hasty one: with it the mistakes end where no more cures are tried.
    """

    def __init__(self, size: int, is_hasty: bool = False) -> None:
        runs, read = (HASTY_RUNS, HASTY_READ) if is_hasty else (MOST_RUNS, MOST_READ)
        self.left = max(3, min(runs, read // max(1, size)))
        self.lines = HASTY_LINES if is_hasty else BEYOND_ALL
        self.alone = HASTY_ALONE if is_hasty else BEYOND_ALL
        self.is_hasty = is_hasty
        # Whether there may be more to find with another one.
        self.was_short = False

    def spend(self) -> bool:
        """Takes one, if there is one."""
        self.left -= 1
        self.was_short |= self.left < 0
        return self.left >= 0

    def count(self, lines: int) -> bool:
        """Takes so many lines, if there are as many."""
        self.lines -= lines
        self.was_short |= self.lines < 0
        return self.lines >= 0


class Trial(NamedTuple):
    """A cure, how far the file runs with it, and the fault that is next."""

    cure: Cure
    fault: Broken | None
    reaches: int
    order: int


def tried(place: Place, last: int, settings: Settings, budget: Budget) -> list[Trial]:
    """The edits that cure a broken line and bring the file beyond line `last`, the best first."""
    found = []
    for order, cure in enumerate(candidates(place)):
        if order >= MOST_TRIED or not budget.spend():
            break
        fault = place.program.fault(cure.of(place.source).data)
        reaches = reach(fault, cure)
        if reaches > last:
            found.append(Trial(cure, fault, reaches, order))
        if place.is_large and reaches == BEYOND_ALL:
            # The candidates come by likelihood, and the next would cost a run of a long file.
            break
    furthest = max((trial.reaches for trial in found), default=0)
    rivals = [it for it in found if it.reaches == furthest and not is_last_resort(place, it.cure)]
    is_warned = len(rivals) > 1 and not place.is_large and budget.count(len(rivals) * place.source.length)

    def rank(trial: Trial) -> tuple[int, bool, int, float, int]:
        warnings = warned(place, trial, settings) if is_warned and trial in rivals else 0
        is_last = is_last_resort(place, trial.cure)
        return -trial.reaches, is_last, warnings, change(place, trial.cure), trial.order

    return sorted(found, key=rank)[:MOST_CURES] if len(found) > 1 else found


def is_last_resort(place: Place, cure: Cure) -> bool:
    """Whether a cure leaves out a line that wasn't written twice: this ends a fault, and is seldom what was meant."""
    if cure.lines or cure.first != place.number:
        return False
    if place.rule == "HookOther":
        return bool(place.state.hook)
    return place.rule != "CarrierIsIn" and not (place.rule == "CarrierIsOut" and place.word.startswith("out"))


def reach(broken: Broken | None, cure: Cure) -> int:
    """The line of the file, as it is without a cure, at which it breaks with it."""
    if broken is None:
        return BEYOND_ALL
    if broken.line < cure.first:
        return broken.line
    return max(cure.first - 1, broken.line - cure.grows) if broken.line >= cure.first + len(cure.lines) else 0


def change(place: Place, cure: Cure) -> float:
    """How much a cure changes."""
    from difflib import SequenceMatcher

    old = [place.source.line(number) for number in range(cure.first, cure.last + 1)]
    if not old:
        if is_usual_rack(place, cure):
            return 0.05 if cure.first == place.number else 0.04
        return 0.6 * len(cure.lines)
    if not cure.lines:
        return 0.9
    # (a line further off is less likely to be the wrong one; but two racks one behind the other are none)
    is_rack_above = cure.first == place.number - 1 and cure.lines[0].startswith("rack ") and old[0].startswith("rack ")
    if is_rack_above:
        return 0.03
    far = 0.0 if cure.first == place.number else 0.3
    return far + 1 - SequenceMatcher(None, "\n".join(old), "\n".join(cure.lines)).ratio()


def is_usual_rack(place: Place, cure: Cure) -> bool:
    """Whether a cure racks the beds to where the file racks them elsewhere, or back: what is forgotten most."""
    [line, *more] = cure.lines
    if more or not line.startswith("rack "):
        return False
    return line == "rack 0" or f"{line}\n".encode() in place.source.data.replace(b"\r", b"")


def warned(place: Place, trial: Trial, settings: Settings) -> int:
    """How many warnings the file has with a cure, as far as it runs; what is left at the end says little of a cure."""
    from .warnings import spots

    source = trial.cure.of(place.source)
    end = source.length + 1 if trial.reaches == BEYOND_ALL else trial.reaches + trial.cure.grows
    return len(spots(source, end, False, settings))
