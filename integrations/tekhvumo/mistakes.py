"""All mistakes of a file that breaks a rule.

Lines that break a rule by themselves are all told. Of those that break one by the state that the lines above leave, the
first is told, and the next behind it as long as each is cured in a way that explains the rest.
"""
from __future__ import annotations

from enum import Enum
from typing import Sequence

from .edits import leave_out
from .findings import Cure, Finding
from .hints import HINTS, Hint, Place
from .instructions import Action, instruction_of
from .line_rules import broken_lines, broken_rule
from .lines import Source
from .program import Broken, Program
from .settings import Settings
from .trials import Budget, Trial, tried

# So many mistakes are told of those that need a state: behind them little is certain.
MOST_OF_STATE = 5
# Instructions that change loops alone, and the rules that look at loops and at the yarn between them.
LOOPS_ALONE = frozenset({"knit", "tuck", "miss", "split", "xfer", "drop", "amiss", "stitch", "pause"})
OF_LOOPS = frozenset({"SliderHolds", "TooManyLoops", "FloatTooLong"})
# So many lines that name one absent carrier or needle are one mistake, and so many of them are told by number.
MANY_LINES = 5
MOST_LISTED = 8


class Draft:
    """The file with the mistakes cured that were found, and where its lines stand in the file."""

    def __init__(self, source: Source) -> None:
        self.source = source
        # The first of the lines that were put in, and how many.
        self.inserted: list[tuple[int, int]] = []
        self.edited_at = 0

    def apply(self, cure: Cure) -> None:
        """Carries out a cure; a line that goes leaves a blank one, so that the others keep their numbers."""
        lines = cure.lines or ("",) * (cure.last - cure.first + 1)
        self.edited_at = cure.first
        self.source = self.source.with_lines(cure.first, cure.last, lines)
        grows = len(lines) - (cure.last - cure.first + 1)
        if grows:
            self.inserted.append((cure.first, grows))

    def original(self, number: int) -> int:
        """The number that a line has in the file."""
        for first, grows in reversed(self.inserted):
            if number >= first + grows:
                number -= grows
            elif number >= first:
                number = first
        return number

    def here(self, number: int) -> int:
        """The number that a line of the file has here."""
        for first, grows in self.inserted:
            if number >= first:
                number += grows
        return number


class Doubt(Enum):
    """What isn't known any more behind a mistake that has no cure, or one that doesn't explain it."""

    LOOPS = 1
    ALL = 2


class Mistakes:
    """The mistakes of a file, one after another."""

    def __init__(self, program: Program, source: Source, settings: Settings, first: Broken, budget: Budget) -> None:
        self.program = program
        self.first = first
        self.file = source
        self.settings = settings
        self.budget = budget
        self.draft = Draft(source)
        self.findings: list[Finding] = []
        self.doubts: set[Doubt] = set()
        # What the draft breaks since its last cure.
        self.fault_behind: Broken | None = None
        # Lines that break a rule by themselves, by mistakes, in the order of the file; those above the first fault run.
        alone = broken_lines(source, first.line, program.limits, budget.alone)
        self.alone = grouped(source, alone)
        # The last line that was looked at.
        self.end = alone[-1].line if len(alone) == budget.alone else source.length
        budget.was_short |= self.end < source.length

    def all(self) -> list[Finding]:
        """The findings of a file whose first fault is known."""
        self.blank(self.alone)
        fault = self.program.fault(self.draft.source.data) if self.alone else self.first
        of_state = 0
        while True:
            if fault and (of_state == MOST_OF_STATE or not self.is_certain(fault)):
                fault = None
            if not fault and not self.alone:
                break
            if self.budget.is_hasty and not self.can_try:
                self.budget.was_short = True
                break
            if fault and not (self.alone and self.draft.here(self.alone[0][0].line) < fault.line):
                of_state += 1
                is_cured = self.told(fault, fault.line)
            else:
                is_cured = self.line_alone(self.alone.pop(0))
            if is_cured:
                fault = self.fault_behind
            elif fault and fault.line <= self.draft.here(self.findings[-1].line):
                fault = None
        return sorted(self.findings, key=lambda finding: (finding.line, finding.column))

    def is_certain(self, fault: Broken) -> bool:
        """Whether a fault isn't what a mistake above it led to, and lies where lines were looked at."""
        if self.draft.original(fault.line) > self.end:
            return False
        return Doubt.ALL not in self.doubts and not (Doubt.LOOPS in self.doubts and fault.rule in OF_LOOPS)

    def blank(self, groups: list[list[Broken]]) -> None:
        """Leaves lines out of the draft."""
        numbers = [self.draft.here(broken.line) for group in groups for broken in group]
        if numbers:
            self.draft.source = self.draft.source.with_texts(dict.fromkeys(numbers, b""))

    def restore(self, groups: list[list[Broken]]) -> None:
        """Puts lines into the draft again."""
        lines = [broken.line for group in groups for broken in group]
        if lines:
            texts = {self.draft.here(line): self.file.piece(line) for line in lines}
            self.draft.source = self.draft.source.with_texts(texts)

    def line_alone(self, group: list[Broken]) -> bool:
        """Tells a mistake of lines that break a rule by themselves, and whether it was cured in the draft."""
        others = [broken.line for broken in group[1:]]
        if not self.can_try:
            place = Place(self.program, self.file, group[0])
            self.findings.append(finding_of(place, group[0].line, (), others))
            return False
        head = self.draft.source.head_length
        self.restore([group])
        first, last = (self.draft.here(broken.line) for broken in (group[0], group[-1]))
        if not self.told(group[0]._replace(line=first), last, others):
            self.blank([group])
            return False
        if self.draft.edited_at <= head:
            self.forget_cured()
        return True

    @property
    def can_try(self) -> bool:
        """Whether cures are tried from here on."""
        return Doubt.ALL not in self.doubts and self.budget.left > 0

    def forget_cured(self) -> None:
        """Takes the lines that another header has cured off the list."""
        declared, limits = frozenset(self.draft.source.declared), self.program.limits

        def is_cured(group: list[Broken]) -> bool:
            words = [token.text for token in self.file.tokens(group[0].line)]
            return broken_rule(words, declared, limits) is None

        cured = [group for group in self.alone if is_cured(group)]
        self.alone = [group for group in self.alone if group not in cured]
        self.restore(cured)
        self.fault_behind = self.program.fault(self.draft.source.data)

    def told(self, broken: Broken, last: int, others: Sequence[int] = ()) -> bool:
        """Tells a mistake, which other lines may have, too; whether it was cured in the draft.

        A cure has to bring the file beyond line `last`.
        """
        place = Place(self.program, self.draft.source, broken)
        trials = tried(place, last, self.settings, self.budget) if self.can_try else []
        cures = tuple(self.in_file(trial.cure) for trial in trials)
        self.findings.append(finding_of(place, self.draft.original(broken.line), cures, others))
        if not trials or not explains(place, trials[0].cure):
            self.doubts.add(Doubt.LOOPS if place.word in LOOPS_ALONE else Doubt.ALL)
        if trials:
            self.draft.apply(trials[0].cure)
            self.fault_behind = fault_in_draft(trials[0])
        return bool(trials)

    def in_file(self, cure: Cure) -> Cure:
        """A cure with the file's numbers of lines."""
        first = self.draft.original(cure.first)
        return Cure(cure.title, first, first + cure.last - cure.first, cure.lines)


def grouped(source: Source, alone: list[Broken]) -> list[list[Broken]]:
    """Broken lines by mistakes: many that name one absent carrier, or one absent needle, are one mistake."""
    by_name: dict[tuple[str, str], list[Broken]] = {}
    for broken in alone:
        if broken.rule in ("NoCarrier", "OffBed"):
            name = source.tokens(broken.line)[broken.at].text
            by_name.setdefault((broken.rule, name), []).append(broken)
    groups = [group for group in by_name.values() if len(group) >= MANY_LINES]
    told = {broken for group in groups for broken in group}
    return sorted([*groups, *([broken] for broken in alone if broken not in told)])


def fault_in_draft(trial: Trial) -> Broken | None:
    """The fault behind a cure, where a line that is left out has become a blank one."""
    if trial.fault and not trial.cure.lines and trial.fault.line >= trial.cure.first:
        return trial.fault._replace(line=trial.fault.line + trial.cure.last - trial.cure.first + 1)
    return trial.fault


def explains(place: Place, cure: Cure) -> bool:
    """Whether a cure is likely to be what was meant: a loop that is left out is missed by the lines below."""
    if cure.lines or cure.title != leave_out(place).title:
        return True
    instruction = instruction_of([token.text for token in place.tokens])
    harmless = (Action.BRING_IN, Action.BRING_IN_HOOKED, Action.TAKE_OUT, Action.RELEASE, Action.NOTHING, Action.MISS)
    return instruction is not None and instruction.action in harmless


def finding_of(place: Place, number: int, cures: tuple[Cure, ...], others: Sequence[int]) -> Finding:
    """The finding of a broken line, with the number that it has in the file, and the other lines with the mistake."""
    hint = HINTS[place.rule](place) if place.rule in HINTS else Hint("the line breaks this rule")
    cure = cures[0].title if cures else hint.cure
    if cures and hint.cure and not explains(place, cures[0]):
        # A line that is left out ends the fault, and is seldom what was meant.
        cure = f"{hint.cure}, or {cure}"
    listed = ", ".join(map(str, others[:MOST_LISTED]))
    rest = f" and {len(others) - MOST_LISTED} more" if len(others) > MOST_LISTED else ""
    more = f", here and in lines {listed}{rest}" if others else ""
    message = f"{hint.what}{more}{f'; {cure}' if cure else ''}{hint.note}"
    token = place.culprit
    return Finding(place.source.name, number, token.column, token.end, "error", place.rule, message, cures)
