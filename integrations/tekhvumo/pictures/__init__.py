"""Pictures of the loops that a program makes, as SVG."""
from __future__ import annotations

import re
from fractions import Fraction
from typing import NamedTuple

from ..findings import Finding, Report, fault
from ..judge import judged
from ..lines import Source, needle_of, shown
from ..program import Answer, Program, Status
from ..refusals import refusal
from ..settings import Settings
from .layout import Layout
from .picture import picture_of
from .story import Story

# A picture of more can't be looked at.
MOST_LOOPS = 20_000


class Range(NamedTuple):
    """A range of lines, both included."""

    first: int
    last: int

    @classmethod
    def of(cls, word: str) -> Range:
        """The range that a word like 20-45 spells; or ValueError."""
        found = re.fullmatch(r"([0-9]{1,9})-([0-9]{1,9})", word)
        if not found or int(found[1]) > int(found[2]):
            raise ValueError(f"{word!r} is no range of lines, as 20-45")
        return cls(int(found[1]), int(found[2]))


def drawn(
    program: Program, source: Source, settings: Settings, lines: Range | None = None, apart: bool | None = None
) -> tuple[str, Report]:
    """The picture of a program, or of what some of its lines make; of a broken one up to the broken line.

    `apart` says whether front and back are two panels; else the program tells. There is no picture, but a finding and
    its status, of a text that is refused, of one that is broken above the lines, and of too many loops.
    """
    begin, end = source.head_length + 1, len(source.pieces)
    first, last = (max(lines.first, begin), min(lines.last, end)) if lines else (begin, end)
    # What lies below the range isn't asked about.
    text = Source(source.name, source.above(last + 1)) if lines and last >= begin else source
    answer = program.check(text.data)
    if not answer.verdict:
        return "", Report([refusal(program, source, answer.status, answer.refusal)], answer.status)
    if lines and first > last:
        message = f"there are instructions in lines {begin} to {end}, and none in lines {lines.first} to {lines.last}"
        return "", Report([fault(source.name, "NoLines", message)], Status.USAGE)
    findings: list[Finding] = []
    if answer.status == Status.BROKEN:
        last = answer.verdict["line"] - 1
        findings = judged(program, text, settings, False).findings
        if last + 1 < first:
            return "", Report(findings, Status.BROKEN)
    return of_lines(program, text, Range(first, last), findings, lines is not None, apart)


def of_lines(
    program: Program, source: Source, lines: Range, findings: list[Finding], is_part: bool, apart: bool | None
) -> tuple[str, Report]:
    """The picture of what lines make that run."""
    state = program.state_above(source, lines.last + 1)
    before = program.state_above(source, lines.first) if is_part else None
    made = state.made - (before.made if before else 0)
    if made > MOST_LOOPS:
        return "", Report([too_many(program, source, lines, made)], Status.TOO_LARGE)
    answer = program.check(source.above(lines.last + 1), loops=True)
    told = answer.verdict["made_loops"]
    loops = Answer(answer.status, {"made_loops": told[len(told) - made :]}, "").loops
    story = Story(source, loops, lines.first, lines.last)
    story.run(before.needles if before else {}, before.rack if before else Fraction(0))
    what = f"lines {lines.first} to {lines.last}" if is_part else "sound"
    words = [source.name, f"{what}: {made} loops made, {sum(map(len, state.needles.values()))} held"]
    when = f"behind line {lines.last}" if is_part else "at the end"
    if not findings:
        return picture_of(Layout(story, state, [], apart), words, when, False), Report([], Status.SOUND)
    finding = next((it for it in findings if it.line == lines.last + 1), findings[0])
    # (a line that is no instruction has needles all the same)
    tokens = source.tokens(finding.line)[1:]
    wrong = [needle for token in tokens if (needle := needle_of(token.text))]
    what = f"broken at line {finding.line}: {shown(source.line(finding.line))}"
    words = [source.name, what, f"{finding.rule}: {finding.message}"]
    picture = picture_of(Layout(story, state, wrong, apart), words, f"above line {finding.line}", True)
    return picture, Report(findings, Status.SOUND)


def too_many(program: Program, source: Source, lines: Range, made: int) -> Finding:
    """The refusal of a picture of too many loops, with a range that has about as many as it may."""
    last = lines.first + (lines.last - lines.first) * MOST_LOOPS // made - 1
    what = f"{made} loops, and a picture has {MOST_LOOPS} at most"
    return fault(source.name, "ManyLoops", f"{what}; name fewer lines, as by `--lines {lines.first}-{last}`")
