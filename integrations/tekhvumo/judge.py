"""The verdict on a text as findings."""
from __future__ import annotations

from typing import TYPE_CHECKING

from .findings import Finding, Report
from .lines import Source
from .program import Broken, Program, Status
from .settings import Settings

if TYPE_CHECKING:
    from .trials import Budget

# What tells mistakes, refusals and warnings is read only for a text that has them: it takes longer than a short text.


def judged(program: Program, source: Source, settings: Settings, is_warned: bool, budget: Budget | None = None) -> Report:
    """The verdict on a text as findings, by lines; warnings are of the lines that run. `budget` bounds the trials of cures."""
    answer = program.check(source.data)
    verdict = answer.verdict
    if not verdict:
        from .refusals import refusal

        return Report([refusal(program, source, answer.status, answer.refusal)], answer.status)
    is_sound = answer.status == Status.SOUND
    findings: list[Finding] = []
    if is_warned:
        from .warnings import warnings

        findings = warnings(source, source.length + 1 if is_sound else verdict["line"], is_sound, settings)
    if not is_sound:
        from .mistakes import Mistakes
        from .trials import Budget

        first = Broken(verdict["line"], verdict["rule"], verdict["at"])
        findings += Mistakes(program, source, settings, first, budget or Budget(len(source.data))).all()
    return Report(findings, answer.status)
