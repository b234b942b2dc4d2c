"""What takes long, done by a process of its own: all mistakes with their cures, warnings, the canonical text, courses.

Jobs come as pickles over standard input, and each result goes to standard output. The server ends a process whose work
is of no use any more.
"""
from __future__ import annotations

import json
import pickle
import sys
from typing import Any, BinaryIO, Callable, Iterator, NamedTuple

from ..findings import Finding
from ..fmt import canonical_text
from ..judge import judged
from ..lines import Source
from ..program import Program, Status
from ..settings import Settings
from ..trials import Budget
from .outline import courses_of_loops, formatting, symbols


class Job(NamedTuple):
    """What is to be done with a text."""

    number: int
    kind: str
    program: str
    name: str
    data: bytes
    settings: Settings


class Done(NamedTuple):
    """A part of a job's result: of what kind, and whether it is the last. A `fault` has no value but words."""

    number: int
    part: str
    value: Any
    is_last: bool = True


def findings(job: Job) -> Iterator[tuple[str, Any]]:
    """The mistakes first, and then with the warnings."""
    program, source = Program(job.program, job.settings.limits), Source(job.name, job.data)
    report = judged(program, source, job.settings, False)
    yield "mistakes", report.findings
    if report.status not in (Status.SOUND, Status.BROKEN):
        yield "findings", report.findings
        return
    from ..warnings import warnings

    is_sound = report.status == Status.SOUND
    end = source.length + 1 if is_sound else min(finding.line for finding in report.findings)
    found: list[Finding] = [*warnings(source, end, is_sound, job.settings), *report.findings]
    yield "findings", found


def cures(job: Job) -> Iterator[tuple[str, Any]]:
    """The first mistakes, with the cures that few trials find."""
    source = Source(job.name, job.data)
    budget = Budget(len(job.data), is_hasty=True)
    yield "cures", judged(Program(job.program, job.settings.limits), source, job.settings, False, budget).findings


def canonical(job: Job) -> Iterator[tuple[str, Any]]:
    """The edit that writes the canonical text, or nothing where the text stays as it is; as JSON."""
    source = Source(job.name, job.data)
    new, report = canonical_text(Program(job.program, job.settings.limits), source)
    edits = formatting(lines_of(source.data), lines_of(new.data), source.line_end)
    yield "json", as_json(None if report.findings else edits)


def courses(job: Job) -> Iterator[tuple[str, Any]]:
    """The courses of the loops that the text makes, as far as it runs, as symbols; as JSON."""
    source = Source(job.name, job.data)
    loops = Program(job.program, job.settings.limits).check(job.data, loops=True).loops
    yield "json", as_json(symbols(lines_of(job.data), courses_of_loops(source, loops)))


def lines_of(data: bytes) -> list[str]:
    """What stands between the line feeds of a text, without carriage returns that end it."""
    return [line.removesuffix("\r") for line in data.decode().split("\n")]


def as_json(result: Any) -> bytes:
    """A result as it is sent: to write a long one here keeps no key waiting."""
    return json.dumps(result, ensure_ascii=False, separators=(",", ":")).encode(errors="replace")


KINDS: dict[str, Callable[[Job], Iterator[tuple[str, Any]]]] = {
    "findings": findings,
    "cures": cures,
    "canonical": canonical,
    "courses": courses,
}


def serve(heard: BinaryIO, said: BinaryIO) -> None:
    """Does one job after another, until no more comes."""
    while True:
        try:
            job: Job = pickle.load(heard)
        except EOFError:
            return
        try:
            for part, value in KINDS[job.kind](job):
                pickle.dump(Done(job.number, part, value, part != "mistakes"), said)
                said.flush()
        except BrokenPipeError:
            return
        except Exception as trouble:
            pickle.dump(Done(job.number, "fault", f"{type(trouble).__name__}: {trouble}"), said)
            said.flush()


def main() -> None:
    """Works for who has started this process."""
    serve(sys.stdin.buffer, sys.stdout.buffer)
