"""What other programs may call. All of it runs the program check_main, which `find_program` finds."""
from __future__ import annotations

from typing import Any, NamedTuple

from .findings import Finding
from .judge import judged
from .lines import Source
from .program import Answer, Limits, Loop, NotSound, Program, State, Status, find_program
from .settings import Settings, Wishes, settings_of

Text = str | bytes


class Verdict(NamedTuple):
    """What check_main says of a text.

    A sound text has a `state`, how the machine stands at its end. A broken one has the `line` that breaks a rule, the
    name of the `rule`, and at which token of the line, `at`, counted from 0. A refused one has the program's own words
    in `refusal`.
    """

    status: Status
    state: State | None = None
    line: int | None = None
    rule: str | None = None
    at: int | None = None
    refusal: str | None = None

    @property
    def is_sound(self) -> bool:
        """Whether no line breaks a rule."""
        return self.status == Status.SOUND


def as_bytes(text: Text) -> bytes:
    """A text as a file would have it."""
    return text.encode() if isinstance(text, str) else text


def program(limits: Limits | None) -> Program:
    """The program that is found, with limits, or with the usual ones."""
    return Program(find_program(), limits or Limits())


def verdict_of(answer: Answer) -> Verdict:
    """An answer by its kind."""
    said: dict[str, Any] = answer.verdict
    if not said:
        known = answer.status in set(Status)
        return Verdict(Status(answer.status) if known else Status.SIGNAL, refusal=answer.refusal)
    if answer.status == Status.SOUND:
        return Verdict(Status.SOUND, State.of(said))
    return Verdict(Status.BROKEN, line=said["line"], rule=said["rule"], at=said["at"])


def check(text: Text, limits: Limits | None = None) -> Verdict:
    """The verdict on a program's text.

    >>> check(";!knitout-2\\n;;Carriers: 1\\nin 1\\nknit + f1 1\\nknit + f2 2\\n").rule
    'NoCarrier'
    """
    return verdict_of(program(limits).check(as_bytes(text)))


def findings(text: Text, limits: Limits | None = None, *, warn: bool = True, name: str = "-") -> list[Finding]:
    """All mistakes of a text with the cures that were tried, and warnings if they are wanted, by lines.

    `name` is what the findings call the text. The settings file that holds for a file of that name holds here, too,
    unless limits are given, which then hold instead of all its settings.
    """
    source = Source(name, as_bytes(text))
    settings = settings_of(source, name, Wishes()) if limits is None else Settings(limits=limits)
    return judged(Program(find_program(), settings.limits), source, settings, warn).findings


def state_before(text: Text, line: int, limits: Limits | None = None) -> State:
    """The machine as the lines above one leave it; NotSound where one of these breaks a rule, or the head is refused.

    >>> state_before(";!knitout-2\\n;;Carriers: 1\\nin 1\\nrack 0.25\\nout 1\\n", 5).carriers
    ('1',)
    """
    return program(limits).state_above(Source("-", as_bytes(text)), line)


def loop_of(text: Text, line: int, limits: Limits | None = None) -> Loop | None:
    """The loop that a line makes, or None where it makes none; NotSound where it or a line above breaks a rule.

    >>> loop_of(";!knitout-2\\n;;Carriers: 1\\nin 1\\ntuck + f1 1\\nknit - f1 1\\n", 5).through
    (4,)
    """
    source = Source("-", as_bytes(text))
    answer = program(limits).check(source.above(line + 1), loops=True)
    if answer.status != Status.SOUND:
        why = answer.refusal or f"line {answer.verdict['line']} breaks {answer.verdict['rule']}"
        raise NotSound(f"line {line} makes no loop: {why}")
    for made in reversed(answer.verdict["made_loops"]):
        if made["line"] == line:
            return Loop.of(made)
    return None
