"""The program check_main: its limits, and its answers to texts."""
from __future__ import annotations

import json
import os
from enum import IntEnum
from typing import TYPE_CHECKING, Any, Mapping, NamedTuple, Sequence

from .lines import Needle, Source, needle_of

if TYPE_CHECKING:
    from fractions import Fraction


class Status(IntEnum):
    """How check_main ends, and tekhvumo likewise."""

    SOUND = 0
    BROKEN = 1
    USAGE = 2
    BAD_INPUT = 3
    READ_FAULT = 4
    WRITE_FAULT = 5
    NO_MEMORY = 6
    TOO_LARGE = 7
    # and this much more than the number of a signal
    SIGNAL = 128


class SetupFault(ValueError):
    """check_main isn't there, or an option or a setting is none."""


class NotSound(ValueError):
    """A text has no state and no loops to tell, as it is refused, or breaks a rule too early."""


BOUNDS = {"low": (-4096, 4096), "high": (-4096, 4096), "rack": (0, 64), "hold": (1, 64), "float": (1, 8192)}


class LimitValues(NamedTuple):
    """The limits, lawful or not."""

    low: int
    high: int
    rack: int
    hold: int
    float: int | None


class Limits(LimitValues):
    """What the machine has: its lowest and highest needle, how far the beds rack, the loops that a needle may hold.

    `float` says how many needle numbers a carrier's loop may lie from the one before it; None is no limit. An unknown
    name is a TypeError, a value that is out of bounds a SetupFault.
    """

    __slots__ = ()

    def __new__(
        cls, low: int = -1024, high: int = 1023, rack: int = 8, hold: int = 16, float: int | None = None
    ) -> Limits:
        limits = super().__new__(cls, low, high, rack, hold, float)
        for name, value in limits._asdict().items():
            least, most = BOUNDS[name]
            if value is None and name == "float":
                continue
            if isinstance(value, bool) or not isinstance(value, int):
                raise SetupFault(f"{name} is a whole number, not {value!r}")
            if not least <= value <= most:
                raise SetupFault(f"{name} is {least} to {most}, not {value}")
        if low > high:
            raise SetupFault(f"the lowest needle, {low}, lies above the highest, {high}")
        return limits

    @classmethod
    def of(cls, given: Mapping[str, int]) -> Limits:
        """The limits with these values, and the usual ones for the rest; SetupFault for a name that is none."""
        for name in given:
            if name not in BOUNDS:
                raise SetupFault(f"{name} is no limit; there are {', '.join(BOUNDS)}")
        return cls(**given)

    def having(self, given: Mapping[str, int]) -> Limits:
        """These limits, but for the values that are given."""
        return self.of({**self._asdict(), **given})

    def words(self) -> list[str]:
        """The options of check_main for the limits that aren't the usual ones."""
        return [f"--{name}={value}" for name, value, usual in zip(self._fields, self, Limits()) if value != usual]


class Loop(NamedTuple):
    """A loop that was made, its direction as + or -, with the lines of the loops that it was pulled through."""

    line: int
    needle: Needle
    direction: str
    yarns: tuple[str, ...]
    through: tuple[int, ...]

    @classmethod
    def of(cls, made: Mapping[str, Any]) -> Loop:
        """The loop that check_main tells."""
        return cls(made["line"], named(made["needle"]), made["dir"], tuple(made["yarns"]), tuple(made["through"]))


def named(spelled: str) -> Needle:
    """The needle that check_main spells."""
    needle = needle_of(spelled)
    if needle is None:
        raise SetupFault(f"check_main names a needle {spelled!r}")
    return needle


class Answer(NamedTuple):
    """What check_main says of a text: its status, and its verdict, or the words with which it refuses the text."""

    status: int
    verdict: dict[str, Any]
    refusal: str

    @property
    def loops(self) -> list[Loop]:
        """The loops made, in the order of lines, if they were asked for."""
        return [Loop.of(made) for made in self.verdict.get("made_loops", [])]


class Broken(NamedTuple):
    """Where a text breaks a rule: the line, the rule, and the place of the token, of which the first has 0."""

    line: int
    rule: str
    at: int


class State(NamedTuple):
    """The machine as a sound text leaves it.

    `needles` has, for each needle that holds loops, the lines that made them; `made` is the number of loops made.
    """

    spelled_rack: str
    carriers: tuple[str, ...]
    hook: tuple[str, ...]
    needles: Mapping[Needle, tuple[int, ...]]
    made: int

    @classmethod
    def of(cls, verdict: Mapping[str, Any]) -> State:
        """The state that a sound verdict tells."""
        needles = {named(it["needle"]): tuple(it["loops"]) for it in verdict["needles"]}
        return cls(verdict["rack"], tuple(verdict["in"]), tuple(verdict["hook"]), needles, int(verdict["made"]))

    @property
    def rack(self) -> Fraction:
        """How far the beds are racked, in needles."""
        from fractions import Fraction

        return Fraction(self.spelled_rack)

    def on(self, needle: Needle) -> tuple[int, ...]:
        """The lines of the loops on a needle."""
        return self.needles.get(needle, ())

    def facing(self, needle: Needle) -> Needle | None:
        """The hook that faces a needle, or None where the rack lies between two."""
        if "." in self.spelled_rack:
            return None
        rack = int(self.spelled_rack)
        return Needle("b", needle.number - rack) if needle.is_front else Needle("f", needle.number + rack)


def spelled_rack(rack: Fraction) -> str:
    """The canonical spelling of a rack in quarters."""
    whole, rest = divmod(abs(4 * rack), 4)
    return f"{'-' if rack < 0 else ''}{whole}{('', '.25', '.5', '.75')[int(rest)]}"


def answer_to(words: Sequence[str], text: bytes) -> tuple[int, bytes]:
    """The exit status of a program, or less than 0 for a signal, and its output, for a text as its standard input.

    Both are files in memory: a pipe would take a long text in a thousand pieces, and `subprocess` long to be read in.
    """
    with open(os.memfd_create("text"), "w+b", 0) as given, open(os.memfd_create("answer"), "w+b", 0) as taken:
        rest = memoryview(text)
        while rest:
            rest = rest[given.write(rest) :]
        given.seek(0)
        streams = [(os.POSIX_SPAWN_DUP2, given.fileno(), 0), (os.POSIX_SPAWN_DUP2, taken.fileno(), 1)]
        _, ended = os.waitpid(os.posix_spawnp(words[0], words, os.environ, file_actions=streams), 0)
        taken.seek(0)
        return os.waitstatus_to_exitcode(ended), taken.read()


class Program:
    """check_main, with limits."""

    def __init__(self, path: str, limits: Limits = Limits()) -> None:
        self.path = path
        self.limits = limits
        self.runs = 0

    def ask(self, words: Sequence[str], text: bytes) -> tuple[int, bytes]:
        """Its status and its output for words and a text."""
        self.runs += 1
        try:
            status, output = answer_to([self.path, *words], text)
        except OSError as trouble:
            raise SetupFault(f"{self.path}: {trouble.strerror}") from trouble
        if status == Status.USAGE:
            raise SetupFault(f"{self.path} refuses its options: {' '.join(words)}")
        return (status if status >= 0 else Status.SIGNAL - status), output

    def check(self, text: bytes, loops: bool = False) -> Answer:
        """The verdict on a text, or why it is refused."""
        words = ["check", "--json", *(["--loops"] if loops else []), *self.limits.words()]
        status, output = self.ask(words, text)
        if status not in (Status.SOUND, Status.BROKEN):
            return Answer(status, {}, output.decode(errors="replace").strip())
        try:
            return Answer(status, json.loads(output), "")
        except ValueError as trouble:
            raise SetupFault(f"{self.path} isn't check_main: it wrote no JSON") from trouble

    def fault(self, text: bytes) -> Broken | None:
        """Where a text breaks a rule, or None where it doesn't; a text that is refused breaks at no line."""
        answer = self.check(text)
        verdict = answer.verdict
        if answer.status == Status.SOUND:
            return None
        return Broken(verdict["line"], verdict["rule"], verdict["at"]) if verdict else Broken(0, "", 0)

    def canonical(self, text: bytes) -> tuple[int, bytes]:
        """The status, and the canonical text or the words with which the text is refused."""
        return self.ask(["text", *self.limits.words()], text)

    def state_above(self, source: Source, number: int) -> State:
        """The machine as the lines above one leave it; NotSound where these break a rule."""
        answer = self.check(source.above(number))
        if answer.status != Status.SOUND:
            why = answer.refusal or f"line {answer.verdict['line']} breaks {answer.verdict['rule']}"
            raise NotSound(f"there is no state before line {number}: {why}")
        return State.of(answer.verdict)


def find_program(given: str | None = None) -> str:
    """Where check_main is: as given, by the environment, in this package, on the PATH, or built in its repository."""
    named = given or os.environ.get("TEKHVUMO_PROGRAM")
    if named:
        return named
    here = os.path.dirname(os.path.realpath(__file__))
    built = os.path.join(here, "..", "..", "crates", "check_main", "out")
    on_path = os.environ.get("PATH", os.defpath).split(os.pathsep)
    for folder in (os.path.join(here, "bin"), *on_path, os.path.normpath(built)):
        path = os.path.join(folder, "check_main")
        if os.path.isfile(path) and os.access(path, os.X_OK):
            return path
    raise SetupFault("check_main isn't on the PATH; put it there, or name it by --program or TEKHVUMO_PROGRAM")
