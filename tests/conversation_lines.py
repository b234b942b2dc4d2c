"""What the lines of a conversation ask for, told from the lines alone by a program of our own. The opening is behind them."""
from __future__ import annotations

import re
from collections import Counter
from dataclasses import dataclass
from typing import NamedTuple

from test_groups import Group, Step, Undo
from test_headers import Command

LARGEST = 4_294_967_295
LINE_LIMIT = 4_096
# So long may a line of a saved text be.
SAVED_LINE_LIMIT = 8_192
TEXT_LIMIT = 4_096
EDITS_LIMIT = 64


class Refuse(NamedTuple):
    """A line is refused."""

    line: int
    cause: str


class Ask(NamedTuple):
    """A session takes a step."""

    session: int
    step: Step


class Question(NamedTuple):
    """A session asks what changes nothing: the word, and the numbers and names behind it."""

    session: int
    word: str
    operands: tuple[str, ...] = ()


Order = Refuse | Ask | Question


@dataclass
class Awaited:
    """A put or an add, or other names for the header, whose text isn't whole."""

    command: Command
    missing: int
    texts: list[str]


def number_in(word: str) -> int | None:
    return int(word) if re.fullmatch("[0-9]{1,10}", word) and int(word) <= LARGEST else None


def name_in(word: str) -> str | None:
    """A block's id, or an add of the session's own, in its one spelling."""
    number = number_in(word.removeprefix("@"))
    if number is None or not word.startswith("@") and number == LARGEST:
        return None
    return f"@{number}" if word.startswith("@") else str(number)


def place_in(word: str) -> str | None:
    return word if word == "start" else name_in(word)


def plain_in(words: list[str]) -> Step | str | None:
    """A command without a text, an undo, or the word that begins or ends a group."""
    match words:
        case ["verdict"]:
            return Command("verdict")
        case ["undo"]:
            return Undo()
        case ["group"] | ["end"]:
            return words[0]
        case ["look", "head"]:
            return Command("look", "head")
        case ["look" | "cut", name] if name_in(name):
            return Command(words[0], name_in(name) or "")
        case ["loop", line] if number_in(line) is not None:
            return Command("loop", str(number_in(line)))
    return None


def edit_in(words: list[str]) -> Awaited | None:
    """A put or an add with the number of its text lines."""
    match words:
        case ["put", "head", "lines", count] if number_in(count) == 1:
            return Awaited(Command("put", "head"), 1, [])
        case ["put", name, "lines", count] if name_in(name) and number_in(count) is not None:
            return Awaited(Command("put", name_in(name) or ""), int(count), [])
        case ["add", place, "lines", count] if place_in(place) and number_in(count) is not None:
            return Awaited(Command("add", place_in(place) or ""), int(count), [])
    return None


def question_in(session: int, words: list[str]) -> Question | None:
    match words:
        case ["blocks"] | ["save"]:
            return Question(session, words[0])
        case ["since", version] if number_in(version) is not None:
            return Question(session, "since", (str(int(version)),))
        case ["tally", start, end] if number_in(start) is not None and number_in(end) is not None:
            return Question(session, "tally", (str(int(start)), str(int(end))))
        case ["look", name, "at", stamp] if name_in(name) and number_in(stamp) is not None:
            return Question(session, "look", (name_in(name) or "", str(int(stamp))))
    return None


def names_in(text: str) -> str | None:
    """The header's line that a text line gives, in its one spelling."""
    names = re.findall("[^ \t]+", text.removeprefix(";;Carriers:"))
    if not text.startswith(";;Carriers:") or len(names) > 64 or len(set(names)) < len(names):
        return None
    return " ".join([";;Carriers:", *names])


def fault_of(line: bytes, limit: int = LINE_LIMIT) -> str | None:
    """Why a line can't be read."""
    if len(line) > limit:
        return "LineLong"
    try:
        line.decode()
    except UnicodeDecodeError:
        return "NotUtf8"
    return None


class Hearing:
    """The lines so far: the adds of each session, the open group, and what becomes of a text line."""

    def __init__(self) -> None:
        self.adds: Counter[int] = Counter()
        self.session = 0
        self.group: list[Command] | None = None
        self.awaited: Awaited | None = None
        self.passes = False

    def settle(self, passes: bool) -> None:
        """Nothing is awaited, and no group is open."""
        self.group, self.awaited, self.passes = None, None, passes

    def broken_off(self, line: int) -> list[Order]:
        return [Refuse(line, "BadLine")] if self.awaited else []

    def refused(self, line: int, cause: str) -> list[Order]:
        orders = [*self.broken_off(line), Refuse(line, cause)]
        self.settle(True)
        return orders

    def heard(self, number: int, line: bytes) -> list[Order]:
        """What a line asks for that is whole, without its end."""
        fault = fault_of(line)
        if line.startswith(b"|"):
            return self.text_heard(number, fault, line[1:])
        if fault:
            return self.refused(number, fault)
        words = re.findall("[^ \t]+", line.decode())
        if not words or line.startswith(b"#"):
            return []
        return self.words_heard(number, words)

    def text_heard(self, number: int, fault: str | None, text: bytes) -> list[Order]:
        if self.awaited is None:
            return [] if self.passes else self.refused(number, fault or "BadLine")
        awaited = self.awaited
        line = None if fault else names_in(text.decode()) if awaited.command.name == "head" else text.decode()
        if line is None:
            self.settle(True)
            return [Refuse(number, fault or "BadLine")]
        awaited.texts.append(line)
        awaited.missing -= 1
        return [] if awaited.missing else self.whole(awaited)

    def words_heard(self, number: int, words: list[str]) -> list[Order]:
        session = 0
        if words[0] == "session":
            told = number_in(words[1]) if len(words) > 1 else None
            if told is None:
                return self.refused(number, "BadLine")
            session, words = told, words[2:]
        asked = plain_in(words) or edit_in(words) or question_in(session, words)
        if asked is None:
            return self.refused(number, "BadLine")
        if session >= 64:
            return self.refused(number, "ManySessions")
        broken_off = self.broken_off(number)
        self.settle_text(bool(broken_off))
        return broken_off + self.asked(number, session, asked)

    def settle_text(self, is_broken_off: bool) -> None:
        """A command line ends what was awaited, and with a text that is broken off its group."""
        self.awaited, self.passes = None, False
        if is_broken_off:
            self.group = None

    def asked(self, number: int, session: int, asked: Step | str | Awaited | Question) -> list[Order]:
        if self.group is not None:
            return self.grouped(number, session, asked, self.group)
        if asked == "end" or not self.is_known(session, asked):
            return self.refused(number, "BadLine" if asked == "end" else "NoOwn")
        self.session = session
        if asked == "group":
            self.group = []
            return []
        if isinstance(asked, Question):
            return [asked]
        if isinstance(asked, Awaited):
            return self.begun(asked)
        assert not isinstance(asked, str)
        return [Ask(session, asked)]

    def grouped(self, number: int, session: int, asked: Step | str | Awaited | Question, group: list[Command]) -> list[Order]:
        """A line of an open group: an edit of a block by the same session, or the end."""
        if session == self.session and asked == "end" and group:
            self.group = None
            self.adds[session] += sum(command.word == "add" for command in group)
            return [Ask(session, Group(tuple(group)))]
        edit = asked.command if isinstance(asked, Awaited) else asked
        has_place = isinstance(edit, Command) and edit.word in ("put", "add", "cut") and edit.name != "head"
        is_short = not isinstance(asked, Awaited) or asked.missing <= TEXT_LIMIT
        if session != self.session or not has_place or not is_short or len(group) == EDITS_LIMIT:
            return self.refused(number, "BadLine")
        if not self.is_known(session, asked):
            return self.refused(number, "NoOwn")
        return self.begun(asked) if isinstance(asked, Awaited) else self.stood(edit)

    def begun(self, awaited: Awaited) -> list[Order]:
        self.awaited = awaited
        return [] if awaited.missing else self.whole(awaited)

    def whole(self, awaited: Awaited) -> list[Order]:
        """The text is whole."""
        self.awaited = None
        command = Command(awaited.command.word, awaited.command.name, tuple(awaited.texts))
        if self.group is not None:
            return self.stood(command)
        self.adds[self.session] += command.word == "add"
        return [Ask(self.session, command)]

    def stood(self, command: Command) -> list[Order]:
        assert self.group is not None
        self.group.append(command)
        return []

    def is_known(self, session: int, asked: Step | str | Awaited | Question) -> bool:
        """Whether an `@n` that is named is an add that the session has made, those of an open group among them."""
        command = asked.command if isinstance(asked, Awaited) else asked
        names = [command.name] if isinstance(command, Command) else command.operands if isinstance(command, Question) else []
        own = self.adds[session] + sum(edit.word == "add" for edit in self.group or [])
        return all(1 <= int(name[1:]) <= own for name in names if name.startswith("@"))

    def ended(self, number: int) -> list[Order]:
        """What the end of the input asks for, where the line behind the last one would have this number."""
        return [Refuse(number, "BadLine")] if self.awaited or self.group is not None else []


def lines_of(given: bytes) -> list[bytes]:
    """The lines, each without its end."""
    *lines, rest = given.split(b"\n")
    return [line.removesuffix(b"\r") for line in [*lines, *([rest] if rest else [])]]


def opening_count(lines: list[bytes]) -> int:
    """How many lines an opening has that is good, those among them that are skipped. Of a saved text none is."""
    _, _, kind, count = lines[0].split()
    if kind == b"journal":
        return 1 + int(count)
    texts = int(count)
    at = 1
    while texts:
        texts -= lines[at].startswith(b"|")
        at += 1
    return at


def orders_by_line(given: bytes) -> tuple[int, list[list[Order]]]:
    """How many lines the opening has, and what each line behind it asks for; the end of the input last."""
    lines = lines_of(given)
    begin = opening_count(lines)
    hearing = Hearing()
    orders = [hearing.heard(number, line) for number, line in enumerate(lines[begin:], begin + 1)]
    return begin, [*orders, hearing.ended(len(lines) + 1)]
