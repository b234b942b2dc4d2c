"""The verdict on a document as it is typed: one conversation a document, of which an edit costs a block."""
from __future__ import annotations

from typing import NamedTuple, Sequence

from ..lines import MOST_BYTES, Source
from ..program import Broken, Limits, Loop, Program, SetupFault
from ..serve import Accepted, Conversation, Opened, OpeningRefused, ServeError
from ..settings import Settings, Wishes, settings_of
from .blocks import BLOCK_LINES, Blocks
from .text import Change, Text


class Refusal(NamedTuple):
    """Why check_main takes a text for none: its status, and its own words."""

    status: int
    words: str


Told = Broken | Refusal | None


def head_length(lines: Sequence[str]) -> int:
    """How many lines the head has: the first, and those behind it that are blank or begin with a semicolon."""
    for number, line in enumerate(lines):
        if number and not line.startswith(";") and line.removesuffix("\r").strip(" \t"):
            return number
    return len(lines)


class Verdicts:
    """What check_main says of a text, and of the loops of its lines.

    The conversation knows the head by the names of its carriers alone: that the head is one is asked of `check`, over the
    head by itself. A text that no conversation takes is checked as a whole.
    """

    def __init__(self, program: str, path: str, text: Text, wishes: Wishes) -> None:
        self.path = path
        self.wishes = wishes
        self.text = text
        self.program = Program(program)
        self.settings = Settings()
        self.trouble = ""
        self.head: list[str] = []
        self.names: list[str] = []
        self.refusal: Refusal | None = None
        self.served: Conversation | None = None
        # Of the conversation: its blocks, the names that it has, how many lines its head has, and what it said last.
        self.blocks = Blocks(0)
        self.served_names: list[str] = []
        self.served_head = 0
        self.latest: Accepted | Opened | None = None
        self.is_hopeless = False
        self.read_head(head_length(text.lines))

    def read_head(self, length: int) -> None:
        """Looks at the head, and at what holds for a text with this head."""
        self.head = self.text.lines[:length]
        self.is_hopeless = False
        source = Source(self.path, self.text.above(length))
        try:
            settings, self.trouble = settings_of(source, self.path, self.wishes), ""
        except SetupFault as trouble:
            settings, self.trouble = self.wishes.upon(Settings()), str(trouble)
        if settings.limits != self.settings.limits:
            self.drop()
        self.settings = settings
        self.program.limits = settings.limits
        answer = self.program.check(source.data)
        self.refusal = None if answer.verdict else Refusal(answer.status, answer.refusal)
        self.names = source.declared

    def settings_changed(self) -> bool:
        """Reads the settings again, and says whether they have changed."""
        before = self.settings, self.trouble
        self.read_head(len(self.head))
        return before != (self.settings, self.trouble)

    @property
    def limits(self) -> Limits:
        """The limits that hold for the text."""
        return self.settings.limits

    def changed(self, change: Change) -> bool:
        """Takes notice of a change of the text, and says whether the head has changed."""
        head = before = len(self.head)
        first, end, lines = change
        if first <= before:
            head = head_length(self.text.lines)
            # (the lines that were or are of the head, and all that stand above the end of the change)
            end = max(end, before, head - change.grows)
            first, lines = before, end + change.grows - head
        if self.served:
            self.blocks.change(first - before, end - before, lines)
        if first > before or self.text.lines[:head] == self.head:
            return False
        self.read_head(head)
        return True

    def told(self) -> Told:
        """The first broken line of the text, or why the text is refused, or None where it is sound."""
        if self.text.long_lines or self.text.size > MOST_BYTES or self.is_hopeless:
            self.drop()
            return self.of_whole()
        if self.refusal:
            return self.refusal
        for _ in range(2):
            try:
                return self.of_served()
            except OpeningRefused:
                break
            except ServeError:
                # (a journal that is full, or a process that is gone: all is told anew)
                self.drop()
        self.is_hopeless = True
        return self.of_whole()

    def of_whole(self) -> Told:
        """What `check` says of the whole text."""
        answer = self.program.check(self.text.whole())
        if not answer.verdict:
            return Refusal(answer.status, answer.refusal)
        found = answer.verdict
        return Broken(found["line"], found["rule"], found["at"]) if "rule" in found else None

    def of_served(self) -> Told:
        """What the conversation says, once it is told all changes."""
        if self.served and self.blocks.are_mostly_new:
            self.drop()
        served = self.served or self.opened()
        if self.names != self.served_names:
            self.latest = served.put_head(self.names)
            self.served_names = self.names
        head = len(self.head)
        self.latest = self.blocks.tell(served, self.body) or self.latest
        assert self.latest
        brief, broken = self.latest.brief, self.latest.broken
        if not broken:
            return None
        assert brief.rule is not None and brief.at is not None
        return Broken(head + self.blocks.line_of(broken.block, broken.line) + 1, brief.rule, brief.at)

    def body(self, begin: int, end: int) -> list[str]:
        """Lines of the body, which has them from 0, without the carriage returns that end them."""
        head = len(self.head)
        return [line.removesuffix("\r") for line in self.text.lines[head + begin : head + end]]

    def opened(self) -> Conversation:
        """A conversation over the text as it is. The last piece is a line of it even where it is empty."""
        text = self.text.above(len(self.text.lines))
        served = Conversation.open(text, self.limits, block_lines=BLOCK_LINES, program=self.program.path)
        self.served = served
        self.latest = served.opened
        self.served_head = len(self.head)
        self.served_names = self.names
        self.blocks = Blocks(len(self.text.lines) - self.served_head)
        return served

    def loop(self, line: int) -> Loop | None:
        """The loop that a line of the file makes, with the lines that it has by now; None also where nobody is asked."""
        head = len(self.head)
        if not self.served or self.refusal or line <= head:
            return None
        moved = head - self.served_head
        try:
            loop = self.served.loop(line - moved).loop
        except ServeError:
            return None
        if loop is None:
            return None
        return loop._replace(line=line, through=tuple(it + moved for it in loop.through))

    def drop(self) -> None:
        """Ends the conversation."""
        if self.served:
            self.served.close()
        self.served = self.latest = None

    close = drop
