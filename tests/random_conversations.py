"""Random conversations, of which some lines say nothing that may stand there."""
from __future__ import annotations

import random

from conversation_model import OPENING_LINES
from conversations import opening_of
from test_headers import Command, some_command

QUESTIONS = """blocks|since 0|since 2|since 7|save|tally 0 1|tally 0 2|tally 1 3|tally 2 1|look 0 at 0|look 1 at 0
look 0 at 1|look 2 at 1|look 2 at 3|look @1 at 2|look 1 at 4294967295|look 9 at 0|look @2 at 4""".replace("\n", "|").split("|")
NOTHING = b"""putt 0 lines 2,|stray,put 0,put 0 lines,add start,session 64 verdict,session 64 putt,session,session 3,session -1 verdict
look @0,cut @40,put @40 lines 1,look @40 at 1,put head lines 2,end,since,tally 0,save 1,live 1,look start
loop 4294967296,cut 4294967295,put 0 lines 4294967296,look 00000000000,verdict \xc2\xa0,\xff,|\xff""".replace(b"\n", b",").split(b",")
BAD = [*NOTHING, b"x" * 4_097, b"|" + b"x" * 4_096]
SKIPPED = [b"", b" \t", b"# a remark", b"#|", b"# put 0 lines 1"]


def spelled(command: Command) -> list[str]:
    """The lines of a command, with the number of its text lines."""
    line, *texts = command.spelled()
    return [f"{line} lines {len(texts)}" if command.word in ("put", "add") else line, *texts]


class Writer:
    """Writes a conversation, line by line."""

    def __init__(self, seed: int) -> None:
        self.choice = random.Random(seed)
        self.lines: list[bytes] = []
        self.adds = dict.fromkeys([0, 1, 5, 63], 0)

    def command(self, session: int) -> Command:
        command = some_command(self.choice, self.adds[session])
        self.adds[session] += command.word == "add"
        return command

    def write(self, session: int, lines: list[str]) -> None:
        """The lines, of which one that is no text line is this session's. Now and then one is lost, or another stands between them."""
        for line in lines:
            chance = self.choice.random()
            if chance < 0.02:
                continue
            if chance < 0.05:
                self.lines.append(self.choice.choice(SKIPPED))
            elif chance < 0.06:
                self.lines.append(self.choice.choice(BAD))
            is_bare = line.startswith("|") or session == 0 and self.choice.random() < 0.5
            self.lines.append((line if is_bare else f"session {session} {line}").encode())

    def more(self) -> None:
        session = self.choice.choice([0, 0, 0, 1, 5, 63])
        kind = self.choice.randrange(20)
        if kind < 10:
            self.write(session, spelled(self.command(session)))
        elif kind < 13:
            commands = [self.command(session) for _ in range(self.choice.randrange(0, 5))]
            kept = [each for each in commands if each.word in ("put", "add", "cut") and each.name != "head" or self.choice.random() < 0.1]
            self.write(session, ["group", *[line for command in kept for line in spelled(command)], "end"])
        elif kind < 15:
            self.write(session, ["undo"])
        elif kind < 18:
            self.write(session, [self.choice.choice(QUESTIONS)])
        else:
            self.lines.append(self.choice.choice(BAD + SKIPPED))

    def text(self, count: int) -> bytes:
        """A conversation of so many parts. Some lines end with a carriage return, and the last one may have no end."""
        for _ in range(count):
            self.more()
        ended = b"".join(line + (b"\r\n" if self.choice.random() < 0.05 else b"\n") for line in self.lines)
        return opening_of(OPENING_LINES) + (ended if self.choice.random() < 0.7 else ended[:-1])


def some_conversation(seed: int, count: int) -> bytes:
    return Writer(seed).text(count)
