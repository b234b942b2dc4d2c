"""Conversations with the program check_main: a client that keeps both pipes open, and what stands in them."""
from __future__ import annotations

import os
import select
import subprocess
import time
from collections.abc import Iterable
from types import TracebackType

from conversation_lines import lines_of
from program import Answer, answer_of, find_program

# A reply that is due comes within so many seconds, or never.
PATIENCE = 60.0
OPENING = b"serve 1 lines 3\n|;!knitout-2\n|;;Carriers: 1 2\n|in 1\n"
OPENED = b"opened version 0 blocks 1 sound lines 1 made 0 held 0 rack 0\n\n"
VERDICT = b"sound lines 1 made 0 held 0 rack 0\nin: 1\nhook:\n"
FINAL = b"final version 0\n" + VERDICT + b"\n"


def barred(lines: Iterable[str]) -> bytes:
    """The text lines of these texts."""
    return "".join(f"|{line}\n" for line in lines).encode()


def opening_of(lines: list[str]) -> bytes:
    """The opening of a conversation over this text."""
    return b"serve 1 lines %d\n" % len(lines) + barred(lines)


def resumed(saved: bytes) -> bytes:
    """The opening of a conversation that goes on from a saved text."""
    return b"serve 1 journal %d\n" % len(lines_of(saved)) + saved


def put(block: int | str, lines: list[str], session: int = 0) -> bytes:
    """A put of a session."""
    return f"session {session} put {block} lines {len(lines)}\n".encode() + barred(lines)


def conversed(given: bytes, *options: str) -> Answer:
    """How a conversation ends that is written ahead, and all that is said."""
    return answer_of("serve", *options, given=given, within=PATIENCE)


def replies_in(said: bytes) -> list[bytes]:
    """The replies, each without its empty line."""
    *replies, rest = said.split(b"\n\n")
    assert not rest, said[-200:]
    return replies


def without_frame(reply: bytes) -> bytes:
    """A reply behind `session S N `."""
    word, _, _, rest = reply.split(b" ", 3)
    assert word == b"session", reply
    return rest


class Gone(Exception):
    """The program said no whole reply: it has ended, or said nothing for a long time."""


class Served:
    """A conversation that is going on. `end` closes the input and hands out the status and all that was said behind the last reply."""

    def __init__(self, *options: str, **given) -> None:
        words = [find_program(), "serve", *options]
        self.child = subprocess.Popen(words, stdin=subprocess.PIPE, stdout=subprocess.PIPE, bufsize=0, **given)
        assert self.child.stdin and self.child.stdout
        self.input, self.output = self.child.stdin, self.child.stdout
        self.stop = b"\n" if "--json" in options else b"\n\n"
        self.ahead = b""

    def __enter__(self) -> Served:
        return self

    def __exit__(self, kind: type[BaseException] | None, fault: BaseException | None, trace: TracebackType | None) -> None:
        if self.child.poll() is None:
            self.child.kill()
        self.child.wait()
        for pipe in (self.input, self.output):
            if not pipe.closed:
                pipe.close()

    def write(self, given: bytes) -> None:
        """All of these bytes, which have room in the pipe once the program hears on."""
        left = memoryview(given)
        while left:
            left = left[os.write(self.input.fileno(), left) :]

    def is_silent(self, seconds: float = 0.0) -> bool:
        """Whether nothing is said behind the last reply that was read, within so many seconds."""
        return not self.ahead and not select.select([self.output], [], [], seconds)[0]

    def read(self) -> bytes:
        """Some bytes more, none where the output has ended."""
        if not select.select([self.output], [], [], PATIENCE)[0]:
            raise Gone("nothing is said")
        return os.read(self.output.fileno(), 1 << 16)

    def reply(self) -> bytes:
        """The next reply, without its end."""
        looked = 0
        while (at := self.ahead.find(self.stop, looked)) < 0:
            looked = max(0, len(self.ahead) - 1)
            piece = self.read()
            if not piece:
                raise Gone(self.ahead)
            self.ahead += piece
        reply, self.ahead = self.ahead[:at], self.ahead[at + len(self.stop) :]
        return reply

    def ask(self, given: bytes) -> bytes:
        """What is replied to a command with its text lines."""
        self.write(given)
        return self.reply()

    def end(self) -> Answer:
        if not self.input.closed:
            self.input.close()
        rest = self.ahead
        while piece := self.read():
            rest += piece
        return Answer(self.child.wait(PATIENCE), rest)

    def waits(self) -> bool:
        """Whether the program sleeps: then its last call is counted."""
        with open(f"/proc/{self.child.pid}/stat") as file:
            return file.read().rsplit(")", 1)[1].split()[0] == "S"

    def calls(self) -> int:
        """How often the program has read and written, once it waits for more."""
        while not self.waits():
            time.sleep(0.001)
        with open(f"/proc/{self.child.pid}/io") as file:
            counts = dict(line.split(": ") for line in file)
        return int(counts["syscr"]) + int(counts["syscw"])

    def resident(self) -> int:
        """How much of the program lies in memory, in bytes."""
        with open(f"/proc/{self.child.pid}/statm") as file:
            return int(file.read().split()[1]) * os.sysconf("SC_PAGE_SIZE")
