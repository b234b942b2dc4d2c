"""A conversation by plain calls, which threads may share."""
from __future__ import annotations

import json
import os
import subprocess
import threading
from types import TracebackType
from typing import Any, Sequence, TypeVar

from ..api import Text, as_bytes
from ..program import Limits, SetupFault, Status, find_program
from . import replies, requests
from .errors import OpeningRefused, ProcessGone
from .requests import Request

T = TypeVar("T")
PORTION = 1 << 16


class Pipes:
    """check_main with a pipe to each side: whole commands go in, and each gets its reply."""

    def __init__(self, words: Sequence[str]) -> None:
        try:
            self.child = subprocess.Popen(words, stdin=subprocess.PIPE, stdout=subprocess.PIPE, bufsize=0)
        except OSError as trouble:
            raise SetupFault(f"{words[0]}: {trouble.strerror}") from trouble
        self.lock = threading.Lock()
        self.ahead = b""
        self.status: int | None = None
        self.is_closed = False

    def tell(self, data: bytes) -> None:
        """Writes a command."""
        assert self.child.stdin
        rest = memoryview(data)
        while rest:
            rest = rest[os.write(self.child.stdin.fileno(), rest) :]

    def line(self) -> bytes:
        """A line that is read; without a line feed where no more comes."""
        assert self.child.stdout
        parts = [self.ahead]
        while b"\n" not in parts[-1]:
            piece = os.read(self.child.stdout.fileno(), PORTION)
            if not piece:
                self.ahead = b""
                return b"".join(parts)
            parts.append(piece)
        line, feed, self.ahead = b"".join(parts).partition(b"\n")
        return line + feed

    def ask(self, data: bytes) -> bytes:
        """The reply to a command. One lock for both: replies come in the order of commands."""
        with self.lock:
            if self.is_closed or self.status is not None:
                raise ProcessGone(self.status)
            try:
                self.tell(data)
                line = self.line()
            except OSError:
                line = b""
            except BaseException:
                # (a reply that nobody waits for any more would be taken for the next command's)
                self.end()
                raise
            if not line.endswith(b"\n"):
                raise ProcessGone(self.end())
            return line

    def end(self) -> int:
        """Ends the process, if it goes on, and gives its status."""
        if self.status is None:
            if not self.is_closed:
                self.child.kill()
            self.status = self.child.wait()
        for stream in (self.child.stdin, self.child.stdout):
            if stream:
                stream.close()
        return self.status

    def close(self) -> bytes:
        """Ends the input, waits for the end, and gives what was said last."""
        with self.lock:
            if self.is_closed or self.status is not None:
                return b""
            assert self.child.stdin
            self.is_closed = True
            try:
                self.child.stdin.close()
                return self.line()
            except OSError:
                return b""
            finally:
                self.end()


class Session:
    """One of a document's designers: it may put over a block, or cut it, only as it knows it.

    It knows the blocks of the opening, and afterwards what its last look, or its last edit, told. What isn't accepted is
    raised as a `Refused`, by kinds: `Stale` where another session was quicker.
    """

    def __init__(self, pipes: Pipes, number: int) -> None:
        self.pipes = pipes
        self.number = requests.session_number(number)

    def ask(self, request: Request[T]) -> T:
        """The value of a request's reply."""
        line = self.pipes.ask(request.data)
        try:
            said = json.loads(line)
        except ValueError as trouble:
            raise ProcessGone(self.pipes.end()) from trouble
        return request.read(said)

    def put(self, block: int, lines: Sequence[str]) -> replies.Accepted:
        """Gives a block other lines."""
        return self.ask(requests.one_edit(self.number, requests.Put(block, lines)))

    def add(self, behind: replies.Block, lines: Sequence[str]) -> replies.Accepted:
        """Adds a block behind another, or first where `behind` is `start`; the reply tells the new block's id."""
        return self.ask(requests.one_edit(self.number, requests.Add(behind, lines)))

    def cut(self, block: int) -> replies.Accepted:
        """Takes a block out."""
        return self.ask(requests.one_edit(self.number, requests.Cut(block)))

    def look(self, block: int) -> replies.Shown:
        """The lines of a block, which the session then knows."""
        return self.ask(requests.look(self.number, block))

    def look_head(self) -> replies.Shown:
        """The header line that names the carriers, which the session then knows."""
        return self.ask(requests.look_head(self.number))

    def put_head(self, names: Sequence[str]) -> replies.Accepted:
        """Gives the header these names of carriers."""
        return self.ask(requests.put_head(self.number, names))

    def group(self, edits: Sequence[requests.Edit]) -> replies.GroupDone:
        """Makes up to 64 edits, all or none; `GroupRefused` says which one isn't accepted, and why."""
        return self.ask(requests.group(self.number, edits))

    def undo(self) -> replies.Accepted:
        """Undoes the session's last accepted step, if that was one put or one add."""
        return self.ask(requests.undo(self.number))

    def text_at(self, block: int, stamp: int) -> replies.OldText | None:
        """The text that a block got from an entry, or from the opening for 0; None where it got none."""
        return self.ask(requests.text_at(self.number, block, stamp))

    def loop(self, line: int) -> replies.LoopTold:
        """The loop that a line of the file makes."""
        return self.ask(requests.loop(self.number, line))

    def verdict(self) -> replies.VerdictTold:
        """The verdict on the whole."""
        return self.ask(requests.verdict(self.number))

    def blocks(self) -> replies.Blocks:
        """The blocks in their order. The session doesn't know their texts by it."""
        return self.ask(requests.blocks(self.number))

    def since(self, version: int) -> replies.Since:
        """What all sessions did behind a version."""
        return self.ask(requests.since(self.number, version))

    def save(self) -> replies.Saved:
        """The saved text of the document and its journal."""
        return self.ask(requests.save(self.number))

    def tally(self, first: int, end: int) -> replies.Tally:
        """What the blocks at the places from `first` to `end`, which isn't counted, come to."""
        return self.ask(requests.tally(self.number, first, end))


class Conversation(Session):
    """A document that one process of check_main keeps, and its session 0.

    Several threads may share it, and each may have a session of its own: commands are carried out one at a time.

    >>> with Conversation.open(";!knitout-2\\n;;Carriers: 1\\nin 1\\ntuck + f1 1\\n") as served:
    ...     edit = served.put(0, ["in 1", "tuck + f1 1", "knit - f2 2"])
    ...     edit.brief.rule, edit.broken.line, served.loop(4).loop.yarns
    ...     saved = served.save().text
    ('NoCarrier', 3, ('1',))

    What is saved outlives the process, and another conversation goes on from it:

    >>> with Conversation.open_saved(saved) as served:
    ...     lines = served.look(0).lines
    ...     served.opened.version, served.put(0, lines[:2]).version, [it.seen for it in served.since(0).entries]
    (1, 2, [0, 1])
    """

    def __init__(self, pipes: Pipes, opened: replies.Opened) -> None:
        super().__init__(pipes, 0)
        self.opened = opened

    @classmethod
    def open(
        cls, text: Text, limits: Limits | None = None, *, block_lines: int = 64, program: str | None = None
    ) -> Conversation:
        """A conversation over a text, whose body is cut into blocks of so many lines.

        OpeningRefused where check_main doesn't take the text, SetupFault where it isn't there. Each line may have a
        byte less than in a file.
        """
        return cls.begun(requests.opening(as_bytes(text)), program, requests.options(limits or Limits(), block_lines))

    @classmethod
    def open_saved(cls, saved: Text, *, program: str | None = None) -> Conversation:
        """A conversation that goes on from a saved text, with its blocks, its limits, its version and its journal.

        Its sessions begin anew: they know what the saved text began with, so that a block which was changed since has to
        be looked at first, and undo nothing that was done before. OpeningRefused where check_main doesn't take the text.
        """
        return cls.begun(requests.opening_by(as_bytes(saved)), program, requests.options())

    @classmethod
    def begun(cls, opening: bytes, program: str | None, words: Sequence[str]) -> Conversation:
        """A conversation with a new process, which is begun so."""
        pipes = Pipes([find_program(program), *words])
        return cls(pipes, opened_by(pipes, opening))

    def session(self, number: int) -> Session:
        """Session `number`, 0 to 63. It is there from the start, and the same whenever it is asked for."""
        return Session(self.pipes, number)

    @property
    def process(self) -> int:
        """The number of the process."""
        return self.pipes.child.pid

    def close(self) -> replies.VerdictTold | None:
        """Ends the conversation: the verdict on what stands at its end, or None where it was closed or gone before."""
        line = self.pipes.close()
        said: Any = json.loads(line) if line.endswith(b"\n") else {}
        return replies.VerdictTold.of(said) if said.get("reply") == "final" else None

    def __enter__(self) -> Conversation:
        return self

    def __exit__(self, kind: type[BaseException] | None, fault: BaseException | None, at: TracebackType | None) -> None:
        self.close()


def opened_by(pipes: Pipes, data: bytes) -> replies.Opened:
    """What a conversation begins with, or why there is none."""
    try:
        pipes.tell(data)
    except OSError:
        # (who refuses a text may not hear it to its end)
        pass
    line = pipes.line()
    if line.startswith(b"{"):
        return replies.Opened.of(json.loads(line))
    pipes.is_closed = True
    status = pipes.end()
    words = line.decode(errors="replace").strip()
    if status == Status.USAGE:
        raise SetupFault("this check_main has no conversations, or refuses an option")
    raise OpeningRefused(status if status >= 0 else Status.SIGNAL - status, words)
