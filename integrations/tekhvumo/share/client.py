"""An editor's side of a shared document: its text, what it changes there, and what it hears of others."""
from __future__ import annotations

import select
import socket
import time
from collections import deque
from typing import Any, Callable, Iterable, Mapping, Sequence

from ..serve import BlockGone, GroupRefused, Refused, Stale
from ..serve.errors import refusal_of
from ..serve.replies import HEAD, Brief
from .blocks import Block, Blocks, Sent
from .merge import Change, changes, conflict, merged
from .messages import PROTOCOL, digest_of, line_of, message_of, message_of_edits

PORTION = 1 << 16
# How long one waits between two trials to connect, in seconds.
RETRY = 0.05


class ShareError(Exception):
    """What a shared document raises."""


class HouseFull(ShareError):
    """There are as many editors as there are sessions."""


class ShareGone(ShareError):
    """The bridge is gone, and doesn't come back. The text here is still there."""


class NotTaken(ShareError):
    """The bridge can't take an edit: it is too long, or can't be said. The text here is as it was."""


class Lost(Exception):
    """The connection is lost."""


class Shared:
    """A document that several editors change, as one of them has it.

    `edit` changes the text here, and `sync` tells others and takes in what they did: where both changed the same lines,
    the text shows both sides between marks, `; <<<<<<<` and `; >>>>>>>`, until somebody takes them out. All is done by
    the thread that calls; one that waits for others can use `fileno` with `select`, or `wait`.
    """

    def __init__(self, path: str, patience: float = 10.0) -> None:
        self.path = path
        self.patience = patience
        self.told: list[Change] = []
        self.blocks = Blocks(())
        self.head: list[str] = []
        # The last verdict that was told, in short, and of which version it is.
        self.brief: Brief | None = None
        self.told_version = 0
        self.session = self.version = 0
        self.is_closed = False
        self.conflicts = 0
        self.begin(self.connected())
        # (what the bridge said right behind the document is in the text here from the beginning)
        self.wait()

    @classmethod
    def connect(cls, path: str, patience: float = 10.0) -> Shared:
        """Connects with the bridge at a path. `patience` says for how many seconds one that is gone is waited for."""
        return cls(path, patience)

    # ------------------------------------------------------------ the text here

    @property
    def lines(self) -> list[str]:
        """The lines of the text here, those of the head first."""
        return [*self.head, *self.blocks.lines()]

    @property
    def text(self) -> str:
        """The text here as a file has it."""
        # (of two carriage returns at a line's end one is no part of it)
        return "".join(f"{line}\r\n" if line.endswith("\r") else f"{line}\n" for line in self.lines)

    @property
    def is_synced(self) -> bool:
        """Whether nothing here is untold."""
        return not self.blocks.edits()

    def edit(self, first: int, end: int, lines: Sequence[str]) -> None:
        """Puts lines in the place of those from `first` to `end`, which isn't among these; they count from 0.

        The head stays as it is, but for the names of carriers (`put_names`).
        """
        if not len(self.head) <= first <= end <= len(self.head) + sum(len(it.mine) for it in self.blocks.blocks):
            raise ValueError(f"lines {first} to {end} aren't in the body, which begins with line {len(self.head)}")
        self.blocks.change(first - len(self.head), end - len(self.head), lines)

    def put_names(self, names: Sequence[str]) -> list[Change]:
        """Gives the header these names of carriers, in the place of those that it has by now."""
        return self.persistently(lambda: self.try_names(names))

    def saved(self, lines: Iterable[str]) -> list[Change]:
        """Says that the file was given these lines, all of which were told, so that the bridge may give it newer ones in their place."""
        digest = digest_of(it.encode(errors="surrogateescape") for it in lines)
        return self.persistently(lambda: self.try_saved(digest))

    # ------------------------------------------------------------ others

    def sync(self) -> list[Change]:
        """Tells others what was changed here, and gives the changes of the text here that they have made, in order.

        A `Refused` says that there would be too many lines or blocks, or that memory ran out; the text here is as it was.
        """
        return self.persistently(self.try_sync)

    def wait(self, seconds: float = 0.0) -> list[Change]:
        """Waits so long for others, and gives the changes of the text here that they have made; tells nothing."""
        return self.persistently(lambda: self.try_wait(seconds))

    def fileno(self) -> int:
        """The number of the connection's stream, which can be read when others have done something.

        Nothing that came before is left then: each call here takes in all that has come, and gives the changes.
        """
        return self.connection.fileno()

    def close(self) -> None:
        """Leaves the document. What is untold stays untold."""
        self.is_closed = True
        self.connection.close()

    def __enter__(self) -> Shared:
        return self

    def __exit__(self, *fault: object) -> None:
        self.close()

    # ------------------------------------------------------------ trials

    def persistently(self, work: Callable[[], None]) -> list[Change]:
        """Does a piece of work, again where the bridge went away meanwhile, and gives the changes of the text."""
        if self.is_closed:
            raise ShareGone("the document was left")
        while True:
            try:
                work()
                # (behind a reply there may be news, of which `fileno` says nothing any more)
                while self.pushed or b"\n" in self.ahead:
                    self.try_wait(0.0)
                break
            except (Lost, OSError):
                self.connection.close()
                self.begin(self.connected())
        told, self.told = self.told, []
        return told

    def try_sync(self) -> None:
        """Tells and hears until nothing is untold."""
        while True:
            self.hear()
            self.take_in()
            self.blocks.part()
            sent = self.blocks.edits()
            if not sent:
                return
            try:
                reply = self.ask(message_of_edits([it.edit for it in sent]))
            except Refused as refused:
                self.learn(refused.why if isinstance(refused, GroupRefused) else refused)
            else:
                self.note(reply, sent)

    def try_wait(self, seconds: float) -> None:
        """Hears what is said within a time."""
        self.hear(seconds)
        self.take_in()

    def try_names(self, names: Sequence[str]) -> None:
        """Puts names until nobody else was quicker."""
        while True:
            self.hear()
            self.take_in()
            try:
                reply = self.ask({"ask": "names", "names": list(names)})
            except Stale:
                self.look_head()
            else:
                self.judge(reply)
                self.look_head()
                return

    def try_saved(self, digest: str) -> None:
        """Says what was saved."""
        self.hear()
        self.take_in()
        self.ask({"ask": "saved", "digest": digest})

    def learn(self, refused: Refused | None) -> None:
        """Learns why an edit wasn't accepted: another editor was quicker."""
        if isinstance(refused, BlockGone):
            # (it is told as soon as it is on the disk)
            while self.version < refused.at:
                self.hear(self.patience)
                self.take_in()
        elif isinstance(refused, Stale) and refused.block == HEAD:
            self.look_head()
        elif isinstance(refused, Stale):
            block = self.blocks.find(int(refused.block))
            if block:
                self.look(block)
        elif refused:
            raise refused

    def judge(self, reply: Mapping[str, Any]) -> None:
        """Takes the verdict that an accepted edit is answered with."""
        self.brief, self.told_version = Brief.of(reply["brief"]), int(reply["version"])

    def note(self, reply: Mapping[str, Any], sent: Sequence[Sent]) -> None:
        """Notes that edits were accepted. Where a new block stands among others is told with what these did before."""
        self.judge(reply)
        number = reply.get("from", reply["version"])
        for it in sent:
            if it.block.number is None:
                self.added[number] = it.block
            else:
                # (one that is cut stays until that is told: others may have added blocks behind it before)
                it.block.settle(number)
            number += 1

    # ------------------------------------------------------------ what others did

    def take_in(self) -> None:
        """Takes in what was pushed: first what became of the blocks, then the lines of those that are others now."""
        while self.pushed:
            for entry in self.pushed.popleft()["entries"]:
                if entry["number"] <= self.version:
                    continue
                self.version = entry["number"]
                if entry["edit"] == "cut":
                    self.lose(entry["block"], entry["session"])
                elif entry["number"] in self.added:
                    self.place(self.added.pop(entry["number"]), entry)
                else:
                    if entry["edit"] == "add":
                        self.insert(Block(entry["block"], -1, ()), entry["anchor"])
                    self.wanted[entry.get("block", HEAD)] = entry["number"]
        for number, stamp in list(self.wanted.items()):
            block = self.blocks.find(number) if isinstance(number, int) else None
            if number == HEAD:
                self.look_head()
            # (of its own edits, and of what it looked at since, the text is known)
            elif block and block.stamp < stamp:
                self.look(block)
            del self.wanted[number]

    def insert(self, block: Block, anchor: int | None) -> None:
        """Puts a block where it was added."""
        behind = self.blocks.find(anchor)
        if anchor is not None and behind is None:
            raise ShareError(f"a block was added behind block {anchor}, which isn't there")
        self.blocks.put_behind(block, behind)

    def place(self, block: Block, entry: Mapping[str, Any]) -> None:
        """Puts a new block of its own where it came to stand among those that others have added."""
        lines, first = tuple(block.mine), len(self.head) + self.blocks.first_line(block)
        self.blocks.remove(block)
        block.number = entry["block"]
        block.settle(entry["number"])
        # (of several new blocks the last is added first: those before it are still to come)
        behind = self.blocks.last_new_behind(self.blocks.find(entry["anchor"]))
        self.blocks.put_behind(block, behind)
        to = len(self.head) + self.blocks.first_line(block)
        if to != first:
            self.told += [Change(first, first + len(lines), ()), Change(to, to, lines)]

    def lose(self, number: int, session: int) -> None:
        """Takes a block out that another editor has cut; what was changed here stays, as a conflict."""
        block = self.blocks.find(number)
        if not block:
            return
        first = len(self.head) + self.blocks.first_line(block)
        if not block.is_changed or not block.mine:
            self.told += changes(block.mine, (), first)
            self.blocks.remove(block)
            return
        lines = conflict(block.mine, (), (self.name, f"cut by session {session}"))
        self.told += changes(block.mine, lines, first, True)
        self.conflicts += 1
        block.number = None
        block.mine, block.base = lines, ()

    def look(self, block: Block) -> None:
        """Looks at a block, and brings together what it is and what was made of it here."""
        try:
            shown = self.ask({"ask": "look", "block": block.number})
        except BlockGone:
            # (which is told in its turn)
            return
        theirs = shown["lines"]
        names = self.name, f"entry {shown['stamp']}"
        lines, conflicts = merged(block.known, block.mine, theirs, names)
        first = len(self.head) + self.blocks.first_line(block)
        self.told += changes(block.mine, lines, first, conflicts > 0)
        self.conflicts += conflicts
        block.mine, block.base = list(theirs), None
        block.stamp = shown["stamp"]
        block.become(lines)

    def look_head(self) -> None:
        """Looks at the names of carriers."""
        [line] = self.ask({"ask": "look", "block": HEAD})["lines"]
        at = next(at for at, it in enumerate(self.head) if it.startswith(";;Carriers:"))
        if self.head[at] != line:
            self.told.append(Change(at, at + 1, (line,)))
            self.head[at] = line

    @property
    def name(self) -> str:
        """How marks of conflicts call this side."""
        return f"session {self.session}"

    # ------------------------------------------------------------ the connection

    def connected(self) -> Mapping[str, Any]:
        """Connects, and gives what the bridge says first; waits for one that isn't there yet."""
        until = time.monotonic() + self.patience
        while True:
            self.connection = socket.socket(socket.AF_UNIX)
            self.ahead = b""
            self.pushed: deque[Mapping[str, Any]] = deque()
            self.added: dict[int, Block] = {}
            self.wanted: dict[int | str, int] = {}
            try:
                self.connection.connect(self.path)
                hello = message_of(self.line())
            except (Lost, OSError) as trouble:
                self.connection.close()
                if time.monotonic() > until:
                    raise ShareGone(f"{self.path}: nobody shares a document here") from trouble
                time.sleep(RETRY)
                continue
            if hello["reply"] == "housefull":
                self.connection.close()
                raise HouseFull(f"{self.path}: there are {hello['sessions']} editors already")
            if hello["protocol"] != PROTOCOL:
                raise ShareError(f"{self.path}: the bridge speaks another protocol")
            return hello

    def begin(self, hello: Mapping[str, Any]) -> None:
        """Takes a whole document for what others have; what was untold here is brought together with it."""
        self.session, self.version = int(hello["session"]), int(hello["version"])
        known, mine = list(self.blocks.known_lines()), list(self.blocks.lines())
        is_first = not self.head
        old_head, self.head = self.head, list(hello["head"])
        self.blocks = Blocks(Block(it["block"], it["stamp"], it["lines"]) for it in hello["blocks"])
        if is_first:
            return
        theirs = list(self.blocks.lines())
        lines, conflicts = merged(known, mine, theirs, (self.name, "the others"))
        self.told += changes(old_head, self.head)
        self.told += changes(mine, lines, len(self.head), conflicts > 0)
        self.conflicts += conflicts
        for change in changes(theirs, lines):
            self.blocks.change(change.first, change.end, change.lines)

    def ask(self, message: Mapping[str, Any]) -> Mapping[str, Any]:
        """The reply to a message; a refusal is raised. What is pushed meanwhile is kept for later."""
        self.connection.sendall(line_of(message))
        while (reply := message_of(self.line()))["reply"] == "pushed":
            self.pushed.append(reply)
        if reply["reply"] in ("unsayable", "large"):
            raise NotTaken(reply.get("why") or f"an edit has at most {reply['limit']} bytes")
        refusal = refusal_of(reply)
        if refusal:
            raise refusal
        return reply

    def hear(self, seconds: float = 0.0) -> None:
        """Hears what is pushed: what has come, or the first that comes within a time."""
        if self.connection.fileno() < 0:
            raise Lost
        while b"\n" in self.ahead or select.select([self.connection], [], [], seconds)[0]:
            self.pushed.append(message_of(self.line()))
            seconds = 0.0

    def line(self) -> bytes:
        """A line that the bridge says."""
        parts = [self.ahead]
        while b"\n" not in parts[-1]:
            piece = self.connection.recv(PORTION)
            if not piece:
                raise Lost
            parts.append(piece)
        line, _, self.ahead = b"".join(parts).partition(b"\n")
        return line
