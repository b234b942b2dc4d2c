"""A conversation by calls of asyncio."""
from __future__ import annotations

import asyncio
import json
from typing import Any, Sequence, TypeVar

from ..api import Text, as_bytes
from ..program import Limits, SetupFault, Status, find_program
from . import replies, requests
from .errors import OpeningRefused, ProcessGone
from .requests import Request

T = TypeVar("T")
# (a saved text is one line)
MOST_REPLY_BYTES = 1 << 32


class AsyncPipes:
    """check_main with a pipe to each side. Who asks waits in a line; a task that is cancelled leaves its place empty."""

    def __init__(self, child: asyncio.subprocess.Process) -> None:
        assert child.stdin and child.stdout
        self.child = child
        self.writer = child.stdin
        self.reader = child.stdout
        self.waiting: list[asyncio.Future[bytes]] = []
        self.is_closed = False
        self.last = b""
        self.status: int | None = None
        self.ends: asyncio.Task[None] | None = None

    async def hear(self) -> None:
        """Hands each line that is read to who waits longest, until no more comes."""
        while (line := await self.reader.readline()).endswith(b"\n"):
            if self.waiting:
                future = self.waiting.pop(0)
                if not future.done():
                    future.set_result(line)
            else:
                self.last = line
        self.status = await self.child.wait()
        for future in self.waiting:
            if not future.done():
                future.set_exception(ProcessGone(self.status))
        self.waiting.clear()

    async def ask(self, data: bytes) -> bytes:
        """The reply to a command."""
        if self.is_closed or self.status is not None:
            raise ProcessGone(self.status)
        future: asyncio.Future[bytes] = asyncio.get_running_loop().create_future()
        self.waiting.append(future)
        self.writer.write(data)
        try:
            await self.writer.drain()
        except OSError:
            pass
        return await future

    async def close(self) -> bytes:
        """Ends the input, waits for the end, and gives what was said last."""
        if not self.is_closed:
            self.is_closed = True
            self.writer.close()
            if self.ends:
                await self.ends
        last, self.last = self.last, b""
        return last


class AsyncSession:
    """A `Session` whose calls are awaited; several tasks may share it."""

    def __init__(self, pipes: AsyncPipes, number: int) -> None:
        self.pipes = pipes
        self.number = requests.session_number(number)

    async def ask(self, request: Request[T]) -> T:
        """The value of a request's reply."""
        return request.read(json.loads(await self.pipes.ask(request.data)))

    async def put(self, block: int, lines: Sequence[str]) -> replies.Accepted:
        """Gives a block other lines."""
        return await self.ask(requests.one_edit(self.number, requests.Put(block, lines)))

    async def add(self, behind: replies.Block, lines: Sequence[str]) -> replies.Accepted:
        """Adds a block behind another, or first where `behind` is `start`; the reply tells the new block's id."""
        return await self.ask(requests.one_edit(self.number, requests.Add(behind, lines)))

    async def cut(self, block: int) -> replies.Accepted:
        """Takes a block out."""
        return await self.ask(requests.one_edit(self.number, requests.Cut(block)))

    async def look(self, block: int) -> replies.Shown:
        """The lines of a block, which the session then knows."""
        return await self.ask(requests.look(self.number, block))

    async def look_head(self) -> replies.Shown:
        """The header line that names the carriers, which the session then knows."""
        return await self.ask(requests.look_head(self.number))

    async def put_head(self, names: Sequence[str]) -> replies.Accepted:
        """Gives the header these names of carriers."""
        return await self.ask(requests.put_head(self.number, names))

    async def group(self, edits: Sequence[requests.Edit]) -> replies.GroupDone:
        """Makes up to 64 edits, all or none; `GroupRefused` says which one isn't accepted, and why."""
        return await self.ask(requests.group(self.number, edits))

    async def undo(self) -> replies.Accepted:
        """Undoes the session's last accepted step, if that was one put or one add."""
        return await self.ask(requests.undo(self.number))

    async def text_at(self, block: int, stamp: int) -> replies.OldText | None:
        """The text that a block got from an entry, or from the opening for 0; None where it got none."""
        return await self.ask(requests.text_at(self.number, block, stamp))

    async def loop(self, line: int) -> replies.LoopTold:
        """The loop that a line of the file makes."""
        return await self.ask(requests.loop(self.number, line))

    async def verdict(self) -> replies.VerdictTold:
        """The verdict on the whole."""
        return await self.ask(requests.verdict(self.number))

    async def blocks(self) -> replies.Blocks:
        """The blocks in their order. The session doesn't know their texts by it."""
        return await self.ask(requests.blocks(self.number))

    async def since(self, version: int) -> replies.Since:
        """What all sessions did behind a version."""
        return await self.ask(requests.since(self.number, version))

    async def save(self) -> replies.Saved:
        """The saved text of the document and its journal."""
        return await self.ask(requests.save(self.number))

    async def tally(self, first: int, end: int) -> replies.Tally:
        """What the blocks at the places from `first` to `end`, which isn't counted, come to."""
        return await self.ask(requests.tally(self.number, first, end))


class AsyncConversation(AsyncSession):
    """A `Conversation` for asyncio.

    >>> async def answered():
    ...     async with await AsyncConversation.open(";!knitout-2\\n;;Carriers: 1\\nin 1\\n") as served:
    ...         rule = (await served.put(0, ["in 1", "in 1"])).brief.rule
    ...         saved = (await served.save()).text
    ...     async with await AsyncConversation.open_saved(saved) as served:
    ...         return rule, served.opened.version
    >>> asyncio.run(answered())
    ('CarrierIsIn', 1)
    """

    def __init__(self, pipes: AsyncPipes, opened: replies.Opened) -> None:
        super().__init__(pipes, 0)
        self.opened = opened

    @classmethod
    async def open(
        cls, text: Text, limits: Limits | None = None, *, block_lines: int = 64, program: str | None = None
    ) -> AsyncConversation:
        """A conversation over a text, as by `Conversation.open`."""
        words = requests.options(limits or Limits(), block_lines)
        return await cls.begun(requests.opening(as_bytes(text)), program, words)

    @classmethod
    async def open_saved(cls, saved: Text, *, program: str | None = None) -> AsyncConversation:
        """A conversation that goes on from a saved text, as by `Conversation.open_saved`."""
        return await cls.begun(requests.opening_by(as_bytes(saved)), program, requests.options())

    @classmethod
    async def begun(cls, opening: bytes, program: str | None, words: Sequence[str]) -> AsyncConversation:
        """A conversation with a new process, which is begun so."""
        command = [find_program(program), *words]
        pipe = asyncio.subprocess.PIPE
        try:
            child = await asyncio.create_subprocess_exec(*command, stdin=pipe, stdout=pipe, limit=MOST_REPLY_BYTES)
        except OSError as trouble:
            raise SetupFault(f"{command[0]}: {trouble.strerror}") from trouble
        pipes = AsyncPipes(child)
        opened = await opened_by(pipes, opening)
        pipes.ends = asyncio.create_task(pipes.hear())
        return cls(pipes, opened)

    def session(self, number: int) -> AsyncSession:
        """Session `number`, 0 to 63. It is there from the start, and the same whenever it is asked for."""
        return AsyncSession(self.pipes, number)

    async def close(self) -> replies.VerdictTold | None:
        """Ends the conversation: the verdict on what stands at its end, or None where it was closed or gone before."""
        line = await self.pipes.close()
        said: Any = json.loads(line) if line else {}
        return replies.VerdictTold.of(said) if said.get("reply") == "final" else None

    async def __aenter__(self) -> AsyncConversation:
        return self

    async def __aexit__(self, *fault: object) -> None:
        await self.close()


async def opened_by(pipes: AsyncPipes, data: bytes) -> replies.Opened:
    """What a conversation begins with, or why there is none."""
    pipes.writer.write(data)
    try:
        await pipes.writer.drain()
    except OSError:
        # (who refuses a text may not hear it to its end)
        pass
    line = await pipes.reader.readline()
    if line.startswith(b"{"):
        return replies.Opened.of(json.loads(line))
    status = await pipes.child.wait()
    pipes.writer.close()
    if status == Status.USAGE:
        raise SetupFault("this check_main has no conversations, or refuses an option")
    words = line.decode(errors="replace").strip()
    raise OpeningRefused(status if status >= 0 else Status.SIGNAL - status, words)
