"""The bridge: a Unix socket beside a file, over which several editors change its text, each as a session of one conversation.

An accepted edit is answered, and told to the others, once the journal that has it is on the disk: what an editor has
heard isn't lost, whenever the bridge is killed.
"""
from __future__ import annotations

import asyncio
import fcntl
import os
import signal
import socket
from collections import deque
from typing import Any, Callable

from ..program import SetupFault
from ..serve import ProcessGone, Unsayable
from ..serve.requests import MOST_SESSIONS
from .document import Document
from .messages import MOST_BYTES, Message, bytes_of_edits, line_of, message_of, request_of, word

# The journal isn't written again sooner than this behind the last time, in seconds.
PAUSE = 0.05
# An editor that leaves so many bytes unread is taken for dead.
MOST_UNREAD = 64 << 20
Reader = asyncio.StreamReader
Writer = asyncio.StreamWriter


class Client:
    """An editor: its session, the version up to which it has heard of edits, and the replies that wait for the disk."""

    def __init__(self, session: int, writer: Writer) -> None:
        self.session = session
        self.writer = writer
        self.version = 0
        self.waiting: deque[tuple[int, bytes]] = deque()

    def say(self, message: Message) -> None:
        """Says something at once."""
        self.writer.write(line_of(message))
        if self.writer.transport.get_write_buffer_size() > MOST_UNREAD:
            self.writer.transport.abort()

    def answer(self, reply: Message, version: int = 0) -> None:
        """Says a reply when that version is on the disk, and what was asked before is answered."""
        if version or self.waiting:
            self.waiting.append((version, line_of(reply)))
        else:
            self.say(reply)

    def release(self, version: int) -> None:
        """Says the replies that needed no later version on the disk."""
        while self.waiting and self.waiting[0][0] <= version:
            self.writer.write(self.waiting.popleft()[1])


class Bridge:
    """The clients of a document."""

    def __init__(self, document: Document, pause: float = PAUSE) -> None:
        self.document = document
        self.pause = pause
        self.clients: dict[int, Client] = {}
        self.kept = document.version
        self.written = 0.0
        self.timer: asyncio.TimerHandle | None = None
        self.ended: asyncio.Future[None] | None = None

    async def run(self, listening: socket.socket, is_ready: Callable[[], None]) -> None:
        """Serves clients until a signal ends it."""
        loop = asyncio.get_running_loop()
        self.ended = loop.create_future()
        for number in (signal.SIGINT, signal.SIGTERM, signal.SIGHUP):
            loop.add_signal_handler(number, self.end)
        server = await asyncio.start_unix_server(self.serve, sock=listening, limit=MOST_BYTES)
        is_ready()
        try:
            await self.ended
        finally:
            server.close()
            self.safely(self.keep)
            self.leave_all()
            self.document.close()

    def end(self, trouble: BaseException | None = None) -> None:
        """Ends the bridge."""
        if self.ended and not self.ended.done():
            if trouble:
                self.ended.set_exception(trouble)
            else:
                self.ended.set_result(None)

    # ------------------------------------------------------------ clients

    async def serve(self, reader: Reader, writer: Writer) -> None:
        """Serves a client until it goes."""
        session = next((it for it in range(MOST_SESSIONS) if it not in self.clients), None)
        if session is None:
            writer.write(line_of({"reply": "housefull", "sessions": MOST_SESSIONS}))
            writer.close()
            return
        client = self.clients[session] = Client(session, writer)
        try:
            if self.safely(lambda: self.welcome(client)):
                await self.listen(client, reader)
        except (OSError, asyncio.CancelledError):
            pass
        finally:
            if self.clients.get(session) is client:
                del self.clients[session]
            writer.close()

    def welcome(self, client: Client) -> None:
        """Tells a client the whole document."""
        client.say(self.document.hello(client.session))
        client.version = self.document.version

    async def listen(self, client: Client, reader: Reader) -> None:
        """Hears what a client asks. A line that it dies over isn't whole, and asks nothing."""
        while not client.writer.is_closing():
            try:
                line = await reader.readline()
            except ValueError:
                client.say({"reply": "large", "limit": MOST_BYTES})
                return
            if not line.endswith(b"\n") or not self.safely(lambda: self.answer(client, line)):
                return
            await client.writer.drain()
            # (who asks much at a time leaves others their turn)
            await asyncio.sleep(0)

    def answer(self, client: Client, line: bytes) -> None:
        """Answers what a client asks."""
        try:
            message = message_of(line)
            if message.get("ask") == "saved":
                self.document.saved.append(word(message, "digest"))
                client.answer({"reply": "saved"})
                return
            request = request_of(client.session, message)
        except Unsayable as trouble:
            client.answer({"reply": "unsayable", "why": str(trouble)})
            return
        size = bytes_of_edits(message, line)
        if not self.has_room(size):
            client.answer({"reply": "large", "limit": MOST_BYTES})
            return
        if self.clients.get(client.session) is not client:
            return
        if not size:
            client.answer(self.document.ask(request))
            return
        reply = self.document.edit(request, message)
        is_accepted = reply["reply"] in ("accepted", "group")
        client.answer(reply, reply["version"] if is_accepted else 0)
        if is_accepted:
            self.keep_soon()

    def has_room(self, size: int) -> bool:
        """Whether the journal has room for an edit of so many bytes; it may be begun anew to have it."""
        if size and not self.document.has_room(size):
            self.keep(size)
        return not size or self.document.has_room(size)

    def leave_all(self) -> None:
        """Leaves all clients: who connects again hears the whole document."""
        for client in self.clients.values():
            client.writer.close()
        self.clients.clear()

    # ------------------------------------------------------------ the disk

    def keep_soon(self) -> None:
        """Writes the journal, at once or when the pause since it was last written is over."""
        if self.timer is None:
            loop = asyncio.get_running_loop()
            self.timer = loop.call_at(max(loop.time(), self.written + self.pause), self.safely, self.keep)

    def keep(self, more: int = 0) -> None:
        """Writes the journal, and says what has waited for it. A journal without room for so many bytes more is begun anew."""
        if self.timer is not None:
            self.timer.cancel()
            self.timer = None
        if self.kept < self.document.version:
            self.document.keep()
            self.written = asyncio.get_running_loop().time()
            self.kept = self.document.version
        self.push()
        for client in self.clients.values():
            client.release(self.kept)
        if self.document.is_long(more):
            self.begin_anew(more)

    def push(self) -> None:
        """Tells each client what was done since it last heard, before it hears that its own edit is accepted."""
        told: dict[int, dict[str, Any]] = {}
        for client in list(self.clients.values()):
            if client.version < self.kept:
                if client.version not in told:
                    told[client.version] = self.document.since(client.version)
                client.say(told[client.version])
                client.version = self.kept

    def begin_anew(self, more: int = 0) -> None:
        """Begins another conversation with what is on the disk; clients have to connect again."""
        self.leave_all()
        self.document.served.close()
        self.document.begin(more)
        self.kept = self.document.version

    def safely(self, work: Callable[[], None]) -> bool:
        """Does a piece of work; where check_main is gone, all goes on from the journal. Whether clients are still there."""
        try:
            try:
                work()
                return True
            except ProcessGone:
                self.begin_anew()
        except (OSError, SetupFault, ProcessGone) as trouble:
            self.end(trouble)
        return False


# ---------------------------------------------------------------- the socket


def listening_socket(path: str) -> socket.socket:
    """A socket at a path; SetupFault where another bridge has it."""
    folder = os.open(os.path.dirname(path) or ".", os.O_RDONLY)
    try:
        # (what a killed bridge left is taken away, and two that begin at once don't take each other's)
        fcntl.flock(folder, fcntl.LOCK_EX)
        if is_served(path):
            raise SetupFault(f"{path}: this file is shared already")
        if os.path.exists(path):
            os.unlink(path)
        listening = socket.socket(socket.AF_UNIX)
        try:
            listening.bind(path)
        except OSError as trouble:
            listening.close()
            raise SetupFault(f"{path}: {trouble.strerror or trouble}; --socket names another place") from trouble
        listening.listen(MOST_SESSIONS)
        return listening
    finally:
        os.close(folder)


def is_served(path: str) -> bool:
    """Whether somebody listens at a path."""
    with socket.socket(socket.AF_UNIX) as asking:
        try:
            asking.connect(path)
            return True
        except OSError:
            return False


def share(document: Callable[[], Document], path: str, pause: float = PAUSE) -> None:
    """Shares a document over a socket at a path until a signal ends it."""
    listening = listening_socket(path)
    try:
        bridge = Bridge(document(), pause)
        asyncio.run(bridge.run(listening, lambda: print(f"shared at {path}", flush=True)))
    finally:
        listening.close()
        os.unlink(path)
