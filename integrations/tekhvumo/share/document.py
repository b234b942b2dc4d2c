"""The document that a bridge shares: a conversation, and the saved text of it on the disk."""
from __future__ import annotations

import json
import os
import secrets
from collections import deque
from typing import Any

from ..lines import MOST_BYTES, Source
from ..program import Limits, SetupFault
from ..serve import Conversation, OpeningRefused, ProcessGone, requests
from ..serve.requests import Request
from .journal import Journal, entry_of, file_lines, file_text, keep_aside, read, write
from .messages import PROTOCOL, Message, digest_of, edits_of

# A saved text that is longer is left behind for a new one, if what was done is also longer than what it began with.
LONG_JOURNAL = 2 << 20
# The longest that check_main goes on from: the line that begins a conversation counts, too, and so does the number of entries.
MOST_JOURNAL = MOST_BYTES - 64
# So many texts that were saved last are remembered.
MOST_SAVED = 64


class Document:
    """A file's text, as several editors change it; `FILE.journal` tells what they did.

    Whoever begins again goes on from the journal. One that has grown long, or was made for another machine, is kept as
    `FILE.journal.1`, or the next number, and a new one begins with the text at its end: there versions and ids begin
    anew. `epoch` tells one conversation from another.
    """

    def __init__(self, path: str, program: str, limits: Limits, block_lines: int = 64) -> None:
        self.path = os.path.realpath(path)
        self.journal_path = f"{self.path}.journal"
        self.program = program
        self.limits = limits
        self.block_lines = block_lines
        # What editors say that they gave the file: texts that may lack what others did meanwhile, and have nothing else.
        self.saved: deque[str] = deque(maxlen=MOST_SAVED)
        self.begin()

    # ------------------------------------------------------------ beginning

    def begin(self, more: int = 0) -> None:
        """Opens a conversation: by the journal, or by one that has room for so many bytes more, or by the file's text."""
        data = read(self.journal_path)
        if data is None:
            with open(self.path, "rb") as file:
                text = file.read(MOST_BYTES + 1)
            self.open(Conversation.open(text, self.limits, block_lines=self.block_lines, program=self.program))
            self.journal = Journal.of(self.served.save().text.encode())
            self.keep()
            return
        self.go_on(data)
        self.write_file()
        profile = b"%d %d %d %d %d" % (*self.limits[:4], self.limits.float or 0)
        if self.is_long(more) or self.journal.profile != profile:
            self.served.close()
            self.go_on(self.journal.anew(profile, self.block_lines).data())
            keep_aside(self.journal_path)
            self.keep()

    def go_on(self, data: bytes) -> None:
        """Opens a conversation that goes on from a journal."""
        if not data.endswith(b"\n"):
            raise SetupFault(f"{self.journal_path}: it is no saved text: its last line isn't whole")
        try:
            self.open(Conversation.open_saved(data, program=self.program))
        except OpeningRefused as refused:
            raise SetupFault(f"{self.journal_path}: it is no saved text to go on from: {refused}") from refused
        self.journal = Journal.of(data)

    def open(self, served: Conversation) -> None:
        """Takes a conversation that was opened."""
        self.served = served
        self.epoch = secrets.token_hex(8)
        self.version = served.opened.version

    # ------------------------------------------------------------ asking

    def ask(self, request: Request[Any]) -> dict[str, Any]:
        """The reply to a request as check_main wrote it, without what tells whose it is."""
        try:
            reply: dict[str, Any] = json.loads(self.served.pipes.ask(request.data))
        except ValueError as trouble:
            raise ProcessGone(self.served.pipes.end()) from trouble
        for key in ("session", "number"):
            reply.pop(key, None)
        return reply

    def edit(self, request: Request[Any], message: Message) -> dict[str, Any]:
        """The reply to an edit; if it is accepted, the journal has it from now on, though not yet on the disk."""
        reply = self.ask(request)
        if reply["reply"] in ("accepted", "group"):
            entries = self.since(self.version)["entries"]
            for entry, it in zip(entries, edits_of(message), strict=True):
                self.journal.add(entry_of(entry, it["lines"] if entry["edit"] in ("put", "add") else ()))
            self.version = reply["version"]
        return reply

    def hello(self, session: int) -> dict[str, Any]:
        """All of the document, which the session then knows."""
        names = self.ask(requests.look_head(session))
        places = self.ask(requests.blocks(session))["blocks"]
        shown = [self.ask(requests.look(session, it["block"])) for it in places]
        return {
            "reply": "hello",
            "protocol": PROTOCOL,
            "session": session,
            "epoch": self.epoch,
            "version": self.version,
            "head": [names["lines"][0] if it.startswith(b";;Carriers:") else it.decode() for it in self.journal.head],
            "head_stamp": names["stamp"],
            "blocks": [{key: it[key] for key in ("block", "stamp", "lines")} for it in shown],
        }

    def since(self, version: int) -> dict[str, Any]:
        """What was done behind a version, as it is told to each editor."""
        reply = self.ask(requests.since(0, version))
        return {**reply, "reply": "pushed"}

    # ------------------------------------------------------------ keeping

    def keep(self) -> None:
        """Writes the journal. (To be told all of it for each edit would take long: so it grows here.)"""
        write(self.journal_path, self.journal.data())

    def has_room(self, more: int) -> bool:
        """Whether check_main will go on from the journal with so many bytes more."""
        return self.journal.size + more <= MOST_JOURNAL

    def is_long(self, more: int = 0) -> bool:
        """Whether the journal is long by what was done, or has no room for so many bytes more: it is time for a new one."""
        usual = max(LONG_JOURNAL, 2 * len(self.journal.front))
        return bool(self.journal.entries) and (self.journal.size > usual or not self.has_room(more))

    def write_file(self) -> None:
        """Gives the file the text at the journal's end, unless it has one that is neither of the journal nor saved by an editor."""
        lines, data = self.journal.lines(), read(self.path)
        if data is not None:
            found = file_lines(data)
            if found == lines:
                return
            if digest_of(found) not in self.saved and not any(found == list(version) for version in self.journal.versions()):
                raise SetupFault(
                    f"{self.path} has none of the texts that {self.journal_path} tells: it was changed while nobody shared it."
                    " Move one of them away"
                )
        write(self.path, file_text(lines, Source(self.path, data or b"").line_end.encode()))

    def close(self) -> None:
        """Ends the conversation; the file gets the text as it stands, once the journal is on the disk."""
        self.served.close()
        self.keep()
        self.write_file()
