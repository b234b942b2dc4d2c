"""A document that is open in an editor as one of several have it: the editor's side of a bridge (`tekhvumo share`).

Three texts are told apart: the editor's, the shared one, and what the editor was last known to have, from which both
came. The editor may refuse an edit because its user has typed meanwhile, and some editors don't say so: so what an
editor has is told by its changes alone.
"""
from __future__ import annotations

import os
import select
import threading
from typing import Any, Callable, Sequence

from ..share import HouseFull, Shared, ShareError
from ..share.merge import changes, merged
from .document import Document, place_range
from .text import units_of

# For so many seconds one waits for a bridge that is gone, before the editor goes on by itself.
PATIENCE = 0.3


class NotJoined(Exception):
    """Why a document isn't shared, or is no longer."""


def socket_of(document: Document) -> str:
    """Where the bridge of a document listens, if it has one: the file's own name may be a link to another."""
    for path in (document.path, os.path.realpath(document.path)):
        if os.path.exists(f"{path}.socket"):
            return f"{path}.socket"
    return ""


def lines_of(pieces: Sequence[str]) -> list[str]:
    """The lines of a text that was parted at line feeds: behind the last feed there is none."""
    lines = [it.removesuffix("\r") for it in pieces]
    return lines[:-1] if lines and not lines[-1] else lines


def edits(pieces: Sequence[str], lines: Sequence[str]) -> list[dict[str, Any]]:
    """The edits that give an editor's text these lines; all count by the text as it is."""
    wanted = [*lines, ""]
    found = []
    for first, end, new, _ in changes(pieces, wanted):
        if end < len(pieces):
            place = place_range(first, 0, end, 0)
            text = "".join(f"{line}\n" for line in new)
        else:
            # (the last piece has no line feed: what is put behind it, or goes with it, takes the one before along)
            last = len(pieces) - 1
            before = max(0, first - 1)
            place = place_range(before, units_of(pieces[before], len(pieces[before])), last, units_of(pieces[last], len(pieces[last])))
            text = "".join(f"\n{line}" for line in new)
        found.append({"range": place, "newText": text})
    return found


class Joined:
    """A document of an editor that is joined to a bridge. All but `watch` is done by the server's thread."""

    def __init__(self, document: Document, path: str, wake: Callable[[Joined], None]) -> None:
        self.document = document
        self.wake = wake
        self.heard = threading.Event()
        try:
            self.shared = Shared.connect(path, PATIENCE)
        except HouseFull as trouble:
            raise NotJoined(str(trouble)) from trouble
        self.conflicts = 0
        # Whether the editor or others have done something that isn't brought together yet.
        self.is_due = False
        # Whether the editor has saved a text that the bridge doesn't know of yet.
        self.is_saved = False
        # What the editor was last known to have, and the lines that it was asked to take, as long as it isn't known whether it did.
        self.base = lines_of(document.text.lines)
        self.asked: list[str] | None = None
        self.check_text()
        threading.Thread(target=self.watch, daemon=True).start()

    def check_text(self) -> None:
        """Leaves where the editor's text is neither the shared one nor the file's: nobody knows what was changed from what."""
        if any(it.endswith("\r") for it in self.document.text.lines):
            self.refuse("its lines end in carriage returns")
        if self.base != self.shared.lines and not self.is_in_file():
            self.refuse("the text here is neither the shared one nor the file's: save it elsewhere, and open the file again")

    def is_in_file(self) -> bool:
        """Whether the file has the text that the editor is known to have."""
        try:
            with open(self.document.path, encoding="utf-8", errors="surrogateescape", newline="") as file:
                return lines_of(file.read().split("\n")) == self.base
        except OSError:
            return False

    def refuse(self, why: str) -> None:
        """Leaves the document, and says why."""
        self.close()
        raise NotJoined(why)

    def close(self) -> None:
        """Leaves the bridge; the editor's text stays as it is."""
        self.shared.close()
        self.heard.set()

    def watch(self) -> None:
        """Wakes the server whenever others have done something, and waits until it has heard that."""
        while not self.shared.is_closed:
            try:
                select.select([self.shared], [], [])
            except (OSError, ValueError):
                # (the connection was closed, or is another now)
                pass
            if not self.shared.is_closed:
                self.wake(self)
                self.heard.wait()
                self.heard.clear()

    # ------------------------------------------------------------ the texts

    def changed(self, texts: Sequence[Sequence[str]]) -> None:
        """Takes what the editor's text became, change by change: if it was what was asked, what follows was made of that."""
        if self.asked is not None and not texts:
            # (Neovim tells of no change at times: what was asked is still to come)
            return
        if self.asked is not None and any(lines_of(it) == self.asked for it in texts):
            self.base = self.asked
        self.asked = None
        self.is_due = True

    def tell(self) -> None:
        """Makes the editor's changes in the shared text, and hears those of others."""
        self.is_due = False
        mine, theirs = lines_of(self.document.text.lines), self.shared.lines
        if mine != self.base:
            self.bring_in(mine, theirs)
        self.hear()

    def bring_in(self, mine: list[str], theirs: list[str]) -> None:
        """Makes the editor's changes in the shared text."""
        together = merged(self.base, mine, theirs, (self.shared.name, "the others"))
        self.conflicts += together.conflicts
        head = len(self.shared.head)
        if together.lines[:head] != self.shared.head:
            self.refuse("the head of a shared text stays as it is, and it was changed here")
        for first, end, lines, _ in changes(theirs[head:], together.lines[head:], head):
            self.shared.edit(first, end, lines)
        self.base = mine

    def hear(self) -> None:
        """Tells and hears others."""
        try:
            self.shared.sync()
            # (some editors save a text before they tell of the keys that led to it)
            if self.is_saved and self.is_in_file():
                self.is_saved = False
                self.shared.saved(self.base)
        except ShareError as trouble:
            self.refuse(str(trouble))
        finally:
            self.heard.set()

    def new_conflicts(self) -> int:
        """How many conflicts have come since this was last asked."""
        count = self.conflicts + self.shared.conflicts
        self.conflicts = -self.shared.conflicts
        return count

    def edit(self) -> dict[str, Any] | None:
        """What the editor is to be asked for, if anything: one question at a time."""
        wanted = self.shared.lines
        if self.asked is not None or wanted == self.base:
            return None
        self.asked = wanted
        told = {"uri": self.document.uri, "version": self.document.version}
        found = edits(self.document.text.lines, wanted)
        return {"label": "shared", "edit": {"documentChanges": [{"textDocument": told, "edits": found}]}}
