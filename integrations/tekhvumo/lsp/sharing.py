"""The shared ones among the documents that an editor has open."""
from __future__ import annotations

from contextlib import contextmanager
from typing import Any, Callable, Iterator

from ..share import ShareError
from .document import Document
from .endpoint import Endpoint
from .shared import Joined, NotJoined, socket_of

ERROR, WARNING, INFO = 1, 2, 3


class Sharing:
    """Joins documents to their bridges, and says what becomes of that."""

    def __init__(self, endpoint: Endpoint, wake: Callable[[Joined], None]) -> None:
        self.endpoint = endpoint
        self.wake = wake
        # Whether the editor says that it takes edits: to one that doesn't, others couldn't be shown.
        self.takes_edits = False
        self.joined: dict[str, Joined] = {}

    def join(self, document: Document) -> None:
        """Joins a document that is opened, where a bridge listens beside its file."""
        path = socket_of(document)
        if not path:
            return
        if not self.takes_edits:
            self.say(WARNING, document, "isn't shared: this editor takes no edits from a server")
            return
        try:
            joined = Joined(document, path, self.wake)
        except (NotJoined, ShareError, OSError) as trouble:
            self.say(WARNING, document, f"isn't shared: {trouble}")
            return
        self.joined[document.uri] = joined
        self.say(INFO, document, f"is shared, as session {joined.shared.session}")
        self.offer(joined)

    def leave(self, document: Document) -> None:
        """Leaves the bridge of a document, if it has one, once what was typed last is told."""
        joined = self.joined.get(document.uri)
        # (an editor may close a document in the same breath as it tells of a key)
        if joined and (not joined.is_due or self.is_told(joined)):
            self.drop(joined)

    def drop(self, joined: Joined) -> None:
        """Leaves a bridge as it is."""
        del self.joined[joined.document.uri]
        joined.close()

    @contextmanager
    def changing(self, document: Document) -> Iterator[Callable[[list[str]], None] | None]:
        """Takes the texts that a document has one after the other while it is changed."""
        joined = self.joined.get(document.uri)
        texts: list[list[str]] = []
        yield texts.append if joined and joined.asked is not None else None
        if joined:
            joined.changed(texts)

    def saved(self, uri: str) -> None:
        """A document was saved."""
        joined = self.joined.get(uri)
        if joined:
            joined.is_saved = joined.is_due = True

    def bring_together(self) -> None:
        """Tells and hears what is due: once for all that has come meanwhile, for each time costs a merge of the texts."""
        for joined in list(self.joined.values()):
            if joined.is_due and self.is_told(joined):
                self.offer(joined)

    def is_told(self, joined: Joined) -> bool:
        """Tells and hears, and says whether that went well; if not, the editor goes on by itself."""
        try:
            joined.tell()
        except Exception as trouble:
            # (whatever it is, the editor's text is whole, and its user has to know that nobody else hears of it)
            self.drop(joined)
            self.say(ERROR, joined.document, f"is no longer shared: {trouble}")
            return False
        return True

    def offer(self, joined: Joined) -> None:
        """Asks the editor to take what others have done."""
        count = joined.new_conflicts()
        if count:
            self.say(WARNING, joined.document, "was changed by others in the same lines: both sides stand between marks, `; <<<<<<<`")
        edit = joined.edit()
        if edit:
            version = joined.document.version
            self.endpoint.ask("workspace/applyEdit", edit, lambda result: self.answered(joined, version, result))

    def answered(self, joined: Joined, version: int | None, result: Any) -> None:
        """Takes an editor's answer. One that has refused for its version tells its changes, and is then asked again."""
        is_refused = not isinstance(result, dict) or result.get("applied") is False
        is_open = self.joined.get(joined.document.uri) is joined
        if is_refused and is_open and joined.document.version == version:
            joined.asked = None

    def say(self, kind: int, document: Document, what: str) -> None:
        """Shows a message of a document."""
        self.endpoint.notify("window/showMessage", {"type": kind, "message": f"tekhvumo: {document.path} {what}"})
