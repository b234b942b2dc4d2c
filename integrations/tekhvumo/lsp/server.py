"""The language server: one thread hears, and one does all else, so that what is answered is answered in turn."""
from __future__ import annotations

import os
import queue
import threading
import time
from typing import Any, BinaryIO, NamedTuple
from urllib.parse import unquote, urlsplit

from ..settings import Wishes, read_settings
from ..version import VERSION
from . import answers
from .document import Document
from .endpoint import LATER, Endpoint, Later, Params
from .framing import Code, Fault, messages
from .sharing import Sharing
from .shared import Joined
from .work import Done, Job
from .workers import Process, Worker

CAPABILITIES = {
    "positionEncoding": "utf-16",
    "textDocumentSync": {"openClose": True, "change": 2, "save": {"includeText": False}},
    "hoverProvider": True,
    "definitionProvider": True,
    "documentFormattingProvider": True,
    "documentSymbolProvider": True,
    "codeActionProvider": {"codeActionKinds": ["quickfix"]},
}
# So long nobody types before mistakes, cures and warnings are looked for: in seconds, of a short text and of a long one.
SHORT_WAIT, LONG_WAIT, LONG_TEXT = 0.05, 0.3, 300_000


class Heard(NamedTuple):
    """A message that was heard, or the end of all messages."""

    message: Any
    is_end: bool = False


class Delivered(NamedTuple):
    """A result of a process, or its end."""

    process: Process
    done: Done | None


class Asked(NamedTuple):
    """A request whose answer is being worked out: of a document in one version."""

    number: Any
    document: Document
    kind: str


class Server:
    """The documents that are open, and what is asked of them."""

    def __init__(self, heard: BinaryIO, said: BinaryIO, program: str, wishes: Wishes) -> None:
        self.heard = heard
        self.program = program
        self.wishes = wishes
        self.folder = os.getcwd()
        self.events: queue.SimpleQueue[Heard | Delivered | Joined] = queue.SimpleQueue()
        self.documents: dict[str, Document] = {}
        self.judge = Worker(self.deliver)
        self.clerk = Worker(self.deliver)
        self.nurse = Worker(self.deliver)
        self.asked: dict[int, Asked] = {}
        self.jobs = 0
        self.status: int | None = None
        self.endpoint = Endpoint(
            said,
            {
                "initialize": self.initialize,
                "shutdown": self.shutdown,
                "exit": self.exit,
                "textDocument/didOpen": self.did_open,
                "textDocument/didChange": self.did_change,
                "textDocument/didSave": self.did_save,
                "textDocument/didClose": self.did_close,
                "textDocument/hover": self.hover,
                "textDocument/definition": self.definition,
                "textDocument/formatting": self.formatting,
                "textDocument/documentSymbol": self.symbols,
                "textDocument/codeAction": self.code_action,
            },
        )
        self.sharing = Sharing(self.endpoint, self.events.put)

    # ------------------------------------------------------------ the loop

    def run(self) -> int:
        """Answers until the other end is done, and gives the exit status."""
        threading.Thread(target=self.listen, daemon=True).start()
        try:
            while self.status is None:
                self.turn()
        finally:
            for document in self.documents.values():
                self.sharing.leave(document)
                document.verdicts.close()
            self.judge.stop()
            self.clerk.stop()
            self.nurse.stop()
        return self.status

    def listen(self) -> None:
        """Hears messages, whatever the server is about."""
        for message in messages(self.heard):
            self.endpoint.noticed(message)
            self.events.put(Heard(message))
        self.events.put(Heard(None, True))

    def deliver(self, process: Process, done: Done | None) -> None:
        """Takes a result from a process's thread."""
        self.events.put(Delivered(process, done))

    def turn(self) -> None:
        """Does the next that is to be done."""
        due = min((it.due for it in self.documents.values() if it.due is not None), default=None)
        wait = None if due is None else max(0.0, due - time.monotonic())
        try:
            event = self.events.get(timeout=wait)
        except queue.Empty:
            self.judge_due()
            return
        if isinstance(event, Delivered):
            self.taken(event)
        elif isinstance(event, Joined):
            event.is_due = True
        elif event.is_end:
            self.status = 1 if self.status is None else self.status
        else:
            self.endpoint.take(event.message)
        if self.events.empty():
            self.sharing.bring_together()

    # ------------------------------------------------------------ the beginning and the end

    def initialize(self, params: Params, number: Any) -> Any:
        """Says what this server can do."""
        root = params.get("rootUri")
        if not isinstance(root, str) and params.get("workspaceFolders"):
            root = params["workspaceFolders"][0]["uri"]
        if isinstance(root, str) and urlsplit(root).scheme == "file":
            self.folder = unquote(urlsplit(root).path)
        self.endpoint.is_initialized = True
        self.sharing.takes_edits = bool(((params.get("capabilities") or {}).get("workspace") or {}).get("applyEdit"))
        self.judge.get_ready()
        self.nurse.get_ready()
        return {"capabilities": CAPABILITIES, "serverInfo": {"name": "tekhvumo", "version": VERSION}}

    def shutdown(self, params: Params, number: Any) -> Any:
        """Gets ready for the end."""
        self.endpoint.is_shut = True
        return None

    def exit(self, params: Params, number: Any) -> Any:
        """Ends: well where that was announced."""
        self.status = 0 if self.endpoint.is_shut else 1

    # ------------------------------------------------------------ documents

    def document(self, params: Params) -> Document:
        """The document that a message is about."""
        uri = params["textDocument"]["uri"]
        if uri not in self.documents:
            raise Fault(Code.INVALID_PARAMS, f"{uri} isn't open")
        return self.documents[uri]

    def did_open(self, params: Params, number: Any) -> Any:
        """A document is opened."""
        told = params["textDocument"]
        read_settings.cache_clear()
        if told["uri"] in self.documents:
            self.close(told["uri"])
        document = Document(told["uri"], told.get("version"), told["text"], self.program, self.folder, self.wishes)
        self.documents[told["uri"]] = document
        self.changed(document)
        self.sharing.join(document)

    def did_change(self, params: Params, number: Any) -> Any:
        """A document's text has changed."""
        document = self.document(params)
        with self.sharing.changing(document) as seen:
            document.change(params["contentChanges"], params["textDocument"].get("version"), seen)
        self.changed(document)

    def changed(self, document: Document) -> None:
        """Tells the verdict on another text, and lays aside what was asked of the one before."""
        trouble = document.trouble_told
        document.judge()
        self.publish(document)
        document.trouble_told = document.verdicts.trouble
        if document.trouble_told and document.trouble_told != trouble:
            self.endpoint.notify("window/showMessage", {"type": 1, "message": f"tekhvumo: {document.trouble_told}"})
        self.leave(document, "the text has changed")
        is_long = document.text.size > LONG_TEXT
        document.due = time.monotonic() + (LONG_WAIT if is_long else SHORT_WAIT)

    def did_save(self, params: Params, number: Any) -> Any:
        """A document was saved; it may be that its settings were."""
        read_settings.cache_clear()
        self.sharing.saved(params["textDocument"]["uri"])
        for document in self.documents.values():
            if document.verdicts.settings_changed():
                self.changed(document)

    def did_close(self, params: Params, number: Any) -> Any:
        """A document is closed: nothing is told of it any more."""
        uri = self.document(params).uri
        self.close(uri)
        self.endpoint.notify("textDocument/publishDiagnostics", {"uri": uri, "diagnostics": []})

    def close(self, uri: str) -> None:
        """Lays a document aside."""
        document = self.documents.pop(uri)
        self.sharing.leave(document)
        self.leave(document, "the document was closed")
        self.judge.leave(document.job)
        document.verdicts.close()

    def leave(self, document: Document, why: str) -> None:
        """Answers what was asked of a text that isn't there any more."""
        for job, asked in list(self.asked.items()):
            if asked.document is document:
                del self.asked[job]
                self.clerk.leave(job)
                self.endpoint.fail(asked.number, Code.MODIFIED, why)
        for number, _ in document.waiting:
            self.endpoint.fail(number, Code.MODIFIED, why)
        document.waiting.clear()
        if not self.nurse.is_soon_done(document.cures_job):
            self.nurse.leave(document.cures_job)
        document.cures_job = 0

    def publish(self, document: Document) -> None:
        """Tells a document's findings."""
        self.endpoint.notify("textDocument/publishDiagnostics", document.diagnostics())

    # ------------------------------------------------------------ work of processes

    def job(self, document: Document, kind: str) -> Job:
        """A job on a document's text."""
        self.jobs += 1
        settings = document.verdicts.settings
        return Job(self.jobs, kind, self.program, document.path, document.source().data, settings)

    def judge_due(self) -> None:
        """Has the mistakes of the documents looked for whose time has come."""
        now = time.monotonic()
        for document in self.documents.values():
            if document.due is None or document.due > now:
                continue
            if self.judge.is_soon_done(document.job):
                document.due = now + SHORT_WAIT
            else:
                document.due = None
                self.judge.leave(document.job)
                job = self.job(document, "findings")
                document.job = job.number
                self.judge.add(job)

    def taken(self, event: Delivered) -> None:
        """Takes what a process has worked out."""
        done = self.judge.taken(event.process, event.done)
        if done:
            self.judged(done)
        done = self.nurse.taken(event.process, event.done)
        if done:
            self.cured(done)
        done = self.clerk.taken(event.process, event.done)
        asked = self.asked.pop(done.number, None) if done else None
        if not done or not asked:
            return
        if done.part == "fault":
            self.endpoint.fail(asked.number, Code.INTERNAL, done.value)
        else:
            asked.document.kept[asked.kind] = done.value
            self.endpoint.answer_json(asked.number, done.value)

    def judged(self, done: Done) -> None:
        """Tells the findings that were worked out, unless the text has changed meanwhile."""
        document = next((it for it in self.documents.values() if it.job == done.number), None)
        if document is None or document.due is not None:
            return
        if done.part == "fault":
            self.endpoint.notify("window/logMessage", {"type": 1, "message": f"tekhvumo: {done.value}"})
        elif done.part == "mistakes":
            document.take_mistakes(done.value)
        else:
            document.findings = done.value
        document.has_mistakes = True
        self.publish(document)
        self.answer_waiting(document)

    def cured(self, done: Done) -> None:
        """Takes the first cures, unless the text has changed meanwhile, or more is known."""
        document = next((it for it in self.documents.values() if it.cures_job == done.number), None)
        if document and not document.has_mistakes and done.part == "cures":
            document.take_mistakes(done.value)
            self.answer_waiting(document)

    def answer_waiting(self, document: Document) -> None:
        """Answers who waits for cures, as far as they are known."""
        waiting, document.waiting = document.waiting, []
        for number, params in waiting:
            found = self.code_action(params, number)
            if not isinstance(found, Later):
                self.endpoint.answer(number, found)

    def ask_clerk(self, number: Any, document: Document, kind: str) -> Later:
        """Has an answer worked out, unless it is known."""
        if kind in document.kept:
            self.endpoint.answer_json(number, document.kept[kind])
            return LATER
        job = self.job(document, kind)
        self.asked[job.number] = Asked(number, document, kind)
        self.clerk.add(job)
        return LATER

    # ------------------------------------------------------------ requests

    def hover(self, params: Params, number: Any) -> Any:
        """What holds above a line, and the loop that it makes."""
        return answers.hover(self.document(params), int(params["position"]["line"]) + 1)

    def definition(self, params: Params, number: Any) -> Any:
        """Where the loops were made that a line's loop is pulled through."""
        return answers.definition(self.document(params), int(params["position"]["line"]) + 1)

    def formatting(self, params: Params, number: Any) -> Any:
        """The canonical text."""
        return self.ask_clerk(number, self.document(params), "canonical")

    def symbols(self, params: Params, number: Any) -> Any:
        """The courses."""
        return self.ask_clerk(number, self.document(params), "courses")

    def code_action(self, params: Params, number: Any) -> Any:
        """The cures of what is found in a range, once they are worked out."""
        document = self.document(params)
        # (the cures of a text that isn't there any more are gone)
        found = answers.code_actions(document, params)
        if found or document.has_mistakes or document.told is None:
            return found
        document.waiting.append((number, params))
        document.due = document.due and 0.0
        if not document.cures_job:
            job = self.job(document, "cures")
            document.cures_job = job.number
            self.nurse.add(job)
        return LATER
