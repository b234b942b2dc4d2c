"""An editor that speaks the language server protocol, with a text of its own that it keeps as UTF-16."""
from __future__ import annotations

import json
import queue
import subprocess
import sys
import threading
from typing import Any, Mapping

from .case import HERE, MOST_SECONDS


class Closed(Exception):
    """The server says no more."""


class Editor:
    """A server in a process of its own, and what it has said."""

    def __init__(self, environment: Mapping[str, str], folder: str, *words: str) -> None:
        command = [sys.executable, "-S", str(HERE / "tekhvumo.py"), "lsp", *words]
        pipe = subprocess.PIPE
        self.child = subprocess.Popen(command, stdin=pipe, stdout=pipe, stderr=pipe, cwd=folder, env=dict(environment))
        self.heard: queue.Queue[dict[str, Any] | None] = queue.Queue()
        self.errors: list[bytes] = []
        self.threads = [threading.Thread(target=work, daemon=True) for work in (self.listen, self.listen_to_errors)]
        for thread in self.threads:
            thread.start()
        self.told: list[dict[str, Any]] = []
        self.numbers = 0
        self.texts: dict[str, bytes] = {}
        self.versions: dict[str, int] = {}

    def listen(self) -> None:
        """Reads what the server says: each message framed by its length."""
        stream = self.child.stdout
        while line := stream.readline():
            name, _, length = line.partition(b": ")
            assert (name, stream.readline()) == (b"Content-Length", b"\r\n"), line
            self.heard.put(json.loads(stream.read(int(length))))
        self.heard.put(None)

    def listen_to_errors(self) -> None:
        for line in self.child.stderr:
            self.errors.append(line)

    # ------------------------------------------------------------ messages

    def write(self, data: bytes) -> None:
        self.child.stdin.write(data)
        self.child.stdin.flush()

    def send(self, **message: Any) -> None:
        data = json.dumps({"jsonrpc": "2.0", **message}).encode()
        self.write(b"Content-Length: %d\r\n\r\n%b" % (len(data), data))

    def notify(self, method: str, **params: Any) -> None:
        self.send(method=method, params=params)

    def ask(self, method: str, **params: Any) -> int:
        """Asks without waiting; the request's number."""
        self.numbers += 1
        self.send(id=self.numbers, method=method, params=params)
        return self.numbers

    def message(self) -> dict[str, Any]:
        """The next message."""
        message = self.heard.get(timeout=MOST_SECONDS)
        if message is None:
            raise Closed
        if "method" in message:
            self.told.append(message)
        return message

    def reply(self, number: Any) -> dict[str, Any]:
        """The reply to a request."""
        while "method" in (message := self.message()) or message["id"] != number:
            assert "method" in message, message
        return message

    def result(self, method: str, **params: Any) -> Any:
        """The result of a request."""
        reply = self.reply(self.ask(method, **params))
        assert "result" in reply, reply
        return reply["result"]

    def fault(self, method: str, **params: Any) -> int:
        """The code of a request's fault."""
        return int(self.reply(self.ask(method, **params))["error"]["code"])

    # ------------------------------------------------------------ a session

    def start(self, **params: Any) -> dict[str, Any]:
        answer: dict[str, Any] = self.result("initialize", processId=None, rootUri=None, capabilities={}, **params)
        self.notify("initialized")
        return answer

    def stop(self) -> int:
        """Ends the server, if it goes on, and gives its status."""
        if self.child.poll() is None:
            try:
                number = self.ask("shutdown")
                while self.message().get("id") != number:
                    pass
                self.notify("exit")
            except (Closed, OSError):
                pass
        status = self.child.wait(timeout=MOST_SECONDS)
        for thread in self.threads:
            # (a stream that is read can't be closed)
            thread.join(MOST_SECONDS)
        for stream in (self.child.stdin, self.child.stdout, self.child.stderr):
            stream.close()
        return status

    def open(self, uri: str, text: str) -> None:
        self.texts[uri], self.versions[uri] = text.encode("utf-16-le"), 1
        self.told.clear()
        self.notify("textDocument/didOpen", textDocument={"uri": uri, "languageId": "knitout", "version": 1, "text": text})

    def text(self, uri: str) -> str:
        return self.texts[uri].decode("utf-16-le")

    def place(self, uri: str, position: Mapping[str, int]) -> int:
        """Where a position lies among the bytes of the text; one behind the end of its line lies at that end."""
        data, feed = self.texts[uri], "\n".encode("utf-16-le")
        begin = 0
        for _ in range(position["line"]):
            begin = self.sign(data, feed, begin) + 2
            if begin > len(data):
                return len(data)
        end = self.sign(data, feed, begin)
        if end < len(data) and end > begin and data[end - 2 : end] == "\r".encode("utf-16-le"):
            end -= 2
        return min(end, begin + 2 * position["character"])

    @staticmethod
    def sign(data: bytes, sign: bytes, begin: int) -> int:
        """Where a sign of two bytes stands next, or the end."""
        while (found := data.find(sign, begin)) >= 0 and found % 2:
            begin = found + 1
        return len(data) if found < 0 else found

    def replace(self, uri: str, changes: list[dict[str, Any]]) -> None:
        """Carries out edits in its own text."""
        for change in changes:
            begin, end = (self.place(uri, change["range"][it]) for it in ("start", "end"))
            new = change.get("text", change.get("newText")).encode("utf-16-le")
            self.texts[uri] = self.texts[uri][:begin] + new + self.texts[uri][end:]

    def change(self, uri: str, *changes: tuple[tuple[int, int], tuple[int, int], str]) -> int:
        """Edits the text, and tells the server; the version."""
        told = []
        for begin, end, text in changes:
            ends = {"start": {"line": begin[0], "character": begin[1]}, "end": {"line": end[0], "character": end[1]}}
            told.append({"range": ends, "text": text})
        self.replace(uri, told)
        self.versions[uri] += 1
        version = self.versions[uri]
        self.notify("textDocument/didChange", textDocument={"uri": uri, "version": version}, contentChanges=told)
        return version

    def diagnostics(self, uri: str, version: int, count: int = 1) -> list[dict[str, Any]]:
        """What is told of a version: first the verdict, then all mistakes, then the warnings as well."""
        while True:
            told = [it["params"] for it in self.told if it["method"] == "textDocument/publishDiagnostics"]
            of_version = [it for it in told if it["uri"] == uri and it.get("version") == version]
            if len(of_version) >= count:
                return list(of_version[count - 1]["diagnostics"])
            self.message()

    def settled(self, uri: str) -> list[dict[str, Any]]:
        """All that is found in the text as it is."""
        return self.diagnostics(uri, self.versions[uri], 3)
