"""Editors that speak the language server protocol, on one shared file."""
from __future__ import annotations

import random
import signal
import time
from typing import Any

from tekhvumo.share import Shared

from .bridges import Bridge, WithBridge
from .case import HEAD, MOST_SECONDS
from .editor import Editor

TEXT = HEAD + "in 1\n" + "".join(f"tuck + f{number} 1\n" for number in range(1, 201))
FIRST = 5


class Partner(Editor):
    """An editor that takes edits of others as the protocol says: those of the version that it has."""

    uri = ""

    def message(self) -> dict[str, Any]:
        message = super().message()
        if message.get("method") == "workspace/applyEdit":
            self.take(message)
        return message

    def take(self, message: dict[str, Any]) -> None:
        [change] = message["params"]["edit"]["documentChanges"]
        is_taken = change["textDocument"]["version"] == self.versions[self.uri]
        if is_taken:
            # (all count by the text as it was: from the last to the first none moves another)
            ranges = [(*(tuple(it["range"][end].values()) for end in ("start", "end")), it["newText"]) for it in change["edits"]]
            self.change(self.uri, *sorted(ranges, reverse=True))
        self.send(id=message["id"], result={"applied": is_taken})

    def hear(self) -> None:
        """Takes what has come."""
        while not self.heard.empty():
            self.message()

    def is_asked(self) -> bool:
        """Whether an edit has come that wasn't looked at yet."""
        return any(it and it.get("method") == "workspace/applyEdit" for it in list(self.heard.queue))

    def says(self) -> list[str]:
        return [it["params"]["message"] for it in self.told if it["method"] == "window/showMessage"]


class SharedEditors(WithBridge):
    def partner(self, bridge: Bridge, text: str = TEXT) -> Partner:
        editor = Partner(self.environment, str(self.room))
        self.addCleanup(editor.stop)
        editor.result("initialize", processId=None, rootUri=None, capabilities={"workspace": {"applyEdit": True}})
        editor.notify("initialized")
        editor.uri = f"file://{bridge.path}"
        editor.open(editor.uri, text)
        self.until(lambda: editor.says(), editor)
        return editor

    def until(self, holds: Any, *editors: Partner) -> None:
        """Lets editors hear until something holds."""
        end = time.monotonic() + MOST_SECONDS
        while not holds():
            self.assertLess(time.monotonic(), end, [it.errors for it in editors])
            for it in editors:
                it.hear()
            time.sleep(0.002)

    def agree(self, *editors: Partner) -> str:
        """Waits until editors have one text, and gives it."""
        self.until(lambda: len({it.text(it.uri) for it in editors}) == 1, *editors)
        return editors[0].text(editors[0].uri)

    def has(self, watcher: Shared, *lines: str) -> bool:
        """Whether lines have come to somebody who watches."""
        watcher.wait()
        return set(lines) <= set(watcher.lines)

    def put(self, editor: Partner, line: int, text: str) -> None:
        """Puts a line into an editor's text."""
        editor.change(editor.uri, ((line, 0), (line, 0), f"{text}\n"))

    def test_others_see_an_edit(self) -> None:
        bridge = self.share(TEXT)
        anna, ben = self.partner(bridge), self.partner(bridge)
        self.put(anna, FIRST, "; \U0001f9f6 of anna")
        self.until(lambda: "of anna" in ben.text(ben.uri), anna, ben)
        ben.change(ben.uri, ((FIRST, 4), (FIRST, 4), " \U0001f9f6 ben and"))
        self.until(lambda: "ben and" in anna.text(anna.uri), anna, ben)
        self.assertEqual(anna.text(anna.uri), ben.text(ben.uri))
        self.assertEqual(self.kept(bridge), anna.text(anna.uri))

    def test_both_change_one_line(self) -> None:
        bridge = self.share(TEXT)
        anna, ben = self.partner(bridge), self.partner(bridge)
        anna.change(anna.uri, ((FIRST, 0), (FIRST + 1, 0), "; anna\n"))
        ben.change(ben.uri, ((FIRST, 0), (FIRST + 1, 0), "; ben\n"))
        self.until(lambda: all("; >>>>>>>" in it.text(it.uri) for it in (anna, ben)), anna, ben)
        self.assertTrue(any("same lines" in it for it in [*anna.says(), *ben.says()]))
        self.assertEqual(self.agree(anna, ben), self.kept(bridge))

    def test_an_edit_is_refused_for_its_version(self) -> None:
        bridge = self.share(TEXT)
        anna, ben = self.partner(bridge), self.partner(bridge)
        self.put(anna, FIRST, "; anna")
        # (ben types before he looks at what has come)
        self.until(ben.is_asked, anna)
        self.put(ben, FIRST + 100, "; ben")
        self.until(lambda: all("; anna\n" in it.text(it.uri) and "; ben\n" in it.text(it.uri) for it in (anna, ben)), anna, ben)
        self.assertEqual(self.agree(anna, ben), self.kept(bridge))

    def test_the_bridge_goes(self) -> None:
        bridge = self.share(TEXT)
        anna = self.partner(bridge)
        bridge.stop(signal.SIGKILL)
        self.until(lambda: any("no longer shared" in it for it in anna.says()), anna)
        self.put(anna, FIRST, "knit + f1 9")
        self.assertTrue(anna.settled(anna.uri))
        anna.change(anna.uri, ((FIRST, 0), (FIRST + 1, 0), ""))
        ben = self.partner(self.share())
        anna.notify("textDocument/didClose", textDocument={"uri": anna.uri})
        anna.open(anna.uri, TEXT)
        self.put(ben, FIRST, "; ben")
        self.until(lambda: "; ben" in anna.text(anna.uri), anna, ben)

    def test_a_document_is_closed_right_behind_a_key(self) -> None:
        bridge = self.share(TEXT)
        anna, ben = self.partner(bridge), self.partner(bridge)
        for number in range(5):
            self.put(anna, FIRST, f"; key {number}")
        anna.notify("textDocument/didClose", textDocument={"uri": anna.uri})
        self.until(lambda: "; key 4" in ben.text(ben.uri), ben)
        self.assertEqual(self.kept(bridge), ben.text(ben.uri))

    def test_a_text_is_saved_that_lacks_what_others_did(self) -> None:
        bridge = self.share(TEXT)
        anna, ben, watcher = self.partner(bridge), self.partner(bridge), self.client(bridge)
        self.put(ben, FIRST + 100, "; ben")
        self.until(anna.is_asked, ben)
        anna.take = lambda message: None
        self.put(anna, FIRST, "; anna")
        self.until(lambda: self.has(watcher, "; anna", "; ben"), ben)
        bridge.path.write_text(anna.text(anna.uri))
        anna.notify("textDocument/didSave", textDocument={"uri": anna.uri})
        anna.stop()
        self.assertEqual(bridge.stop(), (0, ""))
        self.assertEqual(bridge.path.read_text(), watcher.text)

    def test_another_text_is_not_joined(self) -> None:
        bridge = self.share(TEXT)
        anna = self.partner(bridge, TEXT + "; of nobody\n")
        self.assertTrue(any("isn't shared" in it for it in anna.says()))
        self.assertEqual(self.kept(bridge), TEXT)

    def test_who_opens_the_file_gets_the_shared_text(self) -> None:
        bridge = self.share(TEXT)
        watcher = self.client(bridge)
        watcher.edit(FIRST, FIRST, ["; not in the file yet"])
        watcher.sync()
        anna = self.partner(bridge)
        self.until(lambda: anna.text(anna.uri) == watcher.text, anna)
        self.put(anna, FIRST + 3, "; anna")
        self.until(lambda: self.has(watcher, "; anna"), anna)
        self.assertEqual(self.kept(bridge), anna.text(anna.uri))

    def test_the_head_stays(self) -> None:
        bridge = self.share(TEXT)
        anna = self.partner(bridge)
        anna.change(anna.uri, ((1, 0), (1, 0), ";;Width: 3\n"))
        self.until(lambda: any("no longer shared" in it for it in anna.says()), anna)
        self.assertEqual(self.kept(bridge), TEXT)

    def test_many_edits(self) -> None:
        bridge = self.share(TEXT)
        editors = [self.partner(bridge), self.partner(bridge)]
        given = random.Random(1)
        for number in range(1200):
            editor = editors[number % 2]
            if given.random() < 0.7:
                editor.hear()
            count = editor.text(editor.uri).count("\n")
            line = given.randrange(FIRST, count)
            end = line + (given.random() < 0.4)
            editor.change(editor.uri, ((line, 0), (end, 0), f"; edit {number} \U0001f9f6\n"))
            time.sleep(given.random() * 0.01)
        watcher = self.client(bridge)

        def agree() -> bool:
            watcher.wait()
            return {it.text(it.uri) for it in editors} == {watcher.text}

        self.until(agree, *editors)
        self.assertEqual(self.kept(bridge), watcher.text)
