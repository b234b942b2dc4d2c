"""Random changes: what the server tells of a text is what check_main and the command tell."""
from __future__ import annotations

import os
import random
from pathlib import Path
from typing import Any

from tekhvumo import Needle, findings
from tekhvumo.lines import runs
from tekhvumo.program import Program

from .case import PROGRAMS, Case
from .editor import Editor

SPOTS = 20
Change = tuple[tuple[int, int], tuple[int, int], str]


def units(text: str) -> int:
    """The length of a text in UTF-16."""
    return len(text.encode("utf-16-le")) // 2


class Changes(Case):
    def setUp(self) -> None:
        super().setUp()
        self.editor = Editor({**self.environment, "TEKHVUMO_PROGRAM": os.path.abspath(self.program)}, str(self.room))
        self.addCleanup(self.editor.stop)
        self.editor.start()
        self.check = Program(self.program)

    def change(self, given: random.Random, text: str, lines: list[str]) -> Change:
        """A change as one makes them: of a few signs, of lines, now and then of the head or of much."""
        here = text.split("\n")
        kind = given.random()
        first = given.randrange(len(here)) if kind < 0.9 else given.randrange(3)
        last = min(len(here) - 1, first + given.choice((0, 0, 0, 1, 1, 2, 7)))
        if kind > 0.99:
            first, last = sorted(given.choices(range(len(here)), k=2))
        signs = (given.randrange(14) if given.random() < 0.3 else 0 for _ in range(2))
        # (no editor parts a character)
        begin, end = sorted((line, units(here[line][:sign])) for line, sign in zip((first, last), signs))
        several = "".join(f"{line}\n" for line in given.choices(lines, k=given.choice((1, 1, 2, 5, 200))))
        new = given.choice(("", "", "\n", "x", " ; \U0001f9f6", "; a remark\n", "\t", "\r", several, several))
        return begin, end, new

    def wanted(self, text: str) -> tuple[int, str, int] | None:
        """The first fault as `check` tells it: its line, rule, and column in UTF-16."""
        answer = self.check.check(text.encode())
        if not answer.verdict:
            return (0, answer.refusal.split()[-1], 0)
        if "rule" not in answer.verdict:
            return None
        number, at = answer.verdict["line"], answer.verdict["at"]
        line = text.split("\n")[number - 1].removesuffix("\r")
        column = runs(line.partition(";")[0])[at].column - 1
        return number, answer.verdict["rule"], units(line[:column])

    def told(self, diagnostics: list[dict[str, Any]]) -> tuple[int, str, int] | None:
        """The first error that the server tells."""
        errors = [it for it in diagnostics if it["severity"] == 1]
        if not errors:
            return None
        start = min((it["range"]["start"]["line"], it["range"]["start"]["character"], it["code"]) for it in errors)
        return start[0] + 1, start[2], start[1]

    def assert_same(self, uri: str, version: int) -> None:
        wanted = self.wanted(self.editor.text(uri))
        told = self.told(self.editor.diagnostics(uri, version))
        if wanted and wanted[0] == 0:
            self.assertEqual(told and told[1], wanted[1])
        else:
            self.assertEqual(told, wanted)

    def test_some_thousand_changes(self) -> None:
        for name, ends, changes in (("cable", "\n", 1500), ("intarsia", "\r\n", 1500), ("stripes", "\n", 400)):
            given = random.Random(name)
            text = (PROGRAMS / "good" / f"{name}.k").read_text().replace("\n", ends)
            lines, head = text.split(ends), text.split(ends)[:8]
            uri = (self.room / f"{name}.k").as_uri()
            self.editor.open(uri, text)
            version = 1
            for number in range(1, changes + 1):
                version = self.editor.change(uri, *self.edits(given, uri, lines, head, number % 25 == 0))
                if number % (changes // SPOTS) == 0:
                    self.assert_same(uri, version)
            told = [(it["range"]["start"]["line"] + 1, it["code"], it["message"]) for it in self.editor.settled(uri)]
            found = findings(self.editor.text(uri), name=str(self.room / f"{name}.k"))
            self.assertEqual(told, [(it.line, it.rule, it.message) for it in found][:400])

    def edits(self, given: random.Random, uri: str, lines: list[str], head: list[str], is_new: bool) -> list[Change]:
        """One change or several; or all lines as they were, with a changed one among them."""
        text = self.editor.text(uri)
        if is_new:
            place = given.randrange(len(head), len(lines))
            body = [*lines[:place], given.choice(lines), *lines[place:]]
            return [((0, 0), (len(text), 0), "\n".join(body))]
        edits = [self.change(given, text, lines)]
        return edits if given.random() < 0.9 else [*edits, ((len(head), 0), (len(head), 0), "pause\n")]

    def test_typing_a_row(self) -> None:
        text = (PROGRAMS / "good" / "stockinette.k").read_text()
        uri = (self.room / "typed.k").as_uri()
        self.editor.open(uri, text)
        line = text.count("\n") // 2
        for place, sign in enumerate(f"knit + {Needle('f', 5)} 1\n"):
            version = self.editor.change(uri, ((line, place), (line, place), sign))
            self.assert_same(uri, version)
        for _ in range(13):
            version = self.editor.change(uri, ((line, 0), (line, 1), ""))
            self.assert_same(uri, version)

    def test_each_request_is_answered_once(self) -> None:
        given = random.Random(7)
        uris = [(self.room / f"{name}.k").as_uri() for name in ("lace", "tube")]
        for uri in uris:
            self.editor.open(uri, (PROGRAMS / "good" / Path(uri).name).read_text())
        methods = ("hover", "definition", "formatting", "documentSymbol", "codeAction", "rename")
        asked: list[int] = []
        for _ in range(150):
            uri = given.choice(uris)
            lines = self.editor.text(uri).split("\n")
            line = given.randrange(len(lines))
            place = {"line": line, "character": 0}
            if given.random() < 0.3:
                self.editor.change(uri, ((line, 0), (line, given.randrange(2)), given.choice(("", "x", "pause\n"))))
            if given.random() < 0.2 and asked:
                self.editor.notify("$/cancelRequest", id=given.choice(asked[-3:]))
            more = {"position": place, "range": {"start": place, "end": place}, "context": {"diagnostics": []}}
            method = f"textDocument/{given.choice(methods)}"
            asked.append(self.editor.ask(method, textDocument={"uri": uri}, **more, options={}))
        answered: dict[int, dict[str, Any]] = {}
        while len(answered) < len(asked):
            message = self.editor.message()
            if "method" not in message:
                self.assertNotIn(message["id"], answered)
                answered[message["id"]] = message
        codes = {it["error"]["code"] for it in answered.values() if "error" in it}
        self.assertLessEqual(codes, {-32601, -32800, -32801})
        self.assertEqual(self.editor.errors, [])
