"""The language server, as an editor speaks with it."""
from __future__ import annotations

import json
import os
import unittest
from pathlib import Path
from typing import Any

from tekhvumo import findings
from tekhvumo.lsp.text import Text

from .case import BROKEN, HEAD, MOST_SECONDS, SOUND, TOP, Case, body
from .editor import Editor

PARSE, INVALID, NO_METHOD, PARAMS, EARLY = -32700, -32600, -32601, -32602, -32002
CANCELLED, MODIFIED = -32800, -32801
DOCUMENT = "textDocument/"


def at(line: int, units: int = 0) -> dict[str, int]:
    """A position; the line counts from 1, as findings count."""
    return {"line": line - 1, "character": units}


def whole_range(first: int, last: int) -> dict[str, Any]:
    """The range from the beginning of one line to that of another."""
    return {"start": at(first), "end": at(last)}


class WithServer(Case):
    def setUp(self) -> None:
        super().setUp()
        self.editor = Editor({**self.environment, "TEKHVUMO_PROGRAM": os.path.abspath(self.program)}, str(self.room))
        self.addCleanup(self.editor.stop)
        self.uri = (self.room / "scarf.k").as_uri()

    def opened(self, text: str) -> dict[str, Any]:
        """A document with a text, as requests name it."""
        self.editor.start()
        self.editor.open(self.uri, text)
        return {"textDocument": {"uri": self.uri}}

    def codes(self, told: list[dict[str, Any]]) -> list[tuple[int, str]]:
        return [(it["range"]["start"]["line"] + 1, it["code"]) for it in told]


class Diagnostics(WithServer):
    def test_the_verdict_comes_first_then_the_cures_then_the_warnings(self) -> None:
        self.opened(body("in 1; tuck + f1 1; tuck + f30 1; in 1"))
        first, mistakes, all_found = (self.editor.diagnostics(self.uri, 1, count) for count in (1, 2, 3))
        self.assertEqual(self.codes(first), [(6, "CarrierIsIn")])
        self.assertTrue(mistakes[0]["message"].startswith("carrier 1 is in already; "))
        self.assertEqual(self.codes(all_found), [(5, "LongFloat"), (6, "CarrierIsIn")])
        self.assertEqual([it["severity"] for it in all_found], [2, 1])
        self.assertEqual(first[0]["range"], {"start": at(6, 3), "end": at(6, 4)})

    def test_they_are_what_the_command_finds(self) -> None:
        self.editor.start()
        for path in sorted((TOP / "examples").glob("*.k")):
            text = path.read_text()
            uri = path.as_uri()
            self.editor.open(uri, text)
            told = [(it["range"]["start"], it["code"], it["message"]) for it in self.editor.settled(uri)]
            found = findings(text, name=str(path))
            self.assertEqual(told, [(at(it.line, it.column - 1), it.rule, it.message) for it in found])

    def test_what_was_found_moves_along_with_its_line(self) -> None:
        self.opened(body("in 1; tuck + f1 1; tuck + f30 1; in 1; rack 0.3"))
        self.editor.settled(self.uri)
        version = self.editor.change(self.uri, ((3, 0), (3, 0), "pause\n"))
        told = self.editor.diagnostics(self.uri, version)
        self.assertEqual(self.codes(told), [(6, "LongFloat"), (7, "CarrierIsIn"), (8, "RackStep")])
        version = self.editor.change(self.uri, ((6, 0), (7, 0), ""))
        self.assertEqual(self.codes(self.editor.diagnostics(self.uri, version)), [(6, "LongFloat"), (7, "RackStep")])
        version = self.editor.change(self.uri, ((6, 0), (7, 0), ""))
        self.assertEqual(self.codes(self.editor.diagnostics(self.uri, version)), [(6, "LongFloat")])

    def test_heads(self) -> None:
        self.opened("")
        steps = (
            ((0, 0), (0, 0), ";!knitout-2\n", [(1, "NoCarriers")]),
            ((1, 0), (1, 0), ";;Carriers: 1 1\n", [(2, "CarrierNameTwice")]),
            ((1, 14), (1, 15), "2", []),
            ((2, 0), (2, 0), "in 3\nin 1\n", [(3, "NoCarrier")]),
            ((1, 15), (1, 15), " 3", []),
            ((2, 0), (2, 0), ";;Carriers: 1\n", [(3, "TwoCarriers")]),
            ((2, 0), (3, 0), "; a remark\n\n\t\n", []),
            ((1, 11), (1, 13), "", [(7, "NoCarrier")]),
            ((5, 0), (6, 0), "", [(6, "NoCarrier")]),
            ((0, 0), (0, 1), "", [(1, "BadMagic")]),
            ((0, 0), (0, 0), ";", [(6, "NoCarrier")]),
            ((5, 0), (6, 0), "", []),
        )
        self.assertEqual(self.codes(self.editor.diagnostics(self.uri, 1)), [(1, "BadMagic")])
        for begin, end, text, wanted in steps:
            version = self.editor.change(self.uri, (begin, end, text))
            told = [it for it in self.editor.diagnostics(self.uri, version) if it["severity"] == 1]
            self.assertEqual(self.codes(told), wanted, self.editor.text(self.uri))

    def test_lines_that_are_too_long(self) -> None:
        self.opened(SOUND)
        for length, wanted in ((4095, []), (4096, []), (4097, [(6, "LineLong")]), (4094, [])):
            lines = self.editor.text(self.uri).split("\n")
            changed = ((5, 0), (5, len(lines[5])), ";" + "x" * (length - 1))
            version = self.editor.change(self.uri, changed)
            told = [it for it in self.editor.diagnostics(self.uri, version) if it["severity"] == 1]
            self.assertEqual(self.codes(told), wanted)
        version = self.editor.change(self.uri, ((5, 0), (5, 0), "in 1\nin 1\n"))
        told = [it for it in self.editor.diagnostics(self.uri, version) if it["severity"] == 1]
        self.assertEqual(self.codes(told), [(7, "CarrierIsIn")])

    def test_settings_hold_and_are_read_again_when_a_file_is_saved(self) -> None:
        settings = self.write(".tekhvumo.toml", 'high = 0\nignore = ["CarrierLeftIn"]\n')
        self.opened(body("in 1; tuck + f1 1"))
        self.assertEqual(self.codes(self.editor.diagnostics(self.uri, 1)), [(4, "OffBed")])
        settings.write_text("high = 5\n")
        self.editor.notify(f"{DOCUMENT}didSave", textDocument={"uri": self.uri})
        while (told := self.editor.message()["params"]).get("diagnostics") is None or told["diagnostics"]:
            pass
        while self.codes(self.editor.message()["params"]["diagnostics"]) != [(3, "CarrierLeftIn")]:
            pass
        settings.write_text("hig = 5\n")
        self.editor.notify(f"{DOCUMENT}didSave", textDocument={"uri": self.uri})
        while self.editor.message().get("method") != "window/showMessage":
            pass
        self.assertIn("hig is no setting", self.editor.told[-1]["params"]["message"])

    def test_a_document_that_is_not_saved(self) -> None:
        self.write("work/.tekhvumo.toml", "high = 0\n")
        self.editor.result("initialize", rootUri=(self.room / "work").as_uri(), capabilities={})
        self.editor.notify("initialized")
        self.editor.open("untitled:Untitled-1", BROKEN)
        self.assertEqual(self.codes(self.editor.settled("untitled:Untitled-1")), [(4, "CarrierIsIn")])
        self.editor.open("untitled:Untitled-2", SOUND)
        self.assertEqual(self.codes(self.editor.settled("untitled:Untitled-2")), [(4, "OffBed")])
        uri = (self.room / "work" / "not yet there.k").as_uri()
        self.editor.open(uri, SOUND)
        self.assertEqual(self.codes(self.editor.settled(uri)), [(4, "OffBed")])

    def test_a_document_that_is_closed_is_forgotten(self) -> None:
        named = self.opened(BROKEN)
        self.editor.settled(self.uri)
        self.editor.notify(f"{DOCUMENT}didClose", **named)
        self.assertEqual(self.editor.fault(f"{DOCUMENT}hover", **named, position=at(3)), PARAMS)
        self.assertEqual(self.editor.told[-1]["params"], {"uri": self.uri, "diagnostics": []})
        self.editor.open(self.uri, SOUND)
        self.assertEqual(self.editor.settled(self.uri), [])

    def test_a_program_that_is_killed_is_begun_again(self) -> None:
        self.opened(SOUND)
        self.editor.settled(self.uri)
        children = Path(f"/proc/{self.editor.child.pid}/task/{self.editor.child.pid}/children").read_text().split()
        for child in children:
            os.kill(int(child), 9)
        version = self.editor.change(self.uri, ((3, 0), (3, 0), "in 1\n"))
        self.assertEqual(self.codes(self.editor.diagnostics(self.uri, version)), [(4, "CarrierIsIn")])
        self.assertIn("leave", self.editor.settled(self.uri)[0]["message"])


class Requests(WithServer):
    def test_hover(self) -> None:
        text = body("inhook 2; tuck + f1 2; tuck + f1 2; knit - f1 2; rack 0.25; xfer f1 b1; drop f5 ; \U0001f9f6")
        named = self.opened(text)

        def hover(line: int) -> str:
            told = self.editor.result(f"{DOCUMENT}hover", **named, position=at(line, 2))
            return told["contents"]["value"] if told else ""

        self.assertEqual(hover(2), "")
        self.assertEqual(hover(3), "rack 0; in: none; hook: none")
        through = "makes a loop on f1 - with 2, through the loops of line 4 5"
        state = "rack 0; in: 2; hook: 2\nf1 holds the loops of lines 4 5; faces b1"
        self.assertEqual(hover(6), f"{state}\n{through}")
        self.assertIn("f1 holds the loop of line 6\nb1 holds nothing", hover(8))
        self.assertEqual(hover(9), "line 8 breaks NotAligned, so nothing is known of the lines below it")
        self.editor.change(self.uri, ((6, 5), (6, 9), "0"))
        self.assertIn("f5 holds nothing; faces b5", hover(9))
        self.assertEqual(hover(99), "")

    def test_the_loops_that_a_loop_is_pulled_through(self) -> None:
        named = self.opened(body("in 1; tuck + f1 1; tuck + f1 1; knit - f1 1; knit - f2 1; in 1; knit + f1 1"))

        def parents(line: int) -> list[int]:
            told = self.editor.result(f"{DOCUMENT}definition", **named, position=at(line, 2))
            return [it["range"]["start"]["line"] + 1 for it in told]

        self.assertEqual([parents(line) for line in (1, 3, 4, 6, 7, 9, 99)], [[], [], [], [4, 5], [], [], []])
        # (the head's lines are counted as they are by now)
        self.editor.change(self.uri, ((0, 11), (0, 11), "\n; a remark\n;"), ((9, 0), (10, 0), ""))
        self.assertEqual([parents(line) for line in (8, 10)], [[6, 7], [8]])

    def test_cures(self) -> None:
        named = self.opened(body("in 1; tuck + f1 1; knit - f1 2; out 1"))
        ask = {**named, "range": whole_range(5, 5), "context": {"diagnostics": []}}
        actions = self.editor.result(f"{DOCUMENT}codeAction", **ask)
        self.assertEqual(actions[0]["title"], "write `1` for `2`")
        self.assertEqual([bool(it.get("isPreferred")) for it in actions], [True] + [False] * (len(actions) - 1))
        self.assertEqual(self.editor.result(f"{DOCUMENT}codeAction", **{**ask, "range": whole_range(3, 4)}), [])
        only = {**ask, "context": {"diagnostics": [], "only": ["source.organizeImports"]}}
        self.assertEqual(self.editor.result(f"{DOCUMENT}codeAction", **only), [])
        self.editor.change(self.uri, ((2, 0), (2, 0), "pause\n"))
        [action, *_] = self.editor.result(f"{DOCUMENT}codeAction", **{**ask, "range": whole_range(6, 6)})
        self.editor.replace(self.uri, action["edit"]["changes"][self.uri])
        self.assertEqual(self.editor.text(self.uri), body("pause; in 1; tuck + f1 1; knit - f1 1; out 1"))

    def test_the_first_cures_of_a_text_with_many_mistakes(self) -> None:
        named = self.opened(body("; ".join(["in 1", *["knti + f1 1"] * 300])))
        ask = {**named, "range": whole_range(4, 4), "context": {"diagnostics": []}}
        self.assertEqual(self.editor.result(f"{DOCUMENT}codeAction", **ask)[0]["title"], "write `knit + f1 1`")
        self.editor.change(self.uri, ((3, 0), (4, 0), ""))
        self.assertEqual(self.editor.result(f"{DOCUMENT}codeAction", **ask)[0]["title"], "write `knit + f1 1`")

    def test_each_cure_makes_the_text_that_was_tried(self) -> None:
        texts = [body("in 1; tuck + f1 1; in 1")[:-1], body("in 1; tuck + f1 1; knit - f1 2").replace("\n", "\r\n")]
        texts += ["", "in 1\n", ";!knitout-2", ";!knitout-2\nin 1", body("in 1; tuck + f1 1; knit - f1 2")[:-1]]
        self.editor.start()
        for number, text in enumerate(texts):
            uri = f"{self.uri}.{number}"
            self.editor.open(uri, text)
            found = [finding for finding in findings(text) if finding.cures]
            for finding in found:
                ask = {"textDocument": {"uri": uri}, "range": whole_range(finding.line, finding.line)}
                actions = self.editor.result(f"{DOCUMENT}codeAction", **ask, context={"diagnostics": []})
                for cure, action in zip(finding.cures, actions, strict=True):
                    self.editor.texts[uri] = text.encode("utf-16-le")
                    self.editor.replace(uri, action["edit"]["changes"][uri])
                    lines, wanted = self.editor.text(uri), text.split("\n")
                    feed = "\r" if "\r" in text else ""
                    wanted[cure.first - 1 : cure.last] = [line + feed for line in cure.lines]
                    self.assertEqual(lines.rstrip("\r\n"), "\n".join(wanted).rstrip("\r\n"), (text, cure))

    def test_the_canonical_text(self) -> None:
        named = self.opened(body("in   1; tuck + f01 1; tuck  + f2 1; out 1"))
        edits = self.editor.result(f"{DOCUMENT}formatting", **named, options={})
        self.assertEqual(edits[0]["range"], {"start": at(3), "end": at(5, 12)})
        self.editor.replace(self.uri, edits)
        self.assertEqual(self.editor.text(self.uri), body("in 1; tuck + f1 1; tuck + f2 1; out 1"))
        for text, wanted in ((SOUND, []), (SOUND[:-1], None), ("in  1\n", None), (SOUND.replace("\n", "\r\n"), [])):
            uri = f"{self.uri}.{len(text)}"
            self.editor.open(uri, text)
            edits = self.editor.result(f"{DOCUMENT}formatting", textDocument={"uri": uri}, options={})
            if text == SOUND[:-1]:
                self.editor.replace(uri, edits)
                self.assertEqual(self.editor.text(uri), SOUND)
            else:
                self.assertEqual(edits, wanted)

    def test_symbols_by_course(self) -> None:
        named = self.opened(body("in 1; tuck + f1 1; tuck + f2 1; rack 1; knit - f2 1; knit - b1 1; out 1"))
        courses = self.editor.result(f"{DOCUMENT}documentSymbol", **named)
        self.assertEqual([it["name"] for it in courses], ["course 1 + with 1", "course 2 - with 1"])
        self.assertEqual([it["detail"] for it in courses], ["f1 to f2, 2 loops", "f2 to b1, 2 loops"])
        self.assertEqual([it["range"]["start"]["line"] for it in courses], [3, 6])
        self.assertEqual(courses[0]["range"]["end"], at(5, 11))
        self.assertEqual(self.editor.result(f"{DOCUMENT}documentSymbol", **named), courses)
        self.editor.change(self.uri, ((0, 0), (9, 0), ""))
        self.assertEqual(self.editor.result(f"{DOCUMENT}documentSymbol", **named), [])


class Protocol(WithServer):
    def test_the_beginning_and_the_end(self) -> None:
        editor = self.editor
        editor.notify(f"{DOCUMENT}didOpen", textDocument={"uri": self.uri, "text": BROKEN})
        self.assertEqual(editor.fault(f"{DOCUMENT}hover"), EARLY)
        told = editor.start()
        self.assertEqual(told["serverInfo"]["name"], "tekhvumo")
        self.assertEqual(told["capabilities"]["textDocumentSync"]["change"], 2)
        self.assertEqual(editor.fault("initialize"), INVALID)
        self.assertIsNone(editor.result("shutdown"))
        self.assertEqual(editor.fault(f"{DOCUMENT}hover"), INVALID)
        editor.notify("exit")
        self.assertEqual((editor.stop(), editor.errors), (0, []))

    def test_an_end_that_was_not_announced(self) -> None:
        self.editor.start()
        self.editor.notify("exit")
        self.assertEqual(self.editor.child.wait(timeout=MOST_SECONDS), 1)

    def test_an_editor_that_is_gone(self) -> None:
        self.opened(SOUND)
        self.editor.child.stdin.close()
        self.assertEqual(self.editor.child.wait(timeout=MOST_SECONDS), 1)

    def test_what_is_unknown(self) -> None:
        self.opened(SOUND)
        self.editor.notify("workspace/didChangeConfiguration", settings={})
        self.editor.notify("$/setTrace", value="off")
        for method in ("textDocument/rename", "$/what", "", "didOpen"):
            self.assertEqual(self.editor.fault(method), NO_METHOD)
        for params in ({}, {"textDocument": {"uri": "file:///other"}}, {"textDocument": 7}):
            self.assertEqual(self.editor.fault(f"{DOCUMENT}hover", **params), PARAMS)
        self.editor.notify(f"{DOCUMENT}didChange", textDocument={"uri": "file:///other", "version": 2}, contentChanges=[])
        self.editor.notify(f"{DOCUMENT}didClose")
        self.editor.send(id="a word", method="shutdown")
        self.assertIsNone(self.editor.reply("a word")["result"])

    def test_messages_that_cannot_be_read(self) -> None:
        self.opened(SOUND)
        editor = self.editor

        def codes(data: bytes) -> list[int]:
            """The faults that bytes are answered before the next request is."""
            editor.write(data)
            number, found = editor.ask(f"{DOCUMENT}hover", textDocument={"uri": self.uri}, position=at(4)), []
            while True:
                message = editor.message()
                if message.get("id") == number:
                    self.assertIn("result", message)
                    return found
                if "error" in message:
                    self.assertIn(message["id"], (None, 7))
                    found.append(message["error"]["code"])

        def framed(data: bytes) -> bytes:
            return b"Content-Length: %d\r\n\r\n%b" % (len(data), data)

        self.assertEqual(codes(framed(b"{")), [PARSE])
        self.assertEqual(codes(framed(b"\xff")), [PARSE])
        self.assertEqual(codes(framed(b"[" * 100_000)), [PARSE])
        self.assertEqual(codes(framed(b"[]") + framed(b"7") + framed(b'{"id":7}')), [INVALID] * 3)
        self.assertEqual(codes(framed(b"[1]") + framed(b"null")), [INVALID, INVALID])
        self.assertEqual(codes(framed(b'{"id":{},"method":"shutdown"}')), [INVALID])
        self.assertEqual(codes(framed(b'{"id":99,"result":null}')), [])
        self.assertEqual(codes(b"Content-Length: many\r\n\r\n"), [PARSE])
        self.assertEqual(codes(b"Content-Type: x\r\n\r\n{}"), [PARSE])
        self.assertEqual(codes(b"Content-Type: x\r\ncontent-length: 2\r\n\r\n{}"), [INVALID])

    def test_a_request_that_is_cancelled(self) -> None:
        named = self.opened("\n".join([SOUND, *["pause"] * 5000]))
        number = self.editor.ask(f"{DOCUMENT}documentSymbol", **named)
        self.editor.notify("$/cancelRequest", id=number)
        self.assertEqual(self.editor.reply(number)["error"]["code"], CANCELLED)
        self.editor.notify("$/cancelRequest", id=number)
        self.editor.notify("$/cancelRequest", id=12345)
        self.editor.notify("$/cancelRequest")
        self.assertEqual(len(self.editor.result(f"{DOCUMENT}documentSymbol", **named)), 1)

    def test_a_request_about_a_text_that_changes_meanwhile(self) -> None:
        named = self.opened(BROKEN)
        number = self.editor.ask(f"{DOCUMENT}codeAction", **named, range=whole_range(4, 4), context={"diagnostics": []})
        self.editor.change(self.uri, ((0, 0), (0, 0), ""))
        reply = self.editor.reply(number)
        # (the cures may have been quicker)
        self.assertTrue("result" in reply or reply["error"]["code"] == MODIFIED)

    def test_a_program_that_cannot_be_run(self) -> None:
        self.editor.stop()
        path = self.write("absent", "")
        self.editor = Editor(self.environment, str(self.room), "--program", str(path))
        self.addCleanup(self.editor.stop)
        self.opened(SOUND)
        self.editor.message()
        told = self.editor.told[-1]
        self.assertEqual((told["method"], told["params"]["type"]), ("window/showMessage", 1))
        self.assertIn("absent: Permission denied", told["params"]["message"])


class Places(unittest.TestCase):
    def test_positions_beyond_the_basic_plane(self) -> None:
        text = Text("a\U0001f9f6b\r\n\U0001f9f6\U0001f9f6\n")
        text.replace({"line": 0, "character": 3}, {"line": 1, "character": 2}, "-")
        self.assertEqual(text.lines, ["a\U0001f9f6-\U0001f9f6", ""])
        for units, index in ((0, 0), (1, 1), (2, 1), (3, 2), (4, 3), (5, 3), (6, 4), (99, 4)):
            self.assertEqual(text.place({"line": 0, "character": units}), (0, index))
        self.assertEqual(text.place({"line": 7, "character": 7}), (1, 0))
        text.replace({"line": 1, "character": 0}, {"line": 1, "character": 0}, json.loads('"\\ud83e"'))
        self.assertEqual(text.lines[1], "\ufffd")

    def test_the_return_before_a_line_feed_is_behind_all_columns(self) -> None:
        text = Text("ab\r\nc\r")
        self.assertEqual(text.place({"line": 0, "character": 9}), (0, 2))
        self.assertEqual(text.place({"line": 1, "character": 9}), (1, 2))


class Unicode(WithServer):
    def test_ranges_count_in_utf_16(self) -> None:
        self.opened(HEAD + "in 1 ;\U0001f9f6\n\U0001f9f6\nin \U0001f9f6 1\n")
        version = self.editor.change(self.uri, ((2, 8), (3, 0), "\U0001f9f6 "), ((2, 11), (2, 13), "x"))
        self.assertEqual(self.editor.text(self.uri), HEAD + "in 1 ;\U0001f9f6\U0001f9f6 x\nin \U0001f9f6 1\n")
        [told] = self.editor.diagnostics(self.uri, version)
        self.assertEqual((told["code"], told["range"]), ("NoCarrier", {"start": at(4, 3), "end": at(4, 5)}))
