"""Tests of the command `serve` on conversations that go on from a saved text: which texts are taken, judged by a reader that is kept here
and by `replay`; what is said behind them, judged by a document that is kept here; and openings worked out by hand.

`python3 -m unittest discover tests` runs them, on the check_main that TEKHVUMO_PROGRAM names or that is found.
"""
from __future__ import annotations

import random
import unittest

from conversation_lines import SAVED_LINE_LIMIT, fault_of, lines_of, orders_by_line
from conversation_model import Model
from conversation_objects import json_line, object_of
from conversations import conversed, put, replies_in, resumed
from program import Answer, answer_of
from random_conversations import some_conversation
from saved_texts import SAVED, Document, document_of
from test_random_conversations import PARTS, WORDS, due, word_of
from test_saved import EACH_KIND, mangled
from test_saved import due as due_of_replay

USUAL_LIMITS = b"-1024 1023 8 16 0"
LIMITS = [USUAL_LIMITS, b"-4096 0 8 16 0", b"2 2 0 1 1", b"0 2 64 64 8192"]
# What `serve` is told and doesn't look at: the limits and the blocks are those of the saved text.
OPTIONS = ("--high=1", "--hold=1", "--block=1")
OPENED = b"opened version 2 blocks 1 sound lines 1 made 0 held 0 rack 0"
MOST_BYTES = 16_777_216


def place_of(brief: bytes, document: Document) -> bytes:
    """The line that tells where a document is broken, if it is."""
    words = brief.split()
    if words[0] != b"broken":
        return b""
    line = int(words[2]) - len(document.head)
    for block in document.blocks:
        if line <= len(block.lines):
            return b"broken block %d line %d\n" % (block.id, line)
        line -= len(block.lines)
    raise AssertionError(brief)


def whole_of(lines: list[bytes]) -> bytes:
    return b"".join(line + b"\n" for line in lines)


def due_to(saved: bytes) -> Answer:
    """What is owed to a conversation that is nothing but an opening by this text."""
    lines = lines_of(saved)
    for number, line in enumerate(lines, 2):
        if fault := fault_of(line, SAVED_LINE_LIMIT):
            return Answer(3, f"bad input: line {number} {fault}\n".encode())
    status, told = due_of_replay(whole_of(lines))
    if status:
        return Answer(status, told)
    document = document_of(whole_of(lines))
    brief = told.split(b"\n")[1]
    place = place_of(brief, document)
    opened = b"opened version %d blocks %d %b\n%b\n" % (document.version, len(document.blocks), brief, place)
    return Answer(0, opened + told + place + b"\n")


class Mangled(unittest.TestCase):
    def judge(self, saved: bytes) -> int:
        """What is owed is said, and `replay` owes the same. Hands out the status."""
        answer = due_to(saved)
        self.assertEqual(conversed(resumed(saved), *OPTIONS), answer)
        if not answer.report.startswith(b"bad input: line "):
            whole = whole_of(lines_of(saved))
            self.assertEqual(tuple(answer_of("replay", given=whole)), due_of_replay(whole))
        return answer.status

    def test_random_texts(self) -> None:
        """Of each conversation the text that it leaves, as it stands and with a line lost, doubled, changed or cut off."""
        statuses = []
        for seed in range(25):
            choice = random.Random(seed)
            model = Model()
            due(some_conversation(6_000 + seed, PARTS), model)
            saved = model.saved().encode().replace(USUAL_LIMITS, choice.choice(LIMITS))
            for given in [saved, *choice.sample(mangled(saved), 12)]:
                with self.subTest(seed=seed, given=given):
                    statuses.append(self.judge(given))
        self.assertTrue(25 < statuses.count(0) < statuses.count(3), statuses)


class Cut(unittest.TestCase):
    """A conversation is cut off at some line, and another goes on with its other lines from what was saved."""

    def judge(self, given: bytes, model: Model) -> set[str]:
        replies = due(given, model)
        as_text = "".join(f"{reply}\n" for reply in replies)
        self.assertEqual(conversed(given, *OPTIONS), (0, as_text.encode()))
        as_json = "".join(json_line(object_of(reply)) for reply in replies)
        self.assertEqual(conversed(given, *OPTIONS, "--json"), (0, as_json.encode()))
        return set(map(word_of, replies))

    def test_random_conversations(self) -> None:
        found: set[str] = set()
        for seed in range(40):
            given = some_conversation(9_000 + seed, 2 * PARTS)
            begin, _ = orders_by_line(given)
            lines = given.split(b"\n")
            first, second = sorted(random.Random(seed).sample(range(begin, len(lines)), 2))
            model = Model()
            due(whole_of(lines[:first]), model)
            for part in (lines[first:second], lines[second:]):
                saved = model.saved().encode()
                model = Model(model)
                with self.subTest(seed=seed, cuts=(first, second)):
                    found |= self.judge(resumed(saved) + whole_of(part), model)
        self.assertEqual(found, set(WORDS))


# What is asked behind the entries of each kind, of which session 0 has made three and session 3 another three, and what is said.
BEHIND_EACH_KIND = [
    (put(0, []), "session 0 1 stale version 7 block head seen 0 now 6"),
    (b"put head lines 1\n|;;Carriers: A\n", "session 0 2 stale version 7 block head seen 0 now 6"),
    (b"cut 1\n", "session 0 3 stale version 7 block 1 seen 0 now 1"),
    (b"cut 2\n", "session 0 4 unseen 2"),
    (b"look @1\n", "badinput line 31 NoOwn"),
    (b"undo\nsession 3 undo\n", "session 0 5 noundo\n\nsession 3 1 noundo"),
    (b"look head\n", "session 0 6 shown version 7 block head stamp 6 first 1 lines 1\n|;;Carriers:"),
    (b"add 0 lines 1\n|out A\n", "session 0 7 accepted version 8 block 4 broken line 5 rule NoCarrier at 1\nbroken block 0 line 1"),
    (b"look @1\n", "session 0 8 shown version 8 block 4 stamp 8 first 6 lines 1\n|out A"),
    (b"look 2\n", "session 0 9 gone version 8 block 2 at 7"),
    (b"look 2 at 2\n", "session 0 10 text version 8 block 2 stamp 2 lines 1\n|out A"),
    (b"look 1 at 0\n", "session 0 11 text version 8 block 1 stamp 0 lines 2\n|knit + f1 A\n|; a comment é"),
    (b"since 6\n", "session 0 12 since version 8 from 6 entries 2\n7 session 3 cut 2 seen 5\n8 session 0 add 0 block 4 lines 1"),
    (b"undo\n", "session 0 13 accepted version 9 block 4 broken line 5 rule NoCarrier at 1\nbroken block 0 line 1"),
]
OPENED_EACH_KIND = "opened version 7 blocks 3 broken line 5 rule NoCarrier at 1\nbroken block 0 line 1\n\n"
FINAL_EACH_KIND = "final version 9\nbroken line 5 rule NoCarrier at 1\n> in A\nbroken block 0 line 1\n\n"


class Rows(unittest.TestCase):
    def is_refused(self, given: bytes, words: str, status: int = 3) -> None:
        for options in [(), ("--json",)]:
            with self.subTest(given=given[:60], words=words):
                self.assertEqual(conversed(given, *options), (status, f"{words}\n".encode()))

    def is_opened(self, given: bytes, opened: bytes = OPENED) -> None:
        with self.subTest(given=given[:60]):
            self.assertEqual(replies_in(conversed(given).report)[0], opened)

    def test_behind_entries_of_each_kind(self) -> None:
        said = "".join(f"{reply}\n\n" for _, reply in BEHIND_EACH_KIND)
        given = resumed(EACH_KIND) + b"".join(asked for asked, _ in BEHIND_EACH_KIND)
        self.assertEqual(conversed(given), (0, f"{OPENED_EACH_KIND}{said}{FINAL_EACH_KIND}".encode()))

    def test_what_is_opened_as_json(self) -> None:
        brief = b'"brief":{"at":1,"line":5,"rule":"NoCarrier","verdict":"broken"},"broken":{"block":0,"line":1}'
        opened = b'{"blocks":3,' + brief + b',"reply":"opened","version":7}'
        self.assertEqual(conversed(resumed(EACH_KIND), "--json").report.split(b"\n")[0], opened)

    def test_first_lines(self) -> None:
        for line in [b"serve 1 journal 16", b" serve\t1  journal 0000000016 \t"]:
            self.is_opened(line + b"\n" + SAVED)
        for words in [b"1 journal", b"1 journal x", b"1 journal 4294967296", b"1 journal 00000000016", b"2 journal 16", b"1 journal 16 0"]:
            self.is_refused(b"serve " + words + b"\n" + SAVED, "bad input: script line 1 NoServe")
        self.is_refused(b"serve 1 journal 0\nverdict\n", "bad input: journal line 1 BadLine")

    def test_another_number_of_lines(self) -> None:
        self.is_refused(b"serve 1 journal 15\n" + SAVED, "bad input: journal line 16 BadLine")
        for count in [b"17", b"4294967295"]:
            self.is_refused(b"serve 1 journal " + count + b"\n" + SAVED, "bad input: script line 18 BadLine")
        self.is_refused(b"serve 1 journal 17\n" + SAVED + b"verdict\n", "bad input: journal line 17 BadLine")
        self.is_opened(resumed(SAVED)[:-1])

    def test_no_line_is_skipped(self) -> None:
        for line in [b"", b"# a remark", b" entries 2"]:
            self.is_refused(resumed(SAVED.replace(b"entries 2\n", line + b"\nentries 2\n")), "bad input: journal line 10 BadLine")

    def test_carriage_returns(self) -> None:
        """One at the end of a line is no part of it, as elsewhere in a conversation: to say such a line of a text, it needs another one."""
        self.is_opened(resumed(SAVED)[:-1] + b"\r\n")
        broken = b"opened version 2 blocks 1 broken line 3 rule NoCarrier at 1\nbroken block 0 line 1"
        self.is_opened(resumed(SAVED)[:-1] + b"\r\r\n", broken)

    def test_lines_that_cannot_be_read(self) -> None:
        self.is_refused(resumed(SAVED[:-1] + b"\xff\n"), "bad input: line 17 NotUtf8")
        self.is_refused(resumed(SAVED.replace(b"entries", b"\xff" * 8_193 + b"\n", 1)), "bad input: line 11 LineLong")

    def test_how_long_a_line_may_be(self) -> None:
        text = SAVED[:-1] + b" ;"
        self.is_opened(resumed(text.ljust(len(SAVED) - len(b"|in 1\n") + 4_097, b"x") + b"\n"))
        for bytes_more in [4_098, 8_192]:
            given = text.ljust(len(SAVED) - len(b"|in 1\n") + bytes_more, b"x") + b"\n"
            self.is_refused(resumed(given), "bad input: journal line 16 BadLine")
        self.is_refused(resumed(SAVED[:-1].ljust(len(SAVED) - len(b"|in 1\n") + 8_193) + b"\n"), "bad input: line 17 LineLong")
        names = b"session 0 put head seen 0 carriers ".ljust(8_192, b"x")
        given = SAVED[: SAVED.index(b"entries")] + b"entries 1\n"
        broken = b"opened version 1 blocks 1 broken line 3 rule NoCarrier at 1\nbroken block 0 line 1"
        self.is_opened(resumed(given + names + b"\n"), broken)
        self.is_refused(resumed(given + names + b"x\n"), "bad input: line 12 LineLong")

    def test_sixteen_megabytes(self) -> None:
        """All bytes count, those of the first line with them."""
        front = b"serve 1 journal 4106\n" + SAVED[: SAVED.index(b"head")] + b"head 4097\n|;!knitout-2\n|;;Carriers: 1\n"
        end = b"blocks 1\nblock 1\n|in 1\nentries 1\nsession 0 put 0 seen 0 lines 1\n|in 1\n"
        room = MOST_BYTES - len(front) - len(end)
        comments = b"".join((b"|;".ljust(room // 4_095 + (at < room % 4_095) - 1) + b"\n") for at in range(4_095))
        given = front + comments + end
        self.assertEqual(len(given), MOST_BYTES)
        self.is_opened(given, OPENED.replace(b"version 2", b"version 1"))
        self.is_refused(given.replace(b"|in 1", b"|in  1", 1), "too large: bytes", 7)


if __name__ == "__main__":
    unittest.main()
