"""Tests of the command `serve`: conversations worked out by hand, in pieces of each size and in step, and what single lines of them say.

`python3 -m unittest discover tests` runs them, on the check_main that TEKHVUMO_PROGRAM names or that is found.
"""
from __future__ import annotations

import json
import os
import random
import unittest

from conversation_lines import orders_by_line
from conversation_samples import SAMPLES
from conversations import FINAL, OPENED, OPENING, VERDICT, Served, conversed, opening_of, put, replies_in
from program import EXAMPLES, Answer
from random_conversations import some_conversation

# Samples in which the document is opened.
OPENED_SAMPLES = {name: sample for name, sample in SAMPLES.items() if sample.status == 0}


def written_in(pieces: list[bytes], *options: str) -> Answer:
    """What is said to pieces that are written one after the other. All that is said has room in the pipe."""
    with Served(*options) as served:
        for piece in pieces:
            served.write(piece)
        return served.end()


def cut_oddly(given: bytes, seed: int) -> list[bytes]:
    choice = random.Random(seed)
    pieces = []
    while given:
        size = choice.choice([1, 2, 3, 7, 31, 127])
        pieces.append(given[:size])
        given = given[size:]
    return pieces


class Samples(unittest.TestCase):
    def test_each_is_answered(self) -> None:
        for name, (options, given, said, status) in SAMPLES.items():
            with self.subTest(sample=name):
                self.assertEqual(conversed(given.encode(), *options), (status, said.encode()))

    def test_in_pieces_of_each_size(self) -> None:
        for name, (options, given, said, status) in SAMPLES.items():
            text = given.encode()
            by_bytes = [text[at : at + 1] for at in range(len(text))]
            for pieces in [by_bytes, [text], *[cut_oddly(text, seed) for seed in range(3)]]:
                with self.subTest(sample=name, pieces=len(pieces)):
                    self.assertEqual(written_in(pieces, *options), (status, said.encode()))

    def test_with_carriage_returns(self) -> None:
        for name, (options, given, said, status) in SAMPLES.items():
            with self.subTest(sample=name):
                self.assertEqual(conversed(given.replace("\n", "\r\n").encode(), *options), (status, said.encode()))


class InStep(unittest.TestCase):
    """Each test ends with the first reply that doesn't come, since that is waited for."""

    def in_step(self, given: bytes, *options: str) -> Answer:
        """What is said where each reply is read before the next line is written. Nothing else is said before it."""
        begin, orders = orders_by_line(given)
        said = b""
        with Served(*options) as served:
            for number, line in enumerate(given.splitlines(keepends=True), 1):
                self.assertTrue(served.is_silent(), line)
                served.write(line)
                due = len(orders[number - begin - 1]) if number > begin else number == begin
                if line.endswith(b"\n"):
                    said += b"".join(served.reply() + served.stop for _ in range(due))
            status, rest = served.end()
        return Answer(status, said + rest)

    def test_samples(self) -> None:
        for name, (options, given, said, _) in OPENED_SAMPLES.items():
            self.assertEqual(self.in_step(given.encode(), *options), (0, said.encode()), name)

    def test_random_conversations(self) -> None:
        for seed in range(40):
            given = some_conversation(5_000 + seed, 20)
            options = ("--block", "3", *(("--json",) if seed % 4 == 0 else ()))
            self.assertEqual(self.in_step(given, *options), conversed(given, *options), seed)

    @unittest.skipUnless(os.access("/proc/self/io", os.R_OK), "needs counts of the system's calls")
    def test_one_read_and_one_write_an_edit(self) -> None:
        with Served() as served:
            served.ask(OPENING)
            before = served.calls()
            for edit in range(50):
                served.ask(put(0, ["in 1", *["pause"] * edit]))
            self.assertEqual(served.calls(), before + 100)

    def test_half_a_text_is_waited_for(self) -> None:
        with Served() as served:
            self.assertEqual(served.ask(OPENING) + b"\n\n", OPENED)
            served.write(b"put 0 lines 2\n|in 1\n|in")
            self.assertTrue(served.is_silent(0.2))
            self.assertRegex(served.ask(b" 2\n"), rb"\Asession 0 1 accepted version 1 block 0 sound lines 2 ")


class Behind(unittest.TestCase):
    """What is said behind one opening."""

    def says(self, given: bytes, said: bytes, final: bytes = FINAL) -> None:
        with self.subTest(given=given[:60]):
            self.assertEqual(conversed(OPENING + given), (0, OPENED + said + final))


def bad(line: int, cause: str = "BadLine") -> bytes:
    return f"badinput line {line} {cause}\n\n".encode()


def verdict(number: int = 1, session: int = 0) -> bytes:
    return b"session %d %d verdict version 0\n" % (session, number) + VERDICT + b"\n"


class Lines(Behind):
    def test_as_long_as_a_line_may_be(self) -> None:
        long_line = b"verdict".ljust(4_096)
        for end in [b"\n", b"\r\n", b""]:
            self.says(long_line + end, verdict())
            self.says(long_line + b" " + end, bad(5, "LineLong"))
            self.says(b"#".ljust(4_096) + end, b"")
            self.says(b"#".ljust(4_097) + end, bad(5, "LineLong"))

    def test_a_carriage_return_that_counts(self) -> None:
        self.says(b"verdict".ljust(4_095) + b"\r\r\n", bad(5))
        self.says(b"verdict".ljust(4_096) + b"\r\r\n", bad(5, "LineLong"))

    def test_a_text_as_long_as_it_may_be(self) -> None:
        text = ";" + "x" * 4_094
        self.assertRegex(conversed(OPENING + put(0, [text])).report, rb"accepted version 1 block 0 sound lines 1 ")
        self.says(put(0, [text + "x"]), bad(6, "LineLong"))

    def test_a_long_line_that_is_no_text(self) -> None:
        self.says(b"\xff" * 4_097 + b"\nverdict\n", bad(5, "LineLong") + verdict())
        self.says(b"\xff" * 4_096 + b"\nverdict\n", bad(5, "NotUtf8") + verdict())

    def test_a_text_line_that_cannot_be_read(self) -> None:
        self.says(b"put 0 lines 3\n|in 1\n|\xff\n|in 1\n|in 1\nverdict\n", bad(7, "NotUtf8") + verdict())
        self.says(b"|\xff\n|\xff\nverdict\n", bad(5, "NotUtf8") + verdict())

    def test_a_line_that_breaks_a_text_off(self) -> None:
        self.says(b"put 0 lines 2\n|in 1\nverdict\n|in 1\n|in 1\n", bad(7) + verdict() + bad(8))
        self.says(b"put 0 lines 2\n|in 1\nputt\n|in 1\nverdict\n", bad(7) + bad(7) + verdict())
        self.says(b"put head lines 1\nlook @1\n", bad(6) + bad(6, "NoOwn"))

    def test_a_text_of_the_wrong_number(self) -> None:
        self.says(b"add 0 lines 4294967296\n|\nadd 0 lines 00000000000\nadd 0 lines -1\n", bad(5) + bad(7) + bad(8))
        self.says(b"put 0 lines 4294967295\n|\n", bad(7))

    def test_an_add_that_is_broken_off_does_not_count(self) -> None:
        given = b"add 0 lines 1\nlook @1\nadd 0 lines 0\nlook @1\nlook @2\n"
        added = b"session 0 1 accepted version 1 block 1 sound lines 1 made 0 held 0 rack 0\n\n"
        shown = b"session 0 2 shown version 1 block 1 stamp 1 first 4 lines 0\n\n"
        self.says(given, bad(6) + bad(6, "NoOwn") + added + shown + bad(9, "NoOwn"), FINAL.replace(b"version 0", b"version 1"))

    def test_the_id_that_is_none(self) -> None:
        for line in [b"look 4294967295", b"put 4294967295 lines 0", b"add 4294967295 lines 0", b"cut 4294967295", b"look 4294967295 at 0"]:
            self.says(line + b"\n", bad(5))
        self.says(b"look 0 at 4294967295\n", b"session 0 1 notext version 0 block 0 stamp 4294967295\n\n")

    def test_blanks_between_words(self) -> None:
        self.says(b" \tsession \t 007  verdict\t\n", verdict(session=7))

    def test_a_name_comes_before_a_long_text(self) -> None:
        text = b"|\n" * 4_097
        self.says(b"session 1 put 9 lines 4097\n" + text, b"session 1 1 unseen 9\n\n")
        self.says(b"add 9 lines 4097\n" + text, b"session 0 1 blocklong lines 4097\n\n")
        self.says(b"put 0 lines 4097\n" + b"|\n" * 4_096, bad(4_102))


class Options(unittest.TestCase):
    def test_limits_of_the_machine(self) -> None:
        edit = put(0, ["in 1", "tuck + f8 1", "tuck + f8 1"])
        broken = {("--high=7",): "OffBed at 2", ("--hold", "1"): "TooManyLoops at 2"}
        for options, fault in broken.items():
            with self.subTest(options=options):
                reply = replies_in(conversed(OPENING + edit, *options).report)[1]
                line = 5 if "--hold" in options else 4
                told = f"session 0 1 accepted version 1 block 0 broken line {line} rule {fault}\nbroken block 0 line {line - 2}"
                self.assertEqual(reply, told.encode())


class Sessions(Behind):
    def test_all_sessions(self) -> None:
        given = b"".join(b"session %d verdict\n" % session * 2 for session in range(64))
        said = b"".join(verdict(number, session) for session in range(64) for number in (1, 2))
        self.says(given + b"session 64 verdict\nsession 4294967295 verdict\n", said + bad(133, "ManySessions") + bad(134, "ManySessions"))

    def test_a_line_that_says_nothing_comes_first(self) -> None:
        self.says(b"session 64 putt\nsession 64\nsession verdict\nsession 4294967296 verdict\n", b"".join(map(bad, range(5, 9))))

    def test_each_has_its_own_adds(self) -> None:
        adds = b"".join(b"session %d add start lines 0\n" % session for session in (1, 2))
        looks = b"session 2 look @1\nsession 1 look @1\nlook @1\n"
        replies = replies_in(conversed(OPENING + adds + looks).report)
        self.assertRegex(replies[3], rb"\Asession 2 2 shown version 2 block 2 stamp 2 ")
        self.assertRegex(replies[4], rb"\Asession 1 2 shown version 2 block 1 stamp 1 ")
        self.assertEqual(replies[5], b"badinput line 9 NoOwn")

    def test_questions_teach_nothing(self) -> None:
        questions = [b"blocks", b"look 0 at 1", b"since 0", b"save", b"tally 0 1"]
        given = put(0, ["in 2"]) + b"".join(b"session 1 " + question + b"\n" for question in questions) + put(0, [], 1)
        self.assertEqual(replies_in(conversed(OPENING + given).report)[-2], b"session 1 6 stale version 1 block 0 seen 0 now 1")


TWO_EDITORS = """\
opened version 0 blocks 2 sound lines 8 made 6 held 2 rack 0

session 0 1 blocks version 0 blocks 2
block 0 stamp 0 first 3 lines 4
block 1 stamp 0 first 7 lines 4

session 1 1 shown version 0 block 1 stamp 0 first 7 lines 4
|knit + f2 1
|knit - f2 1
|knit - f1 1
|out 1

session 0 2 accepted version 1 block 1 sound lines 10 made 8 held 2 rack 0

session 1 2 stale version 1 block 1 seen 0 now 1

session 1 3 since version 1 from 0 entries 1
1 session 0 put 1 seen 0 lines 6

session 1 4 shown version 1 block 1 stamp 1 first 7 lines 6
|knit + f2 1
|knit - f2 1
|knit - f1 1
|knit + f1 1
|knit + f2 1
|out 1

session 1 5 accepted version 2 block 1 broken line 12 rule Unreadable at 0
broken block 1 line 6

session 1 6 accepted version 3 block 1 sound lines 10 made 8 held 2 rack 0

session 1 7 accepted version 4 block 1 sound lines 12 made 10 held 4 rack 0

session 0 3 shown version 4 block 1 stamp 4 first 7 lines 8
|knit + f2 1
|knit - f2 1
|knit - f1 1
|knit + f1 1
|knit + f2 1
|tuck - f2 1
|tuck - f1 1
|out 1

session 0 4 accepted version 5 block head sound lines 12 made 10 held 4 rack 0

session 0 5 group version 7 from 6 sound lines 15 made 11 held 4 rack 0

session 1 8 tally 0-3 lines 15 form 11 split 0 move 0 drop 0
with 1: 9
with 2: 2
needles f1 f2

session 1 9 text version 7 block 1 stamp 1 lines 6
|knit + f2 1
|knit - f2 1
|knit - f1 1
|knit + f1 1
|knit + f2 1
|out 1

session 1 10 verdict version 7
sound lines 15 made 11 held 4 rack 0
in:
hook:
f1: 13 16
f2: 14 15

final version 7
sound lines 15 made 11 held 4 rack 0
in:
hook:
f1: 13 16
f2: 14 15

"""


class Examples(unittest.TestCase):
    def test_two_editors(self) -> None:
        answer = conversed((EXAMPLES / "two-editors.serve").read_bytes(), "--block", "4")
        self.assertEqual(answer, (0, TWO_EDITORS.encode()))



class Escapes(unittest.TestCase):
    def test_texts_and_names(self) -> None:
        """Strings are escaped as elsewhere: control bytes, quotes and backslashes, and nothing else."""
        text = '; "a\\b" \t \x01\x1f\x7f \x0c\x08 é ☃ \U0001f9f6'
        given = opening_of([";!knitout-2", ';;Carriers: "1 \\ é', "in é", text]) + b"look 0\nlook head\nverdict\n"
        lines = conversed(given, "--json").report.decode().splitlines()
        self.assertEqual(json.loads(lines[1])["lines"], ["in é", text])
        self.assertIn(r'"; \"a\\b\" \t \u0001\u001f' + "\x7f" + r" \f\b é ☃ " + "\U0001f9f6" + '"', lines[1])
        self.assertEqual(json.loads(lines[2])["lines"], [';;Carriers: "1 \\ é'])
        self.assertEqual(json.loads(lines[3])["verdict"]["in"], ["é"])


if __name__ == "__main__":
    unittest.main()
