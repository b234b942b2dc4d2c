"""Tests of how a conversation ends: each status, an input and an output that are closed, a client that dies, a line without an end, and
want of memory.

`python3 -m unittest discover tests` runs them, on the check_main that TEKHVUMO_PROGRAM names or that is found.
"""
from __future__ import annotations

import os
import random
import resource
import signal
import subprocess
import tempfile
import unittest
from collections.abc import Callable

from conversations import FINAL, OPENED, OPENING, PATIENCE, VERDICT, Gone, Served, barred, conversed, opening_of, put, replies_in
from program import Answer, Status, answer_of, find_program
from test_live import made_program

USAGE = b"usage: check_main check|text|passes|live|make N START [options]\n"
MOST_BYTES = 16_777_216
HEAD = [";!knitout-2", ";;Carriers: 1"]
VERDICT_REPLY = b"session 0 1 verdict version 0\n" + VERDICT + b"\n"


def ended(**given) -> Answer:
    """How a conversation ends that isn't written by a pipe of ours, and what it says."""
    ran = subprocess.run([find_program(), "serve"], stdout=subprocess.PIPE, check=False, timeout=PATIENCE, **given)
    return Answer(ran.returncode, ran.stdout)


class Statuses(unittest.TestCase):
    def test_0_the_input_ended_behind_the_opening(self) -> None:
        self.assertEqual(conversed(OPENING), (0, OPENED + FINAL))
        self.assertEqual(conversed(OPENING[:-1]), (0, OPENED + FINAL))
        self.assertEqual(conversed(OPENING + b"put 0 lines 0\n|" * 3).status, 0)

    def test_0_also_of_a_broken_document(self) -> None:
        status, said = conversed(OPENING + put(0, ["in 9"]))
        final = b"final version 1\nbroken line 3 rule NoCarrier at 1\n> in 9\nbroken block 0 line 1"
        self.assertEqual((status, replies_in(said)[-1]), (0, final))

    def test_2_words_outside_the_grammar(self) -> None:
        flags = [["--loops"], ["--json=1"], ["--json", "--json"]]
        for words in [*flags, ["extra"], ["0", "1"], ["--block=0"], ["--block=4097"], ["--low=2", "--high=1"]]:
            self.assertEqual(conversed(OPENING, *words), (2, USAGE), words)

    def test_3_an_opening_that_is_refused(self) -> None:
        for given, cause in REFUSED.items():
            for options in [(), ("--json",)]:
                with self.subTest(given=given[:60], options=options):
                    self.assertEqual(conversed(given, *options), (3, b"bad input: " + cause + b"\n"))

    def test_3_is_told_before_the_input_ends(self) -> None:
        for given in [b"live 1\n", b"serve 1 lines 2\n|;!knitout-2\nverdict\n", b"serve 1 lines 1\n|;!knitout-3\n"]:
            with self.subTest(given=given), Served() as served:
                served.write(given)
                self.assertRegex(served.read(), rb"\Abad input: .*\n\Z")
                self.assertEqual(served.child.wait(PATIENCE), 3)

    def test_4_an_input_that_cannot_be_read(self) -> None:
        folder = os.open("/", os.O_RDONLY)
        try:
            self.assertEqual(ended(stdin=folder), (4, b"read fault\n"))
        finally:
            os.close(folder)

    def test_4_an_input_that_is_closed(self) -> None:
        ran = subprocess.run(["sh", "-c", 'exec "$0" serve <&-', find_program()], stdout=subprocess.PIPE, check=False)
        self.assertEqual((ran.returncode, ran.stdout), (4, b"read fault\n"))

    def test_4_comes_behind_what_was_due(self) -> None:
        """An input that would block, where it is set not to, is a failed read."""
        for begun in [b"", b"put 0 lines 2\n|in 1\n", b"verd"]:
            taker, giver = os.pipe()
            os.set_blocking(taker, False)
            os.write(giver, OPENING + b"verdict\n" + begun)
            try:
                with self.subTest(begun=begun):
                    self.assertEqual(ended(stdin=taker), (4, OPENED + VERDICT_REPLY + b"read fault\n"))
            finally:
                os.close(taker)
                os.close(giver)

    def test_5_nobody_reads(self) -> None:
        """The status is the same with the signal at its default and without it."""
        for is_default in (True, False):
            with self.subTest(is_default=is_default), Served(restore_signals=is_default) as served:
                served.ask(OPENING)
                served.output.close()
                served.write(b"verdict\n")
                self.assertEqual(served.child.wait(PATIENCE), 5)

    def test_5_nobody_ever_read(self) -> None:
        with Served(preexec_fn=lambda: signal.signal(signal.SIGPIPE, signal.SIG_DFL)) as served:
            served.output.close()
            served.write(OPENING)
            self.assertEqual(served.child.wait(PATIENCE), 5)

    def test_5_an_output_that_is_closed(self) -> None:
        ran = subprocess.run(["sh", "-c", 'exec "$0" serve >&-', find_program()], input=OPENING, check=False)
        self.assertEqual(ran.returncode, 5)

    @unittest.skipUnless(os.path.exists("/dev/full"), "needs a device that is always full")
    def test_5_a_full_disk(self) -> None:
        with open("/dev/full", "wb") as full:
            ran = subprocess.run([find_program(), "serve"], input=OPENING, stdout=full, check=False)
        self.assertEqual(ran.returncode, 5)

    def test_5_leaves_a_front(self) -> None:
        given = OPENING + b"verdict\n" * 100
        due = conversed(given).report
        for most in [1, len(OPENED) - 1, len(OPENED) + 7, 2_000]:
            limit = lambda most=most: resource.setrlimit(resource.RLIMIT_FSIZE, (most, most))
            with tempfile.TemporaryFile() as file:
                words = [find_program(), "serve"]
                ran = subprocess.run(words, input=given, stdout=file, check=False, restore_signals=False, preexec_fn=limit)
                file.seek(0)
                with self.subTest(most=most):
                    self.assertEqual((ran.returncode, file.read()), (5, due[:most]))

    def test_7_too_many_lines(self) -> None:
        lines = [*HEAD, "in 1", *["pause"] * 1_048_575]
        self.assertTrue(conversed(opening_of(lines)).report.startswith(b"opened version 0 blocks 16384 sound lines 1048576 "))
        self.assertEqual(conversed(opening_of([*lines, ""])), (7, b"too large: lines\n"))

    def test_7_too_many_blocks(self) -> None:
        lines = [*HEAD, "in 1", *["pause"] * 65_535]
        self.assertEqual(conversed(opening_of([*lines, ""]), "--block", "1"), (7, b"too large: blocks\n"))
        opened, full, _ = conversed(opening_of(lines) + b"add start lines 0\n", "--block", "1", "--json").report.splitlines()
        self.assertTrue(opened.startswith(b'{"blocks":65536,"brief":{"held":0,"lines":65536,'))
        self.assertEqual(full, b'{"limit":65536,"number":1,"reply":"full","session":0,"version":0,"which":"blocks"}')

    def test_7_too_many_bytes(self) -> None:
        """The lines of the opening alone are counted, each with a line feed. A line that can't be read is told before they are."""
        texts = [*HEAD, "in 1", *["x" * 4_095] * 4_094]
        last = "x" * (MOST_BYTES - len(opening_of([*texts, ""])))
        opening = opening_of([*texts, last])
        self.assertEqual(len(opening), MOST_BYTES)
        for good in [opening + b"# more\n" * 1_000, opening[:-1], opening.replace(b"\n", b"\r\n")]:
            self.assertRegex(conversed(good).report, rb"\Aopened version 0 blocks 64 broken line 4 ")
        longer = opening_of([*texts, last + "x"])
        for large in [longer, longer[:-1], opening.replace(b"\n", b"\n\n", 1)]:
            self.assertEqual(conversed(large), (7, b"too large: bytes\n"))
        self.assertEqual(conversed(opening[:-1] + b"xx\xff\n"), (3, b"bad input: line 4099 NotUtf8\n"))


REFUSED = {
    b"": b"script line 1 NoServe",
    b"\n" + OPENING: b"script line 1 NoServe",
    b"# a remark\n" + OPENING: b"script line 1 NoServe",
    b"live 1\n": b"script line 1 NoServe",
    b"serve 1\n": b"script line 1 NoServe",
    b"serve 2 lines 3\n": b"script line 1 NoServe",
    b"serve 1 lines 3 4\n": b"script line 1 NoServe",
    b"serve 1 lines x\n": b"script line 1 NoServe",
    b"serve 1 lines 4294967296\n": b"script line 1 NoServe",
    b"serve 1 lines 2": b"script line 2 BadLine",
    b"serve 1 lines 2\n|;!knitout-2\n": b"script line 3 BadLine",
    b"serve 1 lines 2\n|;!knitout-2\n\n# a remark\n": b"script line 5 BadLine",
    b"serve 1 lines 2\n|;!knitout-2\nverdict\n|;;Carriers: 1\n": b"script line 3 BadLine",
    b"serve 1 lines 4294967295\n" + barred(HEAD): b"script line 4 BadLine",
    b"serve 1 lines 0\n": b"head BadMagic",
    b"serve 1 lines 1\n|;!knitout-2\n|;;Carriers: 1\n": b"head NoCarriers",
    b"serve 1 lines 2\n# first\n|;!knitout-2\n|;;Carriers: 1 1\n": b"head line 2 CarrierNameTwice",
    b"\xff\n": b"line 1 NotUtf8",
    b"serve 1 lines 1".ljust(4_097) + b"\n": b"line 1 LineLong",
    b"serve 1 lines 2\n|\xff\n": b"line 2 NotUtf8",
    b"serve 1 lines 2\n\n#\xff\n": b"line 3 NotUtf8",
    b"serve 1 lines 2\n|" + b"\xff" * 4_096 + b"\n": b"line 2 LineLong",
}


class Clients(unittest.TestCase):
    def test_one_dies_in_a_text(self) -> None:
        for begun in [b"put 0 lines 2\n|in 1\n", b"put 0 lines 2\n|in", b"group\nput 0 lines 0\n"]:
            with self.subTest(begun=begun), Served() as served:
                served.ask(OPENING)
                served.write(begun)
                self.assertTrue(served.is_silent(0.05))
                self.assertEqual(served.end(), (0, b"badinput line 7 BadLine\n\n" + FINAL))

    def test_one_dies_in_the_opening(self) -> None:
        with Served() as served:
            served.write(OPENING[:-6])
            self.assertEqual(served.end(), (3, b"bad input: script line 4 BadLine\n"))

    def test_one_writes_ahead(self) -> None:
        given = OPENING + put(0, ["in 1"]) * 3_000
        replies = replies_in(conversed(given).report)
        told = [f"session 0 {number} accepted version {number} block 0 ".encode() for number in range(1, 3_001)]
        self.assertTrue(all(reply.startswith(due) for reply, due in zip(replies[1:-1], told, strict=True)))

    def test_a_line_without_an_end(self) -> None:
        """131 MB, of which hardly anything is kept."""
        for front in [b"", b"|", b"put 0 lines 1\n|"]:
            with self.subTest(front=front), Served() as served:
                served.ask(OPENING)
                served.write(front)
                before = served.resident()
                for _ in range(2_000):
                    served.write(b"x" * 65_536)
                self.assertLess(served.resident(), before + (8 << 20))
                self.assertTrue(served.is_silent(0.05))
                line = 5 + front.count(b"\n")
                self.assertEqual(served.ask(b"\n"), b"badinput line %d LineLong" % line)
                self.assertEqual(served.ask(b"verdict\n") + b"\n\n", VERDICT_REPLY)
                self.assertEqual(served.end(), (0, FINAL))


def limited(most: int) -> Callable[[], None]:
    """A limit on the address space that can be lifted later."""
    return lambda: resource.setrlimit(resource.RLIMIT_AS, (most, resource.RLIM_INFINITY))


class Memory(unittest.TestCase):
    """Conversations under limits on memory, over a program of some 600 lines."""

    LINES = made_program(70, 0)
    EDITS = 1_200
    limits: list[int]

    @classmethod
    def setUpClass(cls) -> None:
        """The least number of mebibytes under which the document is opened, and those above it."""
        least = next(mebibytes for mebibytes in range(4, 64) if cls.is_opened(mebibytes << 20))
        cls.limits = [mebibytes << 20 for mebibytes in range(least, least + 5)]

    @classmethod
    def is_opened(cls, limit: int) -> bool:
        with Served(preexec_fn=limited(limit)) as served:
            try:
                return served.ask(opening_of(cls.LINES)).startswith(b"opened ")
            except (Gone, BrokenPipeError):
                return False

    def edits(self, served: Served, seed: int) -> list[bytes]:
        """Many edits, each by the session of its block, as long as the conversation goes on. It hands out the entries of those accepted."""
        served.ask(opening_of(self.LINES))
        choice = random.Random(seed)
        body = self.LINES[2:]
        stamps, numbers = [0] * 9, [0] * 3
        entries: list[bytes] = []
        for edit in range(self.EDITS):
            block = choice.randrange(9)
            lines = [*body[64 * block : 64 * block + 64], *[f"; {edit}"] * choice.randrange(60)]
            session = block % 3
            numbers[session] += 1
            try:
                reply = served.ask(put(block, lines, session))
            except (Gone, BrokenPipeError):
                # (it has closed its pipes, and ends)
                served.child.wait(timeout=60)
                break
            frame = b"session %d %d " % (session, numbers[session])
            if reply == frame + b"nomemory":
                continue
            version = len(entries) + 1
            self.assertTrue(reply.startswith(frame + b"accepted version %d block %d sound " % (version, block)), reply)
            entries.append(b"%d session %d put %d seen %d lines %d" % (version, session, block, stamps[block], len(lines)))
            stamps[block] = version
        return entries

    def test_nothing_accepted_is_missing(self) -> None:
        """Once there is memory again, all that was accepted is told, and the document is the one that it leaves."""
        accepted = []
        for limit in self.limits:
            with self.subTest(limit=limit), Served(preexec_fn=limited(limit)) as served:
                entries = self.edits(served, limit)
                if served.child.poll() is not None:
                    self.assertEqual(served.child.returncode, Status.NO_MEMORY)
                    continue
                accepted.append(len(entries))
                resource.prlimit(served.child.pid, resource.RLIMIT_AS, (resource.RLIM_INFINITY, resource.RLIM_INFINITY))
                journal = served.ask(b"session 63 since 0\n")
                first = b"session 63 1 since version %d from 0 entries %d" % (len(entries), len(entries))
                self.assertEqual(journal.split(b"\n"), [first, *entries])
                saved = served.ask(b"session 63 save\n").split(b"\n", 1)[1] + b"\n"
                status, final = served.end()
                self.assertEqual((status, answer_of("replay", given=saved)), (0, (0, final[:-1])))
        self.assertTrue(any(0 < count < self.EDITS for count in accepted), accepted)

    def test_the_conversation_ends_well_or_for_want_of_memory(self) -> None:
        for limit in self.limits:
            with self.subTest(limit=limit), Served(preexec_fn=limited(limit)) as served:
                version = len(self.edits(served, limit))
                status, rest = served.end()
                self.assertIn(status, (Status.DONE, Status.NO_MEMORY))
                self.assertEqual(rest.split(b"\n")[0], b"final version %d" % version if status == Status.DONE else b"")

    def test_6_an_opening_for_which_there_is_no_memory(self) -> None:
        with Served(preexec_fn=limited(self.limits[0])) as served:
            try:
                served.write(opening_of(made_program(3_000, 0)))
            except BrokenPipeError:
                pass
            self.assertRaises(Gone, served.reply)
            self.assertEqual((served.child.wait(PATIENCE), served.ahead), (Status.NO_MEMORY, b""))


if __name__ == "__main__":
    unittest.main()
