"""Tests of files that are longer than the window in which check_main reads them, and of their lines at its edges."""
from __future__ import annotations

import random
import subprocess
import unittest

from program import Answer, Status, answer_of, find_program

WINDOW = 131_072
HEAD = b";!knitout-2\n;;Carriers: 1 2\n"
LIMIT = 16_777_216


def program(rows: int, comment: bytes = b"") -> bytes:
    """A sound program of so many rows, each line with this behind it."""
    lines = [b"in 1", *(b"tuck + f%d 1" % needle for needle in range(10))]
    for row in range(rows):
        needles = range(10) if row % 2 else range(9, -1, -1)
        lines += [b"knit %s f%d 1" % (b"+" if row % 2 else b"-", needle) for needle in needles]
    return HEAD + b"".join(line + comment + b"\n" for line in [*lines, b"out 1"])


def in_pieces(words: list[str], given: bytes, sizes: list[int]) -> Answer:
    """What the program answers where its input comes in pieces of these sizes, again and again."""
    child = subprocess.Popen([find_program(), *words], stdin=subprocess.PIPE, stdout=subprocess.PIPE)
    assert child.stdin is not None and child.stdout is not None
    place, turn = 0, 0
    while place < len(given):
        child.stdin.write(given[place : place + sizes[turn % len(sizes)]])
        child.stdin.flush()
        place += sizes[turn % len(sizes)]
        turn += 1
    child.stdin.close()
    report = child.stdout.read()
    child.stdout.close()
    return Answer(child.wait(), report)


class Windows(unittest.TestCase):
    def test_a_line_at_each_edge(self) -> None:
        """Whatever the place in a line at which the window ends, the text is its own canonical one, and the verdict the book's."""
        whole = program(3_000)
        self.assertGreater(len(whole), 2 * WINDOW)
        for more in range(16):
            given = whole.replace(b"in 1\n", b"; " + b"x" * more + b"\nin 1\n", 1)
            self.assertEqual(answer_of("check", given=given).status, Status.DONE)
            self.assertEqual(answer_of("check", given=given), answer_of("check", "--block", "64", given=given))
            self.assertEqual(answer_of("text", given=given), (Status.DONE, given))

    def test_a_fault_far_behind(self) -> None:
        """It is told with its line, and lines behind it are only counted."""
        whole = program(3_000)
        lines = whole.count(b"\n")
        given = whole + b"knit + f1 2\n" + b"out 2\n" * 30_000
        status, report = answer_of("check", given=given)
        self.assertEqual((status, report), (Status.BROKEN, b"broken line %d rule CarrierIsOut at 3\n> knit + f1 2\n" % (lines + 1)))

    def test_a_bad_line_far_behind(self) -> None:
        whole = program(3_000)
        lines = whole.count(b"\n")
        for bad, said in ((b"\xff\n", b"not UTF-8"), (b"x" * 4_097 + b"\n", b"too long")):
            for command in ("check", "passes", "text"):
                status, report = answer_of(command, given=whole + bad + whole)
                self.assertEqual((status, report), answer_of("check", "--block", "64", given=whole + bad + whole), said)
                self.assertEqual(status, Status.BAD_INPUT)
                self.assertIn(b"line %d " % (lines + 1), report + b" ")

    def test_a_head_of_many_windows(self) -> None:
        long = HEAD + b"; a comment of the head\n" * 20_000 + program(10)[len(HEAD) :]
        self.assertEqual(answer_of("check", given=long), answer_of("check", "--block", "64", given=long))
        self.assertEqual(answer_of("text", given=long), (Status.DONE, long))
        twice = HEAD + b"; a comment of the head\n" * 20_000 + b";;Carriers: 3\n" + program(10)[len(HEAD) :]
        self.assertEqual(answer_of("check", given=twice), answer_of("check", "--block", "64", given=twice))
        self.assertEqual(answer_of("check", given=twice).status, Status.BAD_INPUT)
        # A bad line behind a head that is refused comes first.
        worse = twice + b"\xff\n"
        self.assertEqual(answer_of("check", given=worse), answer_of("check", "--block", "64", given=worse))
        self.assertNotEqual(answer_of("check", given=worse), answer_of("check", given=twice))

    def test_a_line_that_is_longer_than_the_window(self) -> None:
        given = program(10) + b"; " + b"x" * (3 * WINDOW) + b"\n" + program(10)
        for command in ("check", "passes", "text"):
            self.assertEqual(answer_of(command, given=given), answer_of("check", "--block", "64", given=given))

    def test_too_many_bytes(self) -> None:
        """They come before a bad line, wherever that stands."""
        comment = b"; " + b"x" * 62 + b"\n"
        full = program(10) + comment * ((LIMIT - len(program(10))) // len(comment))
        full += b"x" * (LIMIT - len(full))
        self.assertEqual(answer_of("text", given=full[:-1] + b"\n").status, Status.DONE)
        large = answer_of("check", given=full + b"\n")
        self.assertEqual(large.status, Status.TOO_LARGE)
        self.assertEqual(answer_of("check", given=b"\xff" + full), large)
        self.assertEqual(answer_of("check", given=b"\xff" + full[:-1]).status, Status.BAD_INPUT)

    def test_pieces(self) -> None:
        """An input may come in pieces of any size."""
        order = random.Random(7)
        given = program(400, b" ; told")
        for words in (["check"], ["passes"], ["text"]):
            whole = answer_of(*words, given=given)
            for sizes in ([1_000, 7], [65_536], [131_071, 1], [order.randrange(1, 3_000) for _ in range(9)]):
                self.assertEqual(in_pieces(words, given, sizes), whole)


if __name__ == "__main__":
    unittest.main()
