"""Tests of `--block` on the program check_main: in blocks of whatever size it says what it says without.

`python3 -m unittest discover tests` runs them, on the check_main that TEKHVUMO_PROGRAM names or that is found.
"""
from __future__ import annotations

import re
import resource
import subprocess
import unittest

from program import EXAMPLES, Answer, Status, answer_of, find_program
from samples import (
    CAST_ON_VERDICT,
    CAST_ON_WITH_RETURNS,
    CROWDED_NEEDLE,
    CROWDED_NEEDLE_FAULT,
    CROWDED_NEEDLE_VERDICT,
    SCARF,
    SCARF_LOOPS,
    SCARF_VERDICT,
    file_of,
)

HEAD = b";!knitout-2\n;;Carriers: 1 2\nin 1\n"
ROW = b"knit - f3 1\nknit - f2 1\nknit - f1 1\nknit + b1 1\nknit + b2 1\nknit + b3 1\nxfer f2 b2\n"
# So long that a block of 4,096 lines is prepared in pieces.
FILES = {path.name: path.read_bytes() for path in sorted(EXAMPLES.glob("*.k"))}
FILES |= {"long": HEAD + ROW * 400, "broken": HEAD + ROW * 400 + b"knit + b2 2\n" + ROW * 200}

# Room for addresses that is plenty for a text of some thousand lines.
PLENTY = 2_000_000 << 10


def tucks_over_all(rounds: int, hooks: int) -> bytes:
    """So many tucks on each hook from -hooks to hooks - 1 of both beds."""
    row = "".join(f"tuck + f{i} 1\ntuck + b{i} 1\n" for i in range(-hooks, hooks))
    return HEAD + row.encode() * rounds


def moved_pile(loops: int, needles: int) -> bytes:
    """So many loops on f0, moved needle by needle without a knit between."""
    moves = "".join(f"rack 0\nxfer f{i} b{i}\nrack 1\nxfer b{i} f{i + 1}\n" for i in range(needles))
    return HEAD + b"tuck + f0 1\n" * loops + moves.encode()


def limit_addresses() -> None:
    resource.setrlimit(resource.RLIMIT_AS, (PLENTY, PLENTY))


class Blocks(unittest.TestCase):
    def test_a_file_in_blocks(self) -> None:
        for name, text in FILES.items():
            for words in (["check"], ["check", "--loops"], ["check", "--json", "--loops"], ["passes"]):
                whole = answer_of(*words, given=text)
                for size in ("1", "64", "4096"):
                    with self.subTest(name, words=words, size=size):
                        self.assertEqual(answer_of(*words, "--block", size, given=text), whole)

    def test_a_made_program_in_blocks(self) -> None:
        """Only the number of blocks tells their size. 20,000 rows are so many lines that several threads prepare them."""
        for rows, sizes in (("1", ("1", "64", "4096")), ("300", ("1", "64", "4096")), ("20000", ("64", "4096"))):
            told = [re.sub(rb" blocks \d+", b"", answer_of("make", rows, "5", *words).report) for words in ([], *(["--block", it] for it in sizes))]
            with self.subTest(rows=rows):
                self.assertEqual(told, told[:1] * len(told))

    def test_tucks_over_many_hooks_want_no_more_memory_than_there_is(self) -> None:
        given = tucks_over_all(4, 1_024)
        words = ["check", "--low=-1024", "--high=1023", "--hold=64"]
        ran = subprocess.run([find_program(), *words, "--block=64"], input=given, capture_output=True, check=False, preexec_fn=limit_addresses)
        self.assertEqual(Answer(ran.returncode, ran.stdout), answer_of(*words, given=given))
        self.assertEqual(ran.returncode, 0)

    def test_a_pile_that_is_moved_far(self) -> None:
        given = moved_pile(60, 1_000)
        words = ["check", "--low=-1024", "--high=1023", "--hold=64"]
        self.assertEqual(answer_of(*words, "--block=4096", given=given), answer_of(*words, given=given))


class Verdicts(unittest.TestCase):
    def test_a_cast_on_line_by_line(self) -> None:
        self.assertEqual(answer_of("check", "--block", "1", given=CAST_ON_WITH_RETURNS), (Status.DONE, CAST_ON_VERDICT))

    def test_a_cast_on_in_one_block(self) -> None:
        self.assertEqual(answer_of("check", "--block", "4096", given=CAST_ON_WITH_RETURNS), (Status.DONE, CAST_ON_VERDICT))

    def test_loops_across_blocks(self) -> None:
        for size in ("1", "4"):
            with self.subTest(size=size):
                self.assertEqual(answer_of("check", "--loops", "--block", size, given=SCARF), (Status.DONE, SCARF_VERDICT + SCARF_LOOPS))

    def test_a_crowded_needle_line_by_line(self) -> None:
        self.assertEqual(answer_of("check", "--hold", "2", "--block", "1", given=CROWDED_NEEDLE), (Status.BROKEN, CROWDED_NEEDLE_FAULT))
        self.assertEqual(answer_of("check", "--hold", "3", "--block", "1", given=CROWDED_NEEDLE), (Status.DONE, CROWDED_NEEDLE_VERDICT))

    def test_the_first_fault_of_two_blocks(self) -> None:
        second = b"broken line 5 rule NotAligned at 2\n> xfer f2 b1\n"
        self.assertEqual(answer_of("check", "--block", "1", given=file_of("rack 0\nxfer f1 b1\nxfer f2 b1\n")), (Status.BROKEN, second))
        first = b"broken line 4 rule NotAligned at 2\n> xfer f1 b1\n"
        self.assertEqual(answer_of("check", "--block", "1", given=file_of("rack 1\nxfer f1 b1\nxfer f2 b1\n")), (Status.BROKEN, first))


class Examples(unittest.TestCase):
    def as_without(self, *names: str) -> None:
        """These examples are told by blocks as they are without."""
        for name in names:
            given = (EXAMPLES / name).read_bytes()
            for flag in ("--loops", "--json"):
                whole = answer_of("check", flag, given=given)
                for size in ("1", "2", "7", "64"):
                    with self.subTest(name, flag=flag, size=size):
                        self.assertEqual(answer_of("check", flag, "--block", size, given=given), whole)

    def test_sound_examples_by_blocks(self) -> None:
        self.as_without("swatch.k", "rib.k", "tube.k")

    def test_broken_examples_by_blocks(self) -> None:
        self.as_without("forgotten-rack.k", "yarn-left-out.k", "parked-loop.k")


if __name__ == "__main__":
    unittest.main()
