"""Tests of the command `passes` on the program check_main, on whole files.

`python3 -m unittest discover tests` runs them, on the check_main that TEKHVUMO_PROGRAM names or that is found.
"""
from __future__ import annotations

import unittest

from program import Status, answer_of
from samples import file_of

# Both beds knit, a quarter of a needle apart.
APART = file_of("in 1\nrack 0.25\nknit + f10 1\nknit + b10 1\n")
APART_PASSES = b"""\
passes 1 operations 2 windows 0 checked
pass 5-6 form + ops 2 with 1
"""
# The same where the needles face one another.
FACING_NEEDLES = file_of("in 1\nrack 0\nknit + f10 1\nknit + b10 1\n")
FACING_NEEDLES_PASSES = b"""\
passes 2 operations 2 windows 1 checked
pass 5-5 form + ops 1 with 1
pass 6-6 form + ops 1 with 1
window 5-6
"""

BROKEN_PROGRAM = file_of("in 1\nknit + f1 1\nxfer f1 b2\n")
BROKEN_PROGRAM_VERDICT = b"""\
broken line 5 rule NotAligned at 2
> xfer f1 b2
"""

# A row there, a row back, and four transfers.
THERE = "".join(f"knit + f{at} 1\n" for at in range(1, 301))
BACK = "".join(f"knit - f{at} 1\n" for at in range(300, 0, -1))
ROWS = file_of("in 1\n" + THERE + BACK + "xfer f1 b1\nxfer f2 b2\nxfer f3 b3\nxfer f4 b4\n")
ROWS_PASSES = b"""\
passes 3 operations 604 windows 2 checked
pass 4-303 form + ops 300 with 1
pass 304-603 form - ops 300 with 1
pass 604-607 move + ops 4
window 4-304
window 304-604
"""

# Classes, directions, carriers and stops each begin a pass.
KINDS = file_of("""\
in 1 2
tuck - f4 1 2
miss - f2 1 2
split - f2 b2 1
knit + f5 2 1
drop f6
pause
amiss f7
xfer f7 b7
""")
KINDS_PASSES = b"""\
passes 6 operations 7 windows 5 checked
pass 4-5 form - ops 2 with 1 2
pass 6-6 split - ops 1 with 1
pass 7-7 form + ops 1 with 2 1
pass 8-8 drop + ops 1
pass 10-10 drop + ops 1
pass 11-11 move + ops 1
window 4-6
window 6-7
window 7-8
window 8-10
window 10-11
"""

# A head may have any length.
LONG_HEAD = b";!knitout-2\n;;Carriers: 1\n" + b"; long\n" * 2_000 + b"in 1\nknit + f1 1\nknit + f2 1\n"
LONG_HEAD_PASSES = b"""\
passes 1 operations 2 windows 0 checked
pass 2004-2005 form + ops 2 with 1
"""


class Passes(unittest.TestCase):
    def test_a_rack_makes_room_for_one_pass(self) -> None:
        self.assertEqual(answer_of("passes", given=APART), (Status.DONE, APART_PASSES))
        self.assertEqual(answer_of("passes", given=FACING_NEEDLES), (Status.DONE, FACING_NEEDLES_PASSES))

    def test_rows_there_and_back(self) -> None:
        self.assertEqual(answer_of("passes", given=ROWS), (Status.DONE, ROWS_PASSES))

    def test_a_broken_program_has_no_passes(self) -> None:
        self.assertEqual(answer_of("passes", given=BROKEN_PROGRAM), (Status.BROKEN, BROKEN_PROGRAM_VERDICT))

    def test_passes_by_blocks(self) -> None:
        """By blocks the report is the same."""
        self.assertEqual(answer_of("passes", "--block", "1", given=APART), (Status.DONE, APART_PASSES))
        self.assertEqual(answer_of("passes", "--block", "1", given=BROKEN_PROGRAM), (Status.BROKEN, BROKEN_PROGRAM_VERDICT))

    def test_no_operation(self) -> None:
        report = b"passes 0 operations 0 windows 0 checked\n"
        self.assertEqual(answer_of("passes", given=file_of("in 1\nout 1\n")), (Status.DONE, report))

    def test_passes_of_each_kind(self) -> None:
        self.assertEqual(answer_of("passes", given=KINDS), (Status.DONE, KINDS_PASSES))

    def test_a_long_head(self) -> None:
        self.assertEqual(answer_of("passes", given=LONG_HEAD), (Status.DONE, LONG_HEAD_PASSES))


if __name__ == "__main__":
    unittest.main()
