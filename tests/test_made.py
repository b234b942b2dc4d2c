"""Tests of the command `make` on the program check_main, with numbers that follow from its formulas.

`python3 -m unittest discover tests` runs them, on the check_main that TEKHVUMO_PROGRAM names or that is found.
"""
from __future__ import annotations

import unittest

from program import Status, answer_of

TWO_ROWS = b"""\
maker lines 30 blocks 1
sound lines 28 made 24 held 8 rack 0
passes 8 operations 26 windows 7 checked
"""
SEVEN_LINES_A_BLOCK = b"""\
maker lines 30 blocks 4
sound lines 28 made 24 held 8 rack 0
passes 8 operations 26 windows 7 checked
"""
MANY_ROWS = b"""\
maker lines 18012 blocks 282
sound lines 18010 made 16008 held 8 rack 0
passes 6002 operations 18008 windows 6001 checked
"""


class Made(unittest.TestCase):
    def test_two_made_rows(self) -> None:
        self.assertEqual(answer_of("make", "2", "0"), (Status.DONE, TWO_ROWS))

    def test_two_made_rows_by_blocks(self) -> None:
        self.assertEqual(answer_of("make", "2", "0", "--block", "7"), (Status.DONE, SEVEN_LINES_A_BLOCK))

    def test_two_made_rows_in_one_block(self) -> None:
        self.assertEqual(answer_of("make", "2", "0", "--block", "4096"), (Status.DONE, TWO_ROWS))

    def test_many_made_rows(self) -> None:
        self.assertEqual(answer_of("make", "2000", "0"), (Status.DONE, MANY_ROWS))

    def test_too_many_made_blocks(self) -> None:
        self.assertEqual(answer_of("make", "20000", "0", "--block", "1"), (Status.TOO_LARGE, b"too large: blocks\n"))


if __name__ == "__main__":
    unittest.main()
