"""Tests of the command `make` on the program check_main: of a made program, whose operations it only counts, it says what `check` and
`passes` say of its file.

`python3 -m unittest discover tests` runs them, on the check_main that TEKHVUMO_PROGRAM names or that is found.
"""
from __future__ import annotations

import unittest

from program import answer_of

TWO_ROWS = """;!knitout-2
;;Carriers: 1 2 3
in 1
tuck - f4 1
tuck - f3 1
tuck - f2 1
tuck - f1 1
tuck + b1 1
tuck + b2 1
tuck + b3 1
tuck + b4 1
knit - f4 1
knit - f3 1
knit - f2 1
knit - f1 1
knit + b1 1
knit + b2 1
knit + b3 1
knit + b4 1
xfer f1 b1
knit - f4 1
knit - f3 1
knit - f2 1
knit - f1 1
knit + b1 1
knit + b2 1
knit + b3 1
knit + b4 1
xfer f1 b1
out 1
"""
ONE_ROW = "".join(TWO_ROWS.splitlines(keepends=True)[:20]) + "out 1\n"
TWO_ROWS_MADE = """maker lines 30 blocks 1
sound lines 28 made 24 held 8 rack 0
passes 8 operations 26 windows 7 checked
"""


def made(rows: int, start: int) -> str:
    """The file of a made program, by the formulas."""
    width, drawn = 4 + start % 13, start
    needles = [*(f"- f{at}" for at in range(width, 0, -1)), *(f"+ b{at}" for at in range(1, width + 1))]
    lines = [";!knitout-2", ";;Carriers: 1 2 3", "in 1", *(f"tuck {needle} 1" for needle in needles)]
    for _ in range(rows):
        drawn = (drawn * 1_103_515_245 + 12_345) % 2_147_483_648
        moved = 1 + drawn // 65_536 % width
        lines += [*(f"knit {needle} 1" for needle in needles), f"xfer f{moved} b{moved}"]
    return "\n".join([*lines, "out 1"]) + "\n"


class Made(unittest.TestCase):
    def is_made(self, rows: int, start: int, file: str) -> None:
        """`make` says what is said of this file."""
        told = [answer_of(command, given=file.encode()).report.decode().splitlines()[0] for command in ("check", "passes")]
        lines = file.count("\n")
        said = f"maker lines {lines} blocks {(lines + 61) // 64}\n" + "\n".join(told) + "\n"
        self.assertEqual(answer_of("make", str(rows), str(start)), (0, said.encode()))

    def test_two_rows(self) -> None:
        self.assertEqual(made(2, 0), TWO_ROWS)
        self.is_made(2, 0, TWO_ROWS)

    def test_a_made_program(self) -> None:
        self.assertEqual(answer_of("make", "2", "0"), (0, TWO_ROWS_MADE.encode()))

    def test_wide_programs(self) -> None:
        """The first number drawn after 12 is 357,293,397, and the one after 2,147,483,647 is 1,043,980,748."""
        for start, count in ((12, 69), (2_147_483_647, 61)):
            with self.subTest(start):
                file = made(1, start)
                self.assertEqual((file.count("\n"), file.splitlines()[-2:]), (count, ["xfer f12 b12", "out 1"]))
                self.is_made(1, start, file)

    def test_the_most_rows(self) -> None:
        file = made(20_000, 0)
        self.assertEqual((file.count("\n"), file.splitlines()[180_011:]), (180_012, ["out 1"]))
        self.is_made(20_000, 0, file)

    def test_the_file_of_one_row(self) -> None:
        self.assertEqual(made(1, 0), ONE_ROW)
        self.is_made(1, 0, ONE_ROW)


if __name__ == "__main__":
    unittest.main()
