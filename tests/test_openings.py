"""Tests of openings, on texts whose loops are counted: blocks that are prepared beside each other, and one block in pieces.

`python3 -m unittest discover tests` runs them, on the check_main that TEKHVUMO_PROGRAM names or that is found.
"""
from __future__ import annotations

import unittest

from program import answer_of

HEAD = ";!knitout-2\n;;Carriers: 1\n"
TWENTY = [3, 1, 4, 1, 5, 9, 2, 6, 5, 3, 5, 8, 9, 7, 9, 3, 2, 3, 8, 4]


def text_of(lines: list[str]) -> bytes:
    return (HEAD + "".join(line + "\n" for line in lines)).encode()


def blocks_of(knits: list[int], size: int) -> list[str]:
    """Blocks of so many lines: one that makes no loop, so many knits on one needle, and lines that say nothing."""
    lines = []
    for at, count in enumerate(knits):
        lines += ["pause" if at else "in 1", *["knit + f1 1"] * count, *[""] * (size - 1 - count)]
    return lines


def told_of(knits: list[int], size: int) -> bytes:
    """What is due of these: each loop is drawn through the one before it."""
    made = [3 + size * at + 1 + knit for at, count in enumerate(knits) for knit in range(count)]
    lines = [f"sound lines {size * len(knits)} made {len(made)} held 1 rack 0", "in: 1", "hook:", f"f1: {made[-1]}"]
    through = ["", *(f" {line}" for line in made)]
    lines += [f"loop {line} on f1 + with 1 through{before}" for line, before in zip(made, through)]
    return "".join(line + "\n" for line in lines).encode()


class Blocks(unittest.TestCase):
    def stands(self, knits: list[int], size: int) -> None:
        text = text_of(blocks_of(knits, size))
        for words in ([], ["--block", str(size)]):
            with self.subTest(knits=knits, words=words):
                self.assertEqual(answer_of("check", "--loops", *words, given=text), (0, told_of(knits, size)))

    def test_the_blocks_stand_in_the_order_of_their_texts(self) -> None:
        self.assertEqual(answer_of("check", "--block", "1", given=text_of([])), (0, b"sound lines 0 made 0 held 0 rack 0\nin:\nhook:\n"))
        self.stands([4095], 4096)
        self.stands([2, 0], 3)
        self.stands(TWENTY, 10)
        self.stands([4095, 17, 4000, 3000, 1, 4090], 4096)

    def test_the_blocks_of_several_threads_stand_in_the_order_of_their_texts(self) -> None:
        """From 131,072 lines on several threads prepare them. Each block has a knit less than the one before it."""
        self.stands(list(range(35, 0, -1)), 4000)


SCARF = ["in 1", "tuck - f2 1", "tuck - f1 1", "knit + f1 1", "knit + f2 1", "out 1"]


class Scarves(unittest.TestCase):
    def is_scarf(self, apart: int, size: int) -> None:
        """The scarf, whose lines are so far apart, in blocks of this size: by itself, and behind a loop on its first needle."""
        lines = [line for row in SCARF for line in [row, *[""] * (apart - 1)]]
        second, first, knit, last = (3 + apart * at for at in range(1, 5))
        loops = [f"{second} on f2 - with 1 through", f"{first} on f1 - with 1 through"]
        loops += [f"{knit} on f1 + with 1 through {first}", f"{last} on f2 + with 1 through {second}"]
        verdict = [f"sound lines {6 * apart} made 4 held 2 rack 0", "in:", "hook:", f"f1: {knit}", f"f2: {last}"]
        told = "".join(line + "\n" for line in [*verdict, *(f"loop {loop}" for loop in loops)])
        with self.subTest(apart=apart, size=size):
            self.assertEqual(answer_of("check", "--loops", "--block", str(size), given=text_of(lines)), (0, told.encode()))
            session = ["session", "add start", "|in 1", "|tuck + f1 1", "|out 1", f"loop {3 + knit}"]
            script = ["live 1", *("|" + line for line in [*HEAD.splitlines(), *lines]), *session, ""]
            report = answer_of("live", "--block", str(size), given="\n".join(script).encode()).report.decode()
            self.assertIn(f" sound lines {3 + 6 * apart} made 5 held 2 rack 0\n", report)
            self.assertIn(f"\n2 loop version 1 loop {3 + knit} on f1 + with 1 through 4 {3 + first}\n", report)

    def test_pieces_of_a_scarf_are_the_scarf(self) -> None:
        for size in (6, 3, 1):
            self.is_scarf(1, size)

    def test_pieces_of_a_long_scarf_are_the_scarf(self) -> None:
        """A block of 2,048 lines or more is prepared in pieces, here between the lines of the scarf."""
        for size in (2400, 1200, 600, 400, 38):
            self.is_scarf(400, size)


if __name__ == "__main__":
    unittest.main()
