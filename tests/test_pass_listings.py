"""Tests of the command `passes` on the program check_main: listings that were written by hand, and every sequence of six short lines
against a search through all ways to cut.

`python3 -m unittest discover tests` runs them, on the check_main that TEKHVUMO_PROGRAM names or that is found.
"""
from __future__ import annotations

import re
import unittest
from typing import NamedTuple

from each_way import EachWay

FRONT = ";!knitout-2\n;;Carriers: A\nin A\n"

SAME_PLACE = "rack 0\nknit + f10 A\nknit + b10 A\n"
SAME_PLACE_PASSES = """passes 2 operations 2 windows 1 checked
pass 5-5 form + ops 1 with A
pass 6-6 form + ops 1 with A
window 5-6
"""
RACKED = "rack 0.25\nknit + f10 A\nknit + b10 A\n"
RACKED_PASSES = "passes 1 operations 2 windows 0 checked\npass 5-6 form + ops 2 with A\n"
ROWS = "knit + f1 A\nknit + f2 A\nknit - f2 A\nknit - f1 A\nxfer f1 b1\nxfer f2 b2\n"
ROWS_PASSES = """passes 3 operations 6 windows 2 checked
pass 4-5 form + ops 2 with A
pass 6-7 form - ops 2 with A
pass 8-9 move + ops 2
window 4-6
window 6-8
"""
# Two stitches on the way right, and two transfers on the way left, with a blank line between them.
TWO = ";a comment\nknit + f10 A\nknit + f11 A\nxfer f2 b2\n\nxfer f1 b1\n"
TWO_PASSES = """passes 2 operations 4 windows 1 checked
pass 5-6 form + ops 2 with A
pass 7-9 move - ops 2
window 5-7
"""


class Listings(EachWay):
    def passes(self, body: str, told: str) -> None:
        status, report = self.answer("passes", given=(FRONT + body).encode())
        self.assertEqual((status, report.decode()), (0, told))

    def test_needles_at_one_place_are_in_two_passes(self) -> None:
        self.passes(SAME_PLACE, SAME_PLACE_PASSES)

    def test_a_rack_moves_the_back_bed(self) -> None:
        self.passes(RACKED, RACKED_PASSES)

    def test_rows_there_and_back_and_a_transfer(self) -> None:
        self.passes(ROWS, ROWS_PASSES)

    def test_two_passes(self) -> None:
        self.passes(TWO, TWO_PASSES)


class Operation(NamedTuple):
    """An operation that goes to the right, or whichever way the pass goes."""

    line: int
    stretch: int
    name: str
    place: int


# Six lines, of which two are no operation, two are stitches and two are transfers; and the class and the place of each.
KINDS = ["", "pause", "knit + f1 A", "knit + f2 A", "xfer f1 b1", "xfer f2 b2"]
OPERATIONS = [None, None, ("form", 4), ("form", 8), ("move", 4), ("move", 8)]
# Behind each sequence the carriage stops, the loops that went over are dropped, in one pass, and it stops again.
BETWEEN = ["rack 0", "drop b1", "drop b2", "rack 0"]
SEQUENCES = 6**6


def kinds_of(number: int) -> list[int]:
    """The kinds of six lines: the digits of the number, to the base of six."""
    return [number // 6**at % 6 for at in range(6)]


def operations_of(kinds: list[int], first: int) -> list[Operation]:
    """The operations of lines of these kinds, of which the first is the file's line with this number."""
    stops = [kinds[:at].count(1) for at in range(len(kinds))]
    return [Operation(first + at, stops[at], *OPERATIONS[kind]) for at, kind in enumerate(kinds) if OPERATIONS[kind]]


def is_one_pass(operations: list[Operation]) -> bool:
    """Whether these operations, one or more, are one pass: places rise, or fall where nothing is formed."""
    places = [operation.place for operation in operations]
    rises = all(one < other for one, other in zip(places, places[1:]))
    falls = all(one > other for one, other in zip(places, places[1:])) and operations[0].name == "move"
    return len({(operation.stretch, operation.name) for operation in operations}) == 1 and (rises or falls)


def fewest_of(operations: list[Operation]) -> int:
    """The fewest passes, by trying every last pass of every front."""
    fewest = [0]
    for end in range(1, len(operations) + 1):
        fewest.append(min(1 + fewest[start] for start in range(end) if is_one_pass(operations[start:end])))
    return fewest[-1]


class EverySequence(EachWay):
    def test_every_sequence_of_six_lines(self) -> None:
        """All sequences in one file, each in stretches of its own: each has its fewest passes, and windows show it."""
        body = [line for number in range(SEQUENCES) for line in [*(KINDS[kind] for kind in kinds_of(number)), *BETWEEN]]
        status, report = self.answer("passes", given=(FRONT + "\n".join(body)).encode(), sizes=("64",))
        self.assertEqual(status, 0)
        head, *lines = report.decode().splitlines()
        found = [re.fullmatch(r"pass (\d+)-(\d+) (form|move|drop) [+-] ops (\d+)(?: with A)?", line) for line in lines]
        passes = [(int(one[1]), int(one[2]), one[3], int(one[4])) for one in found if one]
        self.judge(passes)
        starts = [start for start, _, _, _ in passes]
        self.assertEqual(lines[len(passes) :], [f"window {start}-{end}" for start, end in zip(starts, starts[1:])])
        operations = sum(count for _, _, _, count in passes)
        self.assertEqual(head, f"passes {len(passes)} operations {operations} windows {len(passes) - 1} checked")

    def judge(self, passes: list[tuple[int, int, str, int]]) -> None:
        """Those of each sequence carry out all its operations, and are as few as can be; behind them come its two drops."""
        at = 0
        for number in range(SEQUENCES):
            first = 4 + 10 * number
            operations = left = operations_of(kinds_of(number), first)
            before = at
            while left:
                start, end, name, count = passes[at]
                taken, left = left[:count], left[count:]
                self.assertTrue(is_one_pass(taken), (number, passes[at]))
                self.assertFalse(left and is_one_pass([*taken, left[0]]), (number, passes[at]))
                self.assertEqual((taken[0].line, taken[-1].line, taken[0].name), (start, end, name))
                at += 1
            self.assertEqual(at - before, fewest_of(operations), number)
            self.assertEqual(passes[at], (first + 7, first + 8, "drop", 2))
            at += 1
        self.assertEqual(at, len(passes))


if __name__ == "__main__":
    unittest.main()
