"""Tests of each rule and each instruction by `check` on the program check_main. The expected verdicts are those of the table of the rules.

`python3 -m unittest discover tests` runs them, on the check_main that TEKHVUMO_PROGRAM names or that is found.
"""
from __future__ import annotations

import unittest

from program import Status, answer_of
from samples import file_of

# A body, and the verdict on it.
Row = tuple[str, str]

BY_THE_MACHINE: list[Row] = [
    ("knit + f1 1\n", "broken line 3 rule CarrierIsOut at 3\n> knit + f1 1\n"),
    ("in 1\nin 1\n", "broken line 4 rule CarrierIsIn at 1\n> in 1\n"),
    ("in 1\nin 2 1\n", "broken line 4 rule CarrierIsIn at 2\n> in 2 1\n"),
    ("inhook 1\ninhook 2\n", "broken line 4 rule HookBusy at 0\n> inhook 2\n"),
    ("inhook 1\nreleasehook 2\n", "broken line 4 rule HookOther at 0\n> releasehook 2\n"),
    ("inhook 1\nouthook 1\n", "broken line 4 rule HookBusy at 0\n> outhook 1\n"),
    ("inhook 1\nout 1\n", "broken line 4 rule CarrierHooked at 1\n> out 1\n"),
    ("rack 1\nxfer f1 b1\n", "broken line 4 rule NotAligned at 2\n> xfer f1 b1\n"),
    ("in 1\ntuck + b5 1\nxfer b5 fs5\ntuck + f5 1\n", "broken line 6 rule SliderHolds at 2\n> tuck + f5 1\n"),
]

BY_THE_LINE: list[Row] = [
    ("knit f1\n", "broken line 3 rule Unreadable at 0\n> knit f1\n"),
    ("knit + f\n", "broken line 3 rule Unreadable at 0\n> knit + f\n"),
    ("drop f1023\ndrop f-1024\ndrop f1024\n", "broken line 5 rule OffBed at 1\n> drop f1024\n"),
    ("drop f-1025\n", "broken line 3 rule OffBed at 1\n> drop f-1025\n"),
    ("tuck + bs1 1\n", "broken line 3 rule SliderForm at 2\n> tuck + bs1 1\n"),
    ("xfer f1 fs1\n", "broken line 3 rule SameBed at 2\n> xfer f1 fs1\n"),
    ("xfer fs1 bs1\n", "broken line 3 rule TwoSliders at 2\n> xfer fs1 bs1\n"),
    ("knit + f1 Z\n", "broken line 3 rule NoCarrier at 3\n> knit + f1 Z\n"),
    ("knit + f1 1 1\n", "broken line 3 rule CarrierTwice at 4\n> knit + f1 1 1\n"),
    ("rack 0.3\n", "broken line 3 rule RackStep at 1\n> rack 0.3\n"),
    ("rack 8.25\n", "broken line 3 rule RackLimit at 1\n> rack 8.25\n"),
    ("rack -8.25\n", "broken line 3 rule RackLimit at 1\n> rack -8.25\n"),
]

# The last line of each body breaks two rules.
FIRST_OF_TWO: list[Row] = [
    ("knit fs9999 Z\n", "broken line 3 rule Unreadable at 0\n> knit fs9999 Z\n"),
    ("knit + fs1024 1\n", "broken line 3 rule OffBed at 2\n> knit + fs1024 1\n"),
    ("knit + fs1 Z\n", "broken line 3 rule SliderForm at 2\n> knit + fs1 Z\n"),
    ("split + f1 f2 Z\n", "broken line 3 rule SameBed at 3\n> split + f1 f2 Z\n"),
    ("rack 1\nxfer fs1 bs1\n", "broken line 4 rule TwoSliders at 2\n> xfer fs1 bs1\n"),
    ("knit + f1 1 1 Z\n", "broken line 3 rule NoCarrier at 5\n> knit + f1 1 1 Z\n"),
    ("knit + f1 2 2\n", "broken line 3 rule CarrierTwice at 4\n> knit + f1 2 2\n"),
    ("rack 99.3\n", "broken line 3 rule RackStep at 1\n> rack 99.3\n"),
    ("in 1\ntuck + b5 1\nxfer b5 fs5\nknit + f5 2\n", "broken line 6 rule CarrierIsOut at 3\n> knit + f5 2\n"),
    ("inhook 1\ninhook 1\n", "broken line 4 rule CarrierIsIn at 1\n> inhook 1\n"),
    ("in 1\ntuck + b5 1\nxfer b5 fs5\nrack 1\nsplit + f5 b5 1\n", "broken line 7 rule NotAligned at 3\n> split + f5 b5 1\n"),
]

# With at most one loop on a needle, so that a second one breaks a rule more.
FIRST_OF_TWO_WHERE_CROWDED: list[Row] = [
    ("in 1\ntuck + f1 1\ntuck + b1 1\nrack 1\nxfer f1 b1\n", "broken line 7 rule NotAligned at 2\n> xfer f1 b1\n"),
    ("in 1\ntuck + f5 1\ntuck + b5 1\nxfer b5 fs5\ntuck + f5 1\n", "broken line 7 rule SliderHolds at 2\n> tuck + f5 1\n"),
    ("in 1\ntuck + f5 1\nout 1\ntuck + f5 1\n", "broken line 6 rule CarrierIsOut at 3\n> tuck + f5 1\n"),
]

SOUND: list[Row] = [
    ("in 1 2\nout 2\n", "sound lines 2 made 0 held 0 rack 0\nin: 1\nhook:\n"),
    ("inhook 2 1\nmiss + f3 1\n", "sound lines 2 made 0 held 0 rack 0\nin: 1 2\nhook: 1 2\n"),
    ("inhook 2\nreleasehook 2\nouthook 2\n", "sound lines 3 made 0 held 0 rack 0\nin:\nhook:\n"),
    ("rack 1\nxfer f1 b0\n", "sound lines 2 made 0 held 0 rack 1\nin:\nhook:\n"),
    ("rack -8\n", "sound lines 1 made 0 held 0 rack -8\nin:\nhook:\n"),
    ("in 1\ntuck + f3 1\nxfer f3 bs3\nrack 1\nxfer bs3 f4\n", "sound lines 5 made 1 held 1 rack 1\nin: 1\nhook:\nf4: 4\n"),
    ("in 1\ntuck + b5 1\nxfer b5 fs5\ntuck + f6 1\n", "sound lines 4 made 2 held 2 rack 0\nin: 1\nhook:\nf6: 6\nfs5: 4\n"),
    ("in 1\ntuck + f3 1\ntuck + b3 1\nsplit - f3 b3 1\n", "sound lines 4 made 3 held 3 rack 0\nin: 1\nhook:\nf3: 6\nb3: 5 4\n"),
    ("in 1\ntuck + f3 1\nknit + f4 1\nknit - f3\ndrop f4\n", "sound lines 5 made 2 held 0 rack 0\nin: 1\nhook:\n"),
    ("stitch 10 5\npause now\nx-speed 3\namiss f1\ntuck + f1\nsplit + f1 b1\n", "sound lines 6 made 0 held 0 rack 0\nin:\nhook:\n"),
]

PARENTS = """in 1
tuck + f1 1
tuck + f1 1
split + f1 b1 1
"""
PARENTS_VERDICT = """sound lines 4 made 3 held 3 rack 0
in: 1
hook:
f1: 6
b1: 4 5
loop 4 on f1 + with 1 through
loop 5 on f1 + with 1 through
loop 6 on f1 + with 1 through 4 5
"""


class Rules(unittest.TestCase):
    def judge(self, rows: list[Row], status: Status, *words: str) -> None:
        for body, verdict in rows:
            with self.subTest(body=body):
                self.assertEqual(answer_of("check", *words, given=file_of(body)), (status, verdict.encode()))

    def test_rules_that_need_the_machine(self) -> None:
        self.judge(BY_THE_MACHINE, Status.BROKEN)

    def test_rules_that_need_the_line_alone(self) -> None:
        self.judge(BY_THE_LINE, Status.BROKEN)

    def test_the_first_of_two_rules(self) -> None:
        self.judge(FIRST_OF_TWO, Status.BROKEN)
        self.judge(FIRST_OF_TWO_WHERE_CROWDED, Status.BROKEN, "--hold=1")

    def test_each_instruction(self) -> None:
        self.judge(SOUND, Status.DONE)

    def test_parents_in_the_order_of_their_arrival(self) -> None:
        self.judge([(PARENTS, PARENTS_VERDICT)], Status.DONE, "--loops")


if __name__ == "__main__":
    unittest.main()
