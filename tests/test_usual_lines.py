"""Tests of lines that are nearly usual on the program check_main. Plain knits, tucks and transfers are read at once, straight from their
bytes, and every other line by the whole grammar: line by line and in blocks the same is said of each.

`python3 -m unittest discover tests` runs them, on the check_main that TEKHVUMO_PROGRAM names or that is found.
"""
from __future__ import annotations

import unittest

from each_way import EachWay

# The bed ends within the numbers of three digits.
LIMITS = ("--low=1", "--high=250")
# A `;` begins a comment, though a carrier has that name, and so no line can bring it in.
FRONT = b";!knitout-2\n;;Carriers: A ; \r 1 10 01\nin A \r 1 10 01\n"
IN = "in: A \r 1 10 01\nhook:\n"

# What stands behind the front, and the loop that its first line makes, or the rule that it breaks; or the line makes none and breaks none.
READ_AT_ONCE = [
    ("tuck - b250 A\n", "b250 - with A"),
    ("xfer f001 b20\n", "NotAligned at 2"),
    ("knit + f1 10\n", "f1 + with 10"),
    ("tuck - b250 01\n", "b250 - with 01"),
    ("knit + f1 10", "f1 + with 10"),
    ("knit + f1 10 \n", "f1 + with 10"),
    ("knit + f1 10;\n", "f1 + with 10"),
    ("knit + f1 1 10\n", "f1 + with 1 10"),
    ("knit + f1 A", "f1 + with A"),
    ("knit + f1 A \n", "f1 + with A"),
    ("knit + f1 A;\n", "f1 + with A"),
    ("knit + f1 A A\n", "CarrierTwice at 4"),
    ("knit\t+ f1 A\n", "f1 + with A"),
    ("knit +  f1 A\n", "f1 + with A"),
    (" knit + f1 A\n", "f1 + with A"),
    ("miss + f1 A\n", ""),
]
NOT_AT_ONCE = [
    ("knit + f0 A\n", "OffBed at 2"),
    ("knit + f251 A\n", "OffBed at 2"),
    ("knit + f0250 A\n", "f250 + with A"),
    ("knit + f10000 A\n", "OffBed at 2"),
    ("knit + f-1 A\n", "OffBed at 2"),
    ("knit + fs1 A\n", "SliderForm at 2"),
    ("knit + f1 B\n", "NoCarrier at 3"),
    ("knit + f1 11\n", "NoCarrier at 3"),
    ("knit + f1 100\n", "NoCarrier at 3"),
    ("knit + f1 ;\n", ""),
    ("knit + f1 \r\n", ""),
    ("xfer f1 f2\n", "SameBed at 2"),
    ("xfer f1 b251\n", "OffBed at 2"),
]
ALIKE = [
    ("knit - b250 A\n", "b250 - with A"),
    ("knit + f1 1\n", "f1 + with 1"),
    ("tuck + f1 10\n", "f1 + with 10"),
    ("knit - b23 01\n", "b23 - with 01"),
    ("xfer f23 b4\n", "NotAligned at 2"),
    ("xfer b99 f100\n", "NotAligned at 2"),
]
WHOLE_LINES = [
    ("knit + f1 A", "f1 + with A"),
    ("tuck - b250 10", "b250 - with 10"),
    ("xfer b250 f001", "NotAligned at 2"),
    ("knit + f1 ;", ""),
    ("knit + f1 A ", "f1 + with A"),
    ("knit + f1 B", "NoCarrier at 3"),
    ("xfer f1 b251", "OffBed at 2"),
    ("xfer b250 b1", "SameBed at 2"),
]
# Lines whose needles are told, since the beds are racked so that they face each other: the loop of line 5 goes over.
TRANSFERS = [("xfer f001 b20", "f1", "b20", -19), ("xfer f23 b4", "f23", "b4", 19), ("xfer b99 f100", "b99", "f100", 1)]


class UsualLines(EachWay):
    def says(self, text: str, told: str) -> None:
        with self.subTest(text):
            status, report = self.answer("check", "--loops", *LIMITS, given=FRONT + text.encode())
            if " at " in told:
                broken = f"broken line 4 rule {told}\n> {text.rstrip()}\n"
                self.assertEqual((status, report.decode()), (1, broken))
            elif told:
                made = f"sound lines 2 made 1 held 1 rack 0\n{IN}{told.split()[0]}: 4\nloop 4 on {told} through\n"
                self.assertEqual((status, report.decode()), (0, made))
            else:
                self.assertEqual((status, report.decode()), (0, "sound lines 2 made 0 held 0 rack 0\n" + IN))

    def test_what_is_read_at_once(self) -> None:
        for text, told in READ_AT_ONCE:
            self.says(text, told)
        broken = "broken line 5 rule Unreadable at 0\n> xfer\nloop 4 on f1 + with A through\n"
        self.assertEqual(self.answer("check", "--loops", *LIMITS, given=FRONT + b"knit + f1 A\nxfer"), (1, broken.encode()))

    def test_what_isnt_lawful_isnt_read_at_once(self) -> None:
        for text, told in NOT_AT_ONCE:
            self.says(text, told)

    def test_both_ways_read_alike(self) -> None:
        for text, told in ALIKE:
            self.says(text, told)
        broken = "broken line 5 rule Unreadable at 0\n> knit\nloop 4 on f1 + with A through\n"
        self.assertEqual(self.answer("check", "--loops", *LIMITS, given=FRONT + b"knit + f1 A\nknit"), (1, broken.encode()))
        empty = f"sound lines 3 made 1 held 1 rack 0\n{IN}f7: 4\nloop 4 on f7 + with A through\n"
        self.assertEqual(self.answer("check", "--loops", *LIMITS, given=FRONT + b"tuck + f007 A\n\n"), (0, empty.encode()))

    def test_whole_lines_are_read_at_once(self) -> None:
        for text, told in WHOLE_LINES:
            self.says(text, told)

    def test_transfers_are_read_alike(self) -> None:
        for line, start, end, rack in TRANSFERS:
            with self.subTest(line):
                given = FRONT + f"rack {rack}\ntuck + {start} A\n{line}\n".encode()
                told = f"sound lines 4 made 1 held 1 rack {rack}\n{IN}{end}: 5\n"
                self.assertEqual(self.answer("check", "--rack=64", *LIMITS, given=given), (0, told.encode()))


if __name__ == "__main__":
    unittest.main()
