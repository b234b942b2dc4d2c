"""Tests of single lines on the program check_main: how a line is read, and which rule one breaks by itself, and where.

`python3 -m unittest discover tests` runs them, on the check_main that TEKHVUMO_PROGRAM names or that is found.
"""
from __future__ import annotations

import unittest

from each_way import EachWay

# A line where the carriers A and B are declared, and the rule that it breaks.
BROKEN = [
    ("knit ?", "Unreadable at 0"),
    ("knit f1", "Unreadable at 0"),
    ("in", "Unreadable at 0"),
    ("drop f1 A", "Unreadable at 0"),
    ("drop f2000", "OffBed at 1"),
    ("drop f1024", "OffBed at 1"),
    ("xfer f1 b1024", "OffBed at 2"),
    ("knit + fs1024 A", "OffBed at 2"),
    ("knit + fs1 Z", "SliderForm at 2"),
    ("xfer f1 fs1", "SameBed at 2"),
    ("xfer fs1 fs2", "SameBed at 2"),
    ("xfer fs1 bs1", "TwoSliders at 2"),
    ("knit + f1 Z", "NoCarrier at 3"),
    ("knit + f1 A A Z", "NoCarrier at 5"),
    ("knit + f1 A A", "CarrierTwice at 4"),
    ("rack 0.3", "RackStep at 1"),
    ("rack 99999999999999999999.3", "RackStep at 1"),
    ("rack 99999999999999999999.25", "RackLimit at 1"),
    ("rack 8.25", "RackLimit at 1"),
]
# 65,537 would be 1 in two bytes.
BROKEN_NEEDLES = [
    ("drop fs65537", "OffBed at 1"),
    ("drop f99999999999999999999", "OffBed at 1"),
    ("drop f", "Unreadable at 0"),
    ("drop fs-", "Unreadable at 0"),
    ("drop b1x", "Unreadable at 0"),
]
BROKEN_RACKS = [
    ("rack 99999999999999999999.3", "RackStep at 1"),
    ("rack .7500000000000000000001", "RackStep at 1"),
    ("rack .", "Unreadable at 0"),
    ("rack +.", "Unreadable at 0"),
    ("rack 1.2.3", "Unreadable at 0"),
    ("rack +-1", "Unreadable at 0"),
]
# A line that drops the loops of a needle, that needle, and the lines that put a loop there.
NEEDLES = [
    ("drop f+01", "f1", "tuck + f1 1"),
    ("drop bs-7", "bs-7", "tuck + f-7 1; xfer f-7 bs-7"),
    ("drop b-0", "b0", "tuck + b0 1"),
]
RACKS = [("rack -0", "0"), ("rack .25", "0.25"), ("rack -0.50", "-0.5"), ("rack +1.", "1"), ("rack .7500000000000000000000", "0.75")]


class Readings(EachWay):
    """Programs whose lines are parted by semicolons and a space. The first of the body is line 3."""

    def file(self, body: str, carriers: str) -> bytes:
        return f";!knitout-2\n;;Carriers: {carriers}\n{body}\n".replace("; ", "\n").encode()

    def sound(self, body: str, told: str, *words: str, carriers: str = "1 2") -> None:
        """What is told of a sound program behind its number of lines."""
        with self.subTest(body):
            lines = 1 + body.count("; ")
            status, report = self.answer("check", *words, given=self.file(body, carriers))
            self.assertEqual((status, report.decode()), (0, f"sound lines {lines} {told}\n"))

    def broken(self, body: str, rule: str, carriers: str = "1 2") -> None:
        """The last line breaks a rule, and is told as it is."""
        with self.subTest(body):
            *before, last = body.split("; ")
            status, report = self.answer("check", given=self.file(body, carriers))
            self.assertEqual((status, report.decode()), (1, f"broken line {3 + len(before)} rule {rule}\n> {last}\n"))

    def spelt(self, line: str, text: str, carriers: str = "1 2") -> None:
        """The canonical spelling of a line."""
        with self.subTest(line):
            self.assertEqual(self.text(self.file("pause\n" + line, carriers)), self.file("pause\n" + text, carriers))


class Lines(Readings):
    def test_names_the_first_rule_and_its_place(self) -> None:
        for line, rule in BROKEN:
            self.broken(line, rule, "A B")

    def test_reads_spellings(self) -> None:
        self.sound(" in   A   ;bring", "made 0 held 0 rack 0\nin: A\nhook:", carriers="A B")
        two = "made 1 held 1 rack 0\nin: A B\nhook:\nf1: 4\nloop 4 on f1 + with A B through"
        self.sound("in A B; knit + f+01 A B", two, "--loops", carriers="A B")
        self.sound("rack -0.50", "made 0 held 0 rack -0.5\nin:\nhook:")
        self.sound("rack 1.", "made 0 held 0 rack 1\nin:\nhook:")
        self.sound('x-vendor   7  "q"', "made 0 held 0 rack 0\nin:\nhook:")
        self.spelt('x-vendor   7  "q"', 'x-vendor 7 "q"')
        self.sound("pause; \t", "made 0 held 0 rack 0\nin:\nhook:")
        self.spelt("\t", "")

    def test_reads_a_body(self) -> None:
        """A comment that looks like an instruction, and a transfer of a loop that is on a slider."""
        body = "in 1; rack 3; tuck + f2 1; xfer f2 bs-1; ;knit"
        self.sound(body, "made 1 held 1 rack 3\nin: 1\nhook:\nbs-1: 5")
        self.sound(body + "; xfer bs-1 f2", "made 1 held 1 rack 3\nin: 1\nhook:\nf2: 5")

    def test_pulls_tokens_up_to_the_comment(self) -> None:
        self.sound("\tin \t10;2 3", "made 0 held 0 rack 0\nin: 10\nhook:", carriers="10")
        self.spelt("\tin \t10;2 3", "in 10 ;2 3", "10")
        self.broken("pause;  \t10", "Unreadable at 0", "10")
        self.spelt("\t ", "")

    def test_tries_names_before_repeats(self) -> None:
        loop = "made 1 held 1 rack 0\nin: 1 2\nhook:\nf1: 4\nloop 4 on f1 + with 2 1 through"
        self.sound("in 1 2; knit + f1 2 1", loop, "--loops")
        self.broken("in 1 2; knit + f1 1 1 Z", "NoCarrier at 5")
        self.broken("in 1 2; knit + f1 2 1 2", "CarrierTwice at 5")

    def test_a_loop_is_formed_where_there_are_carriers(self) -> None:
        loop = "made 1 held 1 rack 0\nin: 1\nhook:\nf1: 5\nloop 5 on f1 - with 1 through"
        self.sound("in 1; knit + f1; tuck - f1 1", loop, "--loops")


class Needles(Readings):
    def test_reads_needles(self) -> None:
        for line, needle, before in NEEDLES:
            loops = f"made 1 held 1 rack 0\nin: 1\nhook:\n{needle}: 4"
            self.sound("in 1; " + before, loops)
            self.sound(f"in 1; {before}; {line}", "made 1 held 0 rack 0\nin: 1\nhook:")
            self.spelt(line, "drop " + needle)

    def test_refuses_needles(self) -> None:
        for line, rule in BROKEN_NEEDLES:
            self.broken(line, rule)

    def test_needles_stand_by_bed_and_number(self) -> None:
        both = "in 1; tuck + b-7 1; xfer b-7 fs-7; tuck + f7 1"
        self.sound(both, "made 2 held 2 rack 0\nin: 1\nhook:\nf7: 6\nfs-7: 4")
        self.broken("xfer f7 fs-7", "SameBed at 2")
        self.broken("in 1; knit + fs-7 1", "SliderForm at 2")
        self.broken("in 1; tuck + b7 1; xfer b7 fs7; tuck + f7 1", "SliderHolds at 2")
        for pair in ("f7 b5", "b5 f7"):
            self.sound("rack 2; xfer " + pair, "made 0 held 0 rack 2\nin:\nhook:")
            self.broken("rack 1.75; xfer " + pair, "NotAligned at 2")

    def test_needles_and_racks_are_spelt(self) -> None:
        body = "in 1; tuck + f-12 1; xfer f-12 bs-12; rack "
        for rack in ("-0.5", "2.25"):
            self.sound(body + rack, f"made 1 held 1 rack {rack}\nin: 1\nhook:\nbs-12: 4")


class Racks(Readings):
    def test_reads_racks(self) -> None:
        for line, rack in RACKS:
            self.sound(line, f"made 0 held 0 rack {rack}\nin:\nhook:")
            self.spelt(line, "rack " + rack)

    def test_refuses_racks(self) -> None:
        for line, rule in BROKEN_RACKS:
            self.broken(line, rule)

    def test_racks(self) -> None:
        for rack in ("0", "0.25", "-0.25", "-0.5", "1.75", "-64"):
            self.sound("rack " + rack, f"made 0 held 0 rack {rack}\nin:\nhook:", "--rack", "64")


if __name__ == "__main__":
    unittest.main()
