"""Tests of files that are nearly usual on the program check_main: what one pass over the bytes copies or reads at once stands beside lines
that it doesn't.

`python3 -m unittest discover tests` runs them, on the check_main that TEKHVUMO_PROGRAM names or that is found.
"""
from __future__ import annotations

from each_way import EachWay
from program import Status

# Files, and what a check of each says.
NEEDLES = [
    (
        b";!knitout-2\n;;Carriers: 1\nin 1\ntuck + f1023 1\ntuck + f-1024 1\n",
        b"sound lines 3 made 2 held 2 rack 0\nin: 1\nhook:\nf-1024: 5\nf1023: 4\n",
    ),
    (b";!knitout-2\n;;Carriers: 1\nin 1\nknit - f1024 1\n", b"broken line 4 rule OffBed at 2\n> knit - f1024 1\n"),
    (b";!knitout-2\n;;Carriers: 1\nin 1\nxfer b-1025 f-1025\n", b"broken line 4 rule OffBed at 1\n> xfer b-1025 f-1025\n"),
    (b";!knitout-2\n;;Carriers: 1\nin 1\ntuck - b10230 1\n", b"broken line 4 rule OffBed at 2\n> tuck - b10230 1\n"),
    (b";!knitout-2\n;;Carriers: 1\nin 1\ntuck - b01 1\nxfer b1 f001\n", b"sound lines 3 made 1 held 1 rack 0\nin: 1\nhook:\nf1: 4\n"),
    (b";!knitout-2\n;;Carriers: 1\nin 1\ntuck - b 1\n", b"broken line 4 rule Unreadable at 0\n> tuck - b 1\n"),
]
NAMES = [
    # A `;` begins the comment, though a carrier has that name.
    (b";!knitout-2\n;;Carriers: ;\ntuck + f1 ;\n", b"sound lines 1 made 0 held 0 rack 0\nin:\nhook:\n"),
    # A carriage return before the line feed ends the line, though a carrier has that name.
    (b";!knitout-2\n;;Carriers: \r 1\ntuck + f1 \r\n", b"sound lines 1 made 0 held 0 rack 0\nin:\nhook:\n"),
    (
        b";!knitout-2\n;;Carriers: 1 2\nin 2 1\ntuck + f1 2 1\nknit + f1 1\n",
        b"sound lines 3 made 2 held 1 rack 0\nin: 1 2\nhook:\nf1: 5\n",
    ),
    (b";!knitout-2\n;;Carriers: 10 1\nin 10\ntuck + f1 10\ntuck + f1 1\n", b"broken line 5 rule CarrierIsOut at 3\n> tuck + f1 1\n"),
]
SPELLINGS = [
    (b";!knitout-2\n;;Carriers: 1\nin 1\nknit + f1 1", b"sound lines 2 made 1 held 1 rack 0\nin: 1\nhook:\nf1: 4\n"),
    (
        b";!knitout-2\n;;Carriers: 1\nin 1 ;on\ntuck + f1 1;one\nxfer f1 b1 ;\n",
        b"sound lines 3 made 1 held 1 rack 0\nin: 1\nhook:\nb1: 4\n",
    ),
    (b";!knitout-2\n;;Carriers: 1\nin\t1\ntuck\t+\tf1\t1\nxfer f1\tb1\n", b"sound lines 3 made 1 held 1 rack 0\nin: 1\nhook:\nb1: 4\n"),
    (
        b";!knitout-2\r\n;;Carriers: 1\r\nin 1\r\ntuck + f1 1\r\nxfer f1 b1\r\n",
        b"sound lines 3 made 1 held 1 rack 0\nin: 1\nhook:\nb1: 4\n",
    ),
    (b";!knitout-2\n;;Carriers: 1\nin 1\n\n tuck + f1 1\nxfer  f1 b1\n", b"sound lines 4 made 1 held 1 rack 0\nin: 1\nhook:\nb1: 5\n"),
]
# Blanks, signs, zeros and comments in lines that say what usual ones do.
LOOSE = [
    (
        b";!knitout-2\n;;Carriers: 1 12\nin 1 12\n \ttuck\t -  f+007\t12 \t; 1;2\ntuck + f-0001 1;knit\nxfer\tf007  bs+7;\n xfer bs7 f7 \n",
        b"sound lines 5 made 2 held 2 rack 0\nin: 1 12\nhook:\nf-1: 5\nf7: 4\n",
    ),
    (
        b";!knitout-2\n;;Carriers: 1\nin 1\ntuck + f+01023 1 ;\ntuck\t+ f-1024 1\t\n",
        b"sound lines 3 made 2 held 2 rack 0\nin: 1\nhook:\nf-1024: 5\nf1023: 4\n",
    ),
    (
        b";!knitout-2\n;;Carriers: 1\nin 1\ntuck + f+" + 40 * b"0" + b"1 1\n",
        b"sound lines 2 made 1 held 1 rack 0\nin: 1\nhook:\nf1: 4\n",
    ),
    (b";!knitout-2\n;;Carriers: 1\nin 1\n tuck + f+1024 1;\n", b"broken line 4 rule OffBed at 2\n>  tuck + f+1024 1;\n"),
    (
        b";!knitout-2\n;;Carriers: 1\nin 1\ntuck + f4294967297 1 ;\n",
        b"broken line 4 rule OffBed at 2\n> tuck + f4294967297 1 ;\n",
    ),
    (b";!knitout-2\n;;Carriers: 1\nin 1\n\ttuck + fs1 1\n", b"broken line 4 rule SliderForm at 2\n> \ttuck + fs1 1\n"),
    (b";!knitout-2\n;;Carriers: 1\nin 1\nxfer fs1  bs1\n", b"broken line 4 rule TwoSliders at 2\n> xfer fs1  bs1\n"),
    (b";!knitout-2\n;;Carriers: 1\nin 1\nxfer f1  fs1\n", b"broken line 4 rule SameBed at 2\n> xfer f1  fs1\n"),
    (b";!knitout-2\n;;Carriers: 1\nin 1\n tuck +f1 1\n", b"broken line 4 rule Unreadable at 0\n>  tuck +f1 1\n"),
    (b";!knitout-2\n;;Carriers: 1\nin 1\n tuck + f1; 1\n", b"sound lines 2 made 0 held 0 rack 0\nin: 1\nhook:\n"),
    (b";!knitout-2\n;;Carriers: 1 1a\nin 1\n tuck + f1 1a\n", b"broken line 4 rule CarrierIsOut at 3\n>  tuck + f1 1a\n"),
]
# Ends of such lines.
LOOSE_ENDS = [
    (
        b";!knitout-2\n;;Carriers: 1\nin 1\ntuck + f1 1 ;\r x\ntuck + f2 1 ;\xc3\xa9\n tuck + f3 1\r\n tuck + f4 1",
        b"sound lines 5 made 4 held 4 rack 0\nin: 1\nhook:\nf1: 4\nf2: 5\nf3: 6\nf4: 7\n",
    ),
    (
        b";!knitout-2\n;;Carriers: 1\nin 1\ntuck + f1 1 ;" + 4083 * b"x" + b"\n",
        b"sound lines 2 made 1 held 1 rack 0\nin: 1\nhook:\nf1: 4\n",
    ),
    (b";!knitout-2\n;;Carriers: 1\nin 1\ntuck + f1 1 ;" + 4084 * b"x" + b"\n", b"bad input: line 4 LineLong\n"),
    (b";!knitout-2\n;;Carriers: 1\nin 1\n tuck + f1 1 ;\xff\n", b"bad input: line 4 NotUtf8\n"),
]
FAULTS = [
    (b";!knitout-2\n;;Carriers: 1\nin 1\nin 1\n;\xc3\xa9\n\nknit + f1 1\r\n\n", b"broken line 4 rule CarrierIsIn at 1\n> in 1\n"),
    (b";!knitout-2\n;;Carriers: 1\nin 1\nin 1\nknit + f1 1\nknit\n", b"broken line 4 rule CarrierIsIn at 1\n> in 1\n"),
    (b";!knitout-2\n;;Carriers: 1\nin 1\nxfer f1 b2\nknit + f1 1", b"broken line 4 rule NotAligned at 2\n> xfer f1 b2\n"),
    (b";!knitout-2\n;;Carriers: 1\nin 1\nin 1\nknit + f1 1\n\xff\n", b"bad input: line 6 NotUtf8\n"),
    (b";!knitout-2\n;;Carriers: 1\nin 1\nin 1\nknit + f1 \xff\n", b"bad input: line 5 NotUtf8\n"),
    (b";!knitout-2\n;;Carriers: 1\n", b"sound lines 0 made 0 held 0 rack 0\nin:\nhook:\n"),
]
# The same, where the loops are told.
LOOPS = [
    # Loops of two carriers, and several on a needle.
    (
        b";!knitout-2\n;;Carriers: 1 2\nin 1 2\ntuck + f1 1\ntuck - f1 2 1\ntuck + f1 2\nknit + f1 2\nxfer f1 b1\nknit - b1 1",
        b"sound lines 7 made 5 held 1 rack 0\nin: 1 2\nhook:\nb1: 9\nloop 4 on f1 + with 1 through\n"
        b"loop 5 on f1 - with 2 1 through\nloop 6 on f1 + with 2 through\nloop 7 on f1 + with 2 through 4 5 6\n"
        b"loop 9 on b1 - with 1 through 7\n",
    ),
    # The line at fault makes no loop, nor does any behind it.
    (
        b";!knitout-2\n;;Carriers: 1 10\nin 10\ntuck + f1 10\nknit - f1 10\nknit + f1 1\nknit + f1 10\n",
        b"broken line 6 rule CarrierIsOut at 3\n> knit + f1 1\nloop 4 on f1 + with 10 through\nloop 5 on f1 - with 10 through 4\n",
    ),
    (
        b";!knitout-2\n;;Carriers: 10 1 01\nin 01 10\ntuck + f1 01\ntuck + f2 10\ntuck + f3 1\n",
        b"broken line 6 rule CarrierIsOut at 3\n> tuck + f3 1\nloop 4 on f1 + with 01 through\nloop 5 on f2 + with 10 through\n",
    ),
    (
        b";!knitout-2\n;;Carriers: 1 10\nin 10 1\ntuck + f1 1\ntuck + f2 10\nknit - f2 10",
        b"sound lines 4 made 3 held 2 rack 0\nin: 1 10\nhook:\nf1: 4\nf2: 6\nloop 4 on f1 + with 1 through\n"
        b"loop 5 on f2 + with 10 through\nloop 6 on f2 - with 10 through 5\n",
    ),
]
# Files, and the canonical text of each.
TEXT_SPELLINGS = [
    (
        b";!knitout-2\n;;Carriers: 1\nknit + f1 1\nknit + f01 1\nxfer f100 b100\ntuck - b0 1\n",
        b";!knitout-2\n;;Carriers: 1\nknit + f1 1\nknit + f1 1\nxfer f100 b100\ntuck - b0 1\n",
    ),
    (
        b";!knitout-2\n;;Carriers: 1\nxfer  f1 b1\nknit + f1 1\nknit + f1000 1\nknit + f10000 1\nknit + fs1 1",
        b";!knitout-2\n;;Carriers: 1\nxfer f1 b1\nknit + f1 1\nknit + f1000 1\nknit + f10000 1\nknit + fs1 1\n",
    ),
    (
        b";!knitout-2\n;;Carriers: 1 20\nknit + f1 1 20\nmiss - f-01 1\n;a\n  ;b\nknit + f1 20;c\n",
        b";!knitout-2\n;;Carriers: 1 20\nknit + f1 1 20\nmiss - f-1 1\n;a\n;b\nknit + f1 20 ;c\n",
    ),
    (b";!knitout-2\n;;Carriers: 1\nknit + f1 1\nknit + f1 1", b";!knitout-2\n;;Carriers: 1\nknit + f1 1\nknit + f1 1\n"),
]
# Names that are copied, and some that are spelt otherwise.
TEXT_NAMES = [
    (
        b";!knitout-2\n;;Carriers: 1 20\nknit + f1 1 20\ntuck - b10 20\nknit + f1 20 30\nmiss + f1 1 20\n",
        b";!knitout-2\n;;Carriers: 1 20\nknit + f1 1 20\ntuck - b10 20\nknit + f1 20 30\nmiss + f1 1 20\n",
    ),
    (
        b";!knitout-2\n;;Carriers: 1 20\nknit + f1 1  20\nknit + f1 1\t20\nknit + f1 1 20 \ntuck + f1 1 20\r\nknit + f1 1 20",
        b";!knitout-2\n;;Carriers: 1 20\nknit + f1 1 20\nknit + f1 1 20\nknit + f1 1 20\ntuck + f1 1 20\nknit + f1 1 20\n",
    ),
    (
        b";!knitout-2\n;;Carriers: 1 2;\nxfer f1 bs1\nxfer f10 b1 \nxfer f1 b1 1\nknit + f1 1 2;\nknit + f1 2; 1\n",
        b";!knitout-2\n;;Carriers: 1 2;\nxfer f1 bs1\nxfer f10 b1\nxfer f1 b1 1\nknit + f1 1 2;\nknit + f1 2; 1\n",
    ),
]
# A carriage return before a line feed and a `;` are no names, though carriers have these names.
TEXT_ENDS = [
    (b";!knitout-2\r\n;;Carriers: 1\r\nknit + f1 1\r\nxfer f1 b1\r\n\r\n", b";!knitout-2\n;;Carriers: 1\nknit + f1 1\nxfer f1 b1\n\n"),
    (
        b";!knitout-2\n;;Carriers: \r 1\nknit + f1 1\ntuck + f1 \r\ntuck + f1 \r 1\n",
        b";!knitout-2\n;;Carriers: \r 1\nknit + f1 1\ntuck + f1\ntuck + f1 \r 1\n",
    ),
    (
        b";!knitout-2\n;;Carriers: ; \xc3\xa9\ntuck + f1 ;\ntuck + f1 \xc3\xa9\ntuck + f1  \xc3\xa9\n",
        b";!knitout-2\n;;Carriers: ; \xc3\xa9\ntuck + f1 ;\ntuck + f1 \xc3\xa9\ntuck + f1 \xc3\xa9\n",
    ),
]

# How a report begins, and how the program then ends.
ENDINGS = [(b"sound", Status.DONE), (b"broken", Status.BROKEN), (b"bad input", Status.BAD_INPUT)]


class NearlyUsual(EachWay):
    def checked(self, rows: list[tuple[bytes, bytes]], *words: str) -> None:
        for given, report in rows:
            with self.subTest(given):
                status = next(status for front, status in ENDINGS if report.startswith(front))
                self.assertEqual(self.answer("check", *words, given=given), (status, report))

    def written(self, rows: list[tuple[bytes, bytes]]) -> None:
        for given, text in rows:
            with self.subTest(given):
                self.assertEqual(self.text(given), text)

    def test_nearly_usual_needles(self) -> None:
        self.checked(NEEDLES)

    def test_nearly_usual_names(self) -> None:
        self.checked(NAMES)

    def test_nearly_usual_spellings(self) -> None:
        self.checked(SPELLINGS)

    def test_loose_spellings(self) -> None:
        self.checked(LOOSE)

    def test_ends_of_loose_lines(self) -> None:
        self.checked(LOOSE_ENDS)

    def test_lines_behind_a_fault(self) -> None:
        """A file with a bad line is refused for that line alone, also behind a fault."""
        self.checked(FAULTS)

    def test_loops_of_usual_and_other_lines(self) -> None:
        self.checked(LOOPS, "--loops")

    def test_nearly_canonical_spellings(self) -> None:
        self.written(TEXT_SPELLINGS)

    def test_nearly_canonical_names(self) -> None:
        self.written(TEXT_NAMES)

    def test_nearly_canonical_ends(self) -> None:
        self.written(TEXT_ENDS)
