"""Tests of the command `text` on the program check_main: files and lines in their canonical spelling.

`python3 -m unittest discover tests` runs them, on the check_main that TEKHVUMO_PROGRAM names or that is found.
"""
from __future__ import annotations

import unittest

from each_way import EachWay

FILE = b""";!knitout-2
;;Carriers: A B
 in   A   ;bring
knit + f+01 A B
rack -0.50
x-vendor   7  "q"
knit ?
\t;note
\t
"""
TEXT = b""";!knitout-2
;;Carriers: A B
in A ;bring
knit + f1 A B
rack -0.5
x-vendor 7 "q"
knit ?
;note

"""
# Lines that are nearly in their shortest spelling, and some that are. The last one has no line feed.
NEARLY = b""";!knitout-2
;;Carriers: A ;
knit + f1 A
knit + f01 A
knit + f1000 A
knit + f1 A\x20
knit + f1 ;
knit\t- bs0 A
xfer f0 b10
xfer  f0 b10
xfer f00 b10
tuck - b99 A A
tuck - b99 A;"""
NEARLY_TEXT = b""";!knitout-2
;;Carriers: A ;
knit + f1 A
knit + f1 A
knit + f1000 A
knit + f1 A
knit + f1 ;
knit\t- bs0 A
xfer f0 b10
xfer f0 b10
xfer f0 b10
tuck - b99 A A
tuck - b99 A ;
"""
# A line where the carriers A and B are declared, and its spelling.
LINES = [
    (b"rack  1.", b"rack 1"),
    (b"split - b-007 fs+0 B A;x", b"split - b-7 fs0 B A ;x"),
    (b"knit + f1 A", b"knit + f1 A"),
    (b"miss - f0012 ;", b"miss - f12 ;"),
]
# Lines in their shortest spelling are copied, others are read and written. A carriage return is a carrier here, and AB is none.
SHORTEST = [
    (b"knit + f1 A", b"knit + f1 A"),
    (b"tuck - b999 \r", b"tuck - b999 \r"),
    (b"xfer f0 b10", b"xfer f0 b10"),
    (b"knit + f01 A", b"knit + f1 A"),
    (b"knit + f1000 A", b"knit + f1000 A"),
    (b"knit + f1 AB", b"knit + f1 AB"),
    (b"knit + f1 ;", b"knit + f1 ;"),
    (b"knit + f1  ", b"knit + f1"),
    (b"xfer f00 b1", b"xfer f0 b1"),
    (b"xfer f0 b1 ", b"xfer f0 b1"),
]


class Spellings(EachWay):
    def spelt(self, line: bytes, text: bytes, carriers: bytes) -> None:
        """The canonical spelling of a line, which ends with a carriage return and a line feed."""
        with self.subTest(line):
            head = b";!knitout-2\n;;Carriers: " + carriers + b"\n"
            self.assertEqual(self.text(head + line + b"\r\n"), head + text + b"\n")

    def test_writes_files(self) -> None:
        self.assertEqual(self.text(FILE), TEXT)
        self.assertEqual(self.text(NEARLY), NEARLY_TEXT)

    def test_writes_lines(self) -> None:
        for line, text in LINES:
            self.spelt(line, text, b"A B")

    def test_what_is_canonical_at_once(self) -> None:
        for line, text in SHORTEST:
            self.spelt(line, text, b"\r A")


if __name__ == "__main__":
    unittest.main()
