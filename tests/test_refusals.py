"""Tests of what the program check_main refuses: heads, words, and inputs that are too large, beside the largest that it takes.

`python3 -m unittest discover tests` runs them, on the check_main that TEKHVUMO_PROGRAM names or that is found.
"""
from __future__ import annotations

import unittest

from program import Status, answer_of
from samples import SCARF, SCARF_VERDICT, file_of

BAD_INPUTS = [
    (b"", b"bad input: head BadMagic\n"),
    (b"\n", b"bad input: head BadMagic\n"),
    (b"\xef\xbb\xbf;!knitout-2\n", b"bad input: head BadMagic\n"),
    (b";!knitout-2\ndrop f1\n", b"bad input: head NoCarriers\n"),
    (b";!knitout-2\n;;Carriers: 1 2 3\n;;Carriers: 4\n", b"bad input: head line 3 TwoCarriers\n"),
    (b";!knitout-2\n;;Carriers: 1 1\n", b"bad input: head line 2 CarrierNameTwice\n"),
    (b";!knitout-2\n\xff\n", b"bad input: line 2 NotUtf8\n"),
]
REFUSED_WORDS = [
    [],
    ["check", "--hold", "65"],
    ["check", "--low", "-64"],
    ["make", "2"],
    ["live", "--json"],
    ["check", "--hold", "2", "--hold", "2"],
]


class Refusals(unittest.TestCase):
    def test_bad_inputs(self) -> None:
        for given, report in BAD_INPUTS:
            with self.subTest(given=given):
                self.assertEqual(answer_of("check", given=given), (Status.BAD_INPUT, report))

    def test_words_that_are_refused(self) -> None:
        report = b"usage: check_main check|text|passes|live|make N START [options]\n"
        for words in REFUSED_WORDS:
            with self.subTest(words=words):
                self.assertEqual(answer_of(*words, given=SCARF), (Status.USAGE, report))
        self.assertEqual(answer_of("check", "--low=-64", given=SCARF), (Status.DONE, SCARF_VERDICT))


def pauses(count: int) -> bytes:
    """A file with so many lines behind its head."""
    return file_of("pause\n" * count)


def head_of(carriers: int) -> bytes:
    """A head that declares so many carriers."""
    return (";!knitout-2\n;;Carriers:" + "".join(f" {number}" for number in range(carriers))).encode()


class Sizes(unittest.TestCase):
    def test_too_many_bytes(self) -> None:
        self.assertEqual(answer_of("check", given=b";" * 4_097), (Status.BAD_INPUT, b"bad input: line 1 LineLong\n"))
        self.assertEqual(answer_of("check", given=b";" * 16_777_217), (Status.TOO_LARGE, b"too large: bytes\n"))

    def test_most_lines(self) -> None:
        report = b"sound lines 1048576 made 0 held 0 rack 0\nin:\nhook:\n"
        self.assertEqual(answer_of("check", given=pauses(1_048_576)), (Status.DONE, report))

    def test_too_many_lines(self) -> None:
        self.assertEqual(answer_of("check", given=pauses(1_048_577)), (Status.TOO_LARGE, b"too large: lines\n"))

    def test_blocks_that_are_too_many(self) -> None:
        report = b"sound lines 65536 made 0 held 0 rack 0\nin:\nhook:\n"
        self.assertEqual(answer_of("check", "--block", "1", given=pauses(65_536)), (Status.DONE, report))
        self.assertEqual(answer_of("check", "--block", "1", given=pauses(65_537)), (Status.TOO_LARGE, b"too large: blocks\n"))

    def test_most_carriers(self) -> None:
        report = b"sound lines 0 made 0 held 0 rack 0\nin:\nhook:\n"
        self.assertEqual(answer_of("check", given=head_of(64)), (Status.DONE, report))
        self.assertEqual(answer_of("check", given=head_of(65)), (Status.BAD_INPUT, b"bad input: head line 2 ManyCarriers\n"))


# A fault on the second line of the body.
FAULT = b";!knitout-2\n;;Carriers: 1\nin 1\nin 1\n"


class BehindAFault(unittest.TestCase):
    """A file is refused for what stands behind the first line that breaks a rule, too."""

    def test_lines_behind_a_fault(self) -> None:
        self.assertEqual(answer_of("check", given=FAULT + b";" * 4_097), (Status.BAD_INPUT, b"bad input: line 5 LineLong\n"))

    def test_blocks_behind_a_fault(self) -> None:
        report = b"broken line 4 rule CarrierIsIn at 1\n> in 1\n"
        self.assertEqual(answer_of("check", "--block", "1", given=FAULT + b"\n" * 65_534), (Status.BROKEN, report))
        self.assertEqual(answer_of("check", "--block", "1", given=FAULT + b"\n" * 65_535), (Status.TOO_LARGE, b"too large: blocks\n"))


if __name__ == "__main__":
    unittest.main()
