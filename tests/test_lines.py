"""Tests of the lines of a file on the program check_main: where they end, which one is refused, how many they are, and which of them are a
block's.

`python3 -m unittest discover tests` runs them, on the check_main that TEKHVUMO_PROGRAM names or that is found.
"""
from __future__ import annotations

import unittest

from each_way import LINE_LIMIT, EachWay
from program import Answer, answer_of

HEAD = b";!knitout-2\n;;Carriers: 1\n"
NOTHING = b"made 0 held 0 rack 0\nin:\nhook:\n"

# A text, and its lines.
CUT = [
    (b"", []),
    (b"\n", [b""]),
    (b"a\r\nb", [b"a", b"b"]),
    (b"\r", [b""]),
    (b"a\r\r\n\rb\n\n", [b"a\r", b"\rb", b""]),
    (b"\t\n\xef\xbb\xbf;\0\n", [b"\t", b"\xef\xbb\xbf;\0"]),
    (b"in 1\r\n;\xc3\xa9\r\nout 1", [b"in 1", b";\xc3\xa9", b"out 1"]),
]

LONGEST = b"a" * LINE_LIMIT
TOO_LONG = b"a" * (LINE_LIMIT + 1)
# A file, and what is refused of it: its head, where each line is good.
REFUSED = [
    (LONGEST + b"\r\n", "head BadMagic"),
    (TOO_LONG + b"\n\xff", "line 1 LineLong"),
    (TOO_LONG + b"\nb", "line 1 LineLong"),
    (b"a\n\xff\n", "line 2 NotUtf8"),
    (TOO_LONG + b"\xff", "line 1 NotUtf8"),
]

# Of five lines the fourth is bad, and the last one has no line feed.
FIVE_LINES = b"a\r\n\n\r\r\n\xff\nb"
# From this byte to that one, and what is said of these lines where they stand behind three others.
FOUND = [
    (0, 11, "bad input: line 7 NotUtf8"),
    (0, 7, "broken line 4 rule Unreadable at 0\n> a"),
    (1, 7, "broken line 6 rule Unreadable at 0\n> \r"),
    (3, 7, "broken line 5 rule Unreadable at 0\n> \r"),
    (4, 7, "broken line 4 rule Unreadable at 0\n> \r"),
    (7, 11, "bad input: line 4 NotUtf8"),
    (9, 11, "broken line 4 rule Unreadable at 0\n> b"),
]
# A head, and how many lines it has.
HEADS = [
    (b";!knitout-2\n;;Carriers:", 2),
    (b";!knitout-2\n;;Carriers:\r\n", 2),
    (b";!knitout-2\r\n\n;\r\r\n;;Carriers:\n", 4),
]


class Cut(EachWay):
    def test_lines_are_cut(self) -> None:
        """`text` writes lines of the head as they are, and lines of the body that say nothing."""
        for given, lines in CUT:
            with self.subTest(given):
                self.assertEqual(self.text(HEAD + given), HEAD + b"".join(line + b"\n" for line in lines))

    def test_the_first_bad_line_is_named(self) -> None:
        for given, said in REFUSED:
            for command in ("check", "text", "passes"):
                with self.subTest(said, command=command):
                    self.assertEqual(answer_of(command, given=given), (3, f"bad input: {said}\n".encode()))

    def test_lines_are_found_one_by_one(self) -> None:
        for start, end, said in FOUND:
            with self.subTest(said):
                status = 3 if said.startswith("bad") else 1
                answer = self.answer("check", given=HEAD + b"pause\n" + FIVE_LINES[start:end])
                self.assertEqual(answer, (status, said.encode() + b"\n"))

    def test_lines_are_passed_over(self) -> None:
        """The lines of a head, whichever end they have, and all that there is where no line follows."""
        for head, lines in HEADS:
            with self.subTest(head):
                self.assertEqual(answer_of("check", given=head), (0, b"sound lines 0 " + NOTHING))
                told = f"broken line {lines + 1} rule Unreadable at 0\n> b\n".encode()
                self.assertEqual(answer_of("check", given=head.removesuffix(b"\n") + b"\nb"), (1, told))


class Counted(unittest.TestCase):
    """Lines behind a fault are counted, and nothing else is asked of them but that they are good: a body has at most 1,048,576."""

    def behind_a_fault(self, given: bytes, before: int) -> Answer:
        """What is said where the line at fault and so many others stand before these: the fault is on line 4, the others come from 5 on."""
        return answer_of("check", given=HEAD + b"in 1\nin 1\n" + b"\n" * before + given)

    def count(self, given: bytes, count: int) -> None:
        """So many good lines: with as many others as there may be, and with one more."""
        spare = 1_048_576 - 2 - count
        fault = b"broken line 4 rule CarrierIsIn at 1\n> in 1\n"
        self.assertEqual(self.behind_a_fault(given, spare), (1, fault))
        self.assertEqual(self.behind_a_fault(given, spare + 1), (7, b"too large: lines\n"))

    def test_good_lines_are_counted(self) -> None:
        for given, count in [(b"", 0), (b"\n\n", 2), (b"a\r\n\xc3\xa9\nb\nc", 4)]:
            with self.subTest(given):
                self.count(given, count)
        self.assertEqual(self.behind_a_fault(FIVE_LINES, 100), (3, b"bad input: line 108 NotUtf8\n"))

    def test_the_longest_line_is_counted(self) -> None:
        self.count(LONGEST + b"\nb\n", 2)
        self.assertEqual(self.behind_a_fault(TOO_LONG + b"\nb\n", 100), (3, b"bad input: line 105 LineLong\n"))


class Blocks(unittest.TestCase):
    """Lines of the opening, in blocks of so many, and what `look` shows of one block."""

    def look(self, body: list[bytes], size: int, block: int, shown: bytes) -> None:
        opening = b"live 1\n|;!knitout-2\n|;;Carriers: 1\n" + b"".join(b"|" + line for line in body)
        told = answer_of("live", "--block", str(size), given=opening + b"session\nlook %d\nlook %d\n" % (block, block))
        replies = b"session 0\n" + b"".join(b"%d shown version 0 block %d stamp 0 first " % (at, block) + shown for at in (1, 2))
        self.assertEqual((told.status, told.report.partition(b"journal ")[0]), (0, replies))

    def test_a_block_is_taken_from_the_middle(self) -> None:
        """The line ends between the lines are no part of them."""
        self.look([b"in 1\n", b"a\r\n", b"bc\r\n", b"\xc3\xa9\n", b"d\n"], 2, 1, b"5 lines 2\n|bc\n|\xc3\xa9\n")

    def test_lines_share_a_buffer(self) -> None:
        self.look([b"in 1\n", b"\n", b"knit + f1 1\n", b"out 1\n"], 3, 0, b"3 lines 3\n|in 1\n|\n|knit + f1 1\n")

    def test_some_lines_are_copied(self) -> None:
        self.look([b"in 1\n", b"|\xc3\xa9\n", b"out 1\n"], 1, 1, b"4 lines 1\n||\xc3\xa9\n")

    def test_a_block_has_its_lines(self) -> None:
        self.look([b"in 1\n", b"pause\n", b"knit + f1 1\n", b"out 1\n"], 2, 1, b"5 lines 2\n|knit + f1 1\n|out 1\n")


if __name__ == "__main__":
    unittest.main()
