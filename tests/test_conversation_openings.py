"""Tests of the command `serve` on random openings, most of which are refused: what is said, told line by line by a program of our own.

`python3 -m unittest discover tests` runs them, on the check_main that TEKHVUMO_PROGRAM names or that is found.
"""
from __future__ import annotations

import random
import re
import unittest

from conversation_lines import fault_of, lines_of, number_in
from conversations import conversed, replies_in
from program import Answer, answer_of

OPENING = b"serve 1 lines 6\n|;!knitout-2\n# a remark\n|;;Carriers: 1 2\n\n|; head or body\n|in 1\n|tuck + f1 1\n|out 1\nverdict\n"
PARTS = [b"|", b"|in 1", b"|;;Carriers: 1 2", b"|;!knitout-2", b"|; more", b"verdict", b"# |", b" ", b"\xff", b"|\xff", b"|".ljust(4_097)]
FIRST = b"serve 1 lines 5,serve  1\tlines 06 , serve 1 lines 7,serve 1 lines 0,serve 1 line 6,serve 1 lines,live 1,".split(b",")


def asked_in(line: bytes) -> int | None:
    """How many text lines the first line asks for."""
    words = re.findall("[^ \t]+", line.decode())
    return number_in(words[3]) if len(words) == 4 and words[:3] == ["serve", "1", "lines"] else None


def opening_in(given: bytes) -> list[bytes] | str:
    """The lines of the opening text, or why there is none."""
    texts: list[bytes] = []
    asked: int | None = None
    lines = lines_of(given)
    for number, line in enumerate(lines, 1):
        if fault := fault_of(line):
            return f"line {number} {fault}"
        if number == 1:
            asked = asked_in(line)
        elif line.startswith(b"|"):
            texts.append(line[1:])
        elif line.strip(b" \t") and not line.startswith(b"#"):
            return f"script line {number} BadLine"
        if asked is None:
            return "script line 1 NoServe"
        if len(texts) == asked:
            return texts
    return f"script line {len(lines) + 1} BadLine" if lines else "script line 1 NoServe"


def some_opening(choice: random.Random) -> bytes:
    """An opening with some lines lost, doubled, changed and cut off."""
    lines = OPENING.split(b"\n")[:-1]
    for _ in range(choice.randrange(4)):
        at = choice.randrange(len(lines))
        ways = [[], [lines[at]] * 2, [choice.choice(PARTS)], [choice.choice(PARTS), lines[at]], [lines[at][1:]], [lines[at] + b" "]]
        lines[at : at + 1] = choice.choice(ways)
    if choice.random() < 0.3:
        lines[:1] = [choice.choice(FIRST)]
    given = b"".join(line + choice.choice([b"\n", b"\n", b"\r\n"]) for line in lines)
    return given if choice.random() < 0.7 else given[: choice.randrange(len(given) + 1)]


class Openings(unittest.TestCase):
    def judge(self, given: bytes, answer: Answer) -> str:
        """Hands out how the conversation began."""
        opening = opening_in(given)
        if isinstance(opening, str):
            self.assertEqual(answer, (3, f"bad input: {opening}\n".encode()))
            return opening.split()[-1]
        status, report = answer_of("check", given=b"".join(text + b"\n" for text in opening))
        if status == 3:
            self.assertEqual(answer, (3, report))
            return report.decode().split()[-1]
        opened = replies_in(answer.report)[0].split(b"\n")[0]
        self.assertEqual((answer.status, opened.split(b" ", 5)[5]), (0, report.split(b"\n")[0]))
        return "opened"

    def test_random_openings(self) -> None:
        found = set()
        for seed in range(300):
            given = some_opening(random.Random(seed))
            with self.subTest(seed=seed, given=given):
                found.add(self.judge(given, conversed(given)))
        causes = {"NoServe", "BadLine", "LineLong", "NotUtf8", "BadMagic", "NoCarriers", "TwoCarriers"}
        self.assertEqual(found, {*causes, "opened"})


if __name__ == "__main__":
    unittest.main()
