"""Sources: lines that are counted where they are asked for are those of the whole text, cut."""
from __future__ import annotations

import random
import subprocess
import sys
import unittest

from tekhvumo.judge import judged
from tekhvumo.lines import MANY, Source
from tekhvumo.program import Program, find_program
from tekhvumo.settings import Settings

from .case import BROKEN, HEAD, HERE, Case


def sources(count: int) -> list[Source]:
    """Texts made by chance: short lines and long ones, with a line feed at the end or without."""
    dice = random.Random(11)
    made = []
    for _ in range(count):
        lengths = dice.choices([0, 1, 3, 9, 90, 4000], [6, 6, 6, 6, 2, 0.1], k=dice.choice([0, 1, 2, 30, 400]))
        lines = [bytes(dice.choice(b"ab;\r ") for _ in range(length)) for length in lengths]
        made.append(Source("", b"\n".join([*lines, b""] if lines and dice.random() < 0.5 else lines)))
    return made


class Lines(unittest.TestCase):
    def test_lines_in_any_order(self) -> None:
        dice = random.Random(12)
        for source in sources(60):
            pieces = Source("", source.data).pieces
            self.assertEqual(source.length, len(pieces))
            for number in dice.choices(range(1, len(pieces) + 4), k=40):
                self.assertEqual(source.piece(number), pieces[number - 1] if number <= len(pieces) else b"")
                wanted = sum(len(piece) + 1 for piece in pieces[: number - 1])
                self.assertEqual(source.offset(number), min(wanted, len(source.data)))

    def test_lines_downward_and_upward(self) -> None:
        row = b"knit + f1 1\n"
        for source in (*sources(30), Source("", row * 20_000)):
            pieces = Source("", source.data).pieces
            numbered = list(enumerate(pieces, 1))
            for number in {1, len(pieces) // 2 + 1, max(1, len(pieces))}:
                self.assertEqual(list(source.lines_from(number)), numbered[number - 1 :])
                self.assertEqual(list(source.lines_up(number)), numbered[: number - 1][::-1])

    def test_other_texts_for_few_lines_and_for_many(self) -> None:
        dice = random.Random(13)
        for source in (*sources(30), Source("", b"a\n\n" * MANY)):
            pieces = Source("", source.data).pieces
            for count in (1, 2, 3 * MANY):
                numbers = dice.sample(range(1, len(pieces) + 1), min(count, len(pieces)))
                changed = source.with_texts({number: b"new" for number in numbers})
                wanted = [b"new" if number in numbers else piece for number, piece in enumerate(pieces, 1)]
                self.assertEqual(changed.pieces, wanted)

    def test_other_lines_in_the_place_of_some(self) -> None:
        for source in sources(60):
            pieces = Source("", source.data).pieces
            for first in {1, len(pieces) // 2 + 1, len(pieces) + 1}:
                changed = source.with_lines(first, min(first, len(pieces)), ["x", "y"])
                kept = [changed.raw(number) for number in range(first, first + 2)]
                self.assertEqual(kept, [b"x", b"y"])
                self.assertEqual(changed.piece(changed.length), changed.pieces[-1])


class Start(Case):
    # What takes long to read in, and a verdict doesn't need.
    SLOW = {"dataclasses", "inspect", "pathlib", "subprocess", "fractions", "shutil", "tempfile", "concurrent.futures"}
    OURS = {f"tekhvumo.{name}" for name in ("pictures", "fmt", "refusals")}

    def test_what_a_verdict_does_not_need_is_not_read_in(self) -> None:
        path = self.write("a.k", BROKEN)
        said = "import sys; from tekhvumo.command import main; main(sys.argv[1:]); print(*sorted(sys.modules))"
        words = [sys.executable, "-S", "-c", said, "--program", str(self.program), str(path)]
        ran = subprocess.run(words, capture_output=True, cwd=HERE, check=True)
        self.assertEqual(set(ran.stdout.decode().split()) & (self.SLOW | self.OURS), set())
        self.assertIn("tekhvumo.mistakes", ran.stdout.decode())

    def test_a_long_file_costs_few_runs(self) -> None:
        row = "".join(f"knit + f{place} 1\nknit - f{place} 1\n" for place in range(1, 101))
        for broken in ("xfer f2 b3", "knit + f3 2", "knit + f3 9", "knit + ff3 1", "in 1"):
            program = Program(find_program())
            source = Source("-", f"{HEAD}in 1\n{row * 250}{broken}\nknit + f1 1\nout 1\n".encode())
            [finding] = judged(program, source, Settings(), False).findings
            with self.subTest(broken):
                self.assertEqual(finding.line, 50_004)
                self.assertGreaterEqual(len(finding.cures), 1)
                self.assertLessEqual(program.runs, 4)


if __name__ == "__main__":
    unittest.main()
