"""All mistakes of a file, and the cures that were tried.

A file of `mistakes` is one of `good`, with one mistake that a knitter makes: its name is that of the good one, two
dashes, and what is wrong.
"""
from __future__ import annotations

import random
import re
import unittest
from pathlib import Path

from tekhvumo import Cure, Finding, findings
from tekhvumo.judge import judged
from tekhvumo.line_rules import broken_rule
from tekhvumo.lines import Source
from tekhvumo.program import Limits, Program, find_program
from tekhvumo.refusals import MAGIC
from tekhvumo.settings import Settings
from tekhvumo.trials import Budget

from .case import HEAD, PROGRAMS, Case, body


class KnittersMistakes(unittest.TestCase):
    """What the first cure, and the first three, make of each program with a mistake."""

    @classmethod
    def setUpClass(cls) -> None:
        cls.program = Program(find_program())
        cls.found: dict[Path, list[Finding]] = {}
        for path in sorted((PROGRAMS / "mistakes").glob("*.k")):
            cls.found[path] = findings(path.read_bytes(), warn=False, name=str(path))

    def canonical(self, data: bytes) -> bytes:
        return self.program.canonical(data.replace(b"\r", b""))[1]

    def place(self, path: Path, cures: tuple[Cure, ...]) -> int:
        """Which of the cures restores the good program, from 1; or 0."""
        good = self.canonical((PROGRAMS / "good" / f"{path.name.partition('--')[0]}.k").read_bytes())
        source = Source("", path.read_bytes())
        return next((at for at, cure in enumerate(cures, 1) if self.canonical(cure.of(source).data) == good), 0)

    def test_the_first_cure_restores_two_in_three(self) -> None:
        places = [self.place(path, found[0].cures) for path, found in self.found.items()]
        self.assertGreaterEqual(len(places), 50)
        self.assertGreaterEqual(places.count(1) / len(places), 0.9)
        self.assertLessEqual(places.count(0), 2)

    def test_one_mistake_is_one_finding(self) -> None:
        for path, found in self.found.items():
            with self.subTest(path.name):
                self.assertEqual(len(found), 1, found)

    def test_a_cure_brings_the_file_further(self) -> None:
        for path, [finding] in self.found.items():
            source = Source("", path.read_bytes())
            for cure in finding.cures:
                with self.subTest(path.name, cure=cure.title):
                    fault = self.program.fault(cure.of(source).data)
                    self.assertTrue(fault is None or fault.line - cure.grows > finding.line)


class AllMistakes(Case):
    def rules(self, lines: str, *words: str) -> list[tuple[int, str]]:
        return [(it["line"], it["rule"]) for it in self.findings(*words, "-", given=body(lines))]

    def test_lines_that_break_a_rule_by_themselves_are_all_told(self) -> None:
        lines = "in 1; knit + f; kntt + f1 1; knit + f1 9; rack 0.3; tuck + f1 1; xfer f1 f2; out 2; drop f9999"
        wanted = [(4, "Unreadable"), (5, "Unreadable"), (6, "NoCarrier"), (7, "RackStep"), (9, "SameBed")]
        self.assertEqual(self.rules(lines), [*wanted, (10, "CarrierIsOut"), (11, "OffBed")])

    def test_two_mistakes_that_need_a_state(self) -> None:
        lines = "in 1; tuck + f1 1; tuck + f2 1; xfer f1 b2; knit + f2 1; xfer f2 b1; knit + f1 1; in 1; out 1"
        self.assertEqual(self.rules(lines), [(6, "NotAligned"), (8, "NotAligned"), (10, "CarrierIsIn")])

    def test_what_a_forgotten_line_explains_is_one_mistake(self) -> None:
        lines = "in 1; tuck + f1 1; tuck + f2 1; xfer f1 b0; xfer f2 b1; knit + f1 1; out 1"
        self.assertEqual(self.rules(lines), [(6, "NotAligned")])

    def test_a_name_that_the_header_lacks_is_one_mistake(self) -> None:
        [finding] = self.findings("-", given=body("; ".join(["in 4", *["tuck + f1 4"] * 6, "out 4"])))
        self.assertEqual((finding["rule"], finding["line"], finding["column"]), ("NoCarrier", 3, 4))
        said = "here and in lines 4, 5, 6, 7, 8, 9, 10; write `;;Carriers: 1 2 3 4` in line 2"
        self.assertIn(said, finding["message"])

    def test_the_line_that_gave_the_hook_its_yarn(self) -> None:
        lines = "inhook 1; tuck + f1 1; knit - f1 1; inhook 2"
        [finding] = self.findings("-", given=body(lines))
        self.assertIn("the hook still holds 1 since line 3; `releasehook 1` above this line", finding["message"])

    def test_a_hook_is_brought_in_where_the_file_uses_it(self) -> None:
        lines = "inhook 1; tuck + f1 1; releasehook 1; tuck + f2 2; tuck - f2 2; releasehook 2; out 1 2"
        [finding] = self.findings("-", given=body(lines))
        self.assertEqual(finding["cures"][0]["lines"], ["inhook 2"])

    def test_numbers_of_lines_are_those_of_the_file(self) -> None:
        # The cure of the first mistake puts a line in, above the second.
        lines = "tuck + f1 1; tuck + f2 1; tuck + f3 1; knit - f3 1; out 1; xfer f1 b2"
        found = self.findings("-", given=body(lines))
        self.assertEqual([(it["line"], it["rule"]) for it in found], [(3, "CarrierIsOut"), (8, "NotAligned")])
        self.assertEqual([(cure["first"], cure["last"]) for cure in found[1]["cures"][:2]], [(8, 8), (8, 8)])

    def test_a_float_is_cut_where_the_file_has_cut_one(self) -> None:
        lines = "inhook 1; tuck + f1 1; releasehook 1; out 1; in 1; tuck + f30 1; tuck + f31 1; tuck - f1 1; out 1"
        [finding] = self.findings("--float", "5", "-", given=body(lines))
        self.assertEqual([cure["lines"] for cure in finding["cures"]], [["out 1", "in 1"], []])

    def test_a_carrier_that_the_lines_beside_have_makes_no_float(self) -> None:
        lines = "in 1 2; tuck + f1 2; tuck + f7 1; tuck + f8 2; tuck + f9 1; out 1 2"
        [finding] = self.findings("--float", "4", "-", given=body(lines))
        self.assertEqual(finding["cures"][0]["title"], "write `1` for `2`")

    def test_a_float_behind_a_loop_that_is_left_out_is_not_told(self) -> None:
        lines = "in 1; tuck + f1 1; tuck + b3 1; xfer b3 fs3; tuck + f3 1; tuck + f5 1; drop fs3; out 1"
        self.assertEqual(self.rules(lines, "--float", "2"), [(7, "SliderHolds")])

    def test_refused_heads_have_cures(self) -> None:
        heads = (";!knitout 2", ";;Carriers: 1"), (f"\ufeff{MAGIC}", ";;Carriers: 1"), (MAGIC, ";; Carriers: 1")
        for first, second in heads:
            with self.subTest(first, second=second):
                text = f"{first}\n{second}\nin 1\nout 1\n"
                [finding] = self.findings("-", given=text)
                lines = text.splitlines()
                cure = finding["cures"][0]
                lines[cure["first"] - 1 : cure["last"]] = cure["lines"]
                self.assertEqual(self.tekhvumo("-", given="\n".join([*lines, ""])), (0, ""))


class LineRules(unittest.TestCase):
    """The rules that are read here say what check_main says."""

    WORDS = (
        "in out inhook outhook releasehook rack knit tuck miss split xfer drop amiss stitch pause x-a kntt + - f1 f2 b1 "
        "fs1 bs2 f b-3 f+04 f1023 f1024 b-1024 b-1025 1 2 3 4 0 0.25 .5 1. -8 8.25 -9 0.3 1e3 ;"
    ).split(" ")

    def test_lines_made_by_chance(self) -> None:
        program, dice = Program(find_program()), random.Random(7)
        for _ in range(250):
            word = dice.choice(self.WORDS[:18])
            line = " ".join([word, *(dice.choice(self.WORDS[17:]) for _ in range(dice.randrange(5)))])
            words = line.partition(";")[0].split()
            said = program.fault(f"{HEAD}{line}\n".encode())
            of_line = broken_rule(words, frozenset("123"), Limits())
            with self.subTest(line):
                if of_line is not None:
                    self.assertEqual(said, (3, *of_line))
                elif said is not None:
                    self.assertRegex(said.rule, re.compile("CarrierIsOut|HookOther|NotAligned"))


class Haste(unittest.TestCase):
    """What is found by few trials, for who waits for the first cures."""

    def hasty(self, data: bytes) -> tuple[list[Finding], int, bool]:
        """The findings, the runs of check_main, and whether there may be more to find."""
        program, budget = Program(find_program()), Budget(len(data), is_hasty=True)
        found = judged(program, Source("a.k", data), Settings(), False, budget).findings
        return found, program.runs, budget.was_short

    def test_a_short_text_has_all_at_once(self) -> None:
        data = body("in 1; tuck + f1 1; knit - f1 1; knit + f1 2; out 1").encode()
        found, _, was_short = self.hasty(data)
        self.assertEqual((found, was_short), (findings(data, warn=False, name="a.k"), False))

    def test_a_long_or_broken_text_costs_few_trials(self) -> None:
        long = ["in 1", *(f"tuck {'+-'[row % 2]} f{needle} 1" for row in range(1500) for needle in range(1, 6))]
        for wrong, count in (("knit + f400 2", 1), ("knti + f1 1", 300), ("out 1", 60)):
            lines = list(long)
            for at in range(1000, 1000 + count):
                lines[at] = wrong
            data = body("; ".join(lines)).encode()
            found, runs, was_short = self.hasty(data)
            self.assertTrue(was_short)
            self.assertLessEqual(runs, 16)
            whole = findings(data, warn=False, name="a.k")
            self.assertEqual((found[0].line, found[0].rule), (whole[0].line, whole[0].rule))
            self.assertLessEqual({it.title for it in found[0].cures}, {it.title for it in whole[0].cures})
            self.assertTrue(found[0].cures)


if __name__ == "__main__":
    unittest.main()
