"""What is warned of, and what not.

A file of `warned` has the name of the warning that it deserves; those of `good` deserve none.
"""
from __future__ import annotations

from collections import Counter
from pathlib import Path

from tekhvumo.instructions import instructions
from tekhvumo.lines import Needle, Source
from tekhvumo.program import Program, State, find_program
from tekhvumo.warning_names import WARNINGS
from tekhvumo.warnings.machine import Machine

from .case import PROGRAMS, TOP, Case, body


class Warnings(Case):
    LINES = "in 1; tuck + f1; knit + f1; split + f1 b1; knit + f2 1; xfer f3 b3; xfer f2 bs2; inhook 2"
    FOUND = [
        (3, 4, "CarrierLeftIn"),
        (4, 1, "ForgottenCarrier"),
        (5, 1, "ForgottenCarrier"),
        (6, 1, "ForgottenCarrier"),
        (6, 9, "EmptyNeedle"),
        (7, 8, "EmptyNeedle"),
        (8, 6, "EmptyNeedle"),
        (9, 9, "LoopOnSlider"),
        (10, 8, "CarrierUnused"),
        (10, 8, "CarrierLeftIn"),
        (10, 8, "HookLeftHolding"),
    ]

    def places(self, *words: str, lines: str) -> list[tuple[int, int, str]]:
        found = self.findings(*words, "-", given=body(lines))
        return [(it["line"], it["column"], it["rule"]) for it in found if it["level"] == "warning"]

    def test_each_warning(self) -> None:
        self.assertEqual(self.places("--warn", lines=self.LINES), self.FOUND)

    def test_each_warning_can_be_ignored(self) -> None:
        for name in {rule for _, _, rule in self.FOUND}:
            rest = [place for place in self.FOUND if place[2] != name]
            self.assertLess(len(rest), len(self.FOUND))
            self.assertEqual(self.places("--warn", "--ignore", name, lines=self.LINES), rest)

    def test_statuses(self) -> None:
        for words, status in ((["--warn"], 0), (["--strict"], 1), (["--strict", "--ignore", "CarrierLeftIn"], 0)):
            self.assertEqual(self.tekhvumo(*words, "-", given=body("in 1; tuck + f1 1"))[0], status)

    def test_no_warning_without_being_asked(self) -> None:
        self.assertEqual(self.tekhvumo("-", given=body(self.LINES)), (0, ""))

    def test_a_needle_that_comes_twice_in_a_row_of_transfers(self) -> None:
        lines = "in 1; tuck + f1 1; out 1; xfer f1 b1; xfer f1 b1; xfer b1 f1; rack 1; xfer f1 b0; xfer b1 f2; rack 0"
        self.assertEqual(self.places("--warn", lines=lines), [(7, 6, "EmptyNeedle"), (11, 6, "EmptyNeedle")])

    def test_the_lines_above_a_broken_one(self) -> None:
        found = self.findings("--warn", "-", given=body("in 1; knit + f1 1; xfer f2 b2; in 1; knit + f3"))
        self.assertEqual(
            [(it["line"], it["rule"]) for it in found], [(4, "EmptyNeedle"), (5, "EmptyNeedle"), (6, "CarrierIsIn")]
        )

    def test_the_examples(self) -> None:
        self.assertEqual(
            self.tekhvumo("--strict", *(f"{TOP}/examples/{name}.k" for name in ("rib", "swatch", "tube"))), (0, "")
        )

    def test_good_programs_are_not_warned_of(self) -> None:
        self.assertGreaterEqual(len(list((PROGRAMS / "good").glob("*.k"))), 30)
        self.assertEqual(self.tekhvumo("--strict", f"{PROGRAMS}/good"), (0, ""))

    def test_each_warning_has_a_program_that_deserves_it(self) -> None:
        names = {path.stem for path in (PROGRAMS / "warned").glob("*.k")}
        self.assertEqual(names, set(WARNINGS))
        found: dict[str, list[dict]] = {name: [] for name in names}
        for finding in self.findings("--warn", "--also", "KnitCastOn", f"{PROGRAMS}/warned"):
            found[Path(finding["file"]).stem].append(finding)
        for name, warnings in found.items():
            with self.subTest(name):
                self.assertIn(name, [it["rule"] for it in warnings])
                path = f"{PROGRAMS}/warned/{name}.k"
                rest = self.findings("--warn", "--ignore", name, path)
                self.assertEqual([it["rule"] for it in rest], [it["rule"] for it in warnings if it["rule"] != name])

    def test_a_float_is_as_long_as_one_says(self) -> None:
        lines = "in 1; tuck + f1 1; tuck + f9 1; knit - f9 1; knit - f1 1; out 1"
        self.assertEqual(self.places("--warn", lines=lines), [])
        self.write(".tekhvumo.toml", "longest_float = 7")
        found = [(5, 11, "LongFloat"), (7, 11, "LongFloat")]
        self.assertEqual(self.places("--warn", lines=lines), found)
        self.assertEqual(self.places("--warn", "--float", "8", lines=lines), found)

    def test_a_float_within_the_limit_is_no_long_one(self) -> None:
        lines = "in 1; tuck + f1 1; tuck + f20 1; knit - f20 1; knit - f1 1; out 1"
        self.assertEqual(self.places("--warn", lines=lines), [(5, 12, "LongFloat"), (7, 11, "LongFloat")])
        self.assertEqual(self.places("--warn", "--float", "19", lines=lines), [])

    def test_a_float_beyond_the_limit_is_told_once(self) -> None:
        lines = "in 1; tuck + f1 1; tuck + f20 1; knit - f20 1; knit - f1 1; out 1"
        found = self.findings("--warn", "--float", "18", "-", given=body(lines))
        self.assertEqual([(it["line"], it["rule"]) for it in found], [(5, "FloatTooLong"), (7, "FloatTooLong")])

    def test_loops_are_where_check_main_has_them(self) -> None:
        program = Program(find_program())
        for path in (*(PROGRAMS / "good").glob("*.k"), *(PROGRAMS / "warned").glob("*.k"), TOP / "examples" / "rib.k"):
            source, machine = Source("", path.read_bytes()), Machine()
            for number, instruction in instructions(source, len(source.pieces) + 1):
                machine.carry_out(number, instruction)
            state = State.of(program.check(source.data).verdict)
            held: Counter[Needle] = Counter({needle: len(lines) for needle, lines in state.needles.items()})
            with self.subTest(path.name):
                self.assertEqual(machine.loops, held)
                self.assertEqual(machine.rack, float(state.rack))
                self.assertEqual((set(machine.inside), set(machine.hook)), (set(state.carriers), set(state.hook)))
