"""What is found in a broken or refused file, with its place and its hint."""
from __future__ import annotations

import re
from typing import NamedTuple

from tekhvumo.hints import HINTS
from tekhvumo.lines import MOST_BYTES

from .case import BROKEN, FINDING, HEAD, SOUND, Case, body


class Row(NamedTuple):
    """A program whose last line breaks a rule, the column of the token, and words of the hint."""

    rule: str
    lines: str
    column: int
    says: str
    options: tuple[str, ...] = ()


RULES = [
    Row("Unreadable", "knit + f", 8, "`f` lacks its number"),
    Row("Unreadable", "knit +", 6, "lacks a needle; the form is `knit +|- NEEDLE CARRIER..`"),
    Row("Unreadable", "knti + f1 1", 1, "`knti` is no instruction; did you mean `knit`?"),
    Row("OffBed", "drop f1024", 6, "`--high 1024`"),
    Row("OffBed", "drop b-65", 6, "`--low=-65`", ("--low=-64",)),
    Row("SliderForm", "in 1; knit + fs1 1", 8, "no hook to form a loop with; write `f1` for `fs1`"),
    Row("SameBed", "rack 1; xfer f1 f2", 9, "at rack 1 it is b0 that faces f1"),
    Row("SameBed", "rack 0.25; xfer f1 f2", 9, "loops go over to the other; name a needle of the other bed"),
    Row("TwoSliders", "xfer fs1 bs1", 10, "one has to be a hook; write `b1` for `bs1`"),
    Row("NoCarrier", "in Z", 4, "declared: 1 2 3"),
    Row("CarrierTwice", "in 1 1", 6, "stands in this list already; leave `1` out"),
    Row("RackStep", "rack 0.3", 6, "write `0.25` for `0.3`"),
    Row("RackStep", "rack -1.6", 6, "write `-1.5` for `-1.6`"),
    Row("RackLimit", "rack 8.25", 6, "`--rack 9`"),
    Row("RackLimit", "rack -0010.", 6, "`--rack 10`"),
    Row("CarrierIsOut", "in 2; knit + f1 1", 11, "in: 2); write `2` for `1`"),
    Row("CarrierIsOut", "in 2; tuck + f1 1 2 3", 11, "`in 1 3`"),
    Row("CarrierIsOut", "out 1", 5, "in: none); leave this line out"),
    Row("CarrierIsIn", "in 1; in 2 1", 6, "carrier 1 is in already; leave `1` out"),
    Row("CarrierIsIn", "inhook 1 2; in 1", 4, "carrier 1 is in already; leave this line out"),
    Row("HookBusy", "inhook 1; inhook 2", 1, "still holds 1 since line 3; `releasehook 1`"),
    Row("HookBusy", "inhook 1; outhook 1", 1, "still holds 1 since line 3; `releasehook 1`"),
    Row("HookOther", "inhook 1 2; releasehook 1", 1, "holds 1 2, and lets go of all that it holds; write `releasehook 1 2`"),
    Row("HookOther", "releasehook 1", 1, "holds nothing"),
    Row("CarrierHooked", "inhook 1; out 1", 5, "still holds 1 since line 3; `releasehook 1`"),
    Row(
        "NotAligned",
        "rack 1; xfer f1 b1",
        9,
        "at rack 0, and the rack is 1; write `rack 0` in line 3 (b0 is what faces f1 now)",
    ),
    Row("NotAligned", "rack -0.75; xfer bs3 f5", 10, "at rack 2, and the rack is -0.75; write `rack 2` in line 3"),
    Row("NotAligned", "xfer f20 b1", 10, "at rack 19, and the rack is 0 and at most 8; write `b20` for `b1`"),
    Row(
        "SliderHolds",
        "in 1; tuck + b5 1; xfer b5 fs5; tuck + f5 1",
        8,
        "holds the loop of line 4, which would be caught; `xfer fs5 b5` above this line",
    ),
    Row(
        "TooManyLoops",
        "in 1; tuck + f1 1; tuck + f1 1; tuck + f1 1",
        8,
        "would hold 3 loops, and a needle holds 2; write `f2` for `f1`, or `--hold 3`",
        ("--hold", "2"),
    ),
    Row("TooManyLoops", "in 1; tuck + f1 1; tuck + b1 1; xfer f1 b1", 9, "b1 would hold 2 loops", ("--hold", "1")),
    Row(
        "FloatTooLong",
        "in 1; knit + f1 1; knit + b9 1",
        11,
        "last loop on f1, 8 numbers from b9, and the limit is 5; `tuck + b5 1` above this line, or `--float 8`",
        ("--float", "5"),
    ),
    Row("FloatTooLong", "in 1 2; tuck - f9 2; tuck - f4 1; tuck - f3 1 2", 13, "f9, 6 numbers", ("--float", "5")),
]


class Rules(Case):
    def found(self) -> list[tuple[Row, dict]]:
        """Each row with its one finding, from one run for the rows with the same options."""
        found: list[tuple[Row, dict]] = []
        for options in sorted({row.options for row in RULES}):
            rows = [row for row in RULES if row.options == options]
            names = [self.write(f"{place}.k", body(row.lines)).name for place, row in enumerate(rows)]
            findings = self.findings(*options, *names)
            self.assertEqual([it["file"] for it in findings], names)
            found += zip(rows, findings)
        return found

    def test_each_rule_has_its_finding_column_and_hint(self) -> None:
        for row, finding in self.found():
            with self.subTest(row.lines):
                self.assertEqual((finding["level"], finding["rule"]), ("error", row.rule))
                self.assertEqual((finding["line"], finding["column"]), (body(row.lines).count("\n"), row.column))
                self.assertIn(row.says, finding["message"])
        self.assertEqual({row.rule for row in RULES}, set(HINTS))

    def test_a_finding_is_a_line_of_text(self) -> None:
        status, output = self.tekhvumo("-", given=body("in 2; knit + f1 1"))
        message = "carrier 1 isn't in (in: 2); write `2` for `1`"
        self.assertEqual((status, output), (1, f"-:4:11: error: CarrierIsOut: {message}\n"))

    def test_each_cure_of_a_finding_cures_it(self) -> None:
        for row, finding in self.found():
            for cure in finding["cures"]:
                with self.subTest(row.lines, cure=cure["title"]):
                    lines = body(row.lines).splitlines()
                    lines[cure["first"] - 1 : cure["last"]] = cure["lines"]
                    ran = self.run_command("check_main", "check", *row.options, given="\n".join([*lines, ""]))
                    self.assertEqual(ran.stdout[:5], b"sound")

    def test_the_option_of_a_hint_cures_its_rule(self) -> None:
        for row, finding in self.found():
            option = re.search(r"`--(\w+)[ =](-?[0-9]+)`", finding["message"])
            self.assertEqual(option is not None, row.rule in ("OffBed", "RackLimit", "TooManyLoops", "FloatTooLong"))
            if option:
                with self.subTest(row.lines):
                    ran = self.run_command("check_main", "check", f"--{option[1]}={option[2]}", given=body(row.lines))
                    self.assertEqual(ran.stdout[:5], b"sound")

    def test_a_cure_that_breaks_another_line_is_left_out(self) -> None:
        # b5 holds as many loops as it may, so that the loop on the slider can't go there.
        lines = "in 1; tuck + b5 1; xfer b5 fs5; tuck + b5 1; tuck + f5 1"
        [finding] = self.findings("--hold", "1", "-", given=body(lines))
        self.assertEqual(finding["rule"], "SliderHolds")
        self.assertNotIn("xfer fs5 b5", [line for cure in finding["cures"] for line in cure["lines"]])

    def test_columns_count_characters(self) -> None:
        text = ";!knitout-2\n;;Carriers: yarn 2\nin yarn\n\ttuck  + f1 yarn 2 ; yarn\n".replace(
            "yarn", "\u00e9\U0001f9f6"
        )
        [finding] = self.findings("-", given=text)
        self.assertEqual(
            (finding["rule"], finding["line"], finding["column"], finding["end_column"]), ("CarrierIsOut", 4, 16, 17)
        )

    def test_carriage_returns_and_control_characters(self) -> None:
        [finding] = self.findings("-", given=SOUND.replace("\n", "\r\n") + "a\x1b[2J\r\n")
        self.assertEqual((finding["rule"], finding["line"]), ("Unreadable", 6))
        self.assertIn("`a\\x1b[2J`", finding["message"])


class Refusal(NamedTuple):
    """A text that is refused: the cause, its line and column, words of the hint, and the status."""

    cause: str
    text: bytes
    line: int
    column: int
    says: str
    status: int = 3


REFUSALS = [
    Refusal("BadMagic", b"", 1, 1, "the first line is empty"),
    Refusal("BadMagic", b";!knitout-3\n", 1, 1, "`;!knitout-3`"),
    Refusal("BadMagic", b"\xef\xbb\xbf" + SOUND.encode(), 1, 1, "byte-order mark"),
    Refusal("NoCarriers", b";!knitout-2\ndrop f1\n", 1, 1, "write one below the first line"),
    Refusal("NoCarriers", b";!knitout-2\ndrop f1\n;;Carriers: 1\n", 3, 1, "of line 3 stands below"),
    Refusal("NoCarriers", b";!knitout-2\n;Machine: X\n;; Carriers: 1 2\n", 3, 1, "`;; Carriers: 1 2` declares nothing"),
    Refusal("NoCarriers", b";!knitout-2\n;;carrier: 1 2\ndrop f1\n", 2, 1, "has to begin with `;;Carriers:`"),
    Refusal("NoCarriers", b";!knitout-2\n ;;Carriers: 1 2\ndrop f1\n", 2, 1, "has to begin with `;;Carriers:`"),
    Refusal("BadMagic", b"; !knitout-2\n;;Carriers: 1\n", 1, 1, "the first line is `; !knitout-2`"),
    Refusal("BadMagic", b"\n;!knitout-2\n;;Carriers: 1\n", 1, 1, "line 2 is meant as the first one"),
    Refusal("TwoCarriers", b";!knitout-2\n;;Carriers: 1\n\n;;Carriers: 2\n", 4, 1, "write all names into one"),
    Refusal("CarrierNameTwice", b";!knitout-2\n;;Carriers: 1 2 1\n", 2, 17, "1 is declared already"),
    Refusal(
        "ManyCarriers",
        b";!knitout-2\n;;Carriers:" + b"".join(b" %d" % it for it in range(10, 75)) + b"\n",
        2,
        205,
        "74 is one name too many",
    ),
    Refusal("NotUtf8", HEAD.encode() + b"; \xc3\xa9\xff\n", 3, 4, "0xff"),
    Refusal("LineLong", HEAD.encode() + b"; " + "\u00e9".encode() * 2048 + b"\n", 3, 2050, "4096 bytes"),
    Refusal("TooLarge", HEAD.encode() + b"\n" * MOST_BYTES, 1, 1, "16777216 bytes", 7),
]


class Refusals(Case):
    def test_each_refusal_is_a_finding(self) -> None:
        for row in REFUSALS:
            with self.subTest(row.says):
                status, output = self.tekhvumo("-", given=row.text)
                name, line, column, level, rule, message = FINDING.fullmatch(output).groups()
                self.assertEqual((rule, int(line), int(column), status), (row.cause, row.line, row.column, row.status))
                self.assertIn(row.says, message)

    def test_files_that_cannot_be_read(self) -> None:
        (self.room / "folder.k").mkdir()
        self.write("binary.k", b"\x89PNG\xff")
        self.write("a file with blanks.k", BROKEN)
        status, output = self.tekhvumo("folder.k", "absent.k", "binary.k", "a file with blanks.k")
        said = [FINDING.fullmatch(f"{line}\n").group(1, 5) for line in output.splitlines()]
        self.assertEqual(
            said,
            [
                ("folder.k", "ReadFault"),
                ("absent.k", "ReadFault"),
                ("binary.k", "NotUtf8"),
                ("a file with blanks.k", "CarrierIsIn"),
            ],
        )
        self.assertEqual(status, 4)

    def test_what_is_no_file_of_the_command(self) -> None:
        for words in (["--low=5", "--high=3", "-"], ["--jobs", "0", "-"], ["--ignore", "NoSuch", "-"], []):
            self.assertEqual(self.tekhvumo(*words, given=SOUND), (2, ""))
        self.assertEqual(self.tekhvumo("--program", "/nowhere/check_main", "-", given=SOUND), (2, ""))

    def test_a_program_that_ends_without_an_answer(self) -> None:
        for does, status, rule in (
            ("exit 6", 6, "NoMemory"),
            ("exit 5", 5, "NoAnswer"),
            ("kill -9 $$", 137, "NoAnswer"),
        ):
            mute = self.write(f"mute{status}", f"#!/bin/sh\n{does}\n")
            mute.chmod(0o755)
            ended, output = self.tekhvumo("--program", str(mute), "-", given=SOUND)
            self.assertEqual((ended, FINDING.fullmatch(output)[5]), (status, rule))
        self.assertEqual(self.tekhvumo("--program", "/bin/cat", "-", given=SOUND), (2, ""))
