"""Tests of `--float` on the program check_main: two loops that a carrier forms one after the other lie at most so many numbers apart.

`python3 -m unittest discover tests` runs them, on the check_main that TEKHVUMO_PROGRAM names or that is found.
"""
from __future__ import annotations

import unittest

from program import EXAMPLES, Status, answer_of
from samples import file_of

SIZES = ("1", "2", "3", "4")


def text_of(body: str, carriers: str) -> bytes:
    """A program of lines that are parted by semicolons. The first of the body is line 3."""
    return f";!knitout-2\n;;Carriers: {carriers}\n{body}\n".replace("; ", "\n").encode()


class Floats(unittest.TestCase):
    def verdict(self, limit: int, body: str, *words: str, carriers: str = "1 2") -> str:
        """The first line of the verdict, which is the same in blocks of each size."""
        text = text_of(body, carriers)
        whole = answer_of("check", f"--float={limit}", *words, given=text)
        for size in SIZES:
            self.assertEqual(answer_of("check", f"--float={limit}", *words, "--block", size, given=text), whole)
        first = whole.report.decode().splitlines()[0]
        self.assertEqual(whole.status, 0 if first.startswith("sound ") else 1)
        return first

    def keeps(self, limit: int, body: str, *words: str) -> None:
        """A body whose floats the limit allows."""
        with self.subTest(body, limit=limit):
            self.assertRegex(self.verdict(limit, body, *words), "^sound ")

    def breaks(self, limit: int, body: str, at: int, *words: str, rule: str = "FloatTooLong") -> None:
        """A body whose last line breaks a rule at a place, and that is sound without a limit on floats if that is the rule."""
        with self.subTest(body, limit=limit):
            last = 3 + body.count("; ")
            self.assertEqual(self.verdict(limit, body, *words), f"broken line {last} rule {rule} at {at}")
            if rule == "FloatTooLong":
                self.assertEqual(answer_of("check", *words, given=text_of(body, "1 2")).status, 0)


FAR = file_of("in 1\ntuck + f1 1\ntuck + f5 1\n")
FAR_VERDICT = b"broken line 5 rule FloatTooLong at 3\n> tuck + f5 1\n"
NEAR = file_of("in 1\ntuck + f1 1\ntuck + f4 1\n")
NEAR_VERDICT = b"sound lines 3 made 2 held 2 rack 0\nin: 1\nhook:\nf1: 4\nf4: 5\n"
PAST_A_MISS = file_of("in 1\ntuck + f1 1\nmiss + f3 1\ntuck + f5 1\n")
PAST_A_MISS_VERDICT = b"broken line 6 rule FloatTooLong at 3\n> tuck + f5 1\n"
IN_ANEW = file_of("in 1\ntuck + f1 1\nout 1\nin 1\ntuck + f9 1\n")
IN_ANEW_VERDICT = b"sound lines 5 made 2 held 2 rack 0\nin: 1\nhook:\nf1: 4\nf9: 7\n"


class Verdicts(Floats):
    def test_a_limit_on_floats(self) -> None:
        for words in (["check", "--float", "3"], ["check", "--float=3", "--block=1"]):
            with self.subTest(words=words):
                self.assertEqual(answer_of(*words, given=FAR), (Status.BROKEN, FAR_VERDICT))
                self.assertEqual(answer_of(*words, given=NEAR), (Status.DONE, NEAR_VERDICT))
                self.assertEqual(answer_of(*words, given=PAST_A_MISS), (Status.BROKEN, PAST_A_MISS_VERDICT))
                self.assertEqual(answer_of(*words, given=IN_ANEW), (Status.DONE, IN_ANEW_VERDICT))
        self.assertEqual(answer_of("check", given=FAR).status, Status.DONE)
        self.assertEqual(answer_of("check", "--float", "0", given=NEAR).status, Status.USAGE)

    def test_a_float_that_is_too_long(self) -> None:
        told = b"broken line 5 rule FloatTooLong at 3\n> tuck + f5 1\n"
        for words in ([], *(["--block", size] for size in SIZES)):
            answer = answer_of("check", "--float", "3", *words, given=text_of("in 1; tuck + f1 1; tuck + f5 1", "1"))
            self.assertEqual(answer, (1, told))

    def test_a_float_as_long_as_it_may_be(self) -> None:
        told = b"sound lines 3 made 2 held 2 rack 0\nin: 1\nhook:\nf1: 4\nf4: 5\n"
        for words in ([], *(["--block", size] for size in SIZES)):
            answer = answer_of("check", "--float", "3", *words, given=text_of("in 1; tuck + f1 1; tuck + f4 1", "1"))
            self.assertEqual(answer, (0, told))

    def test_the_edge(self) -> None:
        for limit in (1, 2, 5, 2047):
            for step in (1, -1):
                first = -1024 if step == 1 else 1023
                for beds in ("ff", "fb", "bf", "bb"):
                    body = f"in 1; tuck + {beds[0]}{first} 1; knit - {beds[1]}"
                    self.keeps(limit, f"{body}{first + step * limit} 1")
                    if limit < 2047:
                        self.breaks(limit, f"{body}{first + step * (limit + 1)} 1", 3)
        wide = "in 1; tuck + f-4096 1; tuck + f4096 1"
        self.keeps(8192, wide, "--low=-4096", "--high=4096")
        self.breaks(8191, wide, 3, "--low=-4096", "--high=4096")

    def test_each_instruction_that_forms_a_loop(self) -> None:
        for word in ("knit", "tuck", "split"):
            target = " b9" if word == "split" else ""
            at = 4 if word == "split" else 3
            self.breaks(7, f"in 1; tuck + f1 1; {word} + f9{target} 1", at)
            self.keeps(8, f"in 1; tuck + f1 1; {word} + f9{target} 1")
            # and what is measured from is the needle of the loop, not that of the loops that went over
            self.breaks(7, f"in 1; {word} + f9{target} 1; tuck - f1 1", 3)
        self.keeps(2, "in 1; rack 3; split + f4 b1 1; tuck + f6 1")
        self.breaks(2, "in 1; rack 3; split + f4 b1 1; tuck + f1 1", 3)

    def test_the_json(self) -> None:
        told = b'{"at":3,"line":5,"rule":"FloatTooLong","text":"tuck + f5 1","verdict":"broken"}\n'
        text = text_of("in 1; tuck + f1 1; tuck + f5 1", "1")
        self.assertEqual(answer_of("check", "--float", "3", "--json", given=text), (1, told))


class Carriers(Floats):
    def test_each_carrier_of_a_line_is_asked(self) -> None:
        both = "in 1 2; tuck + f1 1; tuck + f5 2"
        self.breaks(3, f"{both}; tuck + f5 1 2", 3)
        self.breaks(3, f"{both}; tuck + f5 2 1", 4)
        self.breaks(3, f"{both}; tuck + f1 1 2", 4)
        self.breaks(3, f"{both}; split + f1 b1 1 2", 5)
        self.keeps(3, f"{both}; tuck + f3 1 2")

    def test_of_several_the_first_as_written(self) -> None:
        self.breaks(3, "in 1 2; tuck + f1 1 2; tuck + f9 2 1", 3)
        self.breaks(3, "in 1 2; tuck + f1 2 1; knit + f9 1 2", 3)

    def test_each_carrier_has_its_own(self) -> None:
        self.keeps(2, "in 1 2; tuck + f1 1; tuck + f9 2; tuck + f2 1; tuck + f8 2; tuck + f4 1")
        self.breaks(2, "in 1 2; tuck + f1 1; tuck + f9 2; tuck + f4 1", 3)

    def test_all_carriers_of_a_loop_are_there(self) -> None:
        self.breaks(3, "in 1 2; tuck + f1 1 2; tuck + f5 2", 3)
        self.breaks(3, "in 1 2; tuck + f1 1 2; tuck + f2 2; tuck + f5 1", 3)

    def test_sixty_four_carriers(self) -> None:
        names = [f"c{number}" for number in range(64)]
        every, most = " ".join(names), " ".join(names[:63])
        body = f"in {every}; tuck + f1 {every}; tuck + f2 {most}; tuck + f5 {every}"
        self.assertEqual(self.verdict(3, body, carriers=every), "broken line 6 rule FloatTooLong at 66")

    def test_what_ends_a_float(self) -> None:
        for cut in ("out 1; in 1", "outhook 1; in 1", "out 1; inhook 1", "outhook 1; inhook 1; releasehook 1"):
            self.keeps(1, f"in 1; tuck + f1 1; {cut}; tuck + f9 1")
        # the carrier that goes out, and no other
        self.breaks(1, "in 1 2; tuck + f1 1 2; out 2; in 2; tuck + f9 1", 3)
        self.keeps(1, "in 1 2; tuck + f1 1 2; out 2; in 2; tuck + f9 2")
        self.keeps(1, "in 1; tuck + f9 1; out 1; in 1; tuck + f1 1; knit - f2 1")

    def test_what_ends_none(self) -> None:
        moves = ("miss + f5 1", "miss + f9 1", "amiss f5", "tuck + f5", "knit + f5", "drop f1", "xfer f1 b1", "rack 1", "rack 8; rack 0")
        others = ("inhook 2; releasehook 2", "in 2; tuck + f9 2; out 2", "pause", "stitch 10 20", "x-go f5 1", ";a comment", "")
        for lines in (*moves, *others):
            self.breaks(7, f"in 1; tuck + f1 1; {lines}; tuck + f9 1", 3)

    def test_a_carrier_without_a_loop_floats_nowhere(self) -> None:
        self.keeps(1, "in 1; miss + f1 1; miss + f9 1; knit + f20 1; miss - f1 1; out 1")


class Distance(Floats):
    def test_the_number_alone_counts(self) -> None:
        """Which bed it is, and to where that is racked, count nothing."""
        self.breaks(7, "in 1; tuck + f1 1; tuck + b9 1", 3)
        self.keeps(8, "in 1; tuck + f1 1; tuck + b9 1")
        self.keeps(1, "in 1; tuck + f3 1; tuck + b3 1; knit - f3 1")
        self.keeps(1, "in 1; rack -8; tuck + f1 1; tuck + b2 1")
        self.breaks(3, "in 1; rack 4; tuck + f5 1; tuck + b1 1", 3)
        self.breaks(3, "in 1; tuck + f-2 1; tuck - b2 1", 3)
        self.keeps(4, "in 1; tuck + f-2 1; tuck - b2 1")

    def test_a_loop_that_went_over_was_formed_where_it_was(self) -> None:
        self.keeps(1, "in 1; rack -8; tuck + f1 1; xfer f1 b9; tuck + f2 1")
        self.breaks(1, "in 1; rack -8; tuck + f1 1; xfer f1 b9; tuck + b9 1", 3)


class Order(Floats):
    def test_every_other_rule_is_tried_before(self) -> None:
        far = "in 1; tuck + f1 1; tuck + f9 1"
        self.breaks(8, f"{far}; tuck + f0 1", 3)
        self.breaks(8, f"{far}; tuck + f0 1 1", 4, rule="CarrierTwice")
        self.breaks(8, f"{far}; tuck + f0 1 2", 4, rule="CarrierIsOut")
        self.breaks(8, f"{far}; split + f0 b1 1", 3, rule="NotAligned")
        self.breaks(8, "in 1 2; tuck + b0 2; xfer b0 fs0; tuck + f9 1; tuck - f0 1", 2, rule="SliderHolds")
        self.breaks(8, "in 1; tuck + f0 1; tuck + f8 1; tuck + f9 1; tuck + f0 1", 2, "--hold", "1", rule="TooManyLoops")
        split = "in 1; tuck + b0 1; tuck + f0 1; tuck + f8 1; tuck + f9 1; split - f0 b0 1"
        self.breaks(8, split, 3, "--hold", "1", rule="TooManyLoops")
        self.breaks(8, split, 4)

    def test_the_first_line_that_breaks_a_rule(self) -> None:
        self.assertEqual(self.verdict(3, "in 1; tuck + f1 1; tuck + f5 1; in 1"), "broken line 5 rule FloatTooLong at 3")
        self.assertEqual(self.verdict(3, "in 1; tuck + f1 1; in 1; tuck + f5 1"), "broken line 5 rule CarrierIsIn at 1")


class Words(unittest.TestCase):
    TEXT = text_of("in 1; tuck + f1 1; tuck + f5 1", "1")

    def test_what_is_no_limit(self) -> None:
        for command in ("check", "text", "passes", "live"):
            for words in (["0"], ["8193"], ["-1"], ["x"], [""], [], ["3.5"], ["+3"], ["00000000003"], ["3", "--float", "3"]):
                with self.subTest(command, words=words):
                    answer = answer_of(command, "--float", *words, given=self.TEXT)
                    self.assertEqual(answer, (2, b"usage: check_main check|text|passes|live|make N START [options]\n"))

    def test_make_takes_no_limit(self) -> None:
        for words in (["make", "2", "0", "--float", "9"], ["make", "--float=9", "2", "0"]):
            self.assertEqual(answer_of(*words).status, 2)

    def test_the_bounds_are_lawful(self) -> None:
        self.assertEqual(answer_of("check", "--float", "1", given=self.TEXT).status, 1)
        for words in (["--float", "8192"], ["--float=8192"], ["--float=0000000004"]):
            self.assertEqual(answer_of("check", *words, given=self.TEXT).status, 0)

    def test_each_command_that_has_limits(self) -> None:
        self.assertEqual(answer_of("text", "--float", "3", given=self.TEXT), (0, self.TEXT))
        told = b"broken line 5 rule FloatTooLong at 3\n> tuck + f5 1\n"
        for words in ([], *(["--block", size] for size in SIZES)):
            self.assertEqual(answer_of("passes", "--float", "3", *words, given=self.TEXT), (1, told))
            passes = answer_of("passes", "--float", "4", *words, given=self.TEXT)
            self.assertEqual(passes, (0, b"passes 1 operations 2 windows 0 checked\npass 4-5 form + ops 2 with 1\n"))

    def test_a_limit_that_nothing_reaches_is_as_none(self) -> None:
        for path in sorted(EXAMPLES.glob("*.k")):
            for words in (["check", "--loops"], ["check", "--json"], ["check", "--block", "7"], ["passes"]):
                with self.subTest(path.name, words=words):
                    given = path.read_bytes()
                    self.assertEqual(answer_of(*words, "--float", "8192", given=given), answer_of(*words, given=given))


# In blocks of one line.
SCRIPT = """live 1
|;!knitout-2
|;;Carriers: 1
|in 1
|tuck + f1 1
|tuck + f3 1
|tuck + f5 1
session
put 2
put 2
|miss + f3 1
put 2
|tuck + b2 1
add 2
|out 1
|in 1
put 2
|tuck + f9 1
put 1
|tuck + f8 1
cut 4
verdict
loop 5
loop 6
put 0
|in 1
|tuck + f5 1
put 3
|knit + f6 1
"""
REPORT = """session 0
1 accepted version 1 block 2 broken line 5 rule FloatTooLong at 3
2 accepted version 2 block 2 broken line 6 rule FloatTooLong at 3
3 accepted version 3 block 2 sound lines 4 made 3 held 3 rack 0
4 accepted version 4 block 4 sound lines 6 made 3 held 3 rack 0
5 accepted version 5 block 2 broken line 5 rule FloatTooLong at 3
6 accepted version 6 block 1 sound lines 6 made 3 held 3 rack 0
7 accepted version 7 block 4 broken line 6 rule FloatTooLong at 3
8 verdict version 7
broken line 6 rule FloatTooLong at 3
> tuck + f5 1
9 loop version 7 loop 5 on f9 + with 1 through
10 loop version 7 none
11 accepted version 8 block 0 broken line 7 rule FloatTooLong at 3
12 accepted version 9 block 3 sound lines 5 made 4 held 4 rack 0
journal 9
1 session 0 put 2 seen 0 lines 0
2 session 0 put 2 seen 1 lines 1
3 session 0 put 2 seen 2 lines 1
4 session 0 add 2 block 4 lines 2
5 session 0 put 2 seen 3 lines 1
6 session 0 put 1 seen 0 lines 1
7 session 0 cut 4 seen 4
8 session 0 put 0 seen 0 lines 2
9 session 0 put 3 seen 0 lines 1
final version 9
sound lines 5 made 4 held 4 rack 0
in: 1
hook:
f5: 4
f6: 7
f8: 5
f9: 6
"""


class Edits(unittest.TestCase):
    def test_edits_that_make_a_float_too_long_and_cure_it(self) -> None:
        status, report = answer_of("live", "--float", "3", "--block", "1", given=SCRIPT.encode())
        self.assertEqual((status, report.decode()), (0, REPORT))

    def test_without_a_limit_each_version_is_sound(self) -> None:
        status, report = answer_of("live", "--block", "1", given=SCRIPT.encode())
        self.assertEqual((status, b"broken" in report, report.count(b" sound lines ")), (0, False, 9))

    def test_a_float_over_many_blocks(self) -> None:
        """The two loops lie in the first block and the last one of 400, and edits between them change which they are."""
        rows = ["|miss + f2 1", "|rack 1", "|rack 0", "|drop b5"] * 100
        edits = ["put 200", "|tuck + f4 1", "put 200", "|out 1", "|in 1", "put 200", "|tuck - f4 1", "put 200", "|drop f1"]
        lines = ["live 1", "|;!knitout-2", "|;;Carriers: 1", "|in 1", "|tuck + f1 1", *rows, "|tuck + f7 1"]
        script = "\n".join([*lines, "session", *edits, ""]).encode()
        status, report = answer_of("live", "--float", "5", "--block", "1", given=script)
        told = [line.partition(" block 200 ")[2] for line in report.decode().splitlines()[1:5]]
        kept, broken = "sound lines {} made {} held {} rack 0", "broken line 405 rule FloatTooLong at 3"
        self.assertEqual((status, told), (0, [kept.format(403, 3, 3), kept.format(404, 2, 2), kept.format(403, 3, 3), broken]))


if __name__ == "__main__":
    unittest.main()
