"""Tests of the reports of `check` and `text` on the program check_main: of small files, of the files of examples/, and as JSON.

`python3 -m unittest discover tests` runs them, on the check_main that TEKHVUMO_PROGRAM names or that is found.
"""
from __future__ import annotations

import unittest

from program import EXAMPLES, Status, answer_of
from samples import (
    CAST_ON,
    CAST_ON_VERDICT,
    CAST_ON_WITH_RETURNS,
    CROWDED_NEEDLE,
    CROWDED_NEEDLE_FAULT,
    CROWDED_NEEDLE_VERDICT,
    SCARF,
    SCARF_LOOPS,
    SCARF_VERDICT,
    file_of,
)

FIVE_CARRIERS = b"""\
;!knitout-2
;;Carriers: 1 2 3 4 5
in 1 2 3 4 5
tuck + f1 1 2 3 4 5
"""
FIVE_CARRIERS_VERDICT = b"""\
sound lines 2 made 1 held 1 rack 0
in: 1 2 3 4 5
hook:
f1: 4
loop 4 on f1 + with 1 2 3 4 5 through
"""


class Texts(unittest.TestCase):
    def test_a_sound_program(self) -> None:
        self.assertEqual(answer_of("check", given=SCARF), (Status.DONE, SCARF_VERDICT))
        self.assertEqual(answer_of("check", "--loops", given=SCARF), (Status.DONE, SCARF_VERDICT + SCARF_LOOPS))

    def test_heads_alone(self) -> None:
        verdict = b"sound lines 0 made 0 held 0 rack 0\nin:\nhook:\n"
        for given in [file_of(""), file_of("\n\n")]:
            with self.subTest(given=given):
                self.assertEqual(answer_of("check", given=given), (Status.DONE, verdict))

    def test_limits_by_options(self) -> None:
        self.assertEqual(answer_of("check", "--hold", "2", given=CROWDED_NEEDLE), (Status.BROKEN, CROWDED_NEEDLE_FAULT))
        self.assertEqual(answer_of("--hold=3", "check", given=CROWDED_NEEDLE), (Status.DONE, CROWDED_NEEDLE_VERDICT))

    def test_a_file_with_headers_and_carriage_returns(self) -> None:
        self.assertEqual(answer_of("check", given=CAST_ON), (Status.DONE, CAST_ON_VERDICT))
        self.assertEqual(answer_of("check", given=CAST_ON_WITH_RETURNS), (Status.DONE, CAST_ON_VERDICT))

    def test_a_line_with_five_carriers(self) -> None:
        self.assertEqual(answer_of("check", "--loops", given=FIVE_CARRIERS), (Status.DONE, FIVE_CARRIERS_VERDICT))
        self.assertEqual(answer_of("text", given=FIVE_CARRIERS), (Status.DONE, FIVE_CARRIERS))


SWATCH_VERDICT = """\
sound lines 93 made 72 held 0 rack 0
in:
hook:
"""
RIB_VERDICT = """\
sound lines 61 made 56 held 8 rack 0
in:
hook:
f1: 60
f2: 61
f5: 64
f6: 65
b3: 62
b4: 63
b7: 66
b8: 67
"""
TUBE_VERDICT = """\
sound lines 80 made 72 held 12 rack 0
in:
hook:
f1: 81
f2: 80
f3: 79
f4: 78
f5: 77
f6: 76
b1: 82
b2: 83
b3: 84
b4: 85
b5: 86
b6: 87
"""


class Examples(unittest.TestCase):
    def judge(self, name: str, status: Status, verdict: str) -> None:
        self.assertEqual(answer_of("check", given=(EXAMPLES / name).read_bytes()), (status, verdict.encode()))

    def test_example_swatch(self) -> None:
        self.judge("swatch.k", Status.DONE, SWATCH_VERDICT)

    def test_example_rib(self) -> None:
        self.judge("rib.k", Status.DONE, RIB_VERDICT)

    def test_example_tube(self) -> None:
        self.judge("tube.k", Status.DONE, TUBE_VERDICT)

    def test_example_forgotten_rack(self) -> None:
        self.judge("forgotten-rack.k", Status.BROKEN, "broken line 27 rule NotAligned at 2\n> xfer f2 b2\n")

    def test_example_yarn_left_out(self) -> None:
        self.judge("yarn-left-out.k", Status.BROKEN, "broken line 39 rule CarrierIsOut at 3\n> knit - f6 1\n")

    def test_example_parked_loop(self) -> None:
        self.judge("parked-loop.k", Status.BROKEN, "broken line 28 rule SliderHolds at 2\n> knit - b3 4\n")


# Each object is one line: these are parted where a reader would part them.
SCARF_JSON = (
    '{"held":2,"hook":[],"in":[],"lines":6,"made":4,'
    '"needles":[{"loops":[6],"needle":"f1"},{"loops":[7],"needle":"f2"}],"rack":"0","verdict":"sound"}\n'
)
SCARF_JSON_LOOPS = (
    '{"held":2,"hook":[],"in":[],"lines":6,"made":4,"made_loops":['
    '{"dir":"-","line":4,"needle":"f2","through":[],"yarns":["1"]},'
    '{"dir":"-","line":5,"needle":"f1","through":[],"yarns":["1"]},'
    '{"dir":"+","line":6,"needle":"f1","through":[5],"yarns":["1"]},'
    '{"dir":"+","line":7,"needle":"f2","through":[4],"yarns":["1"]}],'
    '"needles":[{"loops":[6],"needle":"f1"},{"loops":[7],"needle":"f2"}],"rack":"0","verdict":"sound"}\n'
)


class Json(unittest.TestCase):
    def test_json(self) -> None:
        self.assertEqual(answer_of("check", "--json", given=SCARF), (Status.DONE, SCARF_JSON.encode()))
        broken = b'{"at":2,"line":4,"rule":"NotAligned","text":"xfer f1 b1","verdict":"broken"}\n'
        self.assertEqual(answer_of("check", "--json", given=file_of("rack 1\nxfer f1 b1\n")), (Status.BROKEN, broken))

    def test_json_with_loops(self) -> None:
        self.assertEqual(answer_of("check", "--json", "--loops", given=SCARF), (Status.DONE, SCARF_JSON_LOOPS.encode()))


# Blanks before, between and behind the tokens, numbers in loose spellings, and a last line of a tab alone.
LOOSE = b"""\
;!knitout-2
;;Carriers: A B
 in   A   ;bring
knit + f+01 A B
rack -0.50
rack 1.
x-vendor   7  "q"
knit ?
drop f2000
\t
"""
TIDY = b"""\
;!knitout-2
;;Carriers: A B
in A ;bring
knit + f1 A B
rack -0.5
rack 1
x-vendor 7 "q"
knit ?
drop f2000

"""


class CanonicalText(unittest.TestCase):
    def test_canonical_text(self) -> None:
        self.assertEqual(answer_of("text", given=LOOSE), (Status.DONE, TIDY))
        self.assertEqual(answer_of("text", given=TIDY), (Status.DONE, TIDY))


if __name__ == "__main__":
    unittest.main()
