"""Tests of the verdict as text and as JSON on the program check_main: sound programs and broken ones, with and without the loops made.

`python3 -m unittest discover tests` runs them, on the check_main that TEKHVUMO_PROGRAM names or that is found.
"""
from __future__ import annotations

import unittest

from each_way import EachWay

HEAD = ";!knitout-2\n;;Carriers: 1 B 3\n"

# Two stitches cast on to the left, and knitted to the right.
KNITTED = HEAD + "in 1\ntuck - f2 1\ntuck - f1 1\nknit + f1 1\nknit + f2 1\nout 1\n"
SOUND_TEXT = """sound lines 6 made 4 held 2 rack 0
in:
hook:
f1: 6
f2: 7
loop 4 on f2 - with 1 through
loop 5 on f1 - with 1 through
loop 6 on f1 + with 1 through 5
loop 7 on f2 + with 1 through 4
"""
SOUND_JSON = (
    '{"held":2,"hook":[],"in":[],"lines":6,"made":4,"needles":[{"loops":[6],"needle":"f1"},{"loops":[7],"needle":"f2"}],'
    '"rack":"0","verdict":"sound"}\n'
)

# Three loops on a slider, and carriers in the order of the header.
MOVED = HEAD + """in 1
tuck + f-1 1
tuck - f-1 1
tuck + f0 1
rack 1
xfer f0 bs-1
rack 0
xfer f-1 bs-1
rack -0.5
inhook 3
"""
MOVED_TEXT = "sound lines 10 made 3 held 3 rack -0.5\nin: 1 3\nhook: 3\nbs-1: 6 4 5\n"
MOVED_JSON = (
    '{"held":3,"hook":["3"],"in":["1","3"],"lines":10,"made":3,"made_loops":['
    '{"dir":"+","line":4,"needle":"f-1","through":[],"yarns":["1"]},{"dir":"-","line":5,"needle":"f-1","through":[],"yarns":["1"]},'
    '{"dir":"+","line":6,"needle":"f0","through":[],"yarns":["1"]}],'
    '"needles":[{"loops":[6,4,5],"needle":"bs-1"}],"rack":"-0.5","verdict":"sound"}\n'
)

# Quotes, backslashes and control bytes are escaped, and nothing else.
ODD = HEAD + 'a"b\\c\td\x01/é\n'
ODD_JSON = '{"at":0,"line":3,"rule":"Unreadable","text":"a\\"b\\\\c\\td\\u0001/é","verdict":"broken"}\n'
ODD_BEHIND_LOOPS = HEAD + 'in 1\ntuck - f2 1\npause\npause\nknit + f2 1\na"b\\c\td\x01/é\n'
LOOPS_JSON = (
    '{"at":0,"line":8,"made_loops":[{"dir":"-","line":4,"needle":"f2","through":[],"yarns":["1"]},'
    '{"dir":"+","line":7,"needle":"f2","through":[4],"yarns":["1"]}],'
    '"rule":"Unreadable","text":"a\\"b\\\\c\\td\\u0001/é","verdict":"broken"}\n'
)


class Verdicts(EachWay):
    def says(self, words: list[str], given: str, told: str) -> None:
        status, report = self.answer("check", *words, given=given.encode())
        self.assertEqual((status, report.decode()), (1 if "broken" in told else 0, told))

    def test_text_of_a_sound_program(self) -> None:
        self.says(["--loops"], KNITTED, SOUND_TEXT)

    def test_text_with_carriers_and_moved_loops(self) -> None:
        self.says([], MOVED, MOVED_TEXT)

    def test_text_of_a_broken_program(self) -> None:
        given = HEAD + "in 1\ntuck + f1 1\ntuck + b1 1\npause\nxfer f1 b1\n"
        self.says(["--hold", "1"], given, "broken line 7 rule TooManyLoops at 2\n> xfer f1 b1\n")

    def test_json_of_a_sound_program(self) -> None:
        self.says(["--json"], KNITTED, SOUND_JSON)

    def test_json_with_carriers_moved_loops_and_loops_made(self) -> None:
        self.says(["--json", "--loops"], MOVED, MOVED_JSON)

    def test_json_of_a_broken_program(self) -> None:
        self.says(["--json"], ODD, ODD_JSON)
        self.says(["--json", "--loops"], ODD_BEHIND_LOOPS, LOOPS_JSON)


if __name__ == "__main__":
    unittest.main()
