"""What other programs may call, and the examples of its documents."""
from __future__ import annotations

import doctest
import re
import unittest

import tekhvumo
import tekhvumo.api
from tekhvumo import Limits, NotSound, SetupFault, check, findings, loop_of, state_before

from .case import BROKEN, HEAD, SOUND, TOP, body


def load_tests(loader: unittest.TestLoader, tests: unittest.TestSuite, pattern: str | None) -> unittest.TestSuite:
    """The examples in the package, and those in the page of use."""
    for module in (tekhvumo, tekhvumo.api):
        tests.addTests(doctest.DocTestSuite(module))
    # (which opens files as from the top of the repository)
    page = (TOP / "docs" / "USING.md").read_text().replace('Path("examples/', f'Path("{TOP}/examples/')
    for number, block in enumerate(re.findall(r"^```python\n(.*?)^```$", page, re.M | re.S)):
        name = f"USING.md, example {number}"
        tests.addTest(doctest.DocTestCase(doctest.DocTestParser().get_doctest(block, {}, name, name, 0)))
    return tests


class Calls(unittest.TestCase):
    def test_a_verdict_of_each_kind(self) -> None:
        sound, broken, refused = check(SOUND), check(BROKEN.encode()), check("drop f1\n")
        self.assertEqual((sound.is_sound, sound.state.made, sound.rule), (True, 1, None))
        self.assertEqual((broken.is_sound, broken.line, broken.rule, broken.at), (False, 4, "CarrierIsIn", 1))
        self.assertEqual((refused.status, refused.refusal, refused.state), (3, "bad input: head BadMagic", None))

    def test_limits_refuse_what_is_none(self) -> None:
        with self.assertRaises(TypeError):
            Limits(hig=5)
        bad_numbers = {"rack": 1.5}, {"rack": True}, {"float": 0}
        for given in ({"hig": 5}, {"high": 4097}, {"hold": 0}, {"low": 3, "high": 2}, *bad_numbers):
            with self.subTest(given), self.assertRaises(SetupFault):
                Limits.of(given)
        self.assertEqual(check(body("drop f6"), Limits(high=5)).rule, "OffBed")
        self.assertEqual(check(body("in 1; tuck + f1 1; tuck + f5 1"), Limits(float=3)).rule, "FloatTooLong")
        self.assertTrue(check(body("in 1; tuck + f1 1; tuck + f5 1")).is_sound)

    def test_findings_have_cures_and_warnings(self) -> None:
        [finding] = findings(BROKEN, name="scarf.k")
        self.assertEqual((finding.file, finding.level, finding.rule), ("scarf.k", "error", "CarrierIsIn"))
        self.assertEqual(finding.cures[0].title, "leave this line out")
        self.assertEqual([it.rule for it in findings(body("in 1"))], ["CarrierUnused", "CarrierLeftIn"])
        self.assertEqual(findings(body("in 1"), warn=False), [])

    def test_the_state_before_a_line(self) -> None:
        text = body("in 2; rack 0.25; tuck + f1 2; xfer f1 b1")
        state = state_before(text, 6)
        self.assertEqual((float(state.rack), state.carriers, state.made), (0.25, ("2",), 1))
        self.assertEqual(state.on(tekhvumo.Needle("f", 1)), (5,))
        self.assertEqual(state_before(text, 3).made, 0)
        for line in (7, 99):
            with self.assertRaises(NotSound):
                state_before(text, line)

    def test_the_loop_of_a_line(self) -> None:
        text = body("in 1; tuck + f1 1; tuck - f1 1; knit + f1 1; out 1")
        loop = loop_of(text, 6)
        self.assertEqual((str(loop.needle), loop.direction, loop.yarns, loop.through), ("f1", "+", ("1",), (4, 5)))
        self.assertIsNone(loop_of(text, 7))
        self.assertIsNone(loop_of(text, 1000))
        with self.assertRaises(NotSound):
            loop_of(BROKEN, 4)

    def test_all_public_names_are_documented(self) -> None:
        for name in tekhvumo.__all__:
            if name != "__version__":
                with self.subTest(name):
                    self.assertTrue(getattr(tekhvumo, name).__doc__)

    def test_texts_of_no_program(self) -> None:
        for text in ("", "\n", HEAD, ";!knitout-2", b"\xff", ";!knitout-2\n;;Carriers:\n knit\n#"):
            with self.subTest(text):
                for finding in findings(text):
                    self.assertTrue(finding.message)
