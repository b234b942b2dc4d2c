"""Tests of the exit statuses: each of the eight, on the program as it was built.

`python3 -m unittest discover tests` runs them, on the check_main that TEKHVUMO_PROGRAM names or that is found.
"""
from __future__ import annotations

import os
import resource
import subprocess
import unittest

from program import EXAMPLES, Answer, answer_of, find_program

SOUND = EXAMPLES.joinpath("swatch.k").read_bytes()
BROKEN = EXAMPLES.joinpath("forgotten-rack.k").read_bytes()
# A limit on memory under which the program starts, and can't hold the input.
MEMORY = 12 << 20


def limit_memory() -> None:
    resource.setrlimit(resource.RLIMIT_AS, (MEMORY, MEMORY))


class Statuses(unittest.TestCase):
    def test_0_a_sound_program(self) -> None:
        self.assertEqual(answer_of("check", given=SOUND).status, 0)

    def test_1_a_broken_program(self) -> None:
        self.assertEqual(answer_of("check", given=BROKEN).status, 1)

    def test_2_words_outside_the_grammar(self) -> None:
        told = b"usage: check_main check|text|passes|live|make N START [options]\n"
        for words in [[], ["knit"], ["check", "--hold=0"], ["check", "\udcff"]]:
            self.assertEqual(answer_of(*words, given=SOUND), (2, told), words)

    def test_3_no_knitout_file(self) -> None:
        self.assertEqual(answer_of("check", given=b"knit + f1 1\n"), (3, b"bad input: head BadMagic\n"))

    def test_4_an_input_that_cannot_be_read(self) -> None:
        folder = os.open("/", os.O_RDONLY)
        try:
            ran = subprocess.run([find_program(), "check"], stdin=folder, capture_output=True, check=False)
        finally:
            os.close(folder)
        self.assertEqual(Answer(ran.returncode, ran.stdout), (4, b"read fault\n"))

    @unittest.skipUnless(os.path.exists("/dev/full"), "needs a device that is always full")
    def test_5_an_output_that_cannot_be_written(self) -> None:
        with open("/dev/full", "wb") as full:
            ran = subprocess.run([find_program(), "check"], input=SOUND, stdout=full, check=False)
        self.assertEqual(ran.returncode, 5)

    def test_6_want_of_memory(self) -> None:
        given = SOUND + b";" * 4_000 + b"\n" + (b"; " + b"x" * 78 + b"\n") * 200_000
        ran = subprocess.run([find_program(), "live"], input=given, capture_output=True, check=False, preexec_fn=limit_memory)
        self.assertEqual(Answer(ran.returncode, ran.stdout), (6, b""))

    def test_7_an_input_that_is_too_large(self) -> None:
        self.assertEqual(answer_of("check", given=b"x" * 16_777_217), (7, b"too large: bytes\n"))


if __name__ == "__main__":
    unittest.main()
