"""Tests of the words of the command line on the program check_main: what they ask for, which limits they choose, and what is refused of
them and of scripts.

`python3 -m unittest discover tests` runs them, on the check_main that TEKHVUMO_PROGRAM names or that is found.
"""
from __future__ import annotations

import unittest

from program import answer_of

HEAD = b";!knitout-2\n;;Carriers: 1\n"
USAGE = (2, b"usage: check_main check|text|passes|live|make N START [options]\n")
# Sixty-five lines, which is one more than a block has.
SCRIPT = b"live 1\n|;!knitout-2\n|;;Carriers: 1\n" + b"|pause\n" * 65
OUTSIDE = [[], ["make", "2"], ["live", "--json"], ["check", "--low", "-64"], ["check", "--hold", "2", "--hold", "2"], ["--help"]]


def saved(*words: str) -> bytes:
    """What is kept of a document without entries, which tells the limits and the blocks."""
    status, text = answer_of("save", *words, given=SCRIPT)
    assert status == 0, text
    return text


def saved_with(profile: str, sizes: list[int]) -> bytes:
    blocks = "".join(f"block {size}\n" + "|pause\n" * size for size in sizes)
    head = "head 2\n|;!knitout-2\n|;;Carriers: 1\n"
    return f"journal 1\nprofile {profile}\n{head}blocks {len(sizes)}\n{blocks}entries 0\n".encode()


class Words(unittest.TestCase):
    def test_check_has_options_and_flags(self) -> None:
        words = ["--json", "check", "--low=-64", "--hold", "3"]
        nothing = b'{"held":0,"hook":[],"in":[],"lines":1,"made":0,"needles":[],"rack":"0","verdict":"sound"}\n'
        for line in (b"drop f-64", b"drop f1023", b"rack 8"):
            self.assertEqual(answer_of(*words, given=HEAD + line + b"\n").status, 0)
        self.assertEqual(answer_of(*words, given=HEAD + b"drop f-64\n"), (0, nothing))
        off = b'{"at":1,"line":3,"rule":"OffBed","text":"drop f-65","verdict":"broken"}\n'
        self.assertEqual(answer_of(*words, given=HEAD + b"drop f-65\n"), (1, off))
        many = b'{"at":2,"line":7,"rule":"TooManyLoops","text":"tuck + f1 1","verdict":"broken"}\n'
        self.assertEqual(answer_of(*words, given=HEAD + b"in 1\n" + b"tuck + f1 1\n" * 4), (1, many))

    def test_make_has_rows_and_a_start(self) -> None:
        """From 5 the program is 9 needles wide: 20,000 rows of 19 lines each, the cast-on of 18, and four lines more."""
        made = answer_of("make", "20000", "--", "005")
        self.assertEqual(made, answer_of("make", "20000", "5"))
        self.assertEqual((made.status, made.report.splitlines()[0]), (0, b"maker lines 380022 blocks 5938"))

    def test_words_outside_the_grammar_are_refused(self) -> None:
        for words in OUTSIDE:
            with self.subTest(words):
                self.assertEqual(answer_of(*words, given=HEAD), USAGE)


class Limits(unittest.TestCase):
    def test_the_defaults_are_chosen(self) -> None:
        self.assertEqual(saved(), saved_with("-1024 1023 8 16 0", [64, 1]))

    def test_the_first_option_outside_is_refused(self) -> None:
        """Of several, or alone."""
        for words in (["--hold", "65", "--block", "0"], ["--hold", "65"], ["--block", "0"]):
            for command in ("check", "passes", "live", "save", "groups", "serve"):
                with self.subTest(words, command=command):
                    self.assertEqual(answer_of(command, *words, given=HEAD), USAGE)

    def test_a_limit_on_floats_is_chosen(self) -> None:
        self.assertEqual(saved("--float", "8192"), saved_with("-1024 1023 8 16 8192", [64, 1]))
        for limit in ("0", "8193"):
            self.assertEqual(answer_of("save", "--float", limit, given=SCRIPT), USAGE)


# A script, and the first line that is refused, with the cause.
SCRIPTS = [
    (b"", "line 1 NoLive"),
    (b"live 2\n", "line 1 NoLive"),
    (b"live 1\nsession\nknit\n", "line 3 BadLine"),
    (b"live 1\n" + b"session\n" * 65, "line 66 ManySessions"),
    (b"live 1\nsession\nlook @1\n", "line 3 NoOwn"),
]


class Refusals(unittest.TestCase):
    def test_refusals(self) -> None:
        self.assertEqual(answer_of("knit"), USAGE)
        self.assertEqual(answer_of("check", given=b"x" * 4_097), (3, b"bad input: line 1 LineLong\n"))

    def test_refusals_of_scripts(self) -> None:
        for script, said in SCRIPTS:
            with self.subTest(said):
                self.assertEqual(answer_of("live", given=script), (3, f"bad input: script {said}\n".encode()))


if __name__ == "__main__":
    unittest.main()
