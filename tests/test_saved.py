"""Tests of the commands `save` and `replay`: each line of saved texts dropped, doubled and changed, judged by a reader that is kept here,
and what was saved followed again.

`python3 -m unittest discover tests` runs them, on the check_main that TEKHVUMO_PROGRAM names or that is found.
"""
from __future__ import annotations

import os
import random
import re
import subprocess
import unittest

from program import EXAMPLES, answer_of, find_program
from saved_texts import SAVED, Bad, document_of
from test_headers import script_of, some_session
from test_live import end_of

TWO_PUTS = b"""live 1
|;!knitout-2
|;;Carriers: 1
|in 1
|knit + f1 1
session
put 0
|in 1
|knit + f1 1
|knit + f2 1
put 0
|in 1
"""
AT_THE_END = b"final version 2\nsound lines 1 made 0 held 0 rack 0\nin: 1\nhook:\n"
# Entries of each kind: the second add goes first, the header gets other names, and the last cut takes the block out that was put.
EACH_KIND = b"""journal 1
profile -16 15 4 2 7
head 4
|;!knitout-2
|;;Machine: none
|;;Carriers: A B
|
blocks 2
block 1
|in A
block 2
|knit + f1 A
|; a comment \xc3\xa9
entries 7
session 3 put 1 seen 0 lines 2
|knit + f1 A
|knit + f2 A
session 0 add 1 block 2 lines 1
|out A
session 63 add start block 3 lines 0
session 3 put head seen 0 carriers A C
session 0 put 2 seen 2 lines 0
session 0 put head seen 4 carriers
session 3 cut 2 seen 5
"""
SCRIPTS = sorted(EXAMPLES.glob("*.live"))


def lines_of(text: bytes) -> list[bytes]:
    return text.splitlines(keepends=True)


def due(given: bytes) -> tuple[int, bytes]:
    """The status and the first lines that `replay` owes for these bytes; of a sound or broken end the verdict is that of `check`."""
    try:
        document = document_of(given)
    except Bad as bad:
        line, cause = bad.args
        return 3, f"bad input: journal line {line} {cause}\n".encode()
    limits = re.match(rb"journal 1\nprofile (\S+) (\S+) (\S+) (\S+) (\S+)\n", given)
    assert limits
    low, high, rack, hold, float_limit = (word.decode() for word in limits.groups())
    words = ["check", f"--low={low}", f"--high={high}", f"--rack={rack}", f"--hold={hold}"]
    if float_limit != "0":
        words.append(f"--float={float_limit}")
    return 0, f"final version {document.version}\n".encode() + answer_of(*words, given=document.text()).report


def numbers_changed(line: bytes) -> list[bytes]:
    """The line with each of its numbers one more, one less, and with an idle zero."""
    changed = []
    for found in re.finditer(rb"\d+", line):
        near = [b"%d" % (int(found[0]) + 1), b"%d" % max(0, int(found[0]) - 1), b"0" + found[0]]
        for number in [*near, b"4294967295", b"4294967296", b"65"]:
            changed.append(line[: found.start()] + number + line[found.end() :])
    return changed


def mangled(text: bytes) -> list[bytes]:
    """The text with each line dropped, doubled, cut off and changed in some ways, and with less and more at its end."""
    lines = lines_of(text)
    found = [text, b"", text[:-1], text + b"\n", text + b"|more\n", text + b"x"]
    for at, line in enumerate(lines):
        ways = [b"", line * 2, line[1:], b" " + line, line[:-1] + b" \n", line[:-1] + b"\r\n", line[:-1] + b"\xff\n", line[:-1]]
        ways += [line.upper(), line.replace(b" ", b"  ", 1), b"|" + line, b"session 0 cut 0 seen 0\n" + line, *numbers_changed(line)]
        found += [b"".join([*lines[:at], way, *lines[at + 1 :]]) for way in ways]
        found.append(b"".join(lines[:at]))
    return found


class Rows(unittest.TestCase):
    def test_two_puts_are_saved_and_followed(self) -> None:
        self.assertEqual(answer_of("save", given=TWO_PUTS), (0, SAVED))
        self.assertEqual(answer_of("replay", given=SAVED), (0, AT_THE_END))

    def test_an_entry_that_does_not_fit(self) -> None:
        given = SAVED.replace(b"seen 1 lines 1", b"seen 0 lines 1")
        self.assertEqual(answer_of("replay", given=given), (3, b"bad input: journal line 15 NoFit\n"))

    def test_a_line_that_is_missing(self) -> None:
        given = b"".join(lines_of(SAVED)[:-1])
        self.assertEqual(answer_of("replay", given=given), (3, b"bad input: journal line 16 BadLine\n"))

    def test_the_first_bad_line(self) -> None:
        long_line = b"|" + b"x" * 4_096 + b"\n"
        rows = [
            (SAVED.replace(b"block 2\n", b"block 02\n"), "line 7 BadLine"),
            (SAVED.replace(b"16 0\n", b"16\n"), "line 2 BadLine"),
            (SAVED.replace(b"1023", b"5000"), "line 2 BadLine"),
            (SAVED.replace(b"|in 1\n|knit + f1 1\nentries", long_line + b"|x" + long_line[1:] + b"entries"), "line 9 BadLine"),
            (SAVED[:-1], "line 16 BadLine"),
            (SAVED + b"|in 1\n", "line 17 BadLine"),
            (SAVED.replace(b"seen 1 lines 1\n|in 1\n", b"seen 0 lines 1"), "line 15 BadLine"),
            (SAVED.replace(b"session 0 put 0 seen 1", b"session 64 put 0 seen 1"), "line 15 BadLine"),
            (SAVED.replace(b"seen 0 lines 3", b"seen 0 lines 4097"), "line 11 BadLine"),
            (SAVED.replace(b"session 0 put 0 seen 0", b"session 0 put 4294967295 seen 0"), "line 11 NoFit"),
            (SAVED.replace(b"session 0 put 0 seen 0", b"session 0 put 4294967296 seen 0"), "line 11 BadLine"),
            (SAVED.replace(b"|;;Carriers: 1\n", b"|;\n"), "line 5 BadLine"),
            (SAVED.replace(b"head 2", b"head 1"), "line 3 BadLine"),
            (b"journal 2\n", "line 1 BadLine"),
        ]
        for given, said in rows:
            with self.subTest(said=said, given=given[:60]):
                self.assertEqual(answer_of("replay", given=given), (3, f"bad input: journal {said}\n".encode()))

    def test_a_carriage_return_is_kept(self) -> None:
        """The lines of a script lose one at their end, those of a saved text don't: there it is a token of the line."""
        self.assertEqual(answer_of("save", given=TWO_PUTS.replace(b"\n", b"\r\n")), (0, SAVED))
        told = answer_of("replay", given=SAVED[:-1] + b"\r\n")
        self.assertEqual(told, (0, b"final version 2\nbroken line 3 rule NoCarrier at 1\n> in 1\r\n"))

    def test_options_of_replay_are_refused(self) -> None:
        for option in ["--hold=3", "--block=2", "--loops", "--json", "1"]:
            self.assertEqual(answer_of("replay", option, given=SAVED).status, 2)


class Mangled(unittest.TestCase):
    def judge(self, text: bytes) -> None:
        for given in mangled(text):
            with self.subTest(given=given):
                self.assertEqual(tuple(answer_of("replay", given=given)), due(given))

    def test_each_line_of_two_puts(self) -> None:
        self.judge(SAVED)

    def test_each_line_of_entries_of_each_kind(self) -> None:
        self.judge(EACH_KIND)


class Journals(unittest.TestCase):
    def follow(self, script: bytes, *options: str) -> None:
        """A script of one session is saved and followed again: the end is that of `live`."""
        status, saved = answer_of("save", *options, given=script)
        self.assertEqual(status, 0)
        report = answer_of("live", *options, given=script).report
        self.assertEqual(answer_of("replay", given=saved), (0, end_of(report.decode()).encode()))
        entries = re.findall(rb"^session \d+ (?:put|add|cut) .*\n", saved, re.M)
        told = re.findall(rb"^\d+ (session \d+ (?:put|add|cut) .*\n)", report[report.rindex(b"journal ") :], re.M)
        self.assertEqual(entries, told)

    def test_scripts_of_the_examples(self) -> None:
        """Of several sessions nobody knows the order: what was saved is judged by itself."""
        for path in SCRIPTS:
            with self.subTest(path=path.name):
                saved = answer_of("save", "--block", "9", given=path.read_bytes())
                self.assertEqual(saved.status, 0)
                self.assertEqual(tuple(answer_of("replay", given=saved.report)), due(saved.report))

    def test_random_scripts_of_one_session(self) -> None:
        for seed in range(60):
            with self.subTest(seed=seed):
                script = script_of([some_session(random.Random(seed), 30)])
                options = [f"--block={1 + seed % 3}", f"--float={1 + seed % 9}"][: 1 + seed % 2]
                self.follow(script.encode(), *options)


class Sizes(unittest.TestCase):
    def test_sixteen_megabytes(self) -> None:
        """A text of 16,777,216 bytes is followed, and one of a byte more is too large."""
        entry = b"session 0 put 0 seen %d lines 1\n|in 1 ;%s\n"
        front = SAVED[: SAVED.index(b"entries")]
        room = 16_777_216 - len(front) - len(b"entries 4100\n")
        entries = b""
        for stamp in range(4_100):
            left = (room - len(entries)) // (4_100 - stamp) - len(entry % (stamp, b""))
            entries += entry % (stamp, b"x" * min(left, 4_080))
        given = front + b"entries 4100\n" + entries
        grown = given.replace(b"|in 1\n", b"|in 1" + b" " * (16_777_216 - len(given)) + b"\n", 1)
        self.assertEqual(len(grown), 16_777_216)
        self.assertEqual(answer_of("replay", given=grown), (0, b"final version 4100\nsound lines 1 made 0 held 0 rack 0\nin: 1\nhook:\n"))
        self.assertEqual(answer_of("replay", given=grown + b"\n"), (7, b"too large: bytes\n"))

    @unittest.skipUnless(os.path.exists("/dev/full"), "needs a device that is always full")
    def test_a_saved_text_that_cannot_be_written(self) -> None:
        with open("/dev/full", "wb") as full:
            ran = subprocess.run([find_program(), "save"], input=TWO_PUTS, stdout=full, check=False)
        self.assertEqual(ran.returncode, 5)


if __name__ == "__main__":
    unittest.main()
