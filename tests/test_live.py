"""Tests of the command `live` on the program check_main: the scripts of examples/, sessions whose order nobody directs, scripts as large as they
may be, and an output that is closed.

`python3 -m unittest discover tests` runs them, on the check_main that TEKHVUMO_PROGRAM names or that is found.
"""
from __future__ import annotations

import os
import re
import subprocess
import unittest

from program import EXAMPLES, Status, answer_of, find_program

MENDED = """session 0
1 accepted version 1 block 0 broken line 14 rule NotAligned at 2
2 verdict version 1
broken line 14 rule NotAligned at 2
> xfer b2 f3
3 accepted version 2 block 0 sound lines 19 made 12 held 4 rack 0
4 loop version 2 loop 18 on f3 - with 1 through 10 9
5 accepted version 3 block 1 sound lines 23 made 12 held 0 rack 0
6 accepted version 4 block 1 sound lines 19 made 12 held 4 rack 0
7 verdict version 4
sound lines 19 made 12 held 4 rack 0
in:
hook:
f1: 20
f2: 19
f3: 18
f4: 17
journal 4
1 session 0 put 0 seen 0 lines 17
2 session 0 put 0 seen 1 lines 19
3 session 0 add 0 block 1 lines 4
4 session 0 cut 1 seen 3
final version 4
sound lines 19 made 12 held 4 rack 0
in:
hook:
f1: 20
f2: 19
f3: 18
f4: 17
"""

STALE_END = "final version 2\nsound lines 11 made 8 held 4 rack 0\nin:\nhook:\nf1: 9 11\nf2: 8 12\n"
# The first session's put came first; or it came second, or third, and is the stale one.
STALE_JOURNALS = [
    "journal 2\n1 session 0 put 0 seen 0 lines 8\n2 session 1 put 0 seen 1 lines 11\n",
    "journal 2\n1 session 1 put 0 seen 0 lines 9\n2 session 1 put 0 seen 1 lines 11\n",
]

TWO_DESIGNERS_END = """final version 5
sound lines 64 made 56 held 8 rack 0
in:
hook:
f1: 61
f2: 60
f3: 59
f4: 58
b1: 62
b2: 63
b3: 64
b4: 65
"""


def answered(script: str, *options: str) -> tuple[int, str]:
    """The status with which the program ends on a script, and what it writes."""
    status, report = answer_of("live", *options, given=script.encode())
    return status, report.decode()


def live(script: str, *options: str) -> str:
    """What the program writes of a script, which it carries out."""
    status, report = answered(script, *options)
    assert status == 0, (status, report[:200])
    return report


def example(name: str) -> str:
    return (EXAMPLES / name).read_text()


def end_of(report: str) -> str:
    return report[report.index("\nfinal version ") + 1 :]


class Examples(unittest.TestCase):
    def test_a_transfer_is_mended(self) -> None:
        self.assertEqual(live(example("mended-transfer.live")), MENDED)

    def test_a_stale_put_and_its_cure(self) -> None:
        report = live(example("stale-put.live"))
        self.assertTrue(report.endswith(STALE_END), report)
        journal = report[report.index("journal ") : report.index("final version ")]
        self.assertIn(journal, STALE_JOURNALS)
        self.assertEqual(len(re.findall(r"^\d+ stale version ", report, re.M)), 1)

    def test_two_designers_on_one_tube(self) -> None:
        report = live(example("two-designers.live"), "--block", "9")
        self.assertTrue(report.endswith(TWO_DESIGNERS_END), report)
        self.assertEqual(len(re.findall(r"^\d+ accepted version ", report, re.M)), 5)
        self.assertIn("\njournal 5\n", report)


HEAD = ["|;!knitout-2", "|;;Carriers: 1"]
OPENING = [*HEAD, "|in 1", *[f"|tuck - f{n} 1" for n in range(8, 0, -1)]]


def course(session: int, turn: int) -> list[str]:
    """Some lines of a session: a course, of as many stitches as its turn gives."""
    return [f"|knit {'+' if turn % 2 else '-'} f{1 + (session + at) % 8} 1" for at in range(turn % 7)]


def commands_of(session: int, edits: int) -> list[list[str]]:
    """So many edits: a block of the session's own, texts for it, some of which a put of the block that all share comes between, and its end."""
    commands = [["add 0", *course(session, 3)]]
    for turn in range(1, edits - 1):
        own = ["put @1", *course(session, turn)]
        shared = ["put 0", *OPENING[2:], *course(session, turn)]
        commands.append(shared if turn % 6 == 0 else own)
    return [*commands, ["cut @1"]]


def script_of(sessions: list[list[list[str]]]) -> str:
    """A script over the opening, with the commands of each session, each a command line and its text lines."""
    lines = ["live 1", *OPENING]
    for commands in sessions:
        lines += ["session", *[line for command in commands for line in command]]
    return "\n".join(lines) + "\n"


class Sessions(unittest.TestCase):
    def test_the_journal_carried_out_anew_gives_the_same_verdict(self) -> None:
        """Every version of the history is legal: one caller that carries out the journal's edits, in its order, has each accepted, with the same
        verdict in short, and ends with the same verdict."""
        sessions = [commands_of(number, 100) for number in range(64)]
        script = script_of(sessions)
        for _ in range(10):
            report = live(script)
            edits, briefs = self.accepted_in_order(sessions, report)
            again = live(script_of([edits]))
            self.assertEqual(end_of(again), end_of(report))
            found = re.findall(r"^\d+ accepted version \d+ block \d+ (.*)$", again, re.M)
            self.assertEqual(found, briefs)

    def accepted_in_order(self, sessions: list[list[list[str]]], report: str) -> tuple[list[list[str]], list[str]]:
        """The commands that were accepted, by version, each naming its block by its id, and the verdicts that they were answered with."""
        done = {}
        for number, part in enumerate(re.split(r"^session \d+\n", report[: report.index("\njournal ") + 1], flags=re.M)[1:]):
            own = None
            self.assertEqual(len(part.splitlines()), len(sessions[number]))
            for command, reply in zip(sessions[number], part.splitlines()):
                found = re.fullmatch(r"\d+ accepted version (\d+) block (\d+) (.*)", reply)
                if found is None:
                    self.assertRegex(reply, r"\d+ stale version \d+ block 0 seen \d+ now \d+")
                    continue
                own = found[2] if command[0].startswith("add") else own
                done[int(found[1])] = ([command[0].replace("@1", str(own)), *command[1:]], found[3])
        self.assertEqual(sorted(done), list(range(1, len(done) + 1)))
        self.assertIn(f"\njournal {len(done)}\n", report)
        return [done[version][0] for version in sorted(done)], [done[version][1] for version in sorted(done)]


EMPTY_END = """journal 0
final version 0
sound lines {lines} made 0 held 0 rack 0
in: 1
hook:
"""


class Limits(unittest.TestCase):
    def test_a_block_that_is_too_long(self) -> None:
        lines = "|\n" * 4_097
        report = live("live 1\n" + "\n".join(HEAD) + "\n|in 1\nsession\nput 0\n" + lines)
        self.assertEqual(report, "session 0\n1 blocklong lines 4097\n" + EMPTY_END.format(lines=1))

    def test_as_many_blocks_as_there_may_be(self) -> None:
        front = "live 1\n" + "\n".join(HEAD) + "\n|in 1\n"
        self.assertEqual(answered(front + "|\n" * 65_536, "--block", "1"), (7, "too large: blocks\n"))
        report = live(front + "|\n" * 65_535 + "session\nadd start\n|in 1\n", "--block", "1")
        self.assertEqual(report, "session 0\n1 full version 0 blocks limit 65536\n" + EMPTY_END.format(lines=65_536))

    def test_as_many_lines_as_there_may_be(self) -> None:
        front = "live 1\n" + "\n".join(HEAD) + "\n|in 1\n"
        self.assertEqual(answered(front + "|\n" * 1_048_576), (7, "too large: lines\n"))
        report = live(front + "|\n" * 1_048_575 + "session\nadd start\n|\n")
        self.assertEqual(report, "session 0\n1 full version 0 lines limit 1048576\n" + EMPTY_END.format(lines=1_048_576))

    def test_as_many_bytes_as_there_may_be(self) -> None:
        front = "live 1\n" + "\n".join(HEAD) + "\n|in 1\n"
        behind = "session\nput 0\n|in 1\n"
        spare = 16_777_216 - len(front) - len(behind)
        comments = ["|;" + "x" * (61 + spare % 64) + "\n", *["|;" + "x" * 61 + "\n"] * (spare // 64 - 1)]
        script = front + "".join(comments) + behind
        self.assertEqual(len(script), 16_777_216)
        self.assertIn("\njournal 1\n", live(script))
        self.assertEqual(answered(script + "\n"), (7, "too large: bytes\n"))

    def test_as_many_sessions_as_there_may_be(self) -> None:
        front = "live 1\n" + "\n".join(HEAD) + "\n|in 1\n"
        report = live(front + "session\nverdict\n" * 64)
        self.assertEqual(len(re.findall(r"^session \d+\n1 verdict version 0\nsound lines 1 ", report, re.M)), 64)
        self.assertEqual(answered(front + "session\nverdict\n" * 65), (3, "bad input: script line 133 ManySessions\n"))


def round_of(word: str, width: int) -> list[str]:
    """Once round a tube that is so many hooks wide."""
    return [f"{word} - f{at} 1" for at in range(width, 0, -1)] + [f"{word} + b{at} 1" for at in range(1, width + 1)]


def made_program(rows: int, start: int) -> list[str]:
    """The lines of the program that `make` makes."""
    width, drawn = 4 + start % 13, start
    lines = [";!knitout-2", ";;Carriers: 1 2 3", "in 1", *round_of("tuck", width)]
    for _ in range(rows):
        drawn = (drawn * 1103515245 + 12345) % 2147483648
        at = 1 + drawn // 65536 % width
        lines += [*round_of("knit", width), f"xfer f{at} b{at}"]
    return [*lines, "out 1"]


class Long(unittest.TestCase):
    def test_ten_thousand_edits(self) -> None:
        """A block of one line in front of a program of 180,012 lines is put again and again, within a minute."""
        lines = made_program(20_000, 0)
        behind_a_pause = [*lines[:2], "pause", *lines[2:]]
        check = answer_of("check", given="".join(f"{line}\n" for line in behind_a_pause).encode())
        edits = "session\nadd start\n|pause\n" + "put @1\n|pause\n" * 9_999
        script = "live 1\n" + "".join(f"|{line}\n" for line in lines) + edits
        replies = [f"{at} accepted version {at} block 2813 sound lines 180011 made 160008 held 8 rack 0\n" for at in range(1, 10_001)]
        puts = [f"{at} session 0 put 2813 seen {at - 1} lines 1\n" for at in range(2, 10_001)]
        journal = "journal 10000\n1 session 0 add start block 2813 lines 1\n" + "".join(puts)
        report = "session 0\n" + "".join(replies) + journal + "final version 10000\n"
        self.assertEqual(check.status, Status.DONE)
        self.assertEqual(answer_of("live", given=script.encode(), within=60), (Status.DONE, report.encode() + check.report))


CUT = "live 1\n|;!knitout-2\n|;;Carriers: 1\n|in 1\n|tuck - f1 1\nsession\nput 0\n|in 1\n"
# What a script says that ends with these bytes.
CUT_SHORT = {
    "live": "script line 1 NoLive",
    "live 1": "head BadMagic",
    "|;!knitout-2\n": "head NoCarriers",
    "\nsess": "script line 6 BadLine",
    "\nput": "script line 7 BadLine",
}


class CutShort(unittest.TestCase):
    def test_where_a_script_ends_too_early(self) -> None:
        for end, cause in CUT_SHORT.items():
            with self.subTest(end=end):
                self.assertEqual(answered(CUT[: CUT.index(end) + len(end)]), (3, f"bad input: {cause}\n"))

    def test_each_beginning_is_answered(self) -> None:
        for length in range(len(CUT)):
            status, report = answered(CUT[:length])
            with self.subTest(length=length, report=report):
                self.assertIn(status, (0, 3))
                self.assertRegex(report, r"\nfinal version [01]\n" if status == 0 else r"\Abad input: .*\n\Z")


class Output(unittest.TestCase):
    def test_an_output_that_is_closed(self) -> None:
        """The status is that of an output which couldn't be written, and the program ends by itself."""
        script = script_of([commands_of(number, 20) for number in range(8)])
        taker, giver = os.pipe()
        os.close(taker)
        try:
            run = subprocess.run([find_program(), "live"], input=script.encode(), stdout=giver, check=False)
        finally:
            os.close(giver)
        self.assertEqual(run.returncode, 5)


if __name__ == "__main__":
    unittest.main()
