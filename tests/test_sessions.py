"""Tests of sessions beside each other, whose order nobody directs: what holds in each order, and what one caller makes of the journal.

`python3 -m unittest discover tests` runs them, on the check_main that TEKHVUMO_PROGRAM names or that is found.
"""
from __future__ import annotations

import re
import unittest
from collections import Counter

from program import answer_of
from test_groups import Judge, Undo
from test_groups import script_of as script_of_steps
from test_headers import Command

OPENING = "live 1\n|;!knitout-2\n|;;Carriers: 1\n|in 1\n"
# So often a script is carried out, since each run may have another order.
RUNS = 10


def live(sessions: list[str]) -> str:
    """What is written of sessions with these lines."""
    status, report = answer_of("live", given="".join([OPENING, *(f"session\n{lines}" for lines in sessions)]).encode())
    assert status == 0, report
    return report.decode()


PUT = """session 1
1 accepted version 1 block 0 sound lines 2 made 1 held 1 rack 0
journal 1
1 session 1 put 0 seen 0 lines 2
final version 1
sound lines 2 made 1 held 1 rack 0
in: 1
hook:
f1: 4
"""
SHOWN = [
    "1 shown version 0 block 0 stamp 0 first 3 lines 1\n|in 1\n",
    "1 shown version 1 block 0 stamp 1 first 3 lines 2\n|in 1\n|knit + f1 1\n",
]
VERDICTS = [
    "2 verdict version 0\nsound lines 1 made 0 held 0 rack 0\nin: 1\nhook:\n",
    "2 verdict version 1\nsound lines 2 made 1 held 1 rack 0\nin: 1\nhook:\nf1: 4\n",
]


class Readers(unittest.TestCase):
    def test_a_session_that_reads_enters_nothing(self) -> None:
        """It is answered at version 0 or 1, and not at an older one than before. The only entry is that of session 1."""
        orders = [f"session 0\n{SHOWN[look]}{VERDICTS[then]}{PUT}" for look, then in ((0, 0), (0, 1), (1, 1))]
        for _ in range(RUNS):
            self.assertIn(live(["look 0\nverdict\n", "put 0\n|in 1\n|knit + f1 1\n"]), orders)


def edit(at: int) -> str:
    """A session's edit at this place: first a block of its own, then texts for it, and between them 3 puts of the block that all put."""
    if at == 0:
        return "add 0\n|knit + f1 1\n"
    if at % 6 == 0:
        return "put 0\n|in 1\n"
    return "put @1\n" + "|knit + f1 1\n" * (at % 4)


def edit_again(entry: str) -> str:
    """The edit of an entry. Each block of a session's own knits in as many lines as it has."""
    word, block, lines = re.fullmatch(r"(put|add) (\d+) (?:seen|block) \d+ lines (\d+)", entry).groups()
    text = "|in 1\n" if (word, block) == ("put", "0") else "|knit + f1 1\n" * int(lines)
    return f"{word} {block}\n{text}"


class Writers(unittest.TestCase):
    def test_eight_sessions_leave_what_one_caller_leaves(self) -> None:
        """One of them puts the shared block three times, the others not once."""
        for _ in range(RUNS):
            report = live(["".join(edit(at) for at in range(20))] * 8)
            _, _, behind = report.partition("journal 139\n")
            journal, mark, verdict = behind.partition("final version ")
            entries = re.findall(r"^\d+ session (\d) (.*)$", journal, re.M)
            self.assertEqual(sorted(Counter(session for session, _ in entries).values()), [17] * 7 + [20])
            again = live(["".join(edit_again(entry) for _, entry in entries)])
            self.assertEqual(len(re.findall(r"^\d+ accepted version ", again, re.M)), 139)
            self.assertTrue(again.endswith(mark + verdict))


class Undos(Judge):
    def test_each_session_undoes_its_own_step(self) -> None:
        """Sessions put one block over and over, and undo that, and undo the undo. An undo is stale where another session has put the block
        since: with so many sessions that comes in nearly every run, and else in one of the next."""
        texts = [("in A",), ("in A", "out A", "")] * 4
        sessions = [[Command("look", "0"), Command("put", "0", text), Undo(), Undo()] * 50 for text in texts]
        script = script_of_steps(sessions).encode()
        for _ in range(100):
            status, report = answer_of("groups", "--block", "3", given=script)
            self.assertEqual(status, 0)
            self.judge(sessions, report.decode())
            stale = [int(number) for number in re.findall(rb"^(\d+) stale ", report, re.M)]
            if any(number % 4 in (3, 0) for number in stale):
                return
        self.fail("no undo was stale")


if __name__ == "__main__":
    unittest.main()
