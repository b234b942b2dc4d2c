"""Tests of the command `live` on the program check_main: a reply of each kind, and entries of the journal.

`python3 -m unittest discover tests` runs them, on the check_main that TEKHVUMO_PROGRAM names or that is found.
"""
from __future__ import annotations

import shutil
import tempfile
import unittest

from program import answer_of, find_program
from refused_memory import build_refuser, replies_of, run

FRONT = "live 1\n|;!knitout-2\n|;;Carriers: 1\n"
OPENING = FRONT + "|in 1\n|tuck + f1 1\n"
KNITTED = "|in 1\n|knit + f1 1\n"


def live(script: str, *words: str) -> str:
    """What the program writes of a script, which it carries out."""
    status, report = answer_of("live", *words, given=script.encode())
    assert status == 0, (status, report[:200])
    return report.decode()


class Replies(unittest.TestCase):
    def replied(self, commands: str, last: str, opening: str = OPENING) -> None:
        """The last reply to the commands of the one session, behind its number."""
        replies = live(opening + "session\n" + commands).partition("journal ")[0]
        self.assertRegex(replies.removesuffix(last), r"(?:\A|\n)\d+ \Z", replies)
        self.assertTrue(replies.endswith(last), replies)

    def test_an_accepted_edit_of_a_sound_document(self) -> None:
        put = "put 0\n" + KNITTED + "|knit + f2 1\n"
        self.replied(put, "accepted version 1 block 0 sound lines 3 made 2 held 2 rack 0\n")

    def test_an_accepted_edit_of_a_broken_document(self) -> None:
        self.replied("put 0\n|in 1\n|knit\n", "accepted version 1 block 0 broken line 4 rule Unreadable at 0\n")

    def test_a_block_that_is_shown(self) -> None:
        puts = "put 0\nput 0\n" + KNITTED
        self.replied(puts + "look 0\n", "shown version 2 block 0 stamp 2 first 3 lines 2\n" + KNITTED)

    def test_a_loop_of_a_line(self) -> None:
        puts = "put 0\nput 0\n" + KNITTED
        self.replied(puts + "loop 4\n", "loop version 2 loop 4 on f1 + with 1 through\n")

    def test_a_line_that_makes_no_loop(self) -> None:
        puts = "put 0\nput 0\n" + KNITTED
        for line in ("0", "2", "3", "5"):
            with self.subTest(line):
                self.replied(puts + f"loop {line}\n", "loop version 2 none\n")

    def test_a_verdict_that_was_asked_for(self) -> None:
        puts = "put 0\nput 0\n|in 1\n|knit\n"
        self.replied(puts + "verdict\n", "verdict version 2\nbroken line 4 rule Unreadable at 0\n> knit\n")

    def test_a_stamp_that_is_old(self) -> None:
        """Of two sessions nobody knows which comes first: the other one's put is stale."""
        report = live(OPENING + "session\nput 0\n" * 2)
        accepted, stale = "accepted version 1 block 0 sound lines 0 made 0 held 0 rack 0", "stale version 1 block 0 seen 0 now 1"
        told = ["session 0\n1 {}\nsession 1\n1 {}\n".format(*both) for both in ((accepted, stale), (stale, accepted))]
        self.assertIn(report.partition("journal ")[0], told)

    def test_a_block_that_is_not_there(self) -> None:
        for command in ("look 0", "put 0", "cut 0", "add 0"):
            self.replied(f"cut 0\n{command}\n", "gone version 1 block 0 at 1\n")
        for command in ("look 99", "add 99"):
            self.replied(f"cut 0\n{command}\n", "noblock version 1 block 99 ids 1\n")

    def test_a_limit_that_would_be_passed(self) -> None:
        """As many entries as there may be, and one more. (Blocks and lines are in test_live.)"""
        report = live(OPENING + "session\n" + "put 0\n" * 1_048_577)
        last = "\n1048576 accepted version 1048576 block 0 sound lines 0 made 0 held 0 rack 0\n"
        full = "1048577 full version 1048576 entries limit 1048576\njournal 1048576\n"
        self.assertEqual(report.count(last + full), 1)

    def test_a_block_that_was_not_seen(self) -> None:
        """The session that adds no block has none of its own, and a block that it hasn't looked at it can't put."""
        two = FRONT + "|pause\n"
        self.replied("put 1\n", "unseen 1\n", two)
        self.replied("cut 1\n", "unseen 1\n", two)
        for command in ("look @1", "put @1", "cut @1", "add @1"):
            self.replied(f"add 99\n{command}\n", "unseen @1\n", two)

    @unittest.skipUnless(shutil.which("cc"), "wants a C compiler")
    def test_what_is_not_asked_of_a_book(self) -> None:
        """Want of memory, where a request of the session's one put is refused. (A text that is too long is in test_live.)"""
        script = (OPENING + "session\nput 0\n" + KNITTED).encode()
        whole = replies_of(answer_of("live", given=script).report.decode())
        told, request, was_refused = [], 0, True
        with tempfile.TemporaryDirectory() as folder:
            library = build_refuser(folder)
            while was_refused:
                request += 1
                status, report, was_refused = run([find_program(), "live"], script, library, request)
                told += [report.decode()] if status == 0 and replies_of(report.decode()) != whole else []
        end = "journal 0\nfinal version 0\nsound lines 2 made 1 held 1 rack 0\nin: 1\nhook:\nf1: 4\n"
        self.assertEqual(set(told), {"session 0\n1 nomemory\n" + end})


class Journals(unittest.TestCase):
    """The journal of a script of one session. (One without entries is in test_live.)"""

    def journal(self, body: str, commands: str, told: str, *words: str) -> None:
        report = live(FRONT + body + "session\n" + commands, *words)
        self.assertEqual(report[report.index("journal ") : report.index("final ")], told)

    def test_texts_that_were_put(self) -> None:
        puts = "put 0\n" + KNITTED + "|knit + f2 1\nput 0\n|in 1\n"
        told = "journal 2\n1 session 0 put 0 seen 0 lines 3\n2 session 0 put 0 seen 1 lines 1\n"
        self.journal("|in 1\n", puts, told)

    def test_a_block_that_came_in_first(self) -> None:
        add = "add start\n|in 1\n"
        self.journal("|pause\n" * 2_813, add, "journal 1\n1 session 0 add start block 2813 lines 1\n", "--block", "1")

    def test_a_block_that_came_in_behind_another(self) -> None:
        add = "add 4\n|in 1\n|knit + f1 1\n"
        self.journal("|pause\n" * 7, add, "journal 1\n1 session 0 add 4 block 7 lines 2\n", "--block", "1")

    def test_a_block_that_was_taken_out(self) -> None:
        self.journal("|in 1\n", "cut 0\n", "journal 1\n1 session 0 cut 0 seen 0\n")


if __name__ == "__main__":
    unittest.main()
