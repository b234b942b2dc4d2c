"""Tests of documents that one session edits: what it is answered, and what the journal and a saved text keep.

`python3 -m unittest discover tests` runs them, on the check_main that TEKHVUMO_PROGRAM names or that is found.
"""
from __future__ import annotations

import unittest

from program import answer_of


def script_of(command: str, opening: str, steps: str) -> bytes:
    """A script over an opening of these lines, with these lines of one session. Both are parted by semicolons."""
    body = ["|" + line for line in opening.split("; ") if opening]
    return "\n".join([f"{command} 1", "|;!knitout-2", "|;;Carriers: 1", *body, "session", *steps.split("; "), ""]).encode()


class Documents(unittest.TestCase):
    maxDiff = None

    def answered(self, command: str, opening: str, steps: str, *replies: str) -> str:
        """The session has these replies, each line behind its number. What is written behind them."""
        status, report = answer_of(command, given=script_of(command, opening, steps))
        self.assertEqual(status, 0, report)
        told, mark, rest = report.decode().partition("journal ")
        self.assertEqual(told, "".join(f"{line}\n" for line in ("session 0", *replies)))
        return mark + rest


class Edits(Documents):
    def test_a_put_is_answered_with_the_verdict_after_it(self) -> None:
        """Within the group the second put has seen too little."""
        puts = "put 0; |in 1; |knit + f1 1; |knit + f2 1; put 0; |in 1"
        self.answered(
            "groups",
            "in 1; knit + f1 1",
            f"group; {puts}; end; {puts}",
            "1 refused version 0 at 2 stale version 1 block 0 seen 0 now 1",
            "2 accepted version 1 block 0 sound lines 3 made 2 held 2 rack 0",
            "3 accepted version 2 block 0 sound lines 1 made 0 held 0 rack 0",
        )

    def test_a_put_replaces_the_one_before(self) -> None:
        rest = self.answered(
            "live",
            "in 1; knit + f1 1",
            "put 0; |in 1; |knit + f1 1; |knit + f2 1; put 0; |in 1; verdict",
            "1 accepted version 1 block 0 sound lines 3 made 2 held 2 rack 0",
            "2 accepted version 2 block 0 sound lines 1 made 0 held 0 rack 0",
            "3 verdict version 2",
            "sound lines 1 made 0 held 0 rack 0",
            "in: 1",
            "hook:",
        )
        self.assertIn("\nfinal version 2\nsound lines 1 made 0 held 0 rack 0\n", rest)

    def test_a_cut_block_is_gone(self) -> None:
        """Block 99 was never there, and the session has seen no block 1."""
        rest = self.answered(
            "live",
            "in 1",
            "cut 0; look 0; look 99; put 0; |in 1; put 1; |in 1; add 0; |in 1; add start; |in 1",
            "1 accepted version 1 block 0 sound lines 0 made 0 held 0 rack 0",
            "2 gone version 1 block 0 at 1",
            "3 noblock version 1 block 99 ids 1",
            "4 gone version 1 block 0 at 1",
            "5 unseen 1",
            "6 gone version 1 block 0 at 1",
            "7 accepted version 2 block 1 sound lines 1 made 0 held 0 rack 0",
        )
        self.assertTrue(rest.startswith("journal 2\n1 session 0 cut 0 seen 0\n2 session 0 add start block 1 lines 1\n"), rest)

    def test_a_bad_line_is_named_and_a_block_shown(self) -> None:
        self.answered(
            "live",
            "in 1; knit + f1 1",
            "put 0; |in 1; |knit + f; verdict; put 0; |in 1; |knit + f1 1; look 0",
            "1 accepted version 1 block 0 broken line 4 rule Unreadable at 0",
            "2 verdict version 1",
            "broken line 4 rule Unreadable at 0",
            "> knit + f",
            "3 accepted version 2 block 0 sound lines 2 made 1 held 1 rack 0",
            "4 shown version 2 block 0 stamp 2 first 3 lines 2",
            "|in 1",
            "|knit + f1 1",
        )

    def test_each_add_is_counted(self) -> None:
        """The first add is refused, so it has no block; the second's is block 1."""
        self.answered(
            "live",
            "in 1",
            "add 7; |in 1; cut 0; add start; |in 1; |tuck + f1 1; |knit + f1 1; put @1; |in 1; put @2; |in 1",
            "1 noblock version 0 block 7 ids 1",
            "2 accepted version 1 block 0 sound lines 0 made 0 held 0 rack 0",
            "3 accepted version 2 block 1 sound lines 3 made 2 held 1 rack 0",
            "4 unseen @1",
            "5 accepted version 3 block 1 sound lines 1 made 0 held 0 rack 0",
        )


class Wholes(Documents):
    def test_the_root_is_that_of_all_leaves(self) -> None:
        """Blocks of 2, 3 and no lines that set the rack; 1 line in the place of the third; and then without the first."""
        rest = self.answered(
            "live",
            "",
            "add start; add start; |pause; |rack .25; add @2; |pause; |pause; |rack .5; put @1; |rack 1; cut @2",
            "1 accepted version 1 block 0 sound lines 0 made 0 held 0 rack 0",
            "2 accepted version 2 block 1 sound lines 2 made 0 held 0 rack 0.25",
            "3 accepted version 3 block 2 sound lines 5 made 0 held 0 rack 0.5",
            "4 accepted version 4 block 0 sound lines 6 made 0 held 0 rack 1",
            "5 accepted version 5 block 1 sound lines 4 made 0 held 0 rack 1",
        )
        self.assertTrue(rest.endswith("\nfinal version 5\nsound lines 4 made 0 held 0 rack 1\nin:\nhook:\n"), rest)

    def test_lines_are_found_in_their_leaves(self) -> None:
        """Behind a block of 2 lines stands one of 3."""
        self.answered(
            "live",
            "in 1; tuck + f1 1",
            "add 0; |tuck + f2 1; |tuck + f3 1; |tuck + f4 1; loop 3; loop 4; loop 5; loop 7; loop 8; look @1",
            "1 accepted version 1 block 1 sound lines 5 made 4 held 4 rack 0",
            "2 loop version 1 none",
            "3 loop version 1 loop 4 on f1 + with 1 through",
            "4 loop version 1 loop 5 on f2 + with 1 through",
            "5 loop version 1 loop 7 on f4 + with 1 through",
            "6 loop version 1 none",
            "7 shown version 1 block 1 stamp 1 first 5 lines 3",
            "|tuck + f2 1",
            "|tuck + f3 1",
            "|tuck + f4 1",
        )

    def test_a_loop_is_told_by_its_line(self) -> None:
        told = ("1 loop version 0 none", "2 loop version 0 loop 4 on f1 + with 1 through")
        self.answered("live", "in 1; knit + f1 1", "loop 3; loop 4", *told)

    def test_a_loop_is_drawn_through_one_of_an_earlier_block(self) -> None:
        self.answered(
            "live",
            "in 1",
            "add 0; |tuck + f1 1; add 1; |knit + f1 1; loop 5",
            "1 accepted version 1 block 1 sound lines 2 made 1 held 1 rack 0",
            "2 accepted version 2 block 2 sound lines 3 made 2 held 1 rack 0",
            "3 loop version 2 loop 5 on f1 + with 1 through 4",
        )


class Groups(Documents):
    def test_a_group_is_one_step_and_a_put_is_undone(self) -> None:
        """Behind the put of an empty line the carrier goes out at line 4, and never came in."""
        rest = self.answered(
            "groups",
            "in 1; knit + f1 1",
            "group; put 0; |in 1; |knit + f1 1; add 0; |out 1; end; undo; put 0; |; undo; look 0",
            "1 group version 2 from 1 sound lines 3 made 1 held 1 rack 0",
            "2 noundo",
            "3 accepted version 3 block 0 broken line 4 rule CarrierIsOut at 1",
            "4 accepted version 4 block 0 sound lines 3 made 1 held 1 rack 0",
            "5 shown version 4 block 0 stamp 4 first 3 lines 2",
            "|in 1",
            "|knit + f1 1",
        )
        self.assertTrue(rest.startswith("journal 4\n"), rest)

    def test_a_group_refused_at_its_last_edit_leaves_all(self) -> None:
        rest = self.answered(
            "groups",
            "in 1; knit + f1 1",
            "group; put 0; |; add 99; |; end; look 0",
            "1 refused version 0 at 2 noblock version 1 block 99 ids 1",
            "2 shown version 0 block 0 stamp 0 first 3 lines 2",
            "|in 1",
            "|knit + f1 1",
        )
        self.assertTrue(rest.startswith("journal 0\n"), rest)

    def test_an_add_is_undone_and_a_cut_is_not(self) -> None:
        self.answered(
            "groups",
            "in 1; knit + f1 1",
            "undo; add 0; |knit + f2 1; undo; undo",
            "1 noundo",
            "2 accepted version 1 block 1 sound lines 3 made 2 held 2 rack 0",
            "3 accepted version 2 block 1 sound lines 2 made 1 held 1 rack 0",
            "4 noundo",
        )


SAVED = """journal 1
profile -1024 1023 8 16 0
head 2
|;!knitout-2
|;;Carriers: 1
blocks 3
block 1
|in 1
block 1
|pause
block 1
|out 1
entries 2
session 0 add 0 block 3 lines 1
|in 1
session 0 cut 3 seen 1
"""


class Journals(Documents):
    def test_entries_are_numbered_from_one(self) -> None:
        """The one entry is session 1's, which puts two lines."""
        rest = self.answered(
            "live",
            "in 1",
            "session; put 0; |in 1; |in 1",
            "session 1",
            "1 accepted version 1 block 0 broken line 4 rule CarrierIsIn at 1",
        )
        self.assertTrue(rest.startswith("journal 1\n1 session 1 put 0 seen 0 lines 2\nfinal version 1\n"), rest)

    def test_an_entry_has_the_text_of_its_block(self) -> None:
        """An add has a text, and a cut has none."""
        script = script_of("live", "in 1; pause; out 1", "add 0; |in 1; cut @1")
        self.assertEqual(answer_of("save", "--block", "1", given=script), (0, SAVED.encode()))


if __name__ == "__main__":
    unittest.main()
