"""Tests of the command `live` on scripts in which one session asks, or none, with all that the program writes. The replies are worked out
by hand.

`python3 -m unittest discover tests` runs them, on the check_main that TEKHVUMO_PROGRAM names or that is found.
"""
from __future__ import annotations

import unittest

from program import Status, answer_of
from samples import TWO_PUTS


class Scripts(unittest.TestCase):
    def tells(self, script: str, report: str, *words: str) -> None:
        """The script is carried out, by the command that its first line names, and the program writes this report."""
        answer = answer_of(script.split()[0], *words, given=script.encode())
        self.assertEqual((answer.status, answer.report.decode()), (Status.DONE, report))

    def is_refused(self, script: bytes, cause: str, word: str = "live") -> None:
        with self.subTest(script=script[:60]):
            self.assertEqual(answer_of(word, given=script), (Status.BAD_INPUT, f"bad input: {cause}\n".encode()))


TWO_PUTS_REPORT = """\
session 0
1 accepted version 1 block 0 sound lines 3 made 2 held 2 rack 0
2 accepted version 2 block 0 sound lines 1 made 0 held 0 rack 0
3 verdict version 2
sound lines 1 made 0 held 0 rack 0
in: 1
hook:
journal 2
1 session 0 put 0 seen 0 lines 3
2 session 0 put 0 seen 1 lines 1
final version 2
sound lines 1 made 0 held 0 rack 0
in: 1
hook:
"""

GONE_BLOCK = """\
live 1
|;!knitout-2
|;;Carriers: 1
|in 1
session
cut 0
look 0
look 99
put 0
|in 1
put 1
|in 1
add 0
|in 1
"""
GONE_BLOCK_REPORT = """\
session 0
1 accepted version 1 block 0 sound lines 0 made 0 held 0 rack 0
2 gone version 1 block 0 at 1
3 noblock version 1 block 99 ids 1
4 gone version 1 block 0 at 1
5 unseen 1
6 gone version 1 block 0 at 1
journal 1
1 session 0 cut 0 seen 0
final version 1
sound lines 0 made 0 held 0 rack 0
in:
hook:
"""

BAD_LINE = """\
live 1
|;!knitout-2
|;;Carriers: 1
|in 1
|knit + f1 1
session
put 0
|in 1
|knit + f
put 0
|in 1
|knit + f1 1
look 0
loop 4
loop 3
"""
BAD_LINE_REPORT = """\
session 0
1 accepted version 1 block 0 broken line 4 rule Unreadable at 0
2 accepted version 2 block 0 sound lines 2 made 1 held 1 rack 0
3 shown version 2 block 0 stamp 2 first 3 lines 2
|in 1
|knit + f1 1
4 loop version 2 loop 4 on f1 + with 1 through
5 loop version 2 none
journal 2
1 session 0 put 0 seen 0 lines 2
2 session 0 put 0 seen 1 lines 2
final version 2
sound lines 2 made 1 held 1 rack 0
in: 1
hook:
f1: 4
"""

OWN_BLOCK = """\
live 1
|;!knitout-2
|;;Carriers: 1
|in 1
session
cut 0
add start
|in 1
|tuck + f1 1
|knit + f1 1
loop 5
put @1
|in 1
session
"""
OWN_BLOCK_REPORT = """\
session 0
1 accepted version 1 block 0 sound lines 0 made 0 held 0 rack 0
2 accepted version 2 block 1 sound lines 3 made 2 held 1 rack 0
3 loop version 2 loop 5 on f1 + with 1 through 4
4 accepted version 3 block 1 sound lines 1 made 0 held 0 rack 0
session 1
journal 3
1 session 0 cut 0 seen 0
2 session 0 add start block 1 lines 3
3 session 0 put 1 seen 2 lines 1
final version 3
sound lines 1 made 0 held 0 rack 0
in: 1
hook:
"""

BLOCKS_OF_A_LINE = """\
live 1
|;!knitout-2
|;;Carriers: 1
|in 1
|knit + f1 1
session
look 1
look 2
"""
BLOCKS_OF_A_LINE_REPORT = """\
session 0
1 shown version 0 block 1 stamp 0 first 4 lines 1
|knit + f1 1
2 noblock version 0 block 2 ids 2
journal 0
final version 0
sound lines 2 made 1 held 1 rack 0
in: 1
hook:
f1: 4
"""


class Live(Scripts):
    def test_one_session_puts_twice(self) -> None:
        self.tells(TWO_PUTS.decode(), TWO_PUTS_REPORT)

    def test_a_block_that_is_gone(self) -> None:
        self.tells(GONE_BLOCK, GONE_BLOCK_REPORT)

    def test_a_bad_line_is_mended_and_its_loop_is_told(self) -> None:
        self.tells(BAD_LINE, BAD_LINE_REPORT)

    def test_a_block_of_the_session(self) -> None:
        """The script has a second session, which asks nothing."""
        self.tells(OWN_BLOCK, OWN_BLOCK_REPORT)

    def test_inputs_that_are_no_script(self) -> None:
        self.is_refused(b"live 2\n", "script line 1 NoLive")
        self.is_refused(b"live", "script line 1 NoLive")
        self.is_refused(b"live 1\nsession\nlook x\n", "script line 3 BadLine")
        self.is_refused(b"live 1\nsession\ncut @1\n", "script line 3 NoOwn")
        self.is_refused(b"\xff", "line 1 NotUtf8")

    def test_scripts_that_are_cut_off(self) -> None:
        self.is_refused(TWO_PUTS[:7], "head BadMagic")
        self.is_refused(TWO_PUTS[:20], "head NoCarriers")
        self.is_refused(TWO_PUTS[:58], "script line 6 BadLine")
        self.is_refused(TWO_PUTS[:65], "script line 7 BadLine")

    def test_a_session_too_many(self) -> None:
        self.is_refused(b"live 1\n" + b"session\n" * 65, "script line 66 ManySessions")

    def test_no_session(self) -> None:
        sound = "journal 0\nfinal version 0\nsound lines 1 made 0 held 0 rack 0\nin: 1\nhook:\n"
        self.tells("live 1\n|;!knitout-2\n|;;Carriers: 1\n|in 1\n", sound)
        broken = "journal 0\nfinal version 0\nbroken line 3 rule Unreadable at 0\n> knit + f\n"
        self.tells("live 1\n|;!knitout-2\n|;;Carriers: 1\n|knit + f\n", broken)

    def test_blocks_as_chosen(self) -> None:
        self.tells(BLOCKS_OF_A_LINE, BLOCKS_OF_A_LINE_REPORT, "--block", "1")


def with_names(count: int) -> str:
    """A session that gives the header so many names."""
    names = "".join(f" {number}" for number in range(1, count + 1))
    return f"live 1\n|;!knitout-2\n|;;Carriers: 1\n|in 1\nsession\nput head\n|;;Carriers:{names}\n"


NEW_NAME = """\
live 1
|;!knitout-2
|;;Carriers: 1
|in 1
session
put head
|;;Carriers: 1 2
put 0
|in 2
look head
verdict
"""
NEW_NAME_REPORT = """\
session 0
1 accepted version 1 block head sound lines 1 made 0 held 0 rack 0
2 accepted version 2 block 0 sound lines 1 made 0 held 0 rack 0
3 shown version 2 block head stamp 1 first 1 lines 1
|;;Carriers: 1 2
4 verdict version 2
sound lines 1 made 0 held 0 rack 0
in: 2
hook:
journal 2
1 session 0 put head seen 0 carriers 1 2
2 session 0 put 0 seen 0 lines 1
final version 2
sound lines 1 made 0 held 0 rack 0
in: 2
hook:
"""

LOST_NAME = """\
live 1
|;!knitout-2
|;;Carriers: A B
|in B
|knit + f1 B
session
loop 4
put head
|;;Carriers: A
verdict
put head
|;;Carriers: C B
loop 4
"""
LOST_NAME_REPORT = """\
session 0
1 loop version 0 loop 4 on f1 + with B through
2 accepted version 1 block head broken line 3 rule NoCarrier at 1
3 verdict version 1
broken line 3 rule NoCarrier at 1
> in B
4 accepted version 2 block head sound lines 2 made 1 held 1 rack 0
5 loop version 2 loop 4 on f1 + with B through
journal 2
1 session 0 put head seen 0 carriers A
2 session 0 put head seen 1 carriers C B
final version 2
sound lines 2 made 1 held 1 rack 0
in: B
hook:
f1: 4
"""

OTHER_ORDER = """\
live 1
|;!knitout-2
|;;Carriers: A B
|in A
session
verdict
put head
|;;Carriers: B A
verdict
put head
|;;Carriers:
"""
OTHER_ORDER_REPORT = """\
session 0
1 verdict version 0
sound lines 1 made 0 held 0 rack 0
in: A
hook:
2 accepted version 1 block head sound lines 1 made 0 held 0 rack 0
3 verdict version 1
sound lines 1 made 0 held 0 rack 0
in: A
hook:
4 accepted version 2 block head broken line 3 rule NoCarrier at 1
journal 2
1 session 0 put head seen 0 carriers B A
2 session 0 put head seen 1 carriers
final version 2
broken line 3 rule NoCarrier at 1
> in A
"""


class Headers(Scripts):
    def test_a_carrier_comes_in_that_was_named_since(self) -> None:
        self.tells(NEW_NAME, NEW_NAME_REPORT)

    def test_a_name_is_taken_away_and_put_back(self) -> None:
        """The lines keep their text while their carrier has no name, and a reply has the names of its version."""
        self.tells(LOST_NAME, LOST_NAME_REPORT)

    def test_a_reply_has_the_names_of_its_version(self) -> None:
        """The carrier that was the first has another name at the end, and the same one in the reply that was given before."""
        self.tells(OTHER_ORDER, OTHER_ORDER_REPORT)

    def test_sixty_four_names_and_one_more(self) -> None:
        self.is_refused(with_names(65).encode(), "script line 7 BadLine")
        status, report = answer_of("live", given=with_names(64).encode())
        self.assertEqual(status, Status.DONE)
        front = b"session 0\n1 accepted version 1 block head sound lines 1 made 0 held 0 rack 0\n"
        self.assertTrue(report.startswith(front), report)


if __name__ == "__main__":
    unittest.main()
