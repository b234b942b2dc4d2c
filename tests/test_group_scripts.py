"""Tests of the command `groups` on scripts of one session, with all that the program writes of them. The replies are worked out by hand.

`python3 -m unittest discover tests` runs them, on the check_main that TEKHVUMO_PROGRAM names or that is found.
"""
from __future__ import annotations

import unittest

from program import Status, answer_of
from test_scripts import Scripts


def many_adds(count: int) -> bytes:
    """A group of so many adds."""
    return b"groups 1\n|;!knitout-2\n|;;Carriers: 1\n|in 1\nsession\ngroup\n" + b"add 0\n|\n" * count + b"end\n"


GROUP_AND_PUT = """\
groups 1
|;!knitout-2
|;;Carriers: 1
|in 1
|knit + f1 1
session
group
put 0
|in 1
|knit + f1 1
add 0
|out 1
end
undo
put 0
|
undo
"""
GROUP_AND_PUT_REPORT = """\
session 0
1 group version 2 from 1 sound lines 3 made 1 held 1 rack 0
2 noundo
3 accepted version 3 block 0 broken line 4 rule CarrierIsOut at 1
4 accepted version 4 block 0 sound lines 3 made 1 held 1 rack 0
journal 4
1 session 0 put 0 seen 0 lines 2
2 session 0 add 0 block 1 lines 1
3 session 0 put 0 seen 1 lines 1
4 session 0 put 0 seen 3 lines 2
final version 4
sound lines 3 made 1 held 1 rack 0
in:
hook:
f1: 4
"""

BAD_LAST_EDIT = """\
groups 1
|;!knitout-2
|;;Carriers: 1
|in 1
|knit + f1 1
session
group
put 0
|
add 99
|
end
"""
BAD_LAST_EDIT_REPORT = """\
session 0
1 refused version 0 at 2 noblock version 1 block 99 ids 1
journal 0
final version 0
sound lines 2 made 1 held 1 rack 0
in: 1
hook:
f1: 4
"""

LAST_STEPS = """\
groups 1
|;!knitout-2
|;;Carriers: 1
|in 1
|knit + f1 1
session
undo
add 0
|knit + f2 1
undo
undo
put 0
|in 1
undo
undo
put 0
|in 1
|knit + f1 1
put head
|;;Carriers: 1 2
undo
cut 0
undo
"""
LAST_STEPS_REPORT = """\
session 0
1 noundo
2 accepted version 1 block 1 sound lines 3 made 2 held 2 rack 0
3 accepted version 2 block 1 sound lines 2 made 1 held 1 rack 0
4 noundo
5 accepted version 3 block 0 sound lines 1 made 0 held 0 rack 0
6 accepted version 4 block 0 sound lines 2 made 1 held 1 rack 0
7 accepted version 5 block 0 sound lines 1 made 0 held 0 rack 0
8 accepted version 6 block 0 sound lines 2 made 1 held 1 rack 0
9 accepted version 7 block head sound lines 2 made 1 held 1 rack 0
10 noundo
11 accepted version 8 block 0 sound lines 0 made 0 held 0 rack 0
12 noundo
journal 8
1 session 0 add 0 block 1 lines 1
2 session 0 cut 1 seen 1
3 session 0 put 0 seen 0 lines 1
4 session 0 put 0 seen 3 lines 2
5 session 0 put 0 seen 4 lines 1
6 session 0 put 0 seen 5 lines 2
7 session 0 put head seen 0 carriers 1 2
8 session 0 cut 0 seen 6
final version 8
sound lines 0 made 0 held 0 rack 0
in:
hook:
"""

OWN_NAMES = """\
groups 1
|;!knitout-2
|;;Carriers: 1
|in 1
session
group
add start
|
put @1
|
end
put @1
|
group
add start
|
cut 0
end
put @2
|in 1
group
put 1
|
put 1
|in 1
end
"""
OWN_NAMES_REPORT = """\
session 0
1 refused version 0 at 2 unseen @1
2 unseen @1
3 group version 2 from 1 sound lines 1 made 0 held 0 rack 0
4 accepted version 3 block 1 sound lines 1 made 0 held 0 rack 0
5 refused version 3 at 2 stale version 4 block 1 seen 3 now 4
journal 3
1 session 0 add start block 1 lines 1
2 session 0 cut 0 seen 0
3 session 0 put 1 seen 1 lines 1
final version 3
sound lines 1 made 0 held 0 rack 0
in: 1
hook:
"""


class GroupScripts(Scripts):
    def test_a_group_is_no_single_step_and_a_put_is_undone(self) -> None:
        self.tells(GROUP_AND_PUT, GROUP_AND_PUT_REPORT)

    def test_a_group_refused_at_its_last_edit_leaves_nothing(self) -> None:
        self.tells(BAD_LAST_EDIT, BAD_LAST_EDIT_REPORT)

    def test_each_kind_of_last_step_is_undone_or_not(self) -> None:
        self.tells(LAST_STEPS, LAST_STEPS_REPORT)

    def test_names_are_those_of_before_the_group(self) -> None:
        self.tells(OWN_NAMES, OWN_NAMES_REPORT)

    def test_sixty_four_edits_are_a_group(self) -> None:
        status, report = answer_of("groups", given=many_adds(64))
        self.assertEqual(status, Status.DONE)
        front = b"session 0\n1 group version 64 from 1 sound lines 65 made 0 held 0 rack 0\njournal 64\n"
        self.assertTrue(report.startswith(front), report)

    def test_sixty_five_are_not(self) -> None:
        self.is_refused(many_adds(65), "script line 135 BadLine", "groups")

    def test_scripts_of_the_other_kind(self) -> None:
        self.is_refused(b"live 1\n", "script line 1 NoGroups", "groups")
        self.is_refused(b"groups 1\n", "script line 1 NoLive", "live")
        self.is_refused(b"groups 1\nsession\ngroup\n", "script line 4 BadLine", "groups")


if __name__ == "__main__":
    unittest.main()
