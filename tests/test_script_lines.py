"""Tests of the scripts that `live` and `groups` read, and of the first line at which one is refused.

`python3 -m unittest discover tests` runs them, on the check_main that TEKHVUMO_PROGRAM names or that is found.
"""
from __future__ import annotations

import unittest

from program import answer_of

# The scripts below have no opening text, so that of one whose lines are all good its head is refused.
GOOD = "head BadMagic"
HEAD = "|;!knitout-2\n|;;Carriers: 1\n"


def line(number: int, cause: str = "BadLine") -> str:
    return f"script line {number} {cause}"


class Scripts(unittest.TestCase):
    def refused(self, told: str, *scripts: str, command: str = "live") -> None:
        """Each of these scripts is refused so."""
        for script in scripts:
            with self.subTest(script):
                self.assertEqual(answer_of(command, given=script.encode()), (3, f"bad input: {told}\n".encode()))

    def session_refused(self, told: str, *sessions: str) -> None:
        """So is each script of `live` of a session with these lines, of which the first is line 3."""
        self.refused(told, *(f"live 1\nsession\n{lines}\n" for lines in sessions))

    def steps_refused(self, told: str, *sessions: str) -> None:
        """So is each script of `groups` of a session with these lines, of which the first is line 3."""
        self.refused(told, *(f"groups 1\nsession\n{lines}\n" for lines in sessions), command="groups")

    def group_refused(self, told: str, *groups: str) -> None:
        """So is each script of a group with these lines behind `add start`, of which the first is line 5."""
        self.steps_refused(told, *(f"group\nadd start\n{lines}" for lines in groups))

    def report(self, command: str, script: str) -> str:
        """What is written of a script that is carried out."""
        status, report = answer_of(command, given=script.encode())
        self.assertEqual(status, 0, report)
        return report.decode()


class Refusals(Scripts):
    def test_the_first_line_outside_is_named(self) -> None:
        self.refused(line(1, "NoLive"), "", "live 2\n", "# x\nlive 1\n")
        self.refused(line(3), "live 1\nsession\nlook x\n")
        self.refused(line(2), "live 1\ncut @1\n")
        self.refused(line(4), "live 1\nsession\nlook 1\n|x\n")

    def test_own_blocks_stand_before_their_names(self) -> None:
        self.session_refused(line(3, "NoOwn"), "cut @1")
        self.session_refused(line(4, "NoOwn"), "add start\ncut @0")
        self.session_refused(GOOD, "add start\nadd @1\ncut @02")
        self.session_refused(line(5, "NoOwn"), "add 0\nsession\ncut @1")

    def test_numbers_fit_32_bits(self) -> None:
        self.session_refused(GOOD, "look 4294967294")
        self.session_refused(line(3), "loop 4294967296", "look 00000000001")

    def test_the_header_is_named_by_its_word(self) -> None:
        """The header's id is no block's."""
        self.session_refused(line(3), "look 4294967295", "put 4294967295", "add 4294967295", "cut 04294967295")
        self.session_refused(line(3), "cut head", "add head", "put head", "look head 1")
        self.session_refused(GOOD, "look head\nloop 4294967295")

    def test_the_names_of_a_header_are_one_text_line(self) -> None:
        names = "|;;Carriers: 1 B"
        self.session_refused(GOOD, f"put head\n{names}\nverdict", f"put head\n# skipped\n{names}", "put head\n|;;Carriers:\n")
        self.session_refused(line(5), f"put head\n{names}\n|in 1", "put head\n\n|;;Carriers: 1 1")
        self.session_refused(line(4), "put head\n|;; Carriers: 1\n", f"put head\n|\n{names}")
        for between in ("verdict", "session", "put head"):
            self.session_refused(line(3), f"put head\n{between}\n{names}")

    def test_a_blank_in_front_makes_a_bad_line(self) -> None:
        self.refused(line(2), "live 1\n # x\n", "live 1\n |x\n")

    def test_skipped_lines_are_counted(self) -> None:
        self.refused(line(7, "NoOwn"), "live 1\n# x\nsession\nput 0\n\n|in 1\nadd @1\n")

    def test_one_command_is_refused_at_its_line(self) -> None:
        """The commands stand behind an add."""
        for word in ("group", "end", "undo", "x", "put head"):
            self.session_refused(line(4), f"add start\n{word}\ncut 0\nverdict")
        self.session_refused(line(4, "NoOwn"), "add start\ncut @2\n|x\nverdict")
        self.session_refused(line(5), "add start\nput head\n|x\nverdict")
        self.session_refused(GOOD, "add start\ncut @1\nverdict")


class Kinds(Scripts):
    def test_the_first_line_tells_the_kind(self) -> None:
        for first in ("live 1", "groups 2", "groups", "groups 1 1", "# x", "|groups 1"):
            self.refused(line(1, "NoGroups"), f"{first}\ngroups 1\n", command="groups")
        self.refused(line(1, "NoGroups"), "", command="groups")
        self.refused(GOOD, " groups\t1 \n", command="groups")
        self.refused(line(1, "NoLive"), "groups 1\n")

    def test_live_scripts_have_no_groups(self) -> None:
        self.session_refused(line(3), "group", "end", "undo")

    def test_sixty_four_sessions_of_steps_may_begin(self) -> None:
        self.refused(line(66, "ManySessions"), "groups 1\n" + "session\n" * 65, command="groups")
        self.refused(GOOD, "groups 1\n" + "session\n" * 64, command="groups")


class Groups(Scripts):
    def test_a_group_holds_edits_of_blocks_alone(self) -> None:
        outside = ("look 0", "look head", "loop 1", "verdict", "put head", "group", "undo", "session", "end x", "x", "look @9")
        for other in outside:
            self.group_refused(line(5), f"{other}\n|;;Carriers: 1\nend")
        self.group_refused(line(7), "|x\ncut 0\n|x")
        for other in ("put 0", "add @1", "cut 4", "# x", "", "|x"):
            self.group_refused(GOOD, f"{other}\n end \nundo")

    def test_marks_stand_alone_and_take_no_text(self) -> None:
        for mark in ("end", "group x", "undo 1", "end 1", "|x"):
            self.steps_refused(line(3), f"{mark}\n\n")
        for mark in ("group", "undo"):
            self.steps_refused(line(4), f"{mark}\n|x\nend")
        for mark in ("group", "undo", "end"):
            self.refused(line(2), f"groups 1\n{mark}\n", command="groups")
        self.group_refused(line(7), "end\n# x\n|x")
        self.steps_refused(GOOD, "undo\nundo\nverdict")

    def test_a_group_has_an_edit_and_an_end(self) -> None:
        self.steps_refused(line(4), "group\nend\n")
        self.steps_refused(line(5), "group\n# x\nend")
        self.steps_refused(line(6), "group\n\n# x")
        self.group_refused(line(8), "|x\n\n# x", "cut 0\nend\ngroup")

    def test_own_blocks_of_a_group_are_counted(self) -> None:
        self.group_refused(GOOD, "add @1\ncut @2\nend", "end\nput @1\n|x")
        self.group_refused(line(5, "NoOwn"), "cut @2\nend\n")
        self.group_refused(line(6, "NoOwn"), "end\nput @2\n|x")
        self.steps_refused(line(6), "add 0\ngroup\ncut @1")
        self.steps_refused(line(4, "NoOwn"), "group\ncut @1\nend")

    def test_sixty_four_edits_may_stand_in_a_group(self) -> None:
        edits = "\n".join(["cut 0"] * 64)
        self.steps_refused(line(68), f"group\n{edits}\ncut @1\nend")
        self.steps_refused(GOOD, f"group\n{edits}\nend\nundo")


# A verdict of the second session, before or behind the put of the first.
TWO_SESSIONS = """session 0
1 accepted version 1 block 0 sound lines 1 made 0 held 0 rack 0
2 noblock version 1 block 5 ids 1
session 1
1 verdict version {version}
sound lines 1 made 0 held 0 rack 0
in:{carriers}
hook:
journal 1
1 session 0 put 0 seen 0 lines 1
final version 1
sound lines 1 made 0 held 0 rack 0
in: 1
hook:
"""
OTHER_NAMES = """session 0
1 accepted version 1 block head sound lines 0 made 0 held 0 rack 0
2 shown version 1 block head stamp 1 first 1 lines 1
|;;Carriers: A B ;
journal 1
1 session 0 put head seen 0 carriers A B ;
final version 1
sound lines 0 made 0 held 0 rack 0
in:
hook:
"""
STEPS = """session 0
1 refused version 0 at 2 unseen @1
2 noundo
3 accepted version 1 block head sound lines 0 made 0 held 0 rack 0
4 group version 2 from 2 broken line 3 rule Unreadable at 0
5 shown version 2 block 0 stamp 2 first 3 lines 2
|x
|y
session 1
journal 2
1 session 0 put head seen 0 carriers A
2 session 0 add start block 0 lines 2
final version 2
broken line 3 rule Unreadable at 0
> x
"""


class Readings(Scripts):
    def test_a_script_is_read(self) -> None:
        script = " live\t1 \n|;!knitout-2\n# skipped\n|;;Carriers: 1\n|pause\n session \nput 0\n\n|in 1\nadd 5\nsession\nverdict\n"
        orders = [TWO_SESSIONS.format(version=0, carriers=""), TWO_SESSIONS.format(version=1, carriers=" 1")]
        self.assertIn(self.report("live", script), orders)

    def test_a_text_goes_on_behind_a_skipped_line(self) -> None:
        report = self.report("live", f"live 1\n{HEAD}|a\n|\u00e9\n# x\n|\nsession\nlook 0\n")
        self.assertIn("\n1 shown version 0 block 0 stamp 0 first 3 lines 3\n|a\n|\u00e9\n|\njournal 0\n", report)

    def test_one_command_is_read_with_its_text(self) -> None:
        session = "session\nput 0\n\n|x\n# skipped\n|y\n# skipped\nlook 0\n\n"
        report = self.report("live", f"live 1\n{HEAD}|in 1\n{session}")
        self.assertIn("\n2 shown version 1 block 0 stamp 1 first 3 lines 2\n|x\n|y\njournal 1\n", report)

    def test_the_names_of_a_header_are_read(self) -> None:
        script = f"live 1\n{HEAD}session\n put  head \n|;;Carriers:A  B ;\nlook head\n"
        self.assertEqual(self.report("live", script), OTHER_NAMES)

    def test_a_script_of_groups_is_read(self) -> None:
        """The first group names a block of its own; the second is done, and its text is shown."""
        added = "\nadd start\n|x\n# skipped\n|y\n"
        steps = f"group\n{added}cut @1\nend\nundo\nput head\n|;;Carriers: A\ngroup{added}end\nlook @2\n"
        self.assertEqual(self.report("groups", f"groups 1\n{HEAD}session\n{steps}session\n"), STEPS)


if __name__ == "__main__":
    unittest.main()
