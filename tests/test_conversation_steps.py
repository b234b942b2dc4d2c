"""Tests of the command `serve`: groups, undo, names of the header, saved texts and tallies in a conversation.

`python3 -m unittest discover tests` runs them, on the check_main that TEKHVUMO_PROGRAM names or that is found.
"""
from __future__ import annotations

import re
import unittest

from conversation_model import BLOCK, OPENING_LINES
from conversations import OPENED, OPENING, conversed, opening_of, put, replies_in, without_frame
from program import answer_of
from random_conversations import some_conversation
from saved_texts import document_of

ADD = b"add 0 lines 1\n|\n"


class Steps(unittest.TestCase):
    def replies(self, given: bytes) -> list[str]:
        """What is said between `opened` and `final`."""
        status, said = conversed(OPENING + given)
        self.assertEqual(status, 0)
        self.assertTrue(said.startswith(OPENED))
        return [reply.decode() for reply in replies_in(said)[1:-1]]

    def test_a_group_that_is_done(self) -> None:
        given = b"session 2 group\nsession 2 put 0 lines 1\n|in 2\nsession 2 add 0 lines 1\n|out 2\nsession 2 end\nsession 2 look @1\n"
        done = "session 2 1 group version 2 from 1 sound lines 2 made 0 held 0 rack 0"
        self.assertEqual(self.replies(given), [done, "session 2 2 shown version 2 block 1 stamp 2 first 4 lines 1\n|out 2"])

    def test_a_group_that_leaves_a_broken_line(self) -> None:
        given = b"group\nadd 0 lines 2\n|\n|in 1\nend\n"
        done = "session 0 1 group version 1 from 1 broken line 5 rule CarrierIsIn at 1\nbroken block 1 line 2"
        self.assertEqual(self.replies(given), [done])

    def test_a_group_that_is_refused(self) -> None:
        given = b"group\nadd 0 lines 0\nput @1 lines 0\nend\ngroup\nput 0 lines 0\nput 0 lines 0\nend\nlook @1\n"
        stale = "session 0 2 refused version 0 at 2 stale version 1 block 0 seen 0 now 1"
        self.assertEqual(self.replies(given), ["session 0 1 refused version 0 at 2 unseen @1", stale, "session 0 3 unseen @1"])

    def test_a_group_that_is_broken_off(self) -> None:
        """By a line that can't stand in it, by another session, or by the input's end: no edit is done, and the line isn't carried out."""
        begun = b"group\n" + ADD
        lines = b"verdict,look 0,put head lines 1,blocks,undo,group,session 1 end,session 1 put 0 lines 0,putt".split(b",")
        for line in lines:
            with self.subTest(line=line):
                replies = self.replies(begun + line + b"\n|\nblocks\n")
                self.assertEqual(replies[0], "badinput line 8 BadLine")
                self.assertEqual(replies[1], "session 0 1 blocks version 0 blocks 1\nblock 0 stamp 0 first 3 lines 1")
        self.assertEqual(self.replies(begun), ["badinput line 8 BadLine"])
        self.assertEqual(self.replies(b"group\nend\nend\n"), ["badinput line 6 BadLine", "badinput line 7 BadLine"])

    def test_a_text_that_is_broken_off_ends_its_group(self) -> None:
        self.assertEqual(self.replies(b"group\nput 0 lines 2\n|\nundo\n"), ["badinput line 8 BadLine", "session 0 1 noundo"])

    def test_adds_of_a_group_count_when_it_is_whole(self) -> None:
        given = b"group\n" + ADD + b"verdict\nlook @1\n"
        self.assertEqual(self.replies(given), ["badinput line 8 BadLine", "badinput line 9 NoOwn"])

    def test_as_many_edits_as_there_may_be(self) -> None:
        (done,) = self.replies(b"group\n" + ADD * 64 + b"end\n")
        self.assertEqual(done, "session 0 1 group version 64 from 1 sound lines 65 made 0 held 0 rack 0")
        replies = self.replies(b"group\n" + ADD * 65 + b"end\nblocks\n")
        self.assertEqual(replies[:2], ["badinput line 134 BadLine", "badinput line 136 BadLine"])
        self.assertIn(" blocks version 0 blocks 1\n", replies[2])

    def test_a_long_text_in_a_group(self) -> None:
        self.assertEqual(self.replies(b"group\nput 0 lines 4097\n" + b"|\n" * 4_097), ["badinput line 6 BadLine"])

    def test_undo(self) -> None:
        given = b"undo\n" + put(0, ["in 2"]) + b"undo\nundo\nsession 1 undo\nlook 0\n"
        replies = [re.sub(r"sound.*", "..", reply) for reply in self.replies(given)]
        undone = [f"session 0 {number} accepted version {number - 1} block 0 .." for number in (2, 3, 4)]
        shown = "session 0 5 shown version 3 block 0 stamp 3 first 3 lines 1\n|in 2"
        self.assertEqual(replies, ["session 0 1 noundo", *undone, "session 1 1 noundo", shown])

    def test_names_of_the_header(self) -> None:
        given = b"look head\nput head lines 1\n|;;Carriers: 1 B\nsession 1 put 0 lines 0\nsession 1 look head\nsession 1 put 0 lines 0\n"
        replies = self.replies(given)
        self.assertEqual(replies[0], "session 0 1 shown version 0 block head stamp 0 first 1 lines 1\n|;;Carriers: 1 2")
        self.assertEqual(replies[1], "session 0 2 accepted version 1 block head sound lines 1 made 0 held 0 rack 0")
        self.assertEqual(replies[2], "session 1 1 stale version 1 block head seen 0 now 1")
        self.assertEqual(replies[3], "session 1 2 shown version 1 block head stamp 1 first 1 lines 1\n|;;Carriers: 1 B")
        self.assertEqual(replies[4], "session 1 3 accepted version 2 block 0 sound lines 0 made 0 held 0 rack 0")

    def test_names_that_are_none(self) -> None:
        for line in [b"|in 1", b"|;;Carriers: 1 1", b"|;; Carriers: 1", b"|"]:
            with self.subTest(line=line):
                self.assertEqual(self.replies(b"put head lines 1\n" + line + b"\n|in 1\nlook head\n")[0], "badinput line 6 BadLine")
        for count in [b"0", b"2", b"x"]:
            self.assertEqual(self.replies(b"put head lines " + count + b"\n|;;Carriers: 1\n"), ["badinput line 5 BadLine"])


class Saved(unittest.TestCase):
    def saved(self, given: bytes, *options: str) -> tuple[bytes, bytes]:
        """The text that a conversation's last reply hands out, and what is said at the end. The first `save` may break something off."""
        status, said = conversed(given + b"\nsave\nsave\n", *options)
        self.assertEqual(status, 0)
        *_, saved, final = replies_in(said)
        first, _, text = without_frame(saved).partition(b"\n")
        text += b"\n"
        self.assertRegex(first, rb"\Asaved version \d+ lines %d\Z" % text.count(b"\n"))
        return text, final + b"\n"

    def test_what_is_saved_is_what_save_writes(self) -> None:
        script = b"live 1\n" + OPENING.split(b"\n", 1)[1] + b"session\nput 0\n|in 2\nput head\n|;;Carriers: 2\n"
        given = OPENING + put(0, ["in 2"]) + b"put head lines 1\n|;;Carriers: 2\n"
        options = ["--low=-7", "--hold=3", "--float=9"]
        text, _ = self.saved(given, *options)
        self.assertEqual(answer_of("save", *options, given=script), (0, text))

    def test_what_is_saved_is_followed_to_the_same_verdict(self) -> None:
        for seed in range(30):
            text, final = self.saved(some_conversation(7_000 + seed, 16), "--block", BLOCK)
            with self.subTest(seed=seed):
                without_place = re.sub(rb"broken block \d+ line \d+\n\Z", b"", final)
                self.assertEqual(answer_of("replay", given=text), (0, without_place))

    def test_a_session_that_saves_keeps_its_text_up_to_then(self) -> None:
        opening = opening_of(OPENING_LINES)
        before, after = put(0, ["in A"]) + b"session 9 save\n", put(0, [])
        saved = replies_in(conversed(opening + before + after, "--block", BLOCK).report)[2]
        self.assertEqual(document_of(without_frame(saved).split(b"\n", 1)[1] + b"\n").version, 1)

    def test_tallies_are_those_of_the_saved_text(self) -> None:
        places = [(start, end) for start in range(4) for end in range(4)]
        asked = "".join(f"session 7 tally {start} {end}\n" for start, end in places).encode()
        for seed in range(6):
            given = some_conversation(8_000 + seed, 16) + b"\n"
            text, _ = self.saved(given, "--block", BLOCK)
            replies = replies_in(conversed(given + asked, "--block", BLOCK).report)[-len(places) - 1 : -1]
            for (start, end), reply in zip(places, replies, strict=True):
                status, told = answer_of("tally", str(start), str(end), given=text)
                with self.subTest(seed=seed, places=(start, end)):
                    if status == 0:
                        self.assertEqual(without_frame(reply) + b"\n", told)
                    else:
                        self.assertRegex(without_frame(reply), rb"\Anorange version \d+ blocks \d+\Z")
                        self.assertEqual(told, b"bad input: range\n")


if __name__ == "__main__":
    unittest.main()
