"""Tests of the command `serve` on random conversations: all that is said, judged by a document that is kept here and by the verdicts of
`check` on its text; the same as JSON; and scripts of one session beside `live` and `groups`.

`python3 -m unittest discover tests` runs them, on the check_main that TEKHVUMO_PROGRAM names or that is found.
"""
from __future__ import annotations

import json
import random
import re
import unittest

from conversation_lines import orders_by_line
from conversation_model import BLOCK, OPENING_LINES, Model
from conversation_objects import json_line, object_of
from conversations import conversed, opening_of, replies_in, without_frame
from program import EXAMPLES, answer_of
from random_conversations import some_conversation
from test_groups import script_of as groups_script_of
from test_groups import some_steps
from test_headers import script_of, some_session

CONVERSATIONS = 200
PARTS = 24
WORDS = """accepted shown loop verdict stale gone noblock unseen group refused noundo blocks since text notext noversion saved tally norange
opened final badinput""".split()


def due(given: bytes, model: Model) -> list[str]:
    """All replies that are due to a conversation, which the model follows to its end."""
    _, orders = orders_by_line(given)
    return [model.opened(), *[model.reply(order) for line in orders for order in line], model.final()]


def word_of(reply: str) -> str:
    words = reply.split()
    return words[3] if words[0] == "session" else words[0]


class Judged(unittest.TestCase):
    def test_as_text_and_as_json(self) -> None:
        found: set[str] = set()
        for seed in range(CONVERSATIONS):
            given = some_conversation(seed, PARTS)
            replies = due(given, Model())
            found |= {word_of(reply) for reply in replies}
            with self.subTest(seed=seed):
                as_text = "".join(f"{reply}\n" for reply in replies)
                self.assertEqual(conversed(given, "--block", BLOCK), (0, as_text.encode()))
                as_json = "".join(json_line(object_of(reply)) for reply in replies)
                self.assertEqual(conversed(given, "--block", BLOCK, "--json"), (0, as_json.encode()))
        self.assertEqual(found, set(WORDS))

    def test_objects_of_the_program_s_own_text(self) -> None:
        """Without the document that is kept here: each line is an object with its keys in order, and says what the text says."""
        long_text = opening_of(OPENING_LINES) + b"add 0 lines 4097\n" + b"|\n" * 4_097
        for given in [long_text, *[path.read_bytes() for path in sorted(EXAMPLES.glob("*.serve"))]]:
            as_text, as_json = conversed(given, "--block", "1"), conversed(given, "--block", "1", "--json")
            self.assertEqual((as_text.status, as_json.status), (0, 0))
            lines = as_json.report.decode().splitlines(keepends=True)
            self.assertEqual(lines, [json_line(json.loads(line)) for line in lines])
            self.assertEqual(lines, [json_line(object_of(reply.decode())) for reply in replies_in(as_text.report)])


def conversation_of(script: str) -> bytes:
    """A script of one session as a conversation, which asks at its end for the journal."""
    front, _, commands = script.partition("session\n")
    lines = [line for line in commands.splitlines() if line and not line.startswith("#")]
    told: list[str] = []
    for at, line in enumerate(lines):
        texts = 0
        while at + 1 + texts < len(lines) and lines[at + 1 + texts].startswith("|"):
            texts += 1
        told.append(f"{line} lines {texts}" if line.startswith(("put ", "add ")) else line)
    opening = [line[1:] for line in front.splitlines() if line.startswith("|")]
    return opening_of(opening) + "".join(f"{line}\n" for line in [*told, "since 0"]).encode()


def report_of(said: bytes) -> str:
    """What a report would have of a conversation's replies, of which the last two are the journal and the verdict at the end."""
    _, *replies, journal, final = replies_in(re.sub(rb"^broken block \d+ line \d+\n", b"", said, flags=re.M))
    numbered = [reply.removeprefix(b"session 0 ").decode() for reply in replies]
    first, *entries = without_frame(journal).decode().split("\n")
    count = first.split()[-1]
    return "\n".join(["session 0", *numbered, f"journal {count}", *entries, final.decode()]) + "\n"


class BesideScripts(unittest.TestCase):
    """A script of one session is answered as `live` or `groups` answers it."""

    def judge(self, script: str, *options: str) -> None:
        status, report = answer_of(script.split()[0], *options, given=script.encode())
        self.assertEqual(status, 0)
        status, said = conversed(conversation_of(script), *options)
        self.assertEqual((status, report_of(said)), (0, report.decode()))

    def test_random_scripts(self) -> None:
        for seed in range(40):
            with self.subTest(seed=seed):
                self.judge(script_of([some_session(random.Random(3_000 + seed), 20)]), "--block", "3")

    def test_random_scripts_with_groups(self) -> None:
        for seed in range(40):
            with self.subTest(seed=seed):
                self.judge(groups_script_of([some_steps(random.Random(4_000 + seed), 16)]), "--block", "3")

    def test_examples(self) -> None:
        for name in ["mended-transfer.live", "another-yarn.live", "another-carrier.groups"]:
            for size in ["1", "4", "64"]:
                with self.subTest(name=name, size=size):
                    self.judge((EXAMPLES / name).read_text(), "--block", size)


if __name__ == "__main__":
    unittest.main()
