"""Tests of the command `groups`: every reply, every step and the journal of random scripts, judged by a document that is kept here, and by
the verdicts of `check` on its text.

`python3 -m unittest discover tests` runs them, on the check_main that TEKHVUMO_PROGRAM names or that is found.
"""
from __future__ import annotations

import random
import re
import unittest
from dataclasses import dataclass, field

from program import EXAMPLES, answer_of
from test_headers import (
    OPENING_BLOCKS,
    Block,
    Command,
    Document,
    Memory,
    brief_of,
    edited,
    entry_of,
    loop_of,
    meant,
    refusal_of,
    shown,
    some_command,
    verdict_on,
)


@dataclass(frozen=True)
class Group:
    """Edits that are done all or not at all."""

    commands: tuple[Command, ...]

    def spelled(self) -> list[str]:
        return ["group", *[line for command in self.commands for line in command.spelled()], "end"]


@dataclass(frozen=True)
class Undo:
    def spelled(self) -> list[str]:
        return ["undo"]


Step = Command | Group | Undo


@dataclass(frozen=True)
class Edit:
    """An edit that was done, and the number of its entry."""

    number: int
    command: Command
    block: int | str
    seen: int


@dataclass
class Session:
    memory: Memory
    last: list[Edit] = field(default_factory=list)
    reached: int = 0


@dataclass(frozen=True)
class Due:
    """The reply that is due, the edits that it leaves, their entries and the documents behind each."""

    reply: str
    edits: list[Edit] = field(default_factory=list)
    entries: list[str] = field(default_factory=list)
    documents: list[Document] = field(default_factory=list)


def named(command: Command, memory: Memory) -> int | str | None:
    """The block that a command names; that of an add of its own group isn't known yet."""
    later = command.name.startswith("@") and int(command.name[1:]) > len(memory.own)
    return None if later else meant(command, memory)


class Run:
    """What was done so far: the documents, of which the last is the newest, and the entries."""

    def __init__(self, count: int) -> None:
        opening = tuple(Block(id, 0, lines) for id, lines in enumerate(OPENING_BLOCKS))
        self.documents = [Document(opening, len(opening))]
        self.entries: list[str] = []
        self.sessions = [Session(Memory({"head": 0, **{block.id: 0 for block in opening}})) for _ in range(count)]

    def text_of(self, id: int, stamp: int) -> tuple[str, ...]:
        return next(block.lines for document in self.documents for block in document.blocks if (block.id, block.stamp) == (id, stamp))

    def edit(self, number: int, version: int, document: Document, command: Command, memory: Memory) -> Due:
        """One edit on a document of this version, with what the session remembers."""
        id = named(command, memory)
        if id is None or command.word in ("put", "cut") and id not in memory.stamps:
            return Due(f"unseen {command.name}")
        refusal = refusal_of(document, version, id, command, memory)
        if refusal is not None:
            return Due(refusal)
        block = document.drawn if command.word == "add" else id
        after = edited(document, version + 1, id, command)
        seen = memory.stamps.get(id, 0) if command.word != "add" else 0
        reply = f"accepted version {version + 1} block {block} {brief_of(after)}"
        return Due(reply, [Edit(version + 1, command, block, seen)], [entry_of(number, document, id, command, memory)], [after])

    def group(self, number: int, base: int, group: Group, memory: Memory) -> Due:
        document, done = self.documents[base], Due("")
        for at, command in enumerate(group.commands):
            one = self.edit(number, base + at, document, command, memory)
            if not one.edits:
                return Due(f"refused version {base} at {at + 1} {one.reply}")
            document = one.documents[0]
            done.edits.extend(one.edits)
            done.entries.extend(one.entries)
            done.documents.append(document)
        reply = f"group version {base + len(group.commands)} from {base + 1} {brief_of(document)}"
        return Due(reply, done.edits, done.entries, done.documents)

    def undo(self, number: int, base: int, session: Session) -> Due:
        if len(session.last) != 1 or session.last[0].block == "head" or session.last[0].command.word == "cut":
            return Due("noundo")
        last = session.last[0]
        memory = Memory({last.block: last.number, "head": self.documents[base].stamp})
        if last.command.word == "add":
            command = Command("cut", str(last.block))
        else:
            command = Command("put", str(last.block), self.text_of(last.block, last.seen))
        return self.edit(number, base, self.documents[base], command, memory)

    def look(self, base: int, command: Command, memory: Memory) -> Due:
        document = self.documents[base]
        if command.word == "verdict":
            return Due(f"verdict version {base}\n" + verdict_on(document.text()).rstrip("\n"))
        if command.word == "loop":
            return Due(f"loop version {base} " + loop_of(document, command.name))
        id = named(command, memory)
        if id is None:
            return Due(f"unseen {command.name}")
        return Due(refusal_of(document, base, id, command, memory) or shown(document, base, id))

    def due(self, number: int, base: int, step: Step) -> Due:
        session = self.sessions[number]
        if isinstance(step, Undo):
            return self.undo(number, base, session)
        if isinstance(step, Group):
            return self.group(number, base, step, session.memory)
        if step.word in ("put", "add", "cut"):
            return self.edit(number, base, self.documents[base], step, session.memory)
        return self.look(base, step, session.memory)

    def learn(self, number: int, base: int, step: Step, due: Due) -> None:
        """What the session remembers and may undo after the reply."""
        session = self.sessions[number]
        memory = session.memory
        done = {edit.number: edit for edit in due.edits}
        commands = step.commands if isinstance(step, Group) else [step] if isinstance(step, Command) else []
        for at, command in enumerate(commands):
            edit = done.get(base + at + 1)
            if command.word == "add":
                memory.own.append(edit.block if edit else None)
            if edit and command.word in ("put", "add"):
                memory.stamps[edit.block] = edit.number
        if isinstance(step, Undo) and due.edits and due.edits[0].command.word == "put":
            memory.stamps[due.edits[0].block] = due.edits[0].number
        if isinstance(step, Command) and step.word == "look" and due.reply.startswith("shown"):
            id = meant(step, memory)
            document = self.documents[base]
            memory.stamps[id] = document.stamp if id == "head" else document.block(id).stamp
        if due.edits:
            session.last = due.edits
            self.entries += due.entries
            self.documents += due.documents


def base_of(reply: str) -> int | None:
    """The version at which a reply was given, if it tells one."""
    found = re.match(r"group version \d+ from (\d+)|accepted version (\d+)", reply)
    if found:
        return int(found[1] or found[2]) - 1
    found = re.match(r"(?:refused |shown |loop |verdict |stale |gone |noblock )version (\d+)", reply)
    return int(found[1]) if found else None


class Judge(unittest.TestCase):
    def judge(self, sessions: list[list[Step]], report: str) -> None:
        parts = re.split(r"^session \d+\n", report[: report.index("\njournal ") + 1], flags=re.M)[1:]
        replies = [re.findall(r"^\d+ (.*(?:\n(?!\d).*)*)$", part.rstrip("\n"), re.M) for part in parts]
        self.assertEqual([len(each) for each in replies], [len(each) for each in sessions])
        accepted = sorted(
            (base_of(reply), number, at)
            for number, each in enumerate(replies)
            for at, reply in enumerate(each)
            if reply.startswith(("accepted", "group"))
        )
        run = Run(len(sessions))
        done = [0] * len(sessions)
        ends = [(number, len(each) - 1) for number, each in enumerate(sessions)]
        for number, last in [*[(number, at) for _, number, at in accepted], *ends]:
            while done[number] <= last:
                self.answered(run, number, sessions[number][done[number]], replies[number][done[number]])
                done[number] += 1
        journal = "".join(f"{at} {line}\n" for at, line in enumerate(run.entries, 1))
        end = f"journal {len(run.entries)}\n{journal}final version {len(run.entries)}\n{verdict_on(run.documents[-1].text())}"
        self.assertEqual(report[report.index("\njournal ") + 1 :], end)

    def answered(self, run: Run, number: int, step: Step, reply: str) -> None:
        """A step has the reply that is due at the version which the reply tells, which isn't below what the session has reached."""
        session = run.sessions[number]
        told = base_of(reply)
        base = session.reached if told is None else told
        self.assertGreaterEqual(base, session.reached)
        due = run.due(number, base, step)
        self.assertEqual(reply, due.reply)
        if due.edits:
            self.assertEqual(base, len(run.documents) - 1)
        run.learn(number, base, step, due)
        session.reached = base + len(due.edits)


def some_steps(choice: random.Random, count: int) -> list[Step]:
    steps: list[Step] = []
    adds = 0
    for _ in range(count):
        kind = choice.randrange(10)
        if kind < 3:
            steps.append(Undo())
            continue
        commands: list[Command] = []
        while len(commands) < (choice.randrange(1, 5) if kind < 7 else 1):
            command = some_command(choice, adds)
            if kind < 7 and (command.word not in ("put", "add", "cut") or command.name == "head"):
                continue
            adds += command.word == "add"
            commands.append(command)
        steps.append(Group(tuple(commands)) if kind < 7 else commands[0])
    return steps


def script_of(sessions: list[list[Step]]) -> str:
    lines = ["groups 1", "|;!knitout-2", "|;;Carriers: A B", *["|" + line for block in OPENING_BLOCKS for line in block]]
    for steps in sessions:
        lines += ["session", *[line for step in steps for line in step.spelled()]]
    return "\n".join(lines) + "\n"


class Groups(Judge):
    def judged(self, sessions: list[list[Step]]) -> str:
        # The opening is cut into blocks of three lines, the last one shorter.
        status, report = answer_of("groups", "--block", "3", given=script_of(sessions).encode())
        self.assertEqual(status, 0)
        self.judge(sessions, report.decode())
        return report.decode()

    def test_one_session(self) -> None:
        for seed in range(80):
            with self.subTest(seed=seed):
                self.judged([some_steps(random.Random(seed), 14)])

    def test_sessions_beside_each_other(self) -> None:
        for seed in range(60):
            choice = random.Random(1_000 + seed)
            with self.subTest(seed=seed):
                self.judged([some_steps(choice, 10) for _ in range(choice.randrange(2, 6))])

    def test_each_reply_kind_comes(self) -> None:
        found: set[str] = set()
        for seed in range(80):
            report = self.judged([some_steps(random.Random(seed), 14)])
            found |= set(re.findall(r"^\d+ (accepted|shown|gone|noblock|unseen|loop|verdict|group|noundo|refused)", report, re.M))
        self.assertEqual(found, {"accepted", "shown", "gone", "noblock", "unseen", "loop", "verdict", "group", "noundo", "refused"})

    def test_as_live_without_groups(self) -> None:
        """Without a group and an undo a script is answered as by `live`: session by session, since of several nobody knows the order."""
        for example in sorted(EXAMPLES.glob("*.live")):
            front, *sessions = re.split(r"^(?=session$)", example.read_text(), flags=re.M)
            self.assertTrue(sessions)
            for session in sessions:
                given = (front + session).encode()
                with self.subTest(example=example.name, session=session):
                    self.assertEqual(answer_of("groups", given=given.replace(b"live 1", b"groups 1", 1)), answer_of("live", given=given))


MOVED = """session 0
1 group version 3 from 1 sound lines 11 made 9 held 3 rack 0
2 accepted version 4 block 2 broken line 12 rule CarrierIsOut at 3
3 accepted version 5 block 2 sound lines 11 made 9 held 3 rack 0
4 verdict version 5
sound lines 11 made 9 held 3 rack 0
in:
hook:
f1: 12
f2: 11
f3: 10
journal 5
1 session 0 put 0 seen 0 lines 4
2 session 0 put 1 seen 0 lines 4
3 session 0 put 2 seen 0 lines 3
4 session 0 put 2 seen 3 lines 3
5 session 0 put 2 seen 4 lines 3
final version 5
sound lines 11 made 9 held 3 rack 0
in:
hook:
f1: 12
f2: 11
f3: 10
"""


class Example(unittest.TestCase):
    def test_another_carrier(self) -> None:
        given = (EXAMPLES / "another-carrier.groups").read_bytes()
        self.assertEqual(answer_of("groups", "--block", "4", given=given), (0, MOVED.encode()))


if __name__ == "__main__":
    unittest.main()
