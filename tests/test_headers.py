"""Tests of the command `live` on scripts that give the header other names: every reply and the journal, judged by a document that is kept here,
and by the verdicts of `check` on its text.

`python3 -m unittest discover tests` runs them, on the check_main that TEKHVUMO_PROGRAM names or that is found.
"""
from __future__ import annotations

import random
import re
import unittest
from dataclasses import dataclass, field, replace
from functools import lru_cache

from program import EXAMPLES, answer_of

OPENING_NAMES = ("A", "B")
OPENING_BLOCKS = (("in A", "tuck - f2 A", "tuck - f1 A"), ("knit + f1 A", "knit + f2 A"))


@dataclass(frozen=True)
class Block:
    id: int
    stamp: int
    lines: tuple[str, ...]


@dataclass(frozen=True)
class Document:
    """A document at one version: its blocks in order, how many ids were drawn, the header, and which entry cut which block."""

    blocks: tuple[Block, ...]
    drawn: int
    names: tuple[str, ...] = OPENING_NAMES
    stamp: int = 0
    cuts: tuple[tuple[int, int], ...] = ()

    def block(self, id: int) -> Block | None:
        return next((block for block in self.blocks if block.id == id), None)

    def first(self, id: int) -> int:
        """The file's line at which a block begins: two lines of head stand before the body."""
        before = self.blocks[: [block.id for block in self.blocks].index(id)]
        return 3 + sum(len(block.lines) for block in before)

    def text(self) -> str:
        body = [line for block in self.blocks for line in block.lines]
        return "\n".join([";!knitout-2", ";;Carriers: " + " ".join(self.names), *body]) + "\n"


@dataclass
class Memory:
    stamps: dict[int | str, int]
    own: list[int | None] = field(default_factory=list)
    seen: int = 0


@dataclass(frozen=True)
class Command:
    """A command: its word, the block or `head` that it names, and its text."""

    word: str
    name: str = ""
    lines: tuple[str, ...] = ()

    def spelled(self) -> list[str]:
        return [f"{self.word} {self.name}".strip(), *["|" + line for line in self.lines]]


@lru_cache(maxsize=None)
def verdict_on(text: str, *options: str) -> str:
    """What `check` says of a text."""
    return answer_of("check", *options, given=text.encode()).report.decode()


def brief_of(document: Document) -> str:
    return verdict_on(document.text()).split("\n")[0]


def loop_of(document: Document, line: str) -> str:
    found = re.search(rf"^loop {line} on .*$", verdict_on(document.text(), "--loops"), re.M)
    return found[0] if found else "none"


def meant(command: Command, memory: Memory) -> int | str | None:
    """The block that a command names, or `head`, or `start`; None for a block of the session's own that isn't there."""
    if command.name in ("head", "start"):
        return command.name
    if command.name.startswith("@"):
        return memory.own[int(command.name[1:]) - 1]
    return int(command.name)


def refusal_of(document: Document, version: int, id: int | str, command: Command, memory: Memory) -> str | None:
    """Why a document refuses a command, if it does."""
    if isinstance(id, int):
        if id >= document.drawn:
            return f"noblock version {version} block {id} ids {document.drawn}"
        block = document.block(id)
        if block is None:
            return f"gone version {version} block {id} at {dict(document.cuts)[id]}"
        if command.word in ("put", "cut") and block.stamp != memory.stamps[id]:
            return f"stale version {version} block {id} seen {memory.stamps[id]} now {block.stamp}"
    if command.word in ("put", "add") and document.stamp != memory.stamps["head"]:
        return f"stale version {version} block head seen {memory.stamps['head']} now {document.stamp}"
    return None


def edited(document: Document, entry: int, id: int | str, command: Command) -> Document:
    """The document behind an entry with this number."""
    if id == "head":
        return replace(document, names=tuple(command.lines[0].split()[1:]), stamp=entry)
    if command.word == "cut":
        left = tuple(block for block in document.blocks if block.id != id)
        return replace(document, blocks=left, cuts=(*document.cuts, (id, entry)))
    if command.word == "put":
        blocks = tuple(Block(id, entry, command.lines) if block.id == id else block for block in document.blocks)
        return replace(document, blocks=blocks)
    new = Block(document.drawn, entry, command.lines)
    at = 0 if id == "start" else 1 + [block.id for block in document.blocks].index(id)
    return replace(document, blocks=(*document.blocks[:at], new, *document.blocks[at:]), drawn=document.drawn + 1)


def shown(document: Document, version: int, id: int | str) -> str:
    if id == "head":
        line = "".join([";;Carriers:", *[" " + name for name in document.names]])
        return f"shown version {version} block head stamp {document.stamp} first 1 lines 1\n|{line}"
    block = document.block(id)
    lines = "".join("\n|" + line for line in block.lines)
    return f"shown version {version} block {id} stamp {block.stamp} first {document.first(id)} lines {len(block.lines)}" + lines


def entry_of(session: int, document: Document, id: int | str, command: Command, memory: Memory) -> str:
    """The line of an accepted command's entry, in the document before it."""
    if id == "head":
        return f"session {session} put head seen {memory.stamps['head']} carriers" + "".join(" " + name for name in command.lines[0].split()[1:])
    if command.word == "cut":
        return f"session {session} cut {id} seen {memory.stamps[id]}"
    if command.word == "put":
        return f"session {session} put {id} seen {memory.stamps[id]} lines {len(command.lines)}"
    return f"session {session} add {id} block {document.drawn} lines {len(command.lines)}"


class History(unittest.TestCase):
    """One run of a script, judged."""

    def judge(self, sessions: list[list[Command]], report: str) -> None:
        parts = re.split(r"^session \d+\n", report[: report.index("\njournal ") + 1], flags=re.M)[1:]
        replies = [re.findall(r"^\d+ (.*(?:\n(?!\d).*)*)$", part.rstrip("\n"), re.M) for part in parts]
        self.assertEqual([len(each) for each in replies], [len(each) for each in sessions])
        accepted = {}
        for number, each in enumerate(replies):
            for at, reply in enumerate(each):
                found = re.match(r"accepted version (\d+) ", reply)
                if found:
                    accepted[int(found[1])] = (number, at)
        self.assertEqual(sorted(accepted), list(range(1, len(accepted) + 1)))
        opening = tuple(Block(id, 0, lines) for id, lines in enumerate(OPENING_BLOCKS))
        documents = [Document(opening, len(opening))]
        memories = [Memory({"head": 0, **{block.id: 0 for block in opening}}) for _ in sessions]
        done = [0] * len(sessions)
        entries = []
        for version in range(1, len(accepted) + 1):
            number, at = accepted[version]
            while done[number] <= at:
                entry = self.answered(number, done[number], sessions, replies, documents, memories[number])
                entries += [entry] if entry else []
                done[number] += 1
        for number in range(len(sessions)):
            while done[number] < len(sessions[number]):
                self.answered(number, done[number], sessions, replies, documents, memories[number])
                done[number] += 1
        journal = "".join(f"{at} {line}\n" for at, line in enumerate(entries, 1))
        end = f"journal {len(entries)}\n{journal}final version {len(entries)}\n{verdict_on(documents[-1].text())}"
        self.assertEqual(report[report.index("\njournal ") + 1 :], end)

    def answered(self, number: int, at: int, sessions: list, replies: list, documents: list[Document], memory: Memory) -> str | None:
        """One command of a session has the reply that is due at the version which the reply tells. The entry's line, if it was accepted."""
        command, reply = sessions[number][at], replies[number][at]
        id = meant(command, memory) if command.word in ("look", "put", "add", "cut") else None
        adds = command.word == "add"
        if command.word in ("look", "put", "add", "cut") and (id is None or command.word in ("put", "cut") and id not in memory.stamps):
            self.assertEqual(reply, f"unseen {command.name}")
            memory.own += [None] * adds
            return None
        told = int(re.search(r"version (\d+)", reply)[1])
        is_accepted = reply.startswith("accepted")
        base = told - 1 if is_accepted else told
        self.assertGreaterEqual(base, memory.seen)
        document = documents[base]
        memory.seen = told
        if command.word == "verdict":
            self.assertEqual(reply, f"verdict version {base}\n" + verdict_on(document.text()).rstrip("\n"))
            return None
        if command.word == "loop":
            self.assertEqual(reply, f"loop version {base} " + loop_of(document, command.name))
            return None
        refusal = refusal_of(document, base, id, command, memory)
        if refusal is not None or command.word == "look":
            self.assertEqual(reply, refusal or shown(document, base, id))
            memory.own += [None] * adds
            if refusal is None:
                memory.stamps[id] = document.stamp if id == "head" else document.block(id).stamp
            return None
        self.assertEqual(base, len(documents) - 1)
        block = document.drawn if adds else id
        documents.append(edited(document, told, id, command))
        self.assertEqual(reply, f"accepted version {told} block {block} {brief_of(documents[told])}")
        entry = entry_of(number, document, id, command, memory)
        memory.own += [block] * adds
        if command.word != "cut":
            memory.stamps[block] = told
        return entry


BODY = ["in A", "in B", "out A", "knit + f1 A", "knit + f2 B", "tuck - f1 C", "xfer f1 b1", "rack 1", "inhook C", "miss + f3 A"]


def some_command(choice: random.Random, adds: int) -> Command:
    """A command, some of which name the header, blocks that may be there, and blocks of the session's own."""
    blocks = ["0", "1", "2", "3", *[f"@{n}" for n in range(1, adds + 1)]]
    lines = tuple(choice.choice(BODY) for _ in range(choice.randrange(1, 4)))
    kind = choice.randrange(12)
    if kind < 3:
        names = choice.sample(["A", "B", "C", "D"], choice.randrange(5))
        return Command("put", "head", (" ".join([";;Carriers:", *names]),))
    if kind < 5:
        return Command("look", choice.choice(["head", *blocks]))
    if kind < 8:
        return Command("put", choice.choice(blocks), lines)
    if kind < 10:
        return Command("add", choice.choice(["start", *blocks]), lines)
    return choice.choice([Command("cut", choice.choice(blocks)), Command("verdict"), Command("loop", str(choice.randrange(3, 9)))])


def some_session(choice: random.Random, count: int) -> list[Command]:
    commands: list[Command] = []
    for _ in range(count):
        commands.append(some_command(choice, sum(command.word == "add" for command in commands)))
    return commands


def script_of(sessions: list[list[Command]]) -> str:
    lines = ["live 1", "|;!knitout-2", "|;;Carriers: A B", *["|" + line for block in OPENING_BLOCKS for line in block]]
    for commands in sessions:
        lines += ["session", *[line for command in commands for line in command.spelled()]]
    return "\n".join(lines) + "\n"


class Headers(History):
    def judged(self, sessions: list[list[Command]]) -> None:
        # The opening is cut into blocks of three lines, the last one shorter.
        status, report = answer_of("live", "--block", "3", given=script_of(sessions).encode())
        self.assertEqual(status, 0)
        self.judge(sessions, report.decode())

    def test_one_session(self) -> None:
        for seed in range(60):
            with self.subTest(seed=seed):
                self.judged([some_session(random.Random(seed), 14)])

    def test_sessions_beside_each_other(self) -> None:
        for seed in range(40):
            choice = random.Random(1_000 + seed)
            with self.subTest(seed=seed):
                self.judged([some_session(choice, 10) for _ in range(choice.randrange(2, 6))])

    def test_each_reply_kind_comes(self) -> None:
        """The scripts of one session have all replies that one session can have."""
        found = set()
        for seed in range(60):
            report = answer_of("live", "--block", "3", given=script_of([some_session(random.Random(seed), 14)]).encode()).report.decode()
            found |= set(re.findall(r"^\d+ ((?:accepted|shown|gone|noblock|unseen|loop|verdict)(?: version \d+ block head)?)", report, re.M))
        kinds = {re.sub(r"version \d+ ", "", each) for each in found}
        self.assertEqual(kinds, {"accepted", "accepted block head", "shown", "shown block head", "gone", "noblock", "unseen", "loop", "verdict"})


YARNS = """session 0
1 accepted version 1 block head sound lines 8 made 6 held 2 rack 0
2 accepted version 2 block 2 sound lines 11 made 7 held 2 rack 0
3 shown version 2 block head stamp 1 first 1 lines 1
|;;Carriers: 1 2
4 verdict version 2
sound lines 11 made 7 held 2 rack 0
in:
hook:
f1: 12
f2: 11
5 accepted version 3 block head broken line 3 rule NoCarrier at 1
6 accepted version 4 block head sound lines 11 made 7 held 2 rack 0
journal 4
1 session 0 put head seen 0 carriers 1 2
2 session 0 add 0 block 2 lines 3
3 session 0 put head seen 1 carriers white 2
4 session 0 put head seen 3 carriers 1 2
final version 4
sound lines 11 made 7 held 2 rack 0
in:
hook:
f1: 12
f2: 11
"""


class Example(unittest.TestCase):
    def test_another_yarn(self) -> None:
        given = (EXAMPLES / "another-yarn.live").read_bytes()
        self.assertEqual(answer_of("live", "--block", "4", given=given), (0, YARNS.encode()))


if __name__ == "__main__":
    unittest.main()
