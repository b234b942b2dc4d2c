"""What is said in a conversation over a small text, told by a document that is kept here and by the verdicts of `check` on its text."""
from __future__ import annotations

from collections import Counter
from collections.abc import Iterator

from conversation_lines import TEXT_LIMIT, Ask, Order, Question, Refuse
from tallies import tally_of
from test_groups import Due, Run, named
from test_headers import OPENING_BLOCKS, Command, Document, verdict_on

SESSIONS = 64
OPENING_LINES = [";!knitout-2", ";;Carriers: A B", *[line for block in OPENING_BLOCKS for line in block]]
# The size of blocks that cuts the opening text as the document here begins.
BLOCK = "3"


def broken_place(document: Document) -> str:
    """The line that tells where a document is broken, if it is."""
    words = verdict_on(document.text()).split()
    if words[0] != "broken":
        return ""
    line = int(words[2])
    block = next(block for block in document.blocks if line < document.first(block.id) + len(block.lines))
    return f"broken block {block.id} line {line - document.first(block.id) + 1}\n"


def spelled_blocks(document: Document) -> Iterator[str]:
    for block in document.blocks:
        yield f"block {block.id} stamp {block.stamp} first {document.first(block.id)} lines {len(block.lines)}\n"


class Model:
    """A conversation behind its opening, the small text or the saved text of an earlier one. `reply` tells what is said to an order."""

    def __init__(self, earlier: Model | None = None) -> None:
        self.run = Run(SESSIONS)
        if earlier:
            # (the sessions begin anew: they know the opening, and none may undo what was done before)
            self.run.documents, self.run.entries = list(earlier.run.documents), list(earlier.run.entries)
        self.numbers: Counter[int] = Counter()

    @property
    def document(self) -> Document:
        return self.run.documents[-1]

    @property
    def version(self) -> int:
        return len(self.run.entries)

    def opened(self) -> str:
        verdict = verdict_on(self.document.text()).split("\n")[0]
        return f"opened version {self.version} blocks {len(self.document.blocks)} {verdict}\n{broken_place(self.document)}"

    def final(self) -> str:
        return f"final version {self.version}\n{verdict_on(self.document.text())}{broken_place(self.document)}"

    def reply(self, order: Order) -> str:
        if isinstance(order, Refuse):
            return f"badinput line {order.line} {order.cause}\n"
        self.numbers[order.session] += 1
        told = self.stepped(order) if isinstance(order, Ask) else self.answer(order)
        return f"session {order.session} {self.numbers[order.session]} {told}"

    def stepped(self, order: Ask) -> str:
        base = self.version
        session = self.run.sessions[order.session]
        due = self.too_long(order) or self.run.due(order.session, base, order.step)
        is_verdict = isinstance(order.step, Command) and order.step.word == "verdict"
        self.run.learn(order.session, base, order.step, due)
        session.reached = self.version
        return f"{due.reply}\n{broken_place(self.document) if due.edits or is_verdict else ''}"

    def too_long(self, order: Ask) -> Due | None:
        """The reply to an edit whose text has too many lines."""
        step = order.step
        if not isinstance(step, Command) or len(step.lines) <= TEXT_LIMIT:
            return None
        memory = self.run.sessions[order.session].memory
        id = named(step, memory)
        is_unseen = id is None or step.word == "put" and id not in memory.stamps
        return Due(f"unseen {step.name}" if is_unseen else f"blocklong lines {len(step.lines)}")

    def answer(self, order: Question) -> str:
        match order:
            case Question(_, "blocks"):
                return f"blocks version {self.version} blocks {len(self.document.blocks)}\n" + "".join(spelled_blocks(self.document))
            case Question(_, "since", (told,)):
                return self.since(int(told))
            case Question(_, "tally", (start, end)):
                return self.tally(int(start), int(end))
            case Question(session, "look", (name, stamp)):
                return self.text_at(session, name, int(stamp))
        saved = self.saved()
        return f"saved version {self.version} lines {saved.count(chr(10))}\n{saved}"

    def since(self, told: int) -> str:
        if told > self.version:
            return f"noversion version {self.version} at {told}\n"
        entries = [f"{number} {entry}\n" for number, entry in enumerate(self.run.entries, 1) if number > told]
        return f"since version {self.version} from {told} entries {len(entries)}\n{''.join(entries)}"

    def tally(self, start: int, end: int) -> str:
        blocks = self.document.blocks
        if not start <= end <= len(blocks):
            return f"norange version {self.version} blocks {len(blocks)}\n"
        lines = [line.encode() for block in blocks[start:end] for line in block.lines]
        return f"tally {start}-{end} {tally_of(lines, list(self.document.names))}"

    def text_at(self, session: int, name: str, stamp: int) -> str:
        id = named(Command("look", name), self.run.sessions[session].memory)
        if id is None:
            return f"unseen {name}\n"
        if int(id) >= self.document.drawn:
            return f"noblock version {self.version} block {id} ids {self.document.drawn}\n"
        texts = [block.lines for document in self.run.documents for block in document.blocks if (block.id, block.stamp) == (id, stamp)]
        if not texts:
            return f"notext version {self.version} block {id} stamp {stamp}\n"
        lines = "".join(f"|{line}\n" for line in texts[0])
        return f"text version {self.version} block {id} stamp {stamp} lines {len(texts[0])}\n{lines}"

    def saved(self) -> str:
        """The saved text of the document up to its version."""
        opening = self.run.documents[0]
        lines = ["journal 1", "profile -1024 1023 8 16 0", "head 2", *[f"|{line}" for line in opening.text().split("\n")[:2]]]
        lines.append(f"blocks {len(opening.blocks)}")
        for block in opening.blocks:
            lines += [f"block {len(block.lines)}", *[f"|{line}" for line in block.lines]]
        lines.append(f"entries {self.version}")
        for number, entry in enumerate(self.run.entries, 1):
            texts = [block.lines for block in self.run.documents[number].blocks if block.stamp == number]
            lines += [entry, *[f"|{line}" for text in texts for line in text]]
        return "".join(f"{line}\n" for line in lines)
