"""Saved texts, read by a program of our own: what they tell, or their first bad line and what is wrong with it."""
from __future__ import annotations

import re
from dataclasses import dataclass, field

# What a session's two puts leave.
SAVED = b"""journal 1
profile -1024 1023 8 16 0
head 2
|;!knitout-2
|;;Carriers: 1
blocks 1
block 2
|in 1
|knit + f1 1
entries 2
session 0 put 0 seen 0 lines 3
|in 1
|knit + f1 1
|knit + f2 1
session 0 put 0 seen 1 lines 1
|in 1
"""
LARGEST = 4_294_967_295
MOST_LINES = 1_048_576
MOST_BLOCKS = 65_536
BLANKS = re.compile(rb"[ \t]+")
NUMBER = rb"(0|[1-9][0-9]*)"
SIGNED = rb"(0|-?[1-9][0-9]*)"
PROFILE = re.compile(rb"profile " + rb" ".join([SIGNED, SIGNED, NUMBER, NUMBER, NUMBER]))
PUT = re.compile(rb"session N put N seen N lines N".replace(b"N", NUMBER))
ADD = re.compile(rb"session N add (start|N) block N lines N".replace(b"N", NUMBER))
CUT = re.compile(rb"session N cut N seen N".replace(b"N", NUMBER))
HEAD = re.compile(rb"session N put head seen N carriers((?: [^ \t]+)*)".replace(b"N", NUMBER))


class Bad(Exception):
    """The number of the first bad line, from 1, and `BadLine` or `NoFit`."""


@dataclass
class Block:
    id: int
    stamp: int
    lines: list[bytes]


@dataclass
class Document:
    """A document, as the entries leave it that were read so far."""

    head: list[bytes] = field(default_factory=list)
    blocks: list[Block] = field(default_factory=list)
    drawn: int = 0
    stamp: int = 0
    names: list[bytes] | None = None
    version: int = 0

    def find(self, id: int) -> Block | None:
        return next((block for block in self.blocks if block.id == id), None)

    def count(self) -> int:
        return sum(len(block.lines) for block in self.blocks)

    def text(self) -> bytes:
        """The file at the version, which `check` takes: with one carriage return more where a line ends in one, since `check` drops one."""
        head = [carriers_line(self.names) if is_carriers(line) and self.names is not None else line for line in self.head]
        lines = [*head, *[line for block in self.blocks for line in block.lines]]
        return b"".join(line + (b"\r\n" if line.endswith(b"\r") else b"\n") for line in lines)


def is_carriers(line: bytes) -> bool:
    return line.startswith(b";;Carriers:")


def carriers_line(names: list[bytes]) -> bytes:
    return b";;Carriers:" + b"".join(b" " + name for name in names)


def are_names(names: list[bytes]) -> bool:
    return len(names) <= 64 and len(set(names)) == len(names) and sum(len(name) + 1 for name in names) <= 65_524


def is_utf8(text: bytes) -> bool:
    try:
        text.decode()
    except UnicodeDecodeError:
        return False
    return True


class Reader:
    """The lines of the bytes, one after the other. Each must have its line feed."""

    def __init__(self, given: bytes) -> None:
        *self.lines, self.rest = given.split(b"\n")
        self.at = 0

    def bad(self, cause: str = "BadLine") -> Bad:
        """The line that was looked at last."""
        return Bad(self.at, cause)

    def next(self) -> bytes:
        self.at += 1
        if self.at > len(self.lines):
            raise self.bad()
        return self.lines[self.at - 1]

    def count(self, label: bytes, least: int, most: int) -> int:
        found = re.fullmatch(label + b" " + NUMBER, self.next())
        if not found or not least <= int(found[1]) <= most:
            raise self.bad()
        return int(found[1])

    def text(self) -> bytes:
        line = self.next()
        if not line.startswith(b"|") or len(line) > 4_097 or not is_utf8(line):
            raise self.bad()
        return line[1:]

    def texts(self, many: int) -> list[bytes]:
        return [self.text() for _ in range(many)]


def read_profile(reader: Reader) -> None:
    found = PROFILE.fullmatch(reader.next())
    if not found:
        raise reader.bad()
    low, high, rack, hold, float_limit = (int(word) for word in found.groups())
    if not (-4096 <= low <= high <= 4096 and rack <= 64 and 1 <= hold <= 64 and float_limit <= 8192):
        raise reader.bad()


def read_head(reader: Reader) -> list[bytes]:
    """One line names the carriers; where none has done so yet, the last one does."""
    many = reader.count(b"head", 2, 16_777_217)
    lines: list[bytes] = []
    named = False
    for left in range(many, 0, -1):
        line = reader.text()
        if not lines and not re.fullmatch(rb";!knitout-2[ \t]*", line):
            raise reader.bad()
        if not line.startswith(b";") and line.strip(b" \t"):
            raise reader.bad()
        if is_carriers(line):
            names = [name for name in BLANKS.split(line[len(b";;Carriers:") :]) if name]
            if named or not are_names(names):
                raise reader.bad()
            named = True
        if left == 1 and not named:
            raise reader.bad()
        lines.append(line)
    return lines


def read_blocks(reader: Reader) -> list[Block]:
    """Each block leaves a line for each that comes behind it."""
    many = reader.count(b"blocks", 0, MOST_BLOCKS)
    blocks: list[Block] = []
    taken = 0
    for id in range(many):
        most = min(4096, MOST_LINES - taken - (many - id - 1))
        size = reader.count(b"block", 1, most)
        taken += size
        blocks.append(Block(id, 0, reader.texts(size)))
    return blocks


def are_small(*numbers: int) -> bool:
    return all(number <= LARGEST for number in numbers)


def read_edit(reader: Reader, document: Document) -> None:
    """An entry, which is carried out."""
    line = reader.next()
    number = document.version + 1
    if found := PUT.fullmatch(line):
        session, id, seen, size = (int(word) for word in found.groups())
        if session >= 64 or size > 4096 or not are_small(id, seen):
            raise reader.bad()
        block = document.find(id)
        if block is None or block.stamp != seen or document.count() - len(block.lines) + size > MOST_LINES:
            raise reader.bad("NoFit")
        block.lines, block.stamp = reader.texts(size), number
    elif found := ADD.fullmatch(line):
        session, id, size = int(found[1]), int(found[4]), int(found[5])
        behind = None if found[2] == b"start" else int(found[2])
        if session >= 64 or size > 4096 or not are_small(id, behind or 0):
            raise reader.bad()
        anchor = None if behind is None else document.find(behind)
        fits = id == document.drawn and (behind is None or anchor is not None)
        if not fits or len(document.blocks) == MOST_BLOCKS or document.count() + size > MOST_LINES:
            raise reader.bad("NoFit")
        at = 0 if anchor is None else document.blocks.index(anchor) + 1
        document.blocks.insert(at, Block(id, number, reader.texts(size)))
        document.drawn += 1
    elif found := CUT.fullmatch(line):
        session, id, seen = (int(word) for word in found.groups())
        if session >= 64 or not are_small(id, seen):
            raise reader.bad()
        block = document.find(id)
        if block is None or block.stamp != seen:
            raise reader.bad("NoFit")
        document.blocks.remove(block)
    elif (found := HEAD.fullmatch(line)) and is_utf8(line):
        session, seen = int(found[1]), int(found[2])
        names = found[3].split(b" ")[1:]
        if session >= 64 or not are_small(seen) or not are_names(names):
            raise reader.bad()
        if document.stamp != seen:
            raise reader.bad("NoFit")
        document.names, document.stamp = names, number
    else:
        raise reader.bad()
    document.version = number


def document_of(given: bytes) -> Document:
    """The document at the end of a saved text. `Bad` tells of the first bad line."""
    reader = Reader(given)
    if reader.next() != b"journal 1":
        raise reader.bad()
    read_profile(reader)
    head = read_head(reader)
    blocks = read_blocks(reader)
    document = Document(head, blocks, len(blocks))
    for _ in range(reader.count(b"entries", 0, LARGEST)):
        read_edit(reader, document)
    if reader.at < len(reader.lines) or reader.rest:
        reader.at += 1
        raise reader.bad()
    return document
