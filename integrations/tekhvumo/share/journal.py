"""A saved text: the texts of a document that it tells, and how it is kept on the disk."""
from __future__ import annotations

import os
import re
import tempfile
from itertools import chain
from typing import Any, Iterable, Iterator, Mapping, Sequence

Lines = list[bytes]


class Journal:
    """A saved text: how a document began, and what was done to it, by which it grows. Lines have neither bar nor line feed."""

    def __init__(self, profile: bytes, head: Lines, blocks: Sequence[Lines], entries: Iterable[bytes] = ()) -> None:
        self.profile = profile
        self.head = head
        self.blocks = blocks
        parts = [b"block %d\n%b" % (len(lines), barred(lines)) for lines in blocks]
        self.front = b"journal 1\nprofile %b\nhead %d\n%bblocks %d\n%b" % (
            profile, len(head), barred(head), len(blocks), b"".join(parts)
        )
        self.entries: list[bytes] = []
        self.size = len(self.front)
        for entry in entries:
            self.add(entry)

    @classmethod
    def of(cls, data: bytes) -> Journal:
        """Reads a saved text that check_main takes."""
        opening, entries = re.split(rb"^entries \d+\n", data, flags=re.M)
        head, _, *blocks = re.split(rb"^blocks? \d+\n", opening, flags=re.M)
        _, profile, _, texts = head.split(b"\n", 3)
        journal = re.split(rb"^(?=session )", entries, flags=re.M)[1:]
        return cls(profile.removeprefix(b"profile "), unbarred(texts), [unbarred(it) for it in blocks], journal)

    def add(self, entry: bytes) -> None:
        """Adds an entry: its line, and its text lines."""
        self.entries.append(entry)
        self.size += len(entry)

    def data(self) -> bytes:
        """The saved text as a file has it."""
        return b"".join([self.front, b"entries %d\n" % len(self.entries), *self.entries])

    def versions(self) -> Iterator[Iterator[bytes]]:
        """The document's lines at each version, from its beginning; they are read before the next version is asked for."""
        head, blocks, order = list(self.head), dict(enumerate(self.blocks)), list(range(len(self.blocks)))
        # (first comes what nothing was done to)
        for entry in [b"", *self.entries]:
            carry_out(entry, head, blocks, order)
            yield chain(head, chain.from_iterable(map(blocks.__getitem__, order)))

    def lines(self) -> Lines:
        """The document's lines at the end."""
        for version in self.versions():
            last = version
        return list(last)

    def anew(self, profile: bytes, block_lines: int) -> Journal:
        """A journal that begins with the text at the end of this one, in blocks of so many lines."""
        lines, head = self.lines(), len(self.head)
        blocks = [lines[at : at + block_lines] for at in range(head, len(lines), block_lines)]
        return Journal(profile, lines[:head], blocks)


def barred(lines: Iterable[bytes]) -> bytes:
    """The text lines of these lines."""
    return b"".join(b"|%b\n" % line for line in lines)


def unbarred(texts: bytes) -> Lines:
    """The lines of these text lines."""
    return [line[1:] for line in texts.split(b"\n")[:-1]]


def entry_of(said: Mapping[str, Any], texts: Sequence[str]) -> bytes:
    """An entry, as check_main tells it as JSON, with the lines that the edit gave."""
    session, block, lines = (said.get(it) for it in ("session", "block", "lines"))
    if said["edit"] == "put":
        words = f"session {session} put {block} seen {said['seen']} lines {lines}"
    elif said["edit"] == "add":
        anchor = "start" if said["anchor"] is None else said["anchor"]
        words = f"session {session} add {anchor} block {block} lines {lines}"
    elif said["edit"] == "cut":
        words = f"session {session} cut {block} seen {said['seen']}"
    else:
        words = " ".join([f"session {session} put head seen {said['seen']} carriers", *said["names"]])
    return f"{words}\n".encode() + barred(text.encode() for text in texts)


def carry_out(entry: bytes, head: Lines, blocks: dict[int, Lines], order: list[int]) -> None:
    """Carries an entry out on a document: its head, its blocks' lines, and their order."""
    line, _, texts = entry.partition(b"\n")
    match line.split(b" ")[2:]:
        case [b"put", b"head", _, _, _, *names]:
            at = next(at for at, line in enumerate(head) if line.startswith(b";;Carriers:"))
            head[at] = b" ".join([b";;Carriers:", *names])
        case [b"put", block, *_]:
            blocks[int(block)] = unbarred(texts)
        case [b"add", anchor, _, block, *_]:
            blocks[int(block)] = unbarred(texts)
            order.insert(0 if anchor == b"start" else order.index(int(anchor)) + 1, int(block))
        case [b"cut", block, *_]:
            order.remove(int(block))


# ---------------------------------------------------------------- files


def read(path: str) -> bytes | None:
    """What a file has; None where there is none."""
    try:
        with open(path, "rb") as file:
            return file.read()
    except FileNotFoundError:
        return None


def file_text(lines: Iterable[bytes], feed: bytes = b"\n") -> bytes:
    """Lines as a file has them, each with what ends it."""
    # (of two carriage returns at a line's end one is no part of it)
    return b"".join(line + (b"\r\n" if line.endswith(b"\r") else feed) for line in lines)


def file_lines(data: bytes) -> Lines:
    """The lines of a file."""
    pieces = data.split(b"\n")
    if not pieces[-1]:
        pieces.pop()
    return [it[:-1] if it.endswith(b"\r") else it for it in pieces]


def write(path: str, data: bytes) -> None:
    """Puts a file in the place of another: whatever happens, one of them is there whole, and the new one from when this is done."""
    folder = os.path.dirname(path) or "."
    handle, made = tempfile.mkstemp(prefix=".tekhvumo-", dir=folder)
    try:
        with os.fdopen(handle, "wb") as file:
            file.write(data)
            file.flush()
            os.fsync(file.fileno())
        os.chmod(made, mode_of(path))
        os.replace(made, path)
    except BaseException:
        os.unlink(made)
        raise
    # (the file's name is on the disk when its folder is)
    opened = os.open(folder, os.O_RDONLY)
    try:
        os.fsync(opened)
    finally:
        os.close(opened)


def mode_of(path: str) -> int:
    """The permissions of a file, or those that a new one gets."""
    try:
        return os.stat(path).st_mode & 0o777
    except FileNotFoundError:
        mask = os.umask(0)
        os.umask(mask)
        return 0o666 & ~mask


def keep_aside(path: str) -> None:
    """Gives a file a second name, with the next number that is free behind it."""
    number = 1
    while True:
        try:
            os.link(path, f"{path}.{number}")
            return
        except FileExistsError:
            number += 1
