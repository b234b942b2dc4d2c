"""Sources of knitout: their lines, and the tokens and needles in these."""
from __future__ import annotations

import re
from functools import cached_property
from typing import Iterable, Iterator, Mapping, NamedTuple, Sequence

# check_main refuses longer files, so no more than a byte beyond is read.
MOST_BYTES = 16 * 1024 * 1024
MOST_LINE_BYTES = 4096
MOST_CARRIERS = 64
CARRIERS_HEADER = ";;Carriers:"
MACHINE_HEADER = ";;Machine:"
# So many bytes are cut into lines at a time, where not all have to be; and for so many lines all are.
PORTION = 1 << 16
MANY = 1000
# The line feed above the first line that is neither blank nor begins with a semicolon.
BODY_BEGINS = re.compile(rb"\n(?!;)[ \t]*(?:[^ \t\r\n]|\r(?!\n|\Z))")


class Token(NamedTuple):
    """A run of characters without blanks, and its columns: the first, and the one behind the last."""

    text: str
    column: int
    end: int


class Needle(NamedTuple):
    """A needle by its bed (f, fs, b, bs) and number."""

    bed: str
    number: int

    @property
    def is_front(self) -> bool:
        return self.bed[0] == "f"

    @property
    def is_slider(self) -> bool:
        return self.bed[-1] == "s"

    @property
    def hook(self) -> Needle:
        return Needle(self.bed[0], self.number)

    @property
    def slider(self) -> Needle:
        return Needle(f"{self.bed[0]}s", self.number)

    def __str__(self) -> str:
        return f"{self.bed}{self.number}"


def needle_of(text: str) -> Needle | None:
    """The needle that a token spells."""
    found = re.fullmatch(r"(fs|bs|f|b)([+-]?[0-9]+)", text)
    return Needle(found[1], int(found[2])) if found else None


def runs(text: str, column: int = 1) -> list[Token]:
    """The tokens of a text whose first character stands in a column."""
    return [Token(it[0], it.start() + column, it.end() + column) for it in re.finditer(r"[^ \t]+", text)]


def shown(text: str, most: int = 60) -> str:
    """A file's own words as they may stand in a message: one line, not too long, without control characters."""
    text = text if len(text) <= most else f"{text[:most]}.."
    return "".join(it if it.isprintable() else ascii(it)[1:-1] for it in text)


def listed(names: Iterable[str]) -> str:
    """Names with a space between them, as they may stand in a message."""
    return " ".join(shown(name) for name in names)


class Source:
    """The bytes of a file, cut into lines as check_main cuts them, under the name that findings give the file."""

    def __init__(self, name: str, data: bytes) -> None:
        self.name = name
        self.data = data
        # A line, and the place among the bytes at which it begins.
        self.known = 1, 0

    @cached_property
    def length(self) -> int:
        """The number of lines."""
        return self.data.count(b"\n") + (not self.data.endswith(b"\n") and self.data != b"")

    @cached_property
    def pieces(self) -> list[bytes]:
        """The lines without their line feeds."""
        pieces = self.data.split(b"\n")
        return pieces if pieces[-1] else pieces[:-1]

    def piece(self, number: int) -> bytes:
        """A line without its line feed, none for a line that isn't there."""
        if "pieces" in self.__dict__:
            return self.pieces[number - 1] if number <= len(self.pieces) else b""
        begin = self.offset(number)
        end = self.data.find(b"\n", begin)
        return self.data[begin:] if end < 0 else self.data[begin:end]

    def raw(self, number: int) -> bytes:
        """The bytes of a line, none for a line that isn't there."""
        piece = self.piece(number)
        return piece[:-1] if piece.endswith(b"\r") else piece

    def line(self, number: int) -> str:
        """The text of a line."""
        return self.raw(number).decode(errors="replace")

    def tokens(self, number: int) -> list[Token]:
        """The tokens of a line before its comment."""
        return runs(self.line(number).partition(";")[0])

    def offset(self, number: int) -> int:
        """The place among the bytes at which a line begins; the end for one behind the last."""
        # (asked for again and again near one line)
        line, at = self.known
        at = self.behind(at, number - line) if number >= line else self.before(at, line - number)
        if at < len(self.data):
            self.known = number, at
        return at

    def behind(self, at: int, lines: int) -> int:
        """The place so many lines behind that at which one begins."""
        # (a line has a byte at least, so that as many bytes don't go too far)
        while lines > 16 and at < len(self.data):
            at, lines = at + lines, lines - self.data.count(b"\n", at, at + lines)
        for _ in range(lines):
            at = self.data.find(b"\n", at) + 1 or len(self.data)
        return min(at, len(self.data))

    def before(self, at: int, lines: int) -> int:
        """The place so many lines before that at which one begins."""
        while lines > 16 and at > lines:
            at, lines = at - lines, lines - self.data.count(b"\n", at - lines, at)
        for _ in range(lines + 1):
            at = self.data.rfind(b"\n", 0, max(0, at))
        return at + 1

    def lines_from(self, number: int) -> Iterator[tuple[int, bytes]]:
        """The lines from one on, each with its number, without their line feeds."""
        begin = self.offset(number)
        while begin < len(self.data):
            end = self.data.find(b"\n", begin + PORTION) + 1 or len(self.data)
            pieces = self.data[begin:end].removesuffix(b"\n").split(b"\n")
            yield from enumerate(pieces, number)
            number, begin = number + len(pieces), end

    def lines_up(self, number: int) -> Iterator[tuple[int, bytes]]:
        """The lines above one, the nearest first, each with its number, without their line feeds."""
        end = self.offset(number)
        while end > 0:
            begin = self.data.rfind(b"\n", 0, max(0, end - PORTION)) + 1
            for piece in reversed(self.data[begin:end].removesuffix(b"\n").split(b"\n")):
                number -= 1
                yield number, piece
            end = begin

    def lines_of(self, words: Iterable[str]) -> list[int]:
        """The lines of the body that have one of the words first."""
        known = [word.encode() for word in words if word.encode() in self.data]
        if not known:
            return []
        form = rb"(?m)^[ \t]*(?:" + b"|".join(known) + rb")(?=[ \t\r;]|$)"
        numbers, number, seen = [], 1, 0
        for found in re.finditer(form, self.data):
            number += self.data.count(b"\n", seen, found.start())
            seen = found.start()
            numbers.append(number)
        return [it for it in numbers if it > self.head_length]

    def lines_above(self, number: int, words: Sequence[str]) -> Iterator[int]:
        """The lines of the body above one that have one of the words first, the nearest first."""
        names = [word.encode() for word in words]
        end = self.offset(number)
        while (found := max(self.data.rfind(name, 0, end) for name in names)) >= len(self.head):
            begin = self.data.rfind(b"\n", 0, found) + 1
            number -= self.data.count(b"\n", begin, end)
            end = begin
            if self.raw(number).split(b";")[0].split()[:1] in [[name] for name in names]:
                yield number

    def above(self, number: int) -> bytes:
        """The text of the lines above one."""
        return self.data[: self.offset(number)]

    def with_texts(self, texts: Mapping[int, bytes]) -> Source:
        """This source with other texts for some of its lines."""
        if len(texts) > MANY:
            lines = [texts.get(number, piece) for number, piece in enumerate(self.pieces, 1)]
            return Source(self.name, b"\n".join([*lines, b""] if self.data.endswith(b"\n") else lines))
        parts: list[bytes | memoryview] = []
        end = 0
        for number in sorted(texts):
            begin = self.offset(number)
            parts += [memoryview(self.data)[end:begin], texts[number]]
            end = self.data.find(b"\n", begin)
            end = len(self.data) if end < 0 else end
        return Source(self.name, b"".join([*parts, memoryview(self.data)[end:]]))

    def with_lines(self, first: int, last: int, lines: Sequence[str]) -> Source:
        """This source with other lines in the place of the lines `first` to `last`."""
        new = "".join(f"{line}{self.line_end}" for line in lines).encode()
        begin, end, data = self.offset(first), self.offset(last + 1), memoryview(self.data)
        # (the last line may lack its line feed)
        feed = b"\n" if begin and not self.data.endswith(b"\n", 0, begin) else b""
        source = Source(self.name, b"".join([data[:begin], feed, new, data[end:]]))
        source.known = first, begin + len(feed)
        return source

    @cached_property
    def head(self) -> bytes:
        """The lines of the head: the first, and those below it that are blank or begin with a semicolon."""
        found = BODY_BEGINS.search(self.data)
        return self.data[: found.start() + 1] if found else self.data

    @cached_property
    def head_length(self) -> int:
        """The number of lines of the head."""
        return self.head.count(b"\n") + (not self.head.endswith(b"\n") and self.head != b"")

    def header(self, key: str) -> str:
        """What stands behind the key of a header line; the first of its lines counts."""
        found = re.search(rb"^" + re.escape(key.encode()) + rb"(.*)$", self.head, re.M)
        return found[1].decode(errors="replace").strip() if found else ""

    def carriers_lines(self) -> list[int]:
        """The lines that begin with `;;Carriers:`, wherever they stand."""
        key, found, at = b"\n" + CARRIERS_HEADER.encode(), [], -1
        while (at := self.data.find(key, at + 1)) >= 0:
            found.append(self.data.count(b"\n", 0, at) + 2)
        return [1, *found] if self.data.startswith(key[1:]) else found

    def names(self, number: int) -> list[Token]:
        """The names that a line `;;Carriers:` declares."""
        return runs(self.line(number)[len(CARRIERS_HEADER) :], len(CARRIERS_HEADER) + 1)

    @cached_property
    def declared(self) -> list[str]:
        """The names of the carriers, in the order of the header."""
        return re.findall(r"[^ \t]+", self.header(CARRIERS_HEADER))

    @property
    def machine(self) -> str:
        """The machine that the head names, or nothing."""
        return self.header(MACHINE_HEADER)

    @property
    def line_end(self) -> str:
        """What stands at the end of a line: with a carriage return, if the first line has one."""
        return "\r\n" if self.data[: self.data.find(b"\n")].endswith(b"\r") else "\n"
