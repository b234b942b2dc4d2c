"""What is asked in a conversation: the bytes that ask it, and how the reply is read."""
from __future__ import annotations

from dataclasses import dataclass
from typing import Any, Callable, Generic, Iterable, Mapping, Sequence, TypeVar

from ..program import Limits
from . import replies
from .errors import Unsayable, refusal_of

T = TypeVar("T")
# A text line has a bar in front, which counts among the bytes that a line may have.
MOST_TEXT_BYTES = 4095
MOST_SESSIONS, MOST_EDITS, MOST_TEXT_LINES = 64, 64, 4096
# The id that is no block's, and what is above it.
NO_BLOCK = 4294967295


@dataclass(frozen=True)
class Request(Generic[T]):
    """Bytes that get one reply, and what the reply is as a value; a refusal is raised."""

    data: bytes
    value_of: Callable[[replies.Said], T]

    def read(self, said: Mapping[str, Any]) -> T:
        """The value of the reply, or its refusal raised."""
        refusal = refusal_of(said)
        if refusal:
            raise refusal
        return self.value_of(said)


@dataclass(frozen=True)
class Put:
    """Other lines for a block, as an edit of a group."""

    block: int
    lines: Sequence[str]


@dataclass(frozen=True)
class Add:
    """A new block behind another, or first where `behind` is `start`, as an edit of a group."""

    behind: replies.Block
    lines: Sequence[str]


@dataclass(frozen=True)
class Cut:
    """A block taken out, as an edit of a group."""

    block: int


Edit = Put | Add | Cut


# ---------------------------------------------------------------- lines


def text_line(line: str) -> bytes:
    """A line of a text as it is said."""
    try:
        data = line.encode()
    except UnicodeEncodeError as trouble:
        raise Unsayable(f"half a surrogate in {line!r}") from trouble
    if b"\n" in data:
        raise Unsayable(f"a line feed in {line!r}")
    if len(data) > MOST_TEXT_BYTES:
        raise Unsayable(f"a line of {len(data)} bytes; there may be {MOST_TEXT_BYTES}")
    # (of two carriage returns at the end one is no part of the line)
    return b"|%b\r\n" % data if data.endswith(b"\r") else b"|%b\n" % data


def text_lines(lines: Iterable[str]) -> bytes:
    """Lines of a text as they are said."""
    return b"".join(map(text_line, lines))


def pieces_of(text: bytes) -> list[bytes]:
    """The pieces of a text between its line feeds."""
    pieces = text.split(b"\n")
    return pieces if pieces[-1] else pieces[:-1]


def opening(text: bytes) -> bytes:
    """What opens a conversation over a text. What no text is, is refused by check_main in its own words."""
    pieces = pieces_of(text)
    return b"serve 1 lines %d\n%b" % (len(pieces), b"".join(b"|%b\n" % piece for piece in pieces))


def opening_by(saved: bytes) -> bytes:
    """What opens a conversation that goes on from a saved text. What none is, is refused likewise."""
    pieces = pieces_of(saved)
    # (a saved text's carriage returns are all a part of it)
    lines = (b"%b\r\n" % piece if piece.endswith(b"\r") else b"%b\n" % piece for piece in pieces)
    return b"serve 1 journal %d\n%b" % (len(pieces), b"".join(lines))


def options(limits: Limits = Limits(), block_lines: int = 64) -> list[str]:
    """The words of the command line behind its name."""
    if not 1 <= block_lines <= MOST_TEXT_LINES:
        raise Unsayable(f"blocks have 1 to {MOST_TEXT_LINES} lines, not {block_lines}")
    return ["serve", "--json", *limits.words(), f"--block={block_lines}"]


def session_number(number: int) -> int:
    """The number of a session, if it is one."""
    if not 0 <= number < MOST_SESSIONS:
        raise Unsayable(f"sessions are 0 to {MOST_SESSIONS - 1}, not {number}")
    return number


def count(number: int) -> int:
    """A number that can be said."""
    if isinstance(number, bool) or not 0 <= number < NO_BLOCK:
        raise Unsayable(f"a number is 0 to {NO_BLOCK - 1}, not {number!r}")
    return number


# ---------------------------------------------------------------- requests


def asked(session: int, words: str, value_of: Callable[[replies.Said], T], lines: bytes = b"") -> Request[T]:
    """A command of a session, with the text lines behind it."""
    return Request(b"session %d %b\n%b" % (session, words.encode(), lines), value_of)


def edit_words(edit: Edit) -> str:
    """The command line of an edit."""
    if isinstance(edit, Cut):
        return f"cut {count(edit.block)}"
    if isinstance(edit, Put):
        return f"put {count(edit.block)} lines {len(edit.lines)}"
    if edit.behind == "start":
        return f"add start lines {len(edit.lines)}"
    if not isinstance(edit.behind, int):
        raise Unsayable(f"a block stands behind another's id or at the `start`, not {edit.behind!r}")
    return f"add {count(edit.behind)} lines {len(edit.lines)}"


def one_edit(session: int, edit: Edit) -> Request[replies.Accepted]:
    """An edit by itself."""
    lines = () if isinstance(edit, Cut) else edit.lines
    # (longer ones are refused by check_main, which counts them)
    return asked(session, edit_words(edit), replies.Accepted.of, text_lines(lines))


def group(session: int, edits: Sequence[Edit]) -> Request[replies.GroupDone]:
    """Edits, all or none. What would be refused at its line ends a group, and what follows would stand for itself: so
    none of it is said."""
    if not 1 <= len(edits) <= MOST_EDITS:
        raise Unsayable(f"a group has 1 to {MOST_EDITS} edits, not {len(edits)}")
    parts = []
    for edit in edits:
        lines = () if isinstance(edit, Cut) else edit.lines
        if len(lines) > MOST_TEXT_LINES:
            raise Unsayable(f"a text of {len(lines)} lines in a group; there may be {MOST_TEXT_LINES}")
        parts += [b"session %d %b\n" % (session, edit_words(edit).encode()), text_lines(lines)]
    return asked(session, "group", replies.GroupDone.of, b"".join([*parts, b"session %d end\n" % session]))


def put_head(session: int, names: Sequence[str]) -> Request[replies.Accepted]:
    """Other names for the header."""
    for name in names:
        if not name or any(it in name for it in " \t\n\r"):
            raise Unsayable(f"a carrier's name has no blanks: {name!r}")
    if len(set(names)) < len(names) or len(names) > 64:
        raise Unsayable("the names of carriers differ, and there are at most 64")
    line = f";;Carriers: {' '.join(names)}".rstrip()
    return asked(session, "put head lines 1", replies.Accepted.of, text_line(line))


def look(session: int, block: int) -> Request[replies.Shown]:
    """A block's lines; the session then knows them."""
    return asked(session, f"look {count(block)}", replies.Shown.of)


def look_head(session: int) -> Request[replies.Shown]:
    """The header's line that names the carriers."""
    return asked(session, "look head", replies.Shown.of)


def undo(session: int) -> Request[replies.Accepted]:
    """The session's last step undone."""
    return asked(session, "undo", replies.Accepted.of)


def text_at(session: int, block: int, stamp: int) -> Request[replies.OldText | None]:
    """The text that a block got from an entry."""
    return asked(session, f"look {count(block)} at {count(stamp)}", replies.OldText.of)


def loop(session: int, line: int) -> Request[replies.LoopTold]:
    """The loop that a line of the file makes."""
    return asked(session, f"loop {count(line)}", replies.LoopTold.of)


def verdict(session: int) -> Request[replies.VerdictTold]:
    """The verdict on the whole."""
    return asked(session, "verdict", replies.VerdictTold.of)


def blocks(session: int) -> Request[replies.Blocks]:
    """The blocks in their order."""
    return asked(session, "blocks", replies.Blocks.of)


def since(session: int, version: int) -> Request[replies.Since]:
    """The entries behind a version."""
    return asked(session, f"since {count(version)}", replies.Since.of)


def save(session: int) -> Request[replies.Saved]:
    """The saved text."""
    return asked(session, "save", replies.Saved.of)


def tally(session: int, first: int, end: int) -> Request[replies.Tally]:
    """What blocks come to."""
    return asked(session, f"tally {count(first)} {count(end)}", replies.Tally.of)
