"""What goes wrong in a conversation, by names."""
from __future__ import annotations

from typing import Any, Mapping


class ServeError(Exception):
    """What a conversation raises."""


class Unsayable(ServeError, ValueError):
    """What was asked can't be said in a conversation: a line feed in a line, a number out of bounds. Nothing was sent."""


class OpeningRefused(ServeError):
    """check_main doesn't take the text: its status, and its own words, as `bad input: head NoCarriers`."""

    def __init__(self, status: int, words: str) -> None:
        super().__init__(f"check_main refuses the text with status {status}: {words or 'no words'}")
        self.status = status
        self.words = words


class ProcessGone(ServeError):
    """The process has ended, or what it wrote last can't be read; whether what was asked has been done isn't known.

    `status` is its exit status, less than 0 for a signal, None where the conversation was closed before.
    """

    def __init__(self, status: int | None) -> None:
        super().__init__("the conversation was closed" if status is None else f"check_main is gone, status {status}")
        self.status = status


class Refused(ServeError):
    """check_main refuses what was asked, and nothing has changed. `reply` is its reply as it came."""

    form = "refused"

    def __init__(self, reply: Mapping[str, Any]) -> None:
        super().__init__(self.form.format_map(reply))
        self.reply = reply

    @property
    def version(self) -> int | None:
        """The version at which this was refused, where the reply tells it."""
        return self.reply.get("version")


class Stale(Refused):
    """Another session has changed the block, or the header, since this one looked: look again, and put again."""

    form = "block {block} is another text: its stamp is {now}, and entry {seen} was seen"

    @property
    def block(self) -> int | str:
        """The block, or `head`."""
        block: int | str = self.reply["block"]
        return block

    @property
    def seen(self) -> int:
        """The stamp that the session knows."""
        return int(self.reply["seen"])

    @property
    def now(self) -> int:
        """The stamp that it has."""
        return int(self.reply["now"])


class BlockGone(Refused):
    """The block was cut, by the entry `at`."""

    form = "block {block} was cut by entry {at}"

    @property
    def block(self) -> int:
        """The block's id."""
        return int(self.reply["block"])

    @property
    def at(self) -> int:
        """The entry that cut it."""
        return int(self.reply["at"])


class NoSuchBlock(Refused):
    """No block has had this id."""

    form = "there is no block {block}: only the ids below {ids} were given out"


class Unseen(Refused):
    """The session has never looked at the block."""

    form = "block {name} was never looked at by this session"


class TextLong(Refused):
    """The text of a put or an add has more than 4,096 lines."""

    form = "a text of {lines} lines; there may be 4096"


class Full(Refused):
    """There would be too many entries, blocks or lines."""

    form = "there would be more than {limit} {which}"


class OutOfMemory(Refused):
    """Memory ran out in check_main."""

    form = "memory ran out in check_main"


class NoVersion(Refused):
    """There is no such version yet."""

    form = "there is no version {at} yet: this is version {version}"


class NoRange(Refused):
    """There are no such blocks."""

    form = "there are no such blocks: there are {blocks}"


class NothingToUndo(Refused):
    """The session has no step that could be undone."""

    form = "there is no step that could be undone"


class BadInput(Refused):
    """check_main can't read what was asked, for a `cause` as `BadLine`."""

    form = "line {line} of the conversation: {cause}"

    @property
    def cause(self) -> str:
        """Why the line is refused."""
        return str(self.reply["cause"])


class GroupRefused(Refused):
    """One of a group's edits isn't accepted, so none was made. `at` is its place, from 1, and `why` its refusal."""

    form = "edit {at} of the group is refused"

    def __init__(self, reply: Mapping[str, Any]) -> None:
        super().__init__(reply)
        self.at = int(reply["at"])
        self.why = refusal_of(reply["told"])


REFUSALS: dict[str, type[Refused]] = {
    "stale": Stale,
    "gone": BlockGone,
    "noblock": NoSuchBlock,
    "unseen": Unseen,
    "blocklong": TextLong,
    "full": Full,
    "nomemory": OutOfMemory,
    "noversion": NoVersion,
    "norange": NoRange,
    "noundo": NothingToUndo,
    "badinput": BadInput,
    "refused": GroupRefused,
}


def refusal_of(reply: Mapping[str, Any]) -> Refused | None:
    """The refusal that a reply is, if it is one."""
    kind = REFUSALS.get(reply["reply"])
    return kind(reply) if kind else None
