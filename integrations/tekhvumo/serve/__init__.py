"""Conversations with check_main: a document that is kept by one process, edited block by block, and judged at each edit.

An edit costs a tenth of a millisecond, however long the document is. Several designers may share one: each is a session.

>>> from tekhvumo.serve import Conversation, Stale
>>> with Conversation.open(";!knitout-2\\n;;Carriers: 1\\nin 1\\n", block_lines=64) as served:
...     one, other = served.session(1), served.session(2)
...     edit = one.put(0, ["in 1", "tuck + f1 1"])
...     try:
...         edit = other.put(0, ["in 1", "tuck + f2 1"])
...     except Stale as refused:
...         shown = other.look(refused.block)
...         edit = other.put(0, [*shown.lines, "tuck + f2 1"])
...     edit.version, edit.brief.made
(2, 2)

What is asked is awaited with `AsyncConversation`.
"""
from .aio import AsyncConversation, AsyncSession
from .conversation import Conversation, Session
from .errors import (
    BadInput,
    BlockGone,
    Full,
    GroupRefused,
    NoRange,
    NoSuchBlock,
    NothingToUndo,
    NoVersion,
    OpeningRefused,
    OutOfMemory,
    ProcessGone,
    Refused,
    ServeError,
    Stale,
    TextLong,
    Unsayable,
    Unseen,
)
from .replies import (
    Accepted,
    BlockLine,
    BlockPlace,
    Blocks,
    Brief,
    Entry,
    GroupDone,
    LoopTold,
    OldText,
    Opened,
    Saved,
    Shown,
    Since,
    Tally,
    VerdictTold,
)
from .requests import Add, Cut, Put

__all__ = [
    "Accepted",
    "Add",
    "AsyncConversation",
    "AsyncSession",
    "BadInput",
    "BlockGone",
    "BlockLine",
    "BlockPlace",
    "Blocks",
    "Brief",
    "Conversation",
    "Cut",
    "Entry",
    "Full",
    "GroupDone",
    "GroupRefused",
    "LoopTold",
    "NoRange",
    "NoSuchBlock",
    "NoVersion",
    "NothingToUndo",
    "OldText",
    "OpeningRefused",
    "Opened",
    "OutOfMemory",
    "ProcessGone",
    "Put",
    "Refused",
    "Saved",
    "ServeError",
    "Session",
    "Shown",
    "Since",
    "Stale",
    "Tally",
    "TextLong",
    "Unsayable",
    "Unseen",
    "VerdictTold",
]
