"""What an editor and the bridge say to each other: each message is an object of JSON on a line of its own."""
from __future__ import annotations

import hashlib
import json
from typing import Any, Callable, Iterable, Mapping, Sequence

from ..serve import Add, Cut, Put, Unsayable, requests
from ..serve.requests import Edit, Request

Message = Mapping[str, Any]
PROTOCOL = 1
# The longest line that the bridge takes: it is shorter than what a saved text may have, so that each edit can be saved.
MOST_BYTES = 1 << 21
# What an entry of the journal has beside its lines.
ENTRY_BYTES = 128


def line_of(message: Message) -> bytes:
    """A message as it is written."""
    return json.dumps(message, ensure_ascii=False, separators=(",", ":")).encode(errors="surrogatepass") + b"\n"


def message_of(line: bytes) -> Message:
    """A message that was read; Unsayable where it is none."""
    try:
        message = json.loads(line)
    except (ValueError, RecursionError) as trouble:
        raise Unsayable(f"no JSON: {trouble}") from trouble
    if not isinstance(message, dict):
        raise Unsayable("a message is an object")
    return message


# ---------------------------------------------------------------- what an editor asks


def number(message: Message, key: str) -> int:
    """A number of a message."""
    value = message.get(key)
    if isinstance(value, bool) or not isinstance(value, int):
        raise Unsayable(f"`{key}` is a number, not {value!r}")
    return value


def word(message: Message, key: str) -> str:
    """A text of a message."""
    value = message.get(key)
    if not isinstance(value, str):
        raise Unsayable(f"`{key}` is a text, not {value!r}")
    return value


def texts(message: Message, key: str) -> list[str]:
    """Texts of a message."""
    value = message.get(key)
    if not isinstance(value, list) or not all(isinstance(it, str) for it in value):
        raise Unsayable(f"`{key}` is a list of texts")
    return value


def edit_of(message: Message) -> Edit:
    """The edit that a message asks for."""
    kind = message.get("ask")
    if kind == "put":
        return Put(number(message, "block"), texts(message, "lines"))
    if kind == "cut":
        return Cut(number(message, "block"))
    if kind != "add":
        raise Unsayable(f"an edit is put, add or cut, not {kind!r}")
    behind = "start" if message.get("behind") == "start" else number(message, "behind")
    return Add(behind, texts(message, "lines"))


def group_of(session: int, message: Message) -> Request[Any]:
    """The group that a message asks for."""
    edits = message.get("edits")
    if not isinstance(edits, list) or not all(isinstance(it, dict) for it in edits):
        raise Unsayable("`edits` is a list of objects")
    return requests.group(session, [edit_of(it) for it in edits])


def look_of(session: int, message: Message) -> Request[Any]:
    """The look that a message asks for: at a block, at its text of a stamp, or at the header."""
    if message.get("block") == "head":
        return requests.look_head(session)
    block = number(message, "block")
    return requests.text_at(session, block, number(message, "at")) if "at" in message else requests.look(session, block)


EDITS = ("put", "add", "cut", "group", "names")
ASKED: dict[str, Callable[[int, Message], Request[Any]]] = {
    "put": lambda session, it: requests.one_edit(session, edit_of(it)),
    "add": lambda session, it: requests.one_edit(session, edit_of(it)),
    "cut": lambda session, it: requests.one_edit(session, edit_of(it)),
    "group": group_of,
    "names": lambda session, it: requests.put_head(session, texts(it, "names")),
    "look": look_of,
    "loop": lambda session, it: requests.loop(session, number(it, "line")),
    "verdict": lambda session, it: requests.verdict(session),
    "blocks": lambda session, it: requests.blocks(session),
    "since": lambda session, it: requests.since(session, number(it, "version")),
    "save": lambda session, it: requests.save(session),
    "tally": lambda session, it: requests.tally(session, number(it, "first"), number(it, "end")),
}


def request_of(session: int, message: Message) -> Request[Any]:
    """What a message asks of check_main for a session; Unsayable where it asks nothing that can be said."""
    kind = message.get("ask")
    if not isinstance(kind, str) or kind not in ASKED:
        raise Unsayable(f"`ask` is one of {', '.join(ASKED)} and saved, not {kind!r}")
    return ASKED[kind](session, message)


def edits_of(message: Message) -> Sequence[Message]:
    """The edits that a message asks for, each one entry if it is accepted; none where it asks something else."""
    if message.get("ask") not in EDITS:
        return ()
    edits: Sequence[Message] = message["edits"] if message["ask"] == "group" else [message]
    return edits


def bytes_of_edits(message: Message, line: bytes) -> int:
    """No fewer bytes than a message's edits add to the saved text; 0 where there are none."""
    count = len(edits_of(message))
    # (a text line has a bar and a line feed, and as JSON at least two quotation marks and a comma)
    return len(line) + ENTRY_BYTES * count if count else 0


def digest_of(lines: Iterable[bytes]) -> str:
    """By what it is told which lines a file was given."""
    return hashlib.sha256(b"\n".join(lines)).hexdigest()


# ---------------------------------------------------------------- what the client library asks


def message_of_edit(edit: Edit) -> dict[str, Any]:
    """The message that asks for an edit."""
    if isinstance(edit, Cut):
        return {"ask": "cut", "block": edit.block}
    if isinstance(edit, Put):
        return {"ask": "put", "block": edit.block, "lines": list(edit.lines)}
    return {"ask": "add", "behind": edit.behind, "lines": list(edit.lines)}


def message_of_edits(edits: Sequence[Edit]) -> dict[str, Any]:
    """The message that asks for edits, all or none."""
    asked = [message_of_edit(it) for it in edits]
    return asked[0] if len(asked) == 1 else {"ask": "group", "edits": asked}
