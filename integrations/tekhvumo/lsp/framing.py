"""Messages between an editor and this server: how they are framed, and the faults that answer them.

All that a library for the protocol would do is in this file and in `endpoint.py`.
"""
from __future__ import annotations

import json
import re
from enum import IntEnum
from typing import Any, BinaryIO, Iterator

MOST_HEADER_BYTES = 1 << 16
LENGTH = re.compile(rb"Content-Length:[ \t]*([0-9]{1,9})[ \t]*\r?\n$", re.I)
FIELD = re.compile(rb"[A-Za-z-]+:")


class Code(IntEnum):
    """The codes of faults."""

    PARSE = -32700
    INVALID_REQUEST = -32600
    NO_METHOD = -32601
    INVALID_PARAMS = -32602
    INTERNAL = -32603
    NOT_INITIALIZED = -32002
    CANCELLED = -32800
    MODIFIED = -32801


class Fault(Exception):
    """What a request is answered, or a message that can't be read."""

    def __init__(self, code: Code, message: str) -> None:
        super().__init__(message)
        self.code = code
        self.message = message


def messages(stream: BinaryIO) -> Iterator[Any | Fault]:
    """The messages of a stream, to its end. Where one can't be read, a fault stands in its place.

    Behind a header without a length nobody knows where the next message begins: it does where a length is given.
    """
    while (length := header(stream)) is not None:
        if isinstance(length, Fault):
            yield length
            continue
        body = stream.read(length)
        if len(body) < length:
            return
        try:
            yield json.loads(body)
        except (ValueError, RecursionError) as trouble:
            yield Fault(Code.PARSE, f"a message that is no JSON: {trouble}")


def header(stream: BinaryIO) -> int | Fault | None:
    """The length of the next message, a fault where a header has none, None at the end of the stream."""
    length: int | None = None
    is_strange = False
    while line := stream.readline(MOST_HEADER_BYTES):
        if not line.strip():
            if length is not None:
                return length
            return Fault(Code.PARSE, "a header without Content-Length")
        # (behind a message of unknown length the next header begins amid a line)
        found = LENGTH.search(line)
        if found:
            length = int(found[1])
        elif not FIELD.match(line) and not is_strange:
            is_strange = True
            length = None
    return None


def framed(message: dict[str, Any]) -> bytes:
    """A message as it is sent."""
    body = json.dumps({"jsonrpc": "2.0", **message}, ensure_ascii=False, separators=(",", ":"))
    return with_length(body.encode(errors="replace"))


def framed_answer(number: Any, result: bytes) -> bytes:
    """The answer to a request as it is sent, with a result that is JSON already."""
    return with_length(b'{"jsonrpc":"2.0","id":%b,"result":%b}' % (json.dumps(number).encode(), result))


def with_length(data: bytes) -> bytes:
    """A body behind its header."""
    return b"Content-Length: %d\r\n\r\n%b" % (len(data), data)
