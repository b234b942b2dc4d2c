"""Tests of several clients that share one conversation of the command `serve` by a bridge: no accepted edit of anybody is lost.

`python3 -m unittest discover tests` runs them, on the check_main that TEKHVUMO_PROGRAM names or that is found.
"""
from __future__ import annotations

import random
import socket
import tempfile
import threading
import unittest
from collections import Counter
from pathlib import Path

from bridge import Bridge
from conversations import Served, opening_of, without_frame
from program import answer_of
from saved_texts import document_of
from test_live import made_program

BLOCKS = 6
EDITS = 300
CLIENTS = 2
OPENING_TEXT = made_program(40, 0)


class Client(threading.Thread):
    """A designer who puts remarks into blocks, and looks again where another was quicker."""

    def __init__(self, path: str, number: int) -> None:
        super().__init__()
        self.path, self.number = path, number
        self.choice = random.Random(number)
        self.told: Counter[bytes] = Counter()
        self.texts: dict[int, list[bytes]] = {}

    def run(self) -> None:
        with socket.socket(socket.AF_UNIX) as connection:
            connection.connect(self.path)
            self.connection = connection
            for edit in range(EDITS):
                self.edit(self.choice.randrange(BLOCKS), edit)

    def ask(self, given: bytes) -> list[bytes]:
        """The lines of the reply."""
        self.connection.sendall(given)
        reply = b""
        while not reply.endswith(b"\n\n"):
            piece = self.connection.recv(1 << 16)
            if not piece:
                raise ConnectionError(reply)
            reply += piece
        return without_frame(reply[:-2]).split(b"\n")

    def edit(self, block: int, edit: int) -> None:
        """Mostly the client knows the block from its own put, and is late where another has put it since."""
        texts = self.texts.get(block) or self.look(block)
        while True:
            new = [*texts, b"|; client %d edit %d" % (self.number, edit)]
            (first, *_) = self.ask(b"put %d lines %d\n" % (block, len(new)) + b"".join(line + b"\n" for line in new))
            word = first.split(b" ", 1)[0]
            self.told[word] += 1
            if word == b"accepted":
                self.texts[block] = new
                return
            texts = self.look(block)

    def look(self, block: int) -> list[bytes]:
        _, *texts = self.ask(b"look %d\n" % block)
        return texts


class Shared(unittest.TestCase):
    def test_no_edit_is_lost(self) -> None:
        with tempfile.TemporaryDirectory(prefix="bridge-") as folder, Served() as served:
            served.ask(opening_of(OPENING_TEXT))
            path = str(Path(folder) / "socket")
            bridge = Bridge(served, path)
            clients = [Client(path, number) for number in range(CLIENTS)]
            for client in clients:
                client.start()
            bridge.run(CLIENTS)
            for client in clients:
                client.join()
            saved = without_frame(served.ask(b"session 63 save\n")).split(b"\n", 1)[1] + b"\n"
            status, final = served.end()
        told = clients[0].told + clients[1].told
        self.assertEqual((status, told[b"accepted"], set(told) - {b"stale"}), (0, EDITS * CLIENTS, {b"accepted"}))
        self.assertTrue(told[b"stale"])
        self.is_whole(saved)
        self.assertEqual(answer_of("replay", given=saved), (0, final[:-1]))

    def is_whole(self, saved: bytes) -> None:
        """The document has all remarks of each client, each once, and else what it had at first."""
        lines = [line.decode() for block in document_of(saved).blocks for line in block.lines]
        remarks = [line for line in lines if line.startswith("; client ")]
        self.assertEqual(sorted(remarks), sorted(f"; client {client} edit {edit}" for client in range(CLIENTS) for edit in range(EDITS)))
        self.assertEqual([line for line in lines if not line.startswith(";")], OPENING_TEXT[2:])


if __name__ == "__main__":
    unittest.main()
