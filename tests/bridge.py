"""A bridge: several clients share one document over a Unix socket, and each is a session of its conversation."""
from __future__ import annotations

import re
import socket
import threading

from conversations import Served


class Bridge:
    """Hands on each command once it is whole, so that nobody waits for half a command of another client."""

    def __init__(self, served: Served, path: str) -> None:
        self.served, self.lock = served, threading.Lock()
        self.listening = socket.socket(socket.AF_UNIX)
        self.listening.bind(path)
        self.listening.listen()

    def run(self, clients: int) -> None:
        """Serves so many clients until each has closed its connection."""
        accepted = [threading.Thread(target=self.serve, args=(session, self.listening.accept()[0])) for session in range(clients)]
        for thread in accepted:
            thread.start()
        for thread in accepted:
            thread.join()
        self.listening.close()

    def serve(self, session: int, connection: socket.socket) -> None:
        with connection, connection.makefile("rb") as heard:
            for line in heard:
                found = re.search(rb" lines (\d+)\n\Z", line)
                texts = [heard.readline() for _ in range(int(found[1]))] if found else []
                with self.lock:
                    reply = self.served.ask(b"session %d " % session + line + b"".join(texts))
                connection.sendall(reply + b"\n\n")
