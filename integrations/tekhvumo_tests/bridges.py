"""A bridge in a process of its own, and what its journal tells."""
from __future__ import annotations

import json
import os
import signal
import socket
import subprocess
import sys
from pathlib import Path
from typing import Any, Mapping

from tekhvumo import check
from tekhvumo.share import Shared
from tekhvumo.share.journal import Journal, file_text

from .case import HERE, MOST_SECONDS, Case

# A bridge of whose constants one is another, so that it begins a new journal sooner than it usually does.
START = (
    "import sys; from tekhvumo.share import document; from tekhvumo.command import main;"
    " document.{setting}; sys.exit(main())"
)


class Bridge:
    """A process of `tekhvumo share`."""

    def __init__(self, environment: Mapping[str, str], path: Path, *words: str, setting: str = "") -> None:
        self.path = path
        self.socket = f"{path}.socket"
        command = [sys.executable, "-S", str(HERE / "tekhvumo.py"), "share", *words, str(path)]
        if setting:
            command = [sys.executable, "-S", "-c", START.format(setting=setting), "share", *words, str(path)]
        pipe = subprocess.PIPE
        self.child = subprocess.Popen(command, stdout=pipe, stderr=pipe, env=dict(environment))
        self.said = self.child.stdout.readline().decode()
        self.errors = ""

    def stop(self, number: int = signal.SIGTERM) -> tuple[int, str]:
        """Ends it by a signal, and gives its status and what it said on standard error."""
        if self.child.poll() is None:
            self.child.send_signal(number)
        if not self.child.stdout.closed:
            self.errors = self.child.communicate(timeout=MOST_SECONDS)[1].decode()
        return self.child.wait(timeout=MOST_SECONDS), self.errors


class Raw:
    """A client that says what a test wants."""

    def __init__(self, path: str) -> None:
        self.connection = socket.socket(socket.AF_UNIX)
        self.connection.settimeout(MOST_SECONDS)
        self.connection.connect(path)
        self.stream = self.connection.makefile("rwb")
        self.hello = self.read()

    def read(self) -> dict[str, Any]:
        line = self.stream.readline()
        return json.loads(line) if line else {}

    def write(self, data: bytes) -> None:
        self.stream.write(data)
        self.stream.flush()

    def ask(self, **message: Any) -> dict[str, Any]:
        """The reply to a message; what is pushed before is passed over."""
        self.write(json.dumps(message).encode() + b"\n")
        while (reply := self.read()).get("reply") == "pushed":
            pass
        return reply

    def close(self) -> None:
        self.stream.close()
        self.connection.close()


class WithBridge(Case):
    def setUp(self) -> None:
        super().setUp()
        self.words: tuple[str, ...] = ("--pause", "5")
        self.environment |= {"TEKHVUMO_PROGRAM": os.path.abspath(self.program), "PYTHONPATH": str(HERE)}

    def share(self, text: str | None = None, setting: str = "") -> Bridge:
        """A bridge over a file, which gets a text if one is given."""
        path = self.room / "scarf.k"
        if text is not None:
            path.write_bytes(text.encode())
        bridge = Bridge(self.environment, path, *self.words, setting=setting)
        self.addCleanup(bridge.stop, signal.SIGKILL)
        return bridge

    def client(self, bridge: Bridge) -> Shared:
        client = Shared.connect(bridge.socket)
        self.addCleanup(client.close)
        return client

    def raw(self, bridge: Bridge) -> Raw:
        client = Raw(bridge.socket)
        self.addCleanup(client.close)
        return client

    def kept(self, bridge: Bridge, is_judged: bool = True) -> str:
        """The text at the end of a bridge's journal, which check_main takes and gives the verdict of that text.

        (Comments above the first instruction count as lines of the body there, and in the text as lines of the head.)
        """
        data = Path(f"{bridge.path}.journal").read_bytes()
        client = self.raw(bridge)
        self.assertEqual("".join(f"{line}\n" for line in client.ask(ask="save")["lines"]).encode(), data)
        client.close()
        text = file_text(Journal.of(data).lines()).decode()
        ran = self.run_command("check_main", "replay", given=data)
        self.assertEqual(ran.returncode, 0, ran.stdout)
        told = self.run_command("check_main", "check", given=text).stdout
        if is_judged:
            self.assertEqual(ran.stdout.partition(b"\n")[2], told)
        return text

    def assert_told(self, client: Shared) -> None:
        """The verdict that a client was told last is that of its text."""
        verdict, brief = check(client.text), client.brief
        self.assertEqual((brief.is_sound, brief.line, brief.rule, brief.at),
                         (verdict.is_sound, verdict.line, verdict.rule, verdict.at))
