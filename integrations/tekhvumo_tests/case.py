"""A test in a folder of its own."""
from __future__ import annotations

import io
import json
import os
import re
import subprocess
import sys
import tempfile
import unittest
from pathlib import Path

from tekhvumo.command import main
from tekhvumo.program import find_program

HERE = Path(__file__).resolve().parent.parent
PROGRAMS = Path(__file__).resolve().parent
TOP = HERE.parent
# For so many seconds a test waits for what has to come, on a machine that is slow at times.
MOST_SECONDS = 240
HEAD = ";!knitout-2\n;;Carriers: 1 2 3\n"
SOUND = f"{HEAD}in 1\ntuck + f1 1\nout 1\n"
BROKEN = f"{HEAD}in 1\nin 1\n"
FINDING = re.compile(r"(.*):([0-9]+):([0-9]+): (error|warning): (\w+): (.*)\n")


def body(lines: str) -> str:
    """A program of lines parted by semicolons, below the usual head."""
    return HEAD + "".join(f"{line}\n" for line in lines.split("; "))


class Case(unittest.TestCase):
    """A test in a folder of its own, with the commands tekhvumo and check_main on its PATH."""

    def setUp(self) -> None:
        room = tempfile.TemporaryDirectory()
        self.addCleanup(room.cleanup)
        self.room = Path(room.name) / "work"
        commands = Path(room.name) / "bin"
        self.room.mkdir()
        commands.mkdir()
        self.program = find_program(None)
        (commands / "check_main").symlink_to(os.path.abspath(self.program))
        # (without the packages that the machine has: none is needed, and they take long to find)
        (commands / "tekhvumo").write_text(f'#!/bin/sh\nexec "{sys.executable}" -S "{HERE}/tekhvumo.py" "$@"\n')
        (commands / "tekhvumo").chmod(0o755)
        kept = {name: value for name, value in os.environ.items() if not name.startswith(("GIT_", "TEKHVUMO_"))}
        person = {f"GIT_{who}_{what}": "a@b.c" for who in ("AUTHOR", "COMMITTER") for what in ("NAME", "EMAIL")}
        self.environment = {
            **kept,
            **person,
            "GIT_CONFIG_GLOBAL": os.devnull,
            "GIT_CONFIG_NOSYSTEM": "1",
            "PATH": f"{commands}:{os.environ['PATH']}",
        }

    def run_command(self, *words: str, given: str | bytes = b"") -> subprocess.CompletedProcess[bytes]:
        text = given.encode() if isinstance(given, str) else given
        return subprocess.run(words, input=text, capture_output=True, cwd=self.room, env=self.environment, check=False)

    def tekhvumo(self, *words: str, given: str | bytes = b"") -> tuple[int, str]:
        """The status, and what is written to standard output, in this process: a new one takes longer than the work."""
        text = given.encode() if isinstance(given, str) else given
        streams = [io.TextIOWrapper(io.BytesIO(each)) for each in (text, b"", b"")]
        kept = sys.stdin, sys.stdout, sys.stderr, os.getcwd()
        sys.stdin, sys.stdout, sys.stderr = streams
        os.chdir(self.room)
        try:
            status = int(main(words))
        except SystemExit as end:
            status = int(end.code or 0)
        finally:
            sys.stdin, sys.stdout, sys.stderr = kept[:3]
            os.chdir(kept[3])
        for stream in streams[1:]:
            stream.flush()
        self.told = streams[2].buffer.getvalue().decode()
        return status, streams[1].buffer.getvalue().decode()

    def findings(self, *words: str, given: str | bytes = b"") -> list[dict]:
        return json.loads(self.tekhvumo("--format", "json", *words, given=given)[1])

    def write(self, name: str, text: str | bytes) -> Path:
        path = self.room / name
        path.parent.mkdir(parents=True, exist_ok=True)
        path.write_bytes(text.encode() if isinstance(text, str) else text)
        return path

    def git(self, *words: str) -> subprocess.CompletedProcess[bytes]:
        return self.run_command("git", *words)
