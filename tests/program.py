"""The program check_main, which the tests of this folder run: the one that TEKHVUMO_PROGRAM names, or that is on the PATH, or that the
gate built."""
from __future__ import annotations

import os
import shutil
import subprocess
from enum import IntEnum
from pathlib import Path
from typing import NamedTuple

TOP = Path(__file__).resolve().parent.parent
EXAMPLES = TOP / "examples"
BUILT = TOP / "crates" / "check_main" / "out" / "check_main"


class Status(IntEnum):
    """How the program ends."""

    DONE = 0
    BROKEN = 1
    USAGE = 2
    BAD_INPUT = 3
    READ_FAULT = 4
    WRITE_FAULT = 5
    NO_MEMORY = 6
    TOO_LARGE = 7


class Answer(NamedTuple):
    """How the program ended, and what it wrote."""

    status: int
    report: bytes


def find_program() -> str:
    """Where the program is."""
    found = os.environ.get("TEKHVUMO_PROGRAM") or shutil.which("check_main") or (str(BUILT) if BUILT.is_file() else None)
    if found is None:
        raise FileNotFoundError("no check_main: name it by TEKHVUMO_PROGRAM")
    return found


def answer_of(*words: str, given: bytes = b"", within: float | None = None) -> Answer:
    """What the program answers to these words and this input, within so many seconds where these are told."""
    ran = subprocess.run([find_program(), *words], input=given, capture_output=True, check=False, timeout=within)
    return Answer(ran.returncode, ran.stdout)
