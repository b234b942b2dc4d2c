#!/usr/bin/env python3
"""What an edit costs that several editors share: the time until it is answered, and until another editor shows it.

    python3 tools/shared_edits.py [LINES..]       (1000 20000 180000)

For each size, of edits at random times: the median and the 99th percentile, in milliseconds, of a bridge `tekhvumo share` with
two editors; then how long it takes to start, and for an editor to connect. An edit is answered, and told, once the journal is
on the disk.
"""
from __future__ import annotations

import os
import random
import subprocess
import sys
import tempfile
import time
from pathlib import Path

from keystrokes import INTEGRATIONS, made, shown, spent

from tekhvumo.program import find_program  # noqa: E402
from tekhvumo.share import Shared  # noqa: E402

EDITS, PAUSE = 150, 0.1


def edits(one: Shared, other: Shared, given: random.Random) -> tuple[list[float], list[float]]:
    """The times until edits of one editor are answered, and until another has taken them in."""
    answered, taken = [], []

    def hear() -> None:
        while other.version < one.version:
            other.wait(1.0)

    for count in range(EDITS):
        time.sleep(given.random() * PAUSE)
        at = given.randrange(30, len(one.lines))
        one.edit(at, at, [f"; {count}"])
        answered.append(spent(one.sync))
        taken.append(answered[-1] + spent(hear))
    return answered, taken


def measure(lines: int, path: Path) -> None:
    """Measures with a program of about so many lines."""
    path.write_text("".join(f"{line}\n" for line in made(lines)))
    command = [sys.executable, str(INTEGRATIONS / "tekhvumo.py"), "share", str(path)]
    environment = {**os.environ, "TEKHVUMO_PROGRAM": find_program(None)}
    begin = time.perf_counter()
    with subprocess.Popen(command, stdout=subprocess.PIPE, env=environment) as bridge:
        assert bridge.stdout
        bridge.stdout.readline()
        started = time.perf_counter()
        one, other = (Shared.connect(f"{path}.socket") for _ in range(2))
        connected = time.perf_counter()
        answered, taken = edits(one, other, random.Random(lines))
        assert one.text == other.text
        bridge.terminate()
    rest = f"started in {1e3 * (started - begin):.0f}, connected in {500 * (connected - started):.0f}"
    print(f"{lines} lines: answered {shown(answered)}, shown {shown(taken)}; {rest}")


def main() -> None:
    for lines in map(int, sys.argv[1:] or ("1000", "20000", "180000")):
        with tempfile.TemporaryDirectory() as folder:
            measure(lines, Path(folder) / "made.k")


if __name__ == "__main__":
    main()
