#!/usr/bin/env python3
"""What a key costs in an editor: the language server's time until the verdict is told, over made programs.

    python3 tools/keystrokes.py [LINES..]       (1000 20000 180000)

For each size, sound and broken: the median and the 99th percentile of the time from a change of one line to its diagnostics,
and of what else is asked. The verdict comes first; "cures" is the time from a key to all mistakes with their cures, and
"warnings" that to the warnings, in both the server's waiting for another key included.
"""
from __future__ import annotations

import os
import random
import sys
import tempfile
import time
from pathlib import Path
from statistics import median
from typing import Any, Callable

INTEGRATIONS = Path(__file__).resolve().parent.parent / "integrations"
sys.path.insert(0, str(INTEGRATIONS))

from tekhvumo.program import find_program  # noqa: E402
from tekhvumo_tests.editor import Editor  # noqa: E402

KEYS, PAUSES, ASKED = 200, 10, 20
URI = "untitled:keystrokes.k"
WIDTH = 20


def made(lines: int) -> list[str]:
    """A sound program of about so many lines, 20 needles wide."""
    found = [";!knitout-2", ";;Carriers: 1 2", "in 1", *(f"tuck - f{needle} 1" for needle in range(WIDTH, 0, -1))]
    row = 0
    while len(found) < lines:
        needles = range(1, WIDTH + 1) if row % 2 == 0 else range(WIDTH, 0, -1)
        found += [f"knit {'-+'[row % 2 == 0]} f{needle} 1" for needle in needles]
        row += 1
    return found


def spent(work: Callable[[], Any]) -> float:
    """How long a piece of work takes, in milliseconds."""
    begin = time.perf_counter()
    work()
    return (time.perf_counter() - begin) * 1e3


def shown(times: list[float]) -> str:
    """The median and the 99th percentile."""
    return f"{median(times):.1f} ({sorted(times)[len(times) * 99 // 100]:.1f})"


def keys(editor: Typist, lines: int, given: random.Random) -> list[float]:
    """The times of keys that are typed at the ends of lines, and taken back."""
    times = []
    for key in range(KEYS):
        if key % 2 == 0:
            line = given.randrange(lines // 10, lines - 1)
            end = (line, len(editor.lines[line]))
            change = end, end, " ;"
        else:
            change = end, (line, end[1] + 2), ""

        def typed() -> None:
            version = editor.tell_change(URI, *change)
            editor.diagnostics(URI, version)

        times.append(spent(typed))
        editor.told.clear()
    return times


def pauses(editor: Typist, given: random.Random) -> tuple[list[float], list[float]]:
    """The times from a key, behind which nobody types, to the cures, and to the warnings."""
    cures, warnings = [], []
    for _ in range(PAUSES):
        line = given.randrange(len(editor.lines) // 10, len(editor.lines) - 1)
        begin = time.perf_counter()
        version = editor.tell_change(URI, (line, 0), (line, 0), " ")
        editor.diagnostics(URI, version, 2)
        cures.append((time.perf_counter() - begin) * 1e3)
        editor.diagnostics(URI, version, 3)
        warnings.append((time.perf_counter() - begin) * 1e3)
        editor.told.clear()
    return cures, warnings


class Typist(Editor):
    """An editor that keeps no text."""

    lines: list[str] = []

    def tell_change(self, uri: str, begin: tuple[int, int], end: tuple[int, int], text: str) -> int:
        """Tells the server of a change; the version."""
        ends = {"start": {"line": begin[0], "character": begin[1]}, "end": {"line": end[0], "character": end[1]}}
        self.versions[uri] += 1
        version = self.versions[uri]
        told = [{"range": ends, "text": text}]
        self.notify("textDocument/didChange", textDocument={"uri": uri, "version": version}, contentChanges=told)
        return version


def measure(lines: list[str], what: str) -> None:
    """Tells the times over a program."""
    editor = Typist({**os.environ, "TEKHVUMO_PROGRAM": os.path.abspath(find_program())}, tempfile.gettempdir())
    editor.start()
    editor.lines = lines
    given = random.Random(len(lines))
    opened = spent(lambda: (editor.open(URI, "\n".join([*lines, ""])), editor.diagnostics(URI, 1)))
    editor.diagnostics(URI, 1, 3)
    times = keys(editor, len(lines), given)
    cures, warnings = pauses(editor, given)
    document = {"textDocument": {"uri": URI}}

    def at_some_line(method: str) -> list[float]:
        numbers = [given.randrange(30, len(lines)) for _ in range(ASKED)]
        places = [{"line": number, "character": 2} for number in numbers]
        return [spent(lambda: editor.result(method, **document, position=place)) for place in places]

    hover, definition = (at_some_line(f"textDocument/{name}") for name in ("hover", "definition"))
    symbols, again = (spent(lambda: editor.result("textDocument/documentSymbol", **document)) for _ in range(2))
    canonical = spent(lambda: editor.result("textDocument/formatting", **document, options={}))
    editor.stop()
    print(
        f"{len(lines)} lines, {what}: opened {opened:.0f} ms; a key {shown(times)}; cures {shown(cures)}; warnings {shown(warnings)};"
        f" hover {shown(hover)}; definition {shown(definition)}; courses {symbols:.0f}, again {again:.1f}; format {canonical:.0f}",
        flush=True,
    )


def main() -> None:
    for size in [int(word) for word in sys.argv[1:]] or [1_000, 20_000, 180_000]:
        lines = made(size)
        measure(lines, "sound")
        broken = list(lines)
        broken[size // 2] = "knit + f400 2"
        measure(broken, "broken")


if __name__ == "__main__":
    main()
