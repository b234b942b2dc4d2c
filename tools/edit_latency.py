#!/usr/bin/env python3
"""Measures how soon an edit is answered by `serve` through two pipes that stay open.

    tools/edit_latency.py PROGRAM [--lines N ..] [--edits N] [--json]

For each number of lines a sound program is opened, 20 needles wide, and blocks of 64 lines are put over and over: a third with a remark
more, a third with a line that breaks a rule, and a third that mends it. Told are, in microseconds, from the first byte written to the last
byte read: the median, the ninety-ninth of a hundred and the greatest; the program's processor time for an edit, and beside it that of the
same edits in a script of `live`; the system's reads and writes for an edit; how many bytes stay in memory for an edit, beside the text; and
what `blocks` and `since` take.
"""
from __future__ import annotations

import argparse
import os
import random
import statistics
import subprocess
import time
from dataclasses import dataclass

BLOCK = 64
WIDTH = 20
ASKED = 100


class Served:
    """A conversation. Each request hands out the reply, up to its end."""

    def __init__(self, program: str, as_json: bool) -> None:
        words = [program, "serve", *(["--json"] if as_json else [])]
        self.child = subprocess.Popen(words, stdin=subprocess.PIPE, stdout=subprocess.PIPE, bufsize=0)
        assert self.child.stdin and self.child.stdout
        self.input, self.output = self.child.stdin, self.child.stdout
        self.stop = b"\n" if as_json else b"\n\n"

    def ask(self, given: bytes) -> bytes:
        left = memoryview(given)
        while left:
            left = left[os.write(self.input.fileno(), left) :]
        reply = b""
        while not reply.endswith(self.stop):
            piece = os.read(self.output.fileno(), 1 << 16)
            if not piece:
                raise SystemExit(f"the conversation has ended: {reply!r}")
            reply += piece
        return reply

    def end(self) -> None:
        self.input.close()
        self.output.read()
        self.child.wait()


@dataclass
class State:
    """What the program has used so far: processor seconds, reads and writes of the system, and bytes that lie in memory."""

    processor: float
    calls: int
    resident: int


def state_of(process: int) -> State:
    with open(f"/proc/{process}/schedstat") as file:
        processor = int(file.read().split()[0]) / 1e9
    with open(f"/proc/{process}/io") as file:
        counts = dict(line.split(": ") for line in file)
    with open(f"/proc/{process}/statm") as file:
        resident = int(file.read().split()[1]) * os.sysconf("SC_PAGE_SIZE")
    return State(processor, int(counts["syscr"]) + int(counts["syscw"]), resident)


def made(lines: int) -> list[bytes]:
    """A sound program of about so many lines."""
    text = [b";!knitout-2", b";;Carriers: 1 2", b"in 1", *[b"tuck - f%d 1" % needle for needle in range(WIDTH, 0, -1)]]
    row = 0
    while len(text) < lines:
        direction, needles = (b"+", range(1, WIDTH + 1)) if row % 2 == 0 else (b"-", range(WIDTH, 0, -1))
        text += [b"knit %s f%d 1" % (direction, needle) for needle in needles]
        row += 1
    return text


def barred(lines: list[bytes]) -> bytes:
    return b"".join(b"|" + line + b"\n" for line in lines)


def edits_of(text: list[bytes], count: int) -> list[tuple[int, list[bytes]]]:
    """So many puts, each a block and its lines."""
    choice = random.Random(1)
    body = text[2:]
    blocks = (len(body) + BLOCK - 1) // BLOCK
    edits = []
    block = 0
    for number in range(count):
        if number % 3 != 2:
            block = choice.randrange(blocks)
        lines = body[block * BLOCK : (block + 1) * BLOCK]
        at = choice.randrange(len(lines))
        if number % 3 == 0:
            lines = [*lines[:at], b"; a remark %d" % number, *lines[at:]]
        elif number % 3 == 1:
            lines = [*lines[:at], b"knit + f400 2", *lines[at + 1 :]]
        edits.append((block, lines))
    return edits


def processor_of_script(program: str, text: list[bytes], edits: list[tuple[int, list[bytes]]]) -> float:
    """Processor seconds of a script of `live`."""
    puts = b"".join(b"put %d\n" % block + barred(lines) for block, lines in edits)
    child = subprocess.Popen([program, "live"], stdin=subprocess.PIPE, stdout=subprocess.DEVNULL)
    assert child.stdin
    child.stdin.write(b"live 1\n" + barred(text) + b"session\n" + puts)
    child.stdin.close()
    _, status, usage = os.wait4(child.pid, 0)
    child.returncode = os.waitstatus_to_exitcode(status)
    if child.returncode:
        raise SystemExit(f"`live` ended with {child.returncode}: a script has 16,777,216 bytes at most")
    return usage.ru_utime + usage.ru_stime


def seconds_of(served: Served, given: bytes) -> float:
    began = time.perf_counter()
    served.ask(given)
    return time.perf_counter() - began


def measure(program: str, lines: int, count: int, as_json: bool) -> None:
    text = made(lines)
    edits = edits_of(text, count)
    given = [b"put %d lines %d\n" % (block, len(new)) + barred(new) for block, new in edits]
    served = Served(program, as_json)
    opened = seconds_of(served, b"serve 1 lines %d\n" % len(text) + barred(text))
    before = state_of(served.child.pid)
    spent = sorted(seconds_of(served, put) for put in given)
    after = state_of(served.child.pid)
    blocks = statistics.median(seconds_of(served, b"blocks\n") for _ in range(ASKED))
    since = statistics.median(seconds_of(served, b"since %d\n" % max(0, count - 5)) for _ in range(ASKED))
    served.end()
    live = processor_of_script(program, text, edits) - processor_of_script(program, text, [])
    kept = sum(len(line) for _, new in edits for line in new) / count
    print(f"{len(text)} lines{', as JSON' if as_json else ''}, opened in {opened * 1e3:.0f} ms, {count} edits:")
    print(f"  an edit: median {spent[count // 2] * 1e6:.0f}, 99 % {spent[count * 99 // 100] * 1e6:.0f}, greatest {spent[-1] * 1e6:.0f} us")
    print(f"  processor time: {(after.processor - before.processor) / count * 1e6:.1f} us, in `live` {live / count * 1e6:.1f} us")
    print(f"  reads and writes: {(after.calls - before.calls) / count:.2f}")
    print(f"  memory beside its text of {kept:.0f} bytes: {(after.resident - before.resident) / count - kept:.0f} bytes")
    print(f"  blocks: {blocks * 1e6:.0f} us, since: {since * 1e6:.0f} us")


def main() -> None:
    parser = argparse.ArgumentParser(description=__doc__, formatter_class=argparse.RawDescriptionHelpFormatter)
    parser.add_argument("program", metavar="PROGRAM")
    parser.add_argument("--lines", type=int, nargs="+", default=[1_000, 20_000, 180_000])
    parser.add_argument("--edits", type=int, default=3_000)
    parser.add_argument("--json", action="store_true")
    options = parser.parse_args()
    for lines in options.lines:
        measure(options.program, lines, options.edits, options.json)


if __name__ == "__main__":
    main()
