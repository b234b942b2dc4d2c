#!/usr/bin/env python3
"""Measures two programs in turns, on a machine whose speed changes.

    tools/in_turns.py OURS OTHER --input FILE [--less FILE --by N] [--runs N] [--processors one|two|all] --words WORD..

Each round runs both programs on the input, the one or the other first. A loop of fixed length is timed on the same processors before and after each
run, and "in loops" is the run's processor time in units of that loop's, which a machine with two speeds changes less. With `--less` each run is followed or led
by one on that smaller input, and what is told is the difference for each of N items between them, in microseconds. Which processors are used changes
from round to round. Told are the median, the lower quartile, the least and the mean of each program, and the first program's over the second's.
"""
from __future__ import annotations

import argparse
import itertools
import os
import statistics
import subprocess
import time
from dataclasses import dataclass

LOOP = 40_000


@dataclass
class Run:
    """Milliseconds, and how long the loop took beside it."""

    processor: float
    wall: float
    loop: float


def loop_on(processors: list[int]) -> float:
    """How long the loop takes, in milliseconds, the mean over these processors."""
    before = os.sched_getaffinity(0)
    spent = []
    for processor in processors:
        os.sched_setaffinity(0, [processor])
        began = time.perf_counter()
        sum(range(LOOP))
        spent.append((time.perf_counter() - began) * 1e3)
    os.sched_setaffinity(0, before)
    return statistics.mean(spent)


def run_once(command: str, words: list[str], path: str, processors: list[int]) -> Run:
    """One run of the program on the file, on these processors alone."""
    loop = loop_on(processors)
    with open(path, "rb") as file:
        began = time.perf_counter()
        process = subprocess.Popen(
            [command, *words], stdin=file, stdout=subprocess.DEVNULL, preexec_fn=lambda: os.sched_setaffinity(0, processors)
        )
        _, _, usage = os.wait4(process.pid, 0)
        wall = time.perf_counter() - began
    loop = (loop + loop_on(processors)) / 2
    return Run((usage.ru_utime + usage.ru_stime) * 1e3, wall * 1e3, loop)


def processor_sets(which: str) -> list[list[int]]:
    """The sets of processors that rounds use one after the other."""
    everything = sorted(os.sched_getaffinity(0))
    size = {"one": 1, "two": min(2, len(everything)), "all": len(everything)}[which]
    return [list(chosen) for chosen in itertools.combinations(everything, size)]


def measure(options: argparse.Namespace, command: str, processors: list[int], round_number: int) -> dict[str, float]:
    """What one round tells of one program."""
    paths = [options.input] if options.less is None else [options.input, options.less]
    order = paths if round_number % 4 < 2 else paths[::-1]
    runs = {path: run_once(command, options.words, path, processors) for path in order}
    whole = runs[options.input]
    if options.less is None:
        return {"processor time, ms": whole.processor, "wall time, ms": whole.wall, "in loops": whole.processor / whole.loop}
    less = runs[options.less]
    scale = 1e3 / options.by
    return {
        "processor time, us": (whole.processor - less.processor) * scale,
        "in loops": (whole.processor / whole.loop - less.processor / less.loop) * scale,
    }


def summary(values: list[float]) -> dict[str, float]:
    """What is told of a program's rounds."""
    ordered = sorted(values)
    return {
        "median": statistics.median(ordered),
        "lower quartile": ordered[len(ordered) // 4],
        "least": ordered[0],
        "mean": statistics.mean(ordered),
    }


def main() -> None:
    parser = argparse.ArgumentParser(description=__doc__, formatter_class=argparse.RawDescriptionHelpFormatter)
    parser.add_argument("programs", nargs=2, metavar="PROGRAM")
    parser.add_argument("--input", required=True)
    parser.add_argument("--less")
    parser.add_argument("--by", type=int, default=1)
    parser.add_argument("--runs", type=int, default=40)
    parser.add_argument("--processors", choices=["one", "two", "all"], default="one")
    parser.add_argument("--words", nargs=argparse.REMAINDER, default=[], help="the programs' words; the last option")
    options = parser.parse_args()
    sets = processor_sets(options.processors)
    told: list[list[dict[str, float]]] = [[], []]
    for number in range(options.runs):
        for which in (0, 1) if number % 2 == 0 else (1, 0):
            told[which].append(measure(options, options.programs[which], sets[number % len(sets)], number))
    for what in told[0][0]:
        ours, other = (summary([round_of[what] for round_of in rounds]) for rounds in told)
        print(what)
        for name in ours:
            print(f"  {name:15} {ours[name]:10.2f} {other[name]:10.2f}   {ours[name] / other[name]:.2f}")


if __name__ == "__main__":
    main()
