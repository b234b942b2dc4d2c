"""Files: which are meant, how they are read, and many of them at a time."""
from __future__ import annotations

import os
import sys
from typing import Callable, Iterable, Iterator, Sequence

from .findings import Report, fault
from .lines import MOST_BYTES, Source
from .program import Status

SUFFIXES = (".k", ".knitout")
# A terminal is told how far the work is from so many files on.
MANY_FILES = 50
# Processes are begun for so many files, or for so many bytes.
WORTH_FILES, WORTH_BYTES = 40, 400_000


def read_file(path: str, name: str) -> Source:
    """The bytes of a file or of standard input, as many as tell whether check_main takes them; or OSError."""
    if path == "-":
        return Source(name, sys.stdin.buffer.read(MOST_BYTES + 1))
    with open(path, "rb") as file:
        return Source(name, file.read(MOST_BYTES + 1))


def unreadable_file(path: str, trouble: OSError) -> Report:
    """The report of a file that can't be read."""
    return Report([fault(path, "ReadFault", trouble.strerror or str(trouble))], Status.READ_FAULT)


def expanded(paths: Iterable[str]) -> list[str]:
    """The paths with each folder's knitout files in its place; a folder without any stays."""
    found: list[str] = []
    for path in paths:
        inside = knitout_files(path) if path != "-" and os.path.isdir(path) else []
        found += inside or [path]
    return found


def knitout_files(folder: str) -> list[str]:
    """The knitout files in a folder and those below it, but for hidden folders."""
    found = []
    for place, folders, names in os.walk(folder):
        folders[:] = sorted(name for name in folders if not name.startswith("."))
        found += [os.path.join(place, name) for name in sorted(names) if name.endswith(SUFFIXES)]
    return found


def is_worth_processes(paths: Sequence[str]) -> bool:
    """Whether the work is so much that processes save time."""
    if len(paths) < 2:
        return False
    sizes = (os.stat(path).st_size for path in paths if os.path.isfile(path))
    return len(paths) >= WORTH_FILES or sum(sizes) >= WORTH_BYTES


class Safely:
    """Work on a file, whose faults of reading are a report; an object, so that other processes can have it."""

    def __init__(self, work: Callable[[str], Report]) -> None:
        self.work = work

    def __call__(self, path: str) -> Report:
        try:
            if path != "-" and os.path.isdir(path):
                words = f"no file {' or '.join(f'*{suffix}' for suffix in SUFFIXES)} is in this folder"
                return Report([fault(path, "ReadFault", words)], Status.READ_FAULT)
            return self.work(path)
        except OSError as trouble:
            return unreadable_file(path, trouble)


def each_file(paths: Sequence[str], jobs: int, work: Callable[[str], Report]) -> Iterator[Report]:
    """The reports of files in their order, `jobs` of them worked on at a time; a terminal is told how many are done."""
    progress = sys.stderr.isatty() and len(paths) > MANY_FILES
    for count, report in enumerate(reports(paths, jobs, Safely(work)), 1):
        if progress:
            end = "" if count < len(paths) else "\r\x1b[K"
            print(f"\r{count}/{len(paths)} files", end=end, file=sys.stderr, flush=True)
        yield report


def reports(paths: Sequence[str], jobs: int, work: Safely) -> Iterator[Report]:
    """The reports of files in their order."""
    if jobs == 1 or not is_worth_processes(paths):
        yield from map(work, paths)
        return
    # (read only where it is needed: it takes as long as a small file's whole check)
    from concurrent.futures import ProcessPoolExecutor

    share = max(1, min(16, len(paths) // (4 * jobs)))
    with ProcessPoolExecutor(min(jobs, len(paths))) as pool:
        yield from pool.map(work, paths, chunksize=share)
