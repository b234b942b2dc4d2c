"""What is worked out of a whole text, as the protocol answers it: its courses as symbols, and the edit that formats it."""
from __future__ import annotations

from bisect import bisect_right
from typing import Any, Iterable, Sequence

from ..lines import Source, listed
from ..program import Loop
from .text import range_in

ARRAY = 18


def courses_of_loops(source: Source, loops: Sequence[Loop]) -> list[list[Loop]]:
    """Loops by courses: those that are made one after another in one direction with the same yarns."""
    from ..pictures.courses import courses_of
    from ..pictures.story import KNIT, Stitch

    racks = source.lines_of(["rack"]) if loops else []
    values = [0.0, *(float(source.tokens(number)[1].text) for number in racks if number < loops[-1].line)]

    def place(loop: Loop) -> float:
        rack = 0.0 if loop.needle.is_front else values[bisect_right(racks, loop.line, hi=len(values) - 1)]
        return loop.needle.number + rack

    found = courses_of(Stitch(loop, place(loop), (), KNIT) for loop in loops)
    return [[stitch.loop for stitch in course.stitches] for course in found]


def symbols(lines: Sequence[str], courses: Iterable[Sequence[Loop]]) -> list[dict[str, Any]]:
    """The courses as symbols; lines come without what ends them."""
    found: list[dict[str, Any]] = []
    for number, course in enumerate(courses, 1):
        first, last = course[0], course[-1]
        head, tail = (range_in(lines[it.line - 1], it.line - 1, 0, len(lines[it.line - 1])) for it in (first, last))
        loops = f"{len(course)} loop{'s' if len(course) > 1 else ''}"
        found.append(
            {
                "name": f"course {number} {first.direction} with {listed(first.yarns)}",
                "detail": f"{first.needle} to {last.needle}, {loops}",
                "kind": ARRAY,
                "range": {"start": head["start"], "end": tail["end"]},
                "selectionRange": head,
            }
        )
    return found


def formatting(old: Sequence[str], new: Sequence[str], feed: str) -> list[dict[str, Any]]:
    """The edit that makes other lines of some: of those from the first to the last that differ.

    Lines are what stands between line feeds, so that the last one of a text that ends with one is empty; they come without
    carriage returns that end them. Lines end as they do in the editor, with `feed`.
    """
    if old == new:
        return []
    most = min(len(old), len(new)) - 1
    begin = next((at for at in range(most) if old[at] != new[at]), most)
    behind = next((at for at in range(most - begin) if old[-1 - at] != new[-1 - at]), most - begin)
    last = len(old) - 1 - behind
    end = range_in(old[last], last, 0, len(old[last]))["end"]
    text = feed.join(new[begin : len(new) - behind])
    return [{"range": {"start": {"line": begin, "character": 0}, "end": end}, "newText": text}]
