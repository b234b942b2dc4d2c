"""What is asked of a document and can be answered at once, as the protocol answers it."""
from __future__ import annotations

from typing import Any, Sequence

from ..instructions import needles_of
from ..lines import listed, runs
from ..program import Loop, State, Status
from .document import Document
from .text import range_in
from .verdicts import Refusal


# ---------------------------------------------------------------- hover


def hover(document: Document, line: int) -> dict[str, Any] | None:
    """What holds above a line, which counts from 1, and the loop that it makes; None in the head and behind the end."""
    if not len(document.verdicts.head) < line <= len(document.text.lines):
        return None
    key = "hover", line
    if key not in document.kept:
        document.kept[key] = "\n".join(hover_lines(document, line))
    text = document.line(line)
    value = document.kept[key]
    return {"contents": {"kind": "plaintext", "value": value}, "range": range_in(text, line - 1, 0, len(text))}


def hover_lines(document: Document, line: int) -> list[str]:
    """What a hover says."""
    told = document.told
    if isinstance(told, Refusal):
        return ["the file is refused, so nothing is known of its lines"]
    if told and told.line < line:
        return [f"line {told.line} breaks {told.rule}, so nothing is known of the lines below it"]
    answer = document.verdicts.program.check(document.source().above(line))
    if answer.status != Status.SOUND:
        return ["nothing is known of this line"]
    state = State.of(answer.verdict)
    said = [f"rack {state.spelled_rack}; in: {names(state.carriers)}; hook: {names(state.hook)}"]
    tokens = runs(document.line(line).partition(";")[0])
    for needle in dict.fromkeys(needles_of(tokens) if tokens else []):
        held = state.on(needle)
        faced = state.facing(needle)
        what = f"holds the loop of line {held[0]}" if len(held) == 1 else f"holds the loops of lines {numbers(held)}"
        faces = f"; faces {faced}" if faced else ""
        said.append(f"{needle} {what if held else 'holds nothing'}{faces}")
    loop = loop_of(document, line)
    return [*said, loop_line(loop)] if loop else said


def names(carriers: Sequence[str]) -> str:
    """Names of carriers, or that there are none."""
    return listed(carriers) or "none"


def numbers(lines: Sequence[int]) -> str:
    """Numbers of lines."""
    return " ".join(map(str, lines))


def loop_line(loop: Loop) -> str:
    """A loop as a hover tells it."""
    made = f"makes a loop on {loop.needle} {loop.direction} with {listed(loop.yarns)}"
    if not loop.through:
        return f"{made}, through none"
    return f"{made}, through the loop{'s' if len(loop.through) > 1 else ''} of line {numbers(loop.through)}"


# ---------------------------------------------------------------- loops


def loop_of(document: Document, line: int) -> Loop | None:
    """The loop that a line makes, if it runs and makes one."""
    if isinstance(document.told, Refusal) or (document.told and document.told.line <= line):
        return None
    if document.verdicts.served:
        return document.verdicts.loop(line)
    made = document.verdicts.program.check(document.source().above(line + 1), loops=True).verdict.get("made_loops")
    return Loop.of(made[-1]) if made and made[-1]["line"] == line else None


def definition(document: Document, line: int) -> list[dict[str, Any]]:
    """The lines of the loops that a line's loop is pulled through."""
    loop = loop_of(document, line)
    places = []
    for number in loop.through if loop else ():
        text = document.line(number)
        places.append({"uri": document.uri, "range": range_in(text, number - 1, 0, len(text))})
    return places


# ---------------------------------------------------------------- cures


def code_actions(document: Document, params: dict[str, Any]) -> list[dict[str, Any]]:
    """The cures of the findings that are asked about: of those that touch the range, by lines."""
    wanted = params.get("context", {}).get("only")
    if wanted and not any(it == "" or "quickfix".startswith(it) for it in wanted):
        return []
    first, last = (params["range"][end]["line"] + 1 for end in ("start", "end"))
    found: list[dict[str, Any]] = []
    for finding in document.findings:
        if not first <= finding.line <= last:
            continue
        for place, cure in enumerate(finding.cures):
            action: dict[str, Any] = {
                "title": cure.title,
                "kind": "quickfix",
                "diagnostics": [document.diagnostic(finding)],
                "edit": {"changes": {document.uri: [document.edit(cure)]}},
            }
            found.append({**action, "isPreferred": True} if place == 0 else action)
    return found
