"""The object that a reply is with `--json`, made of the reply as text."""
from __future__ import annotations

import json
import re
from typing import Any

Object = dict[str, Any]


def number_or_name(word: str) -> int | str:
    return int(word) if word.isdigit() else word


def pairs_in(words: list[str]) -> Object:
    """Words that stand in pairs, a key and a number or a name."""
    return {key: number_or_name(value) for key, value in zip(words[::2], words[1::2], strict=True)}


def brief_of(words: list[str]) -> Object:
    """A verdict in short."""
    if words[0] == "broken":
        return {"verdict": "broken", "line": int(words[2]), "rule": words[4], "at": int(words[6])}
    found = pairs_in(words[1:])
    return {"verdict": "sound", **found, "rack": str(found["rack"])}


def verdict_of(lines: list[str]) -> Object:
    """A verdict as text, without the line that tells the broken one's place."""
    brief = brief_of(lines[0].split())
    if brief["verdict"] == "broken":
        return {**brief, "text": lines[1][2:]}
    needles = [line.split(":") for line in lines[3:]]
    held = [{"needle": needle, "loops": [int(loop) for loop in loops.split()]} for needle, loops in needles]
    return {**brief, "in": lines[1].split()[1:], "hook": lines[2].split()[1:], "needles": held}


def entry_of(line: str) -> Object:
    number, _, session, edit, *rest = line.split(" ")
    entry: Object = {"number": int(number), "session": int(session), "edit": edit}
    if edit == "add":
        return {**entry, "anchor": None if rest[0] == "start" else int(rest[0]), **pairs_in(rest[1:])}
    if "carriers" in rest:
        at = rest.index("carriers")
        return {**entry, "edit": "head", **pairs_in(rest[1:at]), "names": rest[at + 1 :]}
    return {**entry, "block": int(rest[0]), **pairs_in(rest[1:])}


def loop_of(words: list[str]) -> Object | None:
    if words == ["none"]:
        return None
    _, line, _, needle, direction, _, *rest = words
    at = rest.index("through")
    return {"line": int(line), "needle": needle, "dir": direction, "yarns": rest[:at], "through": [int(loop) for loop in rest[at + 1 :]]}


def tally_of(words: list[str], behind: list[str]) -> Object:
    start, end = words[0].split("-")
    used = [re.fullmatch("with (.*): ([0-9]+)", line) for line in behind[:-1]]
    with_each = [{"carrier": found[1], "lines": int(found[2])} for found in used if found]
    return {"from": int(start), "to": int(end), **pairs_in(words[1:]), "with": with_each, "needles": behind[-1].split(" ")[1:]}


def told_of(words: list[str], behind: list[str]) -> Object:
    """What is said behind a frame: its words, and the lines behind them."""
    word, rest = words[0], words[1:]
    texts = [line[1:] for line in behind]
    match word:
        case "accepted" | "opened" | "group":
            return {**pairs_in(rest[:4]), "brief": brief_of(rest[4:])}
        case "verdict" | "final":
            return {**pairs_in(rest), "verdict": verdict_of(behind)}
        case "shown" | "text":
            return {**pairs_in(rest), "lines": texts}
        case "saved":
            return {"version": int(rest[1]), "lines": behind}
        case "loop":
            return {"version": int(rest[1]), "loop": loop_of(rest[2:])}
        case "unseen":
            return {"name": rest[0]}
        case "full":
            return {"version": int(rest[1]), "which": rest[2], "limit": int(rest[4])}
        case "refused":
            return {**pairs_in(rest[:4]), "told": {"reply": rest[4], **told_of(rest[4:], behind)}}
        case "blocks":
            return {"version": int(rest[1]), "blocks": [pairs_in(line.split()) for line in behind]}
        case "since":
            return {"version": int(rest[1]), "from": int(rest[3]), "entries": [entry_of(line) for line in behind]}
        case "tally":
            return tally_of(rest, behind)
        case "badinput":
            return {"line": int(rest[1]), "cause": rest[2]}
    return pairs_in(rest)


def object_of(reply: str) -> Object:
    """The object of a reply, which has no empty line behind it."""
    first, *behind = reply.removesuffix("\n").split("\n")
    words = first.split(" ")
    frame: Object = {}
    if words[0] == "session":
        frame = {"session": int(words[1]), "number": int(words[2])}
        words = words[3:]
    if behind and (found := re.fullmatch("broken block ([0-9]+) line ([0-9]+)", behind[-1])):
        frame["broken"] = {"block": int(found[1]), "line": int(found[2])}
        behind = behind[:-1]
    return {**frame, "reply": words[0], **told_of(words, behind)}


def json_line(told: Object) -> str:
    """An object on its line, with the keys in the order of their bytes."""
    return json.dumps(told, sort_keys=True, separators=(",", ":"), ensure_ascii=False) + "\n"
