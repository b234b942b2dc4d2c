"""What lines come to, counted by a program of our own: each line is read by its words alone, in the forms that the tests make."""
from __future__ import annotations

import re
from collections import Counter

BEDS = {"f": (0, True, False), "fs": (1, True, True), "b": (2, False, False), "bs": (3, False, True)}
NEEDLE = re.compile(r"(fs|f|bs|b)(-?\d+)")
LOW, HIGH = -1024, 1023

# A needle as it is sorted: the place of its bed, and its number.
Needle = tuple[int, int]


def needle_of(word: str) -> Needle | None:
    """A needle that lies on its bed."""
    found = NEEDLE.fullmatch(word)
    if not found or not LOW <= int(found[2]) <= HIGH:
        return None
    return BEDS[found[1]][0], int(found[2])


def is_front(needle: Needle) -> bool:
    return needle[0] < 2


def is_slider(needle: Needle) -> bool:
    return needle[0] % 2 == 1


def spelt(needle: Needle) -> str:
    return ["f", "fs", "b", "bs"][needle[0]] + str(needle[1])


def are_opposite(first: Needle, second: Needle) -> bool:
    """Loops go over to the other side, and not from a slider to a slider."""
    return is_front(first) != is_front(second) and not (is_slider(first) and is_slider(second))


def operation_of(line: bytes, names: list[str]) -> tuple[str, list[Needle], list[str]] | None:
    """The class of the line's operation, its needles and the carriers of its loops; `None` of any other line, a broken one too."""
    words = line.decode().split(";", 1)[0].split()
    if not words or words[0] not in {"knit", "tuck", "miss", "split", "xfer", "drop", "amiss"}:
        return None
    count = {"split": 2, "xfer": 2}.get(words[0], 1)
    front = 1 + (words[0] in {"knit", "tuck", "miss", "split"})
    if front == 2 and (len(words) < 2 or words[1] not in {"+", "-"}):
        return None
    needles = [needle_of(word) for word in words[front : front + count]]
    carriers = words[front + count :]
    if len(needles) < count or None in needles or len(set(carriers)) < len(carriers) or not set(carriers) <= set(names):
        return None
    return classed(words[0], [needle for needle in needles if needle], carriers)


def classed(word: str, needles: list[Needle], carriers: list[str]) -> tuple[str, list[Needle], list[str]] | None:
    if word in {"drop", "amiss"}:
        return None if carriers else ("drop", needles, [])
    if word == "xfer":
        return None if carriers or not are_opposite(*needles) else ("move", needles, [])
    if word == "miss":
        return ("form", needles, []) if carriers else None
    if carriers and is_slider(needles[0]):
        return None
    if word == "split":
        return None if not are_opposite(*needles) else ("split" if carriers else "move", needles, carriers)
    return "form" if carriers else "drop", needles, carriers


def tally_of(lines: list[bytes], names: list[str]) -> str:
    """The report of a tally of these lines, behind its places."""
    classes: Counter[str] = Counter()
    formed: Counter[str] = Counter()
    needles: set[Needle] = set()
    for line in lines:
        if operation := operation_of(line, names):
            name, used, carriers = operation
            classes[name] += 1
            formed.update(carriers)
            needles.update(used)
    told = f"lines {len(lines)}" + "".join(f" {name} {classes[name]}" for name in ["form", "split", "move", "drop"])
    with_lines = "".join(f"with {name}: {formed[name]}\n" for name in names)
    return f"{told}\n{with_lines}needles" + "".join(f" {spelt(needle)}" for needle in sorted(needles)) + "\n"
