"""Edits that shorten the yarn between two loops that a carrier forms one after the other."""
from __future__ import annotations

from .edits import Candidates, carriers_instead, lines_above, needles_instead
from .findings import Cure
from .hints import Place, carriers_of, last_needle, next_needle
from .lines import Needle, shown

# A yarn that more loops than these would have to catch is cut instead.
MOST_CAUGHT = 3


def of_float_too_long(place: Place) -> Candidates:
    """The needle or the carrier that was meant, loops that catch the yarn on its way, the carrier out and in again."""
    if is_astray(place):
        yield from needles_instead(place, 2)
    beside = [carriers_of(tokens) for tokens in place.near[:2]]
    if len(beside) == 2 and beside[0] == beside[1]:
        yield from carriers_instead(place, beside[0])
    yield from caught(place)
    yield from out_and_in(place)


def is_astray(place: Place) -> bool:
    """Whether the carrier's next loop lies nearer to the one before the line's than to the line's."""
    following = next_needle(place.source.lines_from(place.number + 1), place.culprit.text)
    needle = place.needles[0]
    if following is None:
        return False
    return abs(following.number - last_needle(place).number) <= abs(following.number - needle.number)


def caught(place: Place) -> Candidates:
    """Tucks on the way, of the carrier alone, and of all that the line names."""
    needles = needles_between(place)
    way = "+" if place.needles[0].number > last_needle(place).number else "-"
    for carriers in dict.fromkeys([place.culprit.text, " ".join(place.carriers())]):
        if needles:
            yield put_in(place, tuple(f"tuck {way} {needle} {carriers}" for needle in needles))


def put_in(place: Place, lines: tuple[str, ...]) -> Cure:
    """Lines above the broken one."""
    title = " and ".join(f"`{shown(line)}`" for line in lines)
    return Cure(f"{title} above this line", place.number, place.number - 1, lines)


def needles_between(place: Place) -> list[Needle]:
    """Needles on the way that keep the limit, as few as do, evenly apart; none where more are needed than is usual."""
    limit, end, here = place.limits.float or 1, place.needles[0], last_needle(place).number
    step = 1 if end.number > here else -1
    count = (abs(end.number - here) - 1) // limit
    found: list[Needle] = []
    for left in range(count, 0, -1) if count <= MOST_CAUGHT else ():
        away = abs(end.number - here)
        steps = range(max(1, away - left * limit), min(limit, away - left) + 1)
        numbers = [here + step * it for it in sorted(steps, key=lambda it: abs(it - away // (left + 1)))]
        found.append(resting_place(place, end, numbers))
        here = found[-1].number
    return found


def resting_place(place: Place, end: Needle, numbers: list[int]) -> Needle:
    """The first needle with one of the numbers that holds a loop, on the bed of the float's end or on the other."""
    for bed in (end.bed, "b" if end.is_front else "f"):
        for needle in (Needle(bed, number) for number in numbers):
            held = len(place.state.on(needle))
            if 0 < held < place.limits.hold and not place.state.on(needle.slider):
                return needle
    return Needle(end.bed, numbers[0])


def out_and_in(place: Place) -> Candidates:
    """The carrier out and in again, where the file does so above."""
    name = place.culprit.text
    for _, words in lines_above(place, "out", "outhook"):
        if name in words[1:]:
            back = next(it[0] for _, it in lines_above(place, "in", "inhook") if name in it[1:])
            yield put_in(place, (f"{words[0]} {name}", f"{back} {name}"))
            return
