"""Edits that may cure a broken line. Whether they do is tried in `trials`."""
from __future__ import annotations

import re
from collections import Counter
from typing import Callable, Iterator

from .edits import (
    Candidates,
    above,
    carriers_instead,
    expected_needles,
    leave_out,
    leave_out_line,
    lines_above,
    near_carriers,
    needles_instead,
    rewritten,
    swapped,
    written,
)
from .findings import Cure
from .floats import of_float_too_long
from .hints import Place, nearest_rack, needed_rack
from .instructions import ACTIONS, SHAPES, instruction_of
from .lines import CARRIERS_HEADER, Needle, needle_of, shown
from .program import spelled_rack
from .unreadable import with_words


def candidates(place: Place) -> Candidates:
    """The edits to try, the likeliest first, each once."""
    seen = {(place.number, place.number, (place.text,))}
    for cure in [*OF_RULES[place.rule](place), leave_out(place)]:
        edit = (cure.first, cure.last, cure.lines)
        if edit not in seen:
            seen.add(edit)
            yield cure


def of_unreadable(place: Place) -> Candidates:
    assert place.misfit
    for line in place.misfit.instead:
        yield written(place, line)
    texts = [token.text for token in place.tokens]
    words = dict.fromkeys(tokens[0].text for tokens in place.near[:2] if tokens[0].text in ACTIONS)
    meant = [[word, *texts[1:]] for word in words]
    meant += [[word, *texts] for word in words]
    for at in range(len(texts) - 1):
        meant.append([*texts[:at], texts[at + 1], texts[at], *texts[at + 2 :]])
    for line in [*meant, *with_needle(place, texts)]:
        if instruction_of(line):
            yield reworded(place, line)
    shape, last = SHAPES.get(place.word), len(texts)
    first = needle_of(texts[-1])
    if place.word == "xfer" and last == 2 and first and (facing := place.facing(first)):
        yield reworded(place, [*texts, str(facing)])
    if shape and shape.carriers == last:
        for name in near_carriers(place):
            yield reworded(place, [*texts, name])


def reworded(place: Place, words: list[str]) -> Cure:
    """The broken line with other words, and its comment."""
    begin, end = place.tokens[0].column - 1, place.tokens[-1].end - 1
    return written(place, place.text[:begin] + " ".join(words) + place.text[end:])


def with_needle(place: Place, texts: list[str]) -> Iterator[list[str]]:
    """The words with the needle that the row expects, in the place of one that is none, and put in where one lacks."""
    shape = SHAPES.get(place.word)
    for at in shape.needles if shape else []:
        if at <= len(texts) and (at == len(texts) or needle_of(texts[at]) is None):
            for needle in expected_needles(place, at):
                yield [*texts[:at], str(needle), *texts[at + 1 :]]
                yield [*texts[:at], str(needle), *texts[at:]]


def of_off_bed(place: Place) -> Candidates:
    return needles_instead(place, place.at)


def of_slider_form(place: Place) -> Candidates:
    yield swapped(place, place.at, str(place.needle.hook))


def of_two_sliders(place: Place) -> Candidates:
    first, second = place.needles
    yield swapped(place, place.at, str(second.hook))
    yield swapped(place, place.at - 1, str(first.hook))


def facing_instead(place: Place) -> Candidates:
    """The needle that faces the one or the other, on a hook and on a slider."""
    first, second = place.needles
    for at, needle, other in ((place.at, first, second), (place.at - 1, second, first)):
        facing = place.facing(needle)
        if facing:
            kept = facing.slider if other.is_slider and not needle.is_slider else facing
            yield swapped(place, at, str(kept))
            yield swapped(place, at, str(facing))


def of_same_bed(place: Place) -> Candidates:
    first, second = place.needles
    yield from facing_instead(place)
    yield swapped(place, place.at, str(Needle("b" if first.is_front else "f", second.number)))


def of_not_aligned(place: Place) -> Candidates:
    needed = needed_rack(*place.needles)
    racked_at = next((number for number, _ in lines_above(place, "rack")), 0)
    if abs(needed) <= place.limits.rack:
        line = f"rack {needed}"
        if racked_at and racked_at == place.number - 1:
            yield rewritten(place, racked_at, line)
        formed_at = first_forming(place, racked_at) if racked_at else 0
        if formed_at:
            yield above(place, line, formed_at)
        yield above(place, line)
        if racked_at:
            yield rewritten(place, racked_at, line)
    yield from facing_instead(place)
    yield from needles_instead(place, place.at)
    yield from needles_instead(place, place.at - 1)
    if racked_at:
        yield leave_out_line(place, racked_at)


def first_forming(place: Place, below: int) -> int:
    """The first line below one, and above the broken one, that forms a loop, or 0."""
    for number in range(below + 1, min(place.number, below + 1000)):
        tokens = place.source.tokens(number)
        if tokens and tokens[0].text in ("knit", "tuck", "split"):
            return number
    return 0


def of_no_carrier(place: Place) -> Candidates:
    if place.culprit.text.startswith(("//", "#")):
        begin = place.culprit.column - 1
        yield written(place, place.text[:begin] + ";" + place.text[begin:].lstrip("/#"))
    [header] = place.source.carriers_lines()[:1]
    names = place.source.line(header)[len(CARRIERS_HEADER) :]
    if "," in names:
        yield rewritten(place, header, f"{CARRIERS_HEADER} {' '.join(names.replace(',', ' ').split())}")
    yield from carriers_instead(place, near_carriers_that_are(place))
    if "," not in names:
        yield rewritten(place, header, header_with(place, names.split()))
    yield from carriers_instead(place, place.source.declared)


def header_with(place: Place, names: list[str]) -> str:
    """The line of the carriers with one more, where the order of the names puts it."""
    name = place.culprit.text
    order = [(len(it), it) for it in names]
    at = sum(it < (len(name), name) for it in order) if order == sorted(order) else len(names)
    return " ".join([CARRIERS_HEADER, *names[:at], name, *names[at:]])


def near_carriers_that_are(place: Place) -> list[str]:
    """The carriers of the lines beside that are declared."""
    return [name for name in near_carriers(place) if name in place.source.declared]


def of_carrier_twice(place: Place) -> Candidates:
    yield swapped(place, place.at, "")
    yield from carriers_instead(place, near_carriers(place))


def of_rack_step(place: Place) -> Candidates:
    yield swapped(place, 1, nearest_rack(place.culprit.text))


def of_rack_limit(place: Place) -> Candidates:
    from fractions import Fraction

    value = Fraction(place.culprit.text)
    for part in (10, 100):
        if (4 * value / part).denominator == 1:
            yield swapped(place, 1, spelled_rack(value / part))
    digits = place.culprit.text
    for drop in range(len(digits)):
        fewer = digits[:drop] + digits[drop + 1 :]
        if re.fullmatch(r"-?[0-9]+", fewer):
            yield swapped(place, 1, fewer)


def bring_in(place: Place) -> Candidates:
    """The carriers that aren't in brought in, by the hook where the file uses it."""
    names = " ".join(name for name in dict.fromkeys(place.carriers()) if name not in place.state.carriers)
    words = ["inhook", "in"] if b"hook" in place.source.data else ["in", "inhook"]
    for word in words:
        yield above(place, f"{word} {names}")


def of_carrier_is_out(place: Place) -> Candidates:
    name = place.culprit.text
    inside = [it for it in near_carriers(place) if it in place.state.carriers]
    yield from carriers_instead(place, [*inside, *place.state.carriers])
    if place.word in ("out", "outhook"):
        if len(place.carriers()) > 1:
            yield swapped(place, place.at, "")
        return
    yield from bring_in(place)
    for number, words in lines_above(place, "out", "outhook"):
        if name in words[1:]:
            yield leave_out_line(place, number)
            break
    for number, words in lines_above(place, "in", "inhook"):
        if name not in words[1:] and len(words) == 2:
            yield rewritten(place, number, f"{words[0]} {name}")
            break


def of_carrier_is_in(place: Place) -> Candidates:
    if len(place.carriers()) > 1:
        yield swapped(place, place.at, "")
    yield leave_out(place)
    names = [name for name in place.carriers() if name in place.state.carriers]
    release = [f"releasehook {' '.join(place.state.hook)}"] if set(place.state.hook) & set(names) else []
    lines = (*release, f"out {' '.join(names)}")
    title = " and ".join(f"`{shown(line)}`" for line in lines)
    yield Cure(f"{title} above this line", place.number, place.number - 1, lines)
    below = [it for it in near_carriers(place) if it not in place.state.carriers]
    yield from carriers_instead(place, below)


def release_above(place: Place) -> Candidates:
    """The hook let go: as far behind its taking as elsewhere in the file, or above the broken line."""
    line = f"releasehook {' '.join(place.state.hook)}"
    for distance in hold_distances(place):
        at = place.hooked_at + distance
        if place.hooked_at and at < place.number:
            yield above(place, line, at)
    fifth = fifth_course(place)
    if fifth:
        yield above(place, line, fifth)
    yield above(place, line)


def fifth_course(place: Place) -> int:
    """The line at which the fifth course since the hook took its yarn begins, if many follow; or 0.

    Two courses that cast on and two that are knitted hold the yarn, and the hook is in the way from then on.
    """
    begins: list[int] = []
    step = ""
    for number in range(place.hooked_at + 1, min(place.number, place.hooked_at + 10_000)):
        tokens = place.source.tokens(number)
        if len(tokens) > 2 and tokens[0].text in ("knit", "tuck", "split") and tokens[1].text != step:
            step = tokens[1].text
            begins.append(number)
    return begins[4] if place.hooked_at and len(begins) > 6 else 0


def hold_distances(place: Place) -> list[int]:
    """How many lines the hook holds its yarn elsewhere in the file, the most usual first."""
    takings = place.source.lines_of(["inhook"])
    distances: Counter[int] = Counter()
    for number in place.source.lines_of(["releasehook"]):
        before = [taking for taking in takings if taking < number]
        distances.update(number - taking for taking in before[-1:])
    return [distance for distance, _ in distances.most_common(2)]


def of_hook_other(place: Place) -> Candidates:
    if place.state.hook:
        yield written(place, f"releasehook {' '.join(place.state.hook)}")
        return
    for number, words in lines_above(place, "in"):
        if set(words[1:]) == set(place.carriers()):
            yield rewritten(place, number, f"inhook {' '.join(words[1:])}")
            break
    yield leave_out(place)


def of_slider_holds(place: Place) -> Candidates:
    slider = place.needle.slider
    facing = place.state.facing(slider)
    if facing:
        yield above(place, f"xfer {slider} {facing}")
    else:
        rack = place.state.spelled_rack
        whole = round(place.state.rack)
        taker = Needle("b", slider.number - whole) if slider.is_front else Needle("f", slider.number + whole)
        lines = (f"rack {whole}", f"xfer {slider} {taker}", f"rack {rack}")
        title = " and ".join(f"`{line}`" for line in lines)
        yield Cure(f"{title} above this line", place.number, place.number - 1, lines)
    yield from needles_instead(place, place.at)


def of_too_many_loops(place: Place) -> Candidates:
    if place.word == "tuck":
        yield written(place, with_words(place.text, place.tokens[0], "knit"))
    yield from needles_instead(place, place.at)


OF_RULES: dict[str, Callable[[Place], Candidates]] = {
    "Unreadable": of_unreadable,
    "OffBed": of_off_bed,
    "SliderForm": of_slider_form,
    "SameBed": of_same_bed,
    "TwoSliders": of_two_sliders,
    "NoCarrier": of_no_carrier,
    "CarrierTwice": of_carrier_twice,
    "RackStep": of_rack_step,
    "RackLimit": of_rack_limit,
    "CarrierIsOut": of_carrier_is_out,
    "CarrierIsIn": of_carrier_is_in,
    "HookBusy": release_above,
    "HookOther": of_hook_other,
    "CarrierHooked": release_above,
    "NotAligned": of_not_aligned,
    "SliderHolds": of_slider_holds,
    "TooManyLoops": of_too_many_loops,
    "FloatTooLong": of_float_too_long,
}
