"""What is said of a line that breaks a rule."""
from __future__ import annotations

from functools import cached_property
from typing import Callable, Iterable, NamedTuple, Sequence

from .findings import SUMMARIES
from .instructions import FORMS, SHAPES, Action, instruction_of, needles_of
from .lines import MOST_BYTES, Needle, Source, Token, listed, shown
from .program import Broken, NotSound, Program, State, named, spelled_rack
from .unreadable import Misfit, misfit

# Carriers and needles of this many lines above and below a broken one say what it may have meant.
NEAR = 12


class Place:
    """A broken line in its file: its tokens, the one that breaks the rule, and the machine above the line."""

    def __init__(self, program: Program, source: Source, broken: Broken) -> None:
        self.program = program
        self.limits = program.limits
        self.source = source
        self.number = broken.line
        self.rule = broken.rule
        self.at = broken.at
        self.text = source.line(broken.line)
        self.tokens = source.tokens(broken.line)

    @cached_property
    def state(self) -> State:
        """The machine above the line, by one more run of check_main."""
        return self.program.state_above(self.source, self.number)

    def facing(self, needle: Needle) -> Needle | None:
        """What faces a needle above the line, if that is known and is a needle."""
        try:
            return self.state.facing(needle)
        except NotSound:
            return None

    @cached_property
    def misfit(self) -> Misfit | None:
        """What of the line doesn't read, if it breaks Unreadable."""
        if self.rule != "Unreadable":
            return None
        steps = [tokens[1].text for tokens in self.near if len(tokens) > 1 and tokens[1].text in ("+", "-")]
        return misfit(self.text, list(dict.fromkeys([*steps, "+", "-"])))

    @property
    def culprit(self) -> Token:
        """The token that is wrong."""
        return self.misfit.token if self.misfit else self.tokens[self.at]

    @property
    def word(self) -> str:
        return self.tokens[0].text

    @property
    def name(self) -> str:
        """The token that is wrong, to be shown."""
        return shown(self.culprit.text)

    @property
    def needle(self) -> Needle:
        """The needle that is wrong."""
        return named(self.culprit.text)

    @property
    def needles(self) -> list[Needle]:
        return needles_of(self.tokens)

    def carriers(self) -> list[str]:
        """The names of the line's carriers."""
        return carriers_of(self.tokens)

    @cached_property
    def near(self) -> list[list[Token]]:
        """The tokens of the lines beside, the nearest first."""
        begin, end = self.source.head_length + 1, self.source.length + 1
        numbers = [self.number + step * side for step in range(1, NEAR) for side in (-1, 1)]
        found = (self.source.tokens(number) for number in numbers if begin <= number < end)
        return [tokens for tokens in found if tokens]

    @cached_property
    def hooked_at(self) -> int:
        """The line that gave the hook its yarn, or 0."""
        return next(self.source.lines_above(self.number, ["inhook"]), 0)

    @property
    def is_large(self) -> bool:
        """Whether a run of the whole file takes long."""
        return len(self.source.data) > MOST_BYTES // 32


def carriers_of(tokens: Sequence[Token]) -> list[str]:
    """The names of the carriers of an instruction."""
    shape = SHAPES.get(tokens[0].text)
    return [token.text for token in tokens[shape.carriers :]] if shape and shape.carriers else []


def next_needle(lines: Iterable[tuple[int, bytes]], name: str) -> Needle | None:
    """Where a carrier forms a loop first in some lines; None where it comes in or goes out before, or forms none."""
    word = name.encode()
    for _, piece in lines:
        words = piece.removesuffix(b"\r").partition(b";")[0].replace(b"\t", b" ").split(b" ")
        if word in words:
            found = instruction_of([it.decode() for it in words if it])
            if found and name in found.carriers and found.action not in (Action.MISS, Action.RELEASE):
                return found.needles[0] if found.action in FORMS else None
    return None


def last_needle(place: Place) -> Needle:
    """Where the carrier whose float is too long formed its last loop."""
    needle = next_needle(place.source.lines_up(place.number), place.culprit.text)
    assert needle is not None
    return needle


class Hint(NamedTuple):
    """What is wrong, the cure that is said where none was found by trial, and what is said in any case."""

    what: str
    cure: str = ""
    note: str = ""


HINTS: dict[str, Callable[[Place], Hint]] = {}


def hints(rule: str, summary: str) -> Callable[[Callable[[Place], Hint]], Callable[[Place], Hint]]:
    """Marks what tells a rule's hint."""

    def mark(hint: Callable[[Place], Hint]) -> Callable[[Place], Hint]:
        HINTS[rule], SUMMARIES[rule] = hint, summary
        return hint

    return mark


@hints("Unreadable", "The line has none of the shapes of an instruction.")
def unreadable(place: Place) -> Hint:
    assert place.misfit
    what, _, cure = place.misfit.message.partition("; ")
    return Hint(what, cure)


@hints("OffBed", "A needle lies beyond the bed.")
def off_bed(place: Place) -> Hint:
    limits, number = place.limits, place.needle.number
    what = f"{place.name} lies beyond the bed, whose needles go from {limits.low} to {limits.high}"
    option = f"--high {number}" if number > limits.high else f"--low={number}"
    known = abs(number) <= 4096
    return Hint(what, "another needle", f", or `{option}` where the machine has it" if known else "")


@hints("SliderForm", "A loop would be formed on a slider.")
def slider_form(place: Place) -> Hint:
    hook = place.needle.hook
    return Hint(f"{place.name} is a slider, which has no hook to form a loop with", f"form it on {hook}")


@hints("SameBed", "A loop would go over to the bed that it is on.")
def same_bed(place: Place) -> Hint:
    first, second = place.needles
    facing = place.facing(first)
    what = f"{first} and {second} lie on the same bed, and loops go over to the other"
    if facing is None:
        return Hint(what, "name a needle of the other bed")
    return Hint(what, "", f" (at rack {place.state.spelled_rack} it is {facing} that faces {first})")


@hints("TwoSliders", "A loop would go from a slider to a slider.")
def two_sliders(place: Place) -> Hint:
    first, second = place.needles
    return Hint(f"{first} and {second} are both sliders, and one has to be a hook", f"name {second.hook}")


@hints("NoCarrier", "A carrier isn't declared in the header.")
def no_carrier(place: Place) -> Hint:
    declared = place.source.declared
    what = f"carrier {place.name} isn't declared (declared: {listed(declared) or 'none'})"
    if place.culprit.text.startswith(("//", "#")):
        return Hint(what, "a comment begins with `;`")
    if any("," in name for name in declared):
        return Hint(what, "the names behind `;;Carriers:` are parted by blanks, not by commas")
    return Hint(what, "name one that is, or write this one behind `;;Carriers:`")


@hints("CarrierTwice", "A carrier stands twice in a list.")
def carrier_twice(place: Place) -> Hint:
    return Hint(f"carrier {place.name} stands in this list already", "leave it out here")


@hints("RackStep", "A rack isn't a multiple of a quarter of a needle.")
def rack_step(place: Place) -> Hint:
    near = nearest_rack(place.culprit.text)
    return Hint(f"{place.name} isn't a multiple of a quarter of a needle", f"`rack {near}` is the nearest that is")


def nearest_rack(text: str) -> str:
    """The rack in quarters that is nearest to a number."""
    from fractions import Fraction

    return spelled_rack(Fraction(round(4 * Fraction(text)), 4))


@hints("RackLimit", "A rack lies beyond the limit.")
def rack_limit(place: Place) -> Hint:
    from fractions import Fraction

    what = f"{place.name} is beyond the limit, which is {place.limits.rack} needles to either side"
    needed = -(-abs(Fraction(place.culprit.text)) // 1)
    option = f", or `--rack {needed}` where the machine racks so far" if needed <= 64 else ""
    return Hint(what, "a rack within it", option)


@hints("CarrierIsOut", "A carrier that isn't in is named.")
def carrier_is_out(place: Place) -> Hint:
    what = f"carrier {place.name} isn't in (in: {listed(place.state.carriers) or 'none'})"
    if place.word in ("out", "outhook"):
        return Hint(what, "leave it out here")
    return Hint(what, f"`in {place.name}` (or `inhook`) above this line")


@hints("CarrierIsIn", "A carrier that is in would come in.")
def carrier_is_in(place: Place) -> Hint:
    return Hint(f"carrier {place.name} is in already", f"leave it out here, or `out {place.name}` above this line")


def held_since(place: Place) -> str:
    """What the hook holds, and since when."""
    since = f" since line {place.hooked_at}" if place.hooked_at else ""
    return f"the hook still holds {listed(place.state.hook)}{since}"


@hints("HookBusy", "The hook would take a yarn while it holds one.")
def hook_busy(place: Place) -> Hint:
    return Hint(held_since(place), f"`releasehook {listed(place.state.hook)}` above this line")


@hints("HookOther", "The hook would let go of other yarns than it holds.")
def hook_other(place: Place) -> Hint:
    held = place.state.hook
    if not held:
        return Hint("the hook holds nothing", "leave this line out")
    return Hint(f"the hook holds {listed(held)}, and lets go of all that it holds", f"`releasehook {listed(held)}`")


@hints("CarrierHooked", "A carrier would go out while the hook holds its yarn.")
def carrier_hooked(place: Place) -> Hint:
    return Hint(held_since(place), f"`releasehook {listed(place.state.hook)}` above this line")


def needed_rack(first: Needle, second: Needle) -> int:
    """The rack at which two needles of different beds face each other."""
    return first.number - second.number if first.is_front else second.number - first.number


@hints("NotAligned", "A loop would go over to a needle that doesn't face its own.")
def not_aligned(place: Place) -> Hint:
    first, second = place.needles
    needed = needed_rack(first, second)
    what = f"{first} and {second} face each other at rack {needed}, and the rack is {place.state.spelled_rack}"
    facing = place.state.facing(first)
    other = f"{facing} is what faces {first} now" if facing else ""
    if abs(needed) > place.limits.rack:
        return Hint(f"{what} and at most {place.limits.rack}", other)
    return Hint(what, f"`rack {needed}` above this line", f" ({other})" if other else "")


@hints("SliderHolds", "A loop would be formed while the needle's slider holds one.")
def slider_holds(place: Place) -> Hint:
    slider = place.needle.slider
    lines = listed(str(it) for it in place.state.on(slider))
    facing = place.state.facing(slider)
    what = f"the slider {slider} holds the loop of line {lines}, which would be caught"
    if facing is None:
        return Hint(what, "rack the beds to a whole needle and take it to a hook first")
    return Hint(what, "take it to a hook first")


@hints("TooManyLoops", "A needle would hold more loops than the limit.")
def too_many_loops(place: Place) -> Hint:
    counts = [len(place.state.on(needle)) for needle in place.needles]
    total = sum(counts) if len(counts) == 2 else counts[0] + 1
    what = f"{place.needles[-1]} would hold {total} loops, and a needle holds {place.limits.hold}"
    option = f", or `--hold {total}` where the machine bears it" if total <= 64 else ""
    return Hint(what, "knit them off first", option)


@hints("FloatTooLong", "A carrier's loop lies farther from the one before than the limit.")
def float_too_long(place: Place) -> Hint:
    needle, last = place.needles[0], last_needle(place)
    away = abs(needle.number - last.number)
    what = f"carrier {place.name} formed its last loop on {last}, {away} numbers from {needle}"
    option = f", or `--float {away}` where a yarn may lie loose so far"
    cure = "form a loop with it between the two, or take it out and in again"
    return Hint(f"{what}, and the limit is {place.limits.float}", cure, option)
