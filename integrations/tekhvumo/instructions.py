"""Instructions: how each is written, and what it does."""
from __future__ import annotations

import re
from enum import Enum, IntEnum
from typing import Iterator, NamedTuple, Sequence

from .lines import Needle, Source, Token, needle_of


class Part(Enum):
    """What a token of an instruction is."""

    DIRECTION = "+|-"
    NEEDLE = "NEEDLE"
    NUMBER = "NUMBER"
    CARRIER = "CARRIER.."
    ANYTHING = "ANYTHING.."


class Shape(NamedTuple):
    """How an instruction is written: the parts behind its word, the last of which may come as often as one likes."""

    parts: tuple[Part, ...]
    needs_carrier: bool = False

    def form(self, word: str) -> str:
        """The form, as `knit +|- NEEDLE CARRIER..`."""
        return " ".join([word, *(part.value for part in self.parts)])

    @property
    def needles(self) -> list[int]:
        """The places of the needles among the tokens."""
        return [place for place, part in enumerate(self.parts, 1) if part is Part.NEEDLE]

    @property
    def carriers(self) -> int | None:
        """The place of the first carrier among the tokens."""
        return len(self.parts) if self.parts and self.parts[-1] is Part.CARRIER else None


CARRIERS_ALONE = Shape((Part.CARRIER,), needs_carrier=True)
FORMING = Shape((Part.DIRECTION, Part.NEEDLE, Part.CARRIER))
ANY_WORDS = Shape((Part.ANYTHING,))
SHAPES = {
    "in": CARRIERS_ALONE,
    "out": CARRIERS_ALONE,
    "inhook": CARRIERS_ALONE,
    "outhook": CARRIERS_ALONE,
    "releasehook": CARRIERS_ALONE,
    "rack": Shape((Part.NUMBER,)),
    "knit": FORMING,
    "tuck": FORMING,
    "miss": FORMING,
    "split": Shape((Part.DIRECTION, Part.NEEDLE, Part.NEEDLE, Part.CARRIER)),
    "xfer": Shape((Part.NEEDLE, Part.NEEDLE)),
    "drop": Shape((Part.NEEDLE,)),
    "amiss": Shape((Part.NEEDLE,)),
    "stitch": ANY_WORDS,
    "pause": ANY_WORDS,
}
NO_SHAPE = Shape(())
RACK = re.compile(r"[+-]?([0-9]+(\.[0-9]*)?|\.[0-9]+)")


def fits(part: Part, text: str) -> bool:
    """Whether a token is such a part."""
    match part:
        case Part.DIRECTION:
            return text in ("+", "-")
        case Part.NEEDLE:
            return needle_of(text) is not None
        case Part.NUMBER:
            return RACK.fullmatch(text) is not None
    return True


class Action(IntEnum):
    """What an instruction does; without a carrier `knit` drops, `split` moves, and `tuck` does nothing."""

    BRING_IN = 1
    BRING_IN_HOOKED = 2
    TAKE_OUT = 3
    RELEASE = 4
    RACK = 5
    KNIT = 6
    TUCK = 7
    SPLIT = 8
    MISS = 9
    MOVE = 10
    DROP = 11
    NOTHING = 12


FORMS = frozenset({Action.KNIT, Action.TUCK, Action.SPLIT})
ACTIONS = {
    "in": Action.BRING_IN,
    "inhook": Action.BRING_IN_HOOKED,
    "out": Action.TAKE_OUT,
    "outhook": Action.TAKE_OUT,
    "releasehook": Action.RELEASE,
    "rack": Action.RACK,
    "knit": Action.KNIT,
    "tuck": Action.TUCK,
    "split": Action.SPLIT,
    "miss": Action.MISS,
    "xfer": Action.MOVE,
    "drop": Action.DROP,
}
WITHOUT_CARRIER = {"knit": Action.DROP, "tuck": Action.NOTHING, "split": Action.MOVE, "miss": Action.NOTHING}


class Instruction(NamedTuple):
    """A readable instruction. `step` is 1 to the right and -1 to the left, `rack` a number of needles."""

    word: str
    action: Action
    needles: tuple[Needle, ...] = ()
    carriers: tuple[str, ...] = ()
    step: int = 0
    rack: float = 0.0

    @property
    def lacks_carrier(self) -> bool:
        """Whether it would form a loop if it named a carrier."""
        return not self.carriers and self.word in ("knit", "tuck", "split")


def instruction_of(words: Sequence[str]) -> Instruction | None:
    """The instruction that tokens spell, or None where they spell none."""
    word = words[0]
    if word.startswith("x-"):
        return Instruction(word, Action.NOTHING)
    shape = SHAPES.get(word)
    if shape is None:
        return None
    if shape is ANY_WORDS:
        return Instruction(word, Action.NOTHING)
    begin = shape.carriers
    fixed = len(shape.parts) if begin is None else begin - 1
    if (len(words) - 1 != fixed) if begin is None else (len(words) - 1 < fixed + shape.needs_carrier):
        return None
    if not all(fits(part, text) for part, text in zip(shape.parts, words[1 : fixed + 1])):
        return None
    carriers = tuple(words[begin:]) if begin is not None else ()
    action = ACTIONS.get(word, Action.NOTHING)
    if not carriers:
        action = WITHOUT_CARRIER.get(word, action)
    needles = tuple(needle for place in shape.needles if (needle := needle_of(words[place])))
    step = {"+": 1, "-": -1}[words[1]] if shape.parts[0] is Part.DIRECTION else 0
    return Instruction(word, action, needles, carriers, step, float(words[1]) if action is Action.RACK else 0.0)


def needles_of(tokens: Sequence[Token]) -> list[Needle]:
    """The needles of a readable instruction, in its order."""
    places = SHAPES.get(tokens[0].text, NO_SHAPE).needles
    return [needle for place in places if place < len(tokens) and (needle := needle_of(tokens[place].text))]


# Programs repeat their lines, so each is read once; so many readings are kept.
MOST_KEPT = 20_000


def instructions(source: Source, end: int) -> Iterator[tuple[int, Instruction]]:
    """The instructions of the body above line `end`, each with its line."""
    kept: dict[bytes, Instruction | None] = {}
    first = source.head_length + 1
    for number, piece in enumerate(source.pieces[first - 1 : end - 1], first):
        if piece in kept:
            found = kept[piece]
        else:
            if len(kept) >= MOST_KEPT:
                kept.clear()
            text = (piece[:-1] if piece.endswith(b"\r") else piece).decode(errors="replace")
            words = re.findall(r"[^ \t]+", text.partition(";")[0])
            found = kept[piece] = instruction_of(words) if words else None
        if found is not None:
            yield number, found
