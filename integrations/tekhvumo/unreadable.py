"""Which word of a line that doesn't read is wrong, what it should be, and how the line would read then."""
from __future__ import annotations

import re
import unicodedata
from typing import NamedTuple, Sequence

from .instructions import ANY_WORDS, NO_SHAPE, SHAPES, Part, Shape, fits
from .lines import Token, needle_of, runs, shown

# Extensions that are written often, so that one without its `x-` is known.
EXTENSIONS = (
    "x-stitch-number",
    "x-presser-mode",
    "x-speed-number",
    "x-roller-advance",
    "x-vis-color",
    "x-carrier-spacing",
    "x-carrier-stopping-distance",
    "x-xfer-style",
    "x-add-roller-advance",
)
DASHES = "\u2010\u2011\u2012\u2013\u2014\u2212"
DIRECTIONS = {"right": "+", "r": "+", "->": "+", ">": "+", "left": "-", "l": "-", "<-": "-", "<": "-"}
FRACTIONS = {"1/4": "0.25", "1/2": "0.5", "3/4": "0.75"}


class Misfit(NamedTuple):
    """The word that is wrong, what it should be, and the line as it was meant, the likeliest first."""

    token: Token
    message: str
    instead: tuple[str, ...] = ()


def with_words(text: str, token: Token, *words: str) -> str:
    """The line with words in the place of a token; with none, its blanks in front go, too."""
    before, after = text[: token.column - 1], text[token.end - 1 :]
    return before + " ".join(words) + after if words else before.rstrip() + after


def misfit(text: str, near: Sequence[str] = ("+", "-")) -> Misfit:
    """What is wrong with a line that breaks Unreadable; `near` has the directions, that of the lines beside first."""
    tokens = runs(text.partition(";")[0])
    word = tokens[0].text
    found = strange_character(text, tokens) or comment_mark(text, tokens, 0)
    if found:
        return found
    if word not in SHAPES:
        return no_instruction(text, tokens)
    shape = SHAPES[word]
    for place, part in enumerate(shape.parts, 1):
        if part is Part.CARRIER or part is Part.ANYTHING:
            break
        if place >= len(tokens):
            return lacking(tokens, part, shape)
        if not fits(part, tokens[place].text):
            return wrong_word(text, tokens, place, part, near)
    fixed = len(shape.parts)
    if shape.carriers is None and len(tokens) > fixed + 1:
        return comment_mark(text, tokens, fixed + 1) or too_many(text, tokens, fixed + 1, shape)
    return lacking(tokens, Part.CARRIER, shape)


def strange_character(text: str, tokens: Sequence[Token]) -> Misfit | None:
    """A blank or a dash that only looks like one."""
    for token in tokens:
        for sign in token.text:
            kind = unicodedata.category(sign)
            if sign in DASHES:
                meant = text.translate({ord(dash): "-" for dash in DASHES})
                said = f"`{shown(token.text)}` has a dash that isn't the minus sign; write `-`"
                return Misfit(token, said, (meant,))
            if (kind in ("Zs", "Cf") and sign != " ") or sign in "\x0b\x0c":
                name = unicodedata.name(sign, f"character {ord(sign):#x}").lower()
                meant = "".join("" if unicodedata.category(it) == "Cf" else " " if it == sign else it for it in text)
                said = f"`{ascii(token.text)[1:-1]}` has a {name} in it; write an ordinary blank"
                return Misfit(token, said, (meant,))
    return None


def comment_mark(text: str, tokens: Sequence[Token], place: int) -> Misfit | None:
    """A comment as other languages begin it."""
    token = tokens[place]
    for mark in ("//", "#"):
        if token.text.startswith(mark):
            begin = token.column - 1
            meant = text[:begin] + ";" + text[begin + len(mark) :]
            return Misfit(token, f"`{shown(token.text)}` begins no comment; `;` does", (meant,))
    return None


def no_instruction(text: str, tokens: Sequence[Token]) -> Misfit:
    """A first word that is none of the instructions."""
    token = tokens[0]
    word, said = token.text, f"`{shown(token.text)}` is no instruction"
    low = word.lower()
    if low in SHAPES or low.startswith("x-"):
        return Misfit(token, f"{said}; words are written small: `{low}`", meant_of(text, token, low))
    glued = re.fullmatch(r"([a-z]+)([+-]?.*)", low)
    if glued:
        for end in range(len(low) - 1, 1, -1):
            rest = low[end:]
            if low[:end] in SHAPES and (rest in ("+", "-") or re.fullmatch(r"[+-]?[0-9.]+", rest) or needle_of(rest)):
                meant = (with_words(text, token, low[:end], rest),)
                return Misfit(token, f"{said}; a blank is missing: `{low[:end]} {shown(rest)}`", meant)
    if f"x-{low}" in EXTENSIONS:
        return Misfit(token, f"{said}; did you mean `x-{low}`?", meant_of(text, token, f"x-{low}"))
    from difflib import get_close_matches

    close = get_close_matches(low, [*SHAPES, *EXTENSIONS], 3, 0.6)
    if not close:
        return Misfit(token, said)
    instead = tuple(line for it in close for line in meant_of(text, token, it))
    return Misfit(token, f"{said}; did you mean `{close[0]}`?", instead)


def meant_of(text: str, token: Token, word: str) -> tuple[str, ...]:
    """The line with another first word, and what else of it is wrong set right, too."""
    line = with_words(text, token, word)
    tokens = runs(line.partition(";")[0])
    shape = SHAPES.get(word, NO_SHAPE)
    if word.startswith("x-") or shape is ANY_WORDS:
        return (line,)
    small = [it.text.lower() if part is Part.NEEDLE else it.text for part, it in zip(shape.parts, tokens[1:])]
    for it, low in reversed(list(zip(tokens[1:], small))):
        line = with_words(line, it, low)
    return (line,)


def lacking(tokens: Sequence[Token], part: Part, shape: Shape) -> Misfit:
    """A line that ends too early."""
    word = tokens[0].text
    what = {Part.DIRECTION: "direction", Part.NEEDLE: "needle", Part.NUMBER: "number", Part.CARRIER: "carrier"}[part]
    said = f"`{word}` lacks a {what}; the form is `{shape.form(word)}`"
    return Misfit(tokens[-1], said)


def too_many(text: str, tokens: Sequence[Token], place: int, shape: Shape) -> Misfit:
    """A word behind the last."""
    word, token = tokens[0].text, tokens[place]
    said = f"`{shown(token.text)}` is one word too many; the form is `{shape.form(word)}`"
    line = text
    for extra in reversed(tokens[place:]):
        line = with_words(line, extra)
    # What has a carrier too many may have been meant as the instruction that takes one.
    takers = {"drop": "knit", "amiss": "tuck"}
    other = ()
    if word in takers and len(tokens) == 3:
        other = tuple(with_words(text, tokens[0], takers[word], step) for step in ("+", "-"))
    return Misfit(token, said, (line, *other))


def wrong_word(text: str, tokens: Sequence[Token], place: int, part: Part, near: Sequence[str]) -> Misfit:
    """A word that isn't what stands at its place."""
    if part is Part.DIRECTION:
        return wrong_direction(text, tokens, place, near)
    if part is Part.NEEDLE:
        return wrong_needle(text, tokens, place)
    return wrong_number(text, tokens[place])


def wrong_direction(text: str, tokens: Sequence[Token], place: int, near: Sequence[str]) -> Misfit:
    """A word where a direction belongs."""
    token = tokens[place]
    word, said = token.text, f"`{shown(token.text)}` is no direction; it is + or -"
    if word.lower() in DIRECTIONS:
        step = DIRECTIONS[word.lower()]
        return Misfit(token, f"{said}, here `{step}`", (with_words(text, token, step),))
    if word[:1] in ("+", "-") and needle_of(word[1:].lower()):
        apart = (word[0], word[1:].lower())
        return Misfit(token, f"{said}; a blank is missing: `{' '.join(apart)}`", (with_words(text, token, *apart),))
    if needle_of(word.lower()):
        said = f"`{shown(word)}` stands where the direction belongs, + or -"
        instead = tuple(with_words(text, token, step, word.lower()) for step in near)
        if place + 1 < len(tokens) and tokens[place + 1].text in ("+", "-"):
            step = tokens[place + 1].text
            turned = with_words(with_words(text, tokens[place + 1], word.lower()), token, step)
            return Misfit(token, said, (turned,))
        return Misfit(token, said, instead)
    return Misfit(token, said, tuple(with_words(text, token, step) for step in near))


def wrong_needle(text: str, tokens: Sequence[Token], place: int) -> Misfit:
    """A word where a needle belongs."""
    token = tokens[place]
    word, low = token.text, token.text.lower()
    said = f"`{shown(word)}` is no needle; one is a bed (f, b, fs, bs) and a number, as `f3`"
    if word in ("+", "-"):
        said = f"`{tokens[0].text}` takes no direction; leave `{word}` out"
        return Misfit(token, said, (with_words(text, token),))
    if needle_of(low):
        return Misfit(token, f"{said}; beds are written small", (with_words(text, token, low),))
    if "," in word:
        parts = [it for it in low.split(",") if it]
        instead = (with_words(text, token, *parts), with_words(text, token, *parts[:1]))
        return Misfit(token, f"{said}; blanks part words, not commas", instead)
    follows = tokens[place + 1].text if place + 1 < len(tokens) else ""
    if low in ("f", "b", "fs", "bs"):
        said = f"`{shown(word)}` lacks its number, as in `{low}3`"
        if follows.isdigit():
            joined = text[: token.column - 1] + low + text[tokens[place + 1].column - 1 :]
            return Misfit(token, said, (joined,))
        return Misfit(token, said)
    if re.fullmatch(r"-?[0-9]+", low):
        beds = tuple(with_words(text, token, bed + low) for bed in ("f", "b"))
        return Misfit(token, f"`{shown(word)}` lacks its bed, as in `f{low}`", beds)
    meant = [re.sub(r"^([0-9]+)(fs|bs|f|b)$", r"\2\1", low), re.sub(r"^s([fb])", r"\1s", low)]
    meant.append(low[:1] + low[1:].replace("o", "0").replace("l", "1").replace("i", "1"))
    meant.append(re.sub(r"[^a-z0-9+-]", "", low))
    instead = tuple(dict.fromkeys(with_words(text, token, it) for it in meant if needle_of(it)))
    return Misfit(token, said, instead)


def wrong_number(text: str, token: Token) -> Misfit:
    """A word where the rack's number belongs."""
    word, said = token.text, f"`{shown(token.text)}` is no number"
    if "," in word:
        return Misfit(token, f"{said}; write a point, not a comma", (with_words(text, token, word.replace(",", ".")),))
    if word in FRACTIONS:
        number = FRACTIONS[word]
        return Misfit(token, f"{said}; write `{number}`", (with_words(text, token, number),))
    side = re.fullmatch(r"([lLrR])([0-9.]+)", word)
    if side:
        number = ("-" if side[1] in "lL" else "") + side[2]
        said = f"{said}; to the left it has a `-`, to the right no sign: `{number}`"
        return Misfit(token, said, (with_words(text, token, number),))
    digits = re.search(r"[+-]?[0-9]+(\.[0-9]+)?", word)
    return Misfit(token, f"{said}, as `-1` or `0.25`", (with_words(text, token, digits[0]),) if digits else ())
