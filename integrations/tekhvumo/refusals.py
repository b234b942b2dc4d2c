"""What is said of a text that check_main refuses, and what would cure it."""
from __future__ import annotations

import re
from typing import Callable, Iterator

from .findings import SUMMARIES, Cure, Finding, fault
from .instructions import SHAPES
from .lines import CARRIERS_HEADER, MOST_BYTES, MOST_CARRIERS, MOST_LINE_BYTES, Source, Token, shown
from .program import Program, Status

MAGIC = ";!knitout-2"
OF_FILES = {
    "BadMagic": "The first line isn't `;!knitout-2`.",
    "NoCarriers": "The head declares no carriers.",
    "TwoCarriers": "The head declares its carriers twice.",
    "CarrierNameTwice": "A name is declared twice.",
    "ManyCarriers": "Too many names are declared.",
    "NotUtf8": "A line isn't text.",
    "LineLong": "A line is too long.",
    "TooLarge": "The file is too large.",
    "ReadFault": "The file can't be read.",
    "WriteFault": "The file can't be written.",
    "NoMemory": "Memory ran out.",
    "NoAnswer": "check_main ended without an answer.",
    "ReadsOtherwise": "The canonical text would read otherwise than the file, so it isn't written.",
    "NotCanonical": "The file isn't its canonical text.",
}
SUMMARIES.update(OF_FILES)


def nearly_magic(source: Source) -> int:
    """The line among the first ones that is, or was meant as, the first of a program; or 0."""
    for number in range(1, min(len(source.pieces), 20) + 1):
        if re.match(r"\W*knitout\W*(v(ersion)?\W*)?2?\W*$", source.line(number), re.I):
            return number
    return 0


def nearly_carriers(source: Source) -> int:
    """The line of the head that was meant as `;;Carriers:`, or 0."""
    for number in range(2, min(len(source.pieces), source.head_length + 5) + 1):
        if re.match(r"[ \t]*;*[ \t]*carriers?\b[ \t]*[:=]?", source.line(number), re.I):
            return number
    return 0


def bad_magic(source: Source) -> str:
    """What is said of a first line that is another one."""
    if source.data.startswith(b"\xef\xbb\xbf"):
        return "a byte-order mark stands before the first line; save the file without it"
    near = nearly_magic(source)
    if near > 1:
        return f"line {near} is meant as the first one; nothing may stand above it, and it has to be `{MAGIC}`"
    first = f"`{shown(source.line(1))}`" if source.line(1) else "empty"
    return f"the first line is {first}; it has to be `{MAGIC}`, with nothing above it"


def no_carriers(source: Source) -> str:
    """What is said of a head without carriers."""
    later = [number for number in source.carriers_lines() if number > source.head_length]
    if later:
        return f"the `{CARRIERS_HEADER}` of line {later[0]} stands below the first instruction; move it into the head"
    near = nearly_carriers(source)
    if near:
        return f"`{shown(source.line(near))}` declares nothing; the line has to begin with `{CARRIERS_HEADER}`"
    return f"the head has no line `{CARRIERS_HEADER}`; write one below the first line, as `{CARRIERS_HEADER} 1 2 3`"


def place_of_refusal(source: Source, cause: str, number: int) -> Token:
    """The token that a refusal is about; the beginning of the line where it is about no token."""
    raw = source.raw(number)
    if cause == "NotUtf8":
        try:
            raw.decode()
        except UnicodeDecodeError as fault:
            column = len(raw[: fault.start].decode()) + 1
            return Token(f"0x{raw[fault.start]:02x}", column, column + 1)
    if cause == "LineLong":
        column = len(raw[:MOST_LINE_BYTES].decode(errors="ignore")) + 1
        return Token("", column, column + 1)
    names = source.names(number) if cause in ("CarrierNameTwice", "ManyCarriers") else []
    if cause == "ManyCarriers" and len(names) > MOST_CARRIERS:
        return names[MOST_CARRIERS]
    before: set[str] = set()
    for token in names:
        if token.text in before:
            return token
        before.add(token.text)
    return Token("", 1, 2)


# What is said of a text that check_main refuses for a cause at a token.
REFUSED: dict[str, Callable[[Source, Token], str]] = {
    "BadMagic": lambda source, token: bad_magic(source),
    "NoCarriers": lambda source, token: no_carriers(source),
    "TwoCarriers": lambda source, token: "the head has a `;;Carriers:` above this one; write all names into one",
    "CarrierNameTwice": lambda source, token: f"{shown(token.text)} is declared already; leave it out here",
    "ManyCarriers": lambda source, token: f"{shown(token.text)} is one name too many; there may be {MOST_CARRIERS}",
    "NotUtf8": lambda source, token: f"the byte {token.text} is no text here; save the file as UTF-8",
    "LineLong": lambda source, token: f"the line goes on behind {MOST_LINE_BYTES} bytes; cut its comment, or the line",
}
TOO_MANY = {
    "too large: bytes": f"the file has more than {MOST_BYTES} bytes",
    "too large: lines": "the file has more lines below its head than check_main takes",
}


def refused(source: Source, status: int, words: str) -> Finding:
    """The finding of a text that check_main refuses, from its own words, without cures."""
    found = re.fullmatch(r"bad input: (?:head )?(?:line ([0-9]+) )?([A-Za-z0-9]+)", words)
    if found and found[2] in REFUSED:
        cause = found[2]
        number = int(found[1] or 1)
        if cause == "NoCarriers":
            number = nearly_carriers(source) or 1
        token = place_of_refusal(source, cause, number)
        message = REFUSED[cause](source, token)
        return Finding(source.name, number, token.column, token.end, "error", cause, message)
    if status == Status.TOO_LARGE:
        return fault(source.name, "TooLarge", TOO_MANY.get(words, shown(words)))
    if status == Status.NO_MEMORY:
        return fault(source.name, "NoMemory", "memory ran out in check_main")
    return fault(source.name, "NoAnswer", f"check_main ended with status {status}: {shown(words) or 'no words'}")


def refusal(program: Program, source: Source, status: int, words: str) -> Finding:
    """The finding of a text that check_main refuses, with the cures that were tried."""
    finding = refused(source, status, words)
    cause, number = finding.rule, finding.line
    if cause not in REFUSED:
        return finding
    token = place_of_refusal(source, cause, number)
    cures = tuple(cure for cure in cures_of(source, cause, number, token) if is_taken(program, source, cure, cause))
    return finding._replace(cures=cures)


def is_taken(program: Program, source: Source, cure: Cure, cause: str) -> bool:
    """Whether check_main doesn't refuse the text for the same cause any more."""
    answer = program.check(cure.of(source).data)
    return bool(answer.verdict) or cause not in answer.refusal


def cures_of(source: Source, cause: str, number: int, token: Token) -> Iterator[Cure]:
    """The edits that may cure a refusal, the likeliest first."""
    line = source.line(number)
    if cause == "BadMagic" and len(source.data) <= MOST_BYTES:
        yield from cures_of_magic(source)
    elif cause == "NoCarriers":
        yield from cures_of_carriers(source)
    elif cause == "TwoCarriers":
        first = source.carriers_lines()[0]
        names = dict.fromkeys(it.text for at in (first, number) for it in source.names(at))
        between = (source.line(at) for at in range(first + 1, number))
        yield Cure("write all names into one", first, number, (f"{CARRIERS_HEADER} {' '.join(names)}", *between))
    elif cause == "CarrierNameTwice":
        kept = line[: token.column - 1].rstrip() + line[token.end - 1 :]
        yield Cure(f"leave `{shown(token.text)}` out", number, number, (kept,))
    elif cause == "NotUtf8":
        yield Cure("read the line as Latin-1", number, number, (source.raw(number).decode("latin-1"),))
    elif cause == "LineLong" and ";" in line[:MOST_LINE_BYTES]:
        yield Cure("cut the comment", number, number, (line.partition(";")[0].rstrip(),))


def cures_of_magic(source: Source) -> Iterator[Cure]:
    """The edits that may cure a wrong first line."""
    near = nearly_magic(source)
    if near:
        yield Cure(f"begin with `{MAGIC}`", 1, near, (MAGIC,))
    elif source.data.startswith(b"\xef\xbb\xbf"):
        yield Cure("leave the byte-order mark out", 1, 1, (source.line(1).lstrip("\ufeff"),))
    elif source.carriers_lines():
        yield Cure(f"begin with `{MAGIC}`", 1, 0, (MAGIC,))


def cures_of_carriers(source: Source) -> Iterator[Cure]:
    """The edits that may cure a head without carriers."""
    near = nearly_carriers(source)
    if near:
        names = re.split(r"[:=]|carriers?\b", source.line(near), flags=re.I)[-1].replace(",", " ").split()
        line = f"{CARRIERS_HEADER} {' '.join(names)}"
        yield Cure(f"write `{shown(line)}`", near, near, (line,))
        return
    line = f"{CARRIERS_HEADER} {' '.join(used_names(source))}".rstrip()
    yield Cure(f"`{shown(line)}` below the first line", 2, 1, (line,))


def used_names(source: Source) -> list[str]:
    """The carriers that the body names, numbers in their order."""
    names = set()
    for piece in set(source.pieces[source.head_length :]):
        words = re.findall(r"[^ \t\r]+", piece.decode(errors="replace").partition(";")[0])
        shape = SHAPES.get(words[0]) if words else None
        names.update(words[shape.carriers :] if shape and shape.carriers else [])
    return sorted(names, key=lambda name: (len(name), name))
