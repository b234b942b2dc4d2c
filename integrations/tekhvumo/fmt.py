"""The canonical text, in place."""
from __future__ import annotations

import errno
import os
import shutil
import tempfile

from .findings import Finding, Report, fault
from .lines import Source, shown
from .program import Program, Status
from .refusals import refusal


def first_difference(old: Source, new: Source) -> int:
    """The first line in which two texts differ."""
    pairs = zip(old.pieces, new.pieces)
    differing = (number for number, (one, other) in enumerate(pairs, 1) if one != other)
    return next(differing, min(len(old.pieces), len(new.pieces)))


def reads_otherwise(program: Program, old: Source, new: Source) -> Finding | None:
    """Where the canonical text of a text would read otherwise than it does, and why; None where it doesn't."""
    if new.head_length != old.head_length:
        message = (
            "without the blanks before it this comment belongs to the head; take them away, or move it down, by hand"
        )
        return Finding(old.name, old.head_length + 1, 1, 2, "error", "ReadsOtherwise", message)
    status, again = program.canonical(new.data)
    if status or again != new.data:
        number = first_difference(new, Source("", again))
        message = "the line ends with several carriage returns, and each writing would drop one; remove them by hand"
        return Finding(old.name, number, 1, 2, "error", "ReadsOtherwise", message)
    return None


def canonical_text(program: Program, source: Source) -> tuple[Source, Report]:
    """The canonical text; or the text as it is, with the reason why it stays."""
    status, output = program.canonical(source.data)
    if status:
        return source, Report([refusal(program, source, status, output.decode(errors="replace").strip())], status)
    new = Source(source.name, output)
    otherwise = reads_otherwise(program, source, new)
    return (source, Report([otherwise], Status.BROKEN)) if otherwise else (new, Report([], Status.SOUND))


def write_over(path: str, old: bytes, new: bytes) -> None:
    """Puts a new file in the place of one, with its permissions and owner, unless the file has changed meanwhile."""
    target = os.path.realpath(path)
    handle, made = tempfile.mkstemp(prefix=".tekhvumo-", dir=os.path.dirname(target))
    try:
        with os.fdopen(handle, "wb") as file:
            file.write(new)
            file.flush()
            os.fsync(file.fileno())
        if not os.access(target, os.W_OK):
            raise OSError(errno.EACCES, os.strerror(errno.EACCES))
        stat = os.stat(target)
        if os.geteuid() == 0:
            os.chown(made, stat.st_uid, stat.st_gid)
        shutil.copymode(target, made)
        with open(target, "rb") as file:
            if file.read() != old:
                raise OSError(0, "the file was changed meanwhile")
        os.replace(made, target)
    except BaseException:
        os.unlink(made)
        raise


def not_canonical(old: Source, new: Source) -> Finding:
    """Where a text first differs from its canonical one."""
    number = first_difference(old, new)
    said = f"the canonical text has `{shown(new.line(number))}` here; `tekhvumo fmt` writes it"
    if old.line(number) == new.line(number):
        # (the lines look alike)
        has_return = old.raw(number) != old.pieces[number - 1]
        said = "the line ends with a carriage return" if has_return else "the last line has no line feed"
        said += "; `tekhvumo fmt` mends it in all lines" if has_return else "; `tekhvumo fmt` writes it"
    return Finding(old.name, number, 1, len(old.line(number)) + 1, "error", "NotCanonical", said)


def formatted(program: Program, path: str, source: Source, only_check: bool) -> Report:
    """Writes the canonical text of a file over it, or only says where it differs."""
    new, report = canonical_text(program, source)
    if report.findings or new.data == source.data:
        return report
    if only_check:
        return Report([not_canonical(source, new)], Status.BROKEN)
    try:
        write_over(path, source.data, new.data)
    except OSError as trouble:
        return Report([fault(path, "WriteFault", f"{trouble.strerror}; the file is as it was")], Status.WRITE_FAULT)
    return report
