"""The command tekhvumo.

    tekhvumo [check] [options] FILE..         findings, as FILE:LINE:COLUMN: error: RULE: what is wrong; its cure
    tekhvumo fmt [--check] [options] FILE..   the canonical text, in place
    tekhvumo draw [options] FILE > FILE.svg   a picture of the loops
    tekhvumo lsp [options]                    a language server, over standard input and output
    tekhvumo share [options] FILE             a bridge for several editors on one file, over a Unix socket beside it

FILE is - for standard input, or a folder, which stands for the knitout files in it. Lines count from 1, and so do
columns, which count characters.
"""
from __future__ import annotations

import argparse
import io
import os
import sys
from typing import TYPE_CHECKING, Callable, Sequence

from .files import each_file, expanded, read_file, unreadable_file
from .findings import Finding, Report
from .formats import FORMATS, as_text
from .judge import judged
from .lines import Source
from .program import BOUNDS, Program, SetupFault, Status, find_program
from .settings import FILE, Settings, Wishes, settings_of
from .version import VERSION
from .warning_names import WARNINGS

# What one command alone needs is read where it is called, since reading it takes longer than checking a short file.
if TYPE_CHECKING:
    from .pictures import Range

HELP = {
    "low": "the lowest needle (-1024)",
    "high": "the highest needle (1023)",
    "rack": "how far the beds rack, in needles (8)",
    "hold": "loops that a needle may hold (16)",
    "float": "needle numbers from one loop of a carrier to the next (any)",
}


class Check:
    """The judging of a file, as other processes can have it, too."""

    def __init__(self, program: str, wishes: Wishes, name: str, is_warned: bool = False) -> None:
        self.program = program
        self.wishes = wishes
        self.name = name
        self.is_warned = is_warned

    def settings(self, source: Source, path: str) -> Settings:
        """What holds for a file; for standard input, as if it lay where its name says."""
        return settings_of(source, self.name if path == "-" else path, self.wishes)

    def source(self, path: str) -> Source:
        """The file, under the name that findings give it."""
        return read_file(path, self.name if path == "-" else path)

    def __call__(self, path: str) -> Report:
        source = self.source(path)
        settings = self.settings(source, path)
        return judged(Program(self.program, settings.limits), source, settings, self.is_warned)


class Format(Check):
    """The writing of a file's canonical text over it."""

    def __init__(self, program: str, wishes: Wishes, name: str, only_check: bool) -> None:
        super().__init__(program, wishes, name)
        self.only_check = only_check

    def __call__(self, path: str) -> Report:
        from .fmt import formatted

        source = self.source(path)
        program = Program(self.program, self.settings(source, path).limits)
        return formatted(program, path, source, self.only_check)


# ---------------------------------------------------------------- options


def number(name: str, least: int, most: int) -> Callable[[str], int]:
    """Reads a number between bounds."""

    def read(word: str) -> int:
        try:
            value = int(word)
        except ValueError:
            value = most + 1
        if not least <= value <= most:
            raise argparse.ArgumentTypeError(f"{name} is {least} to {most}, not {word}")
        return value

    return read


class Help(argparse.HelpFormatter):
    """How help is written; argparse makes one for each option, and would read `shutil` in for the width alone."""

    def __init__(self, prog: str) -> None:
        try:
            width = os.get_terminal_size().columns
        except OSError:
            width = 80
        super().__init__(prog, width=width - 2)


def common_parser(command: str, does: str) -> argparse.ArgumentParser:
    """The options of all commands."""
    name = f"tekhvumo {command}".rstrip()
    parser = argparse.ArgumentParser(prog=name, description=does, allow_abbrev=False, formatter_class=Help)
    parser.add_argument("--version", action="version", version=f"tekhvumo {VERSION}")
    limits = parser.add_argument_group("limits of the machine", f"else those of the nearest {FILE}, or as in brackets")
    for name, (least, most) in BOUNDS.items():
        bounds = f"; {least} to {most}"
        limits.add_argument(f"--{name}", type=number(name, least, most), metavar="N", help=HELP[name] + bounds)
    parser.add_argument(
        "--program", metavar="PATH", help="check_main, if not TEKHVUMO_PROGRAM, with this command, or on the PATH"
    )
    parser.add_argument("--name", metavar="NAME", default="-", help="what findings call standard input")
    return parser


def many_parser(command: str, does: str) -> argparse.ArgumentParser:
    """The options of the commands that take many files."""
    parser = common_parser(command, does)
    parser.add_argument("files", nargs="+", metavar="FILE", help="a knitout file, a folder, or - for standard input")
    parser.add_argument("--format", choices=FORMATS, default="text", help="how findings are written (text)")
    parser.add_argument(
        "--jobs",
        type=number("jobs", 1, 1024),
        default=os.cpu_count() or 1,
        metavar="N",
        help="files at a time (one for each processor)",
    )
    return parser


def check_parser() -> argparse.ArgumentParser:
    """The options of check."""
    parser = many_parser(
        "check",
        "Says which rules a program breaks, where, and what cures it. Status: 0 sound, 1 a rule broken, else refused.",
    )
    parser.epilog = "Other commands: tekhvumo fmt, draw, lsp, share; each has a --help."
    parser.add_argument(
        "--warn", action="store_true", help="also say what a knitter calls a mistake: " + ", ".join(WARNINGS)
    )
    for option, does in (("--ignore", "leave a warning out"), ("--also", "ask for a warning that is left out")):
        parser.add_argument(
            option, action="append", choices=WARNINGS, default=[], metavar="NAME", help=f"{does}; as often as needed"
        )
    parser.add_argument("--strict", action="store_true", help="warn, and end with status 1 where a warning is written")
    return parser


def line_range(word: str) -> Range:
    """A range of lines, or what argparse says of a word that is none."""
    from .pictures import Range

    try:
        return Range.of(word)
    except ValueError as trouble:
        raise argparse.ArgumentTypeError(str(trouble)) from trouble


def wishes_of(options: argparse.Namespace) -> Wishes:
    """What the command line asks for."""
    numbers = {name: getattr(options, name) for name in BOUNDS if getattr(options, name) is not None}
    return Wishes(numbers, frozenset(getattr(options, "ignore", [])), frozenset(getattr(options, "also", [])))


# ---------------------------------------------------------------- commands


def write_findings(options: argparse.Namespace, findings: Sequence[Finding]) -> None:
    """Writes findings in the format that is asked for."""
    print(FORMATS[options.format](findings), end="")


def write_count(options: argparse.Namespace, reports: Sequence[Report]) -> None:
    """Says how many files are broken: of several files, and of one on a terminal."""
    if options.format != "text" or (len(reports) == 1 and not sys.stderr.isatty()):
        return
    broken = sum(report.status == Status.BROKEN for report in reports)
    refused = sum(report.status > Status.BROKEN for report in reports)
    warned = sum(finding.level == "warning" for report in reports for finding in report.findings)
    said = f"{len(reports)} file{'s' if len(reports) > 1 else ''}, {broken or 'none'} broken"
    said += f", {refused} refused" if refused else ""
    said += f", {warned} warning{'s' if warned > 1 else ''}" if warned else ""
    sys.stdout.flush()
    print(said, file=sys.stderr)


def check_command(words: Sequence[str]) -> int:
    """Judges files."""
    options = check_parser().parse_intermixed_args(words)
    wishes = wishes_of(options)
    work = Check(find_program(options.program), wishes, options.name, options.warn or options.strict)
    reports = list(each_file(expanded(options.files), options.jobs, work))
    findings = [finding for report in reports for finding in report.findings]
    write_findings(options, findings)
    write_count(options, reports)
    return max([report.status for report in reports] + [int(options.strict and bool(findings))])


def fmt_command(words: Sequence[str]) -> int:
    """Writes canonical texts."""
    from .fmt import canonical_text

    parser = many_parser(
        "fmt", "Writes the canonical text of a knitout file over it; of standard input, to standard output."
    )
    parser.add_argument(
        "--check", action="store_true", help="write nothing, and end with status 1 where a file isn't canonical"
    )
    options = parser.parse_intermixed_args(words)
    work = Format(find_program(options.program), wishes_of(options), options.name, options.check)
    if "-" in options.files and len(options.files) > 1:
        parser.error("standard input is formatted alone")
    if options.files == ["-"] and not options.check:
        source = work.source("-")
        new, report = canonical_text(Program(work.program, work.settings(source, "-").limits), source)
        sys.stdout.buffer.write(new.data)
        print(FORMATS[options.format](report.findings), end="", file=sys.stderr)
        return report.status
    reports = list(each_file(expanded(options.files), options.jobs, work))
    write_findings(options, [finding for report in reports for finding in report.findings])
    return max(report.status for report in reports)


def draw_command(words: Sequence[str]) -> int:
    """Draws a program."""
    from .pictures import drawn

    parser = common_parser(
        "draw", "Writes a picture of the loops that a knitout program makes, as SVG, to standard output."
    )
    parser.add_argument("file", metavar="FILE", help="a knitout file, or - for standard input")
    parser.add_argument("--lines", metavar="A-B", type=line_range, help="draw the loops of these lines alone")
    parser.add_argument(
        "--beds",
        choices=["apart", "together"],
        help="draw front and back as two panels, as of a tube, or as one (what the program looks like)",
    )
    options = parser.parse_intermixed_args(words)
    work = Check(find_program(options.program), wishes_of(options), options.name)
    try:
        source = work.source(options.file)
    except OSError as trouble:
        picture, report = "", unreadable_file(options.file, trouble)
    else:
        settings = work.settings(source, options.file)
        apart = options.beds == "apart" if options.beds else None
        picture, report = drawn(Program(work.program, settings.limits), source, settings, options.lines, apart)
    print(as_text(report.findings), end="", file=sys.stderr)
    print(picture, end="")
    return report.status


def lsp_command(words: Sequence[str]) -> int:
    """Serves an editor."""
    from .lsp import serve

    parser = common_parser("lsp", "A language server for knitout programs, over standard input and output.")
    parser.add_argument("--stdio", action="store_true", help="as it does in any case")
    options = parser.parse_args(words)
    heard = open(sys.stdin.fileno(), "rb", closefd=False)
    status = serve(heard, sys.stdout.buffer, find_program(options.program), wishes_of(options))
    # (a thread still waits for the next message, and Python would have to take its stream away from it)
    sys.stdout.flush()
    os._exit(status)


def share_command(words: Sequence[str]) -> int:
    """Shares a file among several editors."""
    from .refusals import refusal
    from .serve import OpeningRefused
    from .share.bridge import share
    from .share.document import Document

    parser = common_parser("share", "Lets several editors change one file, over a Unix socket, until a signal ends it.")
    parser.add_argument("file", metavar="FILE", help="a knitout file; FILE.journal tells what they did")
    parser.add_argument("--socket", metavar="PATH", help="where the socket is (FILE.socket)")
    parser.add_argument(
        "--block", type=number("block", 1, 4096), default=64, metavar="N", help="lines in a block at the beginning (64)"
    )
    parser.add_argument(
        "--pause", type=number("pause", 0, 60_000), default=50, metavar="MS", help="between two writings of the journal (50)"
    )
    options = parser.parse_intermixed_args(words)
    work = Check(find_program(options.program), wishes_of(options), options.name)
    try:
        # (a file that isn't there may have a journal all the same)
        source = work.source(options.file) if os.path.exists(options.file) else Source(options.file, b"")
        limits = work.settings(source, options.file).limits
        socket = options.socket or f"{options.file}.socket"
        share(lambda: Document(options.file, work.program, limits, options.block), socket, options.pause / 1000)
        return Status.SOUND
    except OpeningRefused as trouble:
        report = Report([refusal(Program(work.program, limits), source, trouble.status, trouble.words)], trouble.status)
    except OSError as trouble:
        report = unreadable_file(options.file, trouble)
    print(as_text(report.findings), end="", file=sys.stderr)
    return report.status


COMMANDS = {
    "check": check_command,
    "fmt": fmt_command,
    "draw": draw_command,
    "lsp": lsp_command,
    "share": share_command,
}


def main(words: Sequence[str] | None = None) -> int:
    """Runs a command with words, those of the command line if none are given, and gives its status."""
    words = sys.argv[1:] if words is None else words
    for stream in (sys.stdout, sys.stderr):
        assert isinstance(stream, io.TextIOWrapper)
        stream.reconfigure(encoding="utf-8", errors="backslashreplace")
    command = COMMANDS.get(words[0]) if words else None
    try:
        status = command(words[1:]) if command else check_command(words)
        sys.stdout.flush()
        return status
    except SetupFault as trouble:
        print(f"tekhvumo: {trouble}", file=sys.stderr)
        return Status.USAGE
    except BrokenPipeError:
        # Whoever read the output has enough of it; nothing is left to flush at the end.
        os.dup2(os.open(os.devnull, os.O_WRONLY), sys.stdout.fileno())
        return Status.WRITE_FAULT
    except KeyboardInterrupt:
        from signal import SIGINT

        return Status.SIGNAL + SIGINT
