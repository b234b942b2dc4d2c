"""An open document: its text, the verdict on it, and the findings that were last worked out."""
from __future__ import annotations

import os
from typing import Any, Callable
from urllib.parse import unquote, urlsplit

# (which has the sentences of the rules)
from .. import hints
from ..findings import SUMMARIES, Cure, Finding
from ..lines import Source, runs
from ..program import Broken
from ..refusals import refused
from ..settings import Wishes
from .text import Change, Text, range_in
from .verdicts import Refusal, Told, Verdicts

del hints
SEVERITIES = {"error": 1, "warning": 2}
# More aren't looked at, and each is told again at each key.
MOST_TOLD = 400


def path_of(uri: str, folder: str) -> str:
    """The file of a document; for one that isn't saved, where it would lie in the folder that is worked on."""
    parts = urlsplit(uri)
    if parts.scheme == "file":
        return os.path.normpath(unquote(parts.path))
    return os.path.join(folder, os.path.basename(unquote(parts.path)) or "unsaved")


class Document:
    """A document that an editor has open."""

    def __init__(self, uri: str, version: int | None, text: str, program: str, folder: str, wishes: Wishes) -> None:
        self.uri = uri
        self.version = version
        self.path = path_of(uri, folder)
        self.text = Text(text)
        self.verdicts = Verdicts(program, self.path, self.text, wishes)
        self.told: Told = None
        # What was worked out, with the lines that it has by now, and whether the mistakes are of the text as it is.
        self.findings: list[Finding] = []
        self.has_mistakes = False
        # What was asked of the text as it is, by kinds.
        self.kept: dict[Any, Any] = {}
        # The jobs that look for all that there is to find, and for the first cures.
        self.job = self.cures_job = 0
        self.trouble_told = ""
        self.due: float | None = None
        # Requests for cures that wait for the findings.
        self.waiting: list[tuple[Any, dict[str, Any]]] = []

    def change(self, changes: list[dict[str, Any]], version: int | None, seen: Callable[[list[str]], None] | None = None) -> None:
        """Carries out changes, one after the other; `seen` is given the lines behind each."""
        for it in changes:
            if "range" in it:
                self.note(self.text.replace(it["range"]["start"], it["range"]["end"], it["text"]))
            else:
                end = {"line": len(self.text.lines), "character": 0}
                self.note(self.text.replace({"line": 0, "character": 0}, end, it["text"]))
            if seen:
                seen(list(self.text.lines))
        self.version = version
        self.has_mistakes = False
        self.kept.clear()

    def note(self, change: Change) -> None:
        """Moves what was found along with its lines; what was found in lines that aren't there any more is gone."""
        self.verdicts.changed(change)
        kept = []
        for finding in self.findings:
            if finding.line - 1 < change.first:
                kept.append(finding._replace(cures=()))
            elif finding.line - 1 >= change.end:
                kept.append(finding._replace(line=finding.line + change.grows, cures=()))
        self.findings = kept

    def judge(self) -> None:
        """Asks for the verdict, and keeps of the findings what may still hold."""
        self.told = self.verdicts.told()
        if self.told is None:
            self.findings = [it for it in self.findings if it.level == "warning"]
        elif isinstance(self.told, Refusal):
            self.findings = [self.quick_finding()]
        else:
            line, rule = self.told.line, self.told.rule
            warned = [it for it in self.findings if it.level == "warning" and it.line < line]
            first = [it for it in self.findings if it.level == "error" and (it.line, it.rule) == (line, rule)]
            others = [it for it in self.findings if it.level == "error" and it.line > line]
            self.findings = [*warned, *(first[:1] or [self.quick_finding()]), *others]

    def take_mistakes(self, mistakes: list[Finding]) -> None:
        """Takes mistakes that were found; the warnings are those of before, until others are known."""
        self.findings = [*(it for it in self.findings if it.level == "warning"), *mistakes]

    def quick_finding(self) -> Finding:
        """The verdict as a finding, as long as the cures aren't tried."""
        if isinstance(self.told, Refusal):
            return refused(self.source(), self.told.status, self.told.words)
        assert isinstance(self.told, Broken)
        line, rule, at = self.told
        tokens = runs(self.line(line).partition(";")[0])
        column, end = tokens[at][1:] if at < len(tokens) else (1, 2)
        return Finding(self.path, line, column, end, "error", rule, SUMMARIES.get(rule, "the line breaks this rule"))

    def line(self, number: int) -> str:
        """The text of a line, which counts from 1."""
        lines = self.text.lines
        return lines[number - 1].removesuffix("\r") if 0 < number <= len(lines) else ""

    def source(self) -> Source:
        """The text as a file has it."""
        if "source" not in self.kept:
            self.kept["source"] = Source(self.path, self.text.whole())
        source: Source = self.kept["source"]
        return source

    def range_of(self, finding: Finding) -> dict[str, Any]:
        """The range of a finding."""
        number = min(finding.line, len(self.text.lines))
        return range_in(self.line(number), number - 1, finding.column - 1, finding.end_column - 1)

    def diagnostic(self, finding: Finding) -> dict[str, Any]:
        """A finding as the protocol tells it."""
        return {
            "range": self.range_of(finding),
            "severity": SEVERITIES[finding.level],
            "code": finding.rule,
            "source": "tekhvumo",
            "message": finding.message,
        }

    def diagnostics(self) -> dict[str, Any]:
        """The findings as the protocol tells them."""
        told = [self.diagnostic(it) for it in self.findings[:MOST_TOLD]]
        version = {} if self.version is None else {"version": self.version}
        return {"uri": self.uri, **version, "diagnostics": told}

    def edit(self, cure: Cure) -> dict[str, Any]:
        """The edit of a cure, as the protocol tells it."""
        lines = self.text.lines
        feed = "\r\n" if lines[0].endswith("\r") else "\n"
        new = "".join(f"{line}{feed}" for line in cure.lines)
        first, end = cure.first - 1, cure.last
        if end < len(lines):
            return {"range": place_range(first, 0, end, 0), "newText": new}
        # (the last line has no line feed, and gets none by a cure)
        last = len(lines) - 1
        units = range_in(lines[last], last, 0, len(lines[last]))["end"]["character"]
        if first > last:
            return {"range": place_range(last, units, last, units), "newText": f"{feed}{new}".removesuffix(feed)}
        if not cure.lines and first > 0:
            before = lines[first - 1].removesuffix("\r")
            begin = range_in(before, 0, 0, len(before))["end"]["character"]
            return {"range": place_range(first - 1, begin, last, units), "newText": ""}
        return {"range": place_range(first, 0, last, units), "newText": new.removesuffix(feed)}


def place_range(line: int, units: int, end_line: int, end_units: int) -> dict[str, Any]:
    """A range by its ends."""
    return {"start": {"line": line, "character": units}, "end": {"line": end_line, "character": end_units}}
