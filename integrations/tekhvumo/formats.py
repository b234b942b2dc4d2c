"""How findings are written: text, JSON, commands for GitHub, SARIF."""
from __future__ import annotations

import json
import os
from typing import Any, Callable, Sequence

from .findings import SUMMARIES, Finding
from .lines import shown
from .version import VERSION


def as_text(findings: Sequence[Finding]) -> str:
    lines = [f"{shown(it.file, 4096)}:{it.line}:{it.column}: {it.level}: {it.rule}: {it.message}\n" for it in findings]
    return "".join(lines)


def as_json(findings: Sequence[Finding]) -> str:
    found = [{**it._asdict(), "cures": [cure._asdict() for cure in it.cures]} for it in findings]
    return json.dumps(found, indent=1) + "\n"


def as_github(findings: Sequence[Finding]) -> str:
    """Commands that GitHub's runners turn into annotations."""

    def escaped(text: str, codes: str = "%\r\n") -> str:
        return "".join(f"%{ord(it):02X}" if it in codes else it for it in text)

    def command(it: Finding) -> str:
        values = {"file": it.file, "line": it.line, "col": it.column, "endColumn": it.end_column, "title": it.rule}
        said = ",".join(f"{key}={escaped(str(value), '%:,' + chr(13) + chr(10))}" for key, value in values.items())
        return f"::{it.level} {said}::{escaped(it.message)}\n"

    return "".join(map(command, findings))


def as_sarif(findings: Sequence[Finding]) -> str:
    """A log of SARIF 2.1.0."""
    from pathlib import Path
    from urllib.parse import quote

    # (which have the sentences of rules and refusals)
    from . import hints, refusals, warning_names

    del hints, refusals, warning_names
    names = sorted({it.rule for it in findings})
    rules = [{"id": name, "shortDescription": {"text": SUMMARIES.get(name, name)}} for name in names]

    def result(it: Finding) -> dict[str, Any]:
        path = it.file if os.path.isabs(it.file) else os.path.normpath(it.file)
        uri = Path(path).as_uri() if os.path.isabs(path) else quote(os.fsencode(path))
        region = {"startLine": it.line, "startColumn": it.column, "endColumn": it.end_column}
        place = {"physicalLocation": {"artifactLocation": {"uri": uri}, "region": region}}
        return {
            "ruleId": it.rule,
            "ruleIndex": names.index(it.rule),
            "level": it.level,
            "message": {"text": it.message},
            "locations": [place],
        }

    driver = {"name": "tekhvumo", "version": VERSION, "rules": rules}
    run = {"tool": {"driver": driver}, "columnKind": "unicodeCodePoints", "results": [result(it) for it in findings]}
    schema = "https://json.schemastore.org/sarif-2.1.0.json"
    return json.dumps({"$schema": schema, "version": "2.1.0", "runs": [run]}, indent=1) + "\n"


FORMATS: dict[str, Callable[[Sequence[Finding]], str]] = {
    "text": as_text,
    "json": as_json,
    "github": as_github,
    "sarif": as_sarif,
}
