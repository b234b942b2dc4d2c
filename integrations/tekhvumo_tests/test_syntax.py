"""Syntax files: what they make of the words of knitout, by the package's own reading of lines."""
from __future__ import annotations

import json
import re
import shutil
import unittest
from typing import Any, Iterator

from tekhvumo.instructions import SHAPES, Part
from tekhvumo.lines import runs

from .case import HERE, MOST_SECONDS, PROGRAMS, Case

EXAMPLES = {
    Part.DIRECTION: ["+", "-"],
    Part.NEEDLE: ["f1", "b20", "fs-3", "bs+004", "f-0"],
    Part.NUMBER: ["0", "-1", "+2.5", ".25", "3.", "-007"],
    Part.CARRIER: ["1", "A", "f1", "+", "x-", "in", "\u00e9"],
    Part.ANYTHING: ["1", "f1", "+", "-0.5", "#ff00ff"],
}
BROKEN = ["Knit + f1 1", "knit f1 1", "knit + F1 1", "tuck + f1.5 1", "split + f1 1", "xfer f1", "xfer f1 b1 1", "drop", "rack",
          "rack 1,5", "rack 1 2", "amiss f1 b1", "kn\u0131t + f1 1", "inhook2 1", "miss * f1", "in", "f1 in 1", "rack 1.5.2"]
# What Vim's groups and the grammar's scopes are of.
VIM = {
    "word": "Yarn|Form|Split|Move|Drop|Racking|Other",
    "direction": "Direction|DirectionOfSplit",
    "needle": "Needle|NeedleFrom|NeedleTo|NeedleMoved",
    "number": "Rack",
    "carrier": "Carrier",
    "anything": "Anything",
    "comment": "Comment",
    "key": "Key",
    "header": "Header",
    "magic": "Magic",
    "error": "Error",
}
SCOPES = {
    "keyword.operation": "word",
    "support.function.extension": "word",
    "keyword.operator.direction": "direction",
    "constant.other.needle": "needle",
    "constant.numeric.rack": "number",
    "variable.other.carrier": "carrier",
    "string.unquoted.extension": "anything",
    "comment.line": "comment",
    "keyword.other.header": "key",
    "string.unquoted.header": "header",
    "keyword.control.magic": "magic",
    "invalid.illegal": "error",
}
KINDS = {Part.DIRECTION: "direction", Part.NEEDLE: "needle", Part.NUMBER: "number", Part.CARRIER: "carrier", Part.ANYTHING: "anything"}


def parts_of(word: str) -> list[Part]:
    """What may stand behind a word: the last part twice where it may come as often as one likes."""
    parts = list(SHAPES[word].parts) if word in SHAPES else [Part.ANYTHING]
    return [*parts, parts[-1]] if parts[-1] in (Part.CARRIER, Part.ANYTHING) else parts


def instructions() -> Iterator[tuple[str, list[str]]]:
    """Lines of each instruction with each example of each of its parts, and what their tokens are."""
    for word in [*SHAPES, "x-vis-color", "x-"]:
        parts = parts_of(word)
        kinds = ["word", *(KINDS[it] for it in parts)]
        for place, part in enumerate(parts):
            for example in EXAMPLES[part]:
                tokens = [word, *(EXAMPLES[it][0] for it in parts)]
                tokens[place + 1] = example
                yield " ".join(tokens), kinds
                yield "\t " + "  \t".join(tokens) + " ", kinds
                yield " ".join(tokens) + ";as it is; in 1", [*kinds, "comment"]


def lines_of_files() -> list[str]:
    """The lines of sound programs."""
    return sorted({line for path in (PROGRAMS / "good").glob("*.k") for line in path.read_text().splitlines()})


def kinds_of(line: str) -> list[str]:
    """What the tokens of a line of a sound program are, and its comment."""
    code, sign, _ = line.partition(";")
    tokens = [token.text for token in runs(code)]
    if not tokens:
        return ["comment"] if sign else []
    parts = list(SHAPES[tokens[0]].parts) if tokens[0] in SHAPES else [Part.ANYTHING]
    parts += [parts[-1]] * len(tokens)
    return ["word", *(KINDS[it] for it in parts[: len(tokens) - 1]), *(["comment"] if sign else [])]


def places(line: str) -> list[int]:
    """Where the tokens of a line begin, and its comment."""
    code, sign, _ = line.partition(";")
    return [*(token.column - 1 for token in runs(code)), *([len(code)] if sign else [])]


class Grammar:
    """A grammar of TextMate, as far as it is used: patterns that match within a line, with captures."""

    def __init__(self, said: dict[str, Any]) -> None:
        self.patterns = [(re.compile(it["match"]), it) for it in said["patterns"]]

    def scopes(self, line: str) -> list[str]:
        """The scope of each character."""
        found = [""] * len(line)
        at = 0
        while at < len(line):
            matches = [(it.start(), rank, it) for rank, (form, _) in enumerate(self.patterns) if (it := form.search(line, at))]
            if not matches:
                break
            _, rank, match = min(matches, key=lambda it: it[:2])
            said = self.patterns[rank][1]
            names = {0: said["name"]} if "name" in said else {int(key): it["name"] for key, it in said["captures"].items()}
            for group, name in names.items():
                for place in range(*match.span(group)):
                    found[place] = name
            at = max(match.end(), at + 1)
        return found

    def kinds(self, line: str) -> list[str]:
        """What a line's tokens are, and its comment."""
        scopes = self.scopes(line)
        return [kind_of_scope(scopes[place]) for place in places(line)]


def kind_of_scope(scope: str) -> str:
    """What a scope is of."""
    return next((kind for front, kind in SCOPES.items() if scope.startswith(front)), scope)


class VsCode(unittest.TestCase):
    def setUp(self) -> None:
        self.folder = HERE / "vscode" / "knitout"
        self.grammar = Grammar(json.loads((self.folder / "syntaxes" / "knitout.tmLanguage.json").read_text()))

    def test_instructions(self) -> None:
        for line, kinds in instructions():
            self.assertEqual(self.grammar.kinds(line), kinds, line)
        for line in lines_of_files():
            if not line.startswith(";"):
                self.assertEqual(self.grammar.kinds(line), kinds_of(line), line)

    def test_heads_and_broken_lines(self) -> None:
        for line, kind in (("; ;;Carriers: 1", "comment"), (";!knitout-2 ", "magic"), (";;Carriers: 1 2", "key"), (";!", "comment")):
            self.assertEqual(kind_of_scope(self.grammar.scopes(line)[0]), kind, line)
        self.assertEqual(kind_of_scope(self.grammar.scopes(";;Carriers: 1 2")[-1]), "header")
        for line in BROKEN:
            self.assertIn("error", self.grammar.kinds(line), line)

    def test_what_the_extension_names_is_there(self) -> None:
        said = json.loads((self.folder / "package.json").read_text())
        [language], [grammar] = said["contributes"]["languages"], said["contributes"]["grammars"]
        for name in (said["main"], language["configuration"], grammar["path"]):
            self.assertTrue((self.folder / name).is_file(), name)
        self.assertEqual(grammar["language"], language["id"])
        configuration = json.loads((self.folder / language["configuration"]).read_text())
        form = re.compile(configuration["wordPattern"])
        self.assertEqual(form.findall("knit  + f-1\tA;x"), ["knit", "+", "f-1", "A", "x"])
        self.assertTrue(re.search(language["firstLine"], ";!knitout-2"))


@unittest.skipUnless(shutil.which("vim"), "Vim isn't there")
class Vim(Case):
    def groups(self, lines: list[str]) -> list[list[str]]:
        """What Vim makes of the tokens of each line, and of its comment."""
        shutil.copytree(HERE / "vim", self.room / "runtime")
        self.write("a b.knitout", "".join(f"{line}\n" for line in lines))
        # (columns count bytes)
        columns = [[len(line[:place].encode()) + 1 for place in places(line)] for line in lines]
        self.write("places.json", json.dumps(columns))
        self.write("tell.vim", (
            "let places = json_decode(readfile('places.json')[0])\n"
            "let told = map(places, {line, columns -> map(columns, {_, it -> synIDattr(synID(line + 1, it, 1), 'name')})})\n"
            "call writefile([json_encode({'type': &filetype, 'told': told})], 'told.json')\nqall!\n"
        ))
        words = ["-c", "set runtimepath^=runtime", "-c", "filetype on", "-c", "syntax on", "-c", "edit a\\ b.knitout", "-S", "tell.vim"]
        self.environment.update(LC_ALL="C.UTF-8")
        self.run_command("timeout", str(MOST_SECONDS), "vim", "-u", "NONE", "-N", "-es", *words)
        told = json.loads((self.room / "told.json").read_text())
        self.assertEqual(told["type"], "knitout")
        names = {f"knitout{name}": kind for kind, names in VIM.items() for name in names.split("|")}
        return [[names.get(it, it) for it in line] for line in told["told"]]

    def test_the_words_of_the_format(self) -> None:
        rows = [(";!knitout-2", ["magic"]), (";;Carriers: 1 2", ["key"]), ("; ;;Carriers: 1", ["comment"])]
        rows += [*instructions(), *((line, kinds_of(line)) for line in lines_of_files() if not line.startswith(";"))]
        found = self.groups([line for line, _ in rows] + BROKEN)
        for (line, kinds), groups in zip(rows, found):
            self.assertEqual(groups, kinds, line)
        for line, groups in zip(BROKEN, found[len(rows) :]):
            if len(places(line)) > 1 and line != "xfer f1":
                self.assertIn("error", groups, line)
