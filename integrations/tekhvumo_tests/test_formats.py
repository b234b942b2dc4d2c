"""How findings are written."""
from __future__ import annotations

import json
import re

from tekhvumo import __version__
from tekhvumo.findings import SUMMARIES
from tekhvumo.hints import HINTS
from tekhvumo.refusals import OF_FILES
from tekhvumo.warning_names import WARNINGS

from .case import BROKEN, SOUND, TOP, Case


class Formats(Case):
    def test_github(self) -> None:
        self.write("a,b:c %.k", BROKEN)
        status, output = self.tekhvumo("--format", "github", "a,b:c %.k")
        begin = "::error file=a%2Cb%3Ac %25.k,line=4,col=4,endColumn=5,title=CarrierIsIn::carrier 1 is in already; "
        self.assertTrue(output.startswith(begin), output)
        self.assertEqual((output.count("\n"), status), (1, 1))

    def test_sarif(self) -> None:
        self.write("a b.k", BROKEN)
        log = json.loads(self.tekhvumo("--format", "sarif", "--warn", "a b.k", str(self.room / "a b.k"))[1])
        self.assertEqual(log["version"], "2.1.0")
        [run] = log["runs"]
        rules = run["tool"]["driver"]["rules"]
        self.assertEqual((run["tool"]["driver"]["name"], run["tool"]["driver"]["version"]), ("tekhvumo", __version__))
        self.assertEqual([rule["id"] for rule in rules], ["CarrierIsIn"])
        self.assertTrue(all(rule["shortDescription"]["text"] for rule in rules))
        self.assertEqual(run["columnKind"], "unicodeCodePoints")
        for result, uri in zip(run["results"], ("a%20b.k", (self.room / "a b.k").as_uri())):
            [place] = result["locations"]
            self.assertEqual(
                (result["ruleId"], result["level"], rules[result["ruleIndex"]]["id"]),
                ("CarrierIsIn", "error", "CarrierIsIn"),
            )
            self.assertIn("carrier 1", result["message"]["text"])
            self.assertEqual(place["physicalLocation"]["artifactLocation"]["uri"], uri)
            self.assertEqual(place["physicalLocation"]["region"], {"startLine": 4, "startColumn": 4, "endColumn": 5})

    def test_a_sound_file(self) -> None:
        self.assertEqual(self.findings("-", given=SOUND), [])
        self.assertEqual(json.loads(self.tekhvumo("--format", "sarif", "-", given=SOUND)[1])["runs"][0]["results"], [])

    def test_each_rule_and_warning_is_explained(self) -> None:
        rules = re.findall(r"^#### (\w+)$", (TOP / "docs" / "MODEL.md").read_text(), re.M)
        self.assertEqual(len(rules), 18)
        self.assertEqual(set(rules), set(HINTS))
        self.assertLessEqual({*rules, *WARNINGS, *OF_FILES}, set(SUMMARIES))

    def test_options_before_and_behind_files(self) -> None:
        self.write("--warn", SOUND)
        self.write("fmt", BROKEN)
        for words in (["--warn", "--", "--warn", "./fmt"], ["./fmt", "--jobs", "2", "./fmt"], ["check", "fmt"]):
            status, output = self.tekhvumo(*words)
            self.assertEqual(status, 1)
            self.assertTrue(all(re.match(r"(\./)?fmt:4:4: ", line) for line in output.splitlines()), output)

    def test_a_name_for_standard_input(self) -> None:
        [finding] = self.findings("--name", "scarf.k", "-", given=BROKEN)
        self.assertEqual(finding["file"], "scarf.k")
