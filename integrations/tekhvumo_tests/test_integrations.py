"""The files for editors, hooks and builds, and the page of use."""
from __future__ import annotations

import json
import os
import re
import shutil
import unittest
from xml.etree import ElementTree

from .case import BROKEN, HERE, SOUND, TOP, Case, body


class Hooks(Case):
    def commit(self) -> int:
        return self.git("commit", "-q", "-m", "a change").returncode

    def make_repository(self) -> None:
        self.assertEqual(self.git("init", "-q").returncode, 0)

    def test_a_commit_of_what_is_staged(self) -> None:
        self.make_repository()
        shutil.copy(HERE / "pre-commit", self.room / ".git" / "hooks" / "pre-commit")
        self.write("notes.txt", "no program")
        self.git("add", ".")
        self.assertEqual(self.commit(), 0)
        path = self.write("a folder/a b.k", BROKEN)
        self.git("add", ".")
        path.write_text(SOUND)
        refused = self.git("commit", "-q", "-m", "a change")
        self.assertNotEqual(refused.returncode, 0)
        self.assertIn(b"a folder/a b.k:4:4: error: CarrierIsIn: ", refused.stdout + refused.stderr)
        self.git("add", ".")
        path.write_text(BROKEN)
        self.assertEqual(self.commit(), 0)
        self.write("a folder/.tekhvumo.toml", "high = 0")
        path.write_text(SOUND + "; changed\n")
        self.git("add", ".")
        self.assertIn(b"error: OffBed: ", self.git("commit", "-q", "-m", "a change").stderr)

    def test_differences_of_the_canonical_text(self) -> None:
        self.make_repository()
        self.git("config", "diff.knitout.textconv", str(HERE / "knitout-textconv"))
        self.write(".gitattributes", "*.k diff=knitout\n")
        path = self.write("a.k", SOUND)
        self.git("add", ".")
        path.write_text(SOUND.replace("tuck + f1 1", "tuck  +  f01  1"))
        self.assertNotIn(b"tuck", self.git("diff").stdout)
        path.write_text(SOUND.replace("f1", "f2"))
        self.assertIn(b"-tuck + f1 1\n+tuck + f2 1\n", self.git("diff").stdout)
        path.write_text("drop   f1\n")
        self.assertIn(b"+drop   f1\n", self.git("diff").stdout)

    def test_the_workflow(self) -> None:
        self.make_repository()
        shutil.copytree(HERE / "tekhvumo", self.room / "tools" / "tekhvumo")
        shutil.copy(self.program, self.room / "tools" / "check_main")
        workflow = (HERE / "knitout.yml").read_text()
        command = re.search(r"run: (.*)", workflow)[1]
        self.environment["PYTHONPATH"] = re.search(r"PYTHONPATH: (\w+)", workflow)[1]
        self.assertEqual(self.run_command("bash", "-eo", "pipefail", "-c", command).returncode, 0)
        self.write("a b.k", BROKEN)
        self.git("add", ".")
        ran = self.run_command("bash", "-eo", "pipefail", "-c", command)
        self.assertIn(b"::error file=a b.k,line=4,col=4,", ran.stdout)
        self.assertNotEqual(ran.returncode, 0)

    def test_the_hooks_of_the_framework(self) -> None:
        entries = re.findall(r"entry: (\S+)(?: (\w+))?", (TOP / ".pre-commit-hooks.yaml").read_text())
        self.assertEqual(entries, [("integrations/tekhvumo.py", ""), ("integrations/tekhvumo.py", "fmt")])
        self.assertTrue(os.access(HERE / "tekhvumo.py", os.X_OK))

    @unittest.skipUnless(shutil.which("make"), "make isn't there")
    def test_the_rules_for_make(self) -> None:
        self.write("Makefile", f"include {HERE}/knitout.mk\n")
        self.write("a.k", SOUND)
        self.assertEqual(self.run_command("make", "knitout", "a.svg").returncode, 0)
        ElementTree.parse(self.room / "a.svg")
        self.assertIn(b"Nothing to be done", self.run_command("make", "knitout").stdout)
        self.write("b.k", BROKEN)
        ran = self.run_command("make", "knitout")
        self.assertEqual((ran.returncode, b"b.k:4:4: error: " in ran.stdout), (2, True))
        self.assertFalse((self.room / "b.k.sound").exists())


class Editors(Case):
    @unittest.skipUnless(shutil.which("vim"), "Vim isn't there")
    def test_vim_finds_the_place(self) -> None:
        shutil.copytree(HERE / "compiler", self.room / "runtime" / "compiler")
        self.write("a b.k", body("in 1; knit + f1; in 1"))
        entry = "[bufname(it.bufnr), it.lnum, it.col, it.type, it.text]"
        tell = f"call writefile([json_encode(map(getqflist(), {{_, it -> {entry}}}))], 'found')"
        words = [
            "-c",
            "set nomore runtimepath^=runtime",
            "-c",
            "edit a\\ b.k",
            "-c",
            "compiler knitout",
            "-c",
            "silent make!",
            "-c",
            tell,
            "-c",
            "qall!",
        ]
        self.run_command("vim", "-u", "NONE", "-N", "-es", *words)
        found = json.loads((self.room / "found").read_text())
        self.assertEqual([it[:4] for it in found], [["a b.k", 4, 1, "w"], ["a b.k", 5, 4, "e"]])
        self.assertTrue(found[1][4].startswith("CarrierIsIn: carrier 1"))

    def test_the_problem_matcher(self) -> None:
        [task] = json.loads((HERE / "vscode" / "tasks.json").read_text())["tasks"]
        self.write("a:b c.k", BROKEN)
        words = [word.replace("${file}", "a:b c.k") for word in task["args"]]
        pattern = task["problemMatcher"]["pattern"]
        found = re.match(pattern["regexp"], self.run_command(task["command"], *words).stdout.decode().rstrip("\n"))
        said = [found[pattern[part]] for part in ("file", "line", "column", "severity", "code")]
        self.assertEqual(said, ["a:b c.k", "4", "4", "error", "CarrierIsIn"])
        self.assertTrue(found[pattern["message"]].startswith("carrier 1"))


class Documents(Case):
    def test_the_page_of_use_line_by_line(self) -> None:
        shutil.copytree(TOP / "examples", self.room / "examples")
        blocks = re.findall(r"^```console\n(.*?)^```$", (TOP / "docs" / "USING.md").read_text(), re.M | re.S)
        self.assertGreater(len(blocks), 5)
        for block in blocks:
            for command, wanted in re.findall(r"^\$ (.*)\n((?:(?!\$ ).*\n)*)", block, re.M):
                with self.subTest(command):
                    ran = self.run_command("sh", "-c", f"{command}\n")
                    # (a terminal mixes the two streams as they come, which a test can't see)
                    lines = (ran.stdout + ran.stderr).decode().splitlines()
                    self.assertEqual(sorted(lines), sorted(wanted.splitlines()))
