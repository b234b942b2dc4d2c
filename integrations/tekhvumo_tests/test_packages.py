"""Tests of the wheel and the folder for npm that tools/packages.py makes."""
from __future__ import annotations

import base64
import csv
import hashlib
import json
import os
import re
import shutil
import subprocess
import sys
import tempfile
import tomllib
import unittest
import zipfile
from pathlib import Path

from tekhvumo.program import find_program
from tekhvumo.version import VERSION

from .case import TOP

INFO = f"tekhvumo-{VERSION}.dist-info"
SOUND = b";!knitout-2\n;;Carriers: 1\nin 1\ntuck + f1 1\nout 1\n"


class Case(unittest.TestCase):
    """Tests in a folder of their own, into which the packages are written once."""

    room: Path
    written: list[Path]

    @classmethod
    def setUpClass(cls) -> None:
        folder = tempfile.TemporaryDirectory()
        cls.addClassCleanup(folder.cleanup)
        cls.room = Path(folder.name)
        ran = cls.make(cls.room, find_program(None))
        cls.written = [Path(line) for line in ran.stdout.decode().splitlines()]

    @staticmethod
    def make(folder: Path, program: str | Path) -> subprocess.CompletedProcess[bytes]:
        words = [sys.executable, str(TOP / "tools" / "packages.py"), "--program", str(program), str(folder)]
        return subprocess.run(words, capture_output=True, check=False)

    def run_alone(self, *words: str | Path, given: bytes = b"", path: str = "") -> subprocess.CompletedProcess[bytes]:
        """A command that finds no other check_main, and no other package than the one in the folder `path`."""
        environment = {"PATH": "/usr/bin:/bin", "PYTHONPATH": path}
        return subprocess.run(words, input=given, capture_output=True, env=environment, cwd=self.room, check=False)


class Wheel(Case):
    def test_its_name_says_the_version_and_the_platform(self) -> None:
        self.assertEqual(self.written[0].name, f"tekhvumo-{VERSION}-py3-none-manylinux_2_34_x86_64.whl")
        with zipfile.ZipFile(self.written[0]) as wheel:
            self.assertIn(b"Tag: py3-none-manylinux_2_34_x86_64\n", wheel.read(f"{INFO}/WHEEL"))

    def test_its_record_has_each_file_with_its_hash(self) -> None:
        with zipfile.ZipFile(self.written[0]) as wheel:
            rows = list(csv.reader(wheel.read(f"{INFO}/RECORD").decode().splitlines()))
            self.assertEqual([row[0] for row in rows], wheel.namelist())
            for name, digest, size in rows[:-1]:
                data = wheel.read(name)
                wanted = base64.urlsafe_b64encode(hashlib.sha256(data).digest()).decode().rstrip("=")
                self.assertEqual((digest, size), (f"sha256={wanted}", str(len(data))))
            self.assertEqual(rows[-1], [f"{INFO}/RECORD", "", ""])

    def test_it_says_what_the_project_says(self) -> None:
        said = tomllib.loads((TOP / "integrations" / "pyproject.toml").read_text())["project"]
        with zipfile.ZipFile(self.written[0]) as wheel:
            metadata = wheel.read(f"{INFO}/METADATA").decode()
            scripts = wheel.read(f"{INFO}/entry_points.txt").decode()
        for words in (f"Version: {VERSION}", f"Requires-Python: {said['requires-python']}", f"Name: {said['name']}"):
            self.assertIn(f"{words}\n", metadata)
        self.assertEqual(scripts, f"[console_scripts]\ntekhvumo = {said['scripts']['tekhvumo']}\n")

    def test_it_holds_the_package_and_the_program(self) -> None:
        with zipfile.ZipFile(self.written[0]) as wheel:
            names = {name for name in wheel.namelist() if not name.startswith(INFO)}
            modes = {it.filename: it.external_attr >> 16 for it in wheel.infolist()}
            program = wheel.read("tekhvumo/bin/check_main")
        sources = (TOP / "integrations").glob("tekhvumo/**/*.py")
        wanted = {str(it.relative_to(TOP / "integrations")) for it in sources}
        self.assertEqual(names, wanted | {"tekhvumo/bin/check_main"})
        self.assertEqual(program, Path(find_program(None)).read_bytes())
        self.assertEqual((modes["tekhvumo/bin/check_main"], modes["tekhvumo/program.py"]), (0o100755, 0o100644))

    def test_it_runs_where_nothing_else_is(self) -> None:
        site = self.room / "site"
        words = [sys.executable, "-m", "pip", "install", "-q", "--no-index", "--no-deps", "--no-compile", "--target"]
        if subprocess.run([sys.executable, "-m", "pip", "--version"], capture_output=True, check=False).returncode:
            self.skipTest("pip isn't there")
        # (pip's word that it could be newer goes to standard error)
        self.assertEqual(self.run_alone(*words, site, self.written[0]).returncode, 0)
        script, given = site / "bin" / "tekhvumo", SOUND + b"in 1\nin 1\n"
        ran = self.run_alone(sys.executable, script, "-", given=given, path=str(site))
        self.assertEqual((ran.returncode, ran.stdout[:25]), (1, b"-:7:4: error: CarrierIsIn"))
        ran = self.run_alone(sys.executable, "-m", "tekhvumo", "--version", path=str(site))
        self.assertEqual(ran.stdout.decode(), f"tekhvumo {VERSION}\n")

    def test_the_same_files_make_the_same_wheel(self) -> None:
        again = self.room / "again"
        self.assertEqual(self.make(again, find_program(None)).returncode, 0)
        self.assertEqual((again / self.written[0].name).read_bytes(), self.written[0].read_bytes())

    def test_a_program_for_another_system_is_refused(self) -> None:
        path = self.room / "other"
        elf = Path(find_program(None)).read_bytes()
        for data, says in (
            (b"#!/bin/sh\n", "no program for Linux on x86-64"),
            (elf[:18] + b"\xb7\0" + elf[20:], "no program for Linux on x86-64"),
            (elf + b"\0GLIBC_2.38\0", "needs glibc 2.38"),
        ):
            path.write_bytes(data)
            ran = self.make(self.room / "none", path)
            self.assertEqual((ran.returncode, says in ran.stderr.decode()), (1, True))
        self.assertFalse((self.room / "none").exists())


class Npm(Case):
    def test_its_description(self) -> None:
        said = json.loads((self.written[1] / "package.json").read_text())
        self.assertEqual((said["name"], said["version"]), ("tekhvumo", VERSION))
        self.assertEqual((said["os"], said["cpu"], said["libc"]), (["linux"], ["x64"], ["glibc"]))
        self.assertEqual({*said["files"], "package.json"}, {it.name for it in self.written[1].iterdir()})
        for name in (*said["bin"].values(), "check_main"):
            self.assertTrue(os.access(self.written[1] / name, os.X_OK))

    @unittest.skipUnless(shutil.which("node"), "Node isn't there")
    def test_its_starter_ends_as_the_program_does(self) -> None:
        node, starter = shutil.which("node"), self.written[1] / "check_main.js"
        rows = ((SOUND, 0, b"sound lines 3"), (SOUND + b"out 1\n", 1, b"broken"), (b"", 3, b"bad input"))
        for given, status, says in rows:
            ran = self.run_alone(node, starter, "check", given=given)
            self.assertEqual((ran.returncode, ran.stdout.startswith(says)), (status, True))
        self.assertEqual(self.run_alone(node, starter).returncode, 2)

    @unittest.skipUnless(shutil.which("node"), "Node isn't there")
    def test_its_function(self) -> None:
        script = (
            'const { check } = require("./npm"); const fs = require("fs"); const text = fs.readFileSync(0);'
            'console.log(check(text, ["--loops"]).made_loops.length, check(text + "out 1\\n").rule);'
            'try { check("") } catch (trouble) { console.log(trouble.status, trouble.message) }'
        )
        ran = self.run_alone(shutil.which("node"), "-e", script, given=SOUND)
        self.assertEqual(ran.stdout.decode(), "1 CarrierIsOut\n3 bad input: head BadMagic\n")

    @unittest.skipUnless(shutil.which("node"), "Node isn't there")
    def test_the_page_of_use(self) -> None:
        [script] = re.findall(r"^```js\n(.*?)^```$", (TOP / "docs" / "USING.md").read_text(), re.M | re.S)
        (self.room / "node_modules").mkdir()
        (self.room / "node_modules" / "tekhvumo").symlink_to(self.written[1])
        (self.room / "examples").symlink_to(TOP / "examples")
        (self.room / "page.js").write_text(script)
        ran = self.run_alone(shutil.which("node"), "page.js")
        self.assertEqual(ran.stdout.decode().splitlines(), re.findall(r"console.log.* // (.*)", script), ran.stderr)
