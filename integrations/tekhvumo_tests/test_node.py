"""What is written in JavaScript: the tests that node runs."""
from __future__ import annotations

import os
import shutil
import unittest

from .case import PROGRAMS, Case


@unittest.skipUnless(shutil.which("node"), "Node isn't there")
class Node(Case):
    def pass_tests(self, name: str) -> None:
        self.environment["TEKHVUMO_PROGRAM"] = os.path.abspath(self.program)
        ran = self.run_command("node", "--test", str(PROGRAMS / "node" / name))
        self.assertEqual(ran.returncode, 0, ran.stdout.decode() + ran.stderr.decode())
        self.assertIn(b"# fail 0", ran.stdout)

    def test_conversations(self) -> None:
        self.pass_tests("serve.test.js")

    def test_the_extension_for_vs_code(self) -> None:
        self.pass_tests("vscode.test.js")
