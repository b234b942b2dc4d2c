"""The canonical text, in place."""
from __future__ import annotations

import os
import stat
import unittest

from tekhvumo.fmt import write_over

from .case import FINDING, HEAD, Case


class CanonicalText(Case):
    LOUD = f"{HEAD}  in   1;a\ntuck + f+01 1\nrack -0.50\nnonsense   \n"
    QUIET = f"{HEAD}in 1 ;a\ntuck + f1 1\nrack -0.5\nnonsense   \n"

    def test_in_place(self) -> None:
        path = self.write("a.k", self.LOUD)
        path.chmod(0o640)
        self.assertEqual(self.tekhvumo("fmt", "a.k"), (0, ""))
        self.assertEqual(path.read_text(), self.QUIET)
        self.assertEqual(stat.S_IMODE(path.stat().st_mode), 0o640)
        self.assertEqual(os.listdir(self.room), ["a.k"])
        before = path.stat().st_ino
        self.assertEqual(self.tekhvumo("fmt", "a.k"), (0, ""))
        self.assertEqual(path.stat().st_ino, before)

    def test_check_writes_nothing(self) -> None:
        path = self.write("a.k", self.LOUD)
        status, output = self.tekhvumo("fmt", "--check", "a.k")
        self.assertEqual((status, FINDING.fullmatch(output).group(2, 5)), (1, ("3", "NotCanonical")))
        self.assertIn("`in 1 ;a`", output)
        self.assertEqual(path.read_text(), self.LOUD)
        self.assertEqual(self.tekhvumo("fmt", "--check", "-", given=self.QUIET), (0, ""))

    def test_the_two_files_that_would_read_otherwise(self) -> None:
        texts = {
            "head.k": f"{HEAD} ;;Carriers: 4\nin   1\n",
            "comment.k": f"{HEAD} ; a\nin   1\n",
            "returns.k": f"{HEAD}in   1\n; a\r\r\nout   1\n",
        }
        for name, text in texts.items():
            path = self.write(name, text)
            status, output = self.tekhvumo("fmt", name)
            line = "4" if name == "returns.k" else "3"
            self.assertEqual((status, FINDING.fullmatch(output).group(2, 5)), (1, (line, "ReadsOtherwise")))
            self.assertEqual(path.read_bytes(), text.encode())

    def test_a_file_that_is_refused_stays(self) -> None:
        for text, rule in ((b"in   1\n", "BadMagic"), (HEAD.encode() + b"in   1 ;\xff\n", "NotUtf8")):
            path = self.write("a.k", text)
            status, output = self.tekhvumo("fmt", "a.k", "absent.k")
            self.assertEqual(FINDING.match(output)[5], rule)
            self.assertEqual((status, path.read_bytes()), (4, text))

    def test_a_link_stays_a_link(self) -> None:
        path = self.write("folder/a.k", self.LOUD)
        (self.room / "b.k").symlink_to("folder/a.k")
        self.assertEqual(self.tekhvumo("fmt", "b.k"), (0, ""))
        self.assertEqual((path.read_text(), os.readlink(self.room / "b.k")), (self.QUIET, "folder/a.k"))

    def test_a_file_that_changes_meanwhile_stays(self) -> None:
        path = self.write("a.k", self.LOUD)
        with self.assertRaises(OSError):
            write_over(str(path), b"what was read", b"what is written")
        self.assertEqual((path.read_text(), os.listdir(self.room)), (self.LOUD, ["a.k"]))

    @unittest.skipIf(os.geteuid() == 0, "root may write everything")
    def test_a_file_that_may_not_be_written_stays(self) -> None:
        path = self.write("a.k", self.LOUD)
        path.chmod(0o444)
        status, output = self.tekhvumo("fmt", "a.k")
        self.assertEqual((status, FINDING.fullmatch(output)[5], path.read_text()), (5, "WriteFault", self.LOUD))

    def test_standard_input(self) -> None:
        self.assertEqual(self.tekhvumo("fmt", "-", given=self.LOUD), (0, self.QUIET))
        refused = self.run_command("tekhvumo", "fmt", "-", given="in   1\n")
        self.assertEqual((refused.returncode, refused.stdout), (3, b"in   1\n"))
        self.assertIn(b"-:1:1: error: BadMagic: ", refused.stderr)
