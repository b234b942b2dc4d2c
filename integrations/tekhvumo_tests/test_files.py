"""Many files, folders, and the command's own words."""
from __future__ import annotations

import os
import pty
import subprocess
import time

from tekhvumo import __version__

from .case import BROKEN, HEAD, SOUND, Case, body


class ManyFiles(Case):
    def test_three_hundred_files_by_four_jobs(self) -> None:
        for number in range(300):
            self.write(f"{number:03}.k", BROKEN if number % 10 == 3 else SOUND)
        names = [f"{number:03}.k" for number in range(300)]
        status, output = self.tekhvumo("--jobs", "4", "--warn", *names)
        self.assertEqual([line[:5] for line in output.splitlines()], [f"{number:02}3.k" for number in range(30)])
        self.assertEqual((status, self.told), (1, "300 files, 30 broken\n"))
        self.assertEqual(self.tekhvumo("--jobs", "1", "--warn", *names), (status, output))

    def test_a_folder_stands_for_the_files_in_it(self) -> None:
        for name in ("a/b.k", "a/c.knitout", "a/d.txt", "a/.hidden/e.k", "a/f/g.k", "h.k"):
            self.write(name, BROKEN)
        (self.room / "empty").mkdir()
        status, output = self.tekhvumo("a", "h.k")
        names = [line.partition(":")[0] for line in output.splitlines()]
        self.assertEqual((status, names), (1, ["a/b.k", "a/c.knitout", "a/f/g.k", "h.k"]))
        self.assertEqual(self.told, "4 files, 4 broken\n")
        status, output = self.tekhvumo("empty")
        said = "empty:1:1: error: ReadFault: no file *.k or *.knitout is in this folder\n"
        self.assertEqual((status, output), (4, said))

    def test_the_last_line_counts(self) -> None:
        for name, text in (("a.k", SOUND), ("b.k", BROKEN), ("c.k", "no program"), ("d.k", body("in 1; tuck + f1 1"))):
            self.write(name, text)
        for words, said in (
            (["a.k"], ""),
            (["a.k", "a.k"], "2 files, none broken\n"),
            (["--warn", "a.k", "b.k", "c.k", "d.k"], "4 files, 1 broken, 1 refused, 1 warning\n"),
            (["--format", "json", "a.k", "b.k"], ""),
        ):
            self.tekhvumo(*words)
            self.assertEqual(self.told, said)

    def test_a_long_file_is_warned_of_at_once(self) -> None:
        row = "".join(f"knit + f{place} 1\nknit - f{place} 1\n" for place in range(1, 101))
        self.write("long.k", f"{HEAD}in 1\ntuck + f1 1\n{row * 250}out 1\n")
        begin = time.process_time()
        self.findings("--warn", "--also", "KnitCastOn", "long.k")
        # (about half a second; on a busy machine more)
        self.assertLess(time.process_time() - begin, 5)

    def test_the_version(self) -> None:
        for words in (["--version"], ["fmt", "--version"]):
            self.assertEqual(self.tekhvumo(*words), (0, f"tekhvumo {__version__}\n"))

    def test_bounds_are_said_where_an_option_is_refused(self) -> None:
        for words, said in (
            (["--rack", "99"], "rack is 0 to 64, not 99"),
            (["--low=5", "--high=1"], "the lowest needle, 5, lies above the highest, 1"),
            (["--jobs", "0"], "jobs is 1 to 1024, not 0"),
        ):
            self.assertEqual(self.tekhvumo(*words, "-", given=SOUND), (2, ""))
            self.assertIn(said, self.told)

    def test_progress_on_a_terminal(self) -> None:
        self.write("a.k", SOUND)
        for count, told in ((51, True), (50, False)):
            ours, theirs = pty.openpty()
            words = ["tekhvumo", "--jobs", "2", *["a.k"] * count]
            subprocess.run(
                words, cwd=self.room, env=self.environment, stderr=theirs, stdin=subprocess.DEVNULL, check=True
            )
            os.write(theirs, b".")
            said = b""
            while not said.endswith(b"."):
                said += os.read(ours, 4096)
            self.assertEqual(f"{count}/{count} files" in said.decode(), told)
            os.close(theirs)
            os.close(ours)
