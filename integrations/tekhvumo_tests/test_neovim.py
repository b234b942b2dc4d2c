"""The language server in a real Neovim, set up as the page of use says."""
from __future__ import annotations

import json
import re
import shutil
import unittest
from pathlib import Path

from .case import HERE, MOST_SECONDS, TOP, Case, body


@unittest.skipUnless(shutil.which("nvim"), "Neovim isn't there")
class Neovim(Case):
    def setUp(self) -> None:
        super().setUp()
        page = (TOP / "docs" / "USING.md").read_text()
        [commands] = re.findall(r"^```sh\n(mkdir -p ~/.config/nvim.*?)^```$", page, re.M | re.S)
        self.environment.update(HOME=str(self.room), TEKHVUMO=str(HERE.parent), NVIM_LOG_FILE=str(self.room / "log"))
        for name in list(self.environment):
            if name.startswith("XDG_"):
                del self.environment[name]
        self.assertEqual(self.run_command("sh", "-ec", commands).returncode, 0)

    def test_a_cure_is_shown_and_applied(self) -> None:
        self.write("scarf.k", body("in 1; tuck + f1 1; knit - f1 1; knit + f1 2; out 1"))
        drive = Path(__file__).resolve().parent / "drive.lua"
        ran = self.run_command("timeout", str(8 * MOST_SECONDS), "nvim", "--headless", "scarf.k", "-c", f"luafile {drive}", "-c", "cquit")
        self.assertTrue((self.room / "told.json").exists(), ran.stderr.decode())
        told = json.loads((self.room / "told.json").read_text())
        self.assertEqual(told["filetype"], "knitout")
        self.assertEqual(told["found"], ["6 carrier 2 isn't in (in: 1); write `1` for `2`"])
        wanted = ["f1 holds the loop of line 4; faces b1", "makes a loop on f1 - with 1, through the loop of line 4"]
        self.assertEqual([line.strip() for line in told["hover"]][-2:], wanted)
        self.assertEqual(told["parent"], 4)
        self.assertEqual("\n".join([*told["cured"], ""]), body("in 1; tuck + f1 1; knit - f1 1; knit + f1 1; out 1"))
        self.assertEqual(told["left"], [])
        self.assertEqual([line.split(";")[0] for line in told["typed"]], ["5 carrier 1 is in already"])
