"""Two real Neovims on one shared file."""
from __future__ import annotations

import json
import shutil
import subprocess
import unittest

from .bridges import WithBridge
from .case import HERE, MOST_SECONDS
from .test_lsp_shared import FIRST, TEXT

# What a driver begins with: the file opened in an editor that is set up as a user's.
START = """
local function wait(holds) assert(vim.wait({patience} * 1000, holds, 10), 'it never came') end
local is_shared = false
vim.lsp.handlers['window/showMessage'] = function(_, told) is_shared = is_shared or told.message:find('is shared') ~= nil end
vim.cmd('luafile {plugin}')
vim.cmd('edit {path}')
wait(function() return is_shared end)
"""
# Each goes when both have seen the line of the other.
WRITE = """
vim.api.nvim_buf_set_lines(0, {at}, {at}, true, {{ '; written by {me}' }})
wait(function() return vim.fn.search('^; written by {other}$', 'nw') > 0 end)
vim.fn.writefile({{}}, '{room}/{me}.saw')
wait(function() return vim.fn.filereadable('{room}/{other}.saw') == 1 end)
"""
# An edit of the text that was opened, once somebody has typed in it.
REFUSE = """
local client = vim.lsp.get_active_clients()[1]
local text = {{ uri = vim.uri_from_bufnr(0), version = vim.lsp.util.buf_versions[vim.api.nvim_get_current_buf()] }}
vim.api.nvim_buf_set_lines(0, 5, 5, true, {{ '; typed' }})
local place = {{ line = {at}, character = 0 }}
local edits = {{ {{ range = {{ start = place, ['end'] = place }}, newText = '; of the server\\n' }} }}
local asked = {{ edit = {{ documentChanges = {{ {{ textDocument = text, edits = edits }} }} }} }}
client.handlers['workspace/applyEdit'](nil, asked, {{ client_id = client.id }})
"""
END = """
vim.fn.writefile(vim.api.nvim_buf_get_lines(0, 0, -1, true), '{room}/{me}.told')
"""


@unittest.skipUnless(shutil.which("nvim"), "Neovim isn't there")
class SharedNeovims(WithBridge):
    def neovim(self, path: object, me: str, middle: str, **names: object) -> subprocess.Popen[bytes]:
        """A Neovim that a script drives, which ends well if that goes to its end."""
        # (each has a home of its own: two that make the folders of one there at a time are in each other's way)
        home = self.room / me
        home.mkdir()
        script = (START + middle + END).format(
            patience=MOST_SECONDS, plugin=HERE / "neovim" / "tekhvumo.lua", path=path, room=self.room, me=me, **names
        )
        (home / "drive.lua").write_text(script)
        drive = f"local ok, why = pcall(dofile, {json.dumps(str(home / 'drive.lua'))}); if not ok then print(why) end"
        words = ["nvim", "--headless", "-n", "--clean", "-c", f"lua {drive}; vim.cmd(ok and 'qall!' or 'cquit')"]
        kept = {name: value for name, value in self.environment.items() if not name.startswith("XDG_")}
        pipe = subprocess.PIPE
        child = subprocess.Popen(words, env={**kept, "HOME": str(home), "NVIM_LOG_FILE": str(home / "log")}, stdout=pipe, stderr=pipe)
        self.addCleanup(child.communicate)
        self.addCleanup(child.kill)
        return child

    def told(self, child: subprocess.Popen[bytes], me: str) -> str:
        """The text of a Neovim that has ended well."""
        said = child.communicate(timeout=4 * MOST_SECONDS)
        self.assertEqual(child.returncode, 0, said)
        return (self.room / f"{me}.told").read_text()

    def test_each_sees_the_line_of_the_other(self) -> None:
        bridge = self.share(TEXT)
        anna = self.neovim(bridge.path, "anna", WRITE, other="ben", at=FIRST + 1)
        ben = self.neovim(bridge.path, "ben", WRITE, other="anna", at=FIRST + 100)
        texts = [self.told(anna, "anna"), self.told(ben, "ben")]
        self.assertEqual(texts, [self.kept(bridge)] * 2)
        lines = TEXT.splitlines()
        lines.insert(FIRST + 100, "; written by ben")
        lines.insert(FIRST + 1, "; written by anna")
        self.assertEqual(sorted(texts[0].splitlines()), sorted(lines))

    def test_an_edit_of_another_text_is_not_taken(self) -> None:
        bridge = self.share(TEXT)
        text = self.told(self.neovim(bridge.path, "anna", REFUSE, at=FIRST + 1), "anna")
        self.assertEqual(text, "".join(f"{it}\n" for it in [*TEXT.splitlines()[:5], "; typed", *TEXT.splitlines()[5:]]))
