"""A bridge that ends, or is killed, and is started again."""
from __future__ import annotations

import os
import signal
from pathlib import Path

from tekhvumo.share import Shared, ShareGone

from .bridges import WithBridge
from .case import HEAD, SOUND


class Restarts(WithBridge):
    def test_what_was_answered_is_there_and_more_can_be_done(self) -> None:
        bridge = self.share(SOUND)
        one, raw = self.client(bridge), self.raw(bridge)
        for version in range(1, 8):
            reply = raw.ask(ask="put", block=0, lines=["in 1", *["tuck + f1 1"] * version])
            self.assertEqual((reply["reply"], reply["version"]), ("accepted", version))
        bridge.stop(signal.SIGKILL)
        # (it was changed while nobody was there to tell)
        one.edit(3, 3, ["; one"])
        again = self.share()
        self.assertIn("shared at", again.said)
        changes = one.sync()
        self.assertEqual(one.lines[2:], ["in 1", "; one", *["tuck + f1 1"] * 7])
        self.assertEqual([it.is_conflict for it in changes], [False] * len(changes))
        self.assertEqual(self.kept(again), one.text)
        self.assertEqual(again.path.read_text(), HEAD + "in 1\n" + "tuck + f1 1\n" * 7)
        # (the journal goes on, with its versions and the texts that were there before)
        raw = self.raw(again)
        self.assertEqual((raw.hello["version"], raw.hello["blocks"][0]["stamp"]), (8, 8))
        self.assertEqual(raw.ask(ask="look", block=0, at=3)["lines"], ["in 1", *["tuck + f1 1"] * 3])
        self.assertEqual([it["seen"] for it in raw.ask(ask="since", version=0)["entries"]], list(range(8)))
        self.assertFalse(Path(f"{again.path}.journal.1").exists())

    def test_another_machine(self) -> None:
        """What is kept for other limits is gone on from in a new journal."""
        bridge = self.share(SOUND)
        client = self.client(bridge)
        client.edit(3, 3, ["tuck + f9 1"])
        client.sync()
        bridge.stop(signal.SIGKILL)
        self.words = ("--pause", "5", "--high", "7")
        again = self.share()
        client.edit(3, 3, ["; a"])
        client.sync()
        self.assertEqual((client.brief.rule, client.version), ("OffBed", 1))
        self.assertTrue(Path(f"{again.path}.journal.1").exists())
        self.assertEqual(again.path.read_text(), SOUND.replace("in 1", "in 1\ntuck + f9 1"))

    def test_a_text_that_an_editor_saved_gives_way_to_a_newer_one(self) -> None:
        bridge = self.share(SOUND)
        client = self.client(bridge)
        client.edit(3, 3, ["; a"])
        client.sync()
        saved = SOUND.replace("in 1", "in 1\n; only half")
        bridge.path.write_text(saved)
        self.assertEqual(client.saved(saved.splitlines()), [])
        self.assertEqual(bridge.stop(), (0, ""))
        self.assertEqual(bridge.path.read_text(), client.text)
        bridge = self.share()
        self.assertEqual(self.raw(bridge).ask(ask="saved")["reply"], "unsayable")
        bridge.path.write_text(saved)
        status, errors = bridge.stop()
        self.assertEqual((status, "Move one of them away" in errors, bridge.path.read_text()), (2, True, saved))

    def test_comments_above_the_first_instruction_stay_in_the_body(self) -> None:
        bridge = self.share(HEAD + "in 1\n")
        client = self.client(bridge)
        client.edit(2, 2, [";;Carriers: 9", "", "; a"])
        client.sync()
        for _ in range(2):
            bridge.stop(signal.SIGKILL)
            bridge = self.share()
            self.assertEqual((client.wait(0), client.lines[2:]), ([], [";;Carriers: 9", "", "; a", "in 1"]))
        client.edit(5, 6, [])
        client.sync()
        bridge.stop()
        bridge = self.share()
        client.edit(3, 4, ["in 2"])
        client.sync()
        self.assertEqual(client.lines[2:], [";;Carriers: 9", "in 2", "; a"])

    def test_a_file_that_was_changed_apart(self) -> None:
        bridge = self.share(SOUND)
        client = self.client(bridge)
        client.edit(2, 2, ["; a"])
        client.sync()
        self.assertEqual(bridge.stop(), (0, ""))
        self.assertEqual(bridge.path.read_text(), client.text)
        status, errors = self.share(SOUND + "; other\n").stop()
        self.assertEqual((status, "nobody shared it" in errors), (2, True))
        os.unlink(bridge.path)
        self.share()
        client.sync()
        self.assertEqual((client.lines[2], bridge.path.read_text()), ("; a", client.text))

    def test_many_comments_and_carriage_returns(self) -> None:
        bridge = self.share(SOUND.replace("\n", "\r\n"))
        client = self.client(bridge)
        client.edit(2, 2, [f"; {number}" for number in range(10_000)])
        client.edit(len(client.lines), len(client.lines), ["; end\r"])
        client.sync()
        for _ in range(2):
            bridge.stop(signal.SIGKILL)
            bridge = self.share()
            client.edit(3, 3, ["; more"])
            client.sync()
            self.assertEqual(self.kept(bridge, False), client.text)
        self.assertEqual(bridge.stop(), (0, ""))
        self.assertEqual(bridge.path.read_bytes(), client.text.replace("\r", "").replace("\n", "\r\n").encode()[:-2] + b"\r\r\n")

    def test_a_journal_that_is_none(self) -> None:
        bridge = self.share(SOUND)
        self.raw(bridge).ask(ask="cut", block=0)
        bridge.stop()
        path = Path(f"{bridge.path}.journal")
        late = path.read_text().replace("seen 0", "seen 1")
        cases = (("journal 1\nprofile 0 1 8 16 0\n", "line 3 BadLine"), (late, "line 12 NoFit"), (late[:-1], "isn't whole"))
        for text, words in cases:
            path.write_text(text)
            status, errors = self.share().stop()
            self.assertEqual((status, "it is no saved text" in errors, words in errors), (2, True, True), errors)
            self.assertEqual(path.read_text(), text)

    def test_check_main_is_killed(self) -> None:
        bridge = self.share(SOUND)
        client = self.client(bridge)
        client.edit(3, 3, ["; a"])
        client.sync()
        children = Path(f"/proc/{bridge.child.pid}/task/{bridge.child.pid}/children").read_text()
        os.kill(int(children), signal.SIGKILL)
        client.edit(3, 3, ["; b"])
        client.sync()
        self.assertEqual(self.kept(bridge), SOUND.replace("in 1", "in 1\n; b\n; a"))

    def test_a_bridge_that_stays_away(self) -> None:
        bridge = self.share(SOUND)
        client = Shared.connect(bridge.socket, patience=0.2)
        bridge.stop()
        client.edit(2, 2, ["; a"])
        with self.assertRaises(ShareGone):
            client.sync()
        self.assertEqual(client.lines[2], "; a")
        self.assertFalse(os.path.exists(bridge.socket))
        again = self.share()
        client.sync()
        self.assertEqual(self.kept(again, False), client.text)
        client.close()
        with self.assertRaises(ShareGone):
            client.sync()
