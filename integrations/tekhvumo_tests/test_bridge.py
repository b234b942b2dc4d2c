"""The bridge, as clients of all kinds speak with it."""
from __future__ import annotations

import doctest
import os
import re
import shutil
import time

from tekhvumo.share import HouseFull
from tekhvumo.share.messages import MOST_BYTES

from .bridges import WithBridge
from .case import HEAD, SOUND, TOP


class House(WithBridge):
    def test_it_is_full(self) -> None:
        bridge = self.share(SOUND)
        clients = [self.raw(bridge) for _ in range(64)]
        self.assertEqual([it.hello["session"] for it in clients], list(range(64)))
        self.assertEqual(self.raw(bridge).hello, {"reply": "housefull", "sessions": 64})
        with self.assertRaises(HouseFull):
            self.client(bridge)
        self.assertEqual(clients[63].ask(ask="put", block=0, lines=[])["reply"], "accepted")
        clients[17].close()
        # (the bridge hears in its turn that one has gone)
        while (client := self.raw(bridge)).hello["reply"] != "hello":
            client.close()
        self.assertEqual((client.hello["session"], client.hello["version"]), (17, 1))
        self.assertEqual(client.ask(ask="put", block=0, lines=["in 1"])["reply"], "accepted")

    def test_a_client_that_dies(self) -> None:
        bridge = self.share(SOUND)
        stays, dies = self.raw(bridge), self.raw(bridge)
        dies.write(b'{"ask":"put","block":0,"lines":["; whole"]}\n{"ask":"cut","block":0')
        dies.close()
        pushed = stays.read()
        self.assertEqual((pushed["reply"], pushed["entries"][0]["session"]), ("pushed", 1))
        self.assertEqual(stays.ask(ask="put", block=0, lines=[])["reply"], "stale")
        self.assertEqual(stays.ask(ask="look", block=0)["lines"], ["; whole"])
        comes = self.raw(bridge)
        self.assertEqual((comes.hello["session"], comes.hello["blocks"][0]["stamp"]), (1, 1))
        self.assertEqual(stays.ask(ask="cut", block=0)["version"], 2)

    def test_a_client_that_does_not_listen(self) -> None:
        bridge = self.share(SOUND)
        sleeps, works = self.raw(bridge), self.raw(bridge)
        for count in range(60):
            self.assertEqual(works.ask(ask="put", block=0, lines=[f"; {count}"])["reply"], "accepted")
        heard: list[int] = []
        while len(heard) < 60:
            heard += [it["number"] for it in sleeps.read()["entries"]]
        self.assertEqual(heard, list(range(1, 61)))

    def test_the_journal_is_written_now_and_then(self) -> None:
        self.words = ("--pause", "100")
        bridge = self.share(SOUND)
        hears, works = self.raw(bridge), self.raw(bridge)
        begin = time.monotonic()
        works.write(b"".join(b'{"ask":"put","block":0,"lines":["; %d"]}\n' % count for count in range(500)))
        pushed = [hears.read()]
        while pushed[-1]["version"] < 500:
            pushed.append(hears.read())
        self.assertLessEqual(len(pushed), 2 + (time.monotonic() - begin) / 0.1)
        self.assertEqual(sum(len(it["entries"]) for it in pushed), 500)

    def test_what_is_asked_wrongly(self) -> None:
        bridge = self.share(SOUND)
        client = self.raw(bridge)
        wrong = (b"", b"{", b"[]", b"\xff", b'{"ask":1}', b'{"ask":"quit"}', b'{"ask":"put"}', b"[" * 100_000,
                 b'{"ask":"put","block":true,"lines":[]}', b'{"ask":"put","block":-1,"lines":[]}',
                 b'{"ask":"put","block":0,"lines":["a\\nb"]}', b'{"ask":"put","block":0,"lines":["\\ud800"]}',
                 b'{"ask":"group","edits":[]}', b'{"ask":"group","edits":[{"ask":"look"}]}', b'{"ask":"group","edits":3}')
        for line in wrong:
            client.write(line + b"\n")
            self.assertEqual(client.read()["reply"], "unsayable", line[:40])
        self.assertEqual(client.ask(ask="look", block=7)["reply"], "noblock")
        self.assertEqual(client.ask(ask="cut", block=0, lines=["; a"], edits=3)["version"], 1)
        self.assertEqual(client.ask(ask="save")["lines"][-1], "session 0 cut 0 seen 0")
        self.assertEqual(client.ask(ask="look", block=0, at=0)["lines"][0], "in 1")
        self.assertEqual(client.ask(ask="tally", first=0, end=0)["form"], 0)
        client.write(b'"' + b"x" * MOST_BYTES + b'"\n')
        self.assertEqual(client.read(), {"reply": "large", "limit": MOST_BYTES})
        self.assertEqual(client.read(), {})
        self.assertEqual(self.kept(bridge), HEAD)

    def test_replies_come_in_the_order_of_what_was_asked(self) -> None:
        client = self.raw(self.share(SOUND))
        for count in range(30):
            client.write(b'{"ask":"put","block":0,"lines":["; %d"]}\n{"ask":"look","block":0}\n{}\n' % count)
        told = [it for it in (client.read() for _ in range(91)) if it["reply"] != "pushed"]
        while len(told) < 90:
            told += [it for it in [client.read()] if it["reply"] != "pushed"]
        self.assertEqual([it["reply"] for it in told], ["accepted", "shown", "unsayable"] * 30)

    def test_a_file_is_shared_once(self) -> None:
        bridge = self.share(SOUND)
        status, errors = self.share().stop()
        self.assertEqual((status, "shared already" in errors), (2, True))
        self.assertEqual(self.raw(bridge).hello["session"], 0)

    def test_files_that_cannot_be_shared(self) -> None:
        self.assertEqual(self.tekhvumo("share", "scarf.k")[0], 4)
        self.write("scarf.k", ";!knitout-2\n")
        self.assertEqual(self.tekhvumo("share", "scarf.k")[0], 3)
        self.assertTrue(self.told.startswith("scarf.k:1:1: error: NoCarriers:"), self.told)
        self.write("scarf.k", SOUND)
        long = f"{self.room}/{'x' * 100}"
        self.assertEqual(self.tekhvumo("share", "--socket", long, "scarf.k")[0], 2)




class Documents(WithBridge):
    def test_the_page_of_use(self) -> None:
        page = (TOP / "docs" / "USING.md").read_text()
        [commands] = re.findall(r"^```sh\n(cp .*\ntekhvumo share scarf.k\n)```$", page, re.M)
        [session] = re.findall(r"^```pycon\n(.*?)^```$", page, re.M | re.S)
        shutil.copytree(TOP / "examples", self.room / "examples")
        copies, _, bridge = commands.rstrip("\n").partition("\n")
        self.assertEqual((self.run_command("sh", "-c", copies).returncode, bridge), (0, "tekhvumo share scarf.k"))
        self.words = ()
        self.share()
        # (a socket's path may be short alone, so that it is named as from its folder)
        kept = os.getcwd()
        os.chdir(self.room)
        try:
            test = doctest.DocTestParser().get_doctest(session, {}, "USING.md", "USING.md", 0)
            self.assertEqual(doctest.DocTestRunner().run(test).failed, 0)
        finally:
            os.chdir(kept)
