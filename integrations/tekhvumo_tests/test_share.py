"""Several editors on one file."""
from __future__ import annotations

import random
import select
import signal
import socket
import threading
import time
from pathlib import Path
from typing import Callable

from tekhvumo.share import Change, Shared
from tekhvumo.share.client import NotTaken
from tekhvumo.share.messages import line_of

from .bridges import Bridge, WithBridge
from .case import HEAD, MOST_SECONDS, SOUND

TEXT = HEAD + "in 1\n" + "".join(f"tuck + f{number} 1\n" for number in range(1, 31))
# The lines of the head, and behind them the first one of the body, which the designers leave as it is.
FIRST = 4
MARKS = ("; <<<<<<<", "; =======", "; >>>>>>>")


def applied(lines: list[str], changes: list[Change]) -> None:
    """Carries changes out as an editor does."""
    for change in changes:
        lines[change.first : change.end] = change.lines


def in_threads(*works: Callable[[], None]) -> None:
    """Does pieces of work at a time, and raises what the first of them raises."""
    faults: list[BaseException] = []

    def safely(work: Callable[[], None]) -> None:
        try:
            work()
        except BaseException as trouble:
            faults.append(trouble)

    threads = [threading.Thread(target=safely, args=(work,)) for work in works]
    for thread in threads:
        thread.start()
    for thread in threads:
        thread.join()
    if faults:
        raise faults[0]


class Designer:
    """Somebody who edits at random, with a buffer that follows the changes that are told."""

    def __init__(self, bridge: Bridge, number: int) -> None:
        self.shared = Shared.connect(bridge.socket)
        self.number = number
        self.given = random.Random(number)
        self.buffer = self.shared.lines
        self.edits = self.answered = 0

    def edit(self) -> None:
        """An edit of a line: it is changed, another is put above it, or it is taken out."""
        self.edits += 1
        lines, given = self.buffer, self.given
        line = f"; {self.number} {self.edits}"
        marks = [at for at, it in enumerate(lines) if it.startswith(MARKS)]
        if len(lines) > 60 or (marks and given.random() < 0.4):
            at = given.choice(marks or range(FIRST, len(lines)))
            self.put(at, at + 1, [])
        else:
            at = given.randrange(FIRST, len(lines) + 1)
            end = min(len(lines), at + given.randrange(3))
            self.put(at, end, given.choice([[line], [line], [f"tuck + f{given.randrange(1, 31)} 1"], []]))

    def put(self, first: int, end: int, lines: list[str]) -> None:
        self.shared.edit(first, end, lines)
        self.buffer[first:end] = lines

    def sync(self) -> None:
        applied(self.buffer, self.shared.sync())
        self.answered = self.edits
        assert self.buffer == self.shared.lines

    def work(self, edits: int) -> None:
        """So many edits, some of them told together."""
        while self.edits < edits:
            for _ in range(self.given.randrange(1, 6)):
                if self.edits < edits:
                    self.edit()
            self.sync()


class Designers(WithBridge):
    def settled(self, *designers: Designer) -> str:
        """The text of all of them, once they have heard of each other."""
        newest = max(it.shared.version for it in designers)
        for it in designers:
            while it.shared.version < newest:
                applied(it.buffer, it.shared.wait(MOST_SECONDS))
            self.assertTrue(it.shared.is_synced)
            self.assertEqual(it.buffer, it.shared.lines)
            it.shared.close()
        texts = {it.shared.text for it in designers}
        self.assertEqual(len(texts), 1)
        return texts.pop()

    def test_two_designers_on_few_blocks(self) -> None:
        self.words = ("--pause", "5", "--block", "8")
        bridge = self.share(TEXT)
        designers = [Designer(bridge, number) for number in (1, 2)]
        in_threads(*[lambda it=it: it.work(600) for it in designers])
        self.assertGreater(sum(it.shared.conflicts for it in designers), 5)
        text = self.settled(*designers)
        self.assertEqual(text, self.kept(bridge))
        last = max((it.shared for it in designers), key=lambda it: it.told_version)
        self.assertEqual(last.told_version, last.version)
        self.assert_told(last)
        self.assertEqual(bridge.stop(), (0, ""))
        self.assertEqual(bridge.path.read_text(), text)

    def test_a_bridge_that_is_killed_again_and_again(self) -> None:
        bridges = [self.share(TEXT)]
        told: dict[int, set[str]] = {}

        def work(number: int) -> None:
            shared, given, lines = Shared.connect(bridges[0].socket, MOST_SECONDS), random.Random(number), set()
            for count in range(60):
                line = f"; {number} {count}"
                at = given.randrange(FIRST, len(shared.lines) + 1)
                shared.edit(at, at, [line])
                shared.sync()
                lines.add(line)
                told[number] = lines
            shared.close()

        def kill() -> None:
            for _ in range(4):
                time.sleep(0.3)
                bridges[-1].stop(signal.SIGKILL)
                bridges.append(self.share())

        in_threads(lambda: work(1), lambda: work(2), kill)
        text = self.kept(bridges[-1])
        lines = text.splitlines()
        self.assertEqual(len(told[1] | told[2]), 120)
        for line in told[1] | told[2]:
            self.assertIn(line, lines)
        self.assertEqual([it for it in lines if not it.startswith(";")], TEXT.splitlines()[2:])

    def test_a_journal_that_grows_long_is_left_for_a_new_one(self) -> None:
        bridge = self.share(TEXT, "LONG_JOURNAL = 4000")
        designers = [Designer(bridge, number) for number in (1, 2)]
        epoch = self.raw(bridge).hello["epoch"]
        in_threads(*[lambda it=it: it.work(80) for it in designers])
        client = self.raw(bridge)
        self.assertNotEqual(client.hello["epoch"], epoch)
        client.close()
        for it in designers:
            it.sync()
            it.shared.close()
        text = "\n".join([*client.hello["head"], *(line for it in client.hello["blocks"] for line in it["lines"]), ""])
        self.assertEqual({it.shared.text for it in designers}, {text, self.kept(bridge)})
        self.assertLess(Path(f"{bridge.path}.journal").stat().st_size, 8000)
        self.assertTrue(Path(f"{bridge.path}.journal.2").exists())


    def test_a_journal_without_room_is_left_for_a_new_one(self) -> None:
        bridge = self.share(TEXT, "MOST_JOURNAL = 8000")
        designers = [Designer(bridge, number) for number in (1, 2)]
        in_threads(*[lambda it=it: it.work(80) for it in designers])
        self.assertTrue(Path(f"{bridge.path}.journal.1").exists())
        for it in designers:
            it.sync()
            it.shared.close()
        self.assertEqual({it.shared.text for it in designers}, {self.kept(bridge)})
        lines = ["; " + "x" * 1000] * 8
        self.raw(bridge).ask(ask="add", behind="start", lines=lines)
        # (it has begun a new one once more, in which there is no room for so much)
        raw = self.raw(bridge)
        self.assertEqual((raw.hello["version"], raw.ask(ask="add", behind="start", lines=lines)["reply"]), (0, "large"))
        self.assertEqual(raw.ask(ask="add", behind="start", lines=lines[:2])["version"], 1)


class StandIn:
    """A bridge of one block, which another editor puts whenever a look at it is answered."""

    def __init__(self, path: str, news: int) -> None:
        self.news = news
        self.listening = socket.socket(socket.AF_UNIX)
        self.listening.bind(path)
        self.listening.listen()
        self.thread = threading.Thread(target=self.serve)
        self.thread.start()

    def serve(self) -> None:
        connection, _ = self.listening.accept()
        blocks = [{"block": 0, "stamp": 0, "lines": ["in 1"]}]
        hello = {"reply": "hello", "protocol": 1, "session": 0, "version": 0, "head": HEAD.splitlines(), "blocks": blocks}
        with connection, connection.makefile("rb") as heard:
            connection.sendall(line_of(hello) + self.put(1))
            for number in range(1, self.news + 1):
                heard.readline()
                shown = {"reply": "shown", "block": 0, "stamp": number, "lines": [f"; {number}"]}
                connection.sendall(line_of(shown) + (self.put(number + 1) if number < self.news else b""))
            heard.readline()

    def put(self, number: int) -> bytes:
        return line_of({"reply": "pushed", "entries": [{"number": number, "session": 1, "edit": "put", "block": 0}]})

    def close(self) -> None:
        self.thread.join()
        self.listening.close()


class Editors(WithBridge):
    def test_nothing_is_left_of_which_the_stream_says_nothing(self) -> None:
        path = str(self.room / "socket")
        bridge = StandIn(path, 5)
        self.addCleanup(bridge.close)
        with Shared.connect(path) as client:
            self.assertEqual((client.lines[2:], client.version), (["; 5"], 5))
            self.assertEqual((client.wait(), select.select([client], [], [], 0)), ([], ([], [], [])))

    def test_what_each_hears_of_others(self) -> None:
        bridge = self.share(SOUND)
        one, other = self.client(bridge), self.client(bridge)
        self.assertEqual((one.session, other.session, one.text), (0, 1, SOUND))
        one.edit(3, 3, ["tuck + f2 1"])
        self.assertEqual((one.sync(), one.brief.made, one.version), ([], 2, 1))
        self.assertEqual(other.wait(MOST_SECONDS), [Change(3, 3, ("tuck + f2 1",))])
        other.edit(5, 6, ["out 2"])
        one.edit(2, 3, [])
        self.assertEqual(one.sync(), [])
        self.assertEqual(other.sync(), [Change(2, 3, ())])
        self.assertEqual(one.wait(MOST_SECONDS), [Change(4, 5, ("out 2",))])
        self.assertEqual((one.text, other.brief.rule), (other.text, "CarrierIsOut"))

    def test_the_same_line_is_a_conflict_that_keeps_both(self) -> None:
        bridge = self.share(SOUND)
        one, other = self.client(bridge), self.client(bridge)
        one.edit(3, 4, ["tuck + f2 1"])
        other.edit(3, 4, ["tuck + f3 1"])
        one.sync()
        buffer = other.lines
        told = other.sync()
        applied(buffer, told)
        lines = ["; <<<<<<< session 1", "tuck + f3 1", "; =======", "tuck + f2 1", "; >>>>>>> entry 1"]
        self.assertEqual((other.conflicts, all(it.is_conflict for it in told), other.lines[3:8]), (1, True, lines))
        self.assertEqual(buffer, other.lines)
        one.wait(MOST_SECONDS)
        self.assertEqual((one.text, one.conflicts), (other.text, 0))
        for line in (7, 5, 3):
            one.edit(line, line + 1, [])
        one.sync()
        self.assertEqual([it.lines for it in other.wait(MOST_SECONDS)], [(), (), ()])
        self.assertEqual(self.kept(bridge), SOUND.replace("f1", "f3").replace("\nout", "\ntuck + f2 1\nout"))

    def test_blocks_that_are_cut_and_added(self) -> None:
        self.words = ("--pause", "5", "--block", "2")
        bridge = self.share(HEAD + "in 1\npause\nin 2\npause\nin 3\npause\n")
        one, other = self.client(bridge), self.client(bridge)
        one.edit(4, 6, [])
        other.edit(4, 5, ["; kept"])
        one.sync()
        other.sync()
        wanted = ["; <<<<<<< session 1", "; kept", "pause", "; =======", "; >>>>>>> cut by session 0"]
        self.assertEqual(other.lines[4:9], wanted)
        one.wait(MOST_SECONDS)
        self.assertEqual(one.text, other.text)
        one.edit(2, len(one.lines), [])
        one.sync()
        other.wait(MOST_SECONDS)
        self.assertEqual((other.text, other.brief.is_sound), (HEAD, True))
        other.edit(2, 2, ["in 1"])
        one.edit(2, 2, ["in 2"])
        other.sync()
        one.sync()
        other.wait(MOST_SECONDS)
        self.assertEqual((sorted(one.lines[2:]), other.text), (["in 1", "in 2"], one.text))
        self.assertEqual(self.kept(bridge), one.text)

    def test_a_long_text_that_is_put_in(self) -> None:
        bridge = self.share(SOUND)
        one, other = self.client(bridge), self.client(bridge)
        one.edit(4, 4, [f"; {number}" for number in range(20_000)])
        self.assertEqual(one.sync(), [])
        other.edit(4, 4, ["; other"])
        other.sync()
        self.assertEqual((len(other.lines), one.wait(MOST_SECONDS)), (20_006, [Change(4, 4, ("; other",))]))
        self.assertEqual(one.text, other.text)
        one.edit(4, 4, ["; " + "x" * 4000] * 600)
        with self.assertRaises(NotTaken):
            one.sync()
        one.edit(4, 604, ["; short"])
        one.sync()
        self.assertEqual(self.kept(bridge), one.text)

    def test_names_of_carriers(self) -> None:
        bridge = self.share(SOUND)
        one, other = self.client(bridge), self.client(bridge)
        self.assertEqual(one.put_names(["1", "4"]), [Change(1, 2, (";;Carriers: 1 4",))])
        other.edit(4, 4, ["in 4"])
        self.assertEqual(other.sync(), [Change(1, 2, (";;Carriers: 1 4",))])
        self.assertTrue(other.brief.is_sound)
        other.put_names(["1"])
        one.wait(MOST_SECONDS)
        self.assertEqual((one.text, self.kept(bridge)), (other.text, other.text))
        with self.assertRaises(ValueError):
            one.edit(0, 0, [";"])

    def test_lines_of_all_kinds(self) -> None:
        bridge = self.share(SOUND)
        one, other = self.client(bridge), self.client(bridge)
        lines = ["", " ", "|", "#", "; \U0001f9f6 \u2028 \"\\\x00", "session 1", ";\r", "end"]
        one.edit(5, 5, lines)
        one.sync()
        other.wait(MOST_SECONDS)
        self.assertEqual((other.lines[5:], self.kept(bridge)), (lines, one.text))
        bridge.stop(signal.SIGKILL)
        self.share()
        self.assertEqual((other.wait(0), other.lines[5:]), ([], lines))
        for bad in ("\ud800", "a\nb", "x" * 5000):
            one.edit(5, 5, [bad])
            with self.assertRaises(NotTaken):
                one.sync()
            one.edit(5, 6, [])
