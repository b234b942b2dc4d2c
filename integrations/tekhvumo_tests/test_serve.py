"""Conversations: each call, its refusals, several sessions, and processes that go away."""
from __future__ import annotations

import asyncio
import doctest
import os
import random
import signal
import threading
import unittest
from typing import Any

import tekhvumo
import tekhvumo.serve
import tekhvumo.serve.aio
import tekhvumo.serve.conversation
from tekhvumo import Limits, SetupFault, check, loop_of
from tekhvumo.serve import (
    Add,
    AsyncConversation,
    BlockGone,
    Conversation,
    Cut,
    GroupRefused,
    NoRange,
    NoSuchBlock,
    NothingToUndo,
    NoVersion,
    OpeningRefused,
    ProcessGone,
    Put,
    Stale,
    TextLong,
    Unsayable,
    Unseen,
)

from .case import HEAD, PROGRAMS, SOUND, Case

ROW = [f"tuck + f{number} 1" for number in range(1, 9)]


def load_tests(loader: unittest.TestLoader, tests: unittest.TestSuite, pattern: str | None) -> unittest.TestSuite:
    """The examples of the classes, too."""
    for module in (tekhvumo.serve, tekhvumo.serve.aio, tekhvumo.serve.conversation):
        tests.addTests(doctest.DocTestSuite(module))
    return tests


class Calls(Case):
    def served(self, text: str | bytes = SOUND, **more: Any) -> Conversation:
        conversation = Conversation.open(text, **more)
        self.addCleanup(conversation.close)
        return conversation

    def test_what_an_edit_and_a_question_are_answered(self) -> None:
        served = self.served(block_lines=2)
        self.assertEqual((served.opened.version, served.opened.blocks, served.opened.brief.made), (0, 2, 1))
        broken = served.put(1, ["out 1", "out 1"])
        self.assertEqual((broken.version, broken.brief.line, broken.brief.rule), (1, 6, "CarrierIsOut"))
        self.assertEqual((broken.broken.block, broken.broken.line), (1, 2))
        added = served.add(0, ["knit - f1 1"])
        self.assertEqual((added.block, added.version), (2, 2))
        self.assertEqual(served.loop(5).loop.through, (4,))
        self.assertIsNone(served.loop(3).loop)
        self.assertEqual([it.block for it in served.blocks().blocks], [0, 2, 1])
        self.assertEqual(served.look(2).lines, ("knit - f1 1",))
        self.assertEqual((served.look(1).first, served.look(1).stamp), (6, 1))
        self.assertEqual(served.text_at(1, 0).lines, ("out 1",))
        self.assertIsNone(served.text_at(0, 2))
        told = served.verdict()
        self.assertEqual((told.verdict.line, told.broken.line, told.version), (7, 2, 2))
        self.assertEqual(served.cut(1).brief.lines, 3)
        self.assertEqual([it.edit for it in served.since(0).entries], ["put", "add", "cut"])
        self.assertEqual((served.since(2).entries[0].seen, served.since(1).entries[0].anchor), (1, 0))
        ended = served.close()
        self.assertEqual((ended.version, ended.verdict.state.carriers), (3, ("1",)))
        self.assertIsNone(served.close())

    def test_groups_and_undo(self) -> None:
        served = self.served(block_lines=2)
        done = served.group([Put(0, ["in 2"]), Add("start", ["; first"]), Add(0, ["tuck + f1 2"]), Cut(1)])
        self.assertEqual((done.first, done.version, done.brief.lines), (1, 4, 3))
        with self.assertRaises(NothingToUndo):
            served.undo()
        with self.assertRaises(GroupRefused) as refused:
            served.group([Put(0, []), Put(0, [])])
        self.assertEqual((refused.exception.at, type(refused.exception.why)), (2, Stale))
        served.put(0, ["in 1"])
        self.assertEqual(served.undo().brief.lines, 3)
        self.assertEqual(served.look(0).lines, ("in 2",))

    def test_other_names_in_the_header(self) -> None:
        served = self.served()
        self.assertEqual(served.look_head().lines, (";;Carriers: 1 2 3",))
        self.assertEqual(served.put_head(["2"]).brief.rule, "NoCarrier")
        self.assertEqual(served.put_head([]).block, "head")
        self.assertEqual(served.since(0).entries[0].names, ("2",))
        for names in (["1", "1"], ["a b"], [""], [str(it) for it in range(65)]):
            with self.assertRaises(Unsayable):
                served.put_head(names)
        self.assertTrue(served.put_head(["1"]).brief.is_sound)

    def test_what_is_saved_is_replayed(self) -> None:
        served = self.served()
        served.put(0, ["in 1"])
        saved = served.save()
        ran = self.run_command("check_main", "replay", given=saved.text)
        self.assertEqual((ran.returncode, ran.stdout.splitlines()[0]), (0, b"final version 1"))
        tally = served.tally(0, 1)
        self.assertEqual((tally.lines, tally.form, dict(tally.carriers)), (1, 0, {"1": 0, "2": 0, "3": 0}))
        with self.assertRaises(NoRange):
            served.tally(0, 2)

    def test_what_is_saved_is_gone_on_from(self) -> None:
        before = self.served(block_lines=2, limits=Limits(high=7))
        before.put(1, ["out 1", "x\r"])
        saved = before.save()
        for text in (saved.text, saved.text.encode(), "\n".join(saved.lines)):
            served = Conversation.open_saved(text)
            self.addCleanup(served.close)
            self.assertEqual((served.opened.version, served.opened.blocks), (1, 2))
            self.assertEqual((served.opened.brief.rule, served.opened.broken.line), ("Unreadable", 2))
            with self.assertRaises(NothingToUndo):
                served.undo()
            with self.assertRaises(Stale):
                served.put(1, [])
            self.assertEqual(served.look(1).lines, ("out 1", "x\r"))
            self.assertEqual(served.put(1, ["tuck + f8 1"]).brief.rule, "OffBed")
            self.assertEqual([(it.number, it.seen) for it in served.since(0).entries], [(1, 0), (2, 1)])
        with self.assertRaises(OpeningRefused) as refused:
            Conversation.open_saved(saved.text.replace("seen 0", "seen 1"))
        self.assertEqual((refused.exception.status, refused.exception.words), (3, "bad input: journal line 13 NoFit"))

    def test_refusals_by_their_names(self) -> None:
        served = self.served()
        one, other = served.session(1), served.session(2)
        one.put(0, ["in 1"])
        with self.assertRaises(Stale) as stale:
            other.put(0, [])
        self.assertEqual((stale.exception.block, stale.exception.seen, stale.exception.now), (0, 0, 1))
        one.cut(0)
        with self.assertRaises(BlockGone) as gone:
            other.look(0)
        self.assertEqual((gone.exception.at, gone.exception.version), (2, 2))
        with self.assertRaises(NoSuchBlock):
            one.look(7)
        with self.assertRaises(Unseen):
            one.put(7, [])
        with self.assertRaises(NoVersion):
            one.since(9)
        with self.assertRaises(TextLong):
            one.add("start", ["in 1"] * 4097)
        self.assertEqual(served.verdict().version, 2)

    def test_what_cannot_be_said_is_not_sent(self) -> None:
        served = self.served()
        bad_lines = ("in 1\nin 1", "\ud800", ";" + "x" * 4095)
        for bad in bad_lines:
            with self.assertRaises(Unsayable):
                served.put(0, [bad])
        bad_groups: tuple[list[Any], ...] = ([], [Cut(0)] * 65, [Put(0, ["in 1"] * 4097)], [Put(0, []), Put(1, ["\n"])])
        for group in bad_groups:
            with self.assertRaises(Unsayable):
                served.group(group)
        for ask in (lambda: served.look(-1), lambda: served.loop(1 << 32), lambda: served.session(64)):
            with self.assertRaises(Unsayable):
                ask()
        with self.assertRaises(Unsayable):
            served.add("end", [])
        self.assertEqual(served.put(0, [";" + "x" * 4094]).version, 1)

    def test_lines_come_back_as_they_were_given(self) -> None:
        served = self.served(HEAD + "in 1\r\n;\tA\r\r\n")
        self.assertEqual(served.look(0).lines, ("in 1", ";\tA\r"))
        lines = ("", " ", "|", "; \U0001f9f6 \x00\x0b\u2028 \"\\", "#", "session 1", "x\r", "\r")
        served.put(0, lines)
        self.assertEqual(served.look(0).lines, lines)

    def test_openings_that_are_refused(self) -> None:
        wanted = {"": "head BadMagic", "in 1": "head BadMagic", ";!knitout-2": "head NoCarriers", b"\xff": "line 2 NotUtf8"}
        for text, words in wanted.items():
            with self.assertRaises(OpeningRefused) as refused:
                Conversation.open(text)
            self.assertEqual((refused.exception.status, refused.exception.words), (3, f"bad input: {words}"))
        with self.assertRaises(OpeningRefused) as refused:
            Conversation.open(HEAD + "; a long comment\n" * 1_000_000)
        self.assertEqual(refused.exception.status, 7)
        with self.assertRaises(SetupFault):
            Conversation.open(SOUND, program=str(self.room / "absent"))
        with self.assertRaises(Unsayable):
            Conversation.open(SOUND, block_lines=0)

    def test_limits(self) -> None:
        self.assertEqual(self.served(limits=Limits(high=0)).opened.brief.rule, "OffBed")


class Gone(Case):
    def test_a_process_that_is_killed(self) -> None:
        served = Conversation.open(SOUND)
        os.kill(served.process, signal.SIGKILL)
        for _ in range(2):
            with self.assertRaises(ProcessGone) as gone:
                served.verdict()
            self.assertEqual(gone.exception.status, -signal.SIGKILL)
        self.assertIsNone(served.close())

    def test_a_conversation_that_is_closed(self) -> None:
        with Conversation.open(SOUND) as served:
            pass
        with self.assertRaises(ProcessGone):
            served.verdict()

    def test_a_program_of_another_kind(self) -> None:
        path = self.write("other", "#!/bin/sh\nread line\necho what\n")
        path.chmod(0o755)
        with self.assertRaises(OpeningRefused):
            Conversation.open(SOUND, program=str(path))


class Sessions(Case):
    def test_threads_share_a_document(self) -> None:
        def edit(number: int) -> None:
            session, given = served.session(number), random.Random(number)
            for count in range(60):
                block = given.randrange(3)
                while True:
                    shown = session.look(block)
                    try:
                        session.put(block, [*shown.lines, f"; {number} {count}"])
                        break
                    except Stale:
                        pass

        with Conversation.open(HEAD + "pause\n" * 6, block_lines=2) as served:
            threads = [threading.Thread(target=edit, args=(number,)) for number in range(6)]
            for thread in threads:
                thread.start()
            for thread in threads:
                thread.join()
            lines = [line for it in served.blocks().blocks for line in served.look(it.block).lines]
            self.assertEqual((served.verdict().version, len(set(lines))), (360, 361))
            for number in range(6):
                of_session = [it for it in served.since(0).entries if it.session == number]
                self.assertEqual(len(of_session), 60)

    def test_verdicts_are_those_of_the_whole_text(self) -> None:
        for path in sorted((PROGRAMS / "good").glob("*.k"))[:8]:
            given = random.Random(path.name)
            lines = path.read_text().splitlines()
            with Conversation.open("\n".join(lines) + "\n", block_lines=16) as served:
                blocks = {it.block: list(served.look(it.block).lines) for it in served.blocks().blocks}
                head = lines[: served.look(0).first - 1]
                for _ in range(12):
                    block = given.choice(list(blocks))
                    at = given.randrange(len(blocks[block]) + 1)
                    blocks[block][at:at + given.randrange(2)] = given.choices([*lines[5:], *ROW], k=given.randrange(2))
                    told = served.put(block, blocks[block])
                    text = "\n".join([*head, *(it for lines in blocks.values() for it in lines)])
                    verdict = check(text)
                    self.assertEqual((told.brief.is_sound, told.brief.line, told.brief.rule, told.brief.at),
                                     (verdict.is_sound, verdict.line, verdict.rule, verdict.at))
                self.assertEqual(served.verdict().verdict, verdict)
                if verdict.is_sound:
                    number = given.randrange(1, len(lines))
                    self.assertEqual(served.loop(number).loop, loop_of(text, number))


class Tasks(Case):
    def test_each_call(self) -> None:
        async def calls() -> None:
            async with await AsyncConversation.open(SOUND, block_lines=2) as served:
                self.assertEqual(served.opened.blocks, 2)
                self.assertEqual((await served.put(0, ["in 2"])).brief.rule, "CarrierIsOut")
                self.assertEqual((await served.undo()).brief.made, 1)
                self.assertEqual((await served.add("start", [])).block, 2)
                self.assertEqual((await served.cut(2)).version, 4)
                self.assertEqual((await served.look(0)).lines, ("in 1", "tuck + f1 1"))
                self.assertEqual((await served.look_head()).block, "head")
                self.assertEqual((await served.put_head(["1"])).version, 5)
                self.assertEqual((await served.group([Cut(1)])).version, 6)
                self.assertEqual((await served.text_at(1, 0)).lines, ("out 1",))
                self.assertEqual((await served.loop(4)).loop.yarns, ("1",))
                self.assertEqual((await served.verdict()).verdict.state.carriers, ("1",))
                self.assertEqual(len((await served.blocks()).blocks), 1)
                self.assertEqual(len((await served.since(0)).entries), 6)
                saved = await served.save()
                self.assertEqual((await served.tally(0, 1)).form, 1)
                with self.assertRaises(Stale):
                    await served.session(3).put(0, [])
                self.assertEqual((await served.close()).version, 6)
            with self.assertRaises(ProcessGone):
                await served.verdict()
            async with await AsyncConversation.open_saved(saved.text) as served:
                self.assertEqual((served.opened.version, (await served.save()).lines), (6, saved.lines))
            for refused in (AsyncConversation.open(";!knitout-2"), AsyncConversation.open_saved(saved.text[:-1] + "0\n")):
                with self.assertRaises(OpeningRefused):
                    await refused

        asyncio.run(calls())

    def test_tasks_share_a_document_and_one_is_cancelled(self) -> None:
        async def calls() -> None:
            async with await AsyncConversation.open(SOUND) as served:
                asked = [asyncio.create_task(served.loop(number)) for number in range(1, 200)]
                await asyncio.sleep(0)
                asked[7].cancel()
                told = await asyncio.gather(*asked, return_exceptions=True)
                self.assertIsInstance(told[7], asyncio.CancelledError)
                self.assertEqual([number for number, it in enumerate(told, 1) if number != 8 and it.loop], [4])

        asyncio.run(calls())

    def test_a_process_that_is_killed(self) -> None:
        async def calls() -> None:
            served = await AsyncConversation.open(SOUND)
            served.pipes.child.kill()
            with self.assertRaises(ProcessGone):
                await served.verdict()
            self.assertIsNone(await served.close())

        asyncio.run(calls())


class Names(unittest.TestCase):
    def test_what_is_public_is_documented(self) -> None:
        for name in tekhvumo.serve.__all__:
            with self.subTest(name):
                self.assertTrue(getattr(tekhvumo.serve, name).__doc__)
        self.assertIs(tekhvumo.Conversation, Conversation)
        with self.assertRaises(AttributeError):
            getattr(tekhvumo, "Conversations")
