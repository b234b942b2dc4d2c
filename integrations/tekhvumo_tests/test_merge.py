"""Texts brought together line by line."""
from __future__ import annotations

import random
import unittest

from tekhvumo.share import merge
from tekhvumo.share.blocks import Block, Blocks
from tekhvumo.share.journal import Journal, file_lines, file_text
from tekhvumo.share.merge import changes, differences, merged


def three(base: str, mine: str, theirs: str) -> tuple[str, int]:
    found = merged(list(base), list(mine), list(theirs))
    return "".join(line if len(line) == 1 else line[2] for line in found.lines), found.conflicts


def some(given: random.Random) -> list[str]:
    return [given.choice("abcd") for _ in range(given.randrange(9))]


class Merging(unittest.TestCase):
    def test_what_both_sides_make_of_a_text(self) -> None:
        rows = {
            ("abcde", "aXcde", "abcYe"): "aXcYe",
            ("abcde", "abde", "abcdeY"): "abdeY",
            ("abc", "aXc", "aXc"): "aXc",
            ("abc", "ac", "aXc"): "a<=X>c",
            ("abc", "aXc", "aYc"): "a<X=Y>c",
            ("abc", "aXYc", "aXZc"): "aX<Y=Z>c",
            ("ab", "aXb", "aYb"): "a<X=Y>b",
            ("ab", "aXb", "aXYb"): "aXYb",
            ("ab", "aXYb", "aXb"): "aXYb",
            ("abc", "aXbc", "aYc"): "aXYc",
            ("abcd", "aXYd", "abZd"): "aX<Y=Z>d",
            ("abcd", "aXYd", "aVWd"): "a<XY=VW>d",
            ("abcd", "aXYd", "aVYd"): "a<X=V>Yd",
            ("abc", "abXc", "aYc"): "aYXc",
            ("", "X", ""): "X",
            ("", "X", "Y"): "<X=Y>",
            ("abc", "", "abc"): "",
            ("abc", "", "abX"): "<=abX>",
        }
        for texts, wanted in rows.items():
            with self.subTest(texts):
                self.assertEqual(three(*texts), (wanted, wanted.count("<")))

    def test_random_texts(self) -> None:
        given = random.Random(5)
        for _ in range(3000):
            base, mine, theirs = some(given), some(given), some(given)
            text = list(base)
            for change in changes(base, mine):
                text[change.first : change.end] = change.lines
            self.assertEqual(text, mine)
            hunks = differences(base, mine)
            self.assertTrue(all(one.end < other.first for one, other in zip(hunks, hunks[1:])))
            for one, other, wanted in ((base, theirs, theirs), (mine, base, mine), (mine, mine, mine)):
                self.assertEqual(merged(base, one, other), (wanted, 0))
            one, other = merged(base, mine, theirs), merged(base, theirs, mine)
            self.assertEqual(one.conflicts, other.conflicts)
            if not one.conflicts:
                self.assertEqual(one, other)

    def test_long_texts(self) -> None:
        given = random.Random(6)
        base = [f"knit + f{number % 20} 1" for number in range(60_000)]
        mine, theirs = list(base), list(base)
        for number in range(20):
            mine.insert(given.randrange(30_000), f"; mine {number}")
            del theirs[given.randrange(40_000, len(theirs))]
        found = merged(base, mine, theirs)
        self.assertEqual((found.conflicts, len(found.lines)), (0, 60_000))
        self.assertEqual(len(differences(["x", *base, "x"], ["y", *mine, "y"])), 22)

    def test_texts_that_differ_too_much_differ_as_a_whole(self) -> None:
        base = [f"; {number}" for number in range(merge.MOST_DIFFERENCES + 1)]
        self.assertEqual(len(differences(["a", *base], ["a", *reversed(base)])), 1)


class Editing(unittest.TestCase):
    def test_changes_go_to_the_blocks(self) -> None:
        given = random.Random(7)
        for _ in range(500):
            sizes = [given.randrange(4) for _ in range(given.randrange(4))]
            blocks = Blocks(Block(number, 0, [f"{number} {it}" for it in range(size)]) for number, size in enumerate(sizes))
            text = list(blocks.lines())
            for _ in range(6):
                end = given.randrange(len(text) + 1)
                first = given.randrange(end + 1)
                lines = [given.choice("abcd") for _ in range(given.randrange(3))]
                text[first:end] = lines
                blocks.change(first, end, lines)
                self.assertEqual(list(blocks.lines()), text)
            known = [line for it in blocks.blocks if it.number is not None for line in it.known]
            self.assertEqual(known, [f"{number} {it}" for number, size in enumerate(sizes) for it in range(size)])
            self.assertTrue(all(it.mine or it.number is not None for it in blocks.blocks))

    def test_a_line_that_is_as_it_was_is_no_change(self) -> None:
        blocks = Blocks([Block(0, 3, "ab"), Block(1, 0, "cd")])
        blocks.change(1, 3, ["x"])
        self.assertEqual([it.block.number for it in blocks.edits()], [0, 1])
        blocks.change(1, 2, ["b", "c"])
        blocks.change(2, 3, [])
        blocks.change(2, 3, ["c", "d"])
        self.assertEqual(blocks.edits(), [])

    def test_a_block_that_grows_is_parted(self) -> None:
        for lines in (300, 20_000):
            blocks = Blocks([Block(0, 0, "ab")])
            blocks.change(1, 1, [str(number) for number in range(lines)])
            blocks.part()
            edits = [it.edit for it in blocks.edits()]
            self.assertTrue(3 <= len(edits) <= 64)
            told = [line for edit in [edits[-1], *reversed(edits[:-1])] for line in edit.lines]
            self.assertEqual(told, ["a", *map(str, range(lines)), "b"])


# Text lines that are spelled as other lines are, and entries of each kind.
SAVED = b"""journal 1
profile -8 7 4 2 0
head 3
|;!knitout-2
|;;Carriers:A
|; blocks 1
blocks 2
block 2
|block 1
|entries 2
block 1
|session 0 cut 0 seen 0
entries 5
session 3 put 1 seen 0 lines 0
session 0 put head seen 0 carriers lines 2
session 63 add start block 2 lines 2
|
|entries 0
session 3 add 2 block 3 lines 1
|x\r
session 0 cut 0 seen 0
"""


class Saved(unittest.TestCase):
    def test_what_is_read_is_written_again(self) -> None:
        opening = SAVED[: SAVED.index(b"entries 5")]
        for data in (SAVED, opening + b"entries 0\n", opening[: opening.index(b"blocks 2")] + b"blocks 0\nentries 0\n"):
            journal = Journal.of(data)
            self.assertEqual((journal.data(), journal.profile), (data, b"-8 7 4 2 0"))

    def test_each_version(self) -> None:
        head, names = [b";!knitout-2", b";;Carriers:A", b"; blocks 1"], b";;Carriers: lines 2"
        first, put = [b"block 1", b"entries 2"], b"session 0 cut 0 seen 0"
        named = [head[0], names, head[2]]
        texts = [
            [*head, *first, put],
            [*head, *first],
            [*named, *first],
            [*named, b"", b"entries 0", *first],
            [*named, b"", b"entries 0", b"x\r", *first],
            [*named, b"", b"entries 0", b"x\r"],
        ]
        journal = Journal.of(SAVED)
        self.assertEqual([list(it) for it in journal.versions()], texts)
        self.assertEqual((journal.lines(), Journal.of(journal.anew(b"0 0 0 1 0", 2).data()).lines()), (texts[-1], texts[-1]))
        self.assertEqual([len(it) for it in journal.anew(b"0 0 0 1 0", 2).blocks], [2, 1])

    def test_lines_of_files(self) -> None:
        lines = [b"a", b"", b"b\r", b" "]
        self.assertEqual(file_lines(file_text(lines)), lines)
        self.assertEqual(file_lines(b"a\r\nb"), [b"a", b"b"])
