"""Tests of the command `tally`: each range of a document after each entry, against lines that are counted here.

`python3 -m unittest discover tests` runs them, on the check_main that TEKHVUMO_PROGRAM names or that is found.
"""
from __future__ import annotations

import random
import unittest

from program import answer_of
from saved_texts import SAVED, Document, document_of
from tallies import tally_of

FIRST = SAVED.replace(b"entries 2", b"entries 1").split(b"session 0 put 0 seen 1")[0]
HEAD = "journal 1\nprofile -1024 1023 8 16 0\nhead 2\n|;!knitout-2\n|;;Carriers: A B C\n"
WORDS = """knit + {n} A|knit - {n} A B|knit + {n} C A|knit + {n}|tuck - {n} B|tuck + {n}|miss + {n} A|miss - {n}
split + {n} {m} A|split - {n} {m} B C
split - {n} {m}|xfer {n} {m}|drop {n}|amiss {n}|in A|out A|inhook B|releasehook B|outhook B
rack 1|rack 0.25|stitch 20 3|pause|x-speed-number 100|; knit + f1 A
|knit + {n} A A|knit + {n} D|knit + f1025 A|xfer {n}|split + {n} A|knit {n} A
drop {n} A|knit + {n} A ; again|tuck + {s} A|xfer {s} {s}|xfer {n} {n}"""
FORMS = WORDS.replace("\n", "|").split("|")


def some_line(rng: random.Random) -> str:
    near, far = rng.choice([("f", "b"), ("b", "f"), ("f", "bs"), ("fs", "b"), ("b", "fs"), ("bs", "f")])
    needle, facing = f"{near}{rng.randint(-3, 9)}", f"{far}{rng.randint(-3, 9)}"
    return rng.choice(FORMS).format(n=needle, m=facing, s=f"{rng.choice(['fs', 'bs'])}{rng.randint(0, 4)}")


def some_text(rng: random.Random, least: int = 0) -> list[str]:
    return [some_line(rng) for _ in range(rng.randint(least, 5))]


def barred(lines: list[str]) -> str:
    return "".join(f"|{line}\n" for line in lines)


class Journal:
    """A saved text that grows by random entries, with its document."""

    def __init__(self, rng: random.Random, blocks: int) -> None:
        self.rng = rng
        self.opening = f"{HEAD}blocks {blocks}\n"
        for _ in range(blocks):
            text = some_text(rng, 1)
            self.opening += f"block {len(text)}\n{barred(text)}"
        self.entries: list[str] = []

    def text(self) -> bytes:
        return f"{self.opening}entries {len(self.entries)}\n{''.join(self.entries)}".encode()

    def grow(self) -> None:
        document, rng = document_of(self.text()), self.rng
        block = rng.choice(document.blocks)
        text = some_text(rng)
        put = f"put {block.id} seen {block.stamp} lines {len(text)}\n{barred(text)}"
        anchor = rng.choice(["start", str(block.id)])
        add = f"add {anchor} block {document.drawn} lines {len(text)}\n{barred(text)}"
        cut = f"cut {block.id} seen {block.stamp}\n"
        names = rng.choice(["", " A", " B A", " C D A", " A B C"])
        head = f"put head seen {document.stamp} carriers{names}\n"
        self.entries.append(f"session {rng.randint(0, 63)} " + rng.choice([put, put, add, cut, head]))


def names_of(document: Document) -> list[str]:
    return ["A", "B", "C"] if document.names is None else [name.decode() for name in document.names]


def due(document: Document, start: int, end: int) -> tuple[int, bytes]:
    """What `tally` owes of these blocks."""
    lines = [line for block in document.blocks[start:end] for line in block.lines]
    return 0, f"tally {start}-{end} {tally_of(lines, names_of(document))}".encode()


class Rows(unittest.TestCase):
    def test_the_one_block(self) -> None:
        told = b"tally 0-1 lines 3 form 2 split 0 move 0 drop 0\nwith 1: 2\nneedles f1 f2\n"
        self.assertEqual(answer_of("tally", "0", "1", given=FIRST), (0, told))

    def test_no_block(self) -> None:
        for place in ["0", "1"]:
            told = f"tally {place}-{place} lines 0 form 0 split 0 move 0 drop 0\nwith 1: 0\nneedles\n".encode()
            self.assertEqual(answer_of("tally", place, place, given=FIRST), (0, told))

    def test_blocks_that_are_not_there(self) -> None:
        for places in [("0", "2"), ("1", "0"), ("2", "2"), ("4294967295", "4294967295"), ("0", "4294967295")]:
            self.assertEqual(answer_of("tally", *places, given=FIRST), (3, b"bad input: range\n"), places)

    def test_a_bad_line_comes_before_a_bad_range(self) -> None:
        given = SAVED.replace(b"seen 1 lines 1", b"seen 0 lines 1")
        self.assertEqual(answer_of("tally", "5", "1", given=given), (3, b"bad input: journal line 15 NoFit\n"))

    def test_words_that_are_refused(self) -> None:
        places = [[], ["0"], ["0", "1", "2"], ["0", "4294967296"], ["0", "00000000001"], ["0", "-1"], ["0", "x"]]
        options = [["0", "1", option] for option in ["--block=2", "--low=1", "--json"]]
        for words in places + options:
            self.assertEqual(answer_of("tally", *words, given=FIRST).status, 2, words)

    def test_idle_zeros(self) -> None:
        self.assertEqual(answer_of("tally", "00", "0000000001", given=FIRST), answer_of("tally", "0", "1", given=FIRST))

    def test_classes_are_those_of_the_carriage(self) -> None:
        """Each kind of line once: `knit` without carriers drops, `split` without them moves, and `miss` with them forms no loop."""
        with_needles = ["knit + f1 A", "tuck + f1", "miss + f3 A", "miss + f4", "split + f5 b5 A", "split + f6 b6"]
        lines = [*with_needles, "xfer b7 f7", "drop f1", "amiss bs8", "knit + f9 Z"]
        given = f"{HEAD}blocks 1\nblock {len(lines)}\n{barred(lines)}entries 0\n".encode()
        told = b"tally 0-1 lines 10 form 2 split 1 move 2 drop 3\nwith A: 2\nwith B: 0\nwith C: 0\nneedles f1 f3 f5 f6 f7 b5 b6 b7 bs8\n"
        self.assertEqual(answer_of("tally", "0", "1", given=given), (0, told))


class Ranges(unittest.TestCase):
    def judge(self, given: bytes) -> None:
        document = document_of(given)
        many = len(document.blocks)
        for start in range(many + 1):
            for end in range(start, many + 1):
                told = tuple(answer_of("tally", str(start), str(end), given=given))
                self.assertEqual(told, due(document, start, end), (start, end, given))

    def test_each_range_after_each_entry(self) -> None:
        journal = Journal(random.Random(37), 20)
        self.judge(journal.text())
        for _ in range(12):
            journal.grow()
            self.judge(journal.text())

    def test_some_ranges_of_many_journals(self) -> None:
        for seed in range(40):
            rng = random.Random(seed)
            journal = Journal(rng, rng.randint(1, 30))
            for _ in range(rng.randint(0, 12)):
                if document_of(journal.text()).blocks:
                    journal.grow()
            document = document_of(journal.text())
            start = rng.randint(0, len(document.blocks))
            end = rng.randint(start, len(document.blocks))
            with self.subTest(seed=seed):
                self.assertEqual(tuple(answer_of("tally", str(start), str(end), given=journal.text())), due(document, start, end))

    def test_the_most_blocks(self) -> None:
        lines = [f"knit + f{at % 500} A" if at % 3 else f"xfer f{at % 500} b{at % 500}" for at in range(65_536)]
        given = f"{HEAD}blocks 65536\n{''.join(f'block 1{chr(10)}|{line}{chr(10)}' for line in lines)}entries 0\n".encode()
        document = document_of(given)
        for start, end in [(0, 65_536), (0, 1), (65_535, 65_536), (65_536, 65_536), (1, 65_535), (32_767, 32_769)]:
            self.assertEqual(tuple(answer_of("tally", str(start), str(end), given=given)), due(document, start, end), (start, end))
        self.assertEqual(answer_of("tally", "0", "65537", given=given), (3, b"bad input: range\n"))


if __name__ == "__main__":
    unittest.main()
