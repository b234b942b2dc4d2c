"""A shared text in its blocks, as one editor has it: what is known of each, and what the editor has made of it."""
from __future__ import annotations

from bisect import bisect_left, bisect_right
from itertools import accumulate
from typing import Iterable, Iterator, NamedTuple, Sequence

from ..serve import Add, Cut, Put
from ..serve.requests import MOST_EDITS, MOST_TEXT_LINES, Edit

# A block of more lines is parted into such of fewer: what an edit costs grows with its block.
MOST_LINES, PART_LINES = 256, 128


class Block:
    """A block by its id, or None where others don't know it yet, with the stamp of the text that is known.

    `mine` are its lines here, and `base` those of its stamp where they are others.
    """

    def __init__(self, number: int | None, stamp: int, lines: Iterable[str], base: tuple[str, ...] | None = None) -> None:
        self.number = number
        self.stamp = stamp
        self.mine = list(lines)
        self.base = base

    @property
    def known(self) -> Sequence[str]:
        """The lines of its stamp."""
        return self.mine if self.base is None else self.base

    @property
    def is_changed(self) -> bool:
        """Whether its lines are others here than at its stamp."""
        return self.base is not None

    def become(self, lines: Sequence[str]) -> None:
        """Gives it other lines here."""
        known = tuple(self.known)
        self.mine = list(lines)
        self.base = None if self.number is not None and known == tuple(lines) else known

    def settle(self, stamp: int) -> None:
        """Takes its lines here for those of a stamp."""
        self.stamp, self.base = stamp, None


class Sent(NamedTuple):
    """An edit that tells of a block."""

    edit: Edit
    block: Block


class Blocks:
    """The blocks in their order. Lines count from the first of the body, which has 0."""

    def __init__(self, blocks: Iterable[Block]) -> None:
        self.blocks = list(blocks)

    def lines(self) -> Iterator[str]:
        """The lines here."""
        return (line for block in self.blocks for line in block.mine)

    def known_lines(self) -> Iterator[str]:
        """The lines of the stamps."""
        return (line for block in self.blocks for line in block.known)

    def find(self, number: int | None) -> Block | None:
        """The block with an id."""
        return next((it for it in self.blocks if it.number == number), None) if number is not None else None

    def first_line(self, block: Block) -> int:
        """The line with which a block begins."""
        first = 0
        for it in self.blocks:
            if it is block:
                return first
            first += len(it.mine)
        raise LookupError("the block isn't in the text")

    def put_behind(self, block: Block, behind: Block | None) -> None:
        """Puts a block behind another, or first."""
        self.blocks.insert(self.blocks.index(behind) + 1 if behind else 0, block)

    def last_new_behind(self, block: Block | None) -> Block | None:
        """The last of the new blocks that stand directly behind a block, or first; the block where there are none."""
        place = self.blocks.index(block) + 1 if block else 0
        while place < len(self.blocks) and self.blocks[place].number is None:
            block, place = self.blocks[place], place + 1
        return block

    def remove(self, block: Block) -> None:
        """Takes a block out."""
        self.blocks.remove(block)

    # ------------------------------------------------------------ changes here

    def change(self, first: int, end: int, lines: Sequence[str]) -> None:
        """Puts lines in the place of those from `first` to `end`, which isn't among these."""
        if not self.blocks:
            self.blocks.append(Block(None, 0, (), ()))
        ends = list(accumulate(len(block.mine) for block in self.blocks))
        # (what is put between two blocks goes behind the first of them)
        at = bisect_left(ends, max(1, first)) if first == end else bisect_right(ends, first)
        last = at if first == end else bisect_left(ends, end)
        at, last = min(at, len(ends) - 1), min(last, len(ends) - 1)
        for place in range(last, at - 1, -1):
            block = self.blocks[place]
            begin = ends[place] - len(block.mine)
            front = block.mine[: max(0, first - begin)]
            behind = block.mine[max(0, end - begin) :]
            block.become([*front, *(lines if place == at else ()), *behind])
        self.blocks[at : last + 1] = [it for it in self.blocks[at : last + 1] if it.mine or it.number is not None]

    def part(self) -> None:
        """Parts the blocks that have grown too large: what is behind a block's first lines becomes blocks of its own."""
        for block in [it for it in self.blocks if it.is_changed and len(it.mine) > MOST_LINES]:
            rest = block.mine[PART_LINES:]
            # (a long text has fewer and larger blocks, so that one group of edits takes it)
            size = min(MOST_TEXT_LINES, max(PART_LINES, -(-len(rest) // (MOST_EDITS - 1))))
            parts = [Block(None, 0, rest[begin : begin + size], ()) for begin in range(0, len(rest), size)]
            block.become(block.mine[:PART_LINES])
            at = self.blocks.index(block) + 1
            self.blocks[at:at] = parts

    # ------------------------------------------------------------ telling others

    def edits(self) -> list[Sent]:
        """The edits that tell others of a block and of the new ones behind it, or of several such; none where all is told.

        New blocks come before the lines that they may have taken over are left out, and nothing is put behind a block that is
        taken out. So they are to be made in this order, all or none.
        """
        found: list[Sent] = []
        for run in self.runs():
            edits = list(told(run))
            if found and len(found) + len(edits) > MOST_EDITS:
                break
            found += edits
        return found[:MOST_EDITS]

    def runs(self) -> Iterator[list[Block]]:
        """Each block that is known to others, with the new ones behind it; first, the new ones that are behind none."""
        run: list[Block] = []
        for block in self.blocks:
            if block.number is not None:
                yield run
                run = []
            run.append(block)
        yield run


def told(run: Sequence[Block]) -> Iterator[Sent]:
    """The edits that tell of a block and of the new ones behind it."""
    known = run[0] if run and run[0].number is not None else None
    behind = "start" if known is None or known.number is None else known.number
    # (from the last: each comes directly behind the block, before those that were added so far)
    for block in reversed(run[1:] if known else run):
        yield Sent(Add(behind, tuple(block.mine)), block)
    if known and known.number is not None and known.is_changed:
        edit = Put(known.number, tuple(known.mine)) if known.mine else Cut(known.number)
        yield Sent(edit, known)
