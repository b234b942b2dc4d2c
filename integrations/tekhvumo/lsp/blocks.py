"""The blocks in which a conversation has a document's body, and which of them are to be put again."""
from __future__ import annotations

from bisect import bisect_right
from dataclasses import dataclass
from itertools import accumulate
from typing import Callable, Iterator, Sequence

from ..serve import Accepted, Conversation

BLOCK_LINES = 64
# A block of more lines is parted: what an edit costs grows with its block.
MOST_LINES = 2 * BLOCK_LINES
MANY_LINES = 20 * BLOCK_LINES
LinesOf = Callable[[int, int], Sequence[str]]


@dataclass
class Block:
    """A block: the id that the conversation knows it by, its number of lines, and whether it has others by now."""

    number: int
    lines: int
    is_changed: bool = False


class Blocks:
    """The blocks in their order; lines are counted from the first of the body, which has 0."""

    def __init__(self, lines: int) -> None:
        sizes = [min(BLOCK_LINES, lines - begin) for begin in range(0, lines, BLOCK_LINES)]
        self.blocks = [Block(number, size) for number, size in enumerate(sizes)]
        self.cut: list[int] = []
        self.last: Accepted | None = None
        # Lines that stand in no block, as there is none.
        self.homeless = 0

    def change(self, first: int, end: int, lines: int) -> None:
        """So many lines stand in the place of those from `first` to `end`, which isn't among these."""
        if not self.blocks:
            self.homeless += lines - (end - first)
            return
        ends = list(accumulate(block.lines for block in self.blocks))
        at = min(bisect_right(ends, first), len(ends) - 1)
        last = at if end <= ends[at] else min(bisect_right(ends, end - 1), len(ends) - 1)
        block = self.blocks[at]
        block.lines = ends[last] - (ends[at] - block.lines) + lines - (end - first)
        block.is_changed = True
        self.cut += [it.number for it in self.blocks[at + 1 : last + 1]]
        del self.blocks[at + 1 : last + 1]

    @property
    def are_mostly_new(self) -> bool:
        """Whether it costs less to open another conversation than to tell what has changed."""
        new = self.homeless + sum(block.lines for block in self.blocks if block.is_changed)
        lines = self.homeless + sum(block.lines for block in self.blocks)
        untold = new + BLOCK_LINES * len(self.cut)
        return untold > MANY_LINES and 2 * untold > lines

    def line_of(self, number: int, line: int) -> int:
        """The line of the body that is line `line`, from 1, of a block."""
        begin = 0
        for block in self.blocks:
            if block.number == number:
                return begin + line - 1
            begin += block.lines
        raise LookupError(f"there is no block {number}")

    def tell(self, served: Conversation, lines_of: LinesOf) -> Accepted | None:
        """Tells the conversation all that has changed, and gives the last reply, or None where nothing has."""
        self.last = None
        for number in self.cut:
            self.last = served.cut(number)
        self.cut.clear()
        if self.homeless:
            self.blocks = list(self.added(served, "start", list(lines_of(0, self.homeless))))
            self.homeless = 0
        elif any(block.is_changed for block in self.blocks):
            self.blocks = list(self.put(served, lines_of))
        return self.last

    def put(self, served: Conversation, lines_of: LinesOf) -> Iterator[Block]:
        """The blocks, each that has changed put again: an empty one is cut, a large one parted."""
        begin = 0
        for block in self.blocks:
            end = begin + block.lines
            if not block.is_changed:
                yield block
            elif begin == end:
                self.last = served.cut(block.number)
            else:
                lines = list(lines_of(begin, end))
                size = len(lines) if len(lines) <= MOST_LINES else BLOCK_LINES
                self.last = served.put(block.number, lines[:size])
                yield Block(block.number, size)
                yield from self.added(served, block.number, lines[size:])
            begin = end

    def added(self, served: Conversation, behind: int | str, lines: Sequence[str]) -> Iterator[Block]:
        """New blocks behind one, or first."""
        for begin in range(0, len(lines), BLOCK_LINES):
            part = lines[begin : begin + BLOCK_LINES]
            self.last = served.add(behind, part)
            behind = self.last.block
            yield Block(int(behind), len(part))
