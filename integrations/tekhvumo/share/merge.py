"""Two texts made of one, brought together line by line."""
from __future__ import annotations

from collections import deque
from typing import Iterable, Iterator, NamedTuple, Sequence

Lines = Sequence[str]
# Texts that differ in more lines than this are taken to differ from their first difference to their last.
MOST_DIFFERENCES = 1000
# Marks of a conflict; they are comments, so that a program is judged with both sides in it.
MINE, BETWEEN, THEIRS = "; <<<<<<<", "; =======", "; >>>>>>>"


class Change(NamedTuple):
    """The lines from `first` to `end`, which isn't among them, are `lines` now. Lines count from 0.

    Of several changes each counts the lines as those before it have left them.
    """

    first: int
    end: int
    lines: tuple[str, ...]
    is_conflict: bool = False


class Hunk(NamedTuple):
    """The lines of an old text from `first` to `end` are those of a new one from `begin` to `until`."""

    first: int
    end: int
    begin: int
    until: int


class Merged(NamedTuple):
    """A text that two others have become, and how many conflicts it shows."""

    lines: list[str]
    conflicts: int


# ---------------------------------------------------------------- differences


def common_front(old: Lines, new: Lines) -> int:
    """How many lines two texts have in common at their beginning."""
    length = min(len(old), len(new))
    return next((at for at in range(length) if old[at] != new[at]), length)


def common_ends(old: Lines, new: Lines) -> tuple[int, int]:
    """How many lines two texts have in common at their beginning, and behind these at their end."""
    front = common_front(old, new)
    most = min(len(old), len(new)) - front
    behind = next((at for at in range(most) if old[-1 - at] != new[-1 - at]), most)
    return front, behind


def rounds_of(old: Lines, new: Lines) -> list[dict[int, int]]:
    """How far one comes in the old text with so many differences, by how much further that is than in the new one.

    (The greedy search of Myers: it costs the texts' length times the number of their differences.) No rounds where
    there are too many differences.
    """
    furthest = {1: 0}
    rounds = []
    for distance in range(MOST_DIFFERENCES + 1):
        rounds.append(dict(furthest))
        for ahead in range(-distance, distance + 1, 2):
            is_added = ahead == -distance or (ahead != distance and furthest[ahead - 1] < furthest[ahead + 1])
            x = furthest[ahead + 1] if is_added else furthest[ahead - 1] + 1
            while x < len(old) and x - ahead < len(new) and old[x] == new[x - ahead]:
                x += 1
            furthest[ahead] = x
            if x >= len(old) and x - ahead >= len(new):
                return rounds
    return []


def pairs(old: Lines, new: Lines) -> list[tuple[int, int]]:
    """The lines that two texts have in common, by their places in both, from the last to the first."""
    found = []
    x, y = len(old), len(new)
    rounds = rounds_of(old, new)
    for distance in reversed(range(len(rounds))):
        furthest, ahead = rounds[distance], x - y
        is_added = ahead == -distance or (ahead != distance and furthest[ahead - 1] < furthest[ahead + 1])
        before = ahead + 1 if is_added else ahead - 1
        from_x = furthest[before] if distance else 0
        from_y = from_x - before if distance else 0
        while x > from_x and y > from_y:
            x, y = x - 1, y - 1
            found.append((x, y))
        x, y = from_x, from_y
    return found


def differences(old: Lines, new: Lines) -> list[Hunk]:
    """Where two texts differ, from the first place to the last; a line or more that they share lies between two."""
    front, behind = common_ends(old, new)
    middle = old[front : len(old) - behind], new[front : len(new) - behind]
    hunks = []
    x = y = front
    found = pairs(*middle) if all(middle) else []
    shared = [(front + one, front + other) for one, other in reversed(found)]
    for one, other in [*shared, (len(old) - behind, len(new) - behind)]:
        if (x, y) != (one, other):
            hunks.append(Hunk(x, one, y, other))
        x, y = one + 1, other + 1
    return hunks


def changes(old: Lines, new: Lines, at: int = 0, is_conflict: bool = False) -> list[Change]:
    """The changes that make one text another, where the texts begin at line `at`."""
    # (from the last to the first, so that none moves another)
    return [
        Change(at + it.first, at + it.end, tuple(new[it.begin : it.until]), is_conflict)
        for it in reversed(differences(old, new))
    ]


# ---------------------------------------------------------------- merging


def meet(one: Hunk, other: Hunk) -> bool:
    """Whether two changes of a text touch the same lines, or put lines into the same place."""
    return (one.first < other.end and other.first < one.end) or one[:2] == other[:2]


def regions(mine: Sequence[Hunk], theirs: Sequence[Hunk]) -> Iterator[tuple[list[Hunk], list[Hunk]]]:
    """The changes of both sides in the order of their places, those together that meet."""
    rest = deque(sorted((hunk, side) for side, hunks in enumerate((mine, theirs)) for hunk in hunks))
    while rest:
        group = [rest.popleft()]
        while rest and any(meet(hunk, rest[0][0]) and side != rest[0][1] for hunk, side in group):
            group.append(rest.popleft())
        yield [it for it, side in group if side == 0], [it for it, side in group if side == 1]


def side_of(hunks: Sequence[Hunk], new: Lines, base: Lines, first: int, end: int) -> list[str]:
    """What one side has made of the lines from `first` to `end` of the base."""
    lines: list[str] = []
    at = first
    for hunk in hunks:
        lines += [*base[at : hunk.first], *new[hunk.begin : hunk.until]]
        at = hunk.end
    return [*lines, *base[at:end]]


def conflict(mine: Lines, theirs: Lines, names: tuple[str, str]) -> list[str]:
    """Both sides of a conflict with its marks around what differs."""
    front, behind = common_ends(mine, theirs)
    sides = mine[front : len(mine) - behind], theirs[front : len(theirs) - behind]
    marked = [f"{MINE} {names[0]}", *sides[0], BETWEEN, *sides[1], f"{THEIRS} {names[1]}"]
    return [*mine[:front], *marked, *mine[len(mine) - behind :]]


def is_more(lines: Lines, others: Lines) -> bool:
    """Whether lines are others with some put in at one place."""
    return sum(common_ends(lines, others)) == len(others)


def line_by_line(hunks: Sequence[Hunk]) -> Iterator[Hunk]:
    """The changes with those parted that put as many lines into the place of some: each line is changed by itself."""
    for hunk in hunks:
        if hunk.end - hunk.first != hunk.until - hunk.begin:
            yield hunk
            continue
        for at in range(hunk.end - hunk.first):
            yield Hunk(hunk.first + at, hunk.first + at + 1, hunk.begin + at, hunk.begin + at + 1)


class Region(NamedTuple):
    """The lines of a base from `first` to `end`, and what each side has made of them, if they aren't as they were."""

    first: int
    end: int
    mine: list[str] | None
    theirs: list[str] | None

    @property
    def is_conflict(self) -> bool:
        """Whether both sides are to be kept."""
        if self.mine is None or self.theirs is None or self.mine == self.theirs:
            return False
        is_put_in = self.first == self.end and (is_more(self.mine, self.theirs) or is_more(self.theirs, self.mine))
        return not is_put_in

    def lines(self) -> list[str]:
        """The lines where there is no conflict: where both put lines into a place, those that have the others in them."""
        if self.mine is None or self.theirs is None:
            return (self.theirs if self.mine is None else self.mine) or []
        return max(self.mine, self.theirs, key=len)


def changed_regions(base: Lines, mine: Lines, theirs: Lines) -> Iterator[Region]:
    """Where one side has changed the base, or both."""
    both = [list(line_by_line(differences(base, it))) for it in (mine, theirs)]
    for one, other in regions(*both):
        first, end = min(it.first for it in [*one, *other]), max(it.end for it in [*one, *other])
        sides = [side_of(it, new, base, first, end) if it else None for it, new in ((one, mine), (other, theirs))]
        yield Region(first, end, *sides)


def joined(found: Iterable[Region]) -> Iterator[Region]:
    """The regions with conflicts joined that follow one another."""
    last: Region | None = None
    for it in found:
        if last and last.end == it.first and last.is_conflict and it.is_conflict:
            mine, theirs = ([*(one or ()), *(other or ())] for one, other in ((last.mine, it.mine), (last.theirs, it.theirs)))
            last = Region(last.first, it.end, mine, theirs)
            continue
        if last:
            yield last
        last = it
    if last:
        yield last


def merged(base: Lines, mine: Lines, theirs: Lines, names: tuple[str, str] = ("mine", "theirs")) -> Merged:
    """What two texts made of one become together.

    A line that one side has changed is that side's. Where both have changed the same lines, or put other lines into
    the same place, both are kept, with marks around them. `names` stand behind the marks.
    """
    lines: list[str] = []
    at = conflicts = 0
    for it in joined(changed_regions(base, mine, theirs)):
        lines += base[at : it.first]
        at = it.end
        if it.is_conflict:
            conflicts += 1
            lines += conflict(it.mine or (), it.theirs or (), names)
        else:
            lines += it.lines()
    return Merged([*lines, *base[at:]], conflicts)
