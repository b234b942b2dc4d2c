"""What `check_main serve --json` says, by kinds. A refusal is raised, every other reply is a value."""
from __future__ import annotations

from dataclasses import dataclass
from typing import Any, Mapping

from ..api import Verdict
from ..lines import Needle
from ..program import Loop, State, Status, named

# What a reply is about: a block by its id, or the header that names the carriers.
HEAD = "head"
Block = int | str
Said = Mapping[str, Any]


@dataclass(frozen=True)
class Brief:
    """A verdict in short. A sound document has `lines`, `made`, `held` and `rack`, a broken one `line`, `rule`, `at`."""

    is_sound: bool
    lines: int | None = None
    made: int | None = None
    held: int | None = None
    rack: str | None = None
    line: int | None = None
    rule: str | None = None
    at: int | None = None

    @classmethod
    def of(cls, said: Said) -> Brief:
        values = {name: value for name, value in said.items() if name != "verdict"}
        return cls(is_sound=said["verdict"] == "sound", **values)


@dataclass(frozen=True)
class BlockLine:
    """Where the first broken line stands: in which block, and which of its lines it is, from 1."""

    block: int
    line: int

    @classmethod
    def of(cls, said: Said) -> BlockLine | None:
        place = said.get("broken")
        return cls(place["block"], place["line"]) if place else None


@dataclass(frozen=True)
class Opened:
    """The document stands at a version, in so many blocks; those of a text have the ids 0, 1, 2 and so on."""

    version: int
    blocks: int
    brief: Brief
    broken: BlockLine | None

    @classmethod
    def of(cls, said: Said) -> Opened:
        return cls(said["version"], said["blocks"], Brief.of(said["brief"]), BlockLine.of(said))


@dataclass(frozen=True)
class Accepted:
    """An edit is entry `version` of the journal, and this is the verdict on the whole behind it.

    `block` is the one that was put, added or cut, or `head`.
    """

    version: int
    block: Block
    brief: Brief
    broken: BlockLine | None

    @classmethod
    def of(cls, said: Said) -> Accepted:
        return cls(said["version"], said["block"], Brief.of(said["brief"]), BlockLine.of(said))


@dataclass(frozen=True)
class GroupDone:
    """A group's edits are the entries `first` to `version`, and this is the verdict behind the last."""

    version: int
    first: int
    brief: Brief
    broken: BlockLine | None

    @classmethod
    def of(cls, said: Said) -> GroupDone:
        return cls(said["version"], said["from"], Brief.of(said["brief"]), BlockLine.of(said))


@dataclass(frozen=True)
class Shown:
    """A block as it stands: the stamp of its text, the line of the file with which it begins, and its lines."""

    version: int
    block: Block
    stamp: int
    first: int
    lines: tuple[str, ...]

    @classmethod
    def of(cls, said: Said) -> Shown:
        return cls(said["version"], said["block"], said["stamp"], said["first"], tuple(said["lines"]))


@dataclass(frozen=True)
class OldText:
    """The text that a block got from the entry `stamp`, or from the opening for 0."""

    version: int
    block: int
    stamp: int
    lines: tuple[str, ...]

    @classmethod
    def of(cls, said: Said) -> OldText | None:
        """The text, or None where the block got none from that entry."""
        if said["reply"] == "notext":
            return None
        return cls(said["version"], said["block"], said["stamp"], tuple(said["lines"]))


@dataclass(frozen=True)
class LoopTold:
    """The loop that a line makes at a version; None where it makes none, or stands at or below the first broken line."""

    version: int
    loop: Loop | None

    @classmethod
    def of(cls, said: Said) -> LoopTold:
        return cls(said["version"], Loop.of(said["loop"]) if said["loop"] else None)


@dataclass(frozen=True)
class VerdictTold:
    """The verdict on the whole at a version; also what is said when a conversation ends."""

    version: int
    verdict: Verdict
    broken: BlockLine | None

    @classmethod
    def of(cls, said: Said) -> VerdictTold:
        told = said["verdict"]
        if told["verdict"] == "sound":
            return cls(said["version"], Verdict(Status.SOUND, State.of(told)), None)
        verdict = Verdict(Status.BROKEN, line=told["line"], rule=told["rule"], at=told["at"])
        return cls(said["version"], verdict, BlockLine.of(said))


@dataclass(frozen=True)
class BlockPlace:
    """Where a block stands: with which line of the file it begins, how many it has, and the stamp of its text."""

    block: int
    first: int
    lines: int
    stamp: int


@dataclass(frozen=True)
class Blocks:
    """The blocks in their order."""

    version: int
    blocks: tuple[BlockPlace, ...]

    @classmethod
    def of(cls, said: Said) -> Blocks:
        places = (BlockPlace(it["block"], it["first"], it["lines"], it["stamp"]) for it in said["blocks"])
        return cls(said["version"], tuple(places))


@dataclass(frozen=True)
class Entry:
    """An entry of the journal: what a session did. `edit` is put, add, cut or head.

    A put or a cut, and other names, were made by one who had seen the text of entry `seen`. An added block stands
    behind `anchor`, or first where this is `start`. A put or an add has so many `lines`, a head its `names`.
    """

    number: int
    session: int
    edit: str
    block: Block
    anchor: Block | None = None
    seen: int | None = None
    lines: int | None = None
    names: tuple[str, ...] | None = None

    @classmethod
    def of(cls, said: Said) -> Entry:
        names = tuple(said["names"]) if "names" in said else None
        more = {name: said.get(name) for name in ("anchor", "seen", "lines")}
        return cls(said["number"], said["session"], said["edit"], said.get("block", HEAD), **more, names=names)


@dataclass(frozen=True)
class Since:
    """The entries behind a version, which is `first`."""

    version: int
    first: int
    entries: tuple[Entry, ...]

    @classmethod
    def of(cls, said: Said) -> Since:
        return cls(said["version"], said["from"], tuple(map(Entry.of, said["entries"])))


@dataclass(frozen=True)
class Saved:
    """The saved text of the document and its journal, which `check_main replay` takes."""

    version: int
    lines: tuple[str, ...]

    @property
    def text(self) -> str:
        """The text as a file has it."""
        return "".join(f"{line}\n" for line in self.lines)

    @classmethod
    def of(cls, said: Said) -> Saved:
        return cls(said["version"], tuple(said["lines"]))


@dataclass(frozen=True)
class Tally:
    """What the blocks at the places from `first` to `end`, which isn't counted, come to.

    So many operations of each class, for each carrier how many lines form loops with it, and the needles, each once.
    """

    first: int
    end: int
    lines: int
    form: int
    split: int
    move: int
    drop: int
    carriers: Mapping[str, int]
    needles: tuple[Needle, ...]

    @classmethod
    def of(cls, said: Said) -> Tally:
        counts = {name: said[name] for name in ("lines", "form", "split", "move", "drop")}
        carriers = {it["carrier"]: it["lines"] for it in said["with"]}
        needles = tuple(named(it) for it in said["needles"])
        return cls(said["from"], said["to"], **counts, carriers=carriers, needles=needles)
