"""What holds for a file: its machine's limits and what is warned of, from `.tekhvumo.toml` and the command line."""
from __future__ import annotations

import os
from functools import lru_cache
from typing import Any, Mapping, NamedTuple

from .lines import Source
from .program import BOUNDS, Limits, SetupFault
from .warning_names import WARNINGS

FILE = ".tekhvumo.toml"
# Machines by the name that `;;Machine:` gives, with the needles of a bed.
PRESETS: dict[str, dict[str, int]] = {"SWG091N2": {"width": 540}, "Kniterate": {"width": 252}}
MEASURES = ("longest_float", "hook_courses", "width")
USUAL_FLOAT = 10
# Lawful ways to cast on and the like, of which one is told who asks for it.
UNASKED = frozenset({"KnitCastOn"})


class Settings(NamedTuple):
    """What holds for one file.

    `longest_float` is in needles, where it is asked for, `hook_courses` says how many the hook may hold a yarn, `width`
    has the needles of a bed or 0 where that isn't known, and `silent` the warnings that are left out.
    """

    limits: Limits = Limits()
    longest_float: int | None = None
    hook_courses: int = 16
    width: int = 0
    silent: frozenset[str] = UNASKED
    machine: str = ""

    @property
    def unwarned_float(self) -> int:
        """How many needles a yarn may go over without a warning: as asked, else as the limit says, else ten."""
        usual = USUAL_FLOAT if self.limits.float is None else self.limits.float
        return usual if self.longest_float is None else self.longest_float


class Wishes(NamedTuple):
    """What a settings file or the command line asks for; where several do, the later one holds."""

    numbers: Mapping[str, int] = {}
    ignored: frozenset[str] = frozenset()
    asked: frozenset[str] = frozenset()

    def upon(self, settings: Settings) -> Settings:
        """The settings with these wishes."""
        limits = {name: value for name, value in self.numbers.items() if name in BOUNDS}
        measures = {name: value for name, value in self.numbers.items() if name in MEASURES}
        silent = (settings.silent | self.ignored) - self.asked
        return settings._replace(limits=settings.limits.having(limits), silent=silent, **measures)


class SettingsFile(NamedTuple):
    """A file `.tekhvumo.toml`: what holds for all files, and more for those of a machine."""

    wishes: Wishes = Wishes()
    machines: Mapping[str, Wishes] = {}


def settings_of(source: Source, path: str, command_line: Wishes) -> Settings:
    """What holds for a source: the machine's preset, the settings file above `path`, the command line."""
    file = settings_above(path)
    machine = source.machine
    settings = Wishes(PRESETS.get(machine, {})).upon(Settings(machine=machine))
    settings = file.wishes.upon(settings)
    if machine in file.machines:
        settings = file.machines[machine].upon(settings)
    return command_line.upon(settings)


def settings_above(path: str) -> SettingsFile:
    """The nearest settings file in the folder of a file or above it, or none."""
    folder = os.path.abspath(path)
    while folder != os.path.dirname(folder):
        folder = os.path.dirname(folder)
        if os.path.isfile(os.path.join(folder, FILE)):
            return read_settings(os.path.join(folder, FILE))
    return SettingsFile()


@lru_cache
def read_settings(path: str) -> SettingsFile:
    """The settings of a file; SetupFault where it is wrong."""
    # (read only where there is such a file)
    import tomllib

    try:
        with open(path, "rb") as file:
            tables = tomllib.load(file)
    except (OSError, ValueError) as trouble:
        raise SetupFault(f"{path}: {trouble}") from trouble
    machines = tables.pop("machine", {})
    if not isinstance(machines, dict):
        raise SetupFault(f"{path}: `machine` is a table with a table for each machine")
    wishes = wishes_of(path, tables)
    return SettingsFile(wishes, {name: wishes_of(path, table) for name, table in machines.items()})


def wishes_of(path: str, table: Any) -> Wishes:
    """The wishes of a table."""
    if not isinstance(table, dict):
        raise SetupFault(f"{path}: a machine's settings are a table")
    numbers: dict[str, int] = {}
    names: dict[str, frozenset[str]] = {"ignore": frozenset(), "also": frozenset()}
    for name, value in table.items():
        if name in names:
            names[name] = warning_names(path, name, value)
        elif name not in {*BOUNDS, *MEASURES}:
            raise SetupFault(f"{path}: {name} is no setting; there are {', '.join([*BOUNDS, *MEASURES, *names])}")
        elif isinstance(value, bool) or not isinstance(value, int):
            raise SetupFault(f"{path}: {name} is a whole number, not {value!r}")
        else:
            numbers[name] = value
    return Wishes(numbers, names["ignore"], names["also"])


def warning_names(path: str, name: str, value: Any) -> frozenset[str]:
    """The warnings that a list names."""
    if not isinstance(value, list) or not all(isinstance(it, str) for it in value):
        raise SetupFault(f"{path}: {name} is a list of warnings")
    for it in value:
        if it not in WARNINGS:
            raise SetupFault(f"{path}: {it} is no warning; there are {', '.join(WARNINGS)}")
    return frozenset(value)
