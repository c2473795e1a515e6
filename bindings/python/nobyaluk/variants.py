"""Variants of a study's file: other numbers at some of its keys.

The file and its tables are read once. If only numbers of laws differ, these are converted for all
variants at once: `Variants.law_numbers` says which number a key sets, and by which factor. Other
keys make a study for each variant, in which only what depends on them is computed again.
"""
import copy
from collections.abc import Sequence
from fractions import Fraction
from functools import cached_property
from pathlib import Path
from typing import Any, NamedTuple

import numpy as np

from . import engine
from .errors import StudyError, TomlTable, show
from .study import Study, load_before
from .toml_reader import MeterTable, StudyReader, StudySource, read_source

LAST = {"meter", "closure", "weights"}  # tables on which nothing else in a study depends
ROAD = {"gate", "defaults", "cell"}  # tables on which arrivals and plans do not depend
MOST_KEY = 200  # letters in a key, at most


class _First(StudyReader):
    """A reader that keeps its rows and plan for other readers of the same tables."""

    def releases(self, road: engine.Road, rows: np.ndarray) -> tuple[np.ndarray | None, list[str]]:
        self.plan, self.tabled = super().releases(road, rows)
        self.rows = rows
        return self.plan, self.tabled


class _Again(StudyReader):
    """A reader of another road with the same arrivals and releases."""

    def __init__(self, path: Path, source: StudySource, first: _First) -> None:
        super().__init__(path, source, load_before)
        self.first = first

    def arrivals(self, road: engine.Road) -> np.ndarray:
        return self.first.rows.copy()

    def releases(self, road: engine.Road, rows: np.ndarray) -> tuple[np.ndarray | None, list[str]]:
        return self.first.plan, self.first.tabled


class LawNumbers(NamedTuple):
    """Numbers of laws that one key sets: its value times the factor, if it is at least `low`.

    `key` counts from 0; `places` are those of the numbers in the engine's list of all laws.
    """

    key: int
    factor: Fraction
    low: int
    places: list[int]


class Variants:
    """A study's file with other numbers at these keys.

    Keys are as `meter.all.rate`, `defaults.capacity` or `cell.3.capacity`; lists count from 1.
    """

    def __init__(self, path: str | Path, keys: Sequence[str]) -> None:
        self.path, self.source = Path(path), read_source(Path(path))
        there = [self._find(key) for key in keys]
        self.ways = [key.split(".") for key in keys]
        for i, way in enumerate(self.ways):
            if any(way[: len(other)] == other for other in self.ways[:i]) or any(
                other[: len(way)] == way for other in self.ways[:i]
            ):
                raise StudyError(f"{path}: `{keys[i]}` is varied twice")
        self.reader = _First(self.path, self.source, load_before)
        self.base = Study(**self.reader.read())
        self.road = self.base.record.road
        self.tables = {way[0] for way in self.ways}
        road = (
            self.tables <= LAST | ROAD
            and "record" not in self.source.values
            and "after" not in self.source.values
        )
        self.needs_files = not (
            self.tables <= LAST or road
        )  # whether each variant reads the study's other files again
        self.only_laws = self.tables == {"meter"} and all(
            x is not None and way[2] != "law" for x, way in zip(there, self.ways)
        )  # whether variants differ only in numbers of laws that the file has
        self.meters: list[MeterTable] = []  # the tables of these laws
        if self.only_laws:
            meters = self.reader.meters(self.reader.tabled, self.reader.plan is not None)
            self.meters = [x for x in meters if x.name in {way[1] for way in self.ways}]

    def _find(self, key: str) -> Any:
        """Return what the file has at this key; StudyError if there is nothing to vary."""
        if len(key) > MOST_KEY:
            raise StudyError(f"{self.path}: there is no {show(key)} to vary")
        *way, last = key.split(".")
        at: Any = self.source.values
        for word in way:
            if (at := get_at(at, word)) is None:
                raise StudyError(f"{self.path}: there is no `{key}` to vary")
        there = get_at(at, last)
        if (
            isinstance(at, list)
            and there is None
            or not isinstance(at, (dict, list))
            or isinstance(there, (dict, list))
        ):
            raise StudyError(f"{self.path}: `{key}` is not a number to vary")
        return there

    def study(self, *values: Fraction) -> Study:
        """Return the study with these numbers at the keys.

        StudyError if one of them is out of its limits.
        """
        source = self._source(values)
        if self.needs_files:
            return Study(**StudyReader(self.path, source, load_before).read())
        if not self.tables <= LAST:
            return Study(**_Again(self.path, source, self.reader).read())
        study = copy.copy(self.base)
        if self.only_laws:
            study.laws = self.laws(values)
            return study
        r = copy.copy(self.reader)
        r.source, r.top = source, TomlTable(source.values, str(self.path))
        if "meter" in self.tables:
            study.laws = r.laws(self.road, r.tabled, r.plan is not None)
        if "closure" in self.tables:
            study.lanes = r.works(self.road)
        if "weights" in self.tables:
            study.weights = r.weights(self.road)
        return study

    def laws(self, values: Sequence[Fraction]) -> dict[int, tuple]:
        """Return the laws with these numbers at the keys, if nothing else differs."""
        laws = self.base.laws.copy()
        for meter in self._meters(values):
            laws.update(self.reader.laws_of(meter, self.road))
        return laws

    @cached_property
    def law_numbers(self) -> list[LawNumbers]:
        """The numbers of laws that the keys set, if nothing else differs."""
        found: dict[tuple[int, Fraction, int], list[int]] = {}
        for i, (_, name, *_, last) in enumerate(self.ways):
            meter = next(x for x in self._meters([Fraction(0)] * len(self.ways)) if x.name == name)
            keys = self.reader.law_keys(meter)[1].items()
            ((number, key),) = [(number, key) for number, key in keys if key.key == last]
            at = engine.TAKES[meter.law].index(number)
            for cell in meter.cells:
                length = self.reader.length(meter, cell) if key.by_length else Fraction(1)
                places = found.setdefault((i, key.factor / length, key.low), [])
                places.append(3 * (cell - 1) + at)
        return [LawNumbers(*key, places) for key, places in found.items()]

    def _meters(self, values: Sequence[Fraction]) -> list[MeterTable]:
        """Return the tables of these laws with these numbers at the keys."""
        top = self._source(values).values["meter"]
        tables = [TomlTable(top[x.name], x.table.where) for x in self.meters]
        return [x._replace(table=table) for x, table in zip(self.meters, tables)]

    def _source(self, values: Sequence[Fraction]) -> StudySource:
        """Return the tables with these numbers at the keys."""
        top: Any = self.source.values
        for way, x in zip(self.ways, values, strict=True):
            top = _with(top, way, x)
        return StudySource(top, self.source.origin)


def _with(at: Any, way: list[str], x: Fraction) -> Any:
    """Return copies of tables with another number at a key; unchanged parts are shared."""
    new, word = at.copy(), way[0]
    key = int(word) - 1 if isinstance(at, list) else word
    new[key] = x if len(way) == 1 else _with(at[key], way[1:], x)
    return new


def get_at(table: Any, word: str) -> Any:
    """Return what a table has at a key, or a list at a number from 1.

    None if it has nothing there.
    """
    if isinstance(table, list):
        k = int(word) if word.isdecimal() and len(word) < 9 else 0
        return table[k - 1] if 1 <= k <= len(table) else None
    return table.get(word) if isinstance(table, dict) else None
