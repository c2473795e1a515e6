"""The numbers and gaps of a file of counts or rates, and the rule by which gaps are filled.

A gap is a time without a row, or a field that is empty, says that there is no number (`NaN`, `NA`,
`null`, `-`), or has a code for a missing number (-1, -9, -99 ..). Without a rule each gap is a
fault. Every filled gap is listed.
"""
import bisect
import math
import re
from collections import Counter
from collections.abc import Iterator
from dataclasses import dataclass
from fractions import Fraction
from typing import Protocol

from .errors import FaultList, StudyError, parse_decimal, show

RULES = ("fault", "hold", "interpolate")
HINT = '`gaps = "hold"` or `gaps = "interpolate"` fills what a detector missed'
MOST_MISSING = 100_000  # rows of a file
LISTED = 6  # spans that a note names; a report has them all
_NOTHING = {"", "-", "--", "nan", "na", "n/a", "#n/a", "null", "none"}
_CODE = re.compile(r"[-−](1|9+)([.,]0*)?")


class Times(Protocol):
    """The study's time, as `tables.Clock` has it."""

    seconds: Fraction
    steps: int

    def describe(self, second: Fraction) -> str:
        """Return a time of the study in words."""
        ...


@dataclass
class TableRows:
    """Rows of numbers under names, each with its place in the file and the second it begins at."""

    names: list[str]
    begins: list[Fraction]
    values: list[list[Fraction]]
    places: list[str]
    unit: str


@dataclass(frozen=True)
class Filled:
    """A span of one place's times without numbers, and the numbers that filled it.

    They are in the file's unit.
    """

    file: str
    name: str
    begin: str
    end: str
    rows: int
    original: str
    numbers: str
    rule: str


@dataclass
class Grid:
    """A file as it is written: its row and text for each place and time.

    None if the file has no such row.
    """

    path: str
    names: list[str]
    columns: dict[str, str]  # of each place the heading of its numbers
    begins: list[Fraction]
    rows: list[int]  # of each time its first row, or the row before it if it has none
    cells: dict[str, list[tuple[int, str] | None]]
    unit: str

    def known(self, name: str, k: int) -> Fraction | None:
        """Return the number at a time, or None."""
        cell = self.cells[name][k]
        try:
            return None if cell is None or is_gap(cell[1]) else parse_count(cell[1], "")
        except StudyError:
            return None


def is_gap(text: str) -> bool:
    """Return whether a field says that there is no number."""
    return text.lower() in _NOTHING or _CODE.fullmatch(text) is not None


def parse_count(text: str, where: str) -> Fraction:
    """Return a number of a file or list, at least 0."""
    if not text:
        raise StudyError(f"{where} is empty; write 0 where nothing came")
    try:
        x = parse_decimal(text)
    except ValueError:
        raise StudyError(f"{where} is {show(text)}, where a number is needed") from None
    if x < 0:
        raise StudyError(f"{where} is {text}; it is at least 0")
    return x


def fill_gaps(
    grid: Grid, rule: str | None, clock: Times, faults: FaultList
) -> tuple[TableRows, list[Filled]]:
    """Return the numbers of a file that reach into the study, with gaps filled by the rule.

    Fields that can't be read are added to the faults.
    """
    if rule is not None:
        _regular(grid, rule, clock, faults)
    part = reaching(grid.begins, clock)
    there = range(len(grid.begins))[part]
    used = range(
        there.start, bisect.bisect_left(grid.begins, clock.steps * clock.seconds)
    )  # a later row only ends the last of them
    filled: list[Filled] = []
    columns = []
    for name in grid.names:
        column = {k: _value(grid, name, k, rule, faults) for k in used}
        if rule in ("hold", "interpolate"):
            for span in _spans(grid, name, used):
                filled.append(_fill(grid, name, span, rule, clock, column, faults))
        columns.append(column)
    places = [f"{grid.path}, row {grid.rows[k]}" for k in there]
    return (
        TableRows(
            grid.names,
            grid.begins[part],
            [[column.get(k) or Fraction(0) for column in columns] for k in there],
            places,
            grid.unit,
        ),
        filled,
    )


def reaching(begins: list[Fraction], clock: Times) -> slice:
    """Return the part of rows that reaches into the study, and the row that ends it."""
    first, after = bisect.bisect_right(begins, 0) - 1, bisect.bisect_left(
        begins, clock.steps * clock.seconds
    )
    return slice(max(min(first, len(begins) - 2), 0), after + 1)


def _value(grid: Grid, name: str, k: int, rule: str | None, faults: FaultList) -> Fraction | None:
    """Return the number at a time; None for a gap that a rule fills.

    Anything else is a fault.
    """
    cell = grid.cells[name][k]
    if cell is None or is_gap(cell[1]):
        if rule in ("hold", "interpolate"):
            return None
        faults.hint = HINT
        if cell is None:
            faults.add(
                grid.rows[k],
                f": {name!r} has no row for this time; each place needs one for every time",
            )
            return None
    row, text = cell
    try:
        return parse_count(text, f"{grid.path}, row {row}, column {grid.columns[name]!r}")
    except StudyError as e:
        faults.add(row, str(e))
        return Fraction(0)


def _spans(grid: Grid, name: str, there: range) -> Iterator[range]:
    """Yield the spans of a place's times that are gaps."""
    cells, k = grid.cells[name], there.start
    while k < there.stop:
        end = k
        while end < there.stop and ((cell := cells[end]) is None or is_gap(cell[1])):
            end += 1
        if end > k:
            yield range(k, end)
        k = end + 1


def _fill(
    grid: Grid,
    name: str,
    span: range,
    rule: str,
    clock: Times,
    column: dict[int, Fraction | None],
    faults: FaultList,
) -> Filled:
    """Fill consecutive gaps with the number before them, or on the line to the one after them.

    Rows outside the study are used too.
    """
    before = next(
        (k for k in range(span.start - 1, -1, -1) if grid.known(name, k) is not None), None
    )
    after = next(
        (k for k in range(span.stop, len(grid.begins)) if grid.known(name, k) is not None), None
    )
    begin, last = clock.describe(grid.begins[span.start]), grid.begins[span.stop - 1]
    end = clock.describe(
        grid.begins[span.stop]
        if span.stop < len(grid.begins)
        else 2 * last - grid.begins[span.stop - 2] if span.stop > 1 else last
    )
    original = sorted(
        {"no row" if (cell := grid.cells[name][k]) is None else cell[1] or "empty" for k in span}
    )
    if before is None or rule == "interpolate" and after is None:
        lacks = (
            "before it to hold" if rule == "hold" else "before it" if before is None else "after it"
        )
        faults.add(
            grid.rows[span.start],
            (
                f": {name!r} has no number from {begin} to {end} ({', '.join(original)}), and there"
                f" is none {lacks}; write numbers there"
            ),
        )
        return Filled(grid.path, name, begin, end, len(span), ", ".join(original), "", rule)
    a = grid.known(name, before) or Fraction(0)
    line = [a] * len(span)
    if rule == "interpolate" and after is not None:
        b, begins = grid.known(name, after) or Fraction(0), grid.begins
        slope = (b - a) / (begins[after] - begins[before])
        line = [a + slope * (begins[k] - begins[before]) for k in span]
    column.update(zip(span, line))
    numbers = [f"{float(x):.5g}" for x in (line[0], line[-1])]
    return Filled(
        grid.path,
        name,
        begin,
        end,
        len(span),
        ", ".join(original),
        " to ".join(dict.fromkeys(numbers)),
        rule,
    )


def _regular(grid: Grid, rule: str, clock: Times, faults: FaultList) -> None:
    """Give the rows one interval, the most common one.

    A time without a row is a fault with the rule `fault`, and a gap with the others.
    """
    begins = grid.begins
    spans = [b - a for a, b in zip(begins, begins[1:])]
    if not spans:
        return
    counted = Counter(spans)
    interval = min(counted, key=lambda x: (-counted[x], x))
    end, count = clock.steps * clock.seconds, 0
    missing: dict[int, list[Fraction]] = {}
    for k, span in enumerate(spans):
        if span == interval or begins[k + 1] <= 0 or begins[k] >= end:
            continue
        apart = (
            f"it begins {float(span):g} s after the row before it, and most rows"
            f" {float(interval):g} s"
        )
        lacking = span // interval - 1
        count += lacking
        if span % interval or count > MOST_MISSING:
            faults.add(
                grid.rows[k + 1],
                f": {apart}; with `gaps` rows are a whole number of intervals apart",
            )
        elif rule == "fault":
            faults.hint = HINT
            faults.add(
                grid.rows[k + 1], f": {apart}: {lacking} {'is' if lacking == 1 else 'are'} missing"
            )
        else:
            missing[k] = [begins[k] + j * interval for j in range(1, lacking + 1)]
    if after := _after(grid, rule, interval, clock, faults):
        missing[len(spans)] = after
    if missing:
        _insert(grid, missing)


def _after(
    grid: Grid, rule: str, interval: Fraction, clock: Times, faults: FaultList
) -> list[Fraction]:
    """Return the times from the last row to the study's end.

    They are a fault with the rule `fault`, and gaps with the others.
    """
    last, end = grid.begins[-1], clock.steps * clock.seconds
    lacking = max(0, math.ceil((end - last) / interval) - 1)
    if (
        not lacking or rule == "fault" and grid.unit == "count"
    ):  # counts that end early are a fault by any rule
        return []
    if rule == "fault" or lacking > MOST_MISSING:
        faults.hint = HINT if rule == "fault" else faults.hint
        are = "1 is" if lacking == 1 else f"{lacking} are"
        faults.add(
            grid.rows[-1],
            (
                f": it is the last row, from {clock.describe(last)} to"
                f" {clock.describe(last + interval)}, and the study ends at {clock.describe(end)}:"
                f" {are} missing"
            ),
        )
        return []
    return [last + j * interval for j in range(1, lacking + 1)]


def _insert(grid: Grid, missing: dict[int, list[Fraction]]) -> None:
    """Insert times without a row after the rows at these places."""
    begins: list[Fraction] = []
    rows: list[int] = []
    cells: dict[str, list[tuple[int, str] | None]] = {name: [] for name in grid.cells}
    for k, begin in enumerate(grid.begins):
        more = missing.get(k, [])
        begins += [begin, *more]
        rows += [grid.rows[k]] * (1 + len(more))
        for name, own in grid.cells.items():
            cells[name] += [own[k], *[None] * len(more)]
    grid.begins, grid.rows, grid.cells = begins, rows, cells


def gap_notes(path: str, filled: list[Filled], rows: int) -> list[str]:
    """Return a note for each place with gaps: how many rows were filled, by which rule, where."""
    out = []
    for name in dict.fromkeys(x.name for x in filled):
        own = [x for x in filled if x.name == name]
        spans = ", ".join(f"{x.begin} to {x.end} ({x.original}: {x.numbers})" for x in own[:LISTED])
        more = f", and {len(own) - LISTED} more, which a report lists" if len(own) > LISTED else ""
        count = sum(x.rows for x in own)
        out.append(
            f"{path}: {name}: {count} of {rows} rows had no number and were filled by gaps ="
            f' "{own[0].rule}": {spans}{more}'
        )
    return out
