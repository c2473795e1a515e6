"""Arrivals and releases: lists of a study, a spreadsheet's columns or a detector's rows.

A row holds from its time until the next one, however long that is. A step gets the growth of the
exact running sum, rounded down to whole parts, so sums are exact to one part for any rows and
steps. An unknown name is a fault, and the message shows similar names.
"""
import csv
import difflib
import io
import itertools
import re
from collections.abc import Callable, Collection, Iterator
from dataclasses import dataclass, field
from decimal import Decimal
from fractions import Fraction
from pathlib import Path
from typing import Any

import numpy as np

from . import engine, gaps, input_files
from .clock import DAY, MOMENT, Clock
from .errors import FaultList, StudyError, TomlTable, show
from .gaps import Filled, Grid, TableRows, parse_count

UNITS = (
    "veh/h",
    "veh",
    "count",
    "parts",
)  # a rate; vehicles a step; vehicles in the row's own time; parts a step
KEYS = {"file", "unit", "columns", "gaps"}
PLACES = ("place", "detector", "station")  # the heading that makes a file a detector's
VALUES = {
    "veh/h": "veh/h",
    "flow": "veh/h",
    "veh": "count",
    "count": "count",
    "vehicles": "count",
    "parts": "parts",
}
CLOCKS = ("time", "step", "seconds", "minutes")
DATE = "date"  # the heading of a column with the day of each time
TAKEN = (
    "gate",
    "all",
    *CLOCKS,
    "file",
    "unit",
    "columns",
    "gaps",
    "cap",
    "-",
)  # names that no ramp may have
LEFT_OUT = "-"  # in `columns`: a column that is ignored
MOST = 16 << 20  # bytes of a CSV file


@dataclass
class TableParts:
    """The contents of a table.

    It has each entry's parts per step, the names in its file that nothing uses, notes, and the
    gaps that were filled.
    """

    where: str
    parts: dict[str, np.ndarray]
    others: list[str] = field(default_factory=list)
    notes: list[str] = field(default_factory=list)
    filled: list[Filled] = field(default_factory=list)


def suggest(word: str, names: Collection[str]) -> str:
    """Return similar names, as the end of a message; nothing if there are none."""
    names = list(itertools.islice(names, 2000))
    found = [x for x in names if x.lower() == word.lower()] or difflib.get_close_matches(
        word[:200], names, 3, 0.6
    )
    return f"; did you mean {' or '.join(map(repr, found))}?" if found else ""


def suggest_or_list(word: str, names: Collection[str]) -> str:
    """Return similar names, or otherwise all names, as the end of a message."""
    shown = ", ".join(x[:40] for x in list(names)[:12]) + (", .." if len(names) > 12 else "")
    return suggest(word, names) or (f"; there are {shown}" if names else "")


def read_table(
    table: TomlTable, folder: Path, default: str, entries: list[str], clock: Clock
) -> TableParts:
    """Return the parts per step of each entry that the table names.

    They are in lists, in a CSV file, or given by a 0 for all steps.
    """
    shut = {
        key: np.zeros(clock.steps, np.uint32)
        for key, x in table.values.items()
        if key in entries and _is_zero(x)
    }
    inline, more = next((kind for kind in CLOCKS if kind in table), None), (
        {"unit"} if entries[:1] == ["gate"] else {"unit", "cap"}
    )
    if inline and "file" not in table:
        rows, given = _inline(table, inline, more, entries, clock), TableParts(table.where, shut)
    elif (
        "file" not in table
        and shut
        and table.values.keys() - shut.keys() <= more
        and (entries[:1] != ["gate"] or len(shut) == len(entries))
    ):
        return TableParts(table.where, shut)
    else:
        if "file" not in table and any(isinstance(table.values.get(x), list) for x in entries):
            raise StudyError(
                f"{table.where}: the lists have no times: add a list {', '.join(CLOCKS[:-1])} or"
                f" {CLOCKS[-1]}"
            )
        path = folder / get_file_name(table, "file", default)
        for key, x in table.values.items():
            if key in entries and key not in shut:
                raise table.fault(
                    key, f"is {show(x)}; next to a file it can only be 0, for nothing in any step"
                )
            if key not in (*KEYS, *more, *entries):
                raise table.fault(
                    key,
                    (
                        "is not known next to a file; the known keys are"
                        f" {', '.join(sorted(KEYS))}, and names with 0{suggest(key, entries)}"
                    ),
                )
        clock.latest = Fraction(0)
        rows, others, filled = _file(table, path, entries, clock)
        given = TableParts(
            str(path),
            shut,
            others,
            gaps.gap_notes(
                str(path), filled, sum(x < clock.steps * clock.seconds for x in rows.begins)
            ),
            filled,
        )
        if clock.taken and clock.latest >= max(Fraction(86400), clock.steps * clock.seconds):
            given.notes.append(
                f"{path}: it has rows of several days, and the study uses the first; `start` with"
                " a date selects another"
            )
    for name in rows.names:
        if name in shut:
            raise table.fault(name, f"has 0 and a column in {given.where}; keep one")
    given.parts |= _steps(rows, clock)
    given.notes += _gaps(rows, clock)
    return given


def get_file_name(table: TomlTable, key: str, default: str | None = None) -> str:
    """Return the name of a file in a table."""
    name = table.text(key, default)
    if not name or "\0" in name:
        raise table.fault(key, f"is {name!r}, which is no name of a file")
    return name


def _is_zero(x: Any) -> bool:
    return isinstance(x, (int, Decimal, Fraction)) and not isinstance(x, bool) and x == 0


def _inline(
    table: TomlTable, kind: str, more: set[str], entries: list[str], clock: Clock
) -> TableRows:
    """Return the columns that are lists in the TOML file itself."""
    unit = table.choice("unit", UNITS, "veh/h")
    named = {key: x for key, x in table.values.items() if key != kind and key not in more}
    for key, x in {kind: table.values[kind], **named}.items():
        if key != kind and key not in entries:
            raise table.fault(
                key, f"is no column; columns are {', '.join(entries)}{suggest(key, entries)}"
            )
        if not (key != kind and _is_zero(x)) and (
            not isinstance(x, list) or len(x) != len(table.values[kind]) or not x
        ):
            raise table.fault(
                key,
                f"is {show(x)}; it is a list as long as `{kind}`"
                + (", or 0" if key != kind and not isinstance(x, list) else ""),
            )
    named = {key: x for key, x in named.items() if isinstance(x, list)}
    begins = [clock.second(kind, str(x), f"{table.where}: `{kind}`") for x in table.values[kind]]
    values = [
        [
            parse_count(str(x[i]), f"{table.where}: number {i + 1} of `{key}`")
            for key, x in named.items()
        ]
        for i in range(len(begins))
    ]
    return TableRows(
        list(named),
        begins,
        values,
        [f"{table.where}: number {i + 1} of `{kind}`" for i in range(len(begins))],
        unit,
    )


def _lines(path: Path) -> list[tuple[int, list[str]]]:
    """Return number and fields of each line of a CSV file that is neither empty nor a comment."""
    return _separated(path)[1]


def _separated(path: Path) -> tuple[str, list[tuple[int, list[str]]]]:
    """Return the separator of a CSV file, and number and fields of each of its lines.

    Lines that are empty or a comment are left out.
    """
    text = input_files.read_text(path, MOST)
    head = next((x for x in text.splitlines() if x.strip() and not x.lstrip().startswith("#")), "")
    fits = (x for x in "\t;," if _even(path, text, x))
    separator = next(fits, None) or max(",;\t", key=head.count)
    return separator, list(_rows(path, text, separator))


def _even(path: Path, text: str, separator: str) -> bool:
    """Return whether a separator gives heading and first row equally many fields, at least two."""
    try:
        first = [len(row) for _, row in itertools.islice(_rows(path, text, separator), 2)]
    except StudyError:
        return False
    return len(first) == 2 and first[0] == first[1] > 1


def _rows(path: Path, text: str, separator: str) -> Iterator[tuple[int, list[str]]]:
    reader = csv.reader(io.StringIO(text, newline=""), delimiter=separator)
    try:
        for row in reader:
            fields = [x.strip() for x in row]
            if any(fields) and not fields[0].startswith("#"):
                yield reader.line_num, fields
    except csv.Error as e:
        raise StudyError(f"{path}, row {reader.line_num}: {e}") from None


@dataclass
class _Sheet:
    """A CSV file: its headings, its rows with their numbers, and where the times are.

    Headings are kept as they are written and with their meaning.
    """

    path: Path
    separator: str
    written: list[str]
    heading: list[str]
    rows: list[tuple[int, list[str]]]
    faults: FaultList
    times: int = 0
    day: int | None = None  # the column of the days, if they have a separate one

    def second(self, row: list[str], number: int, clock: Clock) -> Fraction | None:
        """Return when a row begins; None after a fault."""
        text = row[self.times] if self.day is None else f"{row[self.day]} {row[self.times]}"
        try:
            return clock.second(self.heading[self.times], text, f"{self.path}, row {number}")
        except StudyError as e:
            self.faults.add(number, e)
            return None


def _file(
    table: TomlTable, path: Path, entries: list[str], clock: Clock
) -> tuple[TableRows, list[str], list[Filled]]:
    """Return the rows of a CSV file, the names that nothing uses, and the gaps that were filled.

    All faults of the file are raised together.
    """
    separator, found = _separated(path)
    if len(found) < 2:
        raise StudyError(
            f"{path}: a heading and at least one row are needed; the first column is"
            f" {', '.join(CLOCKS)}"
        )
    (_, written), rows, faults = found[0], found[1:], FaultList(str(path))
    for number, row in rows:
        if len(row) != len(written):
            faults.add(number, f": {len(row)} fields under {len(written)} headings")
    rows = [(number, row) for number, row in rows if len(row) == len(written)]
    called = _called(table, entries)
    sheet = _Sheet(
        path,
        separator,
        written,
        [_heading(x, i, called, entries) for i, x in enumerate(written)],
        rows,
        faults,
    )
    _find_times(sheet, called)
    places = _named(sheet.heading, written, called, [x for x in PLACES if x not in entries])
    if len(places) > 1:
        raise StudyError(
            f"{path}: columns {', '.join(repr(written[i]) for i in places)} may all be places;"
            " `columns` says which one is, or leaves the others out"
        )
    grid, others = (
        _detectors(sheet, places[0], table, called, entries, clock)
        if places
        else (_columns(sheet, table, called, entries, clock), [])
    )
    whole = not faults.found  # else a row that was left out may be what is lacking
    out, filled = gaps.fill_gaps(
        grid, table.choice("gaps", gaps.RULES) if "gaps" in table else None, clock, faults
    )
    for says in _lacking(out, clock) if whole and out.begins else ():
        faults.add(None, says)
    faults.check()
    return out, others, filled


def _named(
    heading: list[str], written: list[str], called: TomlTable, words: Collection[str]
) -> list[int]:
    """Return the columns with one of these headings; if `columns` names some, only those."""
    found = [i for i, x in enumerate(heading) if x in words]
    return [i for i in found if written[i] in called] or found


def _columns(
    sheet: _Sheet, table: TomlTable, called: TomlTable, entries: list[str], clock: Clock
) -> Grid:
    """Return the numbers of a spreadsheet: a column for each place."""
    path, heading, written, faults = sheet.path, sheet.heading, sheet.written, sheet.faults
    for name in called.values:
        if name not in written:
            raise called.fault(name, f"is no column of {path}{suggest_or_list(name, written)}")
    unit = table.choice("unit", UNITS, "veh/h")
    taken = {}
    for i, name in enumerate(heading):
        if i in (sheet.times, sheet.day) or name == LEFT_OUT:
            continue
        if name not in entries:
            more = (
                f'`columns` may give its meaning; columns = {{ {toml_key(name)} = "{LEFT_OUT}" }}'
                " leaves it out"
            )
            faults.add(
                None,
                (
                    f": column {show(name)} is not one of"
                    f" {', '.join(entries)}{suggest(name, entries)}; {more}"
                ),
            )
        elif name in taken:
            faults.add(None, f": there are two columns {name!r}; keep one")
        else:
            taken[name] = i
    _marks(sheet, sheet.rows, list(taken.values()))
    begins: list[Fraction] = []
    kept = []
    for number, row in sheet.rows:
        begin = sheet.second(row, number, clock)
        if begin is not None and begins and begin <= begins[-1]:
            faults.add(number, ": its time does not come after the row before it")
        elif begin is not None:
            begins.append(begin)
            kept.append((number, row))
    cells: dict[str, list] = {
        name: [(number, row[i]) for number, row in kept] for name, i in taken.items()
    }
    return Grid(
        str(path),
        list(taken),
        {name: written[i] for name, i in taken.items()},
        begins,
        [number for number, _ in kept],
        cells,
        unit,
    )


def _called(table: TomlTable, entries: list[str]) -> TomlTable:
    """Return the table `columns`, the meanings of names in the file."""
    called = TomlTable(table.values.get("columns", {}), f"{table.where}: columns")
    for name in called.values:
        if called.text(name) not in (*entries, *CLOCKS, DATE, *PLACES, *VALUES, LEFT_OUT):
            words = (
                f"it is one of {', '.join(entries)}, a heading"
                f" ({', '.join((*CLOCKS, DATE, *PLACES, *VALUES))}), or {LEFT_OUT!r}"
            )
            raise called.fault(
                name,
                f"is {show(called.values[name])}; {words}{suggest(called.text(name), entries)}",
            )
    return called


def _heading(word: str, i: int, called: TomlTable, entries: list[str]) -> str:
    """Return what a column's heading means."""
    if word in called:
        return called.values[word]
    lower = word.lower()
    if word in entries and not (i == 0 and lower in CLOCKS):
        return word
    return lower if lower in (*CLOCKS, DATE, *PLACES, *VALUES) else word


def _find_times(sheet: _Sheet, called: TomlTable) -> None:
    """Find the columns of the times and of their days.

    `columns` or a heading names them; otherwise the only column of clock times is taken.
    """
    path, heading, written = sheet.path, sheet.heading, sheet.written
    found = _named(heading, written, called, CLOCKS)
    if not found:
        found = _looking(sheet, lambda x: MOMENT.fullmatch(x) is not None)
        for i in found if len(found) == 1 else ():
            heading[i] = "time"
    if found and (found[0] == 0 and heading[0] in CLOCKS or len(found) == 1):
        sheet.times = found[0]
    elif found:
        more = (
            "put one first, or leave the others out by `columns`, as columns = {"
            f' {toml_key(written[found[0]])} = "time" }}'
        )
        raise StudyError(
            f"{path}: columns {', '.join(repr(written[i]) for i in found)} are all times; {more}"
        )
    else:
        more = f'`columns` may say which one is, as columns = {{ {toml_key(written[0])} = "time" }}'
        raise StudyError(
            f"{path}: the first column is {show(written[0])}; it is {', '.join(CLOCKS)}; {more}"
        )
    days = _named(heading, written, called, [DATE]) or _looking(
        sheet, lambda x: re.fullmatch(DAY, x) is not None
    )
    if (
        days
        and heading[sheet.times] == "time"
        and sheet.rows
        and re.match(rf"(?:{DAY})(?:T| )", sheet.rows[0][1][sheet.times]) is None
    ):
        sheet.day = days[0]


def _looking(sheet: _Sheet, fits: Callable[[str], bool]) -> list[int]:
    """Return the columns without a known name in which most of the first rows fit."""
    first = [row for _, row in sheet.rows[:100]]
    return [
        i
        for i, x in enumerate(sheet.heading)
        if x != LEFT_OUT and first and 2 * sum(fits(row[i]) for row in first) > len(first)
    ]


def toml_key(name: str) -> str:
    """Return a name as a key of TOML."""
    return name if re.fullmatch(r"[A-Za-z0-9_-]+", name) else f'"{name[:40]}"'


def _marks(sheet: _Sheet, rows: list[tuple[int, list[str]]], columns: list[int]) -> None:
    """Add a fault if a point or comma may set thousands apart and the file does not show it."""
    marked: dict[str, list[tuple[str, int, str]]] = {",": [], ".": []}
    for number, row in rows:
        for i in columns:
            text = row[i]
            if "," in text or "." in text:
                marked["," if "," in text else "."].append(
                    (text, number, f", column {sheet.written[i]!r}")
                )
    if marked[","] and marked["."]:
        text, number, where = marked["."][0]
        sheet.faults.add(
            number,
            (
                f"{where} is {show(text)}, with a point, and other numbers have a comma, as"
                f" {show(marked[','][0][0])}: keep one of the two, as decimal mark"
            ),
        )
        return
    for mark, found in marked.items():
        if (
            found
            and (mark == "," or sheet.separator != ",")
            and all(re.fullmatch(r"[1-9][0-9]{0,2}([.,][0-9]{3})+", text) for text, _, _ in found)
        ):
            text, number, where = found[0]
            word = "comma" if mark == "," else "point"
            sheet.faults.add(
                number,
                (
                    f"{where} is {text}: the {word} may set thousands apart or be the decimal mark;"
                    f" write {text.replace(mark, '')} or {text}0"
                ),
            )


def _detectors(
    sheet: _Sheet, at: int, table: TomlTable, called: TomlTable, entries: list[str], clock: Clock
) -> tuple[Grid, list[str]]:
    """Return the numbers of a detector's file: a row for each time and place, a count or a flow.

    Other columns are ignored.
    """
    path, (what, unit) = sheet.path, _value(sheet, at, table, called)
    meanings = _meanings(sheet, at, called, entries)
    named = any(
        x in meanings and name in (*entries, LEFT_OUT) for x, name in called.values.items()
    )  # then detectors without a name are ignored
    kept = []
    for number, row in sheet.rows:
        if meanings[row[at]] in entries:
            kept.append((number, row))
        elif not named:
            more = f"`columns` can name what each detector counts{suggest(row[at], entries)}"
            sheet.faults.add(
                number, f": {show(row[at])} is not one of {', '.join(entries)}; {more}"
            )
    _marks(sheet, kept, [what])
    found: dict[str, dict[Fraction, tuple[int, str]]] = {}
    where: dict[Fraction, int] = {}
    for number, row in kept:
        begin, name = sheet.second(row, number, clock), meanings[row[at]]
        there = found.setdefault(name, {})
        if begin is not None and begin in there:
            sheet.faults.add(number, f": {name!r} has a row for {row[sheet.times]} already")
        elif begin is not None:
            there[begin] = number, row[what]
            where.setdefault(begin, number)
    begins, names = sorted(where), [x for x in entries if x in found]
    cells = {name: [found[name].get(begin) for begin in begins] for name in names}
    others = [x for x, name in meanings.items() if name not in entries]
    return (
        Grid(
            str(path),
            names,
            dict.fromkeys(names, sheet.written[what]),
            begins,
            [where[x] for x in begins],
            cells,
            unit,
        ),
        others,
    )


def _meanings(sheet: _Sheet, at: int, called: TomlTable, entries: list[str]) -> dict[str, str]:
    """Return what each detector of a file counts.

    Every name in `columns` is a heading or a detector.
    """
    seen = dict.fromkeys(row[at] for _, row in sheet.rows)
    words = (*entries, LEFT_OUT)
    for name, x in called.values.items():
        if name not in seen and (x in entries or name not in sheet.written):
            raise called.fault(
                name, f"is no {sheet.heading[at]} in {sheet.path}{suggest_or_list(name, seen)}"
            )
    return {x: called.values[x] if called.values.get(x) in words else x for x in seen}


def _value(sheet: _Sheet, place: int, table: TomlTable, called: TomlTable) -> tuple[int, str]:
    """Return which column has a detector's numbers, and their unit."""
    heading, found = sheet.heading, _named(sheet.heading, sheet.written, called, VALUES)
    if "unit" in table and len(found) > 1:
        found = [i for i in found if VALUES[heading[i]] == table.choice("unit", UNITS)]
    if len(found) > 1:
        raise StudyError(
            f"{sheet.path}: columns {', '.join(heading[i] for i in found)} may all be the numbers;"
            ' `unit` ("veh/h" or "count") or `columns` says which are'
        )
    if not found:
        others = [
            x
            for i, x in enumerate(sheet.written)
            if i not in (place, sheet.times, sheet.day) and heading[i] != LEFT_OUT
        ]
        more = (
            "; `columns` may say which one has the numbers, as columns = {"
            f' {toml_key(others[0])} = "count" }}'
            if others
            else ""
        )
        unit = f" of unit {table.values['unit']!r}" if "unit" in table else ""
        raise StudyError(
            f"{sheet.path}: next to `{heading[place]}` there is no column"
            f" {', '.join(VALUES)}{unit}{more}"
        )
    return found[0], table.choice("unit", UNITS, VALUES[heading[found[0]]])


def _steps(rows: TableRows, clock: Clock) -> dict[str, np.ndarray]:
    """Return the whole parts of each step; rows may begin at any time."""
    if not rows.begins:
        return {}
    for k in range(1, len(rows.begins)):
        if rows.begins[k] <= rows.begins[k - 1]:
            raise StudyError(f"{rows.places[k]}: its time does not come after the row before it")
    for says in _lacking(rows, clock):
        raise StudyError(says)
    ends = rows.begins[1:] + [_end(rows, clock)]
    a_second = {
        "veh/h": Fraction(1000, 3600),
        "veh": 1000 / clock.seconds,
        "parts": 1 / clock.seconds,
    }
    edges = [k * clock.seconds for k in range(clock.steps + 1)]
    out = {}
    for j, name in enumerate(rows.names):
        rates = [
            v[j] * (a_second[rows.unit] if rows.unit != "count" else 1000 / (e - b))
            for v, b, e in zip(rows.values, rows.begins, ends)
        ]
        sums = _running(rates, rows.begins, edges)
        parts = [int(b) - int(a) for a, b in zip(sums, sums[1:])]
        if max(parts) > engine.RATE:
            k, file = (
                parts.index(max(parts)),
                re.split(", row [0-9]|: number [0-9]", rows.places[0])[0],
            )
            raise StudyError(
                f"{file}: {name!r} has {float(Fraction(max(parts), 1000)):,.1f} vehicles in step"
                f" {k}; a step takes at most {engine.RATE // 1000:,}"
            )
        out[name] = np.array(parts, np.uint32)
    return out


def _lacking(rows: TableRows, clock: Clock) -> list[str]:
    """Return faults of rows that do not cover every step."""
    out = []
    if rows.begins[0] > 0:
        out.append(
            f"{rows.places[0]}: the first row begins {float(rows.begins[0]):g} s after step 0; step"
            " 0 needs a row"
        )
    if rows.unit == "count" and len(rows.begins) == 1:
        return [
            *out,
            (
                f"{rows.places[0]}: the length of the only row of counts is unknown; add a row"
                " where it ends"
            ),
        ]
    if rows.unit == "count" and (end := _end(rows, clock)) < clock.steps * clock.seconds:
        whole = f"{clock.steps} steps last {float(clock.steps * clock.seconds):g} s"
        out.append(
            f"{rows.places[-1]}: counts end {float(end):g} s after the beginning of step 0; {whole}"
        )
    return out


def _end(rows: TableRows, clock: Clock) -> Fraction:
    """Return when the last row ends.

    A rate ends with the study; a count lasts as long as the row before it.
    """
    end = clock.steps * clock.seconds
    return (
        max(end, rows.begins[-1] + 1)
        if rows.unit != "count"
        else 2 * rows.begins[-1] - rows.begins[-2]
    )


def _gaps(rows: TableRows, clock: Clock) -> list[str]:
    """Return notes on rows that may be missing.

    They are about rates that all begin before the study, and counts of different length within it.
    """
    if rows.unit != "count":
        if len(rows.begins) < 2 or rows.begins[-1] >= 0:
            return []
        return [
            f"{rows.places[-1]}: it is the last row and begins {float(-rows.begins[-1]):g} s before"
            " step 0; its numbers are those of every step"
        ]
    end = clock.steps * clock.seconds
    spans = [
        (b - a, place)
        for a, b, place in zip(rows.begins, rows.begins[1:], rows.places)
        if b > 0 and a < end
    ]
    if not spans or min(spans)[0] == max(spans)[0]:
        return []
    (short, _), (long, place) = min(spans), max(spans, key=lambda x: x[0])
    return [
        f"{place}: its count is spread over {float(long):g} s, and other rows last"
        f" {float(short):g} s"
    ]


def _running(
    rates: list[Fraction], begins: list[Fraction], edges: list[Fraction]
) -> list[Fraction]:
    """Return the running sum at each edge, from the first edge on."""
    sums, total, i = [], Fraction(0), 0
    last = edges[0]
    for edge in edges:
        while i + 1 < len(begins) and begins[i + 1] <= edge:
            if begins[i + 1] > last:
                total += rates[i] * (begins[i + 1] - last)
                last = begins[i + 1]
            i += 1
        total += rates[i] * (edge - last)
        last = edge
        sums.append(total)
    return sums
