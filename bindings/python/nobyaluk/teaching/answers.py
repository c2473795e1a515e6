"""Reads answers as students hand them in: a table as CSV, or the file that the page saves.

`marking` marks them.
"""
import base64
import binascii
import csv
import io
import json
import re
from collections.abc import Sequence
from dataclasses import dataclass, field
from fractions import Fraction
from pathlib import Path
from typing import Any

from ..errors import StudyError, show
from ..input_files import read_text
from .words import Words

MOST_BYTES = 1 << 20  # of one answer
MOST_WORDS = 2000  # letters of a student's text that are kept
TABLES, TIMES = ("outflows", "held", "queue"), ("gate", "road", "ramp", "total")
Column = tuple[str, int]  # a table and a column of it, from 0; or a time and 0


@dataclass(frozen=True)
class Number:
    """A number as it is written.

    `groups` is its value if its mark separates thousands, or None.
    """

    text: str
    value: Fraction
    decimals: int
    groups: int | None = None

    def parts(self, vehicles: bool) -> tuple[Fraction, Fraction]:
        """Return the number in parts, and its possible rounding error.

        `vehicles` says whether its unit is vehicles; then decimals may have been left out.
        """
        if not vehicles:
            return Fraction(self.groups if self.groups is not None else self.value), Fraction(0)
        slack = Fraction(500, 10**self.decimals) if 0 < self.decimals < 3 else Fraction(0)
        return self.value * 1000, slack

    @property
    def is_of_vehicles(self) -> bool:
        """Whether it can only be a number of vehicles.

        Its decimals are not all zeros, and their mark does not separate thousands.
        """
        return self.groups is None and self.value.denominator != 1


def parse_number(text: str) -> Number | None:
    """Return a number with a decimal point or comma, or with separated thousands.

    None for an empty text, ValueError for any other.
    """
    bare = re.sub(r"[\s\u00a0\u202f'’]", "", text)
    if not bare:
        return None
    if re.fullmatch(r"[0-9]{1,15}", bare):
        return Number(text, Fraction(int(bare)), 0)
    if re.fullmatch(r"[0-9]{1,3}(\.[0-9]{3}){2,4}|[0-9]{1,3}(,[0-9]{3}){2,4}", bare):
        whole = int(re.sub("[.,]", "", bare))
        return Number(text, Fraction(whole), 0, whole)
    if found := re.fullmatch(r"([0-9]{1,3}(?:([.,])[0-9]{3}){1,4})([.,])([0-9]{1,12})", bare):
        if found[2] != found[3]:
            digits = re.sub("[.,]", "", found[1])
            return Number(text, Fraction(f"{digits}.{found[4]}"), len(found[4]))
    if found := re.fullmatch(r"([0-9]{0,15})[.,]([0-9]{1,12})", bare):
        groups = (
            int(found[1] + found[2])
            if re.fullmatch(r"[1-9][0-9]{0,2}", found[1]) and len(found[2]) == 3
            else None
        )
        return Number(text, Fraction(f"{found[1] or 0}.{found[2]}"), len(found[2]), groups)
    if re.fullmatch(r"[-−–][.,]?[0-9][0-9.,]*", bare):
        raise ValueError(f"{show(text)} is below 0; every count and every time is 0 or more")
    if re.fullmatch(r"[0-9]{16,}", bare):
        raise ValueError(f"{show(text)} has more than 15 digits")
    raise ValueError(f"{show(text)} is no number")


@dataclass
class Answer:
    """A student's answer; an empty field is None."""

    file: str
    name: str = ""
    exercise: str = ""  # what it says of itself, as a sheet's last line
    record: bytes | None = None  # the exercise itself, if the file has it
    outflows: list[list[Number | None]] = field(
        default_factory=list
    )  # a row a step: the gate, then each cell
    held: list[list[Number | None]] = field(
        default_factory=list
    )  # after the step: the gate's queue, then each cell
    queue: list[list[Number | None]] = field(default_factory=list)  # after the step, at each ramp
    times: dict[str, Number | None] = field(default_factory=dict)  # of TIMES
    whose: str = ""
    vehicles: bool | None = None  # the unit that it states; None if it states none
    by_page: bool = (
        False  # whether the page saved it, which takes thousandths of a vehicle and nothing else
    )

    def columns(self) -> dict[Column, list[Number]]:
        """Return its numbers by column: each outflow and state of the table, and each time."""
        found: dict[Column, list[Number]] = {}
        for key in TABLES:
            for row in getattr(self, key):
                for j, x in enumerate(row):
                    found.setdefault((key, j), []).extend([x] if x is not None else [])
        found |= {(key, 0): [x] for key, x in self.times.items() if x is not None}
        return {column: numbers for column, numbers in found.items() if numbers}

    @property
    def is_empty(self) -> bool:
        """Whether nothing is answered."""
        return not self.columns() and not self.whose


def _known() -> dict[str, str]:
    """Return the words that begin a line of an answer, in every language."""
    t = Words("en")
    out = {
        "exercise": "exercise",
        "record": "exercise",
        "name": "name",
        "student": "name",
        "unit": "unit",
        "gate": "gate",
        "road": "road",
        "cells": "road",
        "ramp": "ramp",
        "ramps": "ramp",
        "total": "total",
        "whose": "whose",
    }
    for key, words in (
        ("exercise", "exercise"),
        ("name", "name"),
        ("unit", "form.unit"),
        ("total", "total"),
        ("whose", "form.whose"),
        ("whose", "whose"),
    ):
        out.update({_bare(x): key for x in t.all_of(words)})
    for key in ("gate", "road", "ramp"):
        for time, place in zip(t.all_of("times"), t.all_of(f"time.{key}")):
            out.update({_bare(f"{time} {place}"): key, _bare(place): key})
    return out


def _bare(text: str) -> str:
    return re.sub(r"[\W_]+", " ", re.sub(r"\([^)]*\)", "", text)).strip().casefold()


_KNOWN = _known()
_STEP = {_bare(x) for x in Words("en").all_of("step")}
_UNITS = {_bare(x): False for x in (*Words("en").all_of("form.parts"), "parts", "part")}
_UNITS |= {
    _bare(x): True for x in ("vehicles", "vehicle", "veh", "Fahrzeuge", "Kfz", "véhicules", "véh")
}


def read_answer(path: str | Path, n: int, ramps: int, steps: int) -> Answer:
    """Return the answer in a file to an exercise of `n` cells, `ramps` ramps and `steps` steps.

    StudyError, with file and row, if it is no answer.
    """
    text = read_text(path, MOST_BYTES)
    if Path(path).suffix.lower() == ".json":
        return _of_json(text, str(path), n, ramps, steps)
    return _of_csv(text, str(path), n, ramps, steps)


def read_answer_head(path: str | Path) -> Answer:
    """Return only name and exercise, which determine what else the file should have."""
    text = read_text(path, MOST_BYTES)
    if Path(path).suffix.lower() == ".json":
        return _head_of_json(_json(text, str(path)), str(path))
    answer = Answer(str(path))
    for _, row in _rows(text, str(path), 1):
        if len(row) > 1 and (key := _KNOWN.get(_bare(row[0]))) in ("exercise", "name"):
            setattr(answer, key, _text(row[1].removeprefix("'")))
    return answer


def _text(x: Any) -> str:
    text = " ".join("".join(c if c.isprintable() else " " for c in str(x)).split())
    return text if len(text) <= MOST_WORDS else text[: MOST_WORDS - 1] + "…"


def _of_csv(text: str, name: str, n: int, ramps: int, steps: int) -> Answer:
    """Return the answer of a CSV file.

    It is a table of outflows, with or without heading, steps and states, between lines that begin
    with a known word.
    """
    answer = Answer(name)
    table: list[tuple[int, list[str]]] = []
    heading: list[str] = []
    for number, row in _rows(text, name, n):
        key = _KNOWN.get(_bare(row[0])) if not re.match(r"[-+]?[.,]?[0-9]", row[0]) else None
        if (
            key
            and (len(row) < 3 or not any(row[2:]) or key not in ("name",))
            and not (_bare(row[0]) == "gate" and len(row) > n and not table)
        ):
            _line(answer, key, row[1:], f"{name}, row {number}")
        elif not table and not heading and not re.match(r"[-+]?[.,]?[0-9]", row[0]):
            heading = row
        else:
            table.append((number, row))
    _fill_table(answer, table, heading, name, (n, ramps, steps))
    return answer


def _rows(text: str, name: str, n: int) -> list[tuple[int, list[str]]]:
    """Return the rows of a CSV, by the separator that gives the most rows with enough fields."""
    lines = [re.sub('"[^"]*"', '""', x) for x in text.splitlines()]
    delimiter = max(
        ";\t,", key=lambda x: [sum(line.count(x) >= least for line in lines) for least in (n, 1)]
    )
    reader = csv.reader(io.StringIO(text, newline=""), delimiter=delimiter)
    try:
        rows = [(reader.line_num, [x.strip() for x in row]) for row in reader]
    except csv.Error as e:
        raise StudyError(f"{name}, row {reader.line_num}: {e}") from None
    return [(number, row) for number, row in rows if any(row) and not row[0].startswith("#")]


def _line(answer: Answer, key: str, values: Sequence[str], where: str) -> None:
    """Add a line of one word and its value to the answer."""
    value = ",".join(values).rstrip(",")
    if key in TIMES:
        answer.times[key] = _number(value, f"{where}, {key}")
    elif key == "unit":
        known = _UNITS.get(_bare(value))
        if value and known is None:
            raise StudyError(
                f"{where}: the unit is {show(value)}; it is thousandths of a vehicle (parts) or"
                " vehicles"
            )
        answer.vehicles = known
    else:
        setattr(answer, key, _text(", ".join(values).rstrip(", ").removeprefix("'")))


def _number(text: Any, where: str) -> Number | None:
    try:
        return None if text is None else parse_number(str(text))
    except ValueError as e:
        raise StudyError(f"{where}: {e}") from None


def _fill_table(
    answer: Answer,
    table: list[tuple[int, list[str]]],
    heading: Sequence[str],
    name: str,
    size: tuple[int, int, int],
) -> None:
    """Add outflows and states of the steps to the answer, by the columns' order."""
    n, ramps, steps = size
    narrow, wide = n + 1, 2 * (n + 1) + ramps
    counted = bool(heading) and _bare(heading[0]) in _STEP
    most = narrow if len(_trimmed(heading)) - counted == narrow else wide
    firsts = [row[0] for _, row in table]
    if not counted and table and len(_trimmed(table[0][1])) in (narrow + 1, wide + 1):
        counted = firsts in (
            [str(k) for k in range(len(table))],
            [str(k + 1) for k in range(len(table))],
        )
    if len(table) > steps:
        raise StudyError(
            f"{name}, row {table[steps][0]}: the exercise has {steps} steps, and this is one more"
        )
    for k, (number, row) in enumerate(table):
        where = f"{name}, row {number}"
        if counted and row[0] not in (str(k), str(k + 1)):
            raise StudyError(f"{where}: the step is {show(row[0])}, where step {k} comes next")
        fields = _trimmed(row)[counted:]
        if len(fields) > most or not heading and len(fields) not in (narrow, wide):
            decimals = (
                "; if a comma is the decimal mark, put semicolons between fields"
                if len(fields) == 2 * narrow
                else ""
            )
            raise StudyError(
                f"{where}: {len(fields)} numbers; a row has {narrow} outflows, the gate's first, or"
                f" {wide} with the states after the step{decimals}"
            )
        numbers = [
            _number(x, f"{where}, column {j + 1 + counted}") for j, x in enumerate(fields)
        ] + [None] * (wide - len(fields))
        answer.outflows.append(numbers[:narrow])
        answer.held.append(numbers[narrow : 2 * narrow])
        answer.queue.append(numbers[2 * narrow :])


def _trimmed(row: Sequence[str]) -> list[str]:
    """Return a row without the empty fields at its end."""
    row = list(row)
    while row and not row[-1]:
        row.pop()
    return row


def _json(text: str, name: str) -> dict:
    try:
        top = json.loads(text, parse_int=str, parse_float=str, parse_constant=str)
    except (ValueError, RecursionError):
        raise StudyError(f"{name}: it is no JSON as the page saves it") from None
    if (
        not isinstance(top, dict)
        or top.get("format") != "nobyaluk-answers"
        or top.get("version") != "1"
    ):
        raise StudyError(
            f'{name}: it is not the page\'s file of answers, which says "format":'
            ' "nobyaluk-answers" and "version": 1'
        )
    return top


def _head_of_json(top: dict, name: str) -> Answer:
    given = top.get("exercise")
    given = given if isinstance(given, dict) else {}
    seed, cells, steps, record = (given.get(key) for key in ("seed", "cells", "steps", "record"))
    try:
        data = base64.b64decode(str(record or ""), validate=True) if record else None
        if not isinstance(record, str):
            raise TypeError
    except (TypeError, ValueError, binascii.Error):
        raise StudyError(
            f"{name}: exercise.record is {show(record)}, where a record in base64 is needed"
        ) from None
    id_ = f"seed={seed}&cells={cells}&steps={steps}" if isinstance(seed, str) else ""
    return Answer(name, _text(top.get("name") or ""), _text(id_), data)


def _of_json(text: str, name: str, n: int, ramps: int, steps: int) -> Answer:
    """Return the file that the page saves; its format is defined in bindings/wasm/exercise.js."""
    top = _json(text, name)
    answer = _head_of_json(top, name)
    answer.vehicles, answer.by_page = False, True
    for key, width in (("outflows", n + 1), ("held", n + 1), ("queue", ramps)):
        rows = top.get(key)
        if (
            not isinstance(rows, list)
            or len(rows) != steps
            or any(not isinstance(row, list) or len(row) != width for row in rows)
        ):
            raise StudyError(f"{name}: `{key}` has {steps} rows of {width}, a row a step")
        setattr(
            answer,
            key,
            [[_scalar(x, f"{name}: `{key}`, step {k}") for x in row] for k, row in enumerate(rows)],
        )
    answer.times = {key: _scalar(top.get(key), f"{name}: `{key}`") for key in TIMES}
    answer.whose = _text(top.get("whose") or "")
    return answer


def _scalar(x: Any, where: str) -> Number | None:
    if x is not None and not isinstance(x, str):
        raise StudyError(f"{where}: {show(x)} is no number")
    return _number(x, where)
