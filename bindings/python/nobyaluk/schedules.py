"""Schedules of outflows for judging: CSV in parts, one row per step and one column per place."""
import csv
import io
import re

import numpy as np

from .errors import StudyError, parse_whole, show

_PARTS = "an outflow is a whole number of parts, thousandths of a vehicle, up to 4294967295"


def _outflow(word: str, where: str) -> int:
    try:
        return parse_whole(word, (1 << 32) - 1)
    except ValueError:
        raise StudyError(f"{where}: {show(word)} is no outflow; {_PARTS}") from None


def parse_schedule(text: str, n: int, name: str = "schedule") -> np.ndarray:
    """Return the outflows of a schedule in CSV: one row per step, the gate's outflow first.

    A heading and a first column `step` are optional.
    """
    lines = text.removeprefix("\ufeff").splitlines()
    head = re.sub(
        '"[^"]*"', "", next((x for x in lines if x.strip() and not x.lstrip().startswith("#")), "")
    )
    reader = csv.reader(
        io.StringIO(text.removeprefix("\ufeff"), newline=""),
        delimiter=next((x for x in "\t;" if x in head), ","),
    )
    try:
        rows = [(reader.line_num, [x.strip() for x in row]) for row in reader]
    except csv.Error as e:
        raise StudyError(f"{name}, row {reader.line_num}: {e}") from None
    rows = [(number, row) for number, row in rows if any(row) and not row[0].startswith("#")]
    heading = rows.pop(0)[1] if rows and not re.match(r"[-+]?[.,]?[0-9]", rows[0][1][0]) else []
    counted = heading[:1] != [] and heading[0].lower() == "step"
    out = []
    for step, (number, row) in enumerate(rows):
        where = f"{name}, row {number}"
        if counted and row[0] != str(step):
            raise StudyError(
                f"{where}: `step` is {show(row[0])}, where step {step} comes next; steps are"
                " counted from 0"
            )
        if len(row) != n + 1 + counted:
            decimals = (
                "; if a comma is the decimal mark: outflows are whole parts"
                if len(row) == 2 * (n + 1)
                else ""
            )
            raise StudyError(
                f"{where}: {len(row) - counted} outflows; a row has {n + 1}: the gate's, then each"
                f" cell's{decimals}"
            )
        out += [
            _outflow(x, f"{where}, column {column}")
            for column, x in enumerate(row, 1)
            if column > counted
        ]
    return np.array(out, np.uint32)
