"""Marks answers: the first broken rule, what a schedule costs, why a total is wrong.

The proved engine judges the rules.
"""
import csv
import html
import io
from collections.abc import Callable, Collection, Iterable, Iterator, Mapping, Sequence
from dataclasses import dataclass, field
from fractions import Fraction
from functools import partial

import numpy as np

from .. import __version__, engine, summary
from ..engine import Refused
from ..formatting import csv_safe
from . import wrong_rules
from .answers import TABLES, TIMES, Answer, Column, Number
from .sheet import Exercise
from .words import Words

Rule = Callable[[engine.BaseRecord, bytes], wrong_rules.WrongRun]
WRONG: dict[str, Rule] = {
    "alone": wrong_rules.round_shares_alone,
    "last": wrong_rules.move_one_after_another,
    "first": partial(wrong_rules.move_one_after_another, last_first=False),
}
_SAY = Words("en")


def _variants(e: Exercise, x: engine.Run | wrong_rules.WrongRun) -> dict[str, int]:
    """Return the totals of a run that leave something out or count too much, in part-steps."""
    began = engine.present(e.study.record.road, e.study.record.start)
    return {
        "ramp": x.gate + x.road,
        "gate": x.road + x.ramp,
        "cells": x.road,
        "start": x.total + began,
        "before": x.total + began - x.present,
    }


def find_mistakes(e: Exercise) -> list[tuple[str, int]]:
    """Return the mistakes that give a wrong total, each with that total, for the key."""
    found = [
        *_variants(e, e.run).items(),
        *((key, rule(e.study.record, e.study.lanes).total) for key, rule in WRONG.items()),
    ]
    return [(key, total) for key, total in found if total != e.run.total]


@dataclass
class Mark:
    """The mark of one answer; a field is empty if there is nothing to report."""

    student: str
    file: str = ""
    exercise: str = ""
    outflows: str = ""  # in a few words
    rule: str = ""  # the first broken rule, or where a schedule differs from the engine's run
    cost: int | None = None  # the accepted schedule's total, in part-steps
    best: int | None = None  # the engine's
    states: str = ""
    times: dict[str, str] = field(default_factory=dict)
    total: str = ""
    right: bool | None = None  # whether the total is right
    diagnosis: str = ""
    whose: str = ""
    notes: list[str] = field(default_factory=list)
    fault: str = ""  # why it is not marked
    empty: bool = False  # whether that is because nothing is answered


def mark_answer(e: Exercise, answer: Answer, student: str) -> Mark:
    """Mark an answer against its exercise."""
    m = Mark(student, answer.file, e.id, best=e.run.total, whose=answer.whose)
    if answer.is_empty:
        m.fault, m.empty = f"{answer.file}: nothing is answered in it", True
        return m
    units = _units(e, answer, m)
    schedule, done = _schedule(e, answer, units, m)
    own = _judge(e, schedule, done, m)
    _states(e, answer, units, schedule, done, m)
    for key in ("gate", "road", "ramp"):
        x, right = answer.times.get(key), getattr(e.run, key)
        m.times[key] = (
            ""
            if x is None
            else (
                "right"
                if units.near(x, right, key)
                else f"{_shown(units.parts(x, key))}, not {right}"
            )
        )
    _total(e, answer, units, own, schedule if done == e.study.record.steps else None, m)
    return m


class Units:
    """Which columns of an answer are in vehicles; the others are in thousandths of a vehicle."""

    def __init__(self, vehicles: Collection[Column]) -> None:
        self.vehicles = frozenset(vehicles)

    def parts(self, x: Number, key: str, place: int = 0) -> Fraction:
        """Return a number of a column, in parts."""
        return x.parts((key, place) in self.vehicles)[0]

    def near(self, x: Number, right: int, key: str, place: int = 0) -> bool:
        """Return whether it is the right number, or, in vehicles, that number rounded."""
        value, slack = x.parts((key, place) in self.vehicles)
        return abs(value - right) <= slack


def _units(e: Exercise, answer: Answer, m: Mark) -> Units:
    """Return the unit of each column; the notes say what the file itself does not settle.

    The page's file is in thousandths, and a file that says vehicles is in vehicles. Any other file
    is read column by column: vehicles if a number has decimals, thousandths if one is larger than
    all vehicles of the exercise. A column that shows neither is read as the rest of the table.
    """
    columns = answer.columns()
    if answer.vehicles:
        return Units(columns)
    odd = {column: [x for x in numbers if x.is_of_vehicles] for column, numbers in columns.items()}
    if answer.by_page:
        if any(odd.values()):
            m.notes.append(
                "the page asks for whole thousandths of a vehicle; marked as typed:"
                f" {_some(odd.values())}"
            )
        return Units(())
    large = {
        column
        for column, numbers in columns.items()
        if any(_too_many(e, x, column) for x in numbers)
    }
    vehicles = _settled(
        set(columns), {column for column in columns if odd[column] and column not in large}, large
    )
    if both := [odd[column] for column in columns if column in large and odd[column]]:
        m.notes.append(f"decimals in a column of thousandths of a vehicle: {_some(both)}")
    if vehicles and large:
        m.notes.append(
            f"its units differ; read as vehicles: {_columns(e, columns, vehicles)}; all else as"
            " thousandths of a vehicle"
        )
    elif (
        not vehicles
        and not large
        and answer.vehicles is None
        and _fits(e, columns, True) > _fits(e, columns, False)
    ):
        vehicles = set(columns)
        m.notes.append(
            "it has no decimals and is read as vehicles, because more numbers are right so"
        )
    elif (
        not vehicles
        and not large
        and answer.vehicles is None
        and any(x.value for numbers in columns.values() for x in numbers)
    ):
        m.notes.append("nothing in it shows its unit: read as thousandths of a vehicle")
    if vehicles and answer.vehicles is False:
        m.notes.append(
            "it says thousandths of a vehicle"
            + (", but its decimals are of vehicles: read as vehicles" if not large else "")
        )
    return Units(vehicles)


def _settled(columns: set[Column], vehicles: set[Column], large: set[Column]) -> set[Column]:
    """Return the columns in vehicles.

    A column that does not show its unit is in vehicles if the rest of the table, or of the times,
    is.
    """
    table = {column for column in columns if column[0] in TABLES}
    out = set(vehicles)
    for group in (table, columns - table):
        seen = (
            group & (vehicles | large) or vehicles | large
        )  # if a group shows nothing, the other one
        if seen and seen <= vehicles:
            out |= group
    return out


def _too_many(e: Exercise, x: Number, column: Column) -> bool:
    """Return whether a number is too large to be in vehicles.

    The limit is all vehicles of the exercise, for a time in every step.
    """
    most = e.run.present + e.run.exits
    return x.groups is None and x.value * 1000 > (
        most * e.study.record.steps if column[0] in TIMES else most
    )


def _fits(e: Exercise, columns: Mapping[Column, Sequence[Number]], vehicles: bool) -> int:
    """Return how many outflows and times are the engine's, read in this unit."""
    outflows = {p: set(e.run.outflow[:, p].tolist()) for p in range(e.n + 1)}
    right = lambda key, place: outflows[place] if key == "outflows" else {getattr(e.run, key)}
    return sum(
        x.parts(vehicles)[0] in right(*column)
        for column, numbers in columns.items()
        if column[0] not in ("held", "queue")
        for x in numbers
    )


def _columns(e: Exercise, columns: Iterable[Column], vehicles: set[Column]) -> str:
    """Return the columns in vehicles, in words; `the table` if all columns are."""
    table = [column for column in columns if column[0] in TABLES]
    named = (
        ["the table"]
        if table and vehicles.issuperset(table)
        else [_column(e, x) for x in table if x in vehicles]
    )
    return ", ".join(named + [_column(e, x) for x in columns if x in vehicles and x[0] in TIMES])


def _column(e: Exercise, column: Column) -> str:
    key, place = column
    if key in TIMES:
        return "the total" if key == "total" else f"the time {_SAY(f'time.{key}')}"
    if key == "queue":
        return f"the queue of the ramp at cell {e.ramps[place]}"
    if place == 0:
        return "the outflow of the gate" if key == "outflows" else "the queue of the gate"
    return f"{'the outflow of' if key == 'outflows' else 'held in'} cell {place}"


def _some(numbers: Iterable[Sequence[Number]]) -> str:
    """Return the first of these numbers, and how many more there are."""
    found = [x.text.strip() for group in numbers for x in group]
    return f"{', '.join(found[:3])}{f' and {len(found) - 3} more' * (len(found) > 3)}"


def _schedule(e: Exercise, answer: Answer, units: Units, m: Mark) -> tuple[np.ndarray, int]:
    """Return the outflows in parts, 0 from the first step on that is not filled in whole.

    And how many steps are.
    """
    steps, places = e.run.outflow.shape
    out, done = np.zeros((steps, places), np.uint32), 0
    for k, row in enumerate(answer.outflows):
        numbers = [x for x in row if x is not None]
        if len(numbers) < len(row):
            break
        for p, x in enumerate(numbers):
            parts = units.parts(x, "outflows", p)
            if parts.denominator != 1 or parts >= 1 << 32:
                m.rule = (
                    f"step {k}, {e.study.place(p)}: {x.text} is no outflow in whole thousandths of"
                    " a vehicle"
                )
                return out, k
            out[k, p] = int(parts)
        done += 1
    return out, done


def _judge(e: Exercise, schedule: np.ndarray, done: int, m: Mark) -> engine.Run | None:
    """Judge the steps that are filled in; return the run if all are and it is accepted."""
    steps, record, lanes = e.study.record.steps, e.study.record, e.study.lanes
    if not done:
        m.outflows = "wrong" if m.rule else "none"
        return None
    own = None
    try:
        own = engine.judge(record, schedule, lanes)
    except Refused as r:
        if r.step is not None and r.step < done:
            m.outflows = f"wrong from step {r.step}"
            numbers = summary.explain_refusal(record, schedule, lanes, r)
            m.rule = f"{e.study.describe_refusal(r)} ({numbers})"
            return None
    if own is None or done < steps:
        same = (schedule[:done] == e.run.outflow[:done]).all()
        m.outflows = (
            f"{'right' if same else 'allowed'} up to step {done - 1}, {steps - done} missing"
        )
        return None
    lost = summary.find_loss(e.run, own)
    m.cost, m.outflows = own.total, "right" if lost.step is None else "allowed"
    if lost.step is not None:
        m.rule = (
            f"holds back first at {e.study.when(lost.step)}, {e.study.place(lost.place)}: sends"
            f" {lost.sent}, and {lost.could} could go"
        )
    return own


def _states(
    e: Exercise, answer: Answer, units: Units, schedule: np.ndarray, done: int, m: Mark
) -> None:
    """Note the first state that does not follow from the student's own outflows."""
    given = sum(
        x is not None for table in (answer.held, answer.queue) for row in table for x in row
    )
    if not given:
        m.states = "none"
        return
    try:
        held, queue = engine.states_until(e.study.record, schedule, e.study.lanes)
    except Refused:
        return
    ramps, places = e.ramps, e.n + 1
    for k in range(min(done, len(held), len(answer.held))):
        for j, x in enumerate((*answer.held[k], *answer.queue[k])):
            right = int(held[k, j] if j < places else queue[k, ramps[j - places]])
            column = ("held", j) if j < places else ("queue", j - places)
            if x is not None and not units.near(x, right, *column):
                what = (
                    "queue of the gate"
                    if j == 0
                    else (
                        f"held in cell {j}"
                        if j < places
                        else f"queue of the ramp at cell {ramps[j - places]}"
                    )
                )
                m.states = f"after step {k}, {what}: {x.text}, where its own outflows leave {right}"
                return
    missing = e.study.record.steps * (places + len(ramps)) - given
    m.states = ("follow from its outflows" if done else "not checked") + (
        f", {missing} missing" if missing else ""
    )


def _shown(parts: Fraction) -> str:
    """Return a time as the exercise has it, in part-steps."""
    return str(int(parts)) if parts.denominator == 1 else f"{float(parts):g}"


def _bases(e: Exercise, own: engine.Run | None) -> Iterator[tuple[str, int, dict[str, int]]]:
    """Yield possible sources of a total: the engine's run, the student's, those of wrong rules.

    Each comes with its total and its variants.
    """
    yield "", e.run.total, _variants(e, e.run)
    if own is not None and own.total != e.run.total:
        yield "of its own outflows", own.total, _variants(e, own)
    for key, rule in WRONG.items():
        wrong = rule(e.study.record, e.study.lanes)
        yield _SAY(f"wrong.{key}"), wrong.total, _variants(e, wrong)


def _total(
    e: Exercise,
    answer: Answer,
    units: Units,
    own: engine.Run | None,
    schedule: np.ndarray | None,
    m: Mark,
) -> None:
    """Note whether the total is right, or the cause of a wrong one.

    Outflows of a wrong rule are recognised too, even with a right total.
    """
    by_rule = next(
        (
            _SAY(f"wrong.{key}")
            for key, rule in WRONG.items()
            if schedule is not None
            and own is None
            and (rule(e.study.record, e.study.lanes).outflow == schedule).all()
        ),
        "",
    )
    m.diagnosis = f"outflows: {by_rule}" if by_rule else ""
    x = answer.times.get("total")
    if x is None:
        return
    m.total, m.right = _shown(units.parts(x, "total")), units.near(x, e.run.total, "total")
    if m.right:
        return
    found = (
        diagnose(e, partial(units.near, x, key="total"), own)
        or _sums(e, answer, units, x)
        or "not recognised"
    )
    m.diagnosis = "; ".join(
        filter(None, [found, m.diagnosis if by_rule and by_rule not in found else ""])
    )


def diagnose(e: Exercise, same: Callable[[int], bool], own: engine.Run | None = None) -> str:
    """Return what a wrong total comes from, in words; nothing if it is not recognised.

    `same` says whether a total is the one given.
    """
    for base, total, variants in _bases(e, own):
        if base and same(total):
            return base
        if found := [
            _SAY(f"wrong.{key}")
            for key, wrong in variants.items()
            if wrong != total and same(wrong)
        ]:
            return f"{base}, and " * bool(base) + " or ".join(found)
    return ""


def _sums(e: Exercise, answer: Answer, units: Units, x: Number) -> str:
    """Return why a total is wrong: a sum of the times given, or a factor of 1,000."""
    value = units.parts(x, "total")
    if value == 1000 * e.run.total or value * 1000 == e.run.total:
        return "right but for its unit: off by a factor of 1,000"
    given = {key: y for key in ("gate", "road", "ramp") if (y := answer.times.get(key)) is not None}
    parts = [units.parts(y, key) for key, y in given.items()]
    if len(parts) == 3 and value == sum(parts, Fraction(0)):
        return "the sum of its times at gate, cells and ramps, of which one is wrong"
    return ""


HEADING = [
    "student",
    "file",
    "exercise",
    "outflows",
    "first broken rule",
    "schedule's total",
    "engine's total",
    "lost",
    "states",
    "gate time",
    "road time",
    "ramp time",
    "total given",
    "total",
    "what a wrong total comes from",
    "whose waiting, as written",
    "notes",
]


def mark_rows(marks: Sequence[Mark]) -> list[list[str]]:
    """Return the table for the lecturer, times in thousandths of a vehicle times steps."""
    out = []
    for m in marks:
        lost = "" if m.cost is None or m.best is None else str(m.cost - m.best)
        verdict = "" if m.right is None else "right" if m.right else "wrong"
        number = lambda x: "" if x is None else str(x)
        out.append(
            [
                m.student,
                m.file,
                m.exercise,
                m.outflows,
                m.rule,
                number(m.cost),
                number(m.best),
                lost,
                m.states,
                *(m.times.get(key, "") for key in ("gate", "road", "ramp")),
                m.total,
                verdict,
                m.diagnosis,
                m.whose,
                "; ".join(filter(None, [m.fault, *m.notes])),
            ]
        )
    return out


def marks_csv(marks: Sequence[Mark]) -> str:
    """Return the table as CSV; no field of it is a formula."""
    f = io.StringIO()
    csv.writer(f, lineterminator="\n").writerows(
        [HEADING, *([csv_safe(x) for x in row] for row in mark_rows(marks))]
    )
    return f.getvalue()


STYLE = """
body { font: 14px/1.4 system-ui, "DejaVu Sans", sans-serif; color: #1b1b1b; margin: 1.5rem; } h1 { \
font-size: 1.5rem; margin: 0 0 .3rem; overflow-wrap: anywhere; }
table { border-collapse: collapse; font-size: 13px; font-variant-numeric: tabular-nums; margin: \
.8rem 0; width: 100%; } .note { color: #555; font-size: .9rem; }
th, td { text-align: left; vertical-align: top; padding: .3rem .5rem; border-bottom: 1px solid \
#ccc; } td.number { text-align: right; white-space: nowrap; }
thead th { position: sticky; top: 0; background: #fff; border-bottom: 2px solid #888; }
td.right { background: #e2f1e4; } td.wrong { background: #fbe5dd; } td.part { background: #fdf5d6; \
} tr.fault td { background: #f3e6ee; }
td { overflow-wrap: anywhere; } @page { size: A4 landscape; margin: 10mm; }
"""


def _kind(m: Mark, column: int) -> str:
    """Return a cell's colour: right, allowed or partly, wrong."""
    if column == 1:
        return (
            "right"
            if m.outflows == "right"
            else "part" if m.outflows.startswith(("allowed", "right")) else "wrong"
        )
    if column == 6:
        return "" if m.right is None else "right" if m.right else "wrong"
    return "number" if column in (2, 5) else ""


def marks_page(marks: Sequence[Mark], title: str) -> str:
    """Return the table as one HTML page, with the number of right answers."""
    heading = [
        "student",
        "outflows",
        "costs (engine’s)",
        "states",
        "time at gate, cells, ramps",
        "total given",
        "total",
        "whose waiting, as written",
        "notes",
    ]
    body = []
    for m in marks:
        cost = "" if m.cost is None else f"{m.cost:,} ({m.best:,})"
        times = "; ".join(f"{_SAY(f'time.{key}')}: {x}" for key, x in m.times.items() if x)
        total = (
            ""
            if m.right is None
            else "right" if m.right else f"wrong, {m.best:,} is right: {m.diagnosis}"
        )
        if m.right and m.diagnosis:
            total += f"; {m.diagnosis}"
        given, notes = f"{int(m.total):,}" if m.total.isdecimal() else m.total, "; ".join(
            filter(None, [m.fault, *m.notes])
        )
        cells = [
            m.student,
            f"{m.outflows}{': ' if m.rule else ''}{m.rule}",
            cost,
            m.states,
            times,
            given,
            total,
            m.whose,
            notes,
        ]
        tds = "".join(
            f"<td{f' class={kind}' if (kind := _kind(m, j)) and not m.fault else ''}>"
            f"{html.escape(x)}</td>"
            for j, x in enumerate(cells)
        )
        body.append(f"<tr{' class=fault' if m.fault else ''}>{tds}</tr>")
    read = [m for m in marks if not m.fault]
    outflows, totals = sum(m.outflows == "right" for m in read), sum(bool(m.right) for m in read)
    counts = (
        f"{len(marks)} students or files: {len(read)} marked, {outflows} with right outflows,"
        f" {totals} with the right total. Times are in thousandths of a vehicle × steps."
    )
    head = (
        "<meta charset=utf-8><meta name=viewport"
        f" content='width=device-width'><title>{html.escape(title)}</title><style>{STYLE}</style>"
    )
    table = (
        f"<table><thead><tr>{''.join(f'<th>{html.escape(x)}</th>' for x in heading)}</tr></thead>"
        f"<tbody>{''.join(body)}</tbody></table>"
    )
    proof = (
        "Outflows are judged by the proved engine, and a wrong total is compared with its numbers"
        " of gate, road and ramp time. Wrong rules, which are computed to recognise them, and this"
        f" table are not proved. nobyaluk {__version__}."
    )
    return (
        f"<!doctype html><html lang=en><head>{head}</head><body><h1>{html.escape(title)}</h1><p"
        f" class=note>{counts}</p>{table}<p class=note>{proof}</p></body></html>\n"
    )
