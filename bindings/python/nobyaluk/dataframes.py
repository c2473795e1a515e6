"""Tables of runs for pandas and spreadsheets: one row per step and place, or one per run."""
from __future__ import annotations

from collections.abc import Iterable
from fractions import Fraction
from typing import TYPE_CHECKING, Any

import numpy as np

from . import fields
from .engine import Run
from .summary import arriving, gate_waiting, hours, per_hour
from .totals import Totals

if TYPE_CHECKING:
    from .study import Study, StudyRun

Columns = dict[str, np.ndarray]


def _pandas() -> Any:
    try:
        import pandas
    except ImportError:
        raise ImportError(
            "a frame needs pandas: apt-get install python3-pandas, or pip install pandas"
        ) from None
    return pandas


def run_columns(study: Study, run: Run) -> Columns:
    """Return a run's columns, with one row per step and place.

    Place 0 is the gate; times and counts are those of the step's end. An unknown value is nan or
    empty.

    `inflow` is what enters from upstream, at the gate what arrives, so that a count grows by inflow
    and release less outflow.
    """
    n, steps = study.n, run.record.steps
    names, rows = {cell: name for name, cell in study.ramps.items()}, run.record.rows.astype(
        np.int64
    )
    each = lambda places: np.tile(np.array(places), steps)
    flat = lambda table: np.asarray(table, float).ravel()
    beside = lambda gate, of: flat(
        np.column_stack([np.full(steps, gate) if np.isscalar(gate) else gate, of])
    )
    unknown, km = np.full((steps, n), np.nan), (
        np.concatenate([[0], np.cumsum(study.lengths)]) if study.lengths else np.full(n + 1, np.nan)
    )
    an_hour = fields.per_hour(study) / 1000 if study.seconds else np.nan
    whole = bool(study.lengths and study.seconds)
    ends = (
        np.arange(1, steps + 1) * float(study.seconds) if study.seconds else np.full(steps, np.nan)
    )
    return {
        "step": np.repeat(np.arange(steps), n + 1),
        "seconds": np.repeat(ends, n + 1),
        "place": each(range(n + 1)),
        "cell": each(["gate", *study.cell_names]),
        "km": each([km[max(p - 1, 0)] for p in range(n + 1)]),
        "ramp": each([names.get(p, "") for p in range(n + 1)]),
        "outflow_veh": flat(run.outflow) / 1000,
        "held_veh": flat(run.held) / 1000,
        "ramp_queue_veh": flat(run.queue) / 1000,
        "ramp_release_veh": beside(0, rows[:, 2::2]) / 1000,
        "density_veh_per_km": beside(
            np.nan, fields.density(study, run) if study.lengths else unknown
        ),
        "speed_km_per_h": beside(np.nan, fields.speed(study, run) if whole else unknown),
        "inflow_veh_per_h": beside(rows[:, 0], fields.entered(run)) * an_hour,
        "outflow_veh_per_h": flat(run.outflow) * an_hour,
    }


def run_frame(study: Study, run: Run) -> Any:
    """Return the frame of a run, `StudyRun.frame`.

    Its `time` is the clock time of the step's end, or the time since the start.
    """
    pandas, table = _pandas(), run_columns(study, run)
    out = pandas.DataFrame(table)
    known = study.seconds is not None
    out.insert(
        1,
        "time",
        (
            pandas.to_timedelta(table["seconds"] + float(study.start or 0), unit="s")
            if known
            else np.full(len(out), np.timedelta64("NaT", "ns"))
        ),
    )
    for name in ("cell", "ramp"):
        out[name] = out[name].astype("category")
    return out


def frame(results: Iterable[StudyRun | Totals]) -> Any:
    """Return a table with a row for each run or study, with who waits where.

    Parameters
    ----------
    results : iterable of StudyRun or Totals
        What `Study.run` gives of several studies, or `map`.

    Returns
    -------
    pandas.DataFrame
        Indexed by the studies' names. It has `total_vehicle_hours` and its parts (in vehicle-steps
        if a step's seconds are unknown), the longest queues and the vehicles that left (nan if they
        were not asked for). `refused` has the message of a refusal or fault, or "".
    """
    pandas, given = _pandas(), list(results)
    rows = [_of_totals(x) if isinstance(x, Totals) else _of_run(x) for x in given]
    names = [x.name if isinstance(x, Totals) else x.study.name for x in given]
    return pandas.DataFrame(rows, index=pandas.Index(names, name="study"))


def _spent(of: Any, seconds: Fraction | None) -> dict[str, float]:
    w = hours(of, seconds)
    return {
        f"{part}_{w.unit.replace('-', '_')}": getattr(w, part)
        for part in ("total", "gate", "road", "ramp")
    }


def _of_run(run: StudyRun) -> dict[str, Any]:
    seconds = run.study.seconds
    factor, unit = per_hour(seconds)
    out = _spent(run, seconds) | {f"arriving_{unit.replace('-', '_')}": arriving(run) * factor}
    return out | {
        "longest_gate_queue_veh": gate_waiting(run).max() / 1000,
        "longest_ramp_queue_veh": run.queue.max() / 1000,
        "left_veh": run.exits / 1000,
        "refused": "",
    }


def _of_totals(t: Totals) -> dict[str, Any]:
    if t.refused or t.fault:
        return {"refused": t.fault or str(t.refused)}
    veh = lambda x: np.nan if x is None else x / 1000
    queues = {
        "longest_gate_queue_veh": veh(t.longest_gate_queue),
        "longest_ramp_queue_veh": veh(t.longest_ramp_queue),
    }
    return _spent(t, t.seconds) | queues | {"left_veh": t.exits / 1000, "refused": ""}
