"""What a study has, in the units of the field: laws, works, arrivals, weights."""
from __future__ import annotations

from dataclasses import dataclass
from typing import TYPE_CHECKING

import numpy as np

from . import engine

if TYPE_CHECKING:
    from .study import Study


@dataclass(frozen=True)
class ClosedLanes:
    """Lanes of a cell that are closed from one step to before another."""

    cell: int
    lanes: int
    built: int
    begin: int
    end: int


def find_closures(s: Study) -> list[ClosedLanes]:
    """Return the closed lanes, cell by cell, one entry while their number stays the same."""
    if not s.lanes:
        return []
    out, table = [], np.frombuffer(s.lanes, np.uint8).reshape(-1, s.n)
    count = np.array([x.bit_count() for x in range(256)])[table]
    shut = count[0] - count[1:]
    for i in range(s.n):
        edges = [0, *(np.flatnonzero(np.diff(shut[:, i])) + 1).tolist(), len(shut)]
        out += [
            ClosedLanes(i + 1, int(shut[a, i]), int(count[0, i]), a, b)
            for a, b in zip(edges, edges[1:])
            if shut[a, i]
        ]
    return out


def ramp_name(s: Study, cell: int) -> str:
    """Return the name of a cell's ramp; nothing if it has none."""
    return next((name for name, at in s.ramps.items() if at == cell), "")


def format_number(x: float) -> str:
    """Return a number with thousands separators and at most six digits, no more than it needs."""
    return f"{x:,.0f}" if abs(x) >= 1e6 or x == round(x) else f"{x:,.6g}"


def format_rate(s: Study, parts: float) -> str:
    """Return parts a step as veh/h, or as vehicles a step if a step's seconds are unknown."""
    return (
        f"{format_number(parts * 3.6 / float(s.seconds))} veh/h"
        if s.seconds
        else f"{format_number(parts / 1000)} vehicles a step"
    )


def format_count(s: Study, cell: int, parts: float) -> str:
    """Return parts in a cell as vehicles, and as a density if its length is known."""
    more = (
        f" ({format_number(round(parts / 1000 / s.lengths[cell - 1], 3))} veh/km)"
        if s.lengths and s.lengths[cell - 1]
        else ""
    )
    return f"{format_number(parts / 1000)} vehicles{more}"


def describe_law(s: Study, cell: int) -> str:
    """Return a ramp's meter law with its numbers, or how it releases without one."""
    if cell not in s.laws:
        return (
            "by the table of releases, as the most"
            if s.plan is not None
            else "by the table of releases, exactly"
        )
    kind, *x = s.laws[cell]
    if kind == "fixed":
        return (
            "open: every arrival passes if the cell has room"
            if x[0] == engine.RATE
            else f"fixed rate {format_rate(s, x[0])}"
        )
    if kind == "alinea":
        km, gain = s.lengths[cell - 1] if s.lengths else None, f"{format_number(x[0])} a step"
        gain = (
            f"{format_number(round(x[0] * 3600 / float(s.seconds) * km, 6))} km/h ({gain})"
            if km and s.seconds
            else gain
        )
        return f"ALINEA, gain {gain}, target {format_count(s, cell, x[1])}"
    return (
        f"demand-capacity, capacity {format_rate(s, x[0])}, critical {format_count(s, cell, x[1])},"
        f" least rate {format_rate(s, x[2])}"
    )


def cell_in_field_units(s: Study, i: int) -> list[str] | None:
    """Return length, speed, wave, jam density and capacity of the cell at i, as text.

    They follow from the engine's own numbers; None without length or seconds.
    """
    if not s.lengths or s.lengths[i] is None or not s.seconds:
        return None
    r, km, seconds = s.record.road, s.lengths[i], float(s.seconds)
    speed, wave = (x / 1000 * km * 3600 / seconds for x in (r.speed[i], r.wave[i]))
    return [
        f"{km:g}",
        f"{speed:.1f}",
        f"{wave:.1f}",
        f"{r.jam[i] / 1000 / km:.0f}",
        f"{r.capacity[i] / 1000 * 3600 / seconds:,.0f}",
    ]


def arrivals_table(s: Study) -> tuple[list[str], list[list[str]]]:
    """Return the vehicles that arrive at each entry in each span of the study, and their sum.

    There is a heading, and a row for the gate and each ramp.
    """
    rows = s.record.rows
    return _by_spans(
        s,
        {
            "gate": rows[:, 0],
            **{f"ramp {name}": rows[:, 2 * cell - 1] for name, cell in s.ramps.items()},
        },
    )


def releases_table(s: Study) -> tuple[list[str], list[list[str]]] | None:
    """Return the same table of the releases of ramps without a law; None if there are none."""
    tabled = {name: cell for name, cell in s.ramps.items() if cell not in s.laws}
    each = {
        f"ramp {name}": s.plan[:, cell - 1] if s.plan is not None else s.record.rows[:, 2 * cell]
        for name, cell in tabled.items()
    }
    return _by_spans(s, each) if each else None


def _by_spans(
    s: Study, columns: dict[str, np.ndarray], most: int = 8
) -> tuple[list[str], list[list[str]]]:
    """Return parts per step as vehicles in spans of the study, and their sum."""
    steps = s.record.steps
    each = next(x for x in _spans(s) if -(-steps // x) <= most)
    edges = [*range(0, steps, each), steps]
    out = [
        [
            name,
            *(f"{x[a:b].sum(dtype=np.int64) / 1000:,.1f}" for a, b in zip(edges, edges[1:])),
            f"{x.sum(dtype=np.int64) / 1000:,.3f}",
        ]
        for name, x in columns.items()
    ]
    return ["vehicles from", *(s.when(a).split(", ")[-1] for a in edges[:-1]), "in all"], out


def _spans(s: Study) -> list[int]:
    """Return numbers of steps that make round spans of time, or plain ones if none does."""
    times = (60, 300, 600, 900, 1200, 1800, 3600, 7200, 10800, 21600, 43200, 86400)
    whole = [int(t / s.seconds) for t in times if s.seconds and t % s.seconds == 0]
    return sorted(
        {*whole, *(10 * 2**k for k in range(12))} if not whole else {*whole, engine.STEPS}
    )


def weights_table(s: Study) -> tuple[list[str], list[list]] | None:
    """Return the weights of waiting at the gate, in each cell and at each ramp.

    None without weights.
    """
    if s.weights is None:
        return None
    (gate, *cells), ramps = s.weights
    own = {name: ramps[cell - 1] for name, cell in s.ramps.items()}
    rows = [
        ["gate", gate],
        *(
            [["each cell", cells[0]]]
            if len(set(cells)) == 1
            else [[s.place(i + 1), x] for i, x in enumerate(cells)]
        ),
    ]
    rows += (
        [["each ramp's queue", next(iter(own.values()))]]
        if own and len(set(own.values())) == 1
        else [[f"queue of ramp {name}", x] for name, x in own.items()]
    )
    return ["waiting at", "weighs"], rows
