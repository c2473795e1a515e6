"""Roads and studies from numbers in km, km/h and veh/h, without a file.

The names are the keys of a study's file (docs/STUDIES.md), and the same reader reads them. So
limits, rounding, notes and faults are the same, and a built study equals the one that is read from
a file. A float counts as it is printed: 0.1 is a tenth.
"""
from collections.abc import Iterable, Mapping, Sequence
from dataclasses import dataclass, fields
from decimal import Decimal
from fractions import Fraction
from pathlib import Path
from typing import Any

import numpy as np

from .errors import StudyError, show
from .tables import CLOCKS
from .toml_reader import StudyReader, StudySource

Number = int | float | Decimal | Fraction | np.number


@dataclass(frozen=True, kw_only=True)
class Cell:
    """A cell of a road.

    Parameters
    ----------
    length : number
        km.
    speed : number
        Free speed, km/h.
    jam : number
        Jam density of all lanes, veh/km.
    capacity : number
        Capacity of all lanes, veh/h.
    wave : number, optional
        Speed of the backward wave, km/h; default: capacity / (jam - capacity / speed), as in a
        triangular diagram.
    split : number, default 1
        The share of the cell's outflow that stays on the road, 0 to 1; the rest leaves by an
        off-ramp.
    ramp : str, optional
        The name of a metered on-ramp that enters the cell.
    queue : number, default 0
        Vehicles that wait at the ramp at the start.
    held, density : number, optional
        What the cell holds at the start: vehicles, or veh/km; one of the two, default 0.
    lanes : int, default 1
        Lanes built, 1 to 8.
    name : str, optional
        Default: the cell's number.
    """

    length: Number
    speed: Number
    jam: Number
    capacity: Number
    wave: Number | None = None
    split: Number | None = None
    ramp: str | None = None
    queue: Number | None = None
    held: Number | None = None
    density: Number | None = None
    lanes: int | None = None
    name: str | None = None


@dataclass(frozen=True)
class Gate:
    """The entry of the road.

    Parameters
    ----------
    capacity : number
        veh/h.
    queue : number, default 0
        Vehicles that wait at the start.
    """

    capacity: Number
    queue: Number | None = None


@dataclass(frozen=True)
class Meter:
    """A meter law of an on-ramp.

    Parameters
    ----------
    law : {"open", "fixed", "alinea", "demand-capacity"}
    rate : number
        Of "fixed": veh/h.
    gain, gain_kmh : number
        Of "alinea": vehicles a step for each vehicle, or km/h, which is veh/h for each veh/km; one
        of the two.
    target : number or "critical"
        Of "alinea": vehicles in the ramp's cell; default: what it holds at capacity.
    capacity : number
        Of "demand-capacity": veh/h; default: the cell's.
    critical : number
        Of "demand-capacity": vehicles in the cell; default: what it holds at capacity.
    least : number
        Of "demand-capacity": the least rate, veh/h.
    """

    law: str
    rate: Number | None = None
    gain: Number | None = None
    gain_kmh: Number | None = None
    target: Number | str | None = None
    capacity: Number | None = None
    critical: Number | None = None
    least: Number | None = None


@dataclass(frozen=True)
class Closure:
    """Lanes closed during works.

    Parameters
    ----------
    cell : int
        Counted from 1.
    lanes : int
        How many of the lanes built are closed.
    begin, end : str or int
        Clock times like "07:30", or steps; the closure ends before `end`.
    """

    cell: int
    lanes: int
    begin: str | int
    end: str | int


def cells(**columns: Any) -> list[Cell]:
    """Return cells from columns.

    Parameters
    ----------
    **columns
        For each parameter of `Cell`, a sequence with one value per cell, or one value for all.

    Returns
    -------
    list of Cell

    Raises
    ------
    StudyError
        If the columns differ in length.

    Examples
    --------
    >>> road = cells(length=0.5, speed=90, jam=250, capacity=[4400, 3800], ramp=[None, "Mill Road"])
    >>> road[1].capacity
    3800
    """
    listed = {key: list(x) for key, x in columns.items() if _is_list(x)}
    counts = {key: len(x) for key, x in listed.items()}
    if len(set(counts.values())) != 1:
        raise StudyError(
            "cells: the columns have"
            f" {', '.join(f'{n} ({key})' for key, n in counts.items()) or 'no'} values; one for"
            " each cell, or one for all"
        )
    return [
        Cell(**{key: listed[key][i] if key in listed else x for key, x in columns.items()})
        for i in range(next(iter(counts.values())))
    ]


def study_fields(
    road: Iterable[Cell],
    *,
    gate: Gate,
    step: int,
    steps: int,
    arrivals: Mapping[str, Any],
    start: Any = None,
    meter: Meter | Mapping[str, Meter] | None = None,
    releases: Mapping[str, Any] | None = None,
    closures: Sequence[Closure] = (),
    weights: Mapping[str, Any] | None = None,
    title: str | None = None,
    name: str = "study",
) -> dict[str, Any]:
    """Return the fields of a study from a road and its numbers, as `Study.of` takes them."""
    values = {
        "title": title,
        "step": _plain(step),
        "steps": _plain(steps),
        "start": start,
        "gate": _table(gate, Gate, f"{name}: gate"),
        "cell": [_table(x, Cell, f"{name}: cell {i}") for i, x in enumerate(road, 1)],
    }
    if (
        values["cell"] and values["cell"][-1].get("split") == 1
    ):  # nothing turns off; of the last cell a file says none
        del values["cell"][-1]["split"]
    values["arrivals"] = _listed(arrivals, steps, f"{name}: arrivals")
    if meter is not None:
        values["meter"] = {
            key: _table(x, Meter, f"{name}: meter of {key}")
            for key, x in (meter if isinstance(meter, Mapping) else {"all": meter}).items()
        }
    if releases is not None:
        values["releases"] = _listed(releases, steps, f"{name}: releases")
    if closures:
        values["closure"] = [
            {
                "from" if key == "begin" else "to" if key == "end" else key: x
                for key, x in _table(c, Closure, f"{name}: closure {i}").items()
            }
            for i, c in enumerate(closures, 1)
        ]
    if weights is not None:
        values["weights"] = {
            key: dict(x) if isinstance(x, Mapping) else _plain(x) for key, x in weights.items()
        }
    source = StudySource({key: x for key, x in values.items() if x is not None}, {})
    return {**StudyReader(Path(name), source).read(), "name": name, "title": title or name}


def _table(of: Any, kind: type, where: str) -> dict[str, Any]:
    """Return a cell, the gate, a meter or a closure as a file's table."""
    if not isinstance(of, (Mapping, kind)):
        raise StudyError(
            f"{where} is {show(of)}; it is a {kind.__name__}, or a mapping with its words"
        )
    given = of if isinstance(of, Mapping) else {f.name: getattr(of, f.name) for f in fields(of)}
    return {key: _plain(x) for key, x in given.items() if x is not None}


def _listed(columns: Mapping[str, Any], steps: int, where: str) -> dict[str, Any]:
    """Return arrivals or releases as a file's lists.

    A single number holds for all times; without times there is one number for each step.
    """
    if not hasattr(columns, "keys"):
        raise StudyError(
            f'{where} is {show(columns)}; it has a number or a list for each name, as {{"gate":'
            " 3000}"
        )
    given = {str(key): columns[key] for key in columns}
    if "file" in given:
        return {key: _plain(x) for key, x in given.items()}
    beside = {key: given.pop(key) for key in ("unit", "cap") if key in given}
    clock = next((key for key in CLOCKS if key in given), "step")
    if clock not in given:
        given[clock] = range(steps) if any(_is_list(x) for x in given.values()) else [0]
    count = len(list(given[clock]))
    out: dict[str, Any] = {}
    for key, x in given.items():
        out[key] = _plain(list(x)) if _is_list(x) else [_plain(x)] * count
        if len(out[key]) != count:
            expected = (
                f"one for each of the {steps} steps"
                if clock == "step" and count == steps
                else f"as many as `{clock}` has, {count}"
            )
            raise StudyError(
                f"{where}: `{key}` has {len(out[key])} numbers; it has {expected}, or one number"
                " for all"
            )
    return {**out, **beside}


def _is_list(x: Any) -> bool:
    return (
        not isinstance(x, (str, bytes, Mapping))
        and hasattr(x, "__iter__")
        and getattr(x, "ndim", 1) > 0
    )


def _plain(x: Any) -> Any:
    """Return a value as a TOML file would have it.

    numpy's numbers and floats become the decimals that are printed.
    """
    if _is_list(x):
        return [_plain(y) for y in x]
    if isinstance(x, (np.integer, np.floating, np.ndarray)):
        x = x.item()
    return Decimal(repr(x)) if isinstance(x, float) else x
