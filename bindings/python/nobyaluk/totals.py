"""What a study costs: its totals, without the tables of its run."""
from __future__ import annotations

import ctypes
import threading
from fractions import Fraction
from typing import TYPE_CHECKING, NamedTuple

import numpy as np

from . import engine, library
from .arrays import lend, to_bytes
from .engine import Refused
from .summary import longest_queues

if TYPE_CHECKING:
    from .study import Study


class Totals(NamedTuple):
    """What a study costs, as the engine gives it; or why there are no numbers.

    Attributes
    ----------
    name : str
        The name of the study.
    total, gate, road, ramp : int
        Time spent in all, at the gate, on the road and at the ramps, in part-steps.
    exits, present : int
        What has left the system, and what is in it after the last step, in parts.
    weighted : int or None
        The weighted total in part-steps, if the study has weights.
    longest_gate_queue, longest_ramp_queue : int or None
        In parts, the gate's without the step's arrivals; None if they were not requested.
    refused : Refused or None
        The engine's refusal.
    seconds : Fraction or None
        The seconds of a step.
    fault : str or None
        Why the study could not be made.
    """

    name: str
    total: int = 0
    gate: int = 0
    road: int = 0
    ramp: int = 0
    exits: int = 0
    present: int = 0
    weighted: int | None = None
    longest_gate_queue: int | None = None
    longest_ramp_queue: int | None = None
    refused: Refused | None = None
    seconds: Fraction | None = None
    fault: str | None = None


_lent = threading.local()


def outflows() -> tuple[int, int]:
    """Return this thread's list for outflows that are not kept: its address and its length."""
    try:
        return _lent.at
    except AttributeError:
        _lent.list = np.empty(library.MOST_OUTFLOWS, np.uint32)
        _lent.at = lend(_lent.list)
        return _lent.at


def _copied(data: bytes) -> int:
    """Return the address of this thread's copy of a record; the next call overwrites it."""
    try:
        at = _lent.record_at
    except AttributeError:
        _lent.record = np.empty(library.BYTES, np.uint8)
        at = _lent.record_at = lend(_lent.record)[0]
    ctypes.memmove(at, data, len(data))
    return at


def totals(study: Study) -> Totals:
    """Return only the totals of a study; its tables are not kept.

    Parameters
    ----------
    study : Study

    Returns
    -------
    Totals
        In part-steps and parts.
    """
    return _totals(study, False)


def totals_and_queues(study: Study) -> Totals:
    """Return the totals of a study with its longest queues."""
    return _totals(study, True)


def _totals(study: Study, queues: bool) -> Totals:
    """Return the totals, with or without the longest queues."""
    try:
        if (
            study.plan is not None
            or study.weights
            or not isinstance(study.record, engine.Record)
            or study.laws
            and not study.all_by_laws
        ):
            return _of_run(study, queues)
        return _of_record(study, study.record, queues)
    except Refused as e:
        return Totals(study.name, refused=e)


def _of_run(study: Study, queues: bool) -> Totals:
    """Return the totals of a study from its whole run."""
    r = study.run_engine()
    return Totals(
        study.name,
        r.total,
        r.gate,
        r.road,
        r.ramp,
        r.exits,
        r.present,
        r.weighted,
        *(longest_queues(r) if queues else (None, None)),
        seconds=study.seconds,
    )


def _of_record(study: Study, record: engine.Record, queues: bool) -> Totals:
    """Return the totals of a study of one record; one call runs it or fills it by laws."""
    data, lanes = engine.record_data(record), to_bytes(study.lanes)
    waiting = ramp = None
    if study.laws:
        kinds, numbers = engine.encode_laws(study.laws)
        engine.check_laws(record, study.laws)
        at = _copied(data)  # the engine writes releases into it
        given = (kinds.tobytes(), engine.CELLS, *lend(numbers), lanes, len(lanes), *outflows())
        a = library.fill_longest(at, len(data), *given)
        e = a.ended
    elif queues:
        a = library.run_longest(data, len(data), lanes, len(lanes), *outflows())
        e = a.ended
    else:
        e = library.run(data, len(data), lanes, len(lanes), *outflows())
    if e.number:
        operation = "fill" if study.laws else "run"
        return Totals(study.name, refused=Refused(e.number, e.step, e.place, operation))
    if queues:
        waiting, ramp = a.waiting, max(a.ramps[:])  # past cell n they are 0
    s = e.state
    return Totals(
        study.name,
        e.total,
        s.gate_time,
        s.road_time,
        s.ramp_time,
        e.exits,
        e.present,
        None,
        waiting,
        ramp,
        seconds=study.seconds,
    )
