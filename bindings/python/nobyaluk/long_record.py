"""Studies beyond a record's 65,536 bytes: 1,440 steps of 64 cells as one, and whole days in parts.

A `LongRecord` is used like a `Record`. It is run, filled and judged in stretches of as many rows as
a record holds. Each stretch goes on from the state of the one before, with its cumulative outflows
and times; meters go on from their last releases and entries. A study of more than 1,440 steps is
run in parts of 1,440. A part starts from what the one before left; its steps and cumulative
outflows begin at 0 again. Python adds weighted totals over the stretches, and times and exits over
the parts.
"""
import ctypes
from collections.abc import Iterator, Mapping
from dataclasses import dataclass
from functools import cached_property
from itertools import chain
from typing import Any, NamedTuple

import numpy as np

from . import engine, library
from .arrays import freeze, lend, make_frozen, to_array, to_bytes
from .engine import BaseRecord, Law, LongestQueues, Record, Refused, Road, Run, Start, State
from .errors import StudyError
from .refusals import Refusal

MOST_STEPS = 17_280  # of a study: 24 hours in steps of 5 s

Lent = tuple[int, int]  # a list's address and count, as the C boundary takes it


class Stretch(NamedTuple):
    """Rows that one record holds: the first step, the number of steps, and the record's bytes.

    The record's own start is checked and then ignored.
    """

    begin: int
    steps: int
    data: np.ndarray

    @property
    def anew(self) -> bool:
        """Whether it begins a part other than the first."""
        return self.begin > 0 and self.begin % engine.STEPS == 0

    def lanes(self, table: bytes, n: int) -> bytes:
        """Return the table of lanes for these steps only."""
        at = n * (1 + self.begin)
        return table and table[:n] + table[at : at + n * self.steps]

    def lend(self, table: int, n: int) -> Lent:
        """Return the part of a table of outflows or counts that has these steps."""
        return table + 4 * (n + 1) * self.begin, (n + 1) * self.steps


@dataclass(frozen=True, eq=False, repr=False)
class LongRecord(BaseRecord):
    """A road, a start and more rows than a record holds, each within the engine's limits.

    It keeps copies, which can't be changed.

    Attributes
    ----------
    road : Road
        Speeds, waves and shares in thousandths; jam counts in parts, capacities in parts a step.
    start : State
        The state before step 0, in parts.
    rows : numpy.ndarray of uint32, shape (T, 1 + 2n)
        In parts a step: gate arrivals, then each cell's ramp arrivals and release. Read-only.
    steps : int
        T, at most 17,280.
    """

    road: Road
    start: State
    rows: np.ndarray

    def __post_init__(self) -> None:
        if not isinstance(self.road, Road) or not isinstance(self.start, State):
            raise TypeError(
                "a LongRecord has a Road and a State; `make_record` makes one of a Road and a Start"
            )
        rows = to_array(self.rows)
        if rows.ndim != 2 or rows.shape[1] != 1 + 2 * self.road.n:
            raise ValueError(f"rows of {self.road.n} cells have {1 + 2 * self.road.n} numbers each")
        for name, kept in (
            ("rows", freeze(rows)),
            ("road", self.road),
            ("start", self.start),
        ):  # copies
            object.__setattr__(self, name, kept)

    def __eq__(self, other: Any) -> bool:
        if not isinstance(other, LongRecord):
            return NotImplemented
        return (
            self.road == other.road
            and self.start == other.start
            and np.array_equal(self.rows, other.rows)
        )

    def __hash__(self) -> int:
        return hash(self.rows.tobytes())

    def __repr__(self) -> str:
        return f"LongRecord({self.road.n} cells, {self.steps} steps)"

    def __reduce__(self) -> tuple:
        return LongRecord, (self.road, self.start, self.rows)

    @property
    def steps(self) -> int:
        """T, the number of steps."""
        return self.rows.shape[0]

    @cached_property
    def stretches(self) -> list[Stretch]:
        """The rows in as few records as possible, none across the end of a part."""
        return list(_written(self.road, self.rows))

    def history(self, outflow: np.ndarray, lanes: bytes) -> tuple[np.ndarray, np.ndarray]:
        """Return what each place holds, and what waits at its ramp, after every step of a run.

        Parameters
        ----------
        outflow : array_like of int, shape (T, n + 1)
            Outflows in parts, the gate first.
        lanes : bytes
            The table of lanes of all steps; empty if all are open.

        Returns
        -------
        held, queue : numpy.ndarray of uint32, shape (T, n + 1)
            In parts, the gate first.

        Raises
        ------
        Refused
            As by judging, with the step counted from the study's start.
        """
        w, zs = _Whole(self, lanes), to_array(outflow)
        if zs.size != w.outflow.size:
            raise Refused(Refusal.SCHEDULE_LENGTH, 0, 0, "history_on")
        held, queue = (np.empty(w.outflow.shape, np.uint32) for _ in range(2))
        tables = [lend(x)[0] for x in (zs, held, queue)]
        for s, own, _ in w.stretches():
            lists = chain.from_iterable(s.lend(x, w.n) for x in tables)
            e = library.history_on(*lend(s.data), own, len(own), w.state, *lists)
            w.take(s, e, "history_on")
        return held, queue


class _FilledRecord(LongRecord):
    """A record whose stretches were filled: its rows are read from them when somebody asks."""

    @property
    def steps(self) -> int:
        """T, the number of steps."""
        return self.stretches[-1].begin + self.stretches[-1].steps

    @cached_property
    def rows(self) -> np.ndarray:
        """Arrivals and releases in parts a step, shape (T, 1 + 2n); read-only."""
        n = self.road.n
        out = np.empty((self.steps, 1 + 2 * n), np.uint32)
        for s in self.stretches:
            lent = lend(out[s.begin : s.begin + s.steps])
            library.rows(*lend(s.data), n, s.steps, *lent)
        return freeze(out)


def most_steps(road: Road) -> int:
    """Return the number of steps that a record of this road holds."""
    head = 18 if road.version == 2 else 16
    return min(engine.STEPS, (engine.BYTES - head - 24 * road.n) // (4 + 8 * road.n))


def begins_anew(record: BaseRecord) -> bool:
    """Return whether it is run in parts, whose cumulative outflows begin at 0 again."""
    return record.steps > engine.STEPS


def _written(road: Road, rows: np.ndarray) -> Iterator[Stretch]:
    """Yield the stretches of rows, each as a record whose road is empty at the start."""
    fits, target, start = most_steps(road), np.empty(engine.BYTES, np.uint8), Start()
    for part in range(0, len(rows), engine.STEPS):
        end = min(part + engine.STEPS, len(rows))
        for k in range(part, end, fits):
            some = rows[k : min(k + fits, end)]
            a = library.write(road, len(some), start, *lend(some), *lend(target))
            if a.number:
                place = a.place + k if a.number == Refusal.RATES else a.place
                raise Refused(a.number, 0, place, "write")
            yield Stretch(k, len(some), np.frombuffer(target[: a.count].tobytes(), np.uint8))


def make_record(road: Road, start: Start, rows: Any) -> Record | LongRecord:
    """Return the record of a road, a start and its rows; a LongRecord if it is too long.

    Refused as by writing.
    """
    rows = to_array(rows)
    fits = most_steps(road) if 1 <= road.n <= engine.CELLS else engine.STEPS
    if rows.shape[0] <= fits:
        return engine.write(road, start, rows)
    if rows.shape[0] > MOST_STEPS:
        raise StudyError(f"a study has at most {MOST_STEPS:,} steps, and not {rows.shape[0]:,}")
    record = LongRecord(road, engine.write(road, start, rows[:fits]).start, rows)
    record.stretches  # noqa: B018 each row is looked at here
    return record


def start_anew(state: State) -> State:
    """Return the state before a part's first step, with the counts of the state given.

    Its steps done, times and cumulative outflows are 0.
    """
    return State(gate_queue=state.gate_queue, held=state.held, queue=state.queue)


def add_up(record: BaseRecord, ends: list[State]) -> tuple[State, int, int, int]:
    """Return the last state, total, present and exits of a study from its parts' last states.

    The last state has the steps and times of all parts, and the cumulative outflows of the last.
    """
    road, last = record.road, _last_state(record, ends)
    total, exits = (sum(engine.total(x) for x in ends), sum(engine.exits(road, x) for x in ends))
    return last, total, engine.present(road, last), exits


def _last_state(record: BaseRecord, ends: list[State]) -> State:
    """Return the last state of a study from its parts' last states."""
    last = ends[-1]
    if len(ends) > 1:
        last = last.copy()
        last.done = record.steps
        for name in ("gate_time", "road_time", "ramp_time"):
            setattr(last, name, sum(getattr(x, name) for x in ends))
    return last


class _Whole:
    """The results of all stretches: outflows, the parts' ends and the longest queues."""

    def __init__(self, record: LongRecord, lanes: bytes) -> None:
        n, steps, lanes = record.road.n, record.steps, to_bytes(lanes)
        if lanes and len(lanes) != n * (steps + 1):
            raise Refused(Refusal.LANES_LENGTH, 0, 0, "run_on")
        self.record, self.n, self.lanes = record, n, lanes
        self.state = record.start  # to go on from
        self.ends = [library.Ended()]  # of each part
        self.outflow = make_frozen(steps, n + 1)
        self.longest: list[library.Longest] = []  # of each stretch
        for s in record.stretches if lanes else ():  # lanes are refused before a step is
            own = s.lanes(lanes, n)
            e = library.judge(*lend(s.data), own, len(own), None, 0)
            if e.number != Refusal.SCHEDULE_LENGTH:
                raise Refused(e.number, e.step, e.place, "judge")

    def stretches(self) -> Iterator[tuple[Stretch, bytes, Lent]]:
        """Yield each stretch with its lanes and its outflows.

        A part starts from what the one before left.
        """
        outflow = lend(self.outflow)[0]
        for s in self.record.stretches:
            if s.anew:
                self.state = start_anew(self.state)
                self.ends.append(library.Ended())
            yield s, s.lanes(self.lanes, self.n), s.lend(outflow, self.n)

    def take(self, s: Stretch, e: library.Ended, operation: str) -> None:
        """Store a stretch's end, or raise Refused with the step counted from the study's start."""
        if e.number:
            step = e.step + s.begin if e.number in engine.BROKEN_RULES else e.step
            raise Refused(e.number, step, e.place, operation)
        self.ends[-1], self.state = e, e.state

    def take_longest(self, s: Stretch, a: library.Longest, operation: str) -> None:
        """Store a stretch's end and longest queues."""
        self.take(s, a.ended, operation)
        self.longest.append(a)

    def whole(self) -> tuple[State, int, int, int]:
        """Return the last state, total, present and exits of the study; see `add_up`."""
        ends = self.ends
        last = _last_state(self.record, [e.state for e in ends])
        return last, sum(e.total for e in ends), ends[-1].present, sum(e.exits for e in ends)

    def run(self, record: LongRecord, weighted: int | None = None) -> Run:
        """Return the run of the whole."""
        found = np.frombuffer(b"".join(self.longest), np.uint32).reshape(len(self.longest), -1)
        # a Longest begins with gate, waiting and ramps
        gate, waiting, *ramps = found[:, : 2 + self.n].max(axis=0).tolist()
        longest = LongestQueues(gate, waiting, tuple(ramps))
        return Run(record, self.lanes, self.outflow, *self.whole(), weighted, longest=longest)


def run_long(record: LongRecord, lanes: bytes = b"", weights: tuple[Any, Any] | None = None) -> Run:
    """Run a long record with its own releases.

    Parameters
    ----------
    record : LongRecord
    lanes : bytes, optional
        The table of lanes of all its steps, as `run` takes it.
    weights : tuple of two sequences of int, optional
        Of the gate and each cell, and of each ramp's queue, 0 to 255.

    Returns
    -------
    Run
        Outflows and counts in parts, times in part-steps. With more than 1,440 steps, `state` has
        the cumulative outflows of the last part.

    Raises
    ------
    Refused
        As by running, with the step counted from the study's start.
    """
    w = _Whole(record, lanes)
    given = engine.make_weights(w.n, *weights) if weights else engine.Weights()
    weighted = 0
    for s, own, out in w.stretches():
        a = library.run_on(*lend(s.data), own, len(own), given, w.state, *out)
        w.take_longest(s, a.longest, "run_on")
        weighted += a.weighted
    return w.run(record, weighted if weights else None)


def fill_long(
    record: LongRecord,
    laws: Mapping[int, Law],
    lanes: bytes = b"",
    weights: tuple[Any, Any] | None = None,
) -> Run:
    """Fill the releases by meter laws and run it.

    The meters go on from stretch to stretch, and from part to part.

    Parameters
    ----------
    record : LongRecord
    laws : mapping of int to tuple
        By cell, as `fill` takes them.
    lanes : bytes, optional
        The table of lanes of all its steps, as `run` takes it.
    weights : tuple of two sequences of int, optional
        Of the gate and each cell, and of each ramp's queue, 0 to 255.

    Returns
    -------
    Run
        Its `record` has the releases.

    Raises
    ------
    Refused
        As by filling.
    StudyError
        If a ramp has no law, or a cell with a law no ramp.
    """
    kinds, numbers = engine.encode_laws(laws)
    engine.check_laws(record, laws)
    w, given = _Whole(record, lanes), (kinds.tobytes(), engine.CELLS, *lend(numbers))
    past, stretches, end = library.Progress(), [], 0
    block = make_frozen(sum(s.data.size for s in record.stretches), dtype=np.uint8)
    for s, own, out in w.stretches():
        past.state, data = w.state, block[end : end + s.data.size]
        at, size = lend(data)
        ctypes.memmove(at, lend(s.data)[0], size)
        a = library.fill_on(at, size, *given, own, len(own), past, *out)
        w.take_longest(s, a.longest, "fill_on")
        past.releases, past.entries = a.releases, a.entries
        stretches.append(Stretch(s.begin, s.steps, data))
        end += size
    filled = _FilledRecord.__new__(_FilledRecord)
    filled.__dict__.update(road=record.road, start=record.start, stretches=stretches)
    return run_long(filled, lanes, weights) if weights else w.run(filled)


def judge(record: BaseRecord, schedule: Any, lanes: bytes = b"") -> Run:
    """Judge a schedule of a record, or of a longer study of at most 1,440 steps.

    Parameters
    ----------
    record : Record or LongRecord
    schedule : array_like of int
        Outflows in parts, one row per step, gate first: T x (n + 1) numbers.
    lanes : bytes, optional
        The table of lanes of all steps; default: all open.

    Returns
    -------
    Run
        Of the schedule, with its own states and total.

    Raises
    ------
    Refused
        At the first broken rule, with its step counted from the study's start.
    StudyError
        If the study has more than 1,440 steps.
    """
    if isinstance(record, Record):
        return engine.judge(record, schedule, lanes)
    w, stopped = _follow(record, schedule, lanes)
    if stopped:
        raise stopped
    return Run(record, w.lanes, w.outflow, *w.whole())


def state_before(record: BaseRecord, schedule: Any, lanes: bytes = b"") -> State:
    """Return the state before the first broken rule's step, or after the last step."""
    if isinstance(record, Record):
        return engine.state_before(record, schedule, lanes)
    return _follow(record, schedule, lanes)[0].state


def _follow(record: BaseRecord, schedule: Any, lanes: bytes) -> tuple[_Whole, Refused | None]:
    """Return the results up to the first broken rule, and its refusal, if any."""
    if begins_anew(record) or not isinstance(record, LongRecord):
        raise StudyError(
            "a schedule is judged by its cumulative outflows from step 0 on, and a study of"
            f" {record.steps:,} steps begins them at 0 again every {engine.STEPS:,}; judge studies"
            f" of at most {engine.STEPS:,} steps, each with the one before it as `after`"
        )
    w, zs = _Whole(record, lanes), to_array(schedule)
    if zs.size != w.outflow.size:
        raise Refused(Refusal.SCHEDULE_LENGTH, 0, 0, "judge_on")
    w.outflow = freeze(zs.reshape(w.outflow.shape))
    for s, own, lent in w.stretches():
        e = library.judge_on(*lend(s.data), own, len(own), w.state, *lent)
        if e.number in engine.BROKEN_RULES:
            w.state = e.state
            return w, Refused(e.number, e.step + s.begin, e.place, "judge_on")
        w.take(s, e, "judge_on")
    return w, None
