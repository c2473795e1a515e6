"""Roads that are stepped row by row, by the proved `step`.

Some runs are no single operation of the engine: ramps with a plan of greatest releases, laws next
to exact releases, and roads that share a street. The most that a ramp may release in a step is what
filling grants it in a record of that step alone. A law's release is `release(wish(..), cap)`.
Total, present and exits are the engine's, of the last state, and what entered a cell is `entering`
of the place before it. Python computes an outflow as the growth of the cumulative one, and the
weighted total as the sum of `weighted` after each step. After 1,440 steps the cumulative outflows
begin at 0 again, as in `long_record`.
"""
from collections.abc import Mapping
from typing import Any

import numpy as np

from . import engine, library
from .arrays import lend, to_array, to_bytes
from .engine import BaseRecord, Law, Refused, Run, Start, State
from .long_record import LongRecord, add_up, start_anew
from .refusals import Refusal

_STATE = np.dtype(
    [
        ("done", "<u8"),
        ("gate_time", "<u8"),
        ("road_time", "<u8"),
        ("ramp_time", "<u8"),
        ("gate_queue", "<u4"),
        ("gate_cumulative", "<u4"),
        ("held", "<u4", 64),
        ("queue", "<u4", 64),
        ("cumulative", "<u4", 64),
    ]
)
_BEGIN = [
    8,
    *range(10, 10 + 2 * engine.CELLS),
]  # the places of a start's numbers in a state: the gate's queue, held counts and queues


class Stepper:
    """A road that is stepped row by row; it keeps its states."""

    def __init__(self, record: BaseRecord, lanes: bytes = b"") -> None:
        n, lanes = record.road.n, to_bytes(lanes)
        if lanes and len(lanes) != n * (record.steps + 1):
            raise Refused(Refusal.LANES_LENGTH, 0, 0, "run")
        self.record, self.road, self.lanes, self.state, self.rows = (
            record,
            record.road,
            lanes,
            record.start,
            to_array(record.rows).copy(),
        )
        if self.rows.shape != (record.steps, 1 + 2 * n):
            raise ValueError(
                f"the rows are {self.rows.shape}; {record.steps} steps have {1 + 2 * n} numbers"
                " each"
            )
        self.table = [lanes[at : at + n] for at in range(0, len(lanes), n)]
        self.open = engine.make_lanes([1] * n, [1] * n)
        self.states: list[bytes] = []
        self._one = np.empty(engine.BYTES, np.uint8)
        self._row, self._out = np.empty(1 + 2 * n, np.uint32), np.empty(n + 1, np.uint32)
        self._lent = lend(self._row), lend(self._one), lend(self._out)
        self.fixed = bytes(engine.CELLS)  # the kind of every law

    @property
    def done(self) -> int:
        """The number of steps done."""
        return len(self.states)

    def step(self) -> None:
        """Make the next step; after 1,440 steps a new part begins."""
        k = self.done
        lanes = (
            engine.Lanes.from_buffer_copy(
                self.table[0].ljust(64, b"\0") + self.table[k + 1].ljust(64, b"\0")
            )
            if self.table
            else self.open
        )
        a = library.step(self.road, self.before, *lend(self.rows[k]), lanes)
        if a.number:
            raise Refused(a.number, k, a.place, "run")
        self.state = a.state
        self.states.append(bytes(a.state))

    @property
    def before(self) -> State:
        """The state before the next step; at a part's start no step is done and nothing sent."""
        new = self.states and self.done % engine.STEPS == 0
        return start_anew(self.state) if new else self.state

    def releases(self, laws: Mapping[int, Law]) -> np.ndarray:
        """Return what these laws of fixed rates release in the next step.

        It is filling's answer for a record of that step alone.
        """
        kinds, numbers = engine.encode_laws(laws)
        return self.granted(kinds.tobytes(), numbers)

    def granted(self, kinds: bytes, numbers: np.ndarray) -> np.ndarray:
        """Return the same releases for laws in the boundary's form."""
        k, n = self.done, self.road.n
        start = Start.from_buffer_copy(
            np.minimum(np.frombuffer(bytes(self.state), np.uint32)[_BEGIN], engine.START).tobytes()
        )
        self._row[:] = self.rows[k]
        self._row[2::2] = 0
        row, one, out = self._lent
        written = engine.raise_if_refused(
            library.write(self.road, 1, start, *row, *one), "write", step=k
        )
        lanes = self.table[0] + self.table[k + 1] if self.table else b""
        e = library.fill(
            one[0], written.count, kinds, engine.CELLS, *lend(numbers), lanes, len(lanes), *out
        )
        engine.raise_if_refused(e, "fill", step=k)
        library.rows(self._one[: written.count].tobytes(), written.count, n, 1, *row)
        return self._row[2::2]

    def run(self, weights: tuple[Any, Any] | None = None) -> Run:
        """Return the run of the steps done, with the numbers of its states."""
        record, road, n = self.record, self.road, self.road.n
        s = np.frombuffer(b"".join(self.states), _STATE)
        cumulative = np.column_stack([s["gate_cumulative"], s["cumulative"][:, :n]])
        outflow = np.diff(cumulative, axis=0, prepend=np.zeros((1, n + 1), np.uint32))
        outflow[:: engine.STEPS] = cumulative[:: engine.STEPS]
        held = np.column_stack([s["gate_queue"], s["held"][:, :n]])
        queue = np.column_stack([np.zeros(len(s), np.uint32), s["queue"][:, :n]])
        ends = [*self.states[engine.STEPS - 1 : -1 : engine.STEPS], self.states[-1]]
        weighted = (
            sum(engine.weighted(road, State.from_buffer_copy(x), *weights) for x in self.states)
            if weights
            else None
        )
        filled = LongRecord(road, record.start, self.rows)
        whole = add_up(record, [State.from_buffer_copy(x) for x in ends])
        return Run(filled, self.lanes, outflow, *whole, weighted, (held, queue))


class MeteredStepper:
    """A stepped road whose ramps release by meter laws, capped as in filling.

    A ramp without a law releases at most what the plan has for it, with the same cap. Without a
    plan it releases exactly what the row has.
    """

    def __init__(
        self,
        record: BaseRecord,
        lanes: bytes,
        laws: Mapping[int, Law],
        plan: np.ndarray | None = None,
    ) -> None:
        self.walk, self.laws = Stepper(record, lanes), laws
        size = record.steps, record.road.n
        self.plan = np.zeros(size, np.uint32) if plan is None else to_array(plan)
        if self.plan.shape != size:
            raise ValueError(
                f"the plan is {self.plan.shape}; {size[0]} steps have {size[1]} numbers each"
            )
        self.ramps = [i for i in range(record.road.n) if record.road.ramp[i]]
        self.by_law = [i for i in self.ramps if i + 1 in laws]
        self.by_plan = [i for i in self.ramps if i + 1 not in laws] if plan is not None else []
        self.last = dict.fromkeys(self.ramps, 0)
        self.entered = dict.fromkeys(self.ramps, 0)
        kinds, numbers = engine.encode_laws(laws)
        self._own = {i: (int(kinds[i]), *numbers[i].tolist()) for i in self.by_law}
        self._rates = np.zeros(
            (engine.CELLS, 3)
        )  # open at a ramp with a law, otherwise the plan's if there is one
        self._rates[self.by_law, 0] = engine.RATE
        if record.steps:
            self.walk.granted(
                kinds.tobytes(), numbers
            )  # what is wrong with a law is refused before the first step

    def wishes(self) -> dict[int, int]:
        """Return what each ramp would release in the next step."""
        walk, k = self.walk, self.walk.done
        if self.by_plan:
            self._rates[self.by_plan, 0] = self.plan[k, self.by_plan]
        row, held = walk.granted(walk.fixed, self._rates).tolist(), walk.state.held
        out = {i: int(walk.rows[k, 2 * i + 2]) for i in self.ramps} | {
            i: row[i] for i in self.by_plan
        }
        for i in self.by_law:
            wish = library.wish(*self._own[i], self.last[i], self.entered[i], held[i])
            out[i] = library.release(wish, row[i])
        return out

    def step(self, releases: Mapping[int, int]) -> None:
        """Make the next step with these releases."""
        walk, before, k = self.walk, self.walk.before, self.walk.done
        for i, x in releases.items():
            walk.rows[k, 2 * i + 2] = x
        walk.step()
        after = walk.state
        for i in self.ramps:
            self.last[i], self.entered[i] = releases[i], library.entering(
                *self.sent(i, before, after)
            )

    def sent(self, i: int, before: State, after: State) -> tuple[int, int, int]:
        """Return share, cumulative outflow and outflow of the place before the cell at i.

        The cumulative outflow is the one before the step. Outflows are in parts, the share in
        thousandths.
        """
        if i == 0:
            return (
                engine.WHOLE,
                before.gate_cumulative,
                after.gate_cumulative - before.gate_cumulative,
            )
        return (
            self.walk.road.share[i - 1],
            before.cumulative[i - 1],
            after.cumulative[i - 1] - before.cumulative[i - 1],
        )


def run_metered(
    record: BaseRecord,
    laws: Mapping[int, Law],
    plan: np.ndarray | None = None,
    lanes: bytes = b"",
    weights: tuple[Any, Any] | None = None,
) -> Run:
    """Run a road whose ramps release by their laws.

    Ramps without a law release what plan, queue, arrivals and supply allow, or exactly their rows.
    """
    engine.encode_laws(laws)
    engine.check_laws(
        record, {**dict.fromkeys(record.ramps, ()), **laws}
    )  # a ramp without a law has the plan or its rows
    m = MeteredStepper(record, lanes, laws, plan)
    for _ in range(record.steps):
        m.step(m.wishes())
    return m.walk.run(weights)
