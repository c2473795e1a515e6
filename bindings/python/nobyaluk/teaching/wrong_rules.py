"""Wrong programs, run to recognise their answers; docs/BY-HAND.md describes them.

Nothing here is a number of the model. Each program goes step by step in whole numbers, as a student
does on paper. It takes the rules of one place that it gets right from the engine.
"""
from collections.abc import Iterator
from dataclasses import dataclass

import numpy as np

from .. import engine
from ..engine import BaseRecord


@dataclass(frozen=True)
class WrongRun:
    """The answer of a wrong program.

    It has outflows, and the time spent at the gate, in the cells and at the ramps, in part-steps.
    """

    outflow: np.ndarray
    gate: int
    road: int
    ramp: int
    present: int  # after the last step, in parts

    @property
    def total(self) -> int:
        """The total time spent, in part-steps."""
        return self.gate + self.road + self.ramp


class _Paper:
    """The counts that a student keeps on paper.

    They are gate queue and held counts in one list, ramp queues, and cumulative outflows.
    """

    def __init__(self, record: BaseRecord, lanes: bytes) -> None:
        self.road, self.rows, n = record.road, record.rows.tolist(), record.road.n
        self.held = [record.start.gate_queue, *record.start.held[:n]]
        self.queue = list(record.start.queue[:n])
        self.sent = [0] * (n + 1)
        self.share = [engine.WHOLE, *self.road.share[:n]]
        self.lanes = np.frombuffer(lanes, np.uint8).reshape(-1, n).tolist() if lanes else None

    def capacity(self, step: int, cell: int) -> int:
        c = self.road.capacity[cell - 1]
        return (
            engine.open_capacity(c, self.lanes[0][cell - 1], self.lanes[step + 1][cell - 1])
            if self.lanes
            else c
        )

    def demand(self, step: int, place: int) -> int:
        if place == 0:
            return engine.gate_demand(self.road.gate_capacity, self.held[0])
        return engine.demand(
            self.road.speed[place - 1], self.capacity(step, place), self.held[place]
        )

    def room(self, step: int, cell: int) -> int:
        """Return what the release leaves of a cell's supply.

        It is 0 if a wrong rule has overfilled the cell.
        """
        i = cell - 1
        if self.held[cell] > self.road.jam[i]:
            return 0
        supply = engine.supply(
            self.road.wave[i], self.capacity(step, cell), self.road.jam[i], self.held[cell]
        )
        return engine.room(supply, self.rows[step][2 * cell])

    def arrive(self, step: int) -> None:
        """End a step: arrivals join the queues, and releases enter their cells."""
        row = self.rows[step]
        self.held[0] += row[0]
        for cell in range(1, self.road.n + 1):
            self.queue[cell - 1] += row[2 * cell - 1] - row[2 * cell]
            self.held[cell] += row[2 * cell]


def _summed(paper: _Paper, steps: Iterator[list[int]]) -> WrongRun:
    """Return the run of all steps of a wrong program, with the time spent at each place."""
    outflow, gate, road, ramp = [], 0, 0, 0
    for step, sent in enumerate(steps):
        paper.arrive(step)
        outflow.append(sent)
        gate, road, ramp = gate + paper.held[0], road + sum(paper.held[1:]), ramp + sum(paper.queue)
    return WrongRun(np.array(outflow), gate, road, ramp, sum(paper.held) + sum(paper.queue))


def round_shares_alone(record: BaseRecord, lanes: bytes = b"") -> WrongRun:
    """Return the run in which each step's share is rounded down by itself.

    The right rule is the growth of the onward total.
    """
    paper = _Paper(record, lanes)

    def steps() -> Iterator[list[int]]:
        n = record.road.n
        for step in range(record.steps):
            demands = [paper.demand(step, p) for p in range(n + 1)]
            rooms = [paper.room(step, p + 1) for p in range(n)]
            sent = [
                engine.outflow(paper.share[p], 0, rooms[p], demands[p]) for p in range(n)
            ] + demands[n:]
            for p in range(n + 1):
                paper.held[p] -= sent[p]
                if p < n:
                    paper.held[p + 1] += engine.onward(paper.share[p], sent[p])
            yield sent

    return _summed(paper, steps())


def move_one_after_another(
    record: BaseRecord, lanes: bytes = b"", last_first: bool = True
) -> WrongRun:
    """Return the run whose places move one after another, from the last cell or from the gate.

    Each place moves in the state that the one before it left.
    """
    paper = _Paper(record, lanes)

    def steps() -> Iterator[list[int]]:
        n = record.road.n
        for step in range(record.steps):
            sent = [0] * (n + 1)
            for p in range(n, -1, -1) if last_first else range(n + 1):
                demand = paper.demand(step, p)
                sent[p] = (
                    engine.outflow(paper.share[p], paper.sent[p], paper.room(step, p + 1), demand)
                    if p < n
                    else demand
                )
                paper.held[p] -= sent[p]
                if p < n:
                    paper.held[p + 1] += engine.entering(paper.share[p], paper.sent[p], sent[p])
                paper.sent[p] += sent[p]
            yield sent

    return _summed(paper, steps())
