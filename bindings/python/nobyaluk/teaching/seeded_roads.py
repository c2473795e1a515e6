"""Roads of a seed, for exercises.

They are the same on every machine and on the browser page (bindings/wasm/exercise.js). The engine's
stated load draws everything, in whole numbers. A road on which nobody is held back, or without an
off-ramp, is skipped: the next numbers of the load draw another.
"""
import numpy as np

from .. import engine, summary
from ..engine import Record, Road, Run, Start

DRAWS = 96  # numbers of 0 to 999 that choose a road; eight cells need 58
TRIES = 100
RELEASE = 300  # parts a step that each meter lets go at most
SEEDS = (1 << 32) - 1


def draw_road(seed: int, cells: int, steps: int) -> Record:
    """Return the road of a seed, with its releases filled.

    Refused (CALLER_LIMITS) if it has more cells or bytes than an exercise.
    """
    for _ in range(TRIES):
        run, seed = _draw(seed, cells, steps)
        if _fits(run):
            break
    return engine.read(engine.record_data(run.record))


def _draw(seed: int, n: int, steps: int) -> tuple[Run, int]:
    """Return one road, and the number from which the load continues."""
    chosen, last = engine.stated_load(seed, 999, DRAWS)
    numbers = iter(chosen.tolist())

    def pick(*values: int) -> int:
        return values[next(numbers) * len(values) // 1000]

    road = Road(n=n, version=1, gate_capacity=pick(2000, 2500, 3000))
    start = Start(gate_queue=pick(1000, 2000, 3000))
    for i in range(n):
        end = i == n - 1
        road.ramp[i] = (
            1 if end and not any(road.ramp[:i]) else pick(0, 0, 1)
        )  # at least one on-ramp
        road.speed[i] = pick(400, 500, 600, 750)
        road.wave[i] = pick(200, 250, 400)
        road.share[i] = 0 if end else pick(750, 800, 900, 1000)
        road.jam[i] = pick(6000, 8000, 10000)
        road.capacity[i] = pick(1000, 1200, 1500) if end else pick(1500, 2000, 2500)
        start.held[i] = pick(1000, 2000, 3000, 4000)
        start.queue[i] = road.ramp[i] * pick(500, 1000, 1500)
    rows = np.zeros((steps, 1 + 2 * n), np.uint32)
    rows[:, 0], last = engine.stated_load(last, 1500, steps)
    arrivals, last = engine.stated_load(last, 500, steps * n)
    rows[:, 1::2] = arrivals.reshape(steps, n) * np.array(road.ramp[:n])
    record = engine.read_within(engine.write(road, start, rows).data)
    return engine.fill(record, {cell: ("fixed", RELEASE) for cell in record.ramps}), last


def _fits(run: Run) -> bool:
    """Return whether a road suits an exercise.

    Somebody is held back, and a road of two cells or more has an off-ramp.
    """
    road = run.record.road
    off = road.n == 1 or any(0 < b < engine.WHOLE for b in road.share[: road.n - 1])
    return off and bool((run.outflow < summary.demands(run)).any())
