"""Colours and scales of pictures.

A place has the same colour in every picture, and compared studies share one scale.
"""
from __future__ import annotations

from dataclasses import dataclass
from typing import TYPE_CHECKING, Any

import numpy as np
from matplotlib.colors import FuncNorm, LinearSegmentedColormap

from . import fields
from .engine import Run
from .summary import gate_waiting, per_hour

if TYPE_CHECKING:
    from .study import Study

# Colours that people with colour blindness can tell apart (Okabe and Ito). A place has the same
# colour in every picture.
GATE, ROAD, RAMP, WORKS = "#0072B2", "#999999", "#D55E00", "#5b2a86"
ARRIVING = "#9ccbe6"  # of the gate's colour, lighter
LINES = [
    "#D55E00",
    "#009E73",
    "#CC79A7",
    "#E69F00",
    "#56B4E9",
    "#000000",
    "#8B6914",
]  # of ramps; the gate has its own
# Blues up to the critical density, yellow to nearly black above it: they differ with any colour
# blindness, and get darker throughout, so that they also read in grey.
_FILLING = [
    (0, "#fcfdff"),
    (0.25, "#e3eef7"),
    (0.485, "#c6e0f1"),
    (0.494, "#fdd585"),
    (0.6, "#fcae4f"),
    (0.7, "#ee7033"),
    (0.8, "#c8322b"),
    (0.9, "#7f0f2b"),
    (1, "#27001a"),
]
FILLING = LinearSegmentedColormap.from_list("filling", _FILLING)
SPEED = LinearSegmentedColormap.from_list(
    "speed", ["#4d0723", "#c8322b", "#fcae4f", "#fdd585", "#f5efd6", "#eaf3fa"]
)
MOST_CRITICAL = 10  # times the critical density; the jam density is rarely more than 8 times it


def _stretched(x: Any) -> Any:
    """Return densities up to the critical one unchanged, above it by their logarithm.

    So 5 and 6 times the critical density differ as 2 and 2.4 times do.
    """
    x = np.asarray(x, float)
    return np.where(x <= 1, x, 1 + np.log10(np.maximum(x, 1)))


def _shrunk(y: Any) -> Any:
    y = np.asarray(y, float)
    return np.where(y <= 1, y, 10 ** (np.maximum(y, 1) - 1))


def critical_norm() -> FuncNorm:
    """Return the scale of densities against the critical one, the same for every study."""
    return FuncNorm((_stretched, _shrunk), 0, MOST_CRITICAL)


CRITICAL_TICKS = [0, 0.25, 0.5, 0.75, 1, 1.5, 2, 3, 4, 5, 7, 10]


def round_ticks(top: float, most: int = 12) -> np.ndarray:
    """Return round numbers from 0 up to `top`, at most `most` of them."""
    steps = (m * 10.0**e for e in range(-3, 16) for m in (1, 2, 5))
    step = next(x for x in steps if top / x <= most)
    return np.arange(0, top + step / 2, step)


def round_up(x: float, least: float) -> float:
    """Return the next round number from x on: 1, 1.5, 2, 3, 4, 5, 6 or 8 times a power of ten."""
    if x <= least:
        return least
    power = 10.0 ** np.floor(np.log10(x))
    return float(
        next(m * power for m in (1, 1.5, 2, 3, 4, 5, 6, 8, 10) if x <= m * power * (1 + 1e-9))
    )


@dataclass(frozen=True)
class Curves:
    """Vehicles in the system at the start and after each step: where they are, and who arrived."""

    gate: np.ndarray
    waiting: np.ndarray  # at the gate, without those who arrived in the step
    road: np.ndarray
    ramp: np.ndarray
    came: np.ndarray  # with those present at the start

    @property
    def present(self) -> np.ndarray:
        """Vehicles in the system."""
        return self.gate + self.road + self.ramp

    @property
    def left(self) -> np.ndarray:
        """Vehicles that have left the system."""
        return self.came - self.present


def curves(study: Study, run: Run) -> Curves:
    """Return the curves of a run, in vehicles, all sums of the library's counts."""
    start, rows, n = study.record.start, run.record.rows.astype(np.int64), study.n
    ramp = np.concatenate([[sum(start.queue[:n])], run.queue.astype(np.int64).sum(1)]) / 1000
    gate = np.concatenate([[start.gate_queue], run.held[:, 0].astype(np.int64)]) / 1000
    road = np.concatenate([[sum(start.held[:n])], run.held[:, 1:].astype(np.int64).sum(1)]) / 1000
    stay = np.concatenate([gate[:1], gate_waiting(run) / 1000])
    came = np.concatenate([[0], np.cumsum(rows[:, 0] + rows[:, 1::2].sum(1))]) / 1000
    return Curves(gate, stay, road, ramp, gate[0] + road[0] + ramp[0] + came)


def oblique(study: Study, run: Run, rate: float) -> tuple[np.ndarray, np.ndarray]:
    """Return arrived and left, less what a steady flow would have brought.

    `rate` is in veh/h, or in vehicles per step if a step's seconds are unknown.
    """
    c = curves(study, run)
    steady = rate * np.arange(len(c.came)) * (float(study.seconds) / 3600 if study.seconds else 1)
    return c.came - steady, c.left - steady


@dataclass(frozen=True)
class Scales:
    """Where the axes of pictures end, the same for all studies that are compared."""

    density: float  # veh/km
    speed: float  # km/h
    queue: float  # vehicles
    present: float  # vehicles
    rate: float  # what oblique curves are drawn against: veh/h, or vehicles a step
    low: float  # of oblique curves
    high: float


def scales_of(pairs: list[tuple[Study, Run]]) -> Scales:
    """Return the common scales of the studies that are compared."""
    with_km = [(s, r) for s, r in pairs if s.lengths]
    timed = [(s, r) for s, r in with_km if s.seconds]
    dense = max((float(fields.density(s, r).max()) for s, r in with_km), default=0.0)
    fast = max((float(fields.speed(s, r).max()) for s, r in timed), default=0.0)
    queue = (
        max(
            max(
                float(gate_waiting(r).max()),
                float(r.queue.max()),
                r.record.start.gate_queue,
                *r.record.start.queue,
            )
            for _, r in pairs
        )
        / 1000
    )
    found = [curves(s, r) for s, r in pairs]
    rate = _steady(pairs[0][0], found[0])
    bent = [x for s, r in pairs for x in oblique(s, r, rate)]
    return Scales(
        round_up(dense, 10),
        float(max(10, np.ceil((fast - 1) / 10) * 10)),
        queue,
        max(float(c.present.max()) for c in found),
        rate,
        min(float(x.min()) for x in bent),
        max(float(x.max()) for x in bent),
    )


def _steady(study: Study, c: Curves) -> float:
    """Return a round rate near the mean of what arrives."""
    mean = (
        (c.came[-1] - c.came[0])
        / (len(c.came) - 1)
        / (1000 * per_hour(study.seconds)[0] if study.seconds else 1)
    )
    if mean <= 0:
        return 0.0
    power = 10.0 ** np.floor(np.log10(mean)) / 10
    return float(np.floor(mean / power) * power)
