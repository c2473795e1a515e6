"""Densities, speeds and flows of a run's cells.

No number of the model is computed here. A density is the library's count in a cell divided by the
cell's length. A flow is the library's count in a step divided by the step's time. A speed is an
outflow divided by the count before the step, times length divided by the step's time. All arrays
have the shape (T, n): one row per step, and column i - 1 is cell i.
"""
from __future__ import annotations

from typing import TYPE_CHECKING

import numpy as np

from . import engine
from .engine import Run
from .errors import StudyError
from .summary import speeds

if TYPE_CHECKING:
    from .study import Study

_entering = np.frompyfunc(engine.entering, 3, 1)


def density(study: Study, run: Run) -> np.ndarray:
    """Return the density of each cell after each step, veh/km of all lanes: shape (T, n)."""
    if not study.lengths:
        raise StudyError(
            f"{study.name}: a density in veh/km needs the cells' lengths, which a .toml study has"
        )
    return run.held[:, 1:] / 1000 / np.array(study.lengths)


def speed(study: Study, run: Run) -> np.ndarray:
    """Return the mean speed of each cell in each step, km/h: shape (T, n).

    In an empty cell it is the free speed.
    """
    if not study.lengths or not study.seconds:
        raise StudyError(
            f"{study.name}: a speed needs the cells' lengths and the step's seconds, which a .toml"
            " study has"
        )
    return speeds(study, run)


def inflow(study: Study, run: Run) -> np.ndarray:
    """Return what enters each cell from upstream in each step, veh/h.

    It does not include a ramp's release.
    """
    return entered(run) / 1000 * per_hour(study)


def outflow(study: Study, run: Run) -> np.ndarray:
    """Return what leaves each cell in each step, onward and by its off-ramp, veh/h."""
    return run.outflow[:, 1:] / 1000 * per_hour(study)


def per_hour(study: Study) -> float:
    """Return the number of steps in an hour."""
    if not study.seconds:
        raise StudyError(
            f"{study.name}: a flow in veh/h needs the step's seconds, which a .toml study and a"
            " record of version 2 have"
        )
    return 3600 / float(study.seconds)


def entered(run: Run) -> np.ndarray:
    """Return what enters each cell from upstream in each step, in parts: shape (T, n).

    It is the library's `entering`.
    """
    n, sent = run.record.road.n, run.outflow[:, :-1].astype(np.int64)
    share = np.array([engine.WHOLE, *run.record.road.share[: n - 1]])
    before = np.cumsum(sent, axis=0) - sent
    for k in range(engine.STEPS, len(sent), engine.STEPS):  # where a part begins
        before[k:] -= before[k]
    return _entering(share, before, sent).astype(np.int64)
