"""Two neighbouring roads as one study."""
from __future__ import annotations

from dataclasses import replace
from typing import TYPE_CHECKING

import numpy as np

from . import engine
from .clock import format_clock
from .errors import StudyError
from .study_writer import ramps_by_rows, study_bytes

if TYPE_CHECKING:
    from .study import Study


def join_studies(up: Study, down: Study, share: int) -> Study:
    """Return two neighbouring roads as one study.

    The engine joins their records; names, lengths, works, laws and weights come from the studies.
    A road whose ramps follow laws or a plan is joined with the releases of its own run. The joined
    study has the laws, and its run computes their releases again.
    """
    return describe_joined(
        up, down, engine.join(engine.read(study_bytes(up)), engine.read(study_bytes(down)), share)
    )


def describe_joined(up: Study, down: Study, both: engine.Record) -> Study:
    """Return the study of two joined roads: names, lengths, works, laws and weights."""
    if up.start is not None and down.start is not None and up.start != down.start:
        raise StudyError(
            f"{up.name} starts at {format_clock(up.start)} and {down.name} at"
            f" {format_clock(down.start)}; the steps of two roads are joined one by one"
        )
    n, steps, pair = up.n, both.steps, (up, down)
    own = [(x, cell, cell) for x, cell in up.ramps.items()] + [
        (x if x != str(cell) else str(n + cell), cell, n + cell) for x, cell in down.ramps.items()
    ]
    names = [x for x, _, _ in own]
    ramps = {x if names.count(x) == 1 else f"{x} (cell {there})": there for x, _, there in own}
    cells = [
        *up.cell_names,
        *(x if x != str(i) else str(n + i) for i, x in enumerate(down.cell_names, 1)),
    ]
    lanes = b""
    if up.lanes or down.lanes:
        tables = [
            np.frombuffer(
                x.lanes or bytes((1 << k) - 1 for k in x.built or [1] * x.n) * (steps + 1), np.uint8
            ).reshape(-1, x.n)
            for x in pair
        ]
        lanes = np.hstack(tables).tobytes()
    laws = {**up.laws, **{n + cell: law for cell, law in down.laws.items()}}
    weights = None
    if up.weights or down.weights:
        a, b = (x.weights or ([1] * (x.n + 1), [1] * x.n) for x in pair)
        weights = [*a[0], *b[0][1:]], [*a[1], *b[1]]
    plans = [
        (
            x.plan
            if x.plan is not None
            else None if ramps_by_rows(x) else np.zeros((steps, x.n), np.uint32)
        )
        for x in pair
    ]
    kept = any(x.plan is not None for x in pair) and all(x is not None for x in plans)
    notes = [f"{x.name}: {note}" for x in pair for note in x.notes]
    notes += [
        f"{x.name} has no lengths, so nothing is shown in km"
        for x in pair
        if not x.lengths and (up.lengths or down.lengths)
    ]
    notes += [
        f"the plan of {x.name} is not kept, since another ramp has exact releases; this one has the"
        " releases of its own run"
        for x in pair
        if x.plan is not None and not kept
    ]
    rounding = [*up.rounding, *(replace(x, cell=n + x.cell) for x in down.rounding if x.cell)]
    return replace(
        up,
        title=f"{up.title} and {down.title}",
        record=both,
        seconds=up.seconds or down.seconds,
        start=up.start if up.start is not None else down.start,
        lengths=[*up.lengths, *down.lengths] if up.lengths and down.lengths else None,
        cell_names=cells,
        ramps=ramps,
        lanes=lanes,
        laws=laws,
        plan=np.hstack([x for x in plans if x is not None]) if kept else None,
        weights=weights,
        rounding=rounding,
        notes=notes,
        built=[*(up.built or [1] * n), *(down.built or [1] * down.n)],
        filled=[*up.filled, *down.filled],
    )


def with_known_lengths(whole: Study, up: Study, down: Study) -> Study:
    """Return a joined study with the lengths of one road if the other has none.

    A file then keeps them.
    """
    known: list[float | None] = [None] * (up.n + down.n)
    known[: up.n], known[up.n :] = up.lengths or known[: up.n], down.lengths or known[up.n :]
    return replace(whole, lengths=known) if any(x is not None for x in known) else whole
