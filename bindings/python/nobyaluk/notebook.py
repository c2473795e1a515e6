"""Studies and runs as a notebook shows them: a few lines of HTML, the totals, a small picture."""
from __future__ import annotations

import base64
import html
from collections.abc import Iterable
from typing import TYPE_CHECKING

import numpy as np

from . import engine
from .errors import StudyError
from .summary import arriving, describe_size, hours, make_legible, per_hour

if TYPE_CHECKING:
    from .study import Study, StudyRun

_CELL = "style='text-align:right'"


def _head(study: Study, run: StudyRun | None = None) -> str:
    size = describe_size(study, (run or study).record.steps).replace(": add --seconds N", "")
    return f"<b>{html.escape(make_legible(study.title))}</b><br>{html.escape(size)}"


def _table(rows: Iterable[tuple[str, str]]) -> str:
    return (
        "<table>"
        + "".join(
            f"<tr><td style='text-align:left'>{html.escape(a)}</td><td"
            f" {_CELL}>{html.escape(b)}</td></tr>"
            for a, b in rows
        )
        + "</table>"
    )


def run_html(run: StudyRun) -> str:
    """Return the totals of a run and a picture of where its road fills.

    There is no picture if matplotlib is missing or the road can't be drawn.
    """
    study, w = run.study, hours(run, run.study.seconds)
    rows = [
        (f"total time spent ({w.unit})", f"{w.total:,.2f}"),
        ("at the gate", f"{w.gate:,.2f}"),
        ("of it arriving", f"{arriving(run) * per_hour(study.seconds)[0]:,.2f}"),
        ("on the road", f"{w.road:,.2f}"),
        ("at the ramps", f"{w.ramp:,.2f}"),
    ]
    return f"<div>{_head(study, run)}{_table(rows)}{_picture(study, run)}</div>"


def _picture(study: Study, run: StudyRun) -> str:
    try:
        from . import figures

        png = figures.draw(figures.thumbnail, study, run)._repr_png_()
    except (ImportError, StudyError):
        return ""
    return (
        "<img width=506 alt='density over place and time'"
        f" src='data:image/png;base64,{base64.b64encode(png).decode()}'>"
    )


def study_html(study: Study) -> str:
    """Return a study's road, arrivals and meters; it is not run."""
    rows = study.record.rows.astype(np.int64)
    lines = [("length", f"{sum(study.lengths):,.3f} km")] if study.lengths else []
    lines.append(("arrivals at the gate", f"{rows[:, 0].sum() / 1000:,.1f} vehicles"))
    for name, cell in list(study.ramps.items())[:12]:
        law = study.laws.get(cell)
        meter = (
            "open"
            if law == ("fixed", float(engine.RATE))
            else (
                law[0] if law else "at most a plan" if study.plan is not None else "stated releases"
            )
        )
        lines.append(
            (
                f"on-ramp {make_legible(name, 40)} (cell {cell})",
                f"{rows[:, 2 * cell - 1].sum() / 1000:,.1f} vehicles, {meter}",
            )
        )
    if len(study.ramps) > 12:
        lines.append((f"and {len(study.ramps) - 12} on-ramps", ""))
    return f"<div>{_head(study)}{_table(lines)}</div>"
