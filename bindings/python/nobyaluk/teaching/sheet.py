"""A sheet and its key, as printable HTML pages, and as PDF if weasyprint is installed."""
import html
import logging
from collections.abc import Callable, Iterable, Iterator, Sequence
from dataclasses import dataclass
from typing import Any

import numpy as np

from .. import engine, summary
from ..engine import Run
from ..errors import StudyError
from ..study import Study
from .words import Words

WIDE = 4  # a road of more cells has a page in landscape
COLUMNS = 12  # more answers a step than these are in two tables, outflows and states
MANY = 7  # more columns of arrivals and releases than these are set narrow

CSS = """
@page { size: A4 %s; margin: 14mm 14mm 15mm; @bottom-right { content: counter(page) " / " \
counter(pages); font: 8pt sans-serif; color: #555; } }
body { font: 10pt/1.35 "DejaVu Sans", "Liberation Sans", Arial, sans-serif; color: #111; \
max-width: %s; margin: 0 auto; padding: 0 4mm; }
h1 { font-size: 16pt; margin: 4mm 0 1mm; overflow-wrap: anywhere; } h2 { font-size: 11.5pt; \
margin: 5mm 0 1.5mm; break-after: avoid; }
p { margin: 1.5mm 0; } table.who { width: 100%%; border-bottom: .3mm solid #111; padding-bottom: \
2mm; } .who td { padding: 0 5mm 0 0; border: 0; text-align: left; }
.who .name { width: 48%%; } .line { display: inline-block; width: 62mm; border-bottom: .25mm solid \
#111; }
.question { font-size: 11pt; font-weight: bold; margin: 3mm 0; } .note { color: #444; font-size: \
8.5pt; } ul { margin: 1mm 0; padding-left: 5mm; } li { margin: .8mm 0; }
table { border-collapse: collapse; font-variant-numeric: tabular-nums; margin: 1.5mm 0; } tr { \
break-inside: avoid; } thead { display: table-header-group; }
th, td { border: .2mm solid #888; padding: .6mm 1.6mm; text-align: right; }
th { font-weight: bold; font-size: 8.5pt; text-align: center; vertical-align: bottom; background: \
#eee; }
th.unit { font-weight: normal; font-size: 7.5pt; color: #333; } td.place, th.place { text-align: \
left; white-space: nowrap; } td.none { background: #f4f4f4; }
table.answers { width: 100%%; table-layout: fixed; } table.answers td { height: 6mm; } \
table.answers th { padding: .6mm .5mm; overflow-wrap: anywhere; } th.step { width: 13mm; }
.answers td.edge, .answers th.edge { border-left: .6mm solid #444; } .many td { padding: .6mm \
.8mm; } .many th { padding: .6mm .5mm; font-size: 7pt; }
table.times { width: 100%%; } table.times td { height: 7mm; } table.times td.place { width: 45%%; \
} table.times tr.total td { font-weight: bold; border-top: .5mm solid #111; }
.rule { border-bottom: .2mm solid #888; height: 8mm; } svg { width: 100%%; height: auto; display: \
block; } .together { break-inside: avoid; } .page + .page { break-before: page; }
"""


@dataclass(frozen=True)
class Exercise:
    """The exercise of a sheet: a study whose record has its releases, and the engine's run."""

    study: Study
    run: Run
    id: str  # `seed=..&cells=..&steps=..`, or `record=` and the beginning of its SHA-256
    seed: int | None = None

    @property
    def ramps(self) -> list[int]:
        """The cells with a ramp, counted from 1."""
        return self.study.record.ramps

    @property
    def n(self) -> int:
        """The number of cells."""
        return self.study.n


def _row(cells: Iterable[Any], tag: str = "td", classes: Callable[[int], str] | None = None) -> str:
    out = []
    for j, x in enumerate(cells):
        name = classes(j) if classes else ""
        out.append(
            f"<{tag}{f' class={chr(34)}{name}{chr(34)}' if name else ''}>"
            f"{'' if x is None else html.escape(str(x))}</{tag}>"
        )
    return f"<tr>{''.join(out)}</tr>"


def _ramp_name(e: Exercise, cell: int) -> str:
    """Return a ramp's own name; nothing if its name is its cell's number."""
    name = next((name for name, at in e.study.ramps.items() if at == cell), str(cell))
    return "" if name == str(cell) else summary.make_legible(name, 30)


def _ramp(e: Exercise, cell: int, t: Words) -> str:
    return t("ramp", x=cell)


def _given(e: Exercise, t: Words) -> str:
    """Return the carriageway in numbers, each column with its unit."""
    r, start, n = e.study.record.road, e.study.record.start, e.n
    names = any(_ramp_name(e, cell) for cell in e.ramps)
    heads = ["v", "w", "b", "J", "C"]
    units = [
        "unit.speed",
        "unit.speed",
        "unit.share",
        "unit.count",
        "unit.flow",
        "unit.count",
        "unit.count",
    ]
    heading = "".join(f"<th><i>{x}</i><br>{html.escape(t(x))}</th>" for x in heads) + "".join(
        f"<th>{html.escape(t(x))}</th>" for x in ("held", "queue")
    )
    heading = (
        f"<tr><th class=place rowspan=2>{t('place')}</th>{heading}"
        + (f"<th rowspan=2>{t('on-ramp')}</th>" if names else "")
        + "</tr>"
    )
    heading += _row(
        [t(x).replace("/", "/\u200b") for x in units], "th", lambda j: "unit"
    )  # a line may end after the stroke
    kinds = lambda row: (
        lambda j: (
            "place" if j == 0 else "none" if row[j] is None else "place" if names and j == 8 else ""
        )
    )
    rows = [
        [
            t("gate"),
            None,
            None,
            None,
            None,
            t.number(r.gate_capacity),
            None,
            t.number(start.gate_queue),
        ]
    ]
    for i in range(n):
        numbers = [r.speed[i], r.wave[i], r.share[i], r.jam[i], r.capacity[i], start.held[i]]
        rows.append(
            [
                t("cell", x=_cell_name(e, i)),
                *map(t.number, numbers),
                t.number(start.queue[i]) if r.ramp[i] else None,
            ]
        )
    if names:
        rows = [
            rows[0] + [None],
            *([*row, _ramp_name(e, i + 1) or None] for i, row in enumerate(rows[1:])),
        ]
    return (
        f"<table><thead>{heading}</thead><tbody>"
        f"{''.join(_row(row, classes=kinds(row)) for row in rows)}</tbody></table>"
    )


def _cell_name(e: Exercise, i: int) -> str:
    name = e.study.cell_names[i]
    return str(i + 1) + (f" ({summary.make_legible(name, 20)})" if name != str(i + 1) else "")


def _inflow(e: Exercise, t: Words) -> str:
    """Return arrivals and releases of each step."""
    rows = e.study.record.rows.tolist()
    heading, many = f"<tr><th rowspan=2>{t('step')}</th><th>{t('arrivals')}<br>{t('gate')}</th>", (
        " class=many" if 1 + 2 * len(e.ramps) > MANY else ""
    )
    heading += (
        "".join(
            f"<th>{t(kind)}<br>{_ramp(e, cell, t)}</th>"
            for cell in e.ramps
            for kind in ("arrivals", "release")
        )
        + "</tr>"
    )
    heading += _row([t("unit.count")] * (1 + 2 * len(e.ramps)), "th", lambda j: "unit")
    body = (
        _row(
            [
                k,
                *(
                    t.number(row[j])
                    for j in (0, *(at for cell in e.ramps for at in (2 * cell - 1, 2 * cell)))
                ),
            ]
        )
        for k, row in enumerate(rows)
    )
    return f"<table{many}><thead>{heading}</thead><tbody>{''.join(body)}</tbody></table>"


def _works(e: Exercise, t: Words) -> str:
    """Return the capacity of cells with closed lanes, by spans of steps.

    Nothing if all lanes are open.
    """
    if not e.study.lanes:
        return ""
    lanes, r, rows = (
        np.frombuffer(e.study.lanes, np.uint8).reshape(-1, e.n),
        e.study.record.road,
        [],
    )
    for i in range(e.n):
        open_, k = lanes[1:, i].tolist(), 0
        while k < len(open_):
            end = next((j for j in range(k, len(open_)) if open_[j] != open_[k]), len(open_))
            if open_[k] != lanes[0, i]:
                rows.append(
                    [
                        t("cell", x=i + 1),
                        f"{k} – {end - 1}",
                        t.number(engine.open_capacity(r.capacity[i], int(lanes[0, i]), open_[k])),
                    ]
                )
            k = end
    if not rows:
        return ""
    heading = _row([t("place"), t("works.steps"), f"C ({t('unit.flow')})"], "th")
    return (
        f"<h2>{t('works')}</h2><table><thead>{heading}</thead><tbody>"
        f"{''.join(_row(x, classes=lambda j: 'place' if j == 0 else '') for x in rows)}</tbody>"
        "</table>"
    )


def _answers(e: Exercise, t: Words, filled: bool) -> str:
    """Return outflows and states of each step, empty or filled, in one table or two."""
    n, run = e.n, e.run
    places = [t("gate"), *(t("cell", x=i + 1) for i in range(n))]
    out = [(t("outflow"), places, run.outflow)]
    after = [
        (t("after.queue"), places[:1], run.held[:, :1]),
        (t("after.held"), places[1:], run.held[:, 1:]),
    ]
    if e.ramps:
        after.append(
            (t("after.queue"), [_ramp(e, cell, t) for cell in e.ramps], run.queue[:, e.ramps])
        )
    tables = [[*out, *after]] if 2 * (n + 1) + len(e.ramps) <= COLUMNS else [out, after]
    return "".join(_groups(group, t, run.record.steps, filled) for group in tables)


def _groups(
    groups: Sequence[tuple[str, Sequence[str], np.ndarray]], t: Words, steps: int, filled: bool
) -> str:
    edges = set(np.cumsum([1, *(len(names) for _, names, _ in groups[:-1])]).tolist())
    edge = lambda j: "edge" if j in edges else ""
    titles = "".join(
        f"<th class=edge colspan={len(names)}>{html.escape(t.narrow(title))}</th>"
        for title, names, _ in groups
    )
    top = f"<tr><th class=step rowspan=3>{t('step')}</th>{titles}</tr>"
    head = _row([t.narrow(x) for _, names, _ in groups for x in names], "th", lambda j: edge(j + 1))
    units = "".join(
        f"<th class='unit edge' colspan={len(names)}>{t('unit.count')}</th>"
        for _, names, _ in groups
    )
    rows = []
    for k in range(steps):
        numbers = (
            [t.number(x) for _, _, table in groups for x in table[k].tolist()]
            if filled
            else [""] * sum(len(names) for _, names, _ in groups)
        )
        rows.append(_row([k, *numbers], classes=edge))
    short = " style='break-inside: avoid'" if steps <= 14 else ""
    return (
        "<table"
        f" class=answers{short}><thead>{top}{head}<tr>{units}</tr></thead><tbody>{''.join(rows)}"
        "</tbody></table>"
    )


def _times(e: Exercise, t: Words, filled: bool) -> str:
    run, unit = e.run, t("unit.time")
    values = [run.gate, run.road, run.ramp, run.total]
    shown = [t.number(x) if filled else "" for x in values]
    if filled and e.study.seconds:
        shown[3] += f" = {t('hours', x=t.decimal(summary.hours(run, e.study.seconds).total, 4))}"
    rows = [
        (f"{t('times')} {t('time.gate')}", shown[0]),
        (f"{t('times')} {t('time.road')}", shown[1]),
        (f"{t('times')} {t('time.ramp')}", shown[2]),
    ]
    body = "".join(
        _row([f"{name} ({unit})", value], classes=lambda j: "place" if j == 0 else "")
        for name, value in rows
    )
    total = t("total")
    body += (
        "<tr class=total><td"
        f" class=place>{html.escape(total[:1].upper() + total[1:])} ({unit})</td><td>"
        f"{html.escape(shown[3])}</td></tr>"
    )
    return f"<table class=times><tbody>{body}</tbody></table>"


def _states(e: Exercise) -> Iterator[engine.State]:
    """Return the state after each step, by the engine's own step."""
    record, n = e.study.record, e.n
    state, lanes = record.start, np.frombuffer(e.study.lanes, np.uint8).reshape(-1, n).tolist()
    for k, row in enumerate(record.rows):
        state = engine.step(
            record.road, state, row, engine.make_lanes(lanes[0], lanes[k + 1]) if lanes else None
        )
        yield state


def _present(e: Exercise, t: Words) -> str:
    """Return who is present after each step, and the total so far, as in docs/BY-HAND.md.

    Every number is the engine's.
    """
    road, rows, last = e.study.record.road, [], None
    heading = _row(
        [t("step"), t("gate"), t("time.road"), t("time.ramp"), t("all"), t("running")], "th"
    )
    for k, last in enumerate(_states(e)):
        counts = (
            last.gate_queue,
            engine.on_road(road, last),
            engine.at_ramps(road, last),
            engine.present(road, last),
            engine.total(last),
        )
        rows.append([k, *map(t.number, counts)])
    rows.append(
        [
            t("sum"),
            *map(t.number, (last.gate_time, last.road_time, last.ramp_time, engine.total(last))),
            None,
        ]
    )
    return (
        f"<h2>{t('present')}</h2><table><thead>{heading}</thead><tbody>{''.join(map(_row, rows))}"
        "</tbody></table>"
    )


def _wrong(totals: Sequence[tuple[str, int]], t: Words) -> str:
    """Return totals that come from a mistake, each with its mistake."""
    rows = "".join(
        _row([t(f"wrong.{key}"), t.number(total)], classes=lambda j: "place" if j == 0 else "")
        for key, total in totals
    )
    return (
        f"<div class=together><h2>{t('wrong')}</h2><table><tbody>{rows}</tbody></table></div>"
        if rows
        else ""
    )


def _head(e: Exercise, t: Words, title: str, student: str) -> str:
    shape = {"cells": t.many(e.n, "cells"), "steps": t.many(e.study.record.steps, "steps")}
    what = t("seed", seed=e.seed, **shape) if e.seed is not None else t("shape", **shape)
    seconds = f" {t('seconds', x=f'{float(e.study.seconds):g}')}" if e.study.seconds else ""
    name = f"<b>{html.escape(student)}</b>" if student else "<span class=line>&nbsp;</span>"
    who = (
        "<table class=who><tr><td"
        f" class=name>{t('name')}{t.colon} {name}</td><td>{html.escape(what)}"
        f".{html.escape(seconds)}</td></tr></table>"
    )
    return f"<h1>{html.escape(title)}</h1>{who}<p class=question>{html.escape(t('question'))}</p>"


def sheet_html(e: Exercise, t: Words, title: str = "", student: str = "") -> str:
    """Return the sheet that a student fills in; nothing on it answers the question."""
    rules = "".join(
        f"<li>{html.escape(t(f'rule.{x}'))}</li>" for x in ("demand", "supply", "outflow", "next")
    )
    body = [
        _head(e, t, title or e.study.title, student),
        road_drawing(e, t),
        f"<h2>{t('road')}</h2>",
        _given(e, t),
        _works(e, t),
        f"<h2>{t('inflow')}</h2>",
        _inflow(e, t),
        (
            f"<p class=note>{html.escape(t('units'))}</p><div"
            f" class=together><h2>{t('rules')}</h2><ul>{rules}</ul></div><h2>{t('answers')}</h2>"
        ),
        _answers(e, t, False),
        (
            "<div"
            f" class=together><h2>{t('times')}</h2>{_times(e, t, False)}<h2>"
            f"{html.escape(t('whose'))}</h2>{'<div class=rule></div>' * 3}</div>"
        ),
        f"<p class=note>{t('id')} {html.escape(e.id)}</p>",
    ]
    return f"<div class=page>{''.join(body)}</div>"


def key_html(
    e: Exercise,
    t: Words,
    wrong: Sequence[tuple[str, int]],
    title: str = "",
    students: Sequence[str] = (),
) -> str:
    """Return the key of a sheet.

    It has every field filled, who is present after each step, and wrong totals with their mistakes.
    """
    names = f"<p class=note>{html.escape(', '.join(students))}</p>" if students else ""
    head = _head(e, t, f"{t('key')}{t.colon} {title or e.study.title}", "")
    body = [
        head.partition("<table class=who>")[0] + f"<p>{html.escape(_what(e, t))}</p>{names}",
        road_drawing(e, t),
        _given(e, t),
        f"<h2>{t('answers.key')}</h2>",
        _answers(e, t, True),
        (
            "<div"
            f" class=together><h2>{t('times')}</h2>{_times(e, t, True)}<h2>"
            f"{html.escape(t('whose'))}</h2><p>{html.escape(t('whose.key'))}</p></div>"
        ),
        _present(e, t),
        _wrong(wrong, t),
        f"<p class=note>{t('id')} {html.escape(e.id)}. {html.escape(t('made'))}</p>",
    ]
    return f"<div class=page>{''.join(body)}</div>"


def _what(e: Exercise, t: Words) -> str:
    shape = {"cells": t.many(e.n, "cells"), "steps": t.many(e.study.record.steps, "steps")}
    return t("seed", seed=e.seed, **shape) if e.seed is not None else t("shape", **shape)


def page_html(bodies: Sequence[str], t: Words, title: str, cells: int) -> str:
    """Return one HTML page of sheets or keys; in print each begins a new page."""
    wide = cells > WIDE
    style = CSS % ("landscape" if wide else "portrait", "270mm" if wide else "185mm")
    head = (
        "<meta charset=utf-8><meta name=viewport"
        f" content='width=device-width'><title>{html.escape(title)}</title><style>{style}</style>"
    )
    return (
        "<!doctype html><html"
        f" lang={t.language}><head>{head}</head><body>{''.join(bodies)}</body></html>\n"
    )


def road_drawing(e: Exercise, t: Words) -> str:
    """Return a picture of the road.

    It has the gate and the cells from left to right, on-ramps with meters below, off-ramps above.
    """
    n, r = e.n, e.study.record.road
    left, width = 92, 560
    cell, top, high = width / n, 58, 34
    text = (
        lambda x, y, words, size=11, anchor="middle", more="": (
            f'<text x="{x:.1f}" y="{y:.1f}" font-size="{size}" text-anchor="{anchor}"'
            f" {more}>{html.escape(words)}</text>"
        )
    )
    arrow = (
        lambda x, y, dx, dy: (
            f'<path d="M{x:.1f} {y:.1f} l{dx:.1f} {dy:.1f}" stroke="#111" stroke-width="1.6"'
            ' fill="none"/>'
        )
        + _tip(x + dx, y + dy, dx, dy)
    )
    out = [
        (
            f'<rect x="{left}" y="{top}" width="{width}" height="{high}" fill="#e3e3e3"'
            ' stroke="#111"/>'
        ),
        (
            f'<rect x="{left - 78}" y="{top}" width="58" height="{high}" fill="#fff" stroke="#111"'
            ' stroke-dasharray="4 3"/>'
        ),
        text(left - 49, top + high / 2 + 4, t("gate")),
        arrow(left - 20, top + high / 2, 17, 0),
        arrow(left + width + 2, top + high / 2, 22, 0),
    ]
    for i in range(n):
        x = left + i * cell
        if i:
            out.append(f'<path d="M{x:.1f} {top} v{high}" stroke="#111" stroke-dasharray="5 3"/>')
        km = e.study.lengths[i] if e.study.lengths else None
        out.append(
            text(
                x + cell / 2,
                top + high / 2 + (4 if km is None else -1),
                t("cell", x=i + 1) if cell > 62 else str(i + 1),
                11 if cell > 62 else 12,
            )
        )
        if km is not None:
            out.append(
                text(
                    x + cell / 2,
                    top + high / 2 + 12,
                    f"{km:g} km".replace(".", "." if t.language == "en" else ","),
                    9,
                )
            )
        if i < n - 1 and r.share[i] < engine.WHOLE:
            end = x + cell
            share = (
                t.decimal((engine.WHOLE - r.share[i]) / 10, 1).replace(",0", "").replace(".0", "")
            )
            out.append(
                arrow(end - 20, top, 16, -24)
                + text(
                    end - 4,
                    top - 30,
                    f"{t('off-ramp')} {share} %" if cell > 62 else f"{share} %",
                    9,
                )
            )
        if r.ramp[i]:
            foot = top + high
            out.append(
                arrow(x + 6, foot + 30, 12, -28)
                + f'<circle cx="{x + 22:.1f}" cy="{foot + 20:.1f}" r="4" fill="#fff" stroke="#111"'
                ' stroke-width="1.4"/>'
            )
            name = _ramp_name(e, i + 1)
            label = f"{t('ramp', x=i + 1)}" + (
                f" {summary.make_legible(name, max(8, int(cell / 6)))}" if name else ""
            )
            out.append(
                text(
                    x + 4, foot + 43, label if cell > 62 or name else t("ramp", x=i + 1), 9, "start"
                )
            )
    label = f"{t('road')}{t.colon} {t('drawing')}"
    return (
        f'<svg viewBox="0 0 690 145" role="img" aria-label="{html.escape(label, True)}"'
        f' font-family="DejaVu Sans, Arial, sans-serif" fill="#111">{"".join(out)}</svg>'
    )


def _tip(x: float, y: float, dx: float, dy: float) -> str:
    """Return the tip of an arrow in this direction."""
    size = (dx * dx + dy * dy) ** 0.5
    ux, uy = 6 * dx / size, 6 * dy / size
    points = [
        (x + ux * 0.6, y + uy * 0.6),
        (x - ux + uy * 0.55, y - uy - ux * 0.55),
        (x - ux - uy * 0.55, y - uy + ux * 0.55),
    ]
    return f'<polygon points="{" ".join(f"{a:.1f},{b:.1f}" for a, b in points)}" fill="#111"/>'


MISSING = (
    "no PDF was written: weasyprint is missing; on Debian: apt-get install weasyprint; or print the"
    " HTML pages from a browser"
)


def pdf_maker() -> Callable[[str], bytes] | None:
    """Return a function that makes a PDF of a page, without reading any other file.

    None if weasyprint is not installed.
    """
    try:
        import weasyprint
    except (ImportError, OSError):  # OSError: one of its libraries is missing
        return None
    logging.getLogger("weasyprint").setLevel(logging.ERROR)

    def nothing(url: str, *_: Any, **__: Any) -> dict:
        raise StudyError(f"{url}: a sheet names no other file")

    return lambda page_html: weasyprint.HTML(string=page_html, url_fetcher=nothing).write_pdf()
