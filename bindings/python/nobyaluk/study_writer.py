"""Studies written as TOML files, and as records with a study next to them.

A study next to a record, with the key `record`, has everything that the record does not hold.
Studies are written in the engine's own numbers.
"""
from __future__ import annotations

from collections.abc import Iterable, Mapping
from dataclasses import replace
from pathlib import Path
from typing import TYPE_CHECKING

import numpy as np

from . import descriptions, engine
from .clock import format_clock
from .engine import BaseRecord, Run
from .errors import StudyError
from .formatting import columns_key, format_csv, quote_toml
from .input_files import is_same_file
from .long_record import most_steps
from .output_files import write_file
from .summary import make_legible

if TYPE_CHECKING:
    from .study import Study


def run_bytes(run: Run, s: Study) -> bytes:
    """Return the bytes of a run's record."""
    return record_bytes(run.record, s)


def record_bytes(record: BaseRecord, s: Study) -> bytes:
    """Return the bytes of a study's record; StudyError if no record holds it."""
    if not isinstance(record, engine.Record):
        fits = most_steps(record.road)
        raise StudyError(
            f"{s.name}: a record has at most {engine.BYTES:,} bytes, and {s.n} cells leave room for"
            f" {fits} steps; this study has {record.steps}"
        )
    return record.data


def study_bytes(s: Study) -> bytes:
    """Return the bytes of a study's record.

    With meters or a plan, it has the releases of the study's run.
    """
    filled = s.laws or s.plan is not None
    return record_bytes(s.run().record if filled else s.record, s)


def missing_in_record(s: Study) -> list[str]:
    """Return what a study has and its record does not hold."""
    own = {str(cell): cell for cell in s.ramps.values()}
    said = {
        "the title": s.title != s.name,
        "names": s.ramps != own or s.cell_names != [str(i + 1) for i in range(s.n)],
        "lengths": bool(s.lengths),
        "a step's seconds": s.record.road.version == 1 and s.seconds is not None,
        "the clock time": s.start is not None,
        "lanes" if not s.lanes else "works": bool(s.lanes) or any(k > 1 for k in s.built),
        "meter laws": bool(s.laws),
        "the plan": s.plan is not None,
        "weights": s.weights is not None,
    }
    return [word for word, is_so in said.items() if is_so]


def toml_files(s: Study, target: Path, record: str | None = None) -> dict[Path, str]:
    """Return a study in the engine's own numbers, with its arrivals and releases as CSV.

    The text is given for each file. If `record` names its record, the study has only what the
    record does not hold.
    """
    files = {} if record else _tables(s, target)
    return {target: _text(s, str(target), record, [] if record else _files(s, files)), **files}


def toml_text(s: Study, target: str = "study.toml") -> str:
    """Return a study as one TOML text; loading it gives the same study.

    It is in the engine's own numbers, with arrivals and releases.
    """
    return _text(s, target, None, _lists(s))


def save_study(s: Study, path: str | Path) -> Path:
    """Write a study as one TOML file; loading it gives the same study."""
    path = Path(path)
    if path.suffix != ".toml":
        raise StudyError(
            f"{path}: a study is saved as .toml; `nobyaluk convert` writes a record with a study"
            " next to it"
        )
    write_file(path, toml_text(s, str(path)))
    return path


def _text(s: Study, target: str, record: str | None, tables: list[str]) -> str:
    """Return the text of a study with these tables of arrivals and releases."""
    head = [f"# {make_legible(x, 1000)}" for x in s.notes]
    head += [f"record = {quote_toml(record)}"] if record else []
    head.append(f"title = {quote_toml(''.join(x if x.isprintable() else ' ' for x in s.title))}")
    r = s.record.road
    if record is None or r.version == 1 and s.seconds is not None:
        head.append(f"step = {_whole_seconds(s, target)}")
    if s.start is not None:
        head.append(f"start = {quote_toml(format_clock(s.start))}")
    if record is None:
        head += [
            f"steps = {s.record.steps}",
            *(
                ["version = 1    # of the record, which then doesn't hold the step's seconds"]
                if r.version == 1
                else []
            ),
        ]
        head += [
            "",
            "[gate]",
            f"parts = {{ capacity = {r.gate_capacity}, queue = {s.record.start.gate_queue} }}",
        ]
    return (
        "\n".join(
            [
                *head,
                *_cells(s, record is None),
                *tables,
                *_meters(s),
                *_plan(s),
                *_closures(s),
                *_weights(s),
            ]
        )
        + "\n"
    )


def _whole_seconds(s: Study, target: str) -> int:
    if s.seconds is None:
        raise StudyError(
            f"{target}: the record has no step's seconds, which a study needs: add --seconds"
            " N, or load(path, seconds=N)"
        )
    if s.seconds.denominator != 1 or not 1 <= s.seconds <= engine.SECONDS:
        raise StudyError(
            f"{target}: a step has {float(s.seconds):g} s; a study's step has whole seconds, 1 to"
            f" {engine.SECONDS}"
        )
    return int(s.seconds)


def _cells(s: Study, whole: bool) -> list[str]:
    """Return the cells' names, lengths, ramps and lanes; also their numbers without a record."""
    r, start, out = s.record.road, s.record.start, []
    names = {cell: name for name, cell in s.ramps.items()}
    for i in range(r.n):
        out += ["", "[[cell]]"]
        if s.cell_names[i : i + 1] not in ([], [str(i + 1)]):
            out.append(f"name = {quote_toml(s.cell_names[i])}")
        if s.lengths and s.lengths[i] is not None:
            out.append(f"length = {s.lengths[i]!r}")
        if r.ramp[i]:
            out.append(f"ramp = {quote_toml(names.get(i + 1, str(i + 1)))}")
        if (built := s.lanes[i].bit_count() if s.lanes else s.built[i] if s.built else 1) != 1:
            out.append(f"lanes = {built}")
        if whole:
            more = "".join(
                f", {key} = {x}"
                for key, x in (("held", start.held[i]), ("queue", start.queue[i]))
                if x
            )
            seen = descriptions.cell_in_field_units(s, i)
            comment = (
                f"    # {seen[1]} km/h, wave {seen[2]} km/h, {seen[3]} veh/km, {seen[4]} veh/h"
                if seen
                else ""
            )
            out.append(
                f"parts = {{ v = {r.speed[i]}, w = {r.wave[i]}, b = {r.share[i]}, J = {r.jam[i]}, C"
                f" = {r.capacity[i]}{more} }}{comment}"
            )
    return out


def ramps_by_rows(s: Study) -> dict[str, int]:
    """Return the ramps that release exactly what the rows have."""
    return {name: cell for name, cell in s.ramps.items() if cell not in s.laws and s.plan is None}


def _tables(s: Study, target: Path) -> dict[Path, str]:
    """Return arrivals and exact releases as CSV."""
    rows, exact = s.record.rows, ramps_by_rows(s)
    files = {
        target.with_name(f"{target.stem}-arrivals.csv"): _table(
            ["gate", *s.ramps], rows[:, [0, *(2 * x - 1 for x in s.ramps.values())]]
        )
    }
    if exact:
        files[target.with_name(f"{target.stem}-releases.csv")] = _table(
            list(exact), rows[:, [2 * x for x in exact.values()]]
        )
    return files


def _lists(s: Study) -> list[str]:
    """Return arrivals and exact releases as lists of the study itself.

    A 0 means nothing in any step.
    """
    rows, exact = s.record.rows, ramps_by_rows(s)
    tables = {
        "arrivals": {
            "gate": rows[:, 0],
            **{name: rows[:, 2 * cell - 1] for name, cell in s.ramps.items()},
        },
        "releases": {name: rows[:, 2 * cell] for name, cell in exact.items()},
    }
    out = []
    for key, columns in tables.items():
        some = {name: x for name, x in columns.items() if x.any()}
        if not columns:
            continue
        out += [
            "",
            f"[{key}]",
            'unit = "parts"',
            *(["cap = false    # exactly these"] if key == "releases" else []),
        ]
        if some:
            table = np.column_stack(list(some.values()))
            steps = _changed(table)
            out += [
                f"step = {_flat(steps)}",
                *(
                    f"{quote_toml(name)} = {_flat(table[steps, j].tolist())}"
                    for j, name in enumerate(some)
                ),
            ]
        out += [f"{quote_toml(name)} = 0" for name in columns if name not in some]
    return out


def _flat(numbers: list[int]) -> str:
    return f"[{','.join(map(str, numbers))}]"


def _changed(rows: np.ndarray) -> list[int]:
    """Return the first step, and each step whose row differs from the one before it."""
    return [0, *(np.flatnonzero((rows[1:] != rows[:-1]).any(axis=1)) + 1).tolist()]


def _files(s: Study, files: Mapping[Path, str]) -> list[str]:
    """Return the tables that name the CSV files."""
    out = []
    for (key, names), path in zip((("arrivals", s.ramps), ("releases", ramps_by_rows(s))), files):
        columns = columns_key(names)  # of headings that have an apostrophe
        out += [
            "",
            f"[{key}]",
            f"file = {quote_toml(path.name)}",
            'unit = "parts"',
            *([columns] if columns else []),
        ]
        out += ["cap = false    # exactly these"] if key == "releases" else []
    return out


def _meters(s: Study) -> list[str]:
    """Return each ramp's law, in the engine's own numbers."""
    out = []
    for name, cell in s.ramps.items():
        if cell in s.laws:
            kind, *numbers = s.laws[cell]
            each = ", ".join(f"{key} = {float(x)!r}" for key, x in zip(engine.TAKES[kind], numbers))
            is_open = (kind, *numbers) == ("fixed", float(engine.RATE))
            out += [
                "",
                f"[meter.{quote_toml(name)}]",
                *(
                    ['law = "open"']
                    if is_open
                    else [
                        f'law = "{kind}"',
                        f"parts = {{ {each} }}    # {descriptions.describe_law(s, cell)}",
                    ]
                ),
            ]
    return out


def _plan(s: Study) -> list[str]:
    """Return the most that each ramp without a law may release."""
    if s.plan is None:
        return []
    named = {name: cell for name, cell in s.ramps.items() if cell not in s.laws}
    columns = s.plan[:, [cell - 1 for cell in named.values()]]
    steps = _changed(columns)
    lists = [
        f"{quote_toml(name)} = {_flat(columns[steps, j].tolist())}" for j, name in enumerate(named)
    ]
    return ["", "[releases]", 'unit = "parts"', f"step = {_flat(steps)}", *lists] if named else []


def _closures(s: Study) -> list[str]:
    """Return the lanes that are closed."""
    return [
        line
        for x in descriptions.find_closures(s)
        for line in (
            "",
            "[[closure]]",
            f"cell = {x.cell}",
            f"lanes = {x.lanes}",
            f"from = {x.begin}",
            f"to = {x.end}",
        )
    ]


def _weights(s: Study) -> list[str]:
    if s.weights is None:
        return []
    (gate, *places), ramps = s.weights
    same = (
        f"ramps = {ramps[0]}"
        if len(set(ramps)) == 1
        else "ramps = { "
        + ", ".join(f"{quote_toml(name)} = {ramps[cell - 1]}" for name, cell in s.ramps.items())
        + " }"
    )
    return ["", "[weights]", f"gate = {gate}", f"road = {list(places)}", same]


def _table(names: list[str], rows: np.ndarray) -> str:
    """Return a row for each step that differs from the one before it."""
    return format_csv(["step", *names], ([k, *rows[k].tolist()] for k in _changed(rows)))


def record_files(
    s: Study, data: bytes, target: Path, sources: Iterable[str | Path]
) -> tuple[dict[Path, str | bytes], str]:
    """Return a record and, if it does not hold all of the study, a study next to it.

    A message about that study is returned too.
    """
    lost = missing_in_record(s)
    if target.suffix == ".toml":
        raise StudyError(f"{target}: a record is written as .rec")
    if str(target) == "-":
        raise StudyError("a record is not printed: name a file for it")
    if not lost:
        return {target: data}, ""
    beside, words = (
        target.with_suffix(".toml"),
        ", ".join(lost[:-1]) + (" and " if lost[1:] else "") + lost[-1],
    )
    if any(is_same_file(beside, x) for x in sources):
        return {target: data}, f"{target} does not hold {words}; {beside} keeps them"
    return {
        target: data,
        **toml_files(s, beside, target.name),
    }, f"{beside}: {words}, which a record does not hold"


def granted_files(s: Study, run: Run, folder: Path) -> tuple[dict[Path, str | bytes], str]:
    """Return a street's road with its granted releases.

    It is a record with a study next to it, or only a study if no record holds it.
    """
    done = replace(s, record=run.record, laws={}, plan=None)
    if isinstance(run.record, engine.Record):
        files, words = record_files(done, run.record.data, folder / f"{s.name}.rec", [])
        return files, words or str(folder / f"{s.name}.rec")
    study = toml_files(done, folder / f"{s.name}.toml")
    steps = run.record.steps
    return {**study}, f"{next(iter(study))}: no record holds {steps} steps of {s.n} cells"
