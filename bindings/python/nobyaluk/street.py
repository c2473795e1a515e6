"""Several carriageways that feed from one street.

In each step the street's limit is divided among the ramps, and each road makes the step with its
grants. A ramp's wish is what its own meter, plan or release would release in its road's state. The
proved `grant` divides the limit, and the proved `step` moves each road, so each road is a record
that runs.
"""
from dataclasses import dataclass
from fractions import Fraction
from pathlib import Path

from . import engine, stepping
from .clock import format_clock
from .engine import Run
from .errors import StudyError, TomlTable
from .study import Study, load
from .tables import get_file_name, suggest_or_list
from .toml_reader import read_source, round_half_up

KEYS = {"": {"title", "limit", "ramp"}, "ramp": {"study", "ramp", "guarantee"}}


@dataclass
class Street:
    """Up to eight ramps of roads that are stepped together."""

    title: str
    limit: int  # parts a step
    studies: list[Study]
    ramps: list[tuple[int, int]]  # which study, and which of its cells
    names: list[str]
    guarantees: list[int]  # parts a step


def read_street(path: str | Path) -> Street:
    """Return the street of a TOML file.

    It has a limit, and for each ramp a study, the ramp's name and a guarantee; rates in veh/h.
    """
    path = Path(path)
    top = TomlTable(read_source(path).values, str(path), KEYS[""])
    given = top.values.get("ramp", [])
    if not isinstance(given, list) or not 1 <= len(given) <= 8:
        raise top.fault("ramp", "is written as [[ramp]], once for each of 1 to 8 ramps")
    tables = [TomlTable(x, f"{path}: ramp {i}", KEYS["ramp"]) for i, x in enumerate(given, 1)]
    files, studies = _roads(path, tables)
    ramps, names = [], []
    for r, k in zip(tables, files):
        s, name = studies[k], r.text("ramp")
        if name not in s.ramps:
            raise r.fault(
                "ramp",
                (
                    f"is {name!r}; {s.name} has"
                    f" {', '.join(s.ramps) or 'none'}{suggest_or_list(name, s.ramps)}"
                ),
            )
        if (k, s.ramps[name]) in ramps:
            raise r.fault(
                "ramp", f"is {name!r} of {s.name}, which is named twice; name each ramp once"
            )
        ramps.append((k, s.ramps[name]))
        names.append(f"{s.name}, ramp {name}")
    first = studies[0]
    for s in studies:
        if s.seconds is None or (s.seconds, s.record.steps) != (first.seconds, first.record.steps):
            raise StudyError(
                f"{path}: {s.name} and {first.name} differ in their steps' number or seconds; a"
                " street's roads go on together"
            )
        if s.start is not None and first.start is not None and s.start != first.start:
            raise StudyError(
                f"{path}: {first.name} starts at {format_clock(first.start)} and {s.name} at"
                f" {format_clock(s.start)}; a street's roads go on together"
            )
    a_step = (first.seconds or Fraction(1)) / 3600 * 1000  # each has them, as was seen above
    most = engine.RATE / a_step  # veh/h, as granting takes them
    limit, guarantees = top.number("limit", high=most), [
        r.number("guarantee", 0, high=most) for r in tables
    ]
    return Street(
        top.text("title", path.stem),
        round_half_up(limit * a_step),
        studies,
        ramps,
        names,
        [round_half_up(x * a_step) for x in guarantees],
    )


def _roads(path: Path, tables: list[TomlTable]) -> tuple[list[int], list[Study]]:
    """Return the study of each ramp, by number, and the studies, each once.

    Studies with the same file name also get the names of their folders.
    """
    found: dict[Path, int] = {}
    files = [Path(get_file_name(r, "study")) for r in tables]
    which = [found.setdefault((path.parent / x).resolve(), len(found)) for x in files]
    studies = [load(path.parent / files[which.index(k)]) for k in range(len(found))]
    names = [s.name for s in studies]
    for k, s in enumerate(studies):
        if names.count(s.name) > 1:
            file = files[which.index(k)]
            s.name = "-".join(x for x in file.with_suffix("").parts if x not in ("/", "..", "."))
    if len({s.name for s in studies}) < len(studies):
        raise StudyError(
            f"{path}: two of the roads are called {', '.join(s.name for s in studies)}; rename a"
            " file"
        )
    return which, studies


def make_stepper(study: Study) -> stepping.MeteredStepper:
    """Return a study to be stepped.

    Each ramp follows its law, its plan, or its releases as the most that it releases.
    """
    return stepping.MeteredStepper(
        study.record,
        study.lanes,
        study.laws,
        study.plan if study.plan is not None else study.record.rows[:, 2::2],
    )


def run_street(street: Street) -> tuple[list[Run], list[list[int]]]:
    """Return the runs of the street's studies, and what was granted to its ramps in each step."""
    roads, granted = [make_stepper(s) for s in street.studies], []
    for _ in range(street.studies[0].record.steps):
        wishes = [road.wishes() for road in roads]
        grants = engine.grant(
            street.limit, street.guarantees, [wishes[s][cell - 1] for s, cell in street.ramps]
        ).tolist()
        for (s, cell), x in zip(street.ramps, grants):
            wishes[s][cell - 1] = x
        for road, releases in zip(roads, wishes):
            road.step(releases)
        granted.append(grants)
    return [_run(s, road) for s, road in zip(street.studies, roads)], granted


def _run(study: Study, road: stepping.MeteredStepper) -> Run:
    """Return the run of the granted releases: running's own if a record holds them."""
    r = road.walk.run(study.weights)
    if isinstance(study.record, engine.Record):
        record = engine.write(study.record.road, study.record.begin, r.record.rows)
        return (
            engine.run_weighted(record, *study.weights, study.lanes)
            if study.weights
            else engine.run(record, study.lanes)
        )
    return r
