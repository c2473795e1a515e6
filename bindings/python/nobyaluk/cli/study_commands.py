"""The commands that begin, run, judge and compare studies: new, run, fill, judge, compare."""
import argparse
import csv
import io
import shlex
import sys
from dataclasses import replace
from pathlib import Path
from typing import Any

import numpy as np

from .. import dataframes, engine, long_record, study_writer, summary
from ..engine import Refused, Run
from ..errors import RefusedStudy, StudyError, show
from ..formatting import csv_safe
from ..input_files import read_text
from ..output_files import write_files
from ..refusals import Refusal
from ..schedules import parse_schedule
from ..study import Study
from ..template import write_template
from .arguments import file_to_write, study_arguments
from .declaration import COMMAND, argument, command
from .pictures import import_figures, save_figure
from .running import load_study, run_studies, run_study, write_text


@command(
    "new FOLDER",
    "write a study to start from",
    argument("folder"),
    examples=["new my-road"],
    force=False,
)
def new(args: argparse.Namespace) -> None:
    """Write a study to start from."""
    study, arrivals = write_template(Path(args.folder))
    page = shlex.quote(str(study.with_name("report.html")))
    name = shlex.quote(str(study))
    print(f"{study} and {arrivals}: now try")
    print(f"  {COMMAND} run {name}\n  {COMMAND} report {name} -o {page}")


@command(
    "run STUDY",
    (
        "print who waits where; --listing prints every step as `ctm` does, --csv FILE writes a "
        "table"
    ),
    *study_arguments(),
    argument(
        "--listing",
        action="store_true",
        help="print every step and place, as the program `ctm` does",
    ),
    argument(
        "--csv",
        metavar="FILE",
        help="write a table with one row per step and place, in vehicles; - is standard output",
    ),
    examples=[
        "run examples/studies/five-cells.toml",
        "run examples/printed-run.rec --listing",
        "run road.toml --csv road-tables.csv",
    ],
)
def run(args: argparse.Namespace) -> None:
    """Run a study and print who waits where."""
    try:
        s, r = run_study(args.study, args)
    except RefusedStudy as e:
        if args.listing:
            print(e.refused.line)
        raise
    if args.csv is not None:
        write_text(args.csv, run_csv(s, r))
    if args.listing:
        sys.stdout.write(engine.listing(r))
    elif args.csv != "-":
        print("\n".join(summary.summary_lines(s, r) + note_lines(s)))


def note_lines(s: Study) -> list[str]:
    """Return what rounding changed, and the study's notes."""
    out = []
    if s.rounding:
        worst = max(s.rounding, key=lambda x: abs(x.error))
        place = f"cell {worst.cell}" if worst.cell else "the gate"
        by = f"{float(worst.wanted):.2f} -> {worst.used} ({100 * worst.error:+.2f} %)"
        numbers = summary.count_words(len(s.rounding), "number")
        bound, each = float(summary.rounding_bound(s)), f" in {engine.STEPS:,} steps"
        out.append(f"  rounding: {numbers}, the worst {worst.what} of {place}, {by}")
        out.append(
            "  whole parts: counted in finer parts, no cumulative outflow would differ by more than"
            f" {bound:.2f} vehicles{each * long_record.begins_anew(s.record)}"
        )
    return out + [f"  note: {x}" for x in s.notes]


def run_csv(s: Study, r: Run) -> str:
    """Return the run as CSV, one row per step and place.

    Place 0 is the gate; times are those of the step's end.
    """
    f = io.StringIO()
    out = csv.writer(f, lineterminator="\n")
    columns = dataframes.run_columns(s, r)
    clocked = s.start is not None
    ends = [s.when(k + 1).split(", ")[-1] if clocked else "" for k in range(r.record.steps)]
    out.writerow(["step", "time", *list(columns)[1:]])
    forms: dict[str, Any] = {
        "km": "{:g}".format,
        "seconds": float,
        "cell": csv_safe,
        "ramp": csv_safe,
    }
    forms |= {key: "{:.6g}".format for key in columns if "_per_" in key}
    cells = [
        ["" if v != v else forms[key](v) if key in forms else v for v in x.tolist()]  # nan: unknown
        for key, x in columns.items()
    ]
    out.writerows([k, ends[k], *row] for k, *row in zip(*cells))
    return f.getvalue()


@command(
    "fill STUDY -o FILE.rec",
    "write a record with the releases of the study's meter laws",
    *study_arguments(),
    argument("-o", "--output", required=True, type=file_to_write, metavar="FILE.rec"),
    examples=[
        "fill road.toml -o road.rec",
        "fill examples/studies/rocade-sud-alinea.toml -o filled.rec",
    ],
)
def fill(args: argparse.Namespace) -> None:
    """Write a record with the releases of the study's meter laws."""
    s = load_study(args.study, args)
    if not s.laws and s.plan is None:
        raise StudyError(
            f"{args.study}: it has no [meter]; for a record, write a .toml with"
            f' `record = "{Path(args.study).name}"` and [meter.all]'
        )
    try:
        r = s.run()
    except Refused as e:
        raise RefusedStudy(f"{args.study}: {s.describe_refusal(e)}", e) from None
    target = Path(args.output)
    found, words = study_writer.record_files(s, study_writer.run_bytes(r, s), target, [args.study])
    write_files(found, [target], args.force)
    print("\n".join(summary.summary_lines(s, r) + ([f"  {words}"] if words else [])))


@command(
    "judge STUDY SCHEDULE",
    "check whether a schedule of outflows obeys the rules, and print what it loses",
    *study_arguments(),
    argument(
        "schedule",
        reads=True,
        help="a .csv file: for each step a row of outflows in whole parts, the gate's first",
    ),
    examples=["judge examples/classroom.rec examples/classroom-cut.schedule.csv --seconds 36"],
    force=False,
)
def judge(args: argparse.Namespace) -> None:
    """Judge a schedule and print what it loses."""
    s = load_study(args.study, args)
    if s.laws or s.plan is not None:
        s = s.with_rows(s.run().record.rows, laws={}, plan=None)
    schedule = parse_schedule(read_text(args.schedule), s.n, args.schedule)
    try:
        r = long_record.judge(s.record, schedule, s.lanes)
    except StudyError as e:
        raise StudyError(f"{args.study}: {e}") from None
    except Refused as e:
        more = explain(s, schedule, e)
        raise RefusedStudy(f"{args.schedule}: {s.describe_refusal(e)}{more}", e) from None
    best = replace(s, weights=None).run_engine()
    print(f"accepted total {r.total} gate {r.gate} road {r.road} ramp {r.ramp} exits {r.exits}")
    w, b = summary.hours(r, s.seconds), summary.hours(best, s.seconds)
    lost = summary.find_loss(best, r)
    if lost.step is None:
        promise = ", and no schedule with these arrivals and releases has less"
        one = isinstance(s.record, engine.Record)  # it is not proved for longer studies
        print(f"  {w.total:,.2f} {w.unit}: it is the engine's run{promise * one}")
        return
    more = f" ({100 * (w.total / b.total - 1):+.1f} %)" if b.total else ""
    print(
        f"  {w.total:,.2f} {w.unit}, and the engine's run has {b.total:,.2f}:"
        f" it loses {w.total - b.total:,.2f}{more}"
    )
    print(
        f"  it first differs at {s.when(lost.step)}, {s.place(lost.place)}: it sends"
        f" {lost.sent / 1000:,.3f} vehicles, and {lost.could / 1000:,.3f} could leave"
    )


def explain(s: Study, schedule: np.ndarray, e: Refused) -> str:
    """Return the numbers behind a refused schedule."""
    if e.refusal in engine.BROKEN_RULES:
        numbers = summary.explain_refusal(s.record, schedule, s.lanes, e)
        return f" ({numbers}, in thousandths of a vehicle)"
    if e.refusal == Refusal.SCHEDULE_LENGTH:
        steps, places = s.record.steps, s.n + 1
        return (
            f" ({steps} steps of {places} outflows are {steps * places:,};"
            f" the schedule has {schedule.size:,})"
        )
    return ""


@command(
    "compare STUDY...",
    "print the three totals side by side; --plot FILE draws them",
    *study_arguments("+"),
    argument("--plot", metavar="FILE", help="draw the totals: .png, .svg or .pdf"),
    examples=["compare examples/studies/rocade-sud*.toml --plot totals.png"],
)
def compare(args: argparse.Namespace) -> None:
    """Print the totals of several studies."""
    if args.plot is not None and Path(args.plot).suffix not in (".png", ".svg", ".pdf"):
        raise StudyError(f"--plot is {show(args.plot)}; it is a file named .png, .svg or .pdf")
    pairs = run_studies(args)
    heading, rows = summary.compare_runs(pairs)
    widths = [max(len(str(x)) for x in column) for column in zip(heading, *rows)]
    for row in (heading, *rows):
        first, *others = zip(map(str, row), widths)
        print("  ".join([first[0].ljust(first[1]), *(x.rjust(w) for x, w in others)]))
    if len({(r.record.steps, s.seconds) for s, r in pairs}) > 1:
        print(
            (
                "nobyaluk: note: the studies differ in their number of steps or a step's seconds,"
                " so their totals are not comparable"
            ),
            file=sys.stderr,
        )
    if args.plot is not None:
        figures = import_figures()
        print(save_figure(figures.draw(figures.totals, pairs), args.plot))
