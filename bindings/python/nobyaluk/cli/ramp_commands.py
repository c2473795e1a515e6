"""The commands about on-ramps and arrivals: queue, street, load."""
import argparse
import sys
from fractions import Fraction
from pathlib import Path

import numpy as np

from .. import engine, output_files, street, study_writer, summary
from ..engine import Refused
from ..errors import RefusedStudy, StudyError, parse_whole, show
from ..formatting import columns_key, csv_safe, format_csv
from .arguments import RAMP_PEAK, parse_parts, parse_ramp_peak, parse_rate, study_arguments
from .declaration import argument, command
from .running import load_study, run_study, write_text


@command(
    "queue STUDY RAMP --ceiling 20 --rate 900",
    "print releases that keep a ramp's queue under a ceiling",
    *study_arguments(),
    argument("ramp", metavar="RAMP"),
    argument("--ceiling", required=True, help="vehicles that may wait after each step"),
    argument("--rate", required=True, help="the meter's greatest release, veh/h"),
    argument(
        "-o",
        "--output",
        metavar="FILE.csv",
        help='writes the releases in parts, for [releases] with unit = "parts"',
    ),
    examples=[
        "queue examples/studies/rocade-sud-alinea.toml 16 --ceiling 50 --rate 1200 -o releases.csv"
    ],
)
def queue(args: argparse.Namespace) -> int:
    """Print the releases that keep a ramp's queue under a ceiling; 1 if there are none."""
    s = load_study(args.study, args)
    if args.ramp not in s.ramps:
        raise StudyError(
            f"{args.study}: no ramp is called {args.ramp!r}; ramps are"
            f" {', '.join(s.ramps) or 'none'}"
        )
    cell, rate = s.ramps[args.ramp], parse_rate(s, args.rate, "--rate")
    most = f"{engine.START // 1000:,} vehicles"
    ceiling = parse_parts(args.ceiling, "--ceiling", Fraction(1000), engine.START, most)
    rows = s.record.rows
    table = engine.wanted(s.record.start.queue[cell - 1], ceiling, rate, rows[:, 2 * cell - 1])
    if table is None:
        print(
            (
                f"nobyaluk: no releases of at most {args.rate} veh/h keep the queue of ramp"
                f" {args.ramp} at or under {args.ceiling} vehicles"
            ),
            file=sys.stderr,
        )
        return 1
    # the other ramps go on by their laws
    new, laws = rows.copy(), {there: law for there, law in s.laws.items() if there != cell}
    if s.plan is not None:
        new, laws = run_study(args.study, args)[1].record.rows.copy(), {}
    new[:, 2 * cell] = table
    tried = s.with_rows(new, laws=laws, plan=None)
    first = int(np.nonzero(table)[0][0]) if table.any() else None
    begin = f"the first at {s.when(first)}" if first is not None else "none is needed"
    print(
        f"ramp {args.ramp}: {table.sum(dtype=np.int64) / 1000:,.1f} vehicles are released, {begin};"
        f" no plan that keeps the queue at or below {args.ceiling} vehicles releases less up to any"
        " step"
    )
    print("  this does not check the cells' supply; a run does:")
    try:
        run = tried.run()
    except Refused as e:
        raise RefusedStudy(f"{args.study}: {tried.describe_refusal(e)}", e) from None
    if args.output is not None:
        numbers = ([k, x] for k, x in enumerate(table.tolist()))
        write_text(args.output, format_csv(["step", args.ramp], numbers))
        if csv_safe(args.ramp) != args.ramp:
            print(f"{args.output}: in [releases], {columns_key([args.ramp])}")
    print("\n".join(summary.summary_lines(tried, run)))
    return 0


@command(
    "street STREET",
    "run several roads whose ramps share one street",
    argument(
        "study",
        reads=True,
        metavar="STREET.toml",
        help="limit = veh/h, and up to eight [[ramp]] with study, ramp and guarantee (veh/h)",
    ),
    argument(
        "-o", "--output", metavar="FOLDER", help="for each road's record with its granted releases"
    ),
    examples=["street street.toml -o records"],
)
def share_street(args: argparse.Namespace) -> None:
    """Run roads whose ramps share one street."""
    st = street.read_street(args.study)
    runs, granted = street.run_street(st)
    table = np.array(granted)
    print(
        f"{st.title}: a street that lets {st.limit / 1000:,.3f} vehicles a step go"
        f" to {len(st.ramps)} ramps"
    )
    for j, name in enumerate(st.names):
        road, cell = st.ramps[j]
        longest = runs[road].queue[:, cell].max() / 1000
        alone = st.studies[road].run().queue[:, cell].max() / 1000
        print(
            f"  {name}: {table[:, j].sum() / 1000:,.1f} vehicles granted,"
            f" longest queue {longest:,.1f} (without the street {alone:,.1f})"
        )
    for s, r in zip(st.studies, runs):
        w, free = summary.hours(r, s.seconds), summary.hours(s.run(), s.seconds)
        print(
            f"  {s.name}: total {w.total:,.2f} {w.unit} (without the street {free.total:,.2f}):"
            f" gate {w.gate:,.2f}, road {w.road:,.2f}, ramps {w.ramp:,.2f}"
        )
    if args.output:
        folder = Path(args.output)
        output_files.make_folder(folder)
        roads = [study_writer.granted_files(s, r, folder) for s, r in zip(st.studies, runs)]
        named = [next(iter(parts)) for parts, _ in roads]
        files = {path: data for parts, _ in roads for path, data in parts.items()}
        output_files.write_files(files, named, args.force)
        for path, (_, words) in zip(named, roads):
            print(f"    {path}" + (f"; {words}" if words != str(path) else ""))


@command(
    "load STUDY --seed 1 --peak 3600 --ramp-peak 600",
    "write the stated load as a CSV of arrivals",
    *study_arguments(),
    argument("--seed", required=True, help="0 to 4294967295"),
    argument("--peak", required=True, help="the peak of the gate's arrivals, veh/h"),
    RAMP_PEAK,
    argument("-o", "--output", default="-", metavar="FILE.csv"),
    examples=["load road.toml --seed 1 --peak 3600 --ramp-peak 600 -o arrivals.csv"],
)
def write_load(args: argparse.Namespace) -> None:
    """Write the stated load of a seed as arrivals."""
    s = load_study(args.study, args)
    try:
        seed = parse_whole(args.seed, (1 << 32) - 1)
    except ValueError:
        raise StudyError(
            f"--seed is {show(args.seed)}; it is a whole number from 0 to {(1 << 32) - 1}"
        ) from None
    peaks = parse_rate(s, args.peak, "--peak"), parse_ramp_peak(s, args.ramp_peak)
    columns = [0, *(2 * cell - 1 for cell in s.ramps.values())]
    arrivals = s.with_stated_load(seed, *peaks).record.rows[:, columns].tolist()
    rows = ([k, *row] for k, row in enumerate(arrivals))
    write_text(args.output, format_csv(["step", "gate", *s.ramps], rows))
    if args.output != "-":
        more = columns_key(s.ramps)
        print(
            f'{args.output}: name it in [arrivals] with unit = "parts"'
            + (f" and {more}" if more else "")
        )
