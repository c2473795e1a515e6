"""The command that runs many studies: sweep."""
import argparse
import sys
from collections.abc import Iterator
from functools import partial
from pathlib import Path

from .. import parallel
from ..cluster import Cluster, NoCluster
from ..errors import StudyError
from ..output_files import NotWritten
from ..progress import Progress
from ..study import Study
from ..sweep import SweepRows, SweepTable, Terminated, raise_on_sigterm
from ..sweep_studies import LoadSweep, SeedSweep, Sweep, VariantSweep
from ..totals import totals_and_queues
from ..variants import Variants
from .arguments import (
    MOST_STUDIES,
    PEAK,
    RAMP_PEAK,
    parse_ramp_peak,
    parse_rate,
    parse_span,
    study_arguments,
    worker_count,
)
from .declaration import argument, command
from .running import load_study


@command(
    "sweep STUDY --load 0.8:1.2:0.01",
    "write the totals of many loads, seeds or values of a key as CSV",
    *study_arguments(),
    argument("--load", metavar="LOW:HIGH:STEP", help="multiply all arrivals by each of these"),
    argument(
        "--seeds",
        metavar="FIRST:LAST",
        help="use the stated load of each seed, with --peak and --ramp-peak",
    ),
    argument(
        "--vary",
        metavar="KEY=LOW:HIGH:STEP",
        action="append",
        help=(
            "set a number of the .toml, as meter.all.rate=300:900:50; if given twice, each pair of"
            " both keys' values"
        ),
    ),
    PEAK,
    RAMP_PEAK,
    argument(
        "--workers",
        type=worker_count,
        help="number of processes; default, and at most: the number of processors",
    ),
    argument(
        "--scheduler", metavar="ADDRESS", help="a Dask cluster whose workers have this package"
    ),
    argument(
        "-o",
        "--output",
        default="-",
        metavar="FILE.csv",
        help="default: standard output; rows are in FILE.csv.part until all are done",
    ),
    argument(
        "--resume",
        action="store_true",
        help="continue an interrupted sweep from its FILE.csv.part",
    ),
    examples=[
        "sweep road.toml --load 0.8:1.2:0.01 -o loads.csv",
        "sweep road.toml --seeds 1:1000 --peak 4000 --ramp-peak 700",
        "sweep road.toml --vary meter.all.rate=300:900:50",
        (
            "sweep road.toml --vary meter.all.gain_kmh=5:50:5 --vary meter.all.target=20:60:5 -o"
            " grid.csv"
        ),
        "sweep road.toml --load 0.5:1.5:0.0001 -o loads.csv --resume",
        "sweep road.toml --load 0.5:1.5:0.001 --scheduler tcp://10.0.0.1:8786",
    ],
)
def sweep(args: argparse.Namespace) -> int:
    """Write the totals of many studies; return 2 if all of them failed."""
    if sum(x is not None for x in (args.load, args.seeds, args.vary)) != 1:
        raise StudyError("a sweep needs exactly one of --load, --seeds and --vary")
    s = load_study(args.study, args)
    what = plan_sweep(s, args)
    rows, count = SweepRows(what, s), len(what)
    bar = not (args.output == "-" and sys.stdout.isatty())  # a bar would be between the rows
    with (
        SweepTable(args.output, rows, what.sum(s), args.resume, args.force) as table,
        raise_on_sigterm(),
        Progress(count, "studies", table.done, bar) as progress,
    ):
        try:
            for lines in run_sweep(rows, table.done, args):
                table.add(lines)
                progress(table.done)
        except (NoCluster, NotWritten) as e:
            raise type(e)("; ".join(filter(None, [str(e), table.where()]))) from None
        except (KeyboardInterrupt, Terminated):
            print(f"nobyaluk: {table.where() or 'interrupted'}", file=sys.stderr)
            raise
    if table.refused:
        print(
            (
                f"nobyaluk: {table.refused} of {count} were refused;"
                " the last column has number, step and place"
            ),
            file=sys.stderr,
        )
    if table.faults:
        first = f": {table.first}" if table.faults == count else ""
        print(
            f"nobyaluk: {table.faults} of {count} failed; the last column says why{first}",
            file=sys.stderr,
        )
    return 2 if table.faults == count else 0


def run_sweep(rows: SweepRows, begin: int, args: argparse.Namespace) -> Iterator[list[str]]:
    """Return the rows of a sweep's studies from `begin` on, in groups.

    A cluster runs them, or processes of this machine.
    """
    what, run = rows.sweep, partial(rows.run, totals_and_queues)
    if args.scheduler is None:
        left = range(begin, len(what))
        yield from parallel.spread_run(left, len(left), run, rows.lost, args.workers)
        return
    cluster = Cluster(args.scheduler)
    try:
        yield from cluster.spread(what.items(begin), run, rows.lost)
    finally:
        cluster.close()


def plan_sweep(s: Study, args: argparse.Namespace) -> Sweep:
    """Return what is swept; files are read here, because a cluster may not see them."""
    if args.load is not None:
        return LoadSweep(s, parse_span(args.load, "--load", least=0))
    if args.vary is not None:
        return plan_variants(args)
    if args.peak is None:
        raise StudyError("--seeds needs --peak, and --ramp-peak if the road has ramps, in veh/h")
    seeds = parse_span(args.seeds, "--seeds", whole_numbers=True, least=0, most=(1 << 32) - 1)
    peaks = parse_rate(s, args.peak, "--peak"), parse_ramp_peak(s, args.ramp_peak)
    return SeedSweep(s, seeds, peaks)


def plan_variants(args: argparse.Namespace) -> VariantSweep:
    """Return the sweep of one key of the .toml, or of each pair of two keys' values."""
    pairs = [x.partition("=") for x in args.vary]
    if Path(args.study).suffix != ".toml" or not all(words for _, _, words in pairs):
        raise StudyError(
            "--vary is KEY=LOW:HIGH:STEP of a .toml study, as meter.all.rate=300:900:50"
        )
    if len(pairs) > 2:
        raise StudyError(
            f"--vary is given {len(pairs)} times; a sweep varies one key,"
            " or each pair of two keys' values"
        )
    keys = [key for key, _, _ in pairs]
    axes = [parse_span(words, "--vary") for _, _, words in pairs]
    what = VariantSweep(Variants(args.study, keys), keys, axes)
    if len(what) > MOST_STUDIES:
        sizes = " x ".join(f"{len(x):,}" for x in axes)
        raise StudyError(f"--vary makes {sizes} studies; a sweep has at most {MOST_STUDIES:,}")
    return what
