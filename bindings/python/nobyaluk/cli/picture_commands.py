"""The commands that draw and report: plot, report, redo."""
import argparse
from pathlib import Path

from .. import output_files
from .. import redo as redoing
from .. import summary
from .arguments import study_arguments
from .declaration import argument, command
from .pictures import import_figures, save_figure
from .running import run_studies, run_study, write_text

PICTURES = ["space-time", "density", "speed", "queues", "cumulative"]


@command(
    "plot STUDY -o FOLDER",
    "draw density or speed over place and time, queues and cumulative curves",
    *study_arguments(),
    argument("-o", "--output", default=".", metavar="FOLDER"),
    argument("--kind", action="append", choices=PICTURES, help="one picture; may be repeated"),
    argument("--format", default="png", choices=["png", "svg", "pdf"]),
    argument(
        "--beside",
        reads=True,
        action="append",
        metavar="STUDY",
        help="another study with which the pictures share their scales; may be repeated",
    ),
    examples=[
        "plot road.toml -o pictures",
        "plot road.toml --kind speed --format pdf",
        "plot road.toml --kind density --beside road-alinea.toml",
    ],
)
def plot(args: argparse.Namespace) -> None:
    """Draw pictures of a study."""
    figures = import_figures()
    s, r = run_study(args.study, args)
    usual = figures.KINDS if not s.lengths or not s.seconds else figures.MORE
    kinds = dict.fromkeys(args.kind or ()) or usual
    compared = [(s, r), *(run_study(name, args) for name in args.beside or ())]
    scales = figures.scales_of(compared)
    # all of them, before the first is written
    drawn = {kind: figures.draw(figures.MORE[kind], s, r, scales) for kind in kinds}
    for kind, figure in drawn.items():
        path = Path(args.output) / f"{s.name}-{kind}.{args.format}"
        print(save_figure(figure, path, f"{kind} of record {summary.record_sha256(r)}"))


@command(
    "report STUDY... -o FILE.html",
    "write one page with everything, including the studies themselves",
    *study_arguments("+"),
    argument("-o", "--output", required=True, metavar="FILE.html"),
    argument("--title"),
    examples=["report road.toml road-alinea.toml -o report.html"],
)
def write_report(args: argparse.Namespace) -> None:
    """Write one page with everything about some studies."""
    import_figures()
    from .. import report  # which needs matplotlib

    output_files.check_writable(args.output)
    write_text(args.output, report.make_page(run_studies(args), args.title))
    if args.output != "-":
        print(args.output)


@command(
    "redo FILE.html",
    "run the studies of a report again and compare their totals",
    argument(
        "report",
        reads=True,
        metavar="REPORT.html",
        help="a page made by `report`; it contains its studies",
    ),
    argument("-o", "--output", metavar="FOLDER", help="keep the studies as files there"),
    examples=["redo report.html", "redo report.html -o studies"],
)
def redo(args: argparse.Namespace) -> int:
    """Run the studies of a report again; 1 if something differs."""
    found = redoing.redo_report(args.report, args.output, args.force)
    for name, differs in found:
        print(f"{name}: " + (differs or "the same totals and record"))
    if args.output is not None:
        print(f"{args.output}: {len(found)} {'study' if len(found) == 1 else 'studies'}")
    return 1 if any(differs for _, differs in found) else 0
