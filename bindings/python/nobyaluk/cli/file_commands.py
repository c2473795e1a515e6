"""The commands that make other files of studies: join, convert."""
import argparse
from contextlib import suppress
from dataclasses import replace
from pathlib import Path

import numpy as np

from .. import engine, joining, study_writer
from ..engine import Record, Refused
from ..errors import RefusedStudy, StudyError, parse_option, show
from ..output_files import write_files
from ..refusals import Refusal
from ..study import load
from .arguments import SECONDS, STUDY_FILE, file_to_write, short_number
from .declaration import argument, command
from .running import UNUSED_SECONDS


@command(
    "join UPSTREAM DOWNSTREAM --share 0.89 -o FILE.toml",
    "write two neighbouring roads as one study, or as a record with a study",
    argument("upstream", reads=True, metavar="UPSTREAM", help=STUDY_FILE),
    argument(
        "downstream",
        reads=True,
        metavar="DOWNSTREAM",
        help="the road after it; its gate has neither queue nor arrivals, and is dropped",
    ),
    argument(
        "--share",
        required=True,
        type=short_number,
        help=(
            "the part of the last upstream cell's outflow that goes on: thousandths, 0 to 1000, or"
            " a decimal like 0.89"
        ),
    ),
    SECONDS,
    argument(
        "-o",
        "--output",
        required=True,
        type=file_to_write,
        metavar="FILE",
        help="a .rec, with its study next to it, or a .toml",
    ),
    examples=[
        (
            "join examples/rocade-sud-upstream.rec examples/rocade-sud-downstream.rec --share 890"
            " -o whole.rec"
        ),
        "join north.toml south.toml --share 0.89 -o whole.toml",
    ],
)
def join(args: argparse.Namespace) -> None:
    """Write two neighbouring roads as one."""
    share, target = parse_share(args.share), Path(args.output)
    names = [args.upstream, args.downstream]
    if target.exists() and any(target.samefile(x) for x in names):
        raise StudyError(f"{target}: the output is not written over the input")
    pair, records, timed = [], [], args.seconds is None
    for name in names:
        s = None
        try:
            s = load(name)
            if args.seconds is not None and s.seconds is None:
                s, timed = load(name, args.seconds), True
            pair.append(s)
            records.append(engine.read(study_writer.study_bytes(s)))
        except Refused as e:
            raise RefusedStudy(f"{name}: {s.describe_refusal(e) if s else e}", e) from None
    if not timed:
        raise StudyError(UNUSED_SECONDS)
    up, down = records
    try:
        both = engine.join(up, down, share)
    except Refused as e:
        more = explain_apart(up, down, e.refusal)
        if e.refusal == Refusal.SECOND_GATE and Path(args.downstream).suffix == ".toml":
            more += "; `gate = 0` in its [arrivals] says that nobody arrives there"
        raise RefusedStudy(f"{args.upstream} and {args.downstream}: {e}{more}", e) from None
    first, second = pair
    whole = joining.describe_joined(first, second, both)
    lost = [x for x in whole.notes if x.startswith("the plan of ")]
    whole = joining.with_known_lengths(replace(whole, name=target.stem), first, second)
    files: dict[Path, str | bytes]
    if target.suffix == ".toml":
        files, words = {target: study_writer.toml_text(whole, str(target))}, ""
    else:
        if not any(Path(x).suffix == ".toml" for x in names):
            whole = replace(whole, title=whole.name)
        files, words = study_writer.record_files(whole, both.data, target, names)
    write_files(files, [target], args.force)
    size = f", {len(both.data):,} bytes" if target.suffix != ".toml" else ""
    print(f"{target}: {both.road.n} cells, {up.road.n} and {down.road.n}; {both.steps} steps{size}")
    for line in filter(None, [words, *lost]):
        print(line)


def parse_share(text: str) -> int:
    """Return the thousandths of a share: 890, or 0.89."""
    exact = None
    with suppress(ValueError):
        decimal = "." in text or "," in text
        exact = parse_option(text, "--share") * (engine.WHOLE if decimal else 1)
    if text == "1":
        raise StudyError(
            "--share is 1: write 1000 or 1.0 for all that leaves the last upstream cell,"
            " 0.001 for a thousandth of it"
        )
    if exact is None or exact.denominator != 1 or not 0 <= exact <= engine.WHOLE:
        raise StudyError(
            f"--share is {show(text)}; it is the thousandths of what leaves the last upstream cell"
            f" that go on, 0 to {engine.WHOLE:,}, or a decimal like 0.89"
        )
    return int(exact)


def explain_apart(up: Record, down: Record, refusal: Refusal | None) -> str:
    """Return what keeps two roads from being joined, in their own numbers."""
    if refusal == Refusal.ROADS_DIFFER:
        sizes = []
        for x in (up, down):
            seconds = f", {x.road.seconds} s each" if x.road.version == 2 else ""
            sizes.append(f"{x.steps} steps of version {x.road.version}{seconds}")
        return f" ({'; '.join(sizes)})"
    if refusal == Refusal.SECOND_GATE:
        arrivals = down.rows[:, 0].sum(dtype=np.int64) / 1000
        return f" (queue {down.start.gate_queue / 1000:,.3f}, arrivals {arrivals:,.3f} vehicles)"
    if refusal == Refusal.JOINED_SIZE:
        return f" ({up.road.n} and {down.road.n} cells, {up.steps} steps)"
    return ""


@command(
    "convert FROM TO",
    "write a study as .rec, with a .toml for what it does not hold, or as .toml with CSV files",
    argument("source", reads=True),
    argument("target", type=file_to_write),
    SECONDS,
    examples=["convert road.toml road.rec", "convert road.rec road.toml"],
)
def convert(args: argparse.Namespace) -> None:
    """Write a study in another form."""
    target = Path(args.target)
    if target.suffix not in (".rec", ".toml"):
        raise StudyError(f"{target}: a study is written as .rec or .toml")
    if target.exists() and target.samefile(args.source):
        raise StudyError(f"{target}: the output is not written over the input")
    s = load(args.source, args.seconds)
    files: dict[Path, str | bytes]
    if target.suffix == ".toml":
        files, words = {**study_writer.toml_files(s, target)}, ""
    else:
        data = study_writer.study_bytes(s)
        files, words = study_writer.record_files(s, data, target, [args.source])
    write_files(files, [target], args.force)
    if words:
        print(words)
