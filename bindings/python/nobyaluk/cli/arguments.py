"""Arguments that several commands have, and how their values are read."""
import argparse
import math
from fractions import Fraction
from pathlib import Path

from .. import engine
from ..errors import StudyError, parse_option, parse_whole, show
from ..spans import Span
from ..study import Study
from ..toml_reader import round_half_up
from .declaration import Argument, argument

MOST_STUDIES = 1_000_000  # of a sweep
SECONDS = argument(
    "--seconds", help="the seconds of a step, for a record of version 1, which has none"
)
STUDY_FILE = "a .toml or .rec file"


def study_arguments(nargs: str | None = None) -> list[Argument]:
    """Return the arguments of a command that takes a study."""
    study = argument("study", reads=True, nargs=nargs, metavar="STUDY", help=STUDY_FILE)
    return [study, SECONDS]


def file_to_write(text: str) -> str:
    """Return the name of a file to write; a folder's name like `.` is an error."""
    if text != "-" and not Path(text).name:
        raise argparse.ArgumentTypeError(f"{show(text)} is no name of a file")
    return text


def limit(text: str) -> int:
    """Return a caller's limit of cells or bytes."""
    try:
        return parse_whole(text)
    except ValueError:
        raise argparse.ArgumentTypeError(
            f"{show(text)} is no whole number from 0 to 2^64 - 1"
        ) from None


def short_number(text: str) -> str:
    """Return a number of few digits, as it is written."""
    if len(text) > 40:
        raise argparse.ArgumentTypeError(f"{show(text)} is too long for a number")
    return text


def worker_count(text: str) -> int:
    """Return a number of processes; at most as many start as there are processors or studies."""
    try:
        if x := parse_whole(text):
            return x
    except ValueError:
        pass
    raise argparse.ArgumentTypeError(f"{show(text)} is no whole number from 1")


def parse_span(
    words: str,
    option: str,
    whole_numbers: bool = False,
    least: int | None = None,
    most: int | None = None,
) -> Span:
    """Return the exact numbers of LOW:HIGH:STEP; with whole numbers the step is optional."""
    try:
        low, high, *rest = (parse_option(x, option) for x in words.split(":"))
        step = rest[0] if rest else Fraction(1) if whole_numbers else (high - low) / 10
        if step <= 0 or high < low or len(rest) > 1 or high - low > MOST_STUDIES * step:
            raise ValueError
    except ValueError as e:
        if "without a comma" in str(e):
            raise
        form = "FIRST:LAST" if whole_numbers else "LOW:HIGH:STEP, as 0.8:1.2:0.05"
        raise StudyError(
            f"{option} is {show(words)}; it is {form}, up to {MOST_STUDIES:,} steps"
        ) from None
    if whole_numbers and any(x.denominator != 1 for x in (low, step)):
        raise StudyError(f"{option} is {show(words)}; it is of whole numbers")
    count, unit = int((high - low) / step) + 1, math.lcm(low.denominator, step.denominator)
    first, more = int(low * unit), int(step * unit)
    values = Span(range(first, first + count * more, more), unit)
    if least is not None and low < least or most is not None and values[-1] > most:
        top = f" and at most {most}" if most is not None else ""
        raise StudyError(f"{option} is {show(words)}; it is at least {least}{top}")
    return values


def parse_rate(s: Study, rate: str, option: str) -> int:
    """Return veh/h as parts a step."""
    if not s.seconds:
        raise StudyError(f"{option} is in veh/h, which needs the step's seconds: add --seconds N")
    most = f"{float(3600 * 1000 / s.seconds):,.0f} veh/h, 1,000 vehicles a step"
    return parse_parts(rate, option, s.seconds / 3600 * 1000, engine.RATE, most)


def parse_parts(given: str, option: str, factor: Fraction, top: int, words: str) -> int:
    """Return a number of the command line in whole parts, up to its limit."""
    x = round_half_up(parse_option(given, option) * factor)
    if not 0 <= x <= top:
        raise StudyError(f"{option} is {given}; it is 0 to {words}")
    return x


def parse_ramp_peak(s: Study, given: str | None) -> int:
    """Return the peak of each ramp's arrivals; a road with ramps needs one."""
    if given is None and s.ramps:
        raise StudyError(
            f"--ramp-peak is missing: the road has {len(s.ramps)} ramp{'s' * (len(s.ramps) != 1)};"
            " write 0 if nobody arrives there"
        )
    return parse_rate(s, given or "0", "--ramp-peak")


PEAK = argument("--peak", help="the peak of the gate's arrivals, veh/h")
RAMP_PEAK = argument(
    "--ramp-peak", help="the peak of each ramp's arrivals, veh/h; required if the road has ramps"
)
