"""Loads and runs the studies of the command line, and writes texts to its output."""
import argparse
import sys
from pathlib import Path

from .. import output_files
from ..engine import Refused, Run
from ..errors import RefusedStudy, StudyError
from ..study import Study, load


def write_text(path: str | Path, text: str) -> None:
    """Write a file whole or raise NotWritten; `-` is standard output."""
    if str(path) == "-":
        sys.stdout.write(text)
    else:
        output_files.write_file(path, text)


def load_study(name: str, args: argparse.Namespace) -> Study:
    """Return the study of a file, with the step's seconds of the command line."""
    s, seconds = load(name), getattr(args, "seconds", None)
    if seconds is not None and (s.seconds is None or isinstance(args.study, str)):
        s, args.timed = load(name, seconds), True
    return s


def run_study(name: str, args: argparse.Namespace) -> tuple[Study, Run]:
    """Return a study with its run; a refusal is raised with its file."""
    s = None
    try:
        s = load_study(name, args)
        return s, s.run()
    except Refused as e:
        raise RefusedStudy(f"{name}: {s.describe_refusal(e) if s else e}", e) from None


def run_studies(args: argparse.Namespace) -> list[tuple[Study, Run]]:
    """Return the studies of a command that takes several.

    --seconds must be of use to one of them.
    """
    args.timed = False
    pairs = [run_study(name, args) for name in args.study]
    if args.seconds is not None and not args.timed:
        raise StudyError(UNUSED_SECONDS)
    return pairs


UNUSED_SECONDS = (
    "--seconds is for records of version 1, and each study here has a step's seconds itself"
)
