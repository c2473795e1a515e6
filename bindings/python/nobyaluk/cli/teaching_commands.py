"""The commands of a course: exercise, mark."""
import argparse
import sys
from pathlib import Path

from .. import engine, study_writer
from ..engine import Refused
from ..errors import RefusedStudy, StudyError
from ..input_files import read_record
from ..teaching import class_marks, exercises
from ..teaching.sheet import Exercise
from ..teaching.words import LANGUAGES
from .arguments import file_to_write, limit, study_arguments
from .declaration import argument, command
from .running import load_study, run_study


@command(
    "exercise STUDY -o FOLDER",
    "write sheets and keys of an exercise; --seed draws a road; without -o print its listing",
    *study_arguments("?"),
    argument(
        "--seed",
        help=(
            "draw a road, 0 to 4294967295; with --students, it is the first student's seed, and"
            " each further student has the next one"
        ),
    ),
    argument("--seeds", metavar="FIRST:LAST", help="draw a road for each seed, as 1:30"),
    argument(
        "--students",
        reads=True,
        metavar="FILE",
        help="a list with one name per line; each student gets a sheet",
    ),
    argument(
        "--cells",
        type=limit,
        help="the cells of a seed's road, default: 4; the most cells of a study, default: 8",
    ),
    argument("--steps", type=limit, help="the steps of a seed's road, default: 6"),
    argument(
        "--bytes",
        type=limit,
        help="the most bytes of a study's record, default: 4,096; sheets take no more",
    ),
    argument(
        "--lang", choices=LANGUAGES, default="en", help="language of sheets and keys, default: en"
    ),
    argument("--title", help="title of sheets and keys, default: the study's own"),
    argument(
        "--listing",
        action="store_true",
        help="print every step and place, as the exercise program does; also without -o",
    ),
    argument("--no-pdf", action="store_true", help="write only HTML, which is faster"),
    argument(
        "-o",
        "--output",
        metavar="FOLDER",
        help="for sheets to hand out, keys, answer forms and class.csv",
    ),
    examples=[
        "exercise question.toml -o class",
        "exercise --seed 7 --cells 4 --steps 6 -o class --lang de",
        "exercise --seed 1 --students names.txt -o class",
        "exercise examples/exercise/road.toml --listing",
        "exercise my-road.rec --cells 4 --bytes 2048",
    ],
)
def exercise(args: argparse.Namespace) -> None:
    """Write the sheets and keys of an exercise, or print its listing."""
    check_options(args)
    one = exercise_of_study(args) if args.study is not None else None
    if args.output is None or args.listing:
        if args.students is not None or args.seeds is not None:
            raise StudyError(
                "the listing is of one exercise; -o FOLDER writes the sheets of a class"
            )
        listed = one or exercises.assign_exercises(args, None, "")[0].exercise
        sys.stdout.write(engine.listing(listed.run))
    if args.output is not None:
        seats = exercises.assign_exercises(args, one, args.title or "")
        exercises.write_class(seats, args)


def check_options(args: argparse.Namespace) -> None:
    """Raise StudyError if options of `exercise` do not go together."""
    if (args.study is None) == (args.seed is None and args.seeds is None):
        raise StudyError(
            "an exercise is of a STUDY, or drawn by --seed or --seeds: name one of them"
        )
    if args.seed is not None and args.seeds is not None:
        raise StudyError("--seed and --seeds are both there; name one of them")
    if args.study is None and (args.seconds is not None or args.bytes is not None):
        raise StudyError("--seconds and --bytes are for a STUDY, and a seed draws its own road")
    if args.study is not None and args.steps is not None:
        raise StudyError("--steps is for a road that a seed draws; a study has its own")
    if args.study is None or args.output is None:
        return
    limits: tuple[tuple[str, int | None, int], ...] = (
        ("--cells", args.cells, engine.EXERCISE_CELLS),
        ("--bytes", args.bytes, engine.EXERCISE_BYTES),
    )
    for option, given, most in limits:
        if given is not None and given > most:
            raise StudyError(
                f"{option} is {given}; a sheet is of at most {most:,}, as `mark` takes it;"
                " larger limits are for the listing, without -o"
            )


def exercise_of_study(args: argparse.Namespace) -> Exercise:
    """Return the exercise of a study.

    A refusal's line is printed as the exercise program prints it.
    """
    cells = args.cells if args.cells is not None else engine.EXERCISE_CELLS
    most = args.bytes if args.bytes is not None else engine.EXERCISE_BYTES
    try:
        if Path(args.study).suffix == ".rec":  # its limits come before what else may be wrong
            engine.read_within(read_record(args.study), cells, most)
        s = load_study(args.study, args)
        if isinstance(s.record, engine.Record):  # a longer one has no record to print
            engine.read_within(s.record.data, cells, most)
        s, r = run_study(args.study, args)
        engine.read_within(study_writer.run_bytes(r, s), cells, most)
    except (Refused, RefusedStudy) as e:
        refused = e if isinstance(e, Refused) else e.refused
        print(refused.line)
        words = str(e) if e is not refused else f"{args.study}: {e}"
        raise RefusedStudy(words, refused) from None
    if s.weights is not None and args.output is not None:
        print(
            (
                f"nobyaluk: note: {args.study} has [weights]; sheet and key ask for the plain"
                " total, in which all waiting counts alike"
            ),
            file=sys.stderr,
        )
    return exercises.exercise_from_study(s, r)


@command(
    "mark FOLDER ANSWERS",
    "mark a class's answers: first broken rules, totals, and where wrong totals come from",
    argument(
        "study",
        reads=True,
        metavar="EXERCISE",
        help="the folder that `exercise -o` wrote, or a study of at most 8 cells and 4,096 bytes",
    ),
    argument(
        "answers",
        reads=True,
        metavar="ANSWERS",
        nargs="+",
        help="folders of answers, or files: .csv, or .json as the page saves them",
    ),
    argument(
        "-o",
        "--output",
        default="marks",
        type=file_to_write,
        metavar="NAME",
        help="write the tables NAME.csv and NAME.html, default: marks",
    ),
    argument("--title", default="Marks", help="title of the page, default: Marks"),
    examples=["mark class answers", "mark question.toml anna.csv answers-ben.json -o marks"],
)
def mark(args: argparse.Namespace) -> int:
    """Mark the answers of a class."""
    return class_marks.mark(args)
