"""Sheets, keys and answer forms of a class as files, and the class as `mark` reads it."""
import argparse
import csv
import hashlib
import io
import re
import sys
from collections.abc import Iterable
from dataclasses import dataclass, replace
from pathlib import Path

from .. import engine, output_files
from .. import study as studies
from .. import study_writer
from ..engine import Refused, record_data
from ..errors import StudyError, parse_whole, show
from ..formatting import csv_safe
from ..input_files import read_record, read_text
from ..progress import Progress
from ..study import Study
from . import seeded_roads, sheet
from .marking import find_mistakes
from .sheet import Exercise
from .words import Words

MOST_STUDENTS, MOST_NAME = 2000, 100
MOST_LIST = 1 << 20  # bytes of a list of students, or of class.csv
CELLS, STEPS = 4, 6  # of a road that a seed draws


@dataclass(frozen=True)
class Seat:
    """A student of a class with an exercise; an empty name means everybody."""

    student: str
    file: str  # the beginning of their files' names
    exercise: Exercise


def exercise_from_study(s: Study, run: engine.Run) -> Exercise:
    """Return the exercise of a study that was run: its record has the run's releases."""
    s = replace(s, record=run.record, laws={}, plan=None, weights=None)
    return Exercise(s, run, f"record={hashlib.sha256(run.record.data).hexdigest()[:16]}")


def exercise_from_seed(seed: int, cells: int, steps: int, title: str = "") -> Exercise:
    """Return the exercise that a seed draws; Refused (CALLER_LIMITS) if it is too large."""
    record = seeded_roads.draw_road(seed, cells, steps)
    names = [str(i + 1) for i in range(cells)]
    s = Study(
        f"seed-{seed}",
        title or f"seed {seed}",
        record,
        cell_names=names,
        ramps={str(cell): cell for cell in record.ramps},
    )
    return Exercise(s, engine.run(record), f"seed={seed}&cells={cells}&steps={steps}", seed)


def exercise_from_file(path: str | Path) -> Exercise:
    """Return the exercise of a study's file, within an exercise's limits; Refused otherwise."""
    if Path(path).suffix == ".rec":  # its limits come before what else may be wrong with it
        engine.read_within(read_record(path))
    s = studies.load(path)
    if isinstance(s.record, engine.Record):
        engine.read_within(s.record.data)
    run = s.run()
    engine.read_within(study_writer.run_bytes(run, s))
    return exercise_from_study(s, run)


def file_stem(name: str) -> str:
    """Return the letters and digits of a name, joined by hyphens; at most 60."""
    return re.sub(r"[\W_]+", "-", name).strip("-").lower()[:60].strip("-") or "student"


def read_students(path: str) -> list[str]:
    """Return the names of a list with one name per line."""
    names = [line.strip() for line in read_text(path, MOST_LIST).splitlines()]
    names = [x for x in names if x and not x.startswith("#")]
    for x in names:
        if len(x) > MOST_NAME or not x.isprintable():
            raise StudyError(
                f"{path}: {show(x)} is no name; a line has one name of at most {MOST_NAME} letters"
                " that can be printed"
            )
    if not 0 < len(names) <= MOST_STUDENTS:
        raise StudyError(
            f"{path}: {len(names):,} names; a list has 1 to {MOST_STUDENTS:,}, one a line"
        )
    if twice := next(
        (x for i, x in enumerate(names) if x.lower() in [y.lower() for y in names[:i]]), None
    ):
        raise StudyError(f"{path}: {show(twice)} appears twice")
    return names


def parse_seeds(args: argparse.Namespace) -> list[int]:
    """Return the seeds of --seed and --seeds; none if a study is named."""
    if args.seeds is not None:
        found = re.fullmatch(r"([0-9]{1,10}):([0-9]{1,10})", args.seeds)
        low, high = (int(x) for x in found.groups()) if found else (1, 0)
        if not low <= high <= seeded_roads.SEEDS or high - low >= MOST_STUDENTS:
            raise StudyError(
                f"--seeds is {show(args.seeds)}; it is FIRST:LAST, as 1:30, of at most"
                f" {MOST_STUDENTS:,} seeds from 0 to {seeded_roads.SEEDS}"
            )
        return list(range(low, high + 1))
    if args.seed is None:
        return []
    try:
        return [parse_whole(args.seed, seeded_roads.SEEDS)]
    except ValueError:
        raise StudyError(
            f"--seed is {show(args.seed)}; it is a whole number from 0 to {seeded_roads.SEEDS}"
        ) from None


def drawn_size(args: argparse.Namespace) -> tuple[int, int]:
    """Return cells and steps of a road that a seed draws."""
    cells, steps = args.cells if args.cells is not None else CELLS, (
        args.steps if args.steps is not None else STEPS
    )
    if not 1 <= cells <= engine.EXERCISE_CELLS:
        raise StudyError(
            f"--cells is {show(cells)}; a road of a seed has 1 to {engine.EXERCISE_CELLS}"
        )
    if not 1 <= steps <= engine.STEPS:
        raise StudyError(
            f"--steps is {show(steps)}; a road of a seed has 1 or more, as many as"
            f" {engine.EXERCISE_BYTES:,} bytes hold"
        )
    return cells, steps


def assign_exercises(args: argparse.Namespace, one: Exercise | None, title: str) -> list[Seat]:
    """Return who has which exercise: everybody the same study, or each student a separate road."""
    students = read_students(args.students) if args.students is not None else None
    if one is not None:
        return (
            [Seat(name, file, one) for name, file in zip(students, _apart(students))]
            if students
            else [Seat("", "exercise", one)]
        )
    seeds = parse_seeds(args)
    cells, steps = drawn_size(args)
    if students and len(seeds) == 1:
        seeds = [(seeds[0] + i) % (seeded_roads.SEEDS + 1) for i in range(len(students))]
    if students and len(seeds) != len(students):
        raise StudyError(
            f"{args.students} has {len(students)} names and --seeds {len(seeds)} seeds; name the"
            " first seed by --seed, and the others follow it"
        )
    drawings = [exercise_from_seed(seed, cells, steps, title) for seed in seeds]
    if students:
        return [Seat(*x) for x in zip(students, _apart(students), drawings)]
    return [Seat("", f"seed-{e.seed}", e) for e in drawings]


def _apart(names: Iterable[str]) -> list[str]:
    """Return file names of students, all different."""
    out: list[str] = []
    for name in map(file_stem, names):
        count = 2
        while name in out:
            name, count = f"{name.rpartition('-')[0] if count > 2 else name}-{count}", count + 1
        out.append(name)
    return out


def answer_form(e: Exercise, t: Words, student: str) -> str:
    """Return an empty answer form for a spreadsheet.

    Semicolons separate fields if the language's decimal mark is a comma.
    """
    places = [t("gate"), *(t("cell", x=i + 1) for i in range(e.n))]
    states = [
        f"{t('form.queue' if p == 0 else 'form.held')} {name}" for p, name in enumerate(places)
    ] + [f"{t('form.queue')} {t('ramp', x=cell)}" for cell in e.ramps]
    f = io.StringIO()
    out = csv.writer(f, delimiter="," if t.language == "en" else ";", lineterminator="\n")
    small = (lambda x: x) if t.language == "de" else str.lower  # German nouns keep their capitals
    out.writerows(
        [
            [small(t("exercise")), e.id],
            [small(t("name")), csv_safe(student)],
            [t("form.unit"), t("form.parts")],
        ]
    )
    out.writerow([t("step"), *(f"{t('form.outflow')} {x}" for x in places), *states])
    out.writerows(
        [k, *[""] * (2 * len(places) + len(e.ramps))] for k in range(e.study.record.steps)
    )
    out.writerows([f"{small(t('times'))} {t(f'time.{x}')}", ""] for x in ("gate", "road", "ramp"))
    out.writerows([[t("total"), ""], [t("form.whose"), ""]])
    return ("\ufeff" if t.language != "en" else "") + f.getvalue()


HEADING = ["student", "exercise", "study", "files"]


def class_files(seats: list[Seat], t: Words, title: str, folder: Path) -> dict[Path, str | bytes]:
    """Return all files of a class except the PDFs.

    These are sheets and forms, all keys in one page, the exercises, and who has which.
    """
    files: dict[Path, str | bytes] = {}
    rows: list[list[str]] = []
    keys: dict[str, tuple[Exercise, list[str]]] = {}
    where: dict[str, Path] = {}
    for seat in seats:
        e = seat.exercise
        if e.id not in where:
            path = folder / "records" / f"{'exercise' if e.seed is None else e.study.name}.rec"
            kept = e.study if e.seed is None else replace(e.study, title=e.study.name)
            more, _ = study_writer.record_files(kept, record_data(e.study.record), path, [])
            files.update(more)
            where[e.id] = next((x for x in more if x.suffix == ".toml"), path).relative_to(folder)
        keys.setdefault(e.id, (e, []))[1].append(seat.student)
        called = title or (e.study.title if e.seed is None else t("exercise"))
        files[folder / "sheets" / f"{seat.file}.html"] = sheet.page_html(
            [sheet.sheet_html(e, t, called, seat.student)], t, called, e.n
        )
        files[folder / "sheets" / f"{seat.file}.csv"] = answer_form(e, t, seat.student)
        rows.append([csv_safe(seat.student), e.id, where[e.id].as_posix(), seat.file])
    called = title or (
        seats[0].exercise.study.title if seats[0].exercise.seed is None else t("exercise")
    )
    bodies = [
        sheet.key_html(e, t, find_mistakes(e), called, [x for x in names if x])
        for e, names in keys.values()
    ]
    files[folder / "keys.html"] = sheet.page_html(
        bodies, t, f"{t('key')}{t.colon} {called}", max(e.n for e, _ in keys.values())
    )
    f = io.StringIO()
    csv.writer(f, lineterminator="\n").writerows([HEADING, *rows])
    files[folder / "class.csv"] = f.getvalue()
    return files


def write_class(seats: list[Seat], args: argparse.Namespace) -> None:
    """Write a class's folder and print what is in it."""
    t, folder = Words(args.lang), Path(args.output)
    files = class_files(seats, t, args.title or "", folder)
    pages = {path: str(x) for path, x in files.items() if path.suffix == ".html"}
    make = None if args.no_pdf else sheet.pdf_maker()
    pdfs: dict[Path, bytes] = {}
    with Progress(len(pages), "PDFs") as say:
        for path, page in pages.items():
            if make is not None:
                pdfs[path.with_suffix(".pdf")] = make(page)
                say(len(pdfs))
    for name in ("", "sheets", "records"):
        output_files.make_folder(folder / name)
    output_files.write_files({**files, **pdfs}, pdfs, getattr(args, "force", False))
    count = len(seats)
    print(
        f"{folder / 'sheets'}: {'1 sheet' if count == 1 else f'{count} sheets'} to hand out,"
        f" {'' if count == 1 else 'each '}with an answer form (.csv)"
    )
    print(
        f"{folder / 'keys.html'}: {'the key' if count == 1 else 'all keys'}, with wrong totals and"
        " their mistakes"
    )
    print(f"{folder / 'class.csv'}: who has which exercise, for `mark`")
    if make is None and not args.no_pdf:
        print(f"nobyaluk: {sheet.MISSING}", file=sys.stderr)


def read_class(folder: Path) -> list[Seat]:
    """Return the class of a folder that `exercise` wrote; any other folder is a fault."""
    path = folder / "class.csv"
    if not path.is_file():
        raise StudyError(
            f"{folder}: it has no class.csv; name a folder that `exercise -o` wrote, or a study"
        )
    try:
        rows = list(csv.reader(io.StringIO(read_text(path, MOST_LIST), newline="")))
    except csv.Error as e:
        raise StudyError(f"{path}: {e}") from None
    if not rows or rows[0] != HEADING or len(rows) < 2 or len(rows) > MOST_STUDENTS + 1:
        raise StudyError(
            f"{path}: it is not as `exercise -o` writes it: {', '.join(HEADING)}, then a row for"
            " each student"
        )
    seats: list[Seat] = []
    known: dict[str, Exercise] = {}
    for number, row in enumerate(rows[1:], 2):
        if len(row) != len(HEADING):
            raise StudyError(f"{path}, row {number}: {len(row)} fields; a row has {len(HEADING)}")
        student, id_, study, file = row
        if study not in known:
            known[study] = _read_exercise(folder, study, f"{path}, row {number}")
        one = replace(known[study], id=id_, seed=_seed_of(id_))
        own = one.seed is not None or known[study].id == id_
        if not id_.startswith(("seed=", "record=")) or not own:
            raise StudyError(
                f"{path}, row {number}: the exercise is {show(id_)}, and {study} is"
                f" {known[study].id}"
            )
        seats.append(Seat(student.removeprefix("'"), file, one))
    return seats


def _seed_of(id_: str) -> int | None:
    found = re.match(r"seed=([0-9]{1,10})&", id_)
    return int(found[1]) if found else None


def _read_exercise(folder: Path, study: str, where: str) -> Exercise:
    if Path(study).is_absolute() or ".." in Path(study).parts or "\0" in study:
        raise StudyError(f"{where}: the study is {show(study)}; it is a file in this folder")
    try:
        return exercise_from_file(folder / study)
    except Refused as e:
        raise StudyError(f"{where}: {study}: {e}") from None
