"""Marks of a class: each answer with its exercise, one table for the lecturer.

A message names each answer that can't be read, and the others are marked.
"""
import argparse
import sys
from pathlib import Path

from .. import output_files
from ..engine import Refused
from ..errors import RefusedStudy, StudyError
from ..input_files import is_same_file
from . import answers, marking
from .exercises import MOST_STUDENTS, Seat, exercise_from_file, file_stem, read_class
from .marking import Mark

FORMS = (".csv", ".json")


def find_answers(names: list[str], outputs: list[Path]) -> list[Path]:
    """Return the answers of folders and files, in order.

    Tables that this command writes are not answers.
    """
    found = []
    for name in names:
        path = Path(name)
        if path.is_dir():
            inside = sorted(x for x in path.iterdir() if x.is_file())
            found += [
                x
                for x in inside
                if x.suffix.lower() in FORMS and not any(is_same_file(x, y) for y in outputs)
            ]
            if other := [
                x.name
                for x in inside
                if x.suffix.lower() not in FORMS
                and not x.name.startswith(".")
                and not any(is_same_file(x, y) for y in outputs)
            ]:
                print(
                    (
                        f"nobyaluk: {path}: {len(other)} file{'s' * (len(other) != 1)} neither .csv"
                        f" nor .json, not marked: {', '.join(other[:5])}"
                    ),
                    file=sys.stderr,
                )
        elif path.exists():
            found.append(path)
        else:
            raise FileNotFoundError(2, "No such file or directory", str(path))
    if not 0 < len(found) <= MOST_STUDENTS:
        raise StudyError(
            f"{' '.join(names)[:200]}: {len(found):,} answers; there are 1 to {MOST_STUDENTS:,}, as"
            " .csv or .json"
        )
    return found


def find_seat(seats: list[Seat], path: Path) -> tuple[Seat, str]:
    """Return the exercise of an answer, and the student's name.

    StudyError if the answer is to another exercise, or to none.
    """
    said = answers.read_answer_head(path)
    student = said.name or path.stem.removeprefix("answers-")
    mine = find_seats(seats, student, path) or [
        x for x in seats if not x.student and (len(seats) == 1 or x.file == path.stem)
    ]
    named = [
        x
        for x in seats
        if (
            said.record == x.exercise.study.record.data
            if said.record is not None
            else said.exercise == x.exercise.id
        )
    ]
    if mine:
        if (said.record is not None or said.exercise) and not any(
            x.exercise.id == mine[0].exercise.id for x in named
        ):
            other = said.exercise or "a record of its own"
            raise StudyError(
                f"{path}: it answers {other}, and the exercise is {mine[0].exercise.id}"
            )
        return mine[0], mine[0].student or student
    if named:
        return named[0], student
    raise StudyError(
        f"{path}: nobody in the class is called {student!r}, and the file names no exercise of the"
        " class"
    )


def find_seats(seats: list[Seat], student: str, path: Path) -> list[Seat]:
    """Return the places in the class of a student of this name.

    If there are none, the name is compared as a file name, then the answer's own file name.
    """
    known = [x for x in seats if x.student]
    named = [x for x in known if x.student.casefold() == student.casefold()] or [
        x for x in known if x.file == file_stem(student)
    ]
    return named or [x for x in known if x.file == file_stem(path.stem.removeprefix("answers-"))]


def mark_unread(seats: list[Seat], path: Path, fault: str) -> tuple[Mark, Seat | None]:
    """Return the fault of a file as a mark, for the student whose name it has."""
    try:
        student = answers.read_answer_head(path).name or path.stem
    except (OSError, StudyError):
        student = path.stem
    seat = next(iter(find_seats(seats, student, path)), None)
    return Mark(seat.student if seat else path.stem, str(path), fault=fault), seat


def mark_file(seats: list[Seat], path: Path) -> tuple[Mark, Seat | None]:
    """Return the mark of one file, or its fault if it can't be read.

    The student's place in the class is returned too, or None.
    """
    try:
        seat, student = find_seat(seats, path)
        e = seat.exercise
        return (
            marking.mark_answer(
                e, answers.read_answer(path, e.n, len(e.ramps), e.study.record.steps), student
            ),
            seat,
        )
    except OSError as e:
        return mark_unread(seats, path, f"{path}: it can't be read: {e.strerror}")
    except StudyError as e:
        return mark_unread(seats, path, str(e))


def mark(args: argparse.Namespace) -> int:
    """Mark all answers and write both tables; return 2 if none could be read."""
    stem = Path(args.output)
    stem = stem.with_suffix("") if stem.suffix in (".csv", ".html") else stem
    outputs = [stem.with_name(f"{stem.name}{x}") for x in (".csv", ".html")]
    try:
        seats = (
            read_class(Path(args.study))
            if Path(args.study).is_dir()
            else [Seat("", "", exercise_from_file(args.study))]
        )
    except Refused as e:
        raise RefusedStudy(f"{args.study}: {e}", e) from None
    found = find_answers(args.answers, outputs)
    marks = order_marks(seats, [mark_file(seats, path) for path in found])
    for path, data in zip(
        outputs, (marking.marks_csv(marks), marking.marks_page(marks, args.title)), strict=True
    ):
        output_files.write_file(path, data, [*found, *class_files(args.study)])
    for m in marks:
        print(f"  {m.student}: {mark_line(m)}")
    print(
        f"{outputs[0]} and {outputs[1]}: {sum(not m.fault for m in marks)} marked of {len(marks)}"
    )
    for m in marks:
        if m.fault and m.file:
            print(f"nobyaluk: {m.fault}", file=sys.stderr)
    return 0 if any(not m.fault for m in marks) else 2


def order_marks(seats: list[Seat], marked: list[tuple[Mark, Seat | None]]) -> list[Mark]:
    """Return all marks in the order of the class, with students who handed nothing in.

    Files that belong to nobody in the class come last.
    """
    out: list[Mark] = []
    for seat in seats:
        own = [m for m, x in marked if x is seat]
        out += own or (
            [Mark(seat.student, "", seat.exercise.id, fault="no answer")] if seat.student else []
        )
    return out + [m for m, x in marked if x is None]


def class_files(name: str) -> list[Path]:
    """Return the file that says who has which exercise; no table may replace it."""
    return [Path(name) / "class.csv"] if Path(name).is_dir() else []


def mark_line(m: Mark) -> str:
    """Return one line of a student's mark."""
    if m.fault:
        return "nothing is answered" if m.empty else "no answer" if not m.file else "can't be read"
    total = (
        "no total"
        if m.right is None
        else "total right" if m.right else f"total {m.total}, {m.best} is right ({m.diagnosis})"
    )
    extra = f"; {m.diagnosis}" if m.right is not False and m.diagnosis else ""
    return f"outflows {m.outflows}{extra}; {total}"
