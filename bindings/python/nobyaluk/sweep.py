"""The table of a sweep, written while its studies run.

Rows go to FILE.part, which becomes FILE when all of them are there. An interrupted sweep continues
from FILE.part. Rows for standard output, a device or a pipe are written to it directly.
"""
import csv
import fcntl
import io
import os
import re
import signal
import sys
import threading
import time
from collections.abc import Callable, Iterator, Sequence
from contextlib import contextmanager, suppress
from functools import cached_property
from pathlib import Path
from typing import Any, TextIO

import numpy as np

from . import output_files, parallel, summary
from .errors import StudyError
from .formatting import csv_safe
from .many import ManyArrivals, ManyLaws
from .study import Study
from .sweep_studies import Sweep
from .totals import Totals, totals_and_queues

PARTS = ("total", "gate", "road", "ramp")
ROW = "%s,%.4f,%.4f,%.4f,%.4f,%d%s,%d%s,%d%s,\n"  # with numbers, without a weighted total
THOUSANDTHS = np.array([repr(x / 1000)[1:] for x in range(1000)], object)  # as .0 and .125
PATIENCE = 3  # seconds to wait for a file that processes of a killed sweep may still hold


class Terminated(BaseException):
    """The process received SIGTERM, as from a batch system at its time limit."""


@contextmanager
def raise_on_sigterm() -> Iterator[None]:
    """Raise Terminated on SIGTERM within a with-block, so that its processes are ended.

    Outside the main thread the handler of SIGTERM stays unchanged.
    """

    def end(*_: Any) -> None:
        raise Terminated

    if threading.current_thread() is not threading.main_thread():
        yield
        return
    was = signal.signal(signal.SIGTERM, end)
    try:
        yield
    finally:
        signal.signal(signal.SIGTERM, was)


class SweepRows:
    """The heading and the rows of a sweep as lines of CSV, in vehicle-hours or vehicle-steps."""

    def __init__(self, sweep: Sweep, s: Study) -> None:
        self.sweep, self.weighed = sweep, s.weights is not None
        self.seconds = s.seconds
        self.factor, unit = summary.per_hour(s.seconds)  # a part-step in the rows' unit
        unit = unit.replace("-", "_")
        self.heading = [
            *map(csv_safe, sweep.names),
            *(f"{x}_{unit}" for x in PARTS),
            "longest_gate_queue_veh",
            "longest_ramp_queue_veh",
            "left_veh",
            *[f"weighted_{unit}"] * self.weighed,
            "refused",
        ]

    @cached_property
    def together(self) -> ManyArrivals | ManyLaws | None:
        """What runs many studies in a few calls; None if each is run separately."""
        try:
            return self.sweep.together()
        except (StudyError, ValueError, TypeError):  # each study reports its own fault
            return None

    def run(self, each: Callable[[Study], Totals], items: Sequence[Any]) -> list[str]:
        """Return the rows of studies, given as numbers or as pairs of number and study."""
        if each is not totals_and_queues or self.together is None:
            return self.run_alone(each, items)
        entries, alone = self.together.entries(items)
        lines = self.lines(items, entries)
        for at in alone:
            lines[at : at + 1] = self.run_alone(each, items[at : at + 1])
        return lines

    def run_alone(self, each: Callable[[Study], Totals], items: Sequence[Any]) -> list[str]:
        """Return the rows of studies, each made separately."""
        pairs = [(x, self.sweep.study(x)) if isinstance(x, int) else x for x in items]
        found = parallel.run_group(each, [study for _, study in pairs])
        return [self.line(k, t) for (k, _), t in zip(pairs, found)]

    def lines(self, ks: Sequence[int], entries: np.ndarray) -> list[str]:
        """Return the rows of short entries."""
        texts = self.sweep.texts(ks)
        columns = list(entries[:, [6, 3, 4, 5]].T * self.factor)  # total, gate, road, ramp
        for whole, part in zip(*np.divmod(entries[:, [9, 10, 7]].T, 1000)):  # queues and exits
            columns += [whole, THOUSANDTHS[part]]
        out = [ROW % row for row in zip(texts, *[x.tolist() for x in columns])]
        for at in np.flatnonzero(entries[:, 0]).tolist():
            why = " ".join(map(str, entries[at, :3].tolist()))
            out[at] = f"{texts[at]}{',' * (len(self.heading) - len(self.sweep.axes))}{why}\n"
        return out

    def line(self, k: int, t: Totals) -> str:
        """Return study k's row; if it has no numbers, its last column gives the reason."""
        (text,) = self.sweep.texts([k])
        if t.refused or t.fault:
            why = csv_safe(" ".join((t.fault or "").split()))  # a row is one line
            if t.refused:
                why = t.refused.line.removeprefix("refused ")
            numbers: list[Any] = [""] * (len(self.heading) - len(self.sweep.axes) - 1)
            return f"{text},{csv_line([*numbers, why])}"
        if t.seconds is not self.seconds:  # variants of one study share this object
            self.seconds, self.factor = t.seconds, summary.per_hour(t.seconds)[0]
        factor = self.factor
        weighted = [f"{(t.weighted or 0) * factor:.4f}"] if self.weighed else []
        numbers = [
            *(f"{x * factor:.4f}" for x in (t.total, t.gate, t.road, t.ramp)),
            (t.longest_gate_queue or 0) / 1000,
            (t.longest_ramp_queue or 0) / 1000,
            t.exits / 1000,
            *weighted,
        ]
        return f"{text},{csv_line([*numbers, ''])}"

    def lost(self, item: Any, fault: str) -> str:
        """Return the row of a study whose processes died."""
        return self.line(item if isinstance(item, int) else item[0], Totals("", fault=fault))


def csv_line(row: Sequence[Any]) -> str:
    """Return one row of CSV."""
    f = io.StringIO()
    csv.writer(f, lineterminator="\n").writerow(row)
    return f.getvalue()


class SweepTable:
    """The file for the rows, and how many of them were refused or failed.

    It has `done` rows. The with-block's end closes it; after an error the rows stay in FILE.part.
    """

    def __init__(
        self, path: str, rows: SweepRows, sum_: str, resume: bool = False, force: bool = False
    ) -> None:
        self.path, self.rows, self.done, self.part = path, rows, 0, None
        self.refused = self.faults = 0
        self.first = ""  # the first fault
        self.file: TextIO = sys.stdout
        output_files.check_writable(path)
        if path != "-" and os.path.exists(path) and not os.path.isfile(path):
            self.file = open(path, "w", encoding="utf-8", newline="")
        elif path != "-":
            self.part = Path(f"{os.path.realpath(path)}.part")
            output_files.check_target(self.part)
            self._open(self.part, f"# nobyaluk sweep {sum_}\n", resume, force)
        elif resume:
            raise StudyError(
                "--resume continues a file: it needs the -o FILE.csv of the interrupted sweep"
            )

    def _open(self, part: Path, mark: str, resume: bool, force: bool) -> None:
        """Open the file that already has rows, or a new one."""
        try:
            self.file = part.open("a+", encoding="utf-8", newline="")
            self._lock()
            self.file.seek(0)
            there = self.file.read()
        except (OSError, UnicodeDecodeError) as e:
            raise output_files.NotWritten(
                f"{self.part} could not be written: {getattr(e, 'strerror', None) or e}"
            ) from None
        if resume and there:
            self._resume(there, mark)
        elif there.count("\n") > 2 and not force:
            raise StudyError(
                f"{self.part}: a sweep was interrupted after {there.count(chr(10)) - 2:,} rows;"
                " --resume continues it, --force starts again"
            )
        else:
            self.file.truncate(0)
            self.file.write(mark)

    def _lock(self) -> None:
        """Wait until no other process writes the file; StudyError if one still does."""
        end = time.monotonic() + PATIENCE
        while True:
            try:
                return fcntl.flock(self.file, fcntl.LOCK_EX | fcntl.LOCK_NB)
            except BlockingIOError:
                if time.monotonic() > end:
                    raise StudyError(f"{self.part}: another sweep is writing it") from None
                time.sleep(0.1)

    def _resume(self, there: str, mark: str) -> None:
        """Continue after the last whole row; StudyError if the rows are another sweep's."""
        whole = there[: there.rfind("\n") + 1]
        try:
            rows = list(csv.reader(io.StringIO(whole.removeprefix(mark), newline="")))
        except csv.Error:
            rows = [[]]
        heading, most = self.rows.heading, len(self.rows.sweep)
        if (
            not whole.startswith(mark)
            or rows
            and rows[0] != heading
            or len(rows) - 1 > most
            or any(len(row) != len(heading) for row in rows)
        ):
            raise StudyError(
                f"{self.part}: these are rows of another sweep, or the study has changed; --force"
                " starts again"
            )
        for row in rows[1:]:
            self.count(row[-1])
        self.done = max(0, len(rows) - 1)
        self.file.truncate(len(whole.encode() if self.done else mark))
        self.file.seek(0, os.SEEK_END)

    def write(self, text: str) -> None:
        """Write rows in one call, so that no row is written in part."""
        try:
            self.file.write(text)
            self.file.flush()
        except BrokenPipeError:
            raise
        except OSError as e:
            if self.part is None:
                raise
            raise output_files.NotWritten(
                f"{self.part} could not be written: {e.strerror or e}"
            ) from None

    def add(self, lines: Sequence[str]) -> None:
        """Write the rows of the next studies; the heading comes before the first."""
        for line in lines:
            if not line.endswith(",\n"):  # its last column is not empty
                self.count(next(csv.reader([line]))[-1])
        self.write("".join([*[csv_line(self.rows.heading)] * (not self.done), *lines]))
        self.done += len(lines)

    def count(self, why: str) -> None:
        """Count a row as refused or failed, by its last column."""
        if re.fullmatch(r"\d+ \d+ \d+", why):
            self.refused += 1
        elif why:
            self.faults += 1
            self.first = self.first or why

    def where(self) -> str:
        """Return the message after an interruption: the rows that are there, and how to continue.

        It is empty if there are no rows.
        """
        if self.part is None or not self.done:
            return ""
        return (
            f"{self.part} has {self.done:,} of {len(self.rows.sweep):,} rows; the same command with"
            " --resume continues"
        )

    def __enter__(self) -> "SweepTable":
        return self

    def __exit__(self, kind: type[BaseException] | None, *_: Any) -> None:
        try:
            if self.part is not None and kind is None:
                self.file.seek(0)
                self.file.readline()
                output_files.write_file(self.path, self.file.read())
            if self.part is not None and (kind is None or not self.done):
                self.part.unlink(missing_ok=True)
        finally:
            with suppress(OSError):  # a failed write has been reported already
                if self.file is not sys.stdout:
                    self.file.close()
