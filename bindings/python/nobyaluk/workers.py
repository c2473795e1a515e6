"""Processes of this machine that run studies, each with its own pipe.

If one dies, the others go on.

The studies of a process that dies (killed, or out of memory) are run again, one by one. If two
processes die while they run one study, it counts as lost, and the others go on. When the parent
ends, for whatever reason, its processes end too.
"""
import multiprocessing
import os
import pickle
import signal
import threading
import time
from collections import deque
from collections.abc import Callable, Iterable, Iterator
from contextlib import suppress
from itertools import islice
from multiprocessing.connection import Connection, wait
from typing import Any, NamedTuple

TASK = 0.02  # seconds that a task should take
MOST = 1024  # studies in a task, at most
GROWTH = 4  # a task has at most this many times the studies of the one before
AHEAD = 64  # tasks that may be started before the oldest one has its answers
DEATHS = 2  # deaths of processes after which a study counts as lost
SIGNALS = {signal.SIGINT, signal.SIGTERM}
PATROL = 0.5  # seconds between two checks that the parent runs

Run = Callable[[list[Any]], list[Any]]
Lost = Callable[[Any, str], Any]  # a study whose processes died, and the message: its answer


def processors() -> int:
    """Return how many processors this process may use."""
    return len(os.sched_getaffinity(0)) if hasattr(os, "sched_getaffinity") else os.cpu_count() or 1


class Batches:
    """Studies in tasks of some milliseconds; the times of earlier tasks decide their size."""

    def __init__(
        self, studies: Iterable[Any], seconds: float = TASK, growth: int = GROWTH
    ) -> None:
        self.studies, self.seconds, self.growth = iter(studies), seconds, growth
        self.size, self.each = 1, 0.0

    def next(self) -> list[Any]:
        """Return the next task's studies; an empty list at the end."""
        return list(islice(self.studies, self.size))

    def took(self, count: int, seconds: float) -> None:
        """Note that so many studies took so many seconds.

        The next task has at most `growth` times as many.
        """
        self.each = seconds / count
        wanted = int(self.seconds / self.each) if self.each > 0 else MOST
        self.size = max(1, min(wanted, self.growth * max(count, self.size), MOST))


class Piece(NamedTuple):
    """A task, or a part of one that is run again.

    It has the task's number, where the part begins, its studies, and how many processes died.
    """

    number: int
    at: int
    studies: list[Any]
    deaths: int = 0


class _Worker:
    """One process, its pipe, and the piece that it is running."""

    def __init__(self, run: Run, others: list[Connection]) -> None:
        context = multiprocessing.get_context("fork")
        self.pipe, theirs = context.Pipe()
        self.piece: Piece | None = None
        was = signal.pthread_sigmask(
            signal.SIG_BLOCK, SIGNALS
        )  # until the process has its own handlers
        try:
            self.process = context.Process(
                target=_serve, args=(theirs, [self.pipe, *others], run, os.getpid()), daemon=True
            )
            self.process.start()
        except BaseException:
            self.pipe.close()
            raise
        finally:
            theirs.close()
            signal.pthread_sigmask(signal.SIG_SETMASK, was)

    def end(self) -> None:
        self.pipe.close()
        self.process.kill()
        self.process.join()


def _serve(pipe: Connection, others: list[Connection], run: Run, parent: int) -> None:
    """Run tasks: receive one from the pipe, send its answer and the seconds that it took.

    The process ends when the pipe is closed or the parent is gone.
    """
    signal.signal(
        signal.SIGINT, signal.SIG_IGN
    )  # Ctrl-C is for the parent, which ends its processes
    signal.signal(signal.SIGTERM, signal.SIG_DFL)
    signal.pthread_sigmask(signal.SIG_UNBLOCK, SIGNALS)
    for other in others:
        other.close()  # so that only the parent holds its ends
    threading.Thread(target=_watch, args=(parent,), daemon=True).start()
    with suppress(EOFError, OSError):
        while True:
            studies = pipe.recv()
            began = time.perf_counter()
            try:
                answer: Any = pickle.dumps(run(studies))
            except Exception as e:  # noqa: BLE001 raised again by the parent
                answer = RuntimeError(f"{type(e).__name__}: {e}")
            pipe.send((time.perf_counter() - began, answer))


def _watch(parent: int) -> None:
    """End this process when its parent is gone, even during a long study."""
    while os.getppid() == parent:
        time.sleep(PATROL)
    os._exit(1)


class Workers:
    """So many processes that run tasks.

    `lost` gives the answer for a study whose processes die.
    """

    def __init__(self, count: int, run: Run, lost: Lost) -> None:
        self.run, self.lost = run, lost
        self.workers: list[_Worker] = []
        try:
            for _ in range(count):
                self._start()
        except BaseException:
            self.close()
            raise

    def __enter__(self) -> "Workers":
        return self

    def __exit__(self, *_: Any) -> None:
        self.close()

    def close(self) -> None:
        """End all processes."""
        while self.workers:
            self.workers.pop().end()

    def _start(self) -> None:
        """Start one more process; if the system can't, there are fewer."""
        with suppress(OSError):
            self.workers.append(_Worker(self.run, [w.pipe for w in self.workers]))

    def map(self, batches: Batches) -> Iterator[list[Any]]:
        """Return the answers of all studies, task by task in their order."""
        tasks = _Tasks(batches)
        while not tasks.over:
            self._give(tasks)
            if not self.workers and (p := tasks.next()):  # no process could be started
                tasks.answered(p, self.run(p.studies))
            busy: dict[Any, _Worker] = {w.pipe: w for w in self.workers if w.piece is not None}
            for pipe in wait(list(busy)) if busy else ():
                self._take(busy[pipe], tasks)
            yield from tasks.finished()

    def _give(self, tasks: "_Tasks") -> None:
        """Give a task to each process that has none."""
        for w in [w for w in self.workers if w.piece is None]:
            w.piece = tasks.next()
            if w.piece is None:
                return
            try:
                w.pipe.send(w.piece.studies)
            except OSError:
                self._died(w, tasks)

    def _take(self, w: _Worker, tasks: "_Tasks") -> None:
        """Take the answer of a process; if it has died, plan its studies again."""
        try:
            seconds, found = w.pipe.recv()
        except (EOFError, OSError):
            return self._died(w, tasks)
        if isinstance(found, Exception):
            raise found
        answers = pickle.loads(found)
        tasks.batches.took(len(answers), seconds)
        if w.piece is not None:
            tasks.answered(w.piece, answers)
        w.piece = None

    def _died(self, w: _Worker, tasks: "_Tasks") -> None:
        """Replace a process that died, and plan its studies again, one by one.

        A study that has had too many deaths is lost.
        """
        w.process.join(1)
        self.workers.remove(w)
        w.end()
        self._start()
        for one in tasks.alone(w.piece) if w.piece else ():
            if one.deaths < DEATHS:
                tasks.again.append(one)
            else:
                fault = (
                    f"two processes ended while running it, the last {_why(w.process.exitcode)}; it"
                    " may need more memory than there is"
                )
                tasks.answered(one, [self.lost(one.studies[0], fault)])


class _Tasks:
    """Tasks that have been started, pieces to run again, and answers in the tasks' order."""

    def __init__(self, batches: Batches) -> None:
        self.batches, self.again = batches, deque[Piece]()
        self.answers: dict[int, list[Any]] = {}
        self.missing: dict[int, int] = {}  # how many answers of a task are not there yet
        self.given = self.done = 0
        self.more = True

    @property
    def over(self) -> bool:
        """Whether all answers have been returned."""
        return not self.more and self.done == self.given

    def next(self) -> Piece | None:
        """Return the piece to run next, if there is one."""
        if self.again:
            return self.again.popleft()
        studies = self.batches.next() if self.more and self.given - self.done < AHEAD else None
        if not studies:
            self.more = self.more and studies is None
            return None
        number, self.given = self.given, self.given + 1
        self.answers[number], self.missing[number] = [None] * len(studies), len(studies)
        return Piece(number, 0, studies)

    def alone(self, p: Piece) -> list[Piece]:
        """Return a piece's studies one by one; a death counts only for a study that was alone."""
        return [
            Piece(p.number, p.at + k, [x], p.deaths + (len(p.studies) == 1))
            for k, x in enumerate(p.studies)
        ]

    def answered(self, p: Piece, found: list[Any]) -> None:
        """Keep the answers of a piece."""
        self.answers[p.number][p.at : p.at + len(found)] = found
        self.missing[p.number] -= len(found)

    def finished(self) -> Iterator[list[Any]]:
        """Return the answers of the next tasks that are complete."""
        while self.done < self.given and not self.missing[self.done]:
            del self.missing[self.done]
            self.done += 1
            yield self.answers.pop(self.done - 1)


def _why(code: int | None) -> str:
    """Return how a process ended, in words."""
    if code is not None and code < 0:
        try:
            return f"by {signal.Signals(-code).name}"
        except ValueError:
            return f"by signal {-code}"
    return f"with status {code}"
