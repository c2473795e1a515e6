"""Many studies at once, in threads of this machine or by any executor.

An executor of `concurrent.futures` may be a cluster's.

A call of the engine releases Python's lock and the engine keeps no state, so threads run in
parallel. A run is short, though: if Python also makes the variants, processes are faster. They
receive studies as the bytes of records, and variants as recipes.
"""
import math
import time
from collections import deque
from collections.abc import Callable, Iterable, Iterator
from concurrent.futures import Executor, Future, ThreadPoolExecutor
from fractions import Fraction
from functools import partial
from itertools import groupby, islice
from typing import Any

from . import many
from .engine import Refused
from .errors import StudyError
from .study import Study, load
from .totals import Totals, totals, totals_and_queues
from .workers import Batches, Lost, Run, Workers, processors

PATROL = 5  # seconds between two checks of a cluster while waiting for its answer
START = 0.025  # seconds for starting and ending a process; two took 20 to 50 ms
COLD = 0.1  # seconds by which a first call may take longer than the next ones
TIMED = 0.005  # seconds of calls after which the time of the studies left is estimated


Recipe = Callable[[], Study]  # as functools.partial(study.scaled, 1.05)


def run_group(each: Callable[[Study], Any], group: list[Study | str | Recipe]) -> list[Any]:
    """Return what `each` gives for every study of a group.

    Totals of studies that differ only in their arrivals come from the engine's batch.
    """
    if each not in many.QUEUES:
        return [_one(each, x) for x in group]
    out: list[Any] = []
    for kind, some in groupby(group, many.kind_of):
        if kind is None:
            out += [_one(each, x) for x in some]
        else:
            out += many.run_together(list(some), many.QUEUES[each], partial(_one, each))
    return out


def _one(each: Callable[[Study], Any], x: Study | str | Recipe) -> Any:
    """Return what `each` gives for a study.

    If `each` gives totals, a study that can't be made or run has its fault in them.
    """
    try:
        return each(x if isinstance(x, Study) else x() if callable(x) else load(x))
    except Exception as e:  # noqa: BLE001 no fault of one study may stop the others
        if each not in (totals, totals_and_queues):
            raise
        known = isinstance(e, (StudyError, Refused))
        return Totals(
            describe_study(x),
            refused=e if isinstance(e, Refused) else None,
            fault=str(e) if known else f"{type(e).__name__}: {e}"[:300],
        )


def describe_study(x: Study | str | Recipe) -> str:
    """Return the name of a study that may not be made yet."""
    if isinstance(x, Study):
        return x.name
    if not isinstance(x, partial):
        return str(x)
    of = getattr(getattr(x.func, "__self__", None), "name", "")
    return " ".join(
        filter(
            None,
            [
                of,
                getattr(x.func, "__name__", ""),
                *(f"{float(v):g}" if isinstance(v, Fraction) else str(v)[:60] for v in x.args),
            ],
        )
    )


def lost_totals(x: Study | str | Recipe, fault: str) -> Totals:
    """Return the totals of a study whose processes died."""
    return Totals(describe_study(x), fault=fault)


def wait_for(future: Future, watch: Callable[[], None] | None) -> Any:
    """Return a task's answer; meanwhile `watch` checks that it still has a worker."""
    while True:
        try:
            return future.result(PATROL if watch else None)
        except TimeoutError:
            if watch is None or future.done():
                raise
            watch()


def map(
    studies: Iterable[Study | str | Recipe],
    executor: Executor | None = None,
    *,
    each: Callable[[Study], Any] = totals,
    workers: int | None = None,
    batch: int = 16,
    progress: Callable[[int], None] | None = None,
    watch: Callable[[], None] | None = None,
) -> Iterator[Any]:
    """Return what `each` gives for every study, path or recipe, in their order.

    Threads of this machine run them, or the given executor.

    Studies are taken when they are needed, `batch` per task, so thousands are never in memory at
    once. A study that is refused, or that can't be made, has that in its `Totals`, and the others
    go on. `watch` is called while `map` waits for an answer, and may raise.

    Parameters
    ----------
    studies : iterable of Study, str or callable
        Studies, paths, or recipes that make a study.
    executor : concurrent.futures.Executor, optional
        Default: threads of this machine.
    each : callable
        The function that is called with each study; default: `totals`.
    workers : int, optional
        Number of threads, at most the number of processors.
    batch : int
        Number of studies in one task.
    progress : callable, optional
        Called with the number of studies done.
    watch : callable, optional
        Called while `map` waits for an answer; it may raise.

    Returns
    -------
    iterator
        What `each` gives, in the studies' order. A study that is refused or can't be made has that
        in its `Totals`.
    """
    if batch < 1:
        raise ValueError(f"a task has at least one study, not {batch}")
    workers = min(workers or processors(), processors())
    pool = executor or ThreadPoolExecutor(workers)
    ahead, done = (
        4 * (workers if executor is None else getattr(executor, "_max_workers", None) or 16),
        0,
    )
    pending: deque = deque()

    def finished() -> Iterator[Any]:
        nonlocal done
        out = wait_for(pending.popleft(), watch)
        done += len(out)
        if progress:
            progress(done)
        yield from out

    try:
        taken = iter(studies)
        while group := list(islice(taken, batch)):
            pending.append(pool.submit(run_group, each, group))
            if len(pending) > ahead:
                yield from finished()
        while pending:
            yield from finished()
    finally:
        for future in pending:
            future.cancel()
        if executor is None:
            pool.shutdown(cancel_futures=True)


def spread(
    studies: Iterable[Study | str | Recipe],
    count: int,
    each: Callable[[Study], Any] = totals,
    workers: int | None = None,
) -> Iterator[list[Any]]:
    """Return what `each` gives for so many studies, in groups and in order; see `spread_run`."""
    return spread_run(studies, count, partial(run_group, each), lost_totals, workers)


class Estimate:
    """The processor time of studies, by calls that were timed.

    Other work on the machine does not count. Of a first call only what exceeds COLD counts.
    """

    def __init__(self) -> None:
        self.calls, self.studies, self.seconds = 0, 0, 0.0

    def took(self, count: int, seconds: float) -> None:
        """Note that a call took so many seconds for so many studies."""
        self.calls += 1
        if self.calls == 1:
            seconds -= COLD
        if seconds > 0:
            self.studies, self.seconds = self.studies + count, self.seconds + seconds

    def pays(self, left: int, processes: int) -> bool:
        """Return whether so many processes end the studies left sooner, with starting them."""
        if self.seconds < TIMED:
            return False
        each, most = self.seconds / self.studies, math.ceil(left / processes)
        return (left - most) * each > START * processes


def spread_run(
    items: Iterable[Any], count: int, run: Run, lost: Lost, workers: int | None = None
) -> Iterator[list[Any]]:
    """Return what `run` gives for so many items, in groups and in order.

    This process runs them; it starts other processes if its own calls show that this saves time.
    There are at most as many as processors and items. `lost` gives the answer for an item whose
    processes die.
    """
    most, batches, done = min(workers or processors(), processors(), count), Batches(items), 0
    estimate = Estimate()
    while group := batches.next():
        began, own = time.perf_counter(), time.thread_time()
        out = run(group)
        batches.took(len(out), time.perf_counter() - began)
        estimate.took(len(out), time.thread_time() - own)
        done += len(out)
        yield out
        if most > 1 and estimate.pays(count - done, most):
            with Workers(most, run, lost) as pool:
                yield from pool.map(batches)
            return
