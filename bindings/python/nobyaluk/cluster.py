"""A Dask cluster whose workers run studies; they need this package too."""
import logging
import pickle
import sys
import threading
import time
from collections import deque
from collections.abc import Iterable, Iterator
from concurrent.futures import CancelledError, Executor, Future
from contextlib import suppress
from typing import Any

from .errors import StudyError, show
from .parallel import wait_for
from .workers import Batches, Lost, Run

TIMEOUT = 20  # seconds within which a scheduler must answer
PATIENCE = 60  # seconds that a cluster may be without workers
LOGGERS = ("distributed", "concurrent.futures", "tornado", "asyncio")  # of Dask
DASK_TASK = 0.05  # seconds that a task of a cluster should take
DASK_GROWTH = 64  # a task has at most this many times the studies of the one before

_kept = threading.local()


class NoCluster(Exception):
    """A cluster that does not answer, has no workers or was lost."""


class Cluster:
    """A Dask cluster: an executor over its workers, and a check that they are there.

    Its workers need this package too.
    """

    def __init__(self, address: str) -> None:
        self.address = address
        self.without: float | None = None  # since when it has no workers
        try:
            import distributed
            from distributed.comm import resolve_address
        except ImportError:
            raise ImportError(
                "a cluster needs Dask: apt-get install python3-distributed, or pip install"
                " distributed"
            ) from None
        for name in (
            *LOGGERS,
            *(x for x in logging.root.manager.loggerDict if x.startswith(LOGGERS)),
        ):  # no tracebacks: this module reports what is lost
            logging.getLogger(name).setLevel(logging.CRITICAL + 1)
        try:
            resolve_address(address)
        except (ValueError, TypeError):
            raise StudyError(
                f"--scheduler is {show(address)}; it is an address like tcp://10.0.0.1:8786"
            ) from None
        except OSError as e:
            raise NoCluster(f"the scheduler at {address} is not found: {e}") from None

        class Client(distributed.Client):
            """A client that only `Cluster.close` closes, not Python's garbage collector.

            Collecting one that was never open would print a traceback.
            """

            def __del__(self) -> None:
                pass

        try:
            self.client = Client(address, timeout=f"{TIMEOUT}s")
        except OSError:
            raise NoCluster(
                f"the scheduler at {address} does not answer within {TIMEOUT} s"
            ) from None
        self.executor = self.client.get_executor(
            pure=False
        )  # a task's key is random, not computed from all bytes of its studies

    def watch(self) -> None:
        """Raise NoCluster if the scheduler is gone, or workers are missing for too long."""
        try:
            workers = (
                len(self.client.scheduler_info()["workers"])
                if self.client.status != "closed"
                else None
            )
        except (OSError, TimeoutError, CancelledError, RuntimeError, ValueError):
            workers = None
        if workers is None:
            raise NoCluster(f"the scheduler at {self.address} was lost")
        now = time.monotonic()
        if workers:
            self.without = None
        elif self.without is None:
            self.without = now
            print(
                (
                    f"nobyaluk: the cluster at {self.address} has no workers; waiting for one up to"
                    f" {PATIENCE} s"
                ),
                file=sys.stderr,
            )
        elif now - self.without >= PATIENCE:
            raise NoCluster(
                f"the cluster at {self.address} has no workers, and none came within {PATIENCE} s"
            )

    def spread(self, items: Iterable[Any], run: Run, lost: Lost) -> Iterator[list[Any]]:
        """Return what `run` gives for every item, in groups and in order; workers run them.

        NoCluster if the cluster is lost meanwhile.

        A task takes some milliseconds. If workers die while they run it, its items are run again
        one by one. If workers die again, `lost` gives the answer for that item.
        """
        from distributed import KilledWorker
        from distributed.protocol.pickle import dumps  # it takes functions of a notebook too

        self.watch()
        while self.without is not None:
            time.sleep(min(1, PATIENCE / 4))
            self.watch()
        batches, sent = Batches(items, DASK_TASK, DASK_GROWTH), dumps(run)
        pending: deque = deque()
        threads, seconds = max(1, sum(self.client.nthreads().values())), 0.0
        submit = lambda group: self.client.submit(_packed, sent, dumps(group), pure=False)
        try:
            more = True
            while True:
                ahead = 4 if seconds > DASK_TASK / 2 else 2 if seconds else 1  # while tasks grow
                while more and len(pending) < ahead * threads:
                    if more := bool(group := batches.next()):
                        pending.append((submit(group), group))
                if not pending:
                    return
                future, group = pending.popleft()
                try:
                    seconds, found = wait_for(future, self.watch)
                    batches.took(len(group), seconds)
                    out = pickle.loads(found)
                except KilledWorker:
                    out = [self._alone(x, submit([x]), lost, KilledWorker) for x in group]
                yield out
        except (CancelledError, OSError) as e:
            raise NoCluster(
                f"the cluster at {self.address} was lost:"
                f" {str(e) if isinstance(e, OSError) and str(e) else 'its scheduler is gone'}"
            ) from None
        finally:
            with suppress(Exception):  # whatever a lost connection raises
                self.client.cancel([future for future, _ in pending])

    def _alone(self, x: Any, future: Future, lost: Lost, killed: type[Exception]) -> Any:
        """Run one item of a task whose workers died."""
        try:
            return pickle.loads(wait_for(future, self.watch)[1])[0]
        except killed:
            fault = (
                "workers of the cluster ended repeatedly while running it; it may need more memory"
                " than they have"
            )
            return lost(x, fault)

    def close(self) -> None:
        """Close the connection; nothing is raised if it is lost."""
        with suppress(Exception):  # whatever a lost connection raises
            self.client.close(timeout=2)


def _packed(run: bytes, items: bytes) -> tuple[float, bytes]:
    """Return a task's answers, with the seconds that they took.

    They are bytes, so that Dask does not look through them.
    """
    if getattr(_kept, "bytes", None) != run:  # most tasks of a thread belong to one sweep
        _kept.bytes, _kept.run = run, pickle.loads(run)
    wall, own = time.perf_counter(), time.thread_time()
    out = pickle.dumps(_kept.run(pickle.loads(items)))
    return (
        max(time.thread_time() - own, (time.perf_counter() - wall) / 4),
        out,
    )  # with other work on the machine the clock's time is longer


def connect(address: str) -> tuple[Executor, Any]:
    """Return an executor over a Dask cluster, and its client, which the caller closes.

    Its workers need this package too.
    """
    c = Cluster(address)
    return c.executor, c.client
