"""The progress of long work, on standard error.

A terminal shows a bar with rate and time left (tqdm); elsewhere a line appears every few seconds.
"""
import sys
import time
from collections.abc import Callable
from typing import Any

EVERY = 3  # seconds between two lines


class Progress:
    """Shows progress within a with-block; it is called with the number of items done.

    The rate leaves out the `begun` items of an earlier run, and the time until the first call.
    """

    def __init__(self, of: int, what: str, begun: int = 0, bar: bool = True) -> None:
        self.of, self.what, self.bar = of, what, None
        self.began = self.last = time.monotonic()
        self.first: tuple[float, int] | None = None
        if bar and sys.stderr.isatty() and (make := _tqdm()):
            self.bar = make(
                total=of,
                initial=begun,
                unit=f" {what}",
                desc="nobyaluk",
                file=sys.stderr,
                dynamic_ncols=True,
                leave=False,
                delay=1,
                mininterval=0.2,
            )

    def __enter__(self) -> "Progress":
        return self

    def __exit__(self, *_: Any) -> None:
        if self.bar is not None:
            self.bar.close()

    def __call__(self, done: int) -> None:
        """Show that `done` items are done."""
        if self.bar is not None:
            self.bar.update(done - self.bar.n)
            return
        now = time.monotonic()
        self.first = self.first or (now, done)
        if now - self.last >= EVERY and done < self.of:
            self.last = now
            print(f"nobyaluk: {self.line(done, now)}", file=sys.stderr)

    def line(self, done: int, now: float) -> str:
        """Return a line: the number done, the time taken, the rate and the time left."""
        since, before = self.first or (now, done)
        text = f"{done:,} of {self.of:,} {self.what}, {_clock(now - self.began)}"
        if done == before or now <= since:
            return text
        rate = (done - before) / (now - since)
        return (
            f"{text}, {rate:,.{0 if rate >= 10 else 1}f} a second,"
            f" {_clock((self.of - done) / rate)} left"
        )


def _tqdm() -> Callable[..., Any] | None:
    """Return what makes a bar; None if tqdm is not installed."""
    try:
        from tqdm import tqdm
    except ImportError:
        return None
    tqdm.monitor_interval = 0  # no separate thread: processes are forked while it runs
    return tqdm


def _clock(seconds: float) -> str:
    """59 s, 12:30 min or 3:05 h."""
    s = round(seconds)
    return (
        f"{s} s"
        if s < 60
        else f"{s // 60}:{s % 60:02d} min" if s < 3600 else f"{s // 3600}:{s // 60 % 60:02d} h"
    )
