"""Many studies in a few calls, if they differ only in their arrivals or their laws.

`nobyaluk.map` uses this module for recipes of `Study.scaled` and `Study.with_stated_load` of one
study. The study must fit one record and have no weights. Either all ramps follow laws, or all use
the record's releases. `sweep` also uses it for the numbers of a law.

numpy makes the arrivals of some studies at a time in one table; no study objects are made. Each
answer is what running or filling the study separately gives. A study whose arrivals can't be made
here is made separately, so that its fault has the usual message.
"""
import math
import threading
from collections.abc import Callable, Iterator, Sequence
from fractions import Fraction
from functools import partial
from typing import Any, NamedTuple

import numpy as np

from . import engine, library
from .arrays import lend, to_bytes, to_unsigned
from .engine import Record, Refused
from .errors import StudyError
from .study import Study, load_factor, load_name, seed_name, times_factor
from .totals import Totals, outflows, totals, totals_and_queues

BITS = 1 << 32  # arrivals and their sums are below it
TABLES = 1 << 20  # bytes of arrivals in one call, unless one study has more
MOST = 512  # studies in one call, at most
QUEUES: dict[Callable[[Study], Any], bool] = {
    totals: False,
    totals_and_queues: True,
}  # what the batch can give, and whether with the longest queues

_kept = threading.local()


class Member(NamedTuple):
    """A study of a batch: its name, and the number from which its arrivals are made."""

    name: str
    number: int


def kind_of(x: Any) -> tuple[str, int] | None:
    """Return a recipe's kind, the same for all recipes of one batch; None for other recipes."""
    if not isinstance(x, partial) or x.keywords:
        return None
    made, base = getattr(x.func, "__func__", None), getattr(x.func, "__self__", None)
    if type(base) is not Study:
        return None
    if made is Study.scaled and len(x.args) == 1:
        return "load", id(base)
    if made is Study.with_stated_load and len(x.args) == 3:
        return f"seed {x.args[1:]}", id(base)
    return None


def fits(base: Study) -> bool:
    """Return whether the engine's batch can run this study with other arrivals."""
    return (
        isinstance(base.record, Record)
        and base.plan is None
        and base.weights is None
        and (not base.laws or base.all_by_laws)
    )


def run_together(
    group: Sequence[Any], queues: bool, alone: Callable[[Any], Totals]
) -> list[Totals]:
    """Return the totals of recipes of one kind, with or without their longest queues.

    `alone` runs a recipe whose arrivals can't be made here, or whose study has a fault.
    """
    base = group[0].func.__self__
    if not fits(base):
        return [alone(x) for x in group]
    members_of = _loads if group[0].func.__func__ is Study.scaled else _seeds
    try:
        batch = Batch(base)
        make, members = members_of(base, group)
    except (StudyError, ValueError, TypeError):
        return [alone(x) for x in group]
    found = iter(batch.totals(make, [x for x in members if x is not None], queues))
    return [alone(x) if member is None else next(found) for x, member in zip(group, members)]


Members = list[Member | None]  # None for a study that is run separately


def _loads(base: Study, group: Sequence[partial]) -> tuple["Loads | Seeds", Members]:
    """Return what makes the arrivals for recipes of loads, and the members."""
    factors = [_factor(x.args[0]) for x in group]
    make = Loads(base, math.lcm(*(x.denominator for x in factors if x is not None)))
    members: Members = []
    for x in factors:
        if x is None or (top := x.numerator * (make.unit // x.denominator)) > make.limit:
            members.append(None)
        else:
            members.append(Member(load_name(base.name, x), top))
    return make, members


def _factor(load: Any) -> Fraction | None:
    """Return the factor of a load; None if it is not a load."""
    try:
        return load_factor(load)
    except (StudyError, TypeError, ValueError, OverflowError):
        return None


def _seeds(base: Study, group: Sequence[partial]) -> tuple["Loads | Seeds", Members]:
    """Return what makes the arrivals for recipes of seeds, and the members."""
    return Seeds(base, *group[0].args[1:]), [_seed(base.name, x.args[0]) for x in group]


def _seed(name: str, seed: Any) -> Member | None:
    """Return a seed with its study's name; None if it is not a seed."""
    try:
        return Member(seed_name(name, seed), to_unsigned(seed, 32))
    except (TypeError, ValueError):
        return None


class Loads:
    """Tables of a study's arrivals times loads, each rounded to the nearest part, halves up.

    A load is a whole number over the unit. Above the limit a step would have too many arrivals.
    """

    def __init__(self, base: Study, unit: int) -> None:
        self.table, self.unit = base.record.arrivals, unit
        self.most = int(self.table.max())
        self.limit = engine.RATE * unit
        if self.most:
            self.limit = min(self.limit, (unit * (2 * engine.RATE + 1) - 1) // (2 * self.most))
        self.sums = np.full_like(self.table, unit % BITS)  # for the last load, before the division
        self.last, self.step, self.more = 0, 0, np.zeros_like(self.table)

    def fill(self, tops: Sequence[int], out: np.ndarray) -> None:
        """Make the tables: (twice the arrivals times the load, plus one unit) over two units.

        If the loads grow by equal steps, so do the sums. All of them have 32 bits.
        """
        if 2 * self.most * max(tops) + self.unit >= BITS or 2 * self.unit >= BITS:
            for table, top in zip(out, tops):
                table[:] = times_factor(self.table, Fraction(top, self.unit))
            return
        sums, more, last, step = self.sums, self.more, self.last, self.step
        divisor = np.array(2 * self.unit, np.uint32)  # made only once, for speed
        for table, top in zip(out, tops):
            if top - last != step:
                step = top - last
                more = self.table * np.uint32(2 * step % BITS)
            last = top
            np.add(sums, more, sums)
            np.floor_divide(sums, divisor, table)
        self.more, self.last, self.step = more, last, step


class Seeds:
    """Tables of a study's arrivals under the stated loads of seeds."""

    limit = BITS - 1

    def __init__(self, base: Study, peak: int, ramp_peak: int) -> None:
        self.table, self.places = base.record.arrivals, np.array([0, *base.ramps.values()])
        self.peaks = [to_unsigned(x, 32) for x in (peak, ramp_peak)]
        if max(self.peaks) > engine.RATE:
            raise ValueError("a peak above its limit: each study is run separately")

    def fill(self, seeds: Sequence[int], out: np.ndarray) -> None:
        """Make the tables of these seeds: the gate's arrivals, then each ramp's."""
        steps, (peak, ramp_peak) = len(self.table), self.peaks
        drawn = np.empty((len(self.places), steps), np.uint32)
        at, count = lend(drawn)
        for columns, seed in zip(out.transpose(0, 2, 1), seeds):
            last = library.load(seed, peak, at, steps).last
            library.load(last, ramp_peak, at + 4 * steps, count - steps)
            columns[self.places] = drawn


class Batch:
    """A study's record, lanes and laws in the form that the engine's batch takes."""

    def __init__(self, base: Study) -> None:
        record = base.record
        self.base, self.steps, self.n = base, record.steps, record.road.n
        self.lanes = to_bytes(base.lanes)
        self.laws: tuple[np.ndarray, np.ndarray] | None = None
        if base.laws:
            engine.check_laws(record, base.laws)
            self.laws = engine.encode_laws(base.laws)
        data = engine.record_data(record)
        self.record = np.frombuffer(data, np.uint8).copy()  # the engine writes arrivals into it

    def answers(self, make: Loads | Seeds, numbers: Sequence[int]) -> Iterator[np.ndarray]:
        """Yield the entries of studies, call by call."""
        size = self.steps * (self.n + 1)
        most = max(1, min(MOST, TABLES // (4 * size), len(numbers)))
        tables = _buffer(most * size).reshape(most, self.steps, self.n + 1)
        tables[:] = make.table
        for at in range(0, len(numbers), most):
            some = tables[: len(numbers) - at]
            make.fill(numbers[at : at + most], some)
            yield self.call(some)

    def call(self, tables: np.ndarray) -> np.ndarray:
        """Return the entries of studies with these arrivals."""
        answers = np.empty((len(tables), library.ENTRY), np.uint64)
        after = (self.lanes, len(self.lanes), *lend(tables), *outflows(), *lend(answers))
        if self.laws is None:
            a = library.run_many(*lend(self.record), *after)
            engine.raise_if_refused(a, "run_many", step=0)
        else:
            kinds, numbers = self.laws
            a = library.fill_many(
                *lend(self.record), kinds.tobytes(), engine.CELLS, *lend(numbers), *after
            )
            engine.raise_if_refused(a, "fill_many", step=0)
        return answers

    def totals(
        self, make: Loads | Seeds, members: Sequence[Member], queues: bool
    ) -> Iterator[Totals]:
        """Yield the totals of studies."""
        seconds = self.base.seconds
        operation = "run" if self.laws is None else "fill"
        found: list[list[int]] = []
        for answers in self.answers(make, [x.number for x in members]):
            found += short_entries(answers, self.n).tolist()
        for member, entry in zip(members, found):
            number, step, place, gate, road, ramp, total, exits, present, waiting, longest = entry
            if number:
                yield Totals(member.name, refused=Refused(number, step, place, operation))
                continue
            yield Totals(
                member.name,
                total,
                gate,
                road,
                ramp,
                exits,
                present,
                None,
                waiting if queues else None,
                longest if queues else None,
                None,
                seconds,
            )


class ManyArrivals:
    """The studies of a sweep of loads or seeds, by their numbers."""

    def __init__(self, base: Study, make: Loads | Seeds, numbers: range) -> None:
        self.batch, self.make, self.numbers = Batch(base), make, numbers

    def entries(self, ks: Sequence[int]) -> tuple[np.ndarray, list[int]]:
        """Return the short entries of studies, and which of them must be made separately."""
        numbers, limit = [self.numbers[k] for k in ks], self.make.limit
        alone = [at for at, x in enumerate(numbers) if x > limit]
        for at in alone:
            numbers[at] = 0
        answers = self.batch.answers(self.make, numbers)
        return np.concatenate([short_entries(x, self.batch.n) for x in answers]), alone


class ManyLaws:
    """The studies of a sweep that differ in the numbers of their laws.

    The laws are converted once. `set_numbers` sets what differs, for all studies of a call; a
    number that is out of its limits is nan.
    """

    def __init__(
        self, base: Study, set_numbers: Callable[[Sequence[int], np.ndarray], None]
    ) -> None:
        self.batch, self.set_numbers = Batch(base), set_numbers
        kinds, numbers = engine.encode_laws(base.laws)
        self.kinds, self.numbers = kinds.tobytes(), numbers.ravel()

    def entries(self, ks: Sequence[int]) -> tuple[np.ndarray, list[int]]:
        """Return the short entries of studies, and which of them must be made separately."""
        laws = np.tile(self.numbers, (len(ks), 1))
        self.set_numbers(ks, laws)
        alone, (first, _) = np.isnan(laws).any(axis=1).tolist(), lend(laws)
        rows = range(first, first + laws.nbytes, laws.strides[0])
        found = [(0,) * SHORT if out else self.entry(at) for at, out in zip(rows, alone)]
        return np.array(found, np.uint64), [at for at, out in enumerate(alone) if out]

    def entry(self, numbers: int) -> tuple[int, ...]:
        """Return the short entry of the study whose laws have the numbers at this address.

        Releases that the study before left in the record have no effect.
        """
        batch, count = self.batch, self.numbers.size
        given = (self.kinds, engine.CELLS, numbers, count, batch.lanes, len(batch.lanes))
        a = library.fill_longest(*lend(batch.record), *given, *outflows())
        e = a.ended
        s = e.state
        times = s.gate_time, s.road_time, s.ramp_time, e.total
        counts = e.exits, e.present, a.waiting, max(a.ramps[:])
        return (e.number, e.step, e.place, *times, *counts)


# A short entry: number, step, place; gate, road and ramp time, total; exits, present; the longest
# queues of gate and ramps.
SHORT = 11


def short_entries(answers: np.ndarray, n: int) -> np.ndarray:
    """Return the columns of entries of n cells that a table needs; changes the entries."""
    out = answers[:, :SHORT]
    out[:, 9] = out[:, 10]  # the gate's queue without the step's arrivals
    np.max(answers[:, SHORT : SHORT + n], axis=1, out=out[:, 10])
    return out


def _buffer(count: int) -> np.ndarray:
    """Return this thread's list for so many arrivals; it is kept for the next call."""
    kept = getattr(_kept, "list", None)
    if kept is None or kept.size < count:
        kept = _kept.list = np.empty(max(count, TABLES // 4), np.uint32)
    return kept[:count]
