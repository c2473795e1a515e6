"""The studies of a sweep: loads, seeds, or numbers at keys of a study's file."""
import hashlib
import math
from collections.abc import Callable, Iterable, Sequence
from fractions import Fraction
from functools import partial
from typing import Any

import numpy as np

from . import __version__, engine, many
from .many import ManyArrivals, ManyLaws
from .spans import Span
from .study import Study
from .variants import Variants


class Sweep:
    """The names and the numbers of the columns; with two columns, each pair is a study."""

    reads_files = False  # whether each study reads files, which a cluster may not see
    source: Any = ""  # what else the studies depend on, for the checksum

    def __init__(self, names: list[str], axes: list[Span]) -> None:
        self.names, self.axes = names, axes

    def __len__(self) -> int:
        return math.prod(len(x) for x in self.axes)

    def positions(self, k: int) -> list[tuple[Span, int]]:
        """Return the positions of study k's numbers; those of the last column change first."""
        out = []
        for axis in reversed(self.axes):
            k, at = divmod(k, len(axis))
            out.append((axis, at))
        return out[::-1]

    def values(self, k: int) -> list[Fraction]:
        """Return the numbers of study k."""
        return [axis[at] for axis, at in self.positions(k)]

    def texts(self, ks: Iterable[int]) -> list[str]:
        """Return the numbers of studies as text; each row of CSV begins with them."""
        if len(self.axes) == 1:
            return [self.axes[0].text(k) for k in ks]
        return [",".join([axis.text(at) for axis, at in self.positions(k)]) for k in ks]

    def study(self, k: int) -> Study | Callable[[], Study]:
        """Return study k, or a recipe for it."""
        raise NotImplementedError

    def together(self) -> ManyArrivals | ManyLaws | None:
        """Return what runs many studies in a few calls; None if each is run separately."""
        return None

    def items(self, begin: int) -> Iterable[Any]:
        """Return what a cluster receives for each study from `begin` on: its number.

        If studies read files, it receives the study too.
        """
        left = range(begin, len(self))
        return ((k, self.study(k)) for k in left) if self.reads_files else left

    def sum(self, s: Study) -> str:
        """Return a checksum of all that the rows depend on."""
        r = s.record
        record = (
            r.data
            if isinstance(r, engine.Record)
            else bytes(r.road) + bytes(r.start) + r.rows.tobytes()
        )
        plan = s.plan.tobytes() if s.plan is not None else None
        spans = [(x[0], x[-1], len(x)) for x in self.axes]
        given = (
            __version__,
            self.names,
            spans,
            record,
            s.lanes,
            sorted(s.laws.items()),
            plan,
            s.weights,
            s.seconds,
            self.source,
        )
        return hashlib.sha256(repr(given).encode()).hexdigest()[:32]


class LoadSweep(Sweep):
    """A study with all its arrivals multiplied by each load."""

    def __init__(self, base: Study, loads: Span) -> None:
        super().__init__(["load"], [loads])
        self.base, self.loads = base, loads

    def study(self, k: int) -> Callable[[], Study]:
        """Return a recipe for the study with load k."""
        return partial(self.base.scaled, self.loads[k])

    def together(self) -> ManyArrivals | None:
        """Return what runs many loads at once, if the engine's batch takes the study."""
        if not many.fits(self.base):
            return None
        make = many.Loads(self.base, self.loads.unit)
        return ManyArrivals(self.base, make, self.loads.tops)


class SeedSweep(Sweep):
    """A study under the stated load of each seed."""

    def __init__(self, base: Study, seeds: Span, peaks: tuple[int, int]) -> None:
        super().__init__(["seed"], [seeds])
        self.base, self.seeds, self.source = base, seeds, peaks

    def study(self, k: int) -> Callable[[], Study]:
        """Return a recipe for the study of seed k."""
        return partial(self.base.with_stated_load, self.seeds.tops[k], *self.source)

    def together(self) -> ManyArrivals | None:
        """Return what runs many seeds at once, if the engine's batch takes the study."""
        if not many.fits(self.base):
            return None
        make = many.Seeds(self.base, *self.source)
        return ManyArrivals(self.base, make, self.seeds.tops)


class VariantSweep(Sweep):
    """A study's file with other numbers at one key, or at two."""

    def __init__(self, variants: Variants, keys: Sequence[str], axes: list[Span]) -> None:
        super().__init__(list(keys), axes)
        self.variants, self.source = variants, variants.source.values
        self.reads_files = variants.needs_files

    def study(self, k: int) -> Study | Callable[[], Study]:
        """Return a recipe for variant k, or the variant itself if variants read files."""
        if not self.reads_files:
            return partial(self.variants.study, *self.values(k))
        try:
            return self.variants.study(*self.values(k))
        except Exception as e:  # noqa: B902 its row has the fault, and the others go on
            return partial(_raise_fault, e)

    def together(self) -> ManyLaws | None:
        """Return what fills the record by many laws, if only their numbers differ."""
        variants, base = self.variants, self.variants.base
        if not (variants.only_laws and base.laws and many.fits(base) and variants.law_numbers):
            return None
        return ManyLaws(base, self.set_numbers)

    def set_numbers(self, ks: Sequence[int], laws: np.ndarray) -> None:
        """Set the numbers of laws that differ, a row for each study; nan for one out of limits."""
        left = np.array(ks)
        at: list[np.ndarray] = []
        for axis in reversed(self.axes):  # as `positions`
            left, own = np.divmod(left, len(axis))
            at.insert(0, own)
        for x in self.variants.law_numbers:
            numbers = self.axes[x.key].times(at[x.key], x.factor, x.low)
            laws[:, x.places] = numbers[:, np.newaxis]


def _raise_fault(e: Exception) -> Study:
    """Raise the fault of a variant instead of making it."""
    raise e
