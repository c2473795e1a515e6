"""Read a study's TOML file: road, start, meters, works and weights.

Physical numbers become the engine's whole parts, each an exact fraction that is rounded once, to
the nearest, halves up; `Study.rounding` lists what rounding changed. The proved `write` makes the
record, so the engine itself checks its limits. `docs/STUDIES.md` has every key.
"""
from collections.abc import Callable, Iterator
from dataclasses import dataclass
from datetime import datetime, time
from decimal import Decimal
from fractions import Fraction
from pathlib import Path
from typing import Any, NamedTuple

import numpy as np
import tomllib

from . import engine, input_files, long_record, tables
from .clock import Clock, format_clock, parse_moment
from .diagram import critical_density
from .errors import StudyError, TomlTable, show
from .refusals import Refusal
from .rounding import Rounded, round_half_up
from .tables import suggest, suggest_or_list

# Every key that a table of a study may have. docs/STUDIES.md has its unit and limit, and a test
# compares the two.
KEYS = {
    "": {
        "base",
        "title",
        "version",
        "step",
        "start",
        "steps",
        "after",
        "record",
        "gate",
        "defaults",
        "cell",
        "arrivals",
        "releases",
        "meter",
        "closure",
        "weights",
    },
    "gate": {"capacity", "queue", "parts"},
    "gate.parts": {"capacity", "queue"},
    "cell": {
        "name",
        "length",
        "speed",
        "wave",
        "jam",
        "capacity",
        "split",
        "ramp",
        "held",
        "density",
        "queue",
        "lanes",
        "parts",
    },
    "cell.parts": {"v", "w", "b", "J", "C", "held", "queue"},
    "arrivals": {*tables.KEYS, *tables.CLOCKS},
    "releases": {*tables.KEYS, "cap", *tables.CLOCKS},
    "meter": {
        "law",
        "rate",
        "gain",
        "gain_kmh",
        "target",
        "capacity",
        "critical",
        "least",
        "parts",
    },
    "meter.parts": {"rate", "gain", "target", "capacity", "critical", "least"},
    "closure": {"cell", "lanes", "from", "to"},
    "weights": {"gate", "road", "ramps"},
}
LAWS: dict[str, set[str]] = {
    "open": set(),
    "fixed": {"rate"},
    "alinea": {"gain", "gain_kmh", "target"},
    "demand-capacity": {"capacity", "critical", "least"},
}
BESIDE_PARTS = (
    "speed",
    "wave",
    "jam",
    "capacity",
    "split",
    "held",
    "density",
    "queue",
)  # what `parts` of a cell says
BESIDE_RECORD = ("name", "length", "ramp", "lanes")  # what a record doesn't say of a cell
MOST = 4 << 20  # bytes of a TOML file
DEPTH, DIGITS = 16, 100  # of its tables in one another, and of a number
_LEAST = Decimal("0.000001")
TOO_MANY_CELLS = (
    ", for which the engine is proved. Cut the road into studies where no queue reaches: what"
    " leaves the upper one's last cell (`outflow_veh` of run --csv) arrives at the lower one's"
    " gate. Or make longer cells, with a longer step"
)


@dataclass
class StudySource:
    """A study's tables merged with those of its base, and the file of each."""

    values: dict[str, Any]
    origin: dict[str, Path]


def read_source(path: Path, depth: int = 0) -> StudySource:
    """Return a file's tables merged with those of its `base`.

    So a variant of a study gives only the differences.
    """
    path = Path(path)
    toml = _toml(path)
    own = StudySource(toml, dict.fromkeys(toml, path))
    if "base" not in toml:
        return own
    if depth == 8:
        raise StudyError(f"{path}: `base` is circular, or goes through more than eight files")
    name = tables.get_file_name(TomlTable(toml, str(path)), "base")
    try:
        base = read_source(path.parent / name, depth + 1)
    except FileNotFoundError as e:
        if str(e.filename) != str(path.parent / name):
            raise
        raise StudyError(
            f"{path}: `base` is {name!r}, and there is no {path.parent / name}"
        ) from None
    del toml["base"], own.origin["base"]
    if "meter" in toml or "releases" in toml:
        base.values.pop("meter", None), base.values.pop("releases", None)
    return StudySource(
        {
            **base.values,
            **{
                key: _over(base.values.get(key), x) if key in ("gate", "defaults", "weights") else x
                for key, x in toml.items()
            },
        },
        {**base.origin, **own.origin},
    )


def _over(base: Any, own: Any) -> Any:
    """Return a table merged with the base's, key by key.

    If either has the engine's own numbers, the table replaces the base's as a whole.
    """
    if not isinstance(base, dict) or not isinstance(own, dict) or "parts" in base or "parts" in own:
        return own
    return {**base, **own}


def _toml(path: Path) -> dict[str, Any]:
    """Return the tables of one file; anything that can't be read is a fault with a message."""
    try:
        toml = tomllib.loads(input_files.read_text(path, MOST), parse_float=_decimal)
    except tomllib.TOMLDecodeError as e:
        raise StudyError(f"{path}: {e}") from None
    except RecursionError:
        raise StudyError(f"{path}: lists or tables are nested more than {DEPTH} deep") from None
    except StudyError:
        raise
    except ValueError:
        raise StudyError(f"{path}: a number has more than {DIGITS} digits") from None
    waiting: list[tuple[Any, str, int]] = [(toml, "", 0)]
    while waiting:
        x, key, depth = waiting.pop()
        if depth > DEPTH:
            raise StudyError(
                f"{path}: `{key[:60]}`: lists or tables are nested more than {DEPTH} deep"
            )
        if (
            isinstance(x, int)
            and x.bit_length() > 3 * DIGITS
            or isinstance(x, Decimal)
            and x.is_finite()
            and len(x.as_tuple().digits) > DIGITS
        ):
            raise StudyError(f"{path}: `{key[:60]}` has more than {DIGITS} digits")
        if isinstance(x, (dict, list)):
            each = x.items() if isinstance(x, dict) else enumerate(x, 1)
            waiting += [(y, f"{key}.{k}" if key else str(k), depth + 1) for k, y in each]
    return toml


def _decimal(text: str) -> Decimal:
    try:
        return Decimal(text)
    except ArithmeticError:  # an exponent that no Decimal has: as `inf`, no number of a road
        return Decimal("-Infinity" if text.startswith("-") else "Infinity")


LoadBefore = Callable[[Path], Any]  # a Study; None if too many go on from one another


class MeterTable(NamedTuple):
    """A table of [meter]: its name, what it has, its law and the cells of its ramps."""

    name: str
    table: TomlTable
    law: str
    cells: list[int]


class LawKey(NamedTuple):
    """The key that gives a number of a law: its value times the factor is in the engine's unit.

    With `by_length`, the product is divided by the length of the ramp's cell. The value is at least
    `low`.
    """

    key: str
    factor: Fraction = Fraction(1)
    by_length: bool = False
    low: int = 0


class StudyReader:
    """Turns a study's TOML into the fields of a Study.

    `load_before` loads the study that `after` names.
    """

    def __init__(
        self, path: Path, source: StudySource | None = None, load_before: LoadBefore | None = None
    ) -> None:
        self.path, self.load_before = Path(path), load_before
        self.source = read_source(self.path) if source is None else source
        for key in self.source.values:
            if key not in KEYS[""]:
                raise StudyError(
                    f"{self.file(key)}: `{key[:60]}` is not known here; the known keys are"
                    f" {', '.join(sorted(KEYS['']))}{suggest(key, KEYS[''])}"
                )
        self.top = TomlTable(self.source.values, str(path))
        self.rounding: list[Rounded] = []
        self.notes: list[str] = []
        self.filled: list[tables.Filled] = []
        self.lengths: list[Fraction | None] = []
        self.names: list[str] = []
        self.built: list[int] = []
        self.ramps: dict[str, int] = {}
        self.seconds: Fraction | None = None  # of a step

    def file(self, key: str) -> Path:
        """Return the file that has a key of the study: its own, or a base."""
        return self.source.origin.get(key, self.path)

    def of(self, key: str) -> TomlTable:
        """Return the study's keys, with the file of this one."""
        return TomlTable(self.top.values, str(self.file(key)))

    def table(self, key: str, kind: str | None = None, default: Any = None) -> TomlTable:
        """Return a table of the study, whose keys are checked."""
        return TomlTable(
            self.top.values.get(key, default), f"{self.file(key)}: [{key}]", KEYS[kind or key]
        )

    def several(self, key: str) -> list[TomlTable]:
        """Return the tables of a list like [[cell]], whose keys are checked."""
        given = self.top.values.get(key, [])
        if not isinstance(given, list):
            raise self.of(key).fault(
                key, f"is {show(given)}; it is written as [[{key}]], once for each"
            )
        return [
            TomlTable(x, f"{self.file(key)}: {key} {i}", KEYS[key]) for i, x in enumerate(given, 1)
        ]

    def parts(self, cell: int, what: str, wanted: Fraction) -> int:
        """Return a number rounded to whole parts, and keep what rounding changed."""
        used = round_half_up(wanted)
        if used != wanted:
            self.rounding.append(Rounded(cell, what, Fraction(wanted), used))
        return used

    def read(self) -> dict[str, Any]:
        """Return the fields of the study."""
        if "record" in self.top:
            road, start, rows = self.recorded()
        else:
            self.seconds = Fraction(self.of("step").whole("step", low=1, high=engine.SECONDS))
            self.steps = self.number_of_steps()
            self.set_clock()
            road, start = self.road()
            rows = self.arrivals(road)
        plan, tabled = self.releases(road, rows)
        if "after" in self.top:
            start = self.after(road)
        try:
            record = long_record.make_record(road, start, rows)
        except engine.Refused as e:
            raise StudyError(f"{self.path}: {e}{self.limits(e, road, start)}") from None
        laws = self.laws(road, tabled, plan is not None)
        return {
            "name": self.path.stem,
            "title": self.title(),
            "record": record,
            "seconds": self.seconds,
            "start": self.start,
            "lengths": self.all_lengths(),
            "cell_names": self.names,
            "ramps": self.ramps,
            "lanes": self.works(road),
            "laws": laws,
            "plan": plan,
            "weights": self.weights(road),
            "rounding": self.rounding,
            "notes": self.notes,
            "built": self.built,
            "filled": self.filled,
        }

    def all_lengths(self) -> list[float] | None:
        """Return the cells' lengths; None, with a note, if one is missing."""
        without = [str(i) for i, x in enumerate(self.lengths, 1) if x is None]
        if not without:
            return [float(x) for x in self.lengths if x is not None]
        if len(without) < len(self.lengths):
            self.notes.append(
                f"cell {', '.join(without)} has no `length`, so nothing is shown in km"
            )
        return None

    def title(self) -> str:
        """Return the study's title; default: the file's name."""
        text = self.of("title").text("title", self.path.stem)
        if "title" in self.top and not text.isprintable():
            raise self.of("title").fault("title", f"is {show(text)}; it is one line of text")
        return text

    def number_of_steps(self) -> int:
        """Return the number of steps."""
        most = long_record.MOST_STEPS
        steps = self.of("steps").whole("steps", low=1, high=None if "steps" in self.top else most)
        if steps > most:
            raise self.of("steps").fault(
                "steps", f"is {steps}; it is at most {most}; a further study continues with `after`"
            )
        return steps

    def set_clock(self) -> None:
        """Set the clock, and the clock time of step 0 if the study has one."""
        self.start: Fraction | None = None
        day = zone = None
        if "start" in self.top:
            x = self.top.values["start"]
            if not isinstance(x, (str, time, datetime)):
                raise self.of("start").fault(
                    "start", f'is {show(x)}, where a clock time like "07:00" is needed'
                )
            at = parse_moment(str(x).strip(), f"{self.file('start')}: `start`")
            if self.seconds is None:
                raise self.of("start").fault(
                    "start", "needs `step`: the record has no step's seconds"
                )
            self.start, day, zone = at.second, at.day, at.zone
        self.clock = Clock(self.seconds or Fraction(1), self.start, self.steps, day, zone)

    def recorded(self) -> tuple[engine.Road, engine.Start, np.ndarray]:
        """Return road, start and rows of the record that the study names.

        The study adds what a record doesn't hold.
        """
        for key in ("steps", "version", "gate", "defaults", "arrivals", "after"):
            if key in self.top:
                raise self.of(key).fault(key, "is also in `record`; keep one")
        path = self.file("record").parent / tables.get_file_name(self.of("record"), "record")
        try:
            record = engine.read(input_files.read_start(path, engine.BYTES + 1))
        except engine.Refused as e:
            raise self.of("record").fault("record", f"is {path.name!r}: {e}") from None
        road = record.road
        self.seconds, self.steps = (
            Fraction(road.seconds) if road.version == 2 else None
        ), record.steps
        if "step" in self.top:
            step = Fraction(self.of("step").whole("step", low=1, high=engine.SECONDS))
            if self.seconds not in (None, step):
                raise self.of("step").fault(
                    "step", f"is {step}, and {path.name} has steps of {self.seconds} s"
                )
            self.seconds = step
        elif self.seconds is None and self.needs_seconds():
            raise self.of("record").fault("step", f"is missing: {path.name} has no step's seconds")
        self.set_clock()
        cells = self.several("cell") or [TomlTable({}, "") for _ in range(road.n)]
        if len(cells) != road.n:
            raise self.of("cell").fault(
                "cell", f"occurs {len(cells)} times; {path.name} has {road.n} cells"
            )
        for i, c in enumerate(cells):
            for key in c.values:
                if key not in BESIDE_RECORD:
                    raise c.fault(
                        key,
                        (
                            "is also in `record`; next to it a cell has only"
                            f" {', '.join(BESIDE_RECORD)}"
                        ),
                    )
            if "ramp" in c and not road.ramp[i]:
                raise c.fault("ramp", f"is {c.values['ramp']!r}; the record has no ramp there")
            self.lengths.append(c.number("length", low=_LEAST) if "length" in c else None)
            self.called(c, i, c.values.get("ramp", str(i + 1)) if road.ramp[i] else None)
        return road, record.begin, record.rows.copy()

    def needs_seconds(self) -> bool:
        """Return whether laws or releases need a step's seconds."""
        laws, table = self.top.values.get("meter", {}), self.top.values.get("releases", {})
        own = lambda x: isinstance(x, dict) and ("parts" in x or x.get("law") == "open")
        steps = isinstance(table, dict) and (
            table.get("unit") in ("parts", "veh")
            and "step" in table
            or all(x == 0 for x in table.values())
        )
        return not isinstance(laws, dict) or not all(own(x) for x in laws.values()) or not steps

    @property
    def step_seconds(self) -> Fraction:
        """A step's seconds; whether they are known was checked before."""
        return self.seconds if self.seconds is not None else Fraction(1)

    def road(self) -> tuple[engine.Road, engine.Start]:
        """Return road and start, in parts."""
        cells = self.several("cell")
        if not 1 <= len(cells) <= engine.CELLS:
            raise StudyError(
                f"{self.file('cell')}: {len(cells)} [[cell]]; a road has 1 to {engine.CELLS}"
                + TOO_MANY_CELLS * (len(cells) > engine.CELLS)
            )
        defaults = self.table("defaults", "cell", {}).values
        for key in ("name", "ramp", "parts", "queue"):
            if key in defaults:
                raise StudyError(
                    f"{self.file('defaults')}: [defaults]: `{key}` belongs to one cell"
                )
        version = self.of("version").whole("version", 2, low=1, high=2)
        r, s = (
            engine.Road(
                n=len(cells), version=version, seconds=int(self.step_seconds) if version == 2 else 0
            ),
            engine.Start(),
        )
        for i, given in enumerate(cells):
            for key in BESIDE_PARTS if "parts" in given else ():
                if key in given:
                    raise given.fault(
                        key,
                        "is also in `parts`, in the engine's own numbers; keep one",
                    )
            other = {
                "held": "density",
                "density": "held",
            }  # what a cell says takes the place of either in [defaults]
            kept = {key: x for key, x in defaults.items() if other.get(key) not in given.values}
            self.cell(r, s, i, TomlTable({**kept, **given.values}, given.where))
        if r.share[r.n - 1]:
            if "split" in cells[-1]:
                raise cells[-1].fault(
                    "split",
                    "is in the last cell: all that leaves it leaves the road; remove it",
                )
            if "parts" in cells[-1]:
                raise cells[-1].fault("parts", "has a b in the last cell, where it is 0")
            r.share[r.n - 1] = 0
        self.gate(r, s)
        return r, s

    def gate(self, r: engine.Road, s: engine.Start) -> None:
        """Take the gate's capacity and queue."""
        gate = self.table("gate", default={})
        if "parts" in gate:
            for key in gate.values.keys() - {"parts"}:
                raise gate.fault(key, "is also in `parts`, in the engine's own numbers; keep one")
            raw = TomlTable(gate.values["parts"], f"{gate.where} parts", KEYS["gate.parts"])
            r.gate_capacity, s.gate_queue = raw.whole("capacity", high=engine.RATE), raw.whole(
                "queue", 0, high=engine.START
            )
            return
        r.gate_capacity = self.parts(
            0,
            "capacity",
            gate.number("capacity", high=engine.RATE * 3600 // 1000 / self.step_seconds)
            * self.step_seconds
            / 3600
            * 1000,
        )
        s.gate_queue = self.parts(
            0, "queue", gate.number("queue", 0, high=engine.START // 1000) * 1000
        )

    def cell(self, r: engine.Road, s: engine.Start, i: int, c: TomlTable) -> None:
        """Take a cell's numbers, its ramp and its names."""
        ramp = c.values.get("ramp")
        numbers = self.raw(c) if "parts" in c else self.physical(c, i, ramp is not None)
        r.speed[i], r.wave[i], r.share[i], r.jam[i], r.capacity[i], s.held[i], s.queue[i] = numbers
        r.ramp[i] = int(ramp is not None)
        if ramp is None and "queue" in c:
            raise c.fault(
                "queue",
                "is in a cell without a `ramp`, where nobody can wait; add `ramp` or remove it",
            )
        self.called(c, i, ramp)

    def called(self, c: TomlTable, i: int, ramp: Any) -> None:
        """Take a cell's name, its ramp's name if it has one, and its lanes."""
        if ramp is not None:
            name = _name(c, "ramp", ramp)
            if name in self.ramps or name in tables.TAKEN:
                raise c.fault(
                    "ramp",
                    (
                        f"is {name!r}: another ramp has this name, or the name is taken"
                        f" ({', '.join(tables.TAKEN)})"
                    ),
                )
            self.ramps[name] = i + 1
        self.names.append(_name(c, "name", c.values.get("name", i + 1)))
        self.built.append(c.whole("lanes", 1, low=1, high=8))

    def raw(self, c: TomlTable) -> tuple[int, ...]:
        """Return the engine's own numbers, in parts and thousandths."""
        raw = TomlTable(c.values["parts"], f"{c.where}: parts", KEYS["cell.parts"])
        self.lengths.append(c.number("length", low=_LEAST) if "length" in c else None)
        v, w, b = (raw.whole(key, high=engine.WHOLE) for key in "vwb")
        J, C = (raw.whole(key, high=engine.RATE) for key in "JC")
        return v, w, b, J, C, raw.whole("held", 0, high=J), raw.whole("queue", 0, high=engine.START)

    def physical(self, c: TomlTable, i: int, ramp: bool) -> tuple[int, ...]:
        """Return km, km/h, veh/km and veh/h as parts and thousandths of a step."""
        dt, length = self.step_seconds, c.number("length", low=_LEAST)
        speed, jam, capacity = (
            c.number(key, low=_LEAST if key == "speed" else 0)
            for key in ("speed", "jam", "capacity")
        )
        wave = c.number("wave") if "wave" in c else self.triangular(speed, jam, capacity, c)
        for what, x in (("speed", speed), ("wave", wave)):
            if x * dt > 3600 * length:
                longest, shortest = int(3600 * length / x), float(x * dt / 3600)
                step = (
                    f"take a step of at most {longest} s"
                    if longest
                    else "no step of whole seconds is short enough: make the cell longer"
                )
                passes = (
                    f"{float(x):g} km/h x {dt} s = {shortest:.3f} km passes the cell's"
                    f" {float(length):g} km in one step"
                )
                raise c.fault(what, f"{passes}; {step} or a cell of at least {shortest:.3f} km")
        v, w = (
            self.parts(i + 1, what, x * dt / 3600 / length * 1000)
            for what, x in (("speed", speed), ("wave", wave))
        )
        b = self.parts(i + 1, "split", c.number("split", 1, high=1) * 1000)
        J, C = self.parts(i + 1, "jam", jam * length * 1000), self.parts(
            i + 1, "capacity", capacity * dt / 3600 * 1000
        )
        most = speed * wave / (speed + wave) * jam
        if capacity > most * Fraction(1001, 1000):
            self.notes.append(
                f"cell {i + 1}: capacity {float(capacity):g} veh/h is never reached: speed, wave"
                f" and jam density allow {float(most):.0f}"
            )
        if "density" in c and "held" in c:
            raise c.fault(
                "density", "and `held` both say what the cell holds at the start; keep one"
            )
        held = c.number("density", high=jam) * length if "density" in c else c.number("held", 0)
        queue = (
            self.parts(i + 1, "queue", c.number("queue", 0, high=engine.START // 1000) * 1000)
            if ramp
            else 0
        )
        for key, parts, top in (
            ("jam", J, engine.RATE),
            ("capacity", C, engine.RATE),
            ("held", round_half_up(held * 1000), J),
        ):
            if parts > top:
                unit = {
                    "jam": "vehicles in the cell",
                    "capacity": "vehicles a step",
                    "held": "vehicles",
                }[key]
                raise c.fault(
                    key,
                    f"makes {parts / 1000:,.3f} {unit}; "
                    + (
                        f"the cell holds at most {J / 1000:,.3f}"
                        if key == "held"
                        else f"at most {top // 1000:,} fit"
                    ),
                )
        self.lengths.append(length)
        return v, w, b, J, C, self.parts(i + 1, "held", held * 1000), queue

    def triangular(
        self, speed: Fraction, jam: Fraction, capacity: Fraction, c: TomlTable
    ) -> Fraction:
        """Return the wave of a triangular diagram: capacity / (jam - critical density)."""
        critical = critical_density(capacity, speed)
        if critical >= jam:
            found = (
                f"makes the critical density {float(critical):.1f} veh/km, which is not below the"
                f" jam density of {float(jam):g}"
            )
            raise c.fault("capacity", f"{found}; check `capacity`, `speed` and `jam`")
        return capacity / (jam - critical)

    def arrivals(self, road: engine.Road) -> np.ndarray:
        """Return rows with the arrivals; each entry must have arrivals, or 0."""
        if "arrivals" not in self.top:
            raise StudyError(
                f"{self.path}: [arrivals] is missing: it names a CSV file of arrivals, or has them"
                " as lists"
            )
        entries = ["gate", *self.ramps]
        table = TomlTable(self.top.values["arrivals"], f"{self.file('arrivals')}: [arrivals]")
        given = tables.read_table(
            table, self.file("arrivals").parent, "arrivals.csv", entries, self.clock
        )
        if missing := [x for x in entries if x not in given.parts]:
            zeros = ", ".join(f"`{tables.toml_key(x)} = 0`" for x in missing)
            fits = (
                "".join(
                    f"; {x!r} has no row{suggest_or_list(x, given.others)}" for x in missing[:3]
                )
                if given.others
                else ""
            )
            raise StudyError(
                f"{given.where}: there are no arrivals for {', '.join(missing)}{fits}; if nobody"
                f" arrives, write {zeros} in [arrivals]"
            )
        self.take(given)
        rows = np.zeros((self.steps, 1 + 2 * road.n), np.uint32)
        rows[:, 0] = given.parts["gate"]
        for name, cell in self.ramps.items():
            rows[:, 2 * cell - 1] = given.parts[name]
        return rows

    def take(self, given: tables.TableParts) -> None:
        """Keep the notes about a table's file, and the gaps that were filled in it."""
        self.notes += given.notes
        self.filled += given.filled

    def releases(self, road: engine.Road, rows: np.ndarray) -> tuple[np.ndarray | None, list[str]]:
        """Return the plan of [releases], and the ramps that it names.

        Exact releases are put into the rows.
        """
        if "releases" not in self.top:
            return None, []
        table = TomlTable(self.top.values["releases"], f"{self.file('releases')}: [releases]")
        given = tables.read_table(
            table, self.file("releases").parent, "releases.csv", list(self.ramps), self.clock
        )
        self.take(given)
        plan = np.zeros((self.steps, road.n), np.uint32)
        exact = not table.flag("cap", True)
        for name, parts in given.parts.items():
            plan[:, self.ramps[name] - 1] = parts
            if exact:
                rows[:, 2 * self.ramps[name]] = parts
        return None if exact or not given.parts else plan, list(given.parts)

    def after(self, road: engine.Road) -> engine.Start:
        """Return what another study leaves at its end, as this one's start."""
        top = self.of("after")
        name = tables.get_file_name(top, "after")
        before = self.load_before(self.file("after").parent / name) if self.load_before else None
        if before is None:
            raise top.fault("after", "is circular, or goes through more than eight studies")
        if before.n != road.n:
            raise top.fault("after", f"is {name!r}, of {before.n} cells; this road has {road.n}")
        try:
            end = before.run().state
        except engine.Refused as e:
            raise top.fault("after", f"is {name!r}: {before.describe_refusal(e)}") from None
        for i in range(road.n):
            if end.held[i] > road.jam[i] or end.queue[i] and not road.ramp[i]:
                raise top.fault(
                    "after",
                    (
                        f"is {name!r}, which leaves {end.held[i]} parts in cell {i + 1} and"
                        f" {end.queue[i]} at its ramp; this road has no place for them"
                    ),
                )
        if (
            self.start is not None
            and None not in (before.start, before.seconds)
            and (before.start + before.record.steps * before.seconds - self.start) % 86400
        ):
            self.notes.append(
                f"`after` is {name!r}, which ends at"
                f" {before.when(before.record.steps).split(', ')[-1]}; this study starts at"
                f" {format_clock(self.start)}"
            )
        return engine.Start(end.gate_queue, end.held, end.queue)

    def limits(self, e: engine.Refused, road: engine.Road, start: engine.Start) -> str:
        """Return what a refusal of writing means in this study."""
        if e.refusal != Refusal.LIMITS or e.place == 0:
            return ""
        i = e.place - 1
        return (
            f"; cell {e.place} has v {road.speed[i]}, w {road.wave[i]}, b {road.share[i]}, J"
            f" {road.jam[i]}, C {road.capacity[i]}, held {start.held[i]}, queue {start.queue[i]}"
        )

    def laws(self, road: engine.Road, tabled: list[str], planned: bool) -> dict[int, tuple]:
        """Return meter laws in the engine's units."""
        laws: dict[int, tuple] = {}
        for meter in self.meters(tabled, planned):
            laws.update(self.laws_of(meter, road))
        return laws

    def laws_of(self, meter: MeterTable, road: engine.Road) -> dict[int, tuple]:
        """Return the laws of a meter's ramps by cell, in parts and parts a step.

        The table's numbers are read once for all its ramps. The road gives those that it lacks.
        """
        table, keys = self.law_keys(meter)
        exact = {name: table.number(x.key, low=x.low) * x.factor for name, x in keys.items()}
        given = {name: float(x) for name, x in exact.items() if not keys[name].by_length}

        def number(name: str, cell: int) -> float:
            if name in given:
                return given[name]
            if name in exact:
                return float(exact[name] / self.length(meter, cell))
            return float(_by_road(name, road, cell - 1))

        kind = "fixed" if meter.law == "open" else meter.law
        names = engine.TAKES[kind]
        return {cell: (kind, *(number(x, cell) for x in names)) for cell in meter.cells}

    def length(self, meter: MeterTable, cell: int) -> Fraction:
        """Return the length of a ramp's cell, which a gain in km/h needs."""
        length = self.lengths[cell - 1]
        if length is None:
            raise meter.table.fault("gain_kmh", f"needs the `length` of cell {cell}")
        return length

    def meters(self, tabled: list[str], planned: bool) -> Iterator[MeterTable]:
        """Yield the tables of [meter], each with its law and the cells of its ramps.

        Each ramp has exactly one law or table. With a record and no plan, a ramp without either
        releases what the record has.
        """
        file = self.file("meter")
        meters = TomlTable(self.top.values.get("meter", {}), f"{file}: [meter]")
        for name in meters.values:
            if name != "all" and name not in self.ramps:
                known = (
                    f"no cell has a ramp called {name!r}; ramps are"
                    f" {', '.join(self.ramps) or 'none'}, and `all`"
                )
                raise StudyError(f"{file}: [meter.{name}]: {known}{suggest(name, self.ramps)}")
            if name in tabled:
                raise StudyError(
                    f"{file}: [releases] and [meter.{name}] both say what ramp {name} releases;"
                    " keep one"
                )
        left = [x for x in self.ramps if x not in tabled and x not in meters]
        if "all" in meters and not left:
            raise StudyError(
                f"{file}: [meter.all]: no ramp is left for it; each has a law or a table of its own"
            )
        if left and "all" not in meters and (planned or "record" not in self.top):
            raise StudyError(
                f"{self.path}: these ramps have no law and no table: {', '.join(left)};"
                " [meter.NAME] or [meter.all] gives a law, [releases] a table"
            )
        for name in meters.values:
            m = TomlTable(meters.values[name], f"{file}: [meter.{name}]", KEYS["meter"])
            law = m.choice("law", list(LAWS))
            for key in m.values.keys() - {"law", "parts"} - LAWS[law]:
                raise m.fault(
                    key,
                    (
                        f"belongs to another law; {law} takes"
                        f" {', '.join(sorted(LAWS[law])) or 'nothing else'}"
                    ),
                )
            ramps = left if name == "all" else [name]
            yield MeterTable(name, m, law, [self.ramps[ramp] for ramp in ramps])

    def law_keys(self, meter: MeterTable) -> tuple[TomlTable, dict[str, LawKey]]:
        """Return the table with a law's numbers, and the key of each number that it has."""
        m, law = meter.table, meter.law
        if "parts" in m:
            return _own_numbers(m, law)
        rate, count = self.step_seconds / 3600 * 1000, Fraction(1000)
        keys: dict[str, LawKey] = {}
        if law == "alinea":
            if ("gain_kmh" in m) == ("gain" in m):
                raise m.fault("gain", "(a step) or `gain_kmh` (km/h) is needed, one of the two")
            speed = LawKey("gain_kmh", self.step_seconds / 3600, by_length=True)
            keys["gain"] = LawKey("gain") if "gain" in m else speed
            if m.values.get("target", "critical") != "critical":
                keys["target"] = LawKey("target", count)
        elif law == "fixed":
            keys["rate"] = LawKey("rate", rate)
        elif law == "demand-capacity":
            given = {"capacity": rate, "critical": count, "least": rate}
            keys = {x: LawKey(x, by) for x, by in given.items() if x in m or x == "least"}
        return m, keys

    def works(self, road: engine.Road) -> bytes:
        """Return the table of lanes: lanes built, then lanes open in each step."""
        closures = self.several("closure")
        if not closures:
            return b""
        table = np.array([[(1 << k) - 1 for k in self.built]] * (self.steps + 1), np.uint8)
        done: list[tuple[int, int, int, int]] = []
        for c in closures:
            cell = c.whole("cell", low=1, high=road.n)
            shut = c.whole("lanes", low=1, high=self.built[cell - 1])
            for key in ("from", "to"):
                if key not in c:
                    raise c.fault(key, "is missing; it is a clock time or a step")
            begin, end = (
                self.clock.step(c.values[key], f"{c.where}: `{key}`") for key in ("from", "to")
            )
            if begin >= self.steps:
                raise c.fault("from", f"is {c.values['from']}, when the study has ended")
            if begin >= end:
                raise c.fault("to", f"is {c.values['to']}, which is not after {c.values['from']}")
            if other := next(
                (k for k, there, a, b in done if there == cell and a < end and begin < b), None
            ):
                raise c.fault(
                    "from",
                    (
                        f"is {c.values['from']}: closure {other} has cell {cell} at the same time;"
                        " write one closure for this time, with all lanes that are closed"
                    ),
                )
            done.append((len(done) + 1, cell, begin, end))
            table[1 + begin : 1 + min(end, self.steps), cell - 1] = (
                1 << (self.built[cell - 1] - shut)
            ) - 1
        return table.tobytes()

    def weights(self, road: engine.Road) -> tuple[list[int], list[int]] | None:
        """Return weights of the gate and each cell, and of each ramp's queue."""
        if "weights" not in self.top:
            return None
        w = self.table("weights")
        cells = w.values.get("road", 1)
        if isinstance(cells, list):
            if len(cells) != road.n:
                raise w.fault(
                    "road",
                    f"has {len(cells)} numbers; it is one for all cells, or a list of {road.n}",
                )
            each = TomlTable(
                {str(i): x for i, x in enumerate(cells, 1)}, f"{w.where}: `road`, cell"
            )
            places = [each.whole(str(i), high=255) for i in range(1, road.n + 1)]
        else:
            places = [w.whole("road", 1, high=255)] * road.n
        named = w.values.get("ramps", 1)
        each = TomlTable(
            (
                named
                if isinstance(named, dict)
                else dict.fromkeys(self.ramps, w.whole("ramps", 1, high=255))
            ),
            f"{w.where}: ramps",
            self.ramps,
        )
        ramps = [1] * road.n  # also at cells without a ramp
        for name in each.values:
            ramps[self.ramps[name] - 1] = each.whole(name, high=255)
        return [w.whole("gate", 1, high=255), *places], ramps


def _name(c: TomlTable, key: str, given: Any) -> str:
    """Return the name of a cell or a ramp; a field of a CSV file must be able to hold it."""
    if isinstance(given, bool) or not isinstance(given, (str, int)):
        raise c.fault(key, f"is {show(given)}, where a text in quotes is needed")
    name = str(given)
    if not name or name != name.strip() or not name.isprintable():
        raise c.fault(
            key,
            (
                f"is {show(given)}; a name has no blanks at its ends, and nothing that can't be"
                " printed"
            ),
        )
    return name


def _by_road(name: str, road: engine.Road, i: int) -> int:
    """Return a law's number that its table lacks, by the cell at i; `open` has the largest rate."""
    if name == "rate":
        return engine.RATE
    return road.capacity[i] if name == "capacity" else _critical(road, i)


def _critical(road: engine.Road, i: int) -> int:
    """Return the critical count of the cell at i in whole parts; 0 if its speed is 0."""
    speed = road.speed[i]
    return (2 * engine.WHOLE * road.capacity[i] + speed) // (2 * speed) if speed else 0


def _own_numbers(m: TomlTable, law: str) -> tuple[TomlTable, dict[str, LawKey]]:
    """Return the table of a law's numbers in the engine's own units, and their keys.

    The units are parts a step, parts, and for a gain a step.
    """
    for key in m.values.keys() - {"law", "parts"}:
        raise m.fault(key, "is also in `parts`, in the engine's own numbers; keep one")
    if law == "open":
        raise m.fault("parts", "belongs to another law; open takes nothing else")
    raw = TomlTable(m.values["parts"], f"{m.where} parts", engine.TAKES[law])
    return raw, {key: LawKey(key, low=-(10**30)) for key in engine.TAKES[law]}
