"""The reference's text forms, read for the tests: records, meter laws, tables of lanes and schedules (`reference/src/text.rs`)."""
import re
from collections.abc import Iterator

import numpy as np

from nobyaluk import engine
from nobyaluk.errors import StudyError, parse_whole, show

_BITS = {
    "version": 8,
    "seconds": 16,
    "v": 16,
    "w": 16,
    "b": 16,
    "ramp": 16,
    "jam": 32,
    "capacity": 32,
    "held": 32,
    "queue": 32,
}
_GATE, _CELL = ("capacity", "queue"), ("v", "w", "b", "jam", "capacity", "ramp", "held", "queue")
_NEEDED = ("v", "w", "b", "jam", "capacity")  # of a gate its capacity alone
_LANES = 8


class _Words:
    """The words of a line, taken one after another."""

    def __init__(self, where: str, words: list[str]) -> None:
        self.where, self.words = where, words

    def fault(self, says: str) -> StudyError:
        return StudyError(f"{self.where}: {says}")

    def word(self, what: str) -> str:
        if not self.words:
            raise self.fault(f"{what} is missing at the end of the line")
        return self.words.pop(0)

    def keyword(self, word: str) -> None:
        if (found := self.word(f"`{word}`")) != word:
            raise self.fault(f"`{word}` is expected, not {show(found)}")

    def number(self, what: str, most: int, least: int = 0) -> int:
        """The next word as a whole number within its limits."""
        given = self.word(what)
        try:
            x = parse_whole(given, most)
            if x < least:
                raise ValueError
        except ValueError:
            raise self.fault(
                f"{what} is {show(given)}; it is a whole number from {least} to {most}"
            ) from None
        return x

    def real(self, what: str) -> float:
        given = self.word(what)
        try:
            return float(given.replace("_", "x"))
        except ValueError:
            raise self.fault(f"{what} is {show(given)}, where a number is needed") from None

    def pairs(self, keys: tuple[str, ...]) -> dict[str, int]:
        """`key number` pairs to the end of the line, each at most once."""
        found: dict[str, int] = {}
        while self.words:
            key = self.word("a key")
            if key not in keys or key in found:
                raise self.fault(
                    f"{show(key)} "
                    + ("is there twice" if key in found else f"is not one of {', '.join(keys)}")
                )
            found[key] = self.number(f"`{key}`", (1 << _BITS[key]) - 1)
        if missing := [key for key in keys if key in _NEEDED and key not in found]:
            raise self.fault(f"`{missing[0]}` is missing")
        return found

    def end(self) -> None:
        if self.words:
            raise self.fault(f"{show(self.words[0])} is too much on this line")


def _lines(text: str, name: str) -> Iterator[_Words]:
    for number, line in enumerate(re.split("\r\n|\r|\n", text.removeprefix("\ufeff")), 1):
        words = line.split("#")[0].split()
        if words:
            yield _Words(f"{name}, line {number}", words)


class _Draft:
    """A record's road, start and rows, statement by statement; each number as the record's bytes hold it."""

    def __init__(self) -> None:
        self.road, self.start, self.rows = engine.Road(version=1), engine.Start(), []
        self.said: dict[str, int] = {}  # of version, seconds, steps and gate, which are there once

    def statement(self, line: _Words) -> None:
        head, times = line.word("a statement"), None
        if head == "repeat":
            times, head = line.number("the count of repeats", 65_535), line.word("`cell` or `row`")
        if head in self.said or times is not None and head not in ("cell", "row"):
            raise line.fault(
                f"`{show(head)}` "
                + ("is there twice" if head in self.said else "can't be repeated")
            )
        if head in ("version", "seconds", "steps"):
            self.said[head] = line.number(
                f"`{head}`", engine.STEPS if head == "steps" else (1 << _BITS[head]) - 1
            )
        elif head == "gate":
            p = line.pairs(_GATE)
            self.said[head], self.start.gate_queue = p["capacity"], p.get("queue", 0)
        elif head == "cell":
            self.cells(line, 1 if times is None else times)
        elif head == "row":
            self.row(line, 1 if times is None else times)
        else:
            raise line.fault(
                f"{show(head)} is not a statement of a study; the reference's converter may know it"
            )
        line.end()

    def cells(self, line: _Words, times: int) -> None:
        road, start, n = self.road, self.start, self.road.n
        if self.rows:
            raise line.fault("cells come before the rows")
        if n + times > engine.CELLS:
            raise line.fault(f"a road has 1 to {engine.CELLS} cells")
        p = line.pairs(_CELL)
        for i in range(n, n + times):
            road.speed[i], road.wave[i], road.share[i], road.jam[i], road.capacity[i] = (
                p[key] for key in _NEEDED
            )
            road.ramp[i], start.held[i], start.queue[i] = (
                p.get(key, 0) for key in ("ramp", "held", "queue")
            )
        road.n = n + times

    def row(self, line: _Words, times: int) -> None:
        """A row as all its numbers or by names."""
        size = 1 + 2 * self.road.n
        if len(self.rows) + times > engine.STEPS:
            raise line.fault(f"a record has 1 to {engine.STEPS} rows")
        if line.words and line.words[0].isdigit():
            if len(line.words) != size:
                raise line.fault(
                    f"{len(line.words)} numbers; a row has {size}: the gate's arrivals, then"
                    " arrivals and release of each cell"
                )
            row = [line.number("a number of the row", (1 << 32) - 1) for _ in range(size)]
        else:
            row = _named(line, self.road.n)
        self.rows += [row] * times

    def finish(self, name: str) -> bytes:
        road, said = self.road, self.said
        if not self.rows or not road.n or "gate" not in said:
            raise StudyError(
                f"{name}: it has no `gate`, `cell` or `row`; a text of a record has all three"
            )
        if said.get("steps", len(self.rows)) != len(self.rows):
            raise StudyError(f"{name}: {len(self.rows)} rows under `steps {said['steps']}`")
        road.version, road.gate_capacity = said.get("version", 1), said["gate"]
        if (road.version == 2) != ("seconds" in said):
            raise StudyError(
                f"{name}: a record of version 2 has `seconds`, and one of version 1 has none"
            )
        road.seconds = said.get("seconds", 0)
        return engine.write(road, self.start, np.array(self.rows, np.uint32)).data


def record_of(text: str, name: str = "text") -> bytes:
    """The bytes of the record that a text describes, put by the engine."""
    draft = _Draft()
    for line in _lines(text, name):
        draft.statement(line)
    return draft.finish(name)


def _named(line: _Words, n: int) -> list[int]:
    """A row by names; what isn't named is 0."""
    found: dict[int, int] = {}
    cell = None
    while line.words:
        word = line.word("a key")
        if word == "ramp":
            cell = line.number("the ramp's cell", n, 1)
            continue
        if word != "gate" and (word not in ("arrivals", "release") or cell is None):
            raise line.fault(
                f"{show(word)} is neither gate nor ramp, nor arrivals or release of a ramp"
            )
        at = 0 if word == "gate" else 2 * cell - (word == "arrivals")
        if at in found:
            raise line.fault(f"`{word}` is there twice for one place")
        found[at] = line.number(f"`{word}`", (1 << 32) - 1)
    return [found.get(at, 0) for at in range(1 + 2 * n)]


def laws_of(text: str, name: str = "laws") -> dict[int, tuple]:
    """A meter law for each cell named."""
    laws: dict[int, tuple] = {}
    for line in _lines(text, name):
        line.keyword("ramp")
        cell = line.number("the ramp's cell", engine.CELLS, 1)
        if cell in laws:
            raise line.fault(f"the ramp at cell {cell} has a law already")
        kind = line.word("a law")
        if kind not in engine.TAKES:
            raise line.fault(
                f"{show(kind)} is no law; a law is `fixed RATE`, `alinea gain N target N` or"
                " `demand-capacity capacity N critical N least N`"
            )
        numbers = []
        for key in engine.TAKES[kind]:
            if kind != "fixed":
                line.keyword(key)
            numbers.append(line.real(f"`{key}`"))
        line.end()
        laws[cell] = (kind, *numbers)
    return laws


class _Works:
    """A table of lanes, statement by statement: cells, steps, lanes built, lanes closed."""

    def __init__(self) -> None:
        self.cells = self.steps = 0
        self.built: list[int] = []
        self.open: np.ndarray | None = None

    def statement(self, line: _Words) -> None:
        head = line.word("a statement")
        if head == "cells" and not self.cells:
            self.cells = line.number("`cells`", engine.CELLS, 1)
            self.built = [0] * self.cells
        elif head == "steps" and not self.steps:
            self.steps = line.number("`steps`", engine.STEPS, 1)
        elif head == "built" and self.cells and self.open is None:
            lanes = (1 << line.number("the lanes", _LANES, 1)) - 1
            for i in [self.cell(line)] if line.words else range(self.cells):
                self.built[i] = lanes
        elif head == "closed" and self.cells and self.steps:
            self.closed(line)
        else:
            raise line.fault(
                f"{show(head)} can't be here; a table of lanes says `cells N`, `steps N`, `built N"
                " [cell I]`, `closed LANE cell I steps A to B`"
            )
        line.end()

    def cell(self, line: _Words) -> int:
        line.keyword("cell")
        return line.number("the cell", self.cells, 1) - 1

    def closed(self, line: _Words) -> None:
        lane = line.number("the lane", _LANES, 1)
        i = self.cell(line)
        line.keyword("steps")
        begin = line.number("the first step", self.steps - 1)
        line.keyword("to")
        end = line.number("the last step", self.steps - 1, begin)
        if not self.built[i] >> (lane - 1) & 1:
            raise line.fault(f"cell {i + 1} has no lane {lane}")
        if self.open is None:
            self.open = np.array([self.built] * self.steps, np.uint8)
        self.open[begin : end + 1, i] &= 255 ^ (1 << (lane - 1))

    def finish(self, name: str) -> bytes:
        if not self.cells or not self.steps or 0 in self.built:
            raise StudyError(
                f"{name}: a table of lanes says `cells N`, `steps N` and `built N` for every cell,"
                f" 1 to {_LANES} lanes"
            )
        rows = np.array([self.built] * self.steps, np.uint8) if self.open is None else self.open
        return bytes(self.built) + rows.tobytes()


def lanes_of(text: str, name: str = "lanes") -> bytes:
    """A table of lanes: n bytes of lanes built, then n bytes a step of lanes open."""
    works = _Works()
    for line in _lines(text, name):
        works.statement(line)
    return works.finish(name)


_PARTS = "an outflow is a whole number of parts, thousandths of a vehicle, up to 4294967295"


def schedule_of(text: str, name: str = "schedule") -> list[int]:
    """The outflows of a schedule, a row a step."""
    out = []
    for line in _lines(text, name):
        out += [_outflow(word, line.where) for word in line.words]
    return out


def _outflow(word: str, where: str) -> int:
    try:
        return parse_whole(word, (1 << 32) - 1)
    except ValueError:
        raise StudyError(f"{where}: {show(word)} is no outflow; {_PARTS}") from None


def schedule_csv(path, n):
    """A schedule of a text as CSV, for a road of n cells."""
    numbers = schedule_of(path.read_text())
    rows = [numbers[at : at + n + 1] for at in range(0, len(numbers), n + 1)]
    return "".join(",".join(map(str, row)) + "\n" for row in rows)


def laws_toml(path):
    """The laws of a text as tables of a study that names a record."""
    out = []
    for cell, (kind, *numbers) in laws_of(path.read_text()).items():
        each = ", ".join(f"{key} = {x!r}" for key, x in zip(engine.TAKES[kind], numbers))
        out.append(f'[meter.{cell}]\nlaw = "{kind}"\nparts = {{ {each} }}\n')
    return "".join(out)
