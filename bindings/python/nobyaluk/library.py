"""The C boundary of the proved engine: its structs, its limits and its functions.

Each function here is the one of `nobyaluk.h` with the prefix `nobyaluk_`, called as C calls it:
with the address and the count of each list. `engine` has the same operations for Python. A call
releases Python's lock, and the engine has no state of its own, so threads run side by side.
"""
import ctypes
import os
from pathlib import Path
from typing import TYPE_CHECKING, Any

from .arrays import to_unsigned

CELLS, STEPS, BYTES, RATE, START, SECONDS, WHOLE = (
    64,
    1440,
    65536,
    1_000_000,
    1_000_000_000,
    900,
    1000,
)
MOST_OUTFLOWS = 8_799  # of T x (n + 1) in a record that reads
ENTRY = 75  # numbers of a study's entry among the answers of run_many and fill_many

_u8, _u16, _u32, _u64, _size = (
    ctypes.c_uint8,
    ctypes.c_uint16,
    ctypes.c_uint32,
    ctypes.c_uint64,
    ctypes.c_size_t,
)


_LOCKED = (
    "this belongs to a record, whose bytes it would not change; change a copy of the road or start,"
    " and write() a record of it"
)


if TYPE_CHECKING:
    _Array = ctypes.Array[Any]
else:
    _Array = object  # ctypes takes no array without its type and length


class _Tested(_Array):
    """An array of a struct. Each new number is tested; numbers of a record can't be set."""

    def __init__(self, *values: Any) -> None:
        super().__init__(*(to_unsigned(x, 8 * ctypes.sizeof(self._type_)) for x in values))

    def __setitem__(self, at: Any, value: Any) -> None:
        if "locked" in getattr(getattr(self, "_b_base_"), "__dict__", ()):
            raise ValueError(_LOCKED)
        bits = 8 * ctypes.sizeof(self._type_)
        super().__setitem__(
            at,
            (
                [to_unsigned(x, bits) for x in value]
                if isinstance(at, slice)
                else to_unsigned(value, bits)
            ),
        )


def _array(kind: Any, length: int) -> Any:
    return type(
        f"{kind.__name__}_{length}", (_Tested, ctypes.Array), {"_type_": kind, "_length_": length}
    )


class Struct(ctypes.Structure):
    """A struct of the boundary. Each new number is tested; an unknown field is an error."""

    def __init_subclass__(cls: Any) -> None:
        if cls.__base__ is not Struct:
            raise TypeError(
                f"{cls.__base__.__name__} can't be extended: the engine is given its own fields"
                " alone"
            )
        cls._kinds = dict(cls._fields_)

    def __setattr__(self, name: str, value: Any) -> None:
        kind = self._kinds.get(name)
        if kind is None:
            raise AttributeError(f"{type(self).__name__} has no field {name!r}")
        if "locked" in self.__dict__:
            raise ValueError(_LOCKED)
        if not issubclass(kind, ctypes.Array):
            value = to_unsigned(value, 8 * ctypes.sizeof(kind))
        elif not isinstance(value, kind):
            value = kind(*value)
        super().__setattr__(name, value)

    def copy(self) -> Any:
        """Return a copy that can be changed."""
        return type(self).from_buffer_copy(self)

    def lock(self) -> Any:
        """Return the struct; from now on it can't be changed."""
        self.__dict__["locked"] = True
        return self

    def __eq__(self, other: Any) -> bool:
        """Return whether all fields are equal, also those past cell n."""
        if type(other) is not type(self):
            return NotImplemented
        pairs = [(getattr(self, name), getattr(other, name)) for name, _ in self._fields_]
        return all(list(a) == list(b) if isinstance(a, ctypes.Array) else a == b for a, b in pairs)

    __hash__ = None  # type: ignore[assignment] # its numbers may change

    def __repr__(self) -> str:
        numbers = ", ".join(
            f"{name}={getattr(self, name)}"
            for name, kind in self._fields_
            if not issubclass(kind, ctypes.Array)
        )
        return f"{type(self).__name__}({numbers}{', ' * bool(numbers)}..)"


_u8s, _u16s, _u32s = (_array(kind, CELLS) for kind in (_u8, _u16, _u32))


class Road(Struct):
    """What doesn't change during a run; cell i is at index i - 1.

    Attributes
    ----------
    n : int
        Cells, 1 to 64; entries of the arrays from n on belong to no cell.
    version, seconds : int
        Of the record; seconds of a step in version 2, otherwise 0.
    gate_capacity : int
        Parts a step.
    speed, wave : array of int
        v and w, thousandths of the cell a step.
    share : array of int
        b, the thousandths of an outflow that stay on the road.
    ramp : array of int
        1 if the cell has an on-ramp, otherwise 0.
    jam : array of int
        J, parts.
    capacity : array of int
        C, parts a step.
    """

    _fields_ = [
        ("n", _size),
        ("version", _u8),
        ("seconds", _u16),
        ("gate_capacity", _u32),
        ("speed", _u16s),
        ("wave", _u16s),
        ("share", _u16s),
        ("ramp", _u16s),
        ("jam", _u32s),
        ("capacity", _u32s),
    ]


class State(Struct):
    """The state of a road after `done` steps.

    Attributes
    ----------
    done : int
        Steps.
    gate_time, road_time, ramp_time : int
        Time spent so far, in part-steps.
    gate_queue, held, queue : int and arrays of int
        At the gate, in each cell and at its ramp, in parts.
    gate_cumulative, cumulative : int and array of int
        Outflows since step 0, in parts.
    """

    _fields_ = [
        ("done", _size),
        ("gate_time", _u64),
        ("road_time", _u64),
        ("ramp_time", _u64),
        ("gate_queue", _u32),
        ("gate_cumulative", _u32),
        ("held", _u32s),
        ("queue", _u32s),
        ("cumulative", _u32s),
    ]


class Start(Struct):
    """The start of a study.

    Attributes
    ----------
    gate_queue, held, queue : int and arrays of int
        At the gate, in each cell and at its ramp, in parts.
    """

    _fields_ = [("gate_queue", _u32), ("held", _u32s), ("queue", _u32s)]


class Lanes(Struct):
    """The lanes of one step: each set bit of a cell's byte is a lane, built or open."""

    _fields_ = [("built", _u8s), ("usable", _u8s)]


class Weights(Struct):
    """Weights of waiting, 0 to 255.

    There is one for the gate and each cell, the gate first, and one for each ramp's queue. Weights
    past cell n are not read.
    """

    _fields_ = [("places", _array(_u8, CELLS + 1)), ("ramps", _u8s)]


class Reading(ctypes.Structure):
    """The answer of reading a record."""

    _fields_ = [
        ("number", _u64),
        ("place", _u64),
        ("steps", _u64),
        ("road", Road),
        ("state", State),
    ]


class Ended(ctypes.Structure):
    """The answer of running, filling or judging."""

    _fields_ = [
        ("number", _u64),
        ("step", _u64),
        ("place", _u64),
        ("total", _u64),
        ("present", _u64),
        ("exits", _u64),
        ("road", Road),
        ("state", State),
    ]


class Weighed(ctypes.Structure):
    """The answer of running with weights."""

    _fields_ = [("weighted", _u64), ("ended", Ended)]


class Longest(ctypes.Structure):
    """The answer of running or filling with the longest queues."""

    _fields_ = [("gate", _u32), ("waiting", _u32), ("ramps", _u32 * CELLS), ("ended", Ended)]


class Tallied(ctypes.Structure):
    """The answer of running that goes on from a state; it covers the steps of this record."""

    _fields_ = [("weighted", _u64), ("longest", Longest)]


class Progress(ctypes.Structure):
    """The progress from which filling goes on: a state, and each cell's last release and entry.

    All are in parts.
    """

    _fields_ = [("state", State), ("releases", _u32 * CELLS), ("entries", _u32 * CELLS)]


class Filled(ctypes.Structure):
    """The answer of filling that goes on, with the last releases and entries for the next call."""

    _fields_ = [("longest", Longest), ("releases", _u32 * CELLS), ("entries", _u32 * CELLS)]


class Stepped(ctypes.Structure):
    """The answer of one step."""

    _fields_ = [("number", _u64), ("place", _u64), ("state", State)]


class Written(ctypes.Structure):
    """The answer of writing or joining."""

    _fields_ = [("number", _u64), ("place", _u64), ("count", _u64)]


class Loaded(ctypes.Structure):
    """The answer of the stated load."""

    _fields_ = [("number", _u64), ("last", _u64)]


class Wanted(ctypes.Structure):
    """The answer of the search for a wanted queue."""

    _fields_ = [("number", _u64), ("found", _u64)]


class Released(ctypes.Structure):
    """The answer of putting a release."""

    _fields_ = [("number", _u64), ("place", _u64)]


class Answer(ctypes.Structure):
    """The answer for one of many studies."""

    _fields_ = [
        ("number", _u64),
        ("step", _u64),
        ("place", _u64),
        ("gate_time", _u64),
        ("road_time", _u64),
        ("ramp_time", _u64),
        ("total", _u64),
        ("exits", _u64),
        ("present", _u64),
        ("gate", _u64),
        ("waiting", _u64),
        ("ramps", _u64 * CELLS),
    ]


class Many(ctypes.Structure):
    """The answer of the whole call with many studies."""

    _fields_ = [("number", _u64), ("place", _u64)]


class Row(ctypes.Structure):
    """The numbers of one row."""

    _fields_ = [("numbers", _u32 * 129)]


assert [ctypes.sizeof(t) for t in (Road, State, Start, Reading, Ended, Stepped)] == [
    1040,
    808,
    516,
    1872,
    1896,
    824,
]
assert [ctypes.sizeof(t) for t in (Weights, Weighed, Longest)] == [129, 1904, 2160]
assert [ctypes.sizeof(t) for t in (Tallied, Progress, Filled)] == [2168, 1320, 2672]
assert ctypes.sizeof(Answer) == 8 * ENTRY


def _load_library() -> ctypes.CDLL:
    beside = Path(__file__).with_name("libnobyaluk.so")
    built = Path(__file__).resolve().parents[3] / "target/bindings/libnobyaluk.so"
    name = os.environ.get("NOBYALUK_LIBRARY") or str(beside if beside.exists() else built)
    try:
        return ctypes.CDLL(name)
    except OSError as e:
        raise ImportError(
            f"the engine's library can't be loaded: {e}; bindings/build makes it, and ./nobyaluk"
            " does so on first use"
        ) from None


_lib = _load_library()  # a call of a CDLL gives up Python's lock


def path() -> Path:
    """Return the file of the engine's library."""
    return Path(_lib._name)


def _function(name: str, result: Any, *arguments: Any) -> Any:
    try:
        f = getattr(_lib, f"nobyaluk_{name}")
    except AttributeError:
        raise ImportError(
            f"the engine's library has no nobyaluk_{name}: it is older than this package; build it"
            " again with bindings/build"
        ) from None
    f.restype, f.argtypes = result, arguments
    return f


VERSION = 2  # of the structs and arguments of the boundary
if (_found := _function("version", _u32)()) != VERSION:
    raise ImportError(
        f"the engine's library has boundary {_found}, and this package needs {VERSION}: build it"
        " again with bindings/build"
    )

_bytes, _list = (ctypes.c_char_p, _size), (ctypes.c_void_p, _size)
read = _function("read", Reading, *_bytes)
read_within = _function("read_within", Reading, *_bytes, _size, _size)
run = _function("run", Ended, *_bytes, *_bytes, *_list)
run_weighted = _function("run_weighted", Weighed, *_bytes, *_bytes, Weights, *_list)
judge = _function("judge", Ended, *_list, *_bytes, *_list)
history = _function("history", Ended, *_bytes, *_bytes, *_list, *_list, *_list)
run_longest = _function("run_longest", Longest, *_bytes, *_bytes, *_list)
fill = _function("fill", Ended, *_list, *_bytes, *_list, *_bytes, *_list)
fill_longest = _function("fill_longest", Longest, *_list, *_bytes, *_list, *_bytes, *_list)
run_many = _function("run_many", Many, *_list, *_bytes, *_list, *_list, *_list)
fill_many = _function("fill_many", Many, *_list, *_bytes, *_list, *_bytes, *_list, *_list, *_list)
run_on = _function("run_on", Tallied, *_list, *_bytes, Weights, State, *_list)
fill_on = _function("fill_on", Filled, *_list, *_bytes, *_list, *_bytes, Progress, *_list)
judge_on = _function("judge_on", Ended, *_list, *_bytes, State, *_list)
history_on = _function("history_on", Ended, *_list, *_bytes, State, *_list, *_list, *_list)
write = _function("write", Written, Road, _size, Start, *_list, *_list)
rows = _function("rows", _size, *_list, _size, _size, *_list)
row = _function("row", Row, *_bytes, _size, _size)
load = _function("load", Loaded, _u32, _u32, *_list)
wanted = _function("wanted", Wanted, _u32, _u32, _u32, *_list, *_list)
grant = _function("grant", _u64, _u32, *_list, *_list, *_list)
put = _function("put", Released, *_list, _size, _size, _u32)
join = _function("join", Written, *_bytes, *_bytes, _u16, *_list)
step = _function("step", Stepped, Road, State, *_list, Lanes)
present = _function("present", _u64, Road, State)
on_road = _function("on_road", _u64, Road, State)
at_ramps = _function("at_ramps", _u64, Road, State)
weighted = _function("weighted", _u64, Road, State, Weights)
exits = _function("exits", _u64, Road, State)
total = _function("total", _u64, State)
vehicle_seconds = _function("vehicle_seconds", _u64, _u16, State)
demand = _function("demand", _u32, _u16, _u32, _u32)
gate_demand = _function("gate_demand", _u32, _u32, _u32)
supply = _function("supply", _u32, _u16, _u32, _u32, _u32)
room = _function("room", _u32, _u32, _u32)
onward = _function("onward", _u64, _u16, _u32)
entering = _function("entering", _u64, _u16, _u32, _u32)
outflow = _function("outflow", _u32, _u16, _u32, _u32, _u32)
outflow_by_halves = _function("outflow_by_halves", _u32, _u16, _u32, _u32, _u32)
open_capacity = _function("open_capacity", _u32, _u32, _u8, _u8)
wish = _function("wish", ctypes.c_double, _u8, *[ctypes.c_double] * 3, _u32, _u32, _u32)
release = _function("release", _u32, ctypes.c_double, _u32)
