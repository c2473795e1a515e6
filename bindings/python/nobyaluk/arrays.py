"""Numbers, lists and bytes as the C boundary takes them, each tested before it is passed on."""
import ctypes
import math
import operator
from typing import Any

import numpy as np

from .errors import show


def to_unsigned(x: Any, bits: int) -> int:
    """Return a number that fits this many bits, or raise ValueError.

    ctypes itself would silently keep only the low bits of a larger number.
    """
    if not 0 <= (x := operator.index(x)) < 1 << bits:
        raise ValueError(f"{show(x)} is no number of {bits} bits")
    return x


def to_array(values: Any, dtype: type = np.uint32) -> np.ndarray:
    """Return a list that the engine may read, with every number unchanged, or raise ValueError."""
    a = np.asarray(values)
    if a.dtype != dtype:
        if not _fit(a, np.iinfo(dtype).max):
            raise ValueError(f"a list holds whole numbers from 0 to {np.iinfo(dtype).max}")
        a = a.astype(dtype)
    return np.ascontiguousarray(a)


def _fit(a: np.ndarray, top: int) -> bool:
    """Return whether an array holds only whole numbers from 0 to `top`."""
    if not a.size:
        return True
    if a.dtype.kind == "O":
        return all(type(x) is int and 0 <= x <= top for x in a.flat)
    if a.dtype.kind == "f" and not (np.isfinite(a).all() and (a == np.floor(a)).all()):
        return False
    return a.dtype.kind in "iuf" and int(a.min()) >= 0 and int(a.max()) <= top


def to_bytes(data: Any) -> bytes:
    """Return plain bytes, whatever object holds them.

    Their length is then the count that is passed with them.
    """
    if type(data) is bytes:
        return data
    try:
        view = memoryview(data)
    except TypeError:
        view = None
    if view is None or view.itemsize != 1:
        raise TypeError(
            f"bytes are needed, not {type(data).__name__}"
            + ("" if view is None else f" of {view.itemsize} bytes each")
        )
    return view.tobytes()


def freeze(a: np.ndarray) -> np.ndarray:
    """Return the same numbers over bytes, so that nothing can make the array writable again."""
    if isinstance(a.base, bytes) and not a.flags.writeable:
        return a
    return np.ndarray(a.shape, a.dtype, a.tobytes())


# By [] we get a function of our own, whose types no other package sets; given None, it leaves
# the bytes unset.
_new_bytes = ctypes.pythonapi["PyBytes_FromStringAndSize"]
_new_bytes.restype, _new_bytes.argtypes = ctypes.py_object, (ctypes.c_char_p, ctypes.c_ssize_t)


def make_frozen(*shape: int, dtype: type = np.uint32) -> np.ndarray:
    """Return a read-only array over new bytes, for a call of the engine that sets all of them.

    Pass the array on only after that call. `freeze` returns it without a copy.
    """
    size = math.prod(shape) * np.dtype(dtype).itemsize
    return np.ndarray(shape, dtype, _new_bytes(None, size))


def lend(a: np.ndarray) -> tuple[int, int]:
    """Return the address and the count of a list, as the C boundary takes it."""
    return a.__array_interface__["data"][0], a.size
