"""Files that are read, each up to a stated size.

So a device, or a file of gigabytes, is a fault and does not fill the memory.
"""
import os
from collections.abc import Iterable
from pathlib import Path
from typing import Any

import tomllib

from .errors import StudyError

MOST_RECORD = 65_536  # bytes of a record
MOST_TEXT = 16 << 20  # bytes of a record, laws, lanes or a schedule as text


def read_start(path: str | Path, most: int) -> bytes:
    """Return the first `most` bytes of a file, all of them if it has fewer."""
    try:
        with open(path, "rb") as f:
            return f.read(most)
    except ValueError:  # a NUL
        raise StudyError(f"{str(path)!r} is no name of a file") from None


def read_file(path: str | Path, most: int = MOST_TEXT) -> bytes:
    """Return all bytes of a file that has at most `most`; otherwise it is a fault."""
    data = read_start(path, most + 1)
    if len(data) > most:
        raise StudyError(
            f"{path}: it has more than {most:,} bytes, which is more than such a file may have"
        )
    return data


def read_text(path: str | Path, most: int = MOST_TEXT) -> str:
    """Return the text of a file in UTF-8, with or without a byte-order mark; a fault otherwise."""
    try:
        return read_file(path, most).decode("utf-8-sig")
    except UnicodeDecodeError:
        raise StudyError(f"{path}: it is not in UTF-8; save it as text (UTF-8)") from None


def read_record(path: str | Path) -> bytes:
    """Return a record's bytes; StudyError for a file that is no record.

    A longer file gives one byte more than a record may have, which the engine refuses.
    """
    if Path(path).suffix == ".csv":
        raise StudyError(
            f"{path}: it is a table (.csv), not a study; name the .toml file whose [arrivals] or"
            " [releases] reads it"
        )
    data = read_start(path, MOST_RECORD + 1)
    if (
        len(data) >= 4 and 0 not in data[:4]
    ):  # a record begins with its length, up to 65,532, in four bytes
        raise StudyError(
            f"{path}: it is not a record, but {_looks_like(data)}; a study is a .toml or .rec"
            " file, named so"
        )
    return data


def _looks_like(data: bytes) -> str:
    known = {
        b"PK\3\4": "a spreadsheet or another archive",
        b"\x89PNG": "a picture (PNG)",
        b"%PDF": "a PDF",
        b"\x1f\x8b": "compressed (gzip)",
    }
    for first, words in known.items():
        if data.startswith(first):
            return words
    try:
        text = data.decode("utf-8-sig", "strict" if len(data) <= MOST_RECORD else "ignore")
    except UnicodeDecodeError:
        return "other data"
    if text.lstrip().startswith("<"):
        return "a page (HTML or XML)"
    return (
        "text in TOML"
        if any(line.partition("=")[1] or line.startswith("[") for line in text.splitlines())
        else "text"
    )


def find_inputs(names: Iterable[str | Path]) -> list[Path]:
    """Return these files, and all files that a .toml among them names.

    These are its base, the study before it, its tables and a street's studies. A name in a base is
    looked up in the folder of the base and of each file that led to it, so that none is missed.
    """
    out: list[Path] = []
    seen: set[tuple[str, frozenset[str]]] = set()
    waiting = [
        (Path(name), frozenset([os.path.realpath(Path(name).parent)]))
        for name in names
        if "\0" not in str(name)
    ]
    while waiting:
        path, folders = waiting.pop()
        folders |= {os.path.realpath(path.parent)}
        if (key := (os.path.realpath(path), folders)) in seen:
            continue
        seen.add(key)
        out.append(path)
        if path.suffix == ".toml":
            waiting += [
                (Path(at, name), folders) for name in _named(path) for at in sorted(folders)
            ]
    return out


def _named(path: Path) -> list[str]:
    """Return all names of files in a .toml.

    None if it can't be read, which the command itself reports.
    """
    try:
        top = tomllib.loads(read_text(path))
    except (OSError, ValueError, RecursionError):
        return []
    out, waiting = [], [top]
    while waiting:
        x: Any = waiting.pop()
        if isinstance(x, dict):
            out += [
                x[key]
                for key in ("base", "after", "record", "file", "study")
                if isinstance(x.get(key), str)
            ]
            out += [f"{key}.csv" for key in ("arrivals", "releases") if key in x]
            waiting += x.values()
        elif isinstance(x, list):
            waiting += x
    return [name for name in out if "\0" not in name]


def is_same_file(a: str | Path, b: str | Path) -> bool:
    """Return whether two names are one file.

    The files are compared if both exist, otherwise the full names.
    """
    try:
        return os.path.samefile(a, b)
    except OSError:
        return os.path.realpath(a) == os.path.realpath(b)
    except ValueError:  # a NUL, which no file's name has
        return False
