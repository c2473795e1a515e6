"""Files that are written: whole or not at all, and never over a file that is read.

The new contents go to a temporary name in the same folder, which is renamed once they are on the
disk. A full disk or a killed process leaves the old file unchanged.
"""
import os
import secrets
import stat
from collections.abc import Iterable, Iterator, Mapping
from contextlib import contextmanager, suppress
from contextvars import ContextVar
from errno import EACCES, EISDIR, ENOENT
from pathlib import Path

from .errors import StudyError, show
from .input_files import find_inputs, is_same_file, read_start


class NotWritten(Exception):
    """Something could not be written."""


class Guard:
    """The files that a command reads, and those that it has written.

    The files that it reads are collected before the first file is written.
    """

    def __init__(self, names: Iterable[str | Path], force: bool) -> None:
        self.names, self.force = list(names), force
        self.found: list[Path] | None = None
        self.done: list[Path] = []

    def inputs(self) -> list[Path]:
        """Return the files that the command reads, with those that they name."""
        if self.found is None:
            self.found = find_inputs(self.names)
        return self.found


_guard: ContextVar[Guard | None] = ContextVar("guard", default=None)  # None outside a command


@contextmanager
def protect_inputs(names: Iterable[str | Path], force: bool = False) -> Iterator[None]:
    """Refuse to write over these files, or files that they name, within a with-block.

    `force` allows it.
    """
    token = _guard.set(Guard(names, force))
    try:
        yield
    finally:
        _guard.reset(token)


def check_target(path: str | Path, inputs: Iterable[str | Path] = (), force: bool = False) -> None:
    """Raise StudyError if the path is an input, or if this command has already written it."""
    guard = _guard.get() or Guard((), False)
    if any(is_same_file(path, x) for x in guard.done):
        raise StudyError(f"{path}: this command has two outputs of this name")
    if force or guard.force:
        return
    for x in (*inputs, *guard.inputs()):
        if is_same_file(path, x):
            raise StudyError(
                f"{path}: the output is not written over the input; name another file, or add"
                " --force"
            )


def check_writable(path: str | Path) -> None:
    """Check before long work that a file can be written.

    StudyError if the path is an input; NotWritten if its folder is missing or not writable.
    """
    if str(path) == "-":
        return
    check_target(path)
    if "\0" in str(path):
        raise NotWritten(f"{show(str(path))} could not be written: no file has such a name")
    target = os.path.realpath(path)
    folder = os.path.dirname(target)
    writable = os.access(target if os.path.exists(target) else folder, os.W_OK)
    if what := (
        EISDIR
        if os.path.isdir(target)
        else ENOENT if not os.path.isdir(folder) else EACCES if not writable else 0
    ):
        raise NotWritten(f"{path} could not be written: {os.strerror(what)}")


def write_file(
    path: str | Path, data: str | bytes, inputs: Iterable[str | Path] = (), force: bool = False
) -> None:
    """Write a file whole or not at all.

    StudyError if it is one of the inputs and `force` is not set, NotWritten if it can't be.
    """
    check_target(path, inputs, force)
    given = data.encode("utf-8", "backslashreplace") if isinstance(data, str) else bytes(data)
    try:
        target = os.path.realpath(path)  # a link stays, and the file behind it is replaced
        old = os.stat(target) if os.path.exists(target) else None
        if old is not None and not stat.S_ISREG(old.st_mode):
            _write(
                os.open(target, os.O_WRONLY), given
            )  # a device or a pipe; a folder is an OSError
            return
        if old is not None and not os.access(target, os.W_OK):
            raise PermissionError(13, "Permission denied")
        _replace(target, given, old)
    except BrokenPipeError:
        raise
    except (OSError, ValueError) as e:
        raise NotWritten(
            f"{path} could not be written: {getattr(e, 'strerror', None) or e}"
        ) from None
    if guard := _guard.get():
        guard.done.append(Path(path))


def _write(descriptor: int, data: bytes) -> None:
    with open(descriptor, "wb") as f:
        f.write(data)
        f.flush()
        with suppress(OSError):  # a pipe has no disk
            os.fsync(f.fileno())


def _replace(target: str, data: bytes, old: os.stat_result | None) -> None:
    """Write the contents under a temporary name, then rename it.

    If that fails, nothing is left behind.
    """
    folder, name = os.path.split(target)
    temporary = os.path.join(folder, f".{name[:40]}-{secrets.token_hex(6)}.part")
    descriptor = os.open(temporary, os.O_WRONLY | os.O_CREAT | os.O_EXCL, 0o666)
    try:
        with open(descriptor, "wb") as f:
            if old is not None:
                with suppress(OSError):
                    os.fchown(descriptor, old.st_uid, old.st_gid)
                os.fchmod(descriptor, stat.S_IMODE(old.st_mode))
            f.write(data)
            f.flush()
            os.fsync(f.fileno())
        os.replace(temporary, target)
    except BaseException:
        with suppress(OSError):
            os.unlink(temporary)
        raise
    with suppress(OSError):  # the new name too is on the disk
        at = os.open(folder, os.O_RDONLY)
        try:
            os.fsync(at)
        finally:
            os.close(at)


def write_files(files: Mapping[Path, str | bytes], named: Iterable[Path], force: bool) -> None:
    """Write files, each whole.

    It is a fault if a file that nobody named exists already with other contents.
    """
    for path, data in files.items():
        if path in named or force or not os.path.lexists(path):
            continue
        new = data.encode() if isinstance(data, str) else data
        if not path.is_file() or read_start(path, len(new) + 1) != new:
            raise StudyError(
                f"{path} already exists and would be replaced; name another file, or add --force"
            )
    for path, data in files.items():
        write_file(path, data)


def make_folder(folder: str | Path) -> None:
    """Make a folder, unless it exists; NotWritten if that fails."""
    try:
        Path(folder).mkdir(parents=True, exist_ok=True)
    except (OSError, ValueError) as e:
        raise NotWritten(
            f"{folder} could not be made: {getattr(e, 'strerror', None) or e}"
        ) from None
