"""Faults in a study's files: file, key or row, what is there and what is allowed."""
import re
from collections.abc import Collection, Mapping
from decimal import Decimal
from fractions import Fraction
from typing import Any


class StudyError(ValueError):
    """A fault in a study's files or numbers; the message names file and place."""


class RefusedStudy(Exception):
    """The engine refused a study; the message uses the study's names, `refused` is the refusal."""

    def __init__(self, message: str, refused: Any) -> None:
        super().__init__(message)
        self.refused = refused


class FaultList:
    """The faults of one file, gathered so that all are raised together.

    Faults with the same message are joined, with their rows.
    """

    LINES, SPANS = 20, 8  # that are shown

    def __init__(self, path: str) -> None:
        self.path, self.hint = path, ""
        self.found: dict[str, list[int]] = {}

    def add(self, row: int | None, says: object) -> None:
        """Add a fault of a row, or of the file if `row` is None.

        The message may begin with file and row.
        """
        words = str(says).removeprefix(self.path)
        if found := re.match(r", row ([0-9]{1,15})", words):
            row, words = int(found[1]), words[found.end() :]
        rows = self.found.setdefault(words, [])
        if row is not None:
            rows.append(row)

    def check(self) -> None:
        """Raise what was gathered, if anything was."""
        if not self.found:
            return
        if len(self.found) == 1:
            ((says, rows),) = self.found.items()
            raise StudyError(
                f"{self.path}{', ' if rows else ''}{self.spans(rows)}{says}"
                + (f"; {self.hint}" if self.hint else "")
            )
        kinds = sorted(self.found.items(), key=lambda x: x[1][:1])
        count = sum(max(len(rows), 1) for rows in self.found.values())
        lines = [
            f"{self.spans(rows)}{says}" if rows else says.removeprefix(": ")
            for says, rows in kinds[: self.LINES]
        ]
        if left := sum(max(len(rows), 1) for _, rows in kinds[self.LINES :]):
            lines.append(f".. and {left} more")
        raise StudyError(
            "\n  ".join(
                [f"{self.path}: {count} faults:", *lines, *([self.hint] if self.hint else [])]
            )
        )

    def spans(self, rows: list[int]) -> str:
        """Return rows in words: row 4; rows 4, 7 to 9."""
        found: list[list[int]] = []
        for row in sorted(set(rows)):
            if found and row == found[-1][1] + 1:
                found[-1][1] = row
            else:
                found.append([row, row])
        words = [str(a) if a == b else f"{a} to {b}" for a, b in found[: self.SPANS]]
        if left := sum(b - a + 1 for a, b in found[self.SPANS :]):
            words.append(f"and {left} more")
        return f"row{'s' if len(set(rows)) > 1 else ''} {', '.join(words)}" if rows else ""


def show(x: Any) -> str:
    """Return a value as a message shows it; a long one is cut."""
    if isinstance(x, int) and not isinstance(x, bool) and x.bit_length() > 200:
        return f"a number of {x.bit_length()} bits"
    try:
        words = (
            f"{float(x):.12g}"
            if isinstance(x, Fraction)
            else str(x) if isinstance(x, (int, float, Decimal)) else repr(x)
        )
    except (
        ValueError,
        OverflowError,
        RecursionError,
    ):  # numbers of more digits than Python prints, deep nesting
        return f"a {type(x).__name__}"
    return words if len(words) <= 80 else f"{words[:60]} .. {words[-10:]}"


def parse_whole(text: str, most: int = (1 << 64) - 1) -> int:
    """Return a whole number that is written in digits only.

    ValueError for any other text, or for a number above `most`.
    """
    if not re.fullmatch(r"[0-9]{1,40}", text) or (x := int(text)) > most:
        raise ValueError(f"{show(text)} is no whole number from 0 to {most}")
    return x


def parse_decimal(text: str) -> Fraction:
    """Return a decimal as it is written, with a point or a comma; ValueError for anything else."""
    if not re.fullmatch(
        r"[+-]?(\d{1,40}([.,]\d{0,40})?|[.,]\d{1,40})([eE][+-]?\d{1,2})?", text, re.ASCII
    ):
        raise ValueError(text)
    return Fraction(text.replace(",", "."))


def parse_option(text: str, option: str) -> Fraction:
    """Return a number of the command line.

    A text that is no number is a fault. So is 1,200, which may mean 1200 or 1.2.
    """
    if re.fullmatch(r"[+-]?[1-9][0-9]{0,2}(,[0-9]{3})+", text):
        raise StudyError(
            f"{option} is {show(text)}, which is {text.replace(',', '')} or"
            f" {text.replace(',', '.', 1)}; write it without a comma"
        )
    try:
        return parse_decimal(text)
    except ValueError:
        raise StudyError(f"{option} is {show(text)}, where a number is needed") from None


class TomlTable:
    """A table of a TOML file, and where it is, in words.

    Each value is checked when it is read.
    """

    def __init__(self, values: Any, where: str, known: Collection[str] | None = None) -> None:
        if not isinstance(values, Mapping):
            raise StudyError(f"{where} is {show(values)}, where a table is needed")
        self.values, self.where = values, where
        for key in values:
            if known is not None and key not in known:
                raise StudyError(
                    f"{where}: {_key(key)} is not known here; the known keys are"
                    f" {', '.join(sorted(known))}"
                )

    def __contains__(self, key: str) -> bool:
        return key in self.values

    def fault(self, key: str, says: str) -> StudyError:
        """Return a StudyError that names the table, the key and what is wrong."""
        return StudyError(f"{self.where}: {_key(key)} {says}")

    def number(self, key: str, default: Any = None, low: Any = 0, high: Any = None) -> Fraction:
        """Return an exact number within its limits; without a default it must be there."""
        x = self.values.get(key, default)
        if x is None:
            raise self.fault(
                key,
                f"is missing; it is a number from {_limit(low)}"
                + (f" to {_limit(high)}" if high is not None else ""),
            )
        if (
            isinstance(x, bool)
            or not isinstance(x, (int, Decimal, Fraction))
            or isinstance(x, Decimal)
            and not x.is_finite()
        ):
            raise self.fault(key, f"is {show(x)}, where a number is needed")
        if isinstance(x, Decimal) and x and abs(x.adjusted()) > 30:
            raise self.fault(key, f"is {show(x)}, which is no number of a road")
        if x < low:
            raise self.fault(key, f"is {show(x)}; it is at least {_limit(low)}")
        if high is not None and x > high:
            raise self.fault(key, f"is {show(x)}; it is at most {_limit(high)}")
        return Fraction(x)

    def whole(
        self, key: str, default: int | None = None, low: int = 0, high: int | None = None
    ) -> int:
        """Return a whole number within its limits; without a default it must be there."""
        x = self.number(key, default, low, high)
        if x.denominator != 1:
            raise self.fault(key, f"is {float(x):g}, where a whole number is needed")
        return int(x)

    def text(self, key: str, default: str | None = None) -> str:
        """Return a text; without a default it must be there."""
        x = self.values.get(key, default)
        if not isinstance(x, str):
            raise self.fault(
                key,
                (
                    "is missing; it is a text"
                    if x is None
                    else f"is {show(x)}, where a text in quotes is needed"
                ),
            )
        return x

    def choice(self, key: str, allowed: Collection[str], default: str | None = None) -> str:
        """Return one of the allowed texts."""
        x = self.values.get(key, default)
        if x not in allowed:
            raise self.fault(
                key, ("is missing" if x is None else f"is {show(x)}") + f"; it is {_or(allowed)}"
            )
        return x

    def flag(self, key: str, default: bool) -> bool:
        """Return true or false."""
        x = self.values.get(key, default)
        if not isinstance(x, bool):
            raise self.fault(key, f"is {show(x)}; it is true or false")
        return x


def _key(key: Any) -> str:
    """Return a key as it is written, if it can be printed."""
    name = str(key)
    return f"`{name}`" if name.isprintable() and len(name) <= 80 else show(name)


def _limit(x: Any) -> str:
    """Return a limit, written as a decimal."""
    return f"{float(x):.6f}".rstrip("0").rstrip(".") if isinstance(x, Fraction) else str(x)


def _or(words: Collection[str]) -> str:
    *most, last = [f'"{w}"' for w in words]
    return f"{', '.join(most)} or {last}" if most else last
