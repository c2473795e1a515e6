"""Clock times of files, and the clock of a study: its steps in seconds and its times of day."""
import re
from dataclasses import dataclass
from datetime import date
from fractions import Fraction
from typing import Any

from .errors import StudyError, parse_decimal, show

DAY = (
    r"(?P<year>[0-9]{4})(?P<mark>[-/])(?P<month>[0-9]{1,2})(?P=mark)(?P<day>[0-9]{1,2})"
    r"|(?P<first>[0-9]{1,2})\.(?P<second>[0-9]{1,2})\.(?P<last>[0-9]{4})"
)
_ZONE = r"(?P<zone>Z|[+-][0-9]{2}:?[0-9]{2})"
MOMENT = re.compile(
    rf"(?:(?:{DAY})(?:T|"
    r" +))?(?P<clock>[0-9]{1,2}:[0-9]{2}(?::[0-9]{2}(?:\.(?P<part>[0-9]{1,9}))?)?)(?:"
    rf" ?{_ZONE})?"
)
_EITHER = re.compile(r"[0-9]{1,2}([-/])[0-9]{1,2}\1[0-9]{2,4}\b.*")


@dataclass(frozen=True)
class Moment:
    """A clock time, with its day and its offset from UTC if they are written."""

    second: Fraction
    day: int | None
    zone: int | None


def parse_moment(text: str, where: str) -> Moment:
    """Parse a time like 07:30, 07:30:20 or 2026-05-12 07:30.

    The date may also be 2026/05/12 or 12.05.2026, with `T` or a blank after it; Z or an offset may
    follow.
    """
    m = MOMENT.fullmatch(text)
    if m is None:
        if _EITHER.fullmatch(text):
            raise StudyError(
                f"{where}: {show(text)} may have the day or the month first; write 2026-05-12 or"
                " 12.05.2026"
            )
        raise StudyError(
            f"{where}: {show(text)} is no clock time like 07:30 or 07:30:20, alone or after a date"
            " like 2026-05-12 or 12.05.2026"
        )
    at = parse_clock(m["clock"].partition(".")[0], where) + (
        Fraction(int(m["part"]), 10 ** len(m["part"])) if m["part"] else 0
    )
    year = m["year"] or m["last"]
    if year is None:
        if m["zone"]:
            raise StudyError(f"{where}: {text!r} has an offset from UTC and no date")
        return Moment(at, None, None)
    try:
        day = date(
            int(year), int(m["month"] or m["second"]), int(m["day"] or m["first"])
        ).toordinal()
    except ValueError:
        raise StudyError(f"{where}: {text!r}: there is no such day") from None
    return Moment(at, day, _offset(m["zone"]))


def _offset(zone: str | None) -> int | None:
    """Return seconds ahead of UTC."""
    if zone is None:
        return None
    return (
        0
        if zone == "Z"
        else (1 if zone[0] == "+" else -1) * (3600 * int(zone[1:3]) + 60 * int(zone[-2:]))
    )


class Clock:
    """The study's time: step 0 begins at second 0, or at a clock time, which may have a date."""

    def __init__(
        self,
        seconds: Fraction,
        start: Fraction | None,
        steps: int,
        day: int | None = None,
        zone: int | None = None,
    ) -> None:
        self.seconds, self.start, self.steps, self.day, self.zone = seconds, start, steps, day, zone
        self.zoned = zone is not None  # whether it is known if times have an offset
        self.taken, self.latest = False, Fraction(
            0
        )  # whether the day is a file's first, and the latest time with a date

    def second(self, kind: str, text: str, where: str) -> Fraction:
        """Return a field's time in seconds after the beginning of step 0.

        `kind` is `time`, `step`, `seconds` or `minutes`.
        """
        if kind != "time":
            try:
                x = (
                    Fraction(int(text))
                    if text.isascii() and text.isdigit() and len(text) < 16
                    else parse_decimal(text)
                )
                unit = {"step": self.seconds, "seconds": Fraction(1), "minutes": Fraction(60)}
                return x * unit[kind]
            except ValueError:
                raise StudyError(f"{where}: {show(text)} under `{kind}` is no number") from None
        if self.start is None:
            raise StudyError(
                f"{where}: {show(text)} is a clock time, which needs `start`, the clock time of"
                " step 0; or count by `step`, `seconds` or `minutes`"
            )
        at = parse_moment(text.strip(), where)
        if at.day is None:
            return at.second - self.start
        if self.day is None:
            self.day, self.taken = at.day, True
        self.zone, self.zoned = (self.zone if self.zoned else at.zone), True
        if (at.zone is None) != (self.zone is None):
            raise StudyError(
                f"{where}: {text!r}: some times have an offset from UTC and some have none"
            )
        second = (
            at.second
            + 86400 * (at.day - self.day)
            - ((at.zone or 0) - (self.zone or 0))
            - self.start
        )
        self.latest = max(self.latest, second)
        return second

    def describe(self, second: Fraction) -> str:
        """Return a time of the study in words.

        It is a clock time if the study has one, with the day if that is not the first.
        """
        if self.start is None:
            return f"{float(second):g} s"
        days, at = divmod(second + self.start, 86400)
        day = f"{date.fromordinal(self.day + int(days))} " if self.day is not None and days else ""
        return day + format_clock(at)

    def step(self, text: Any, where: str) -> int:
        """Return the step that begins then; a whole number is a step."""
        if (
            isinstance(text, int)
            and not isinstance(text, bool)
            or re.fullmatch(r"[0-9]{1,9}", str(text).strip())
        ):
            if int(text) < 0:
                raise StudyError(f"{where}: {text} is no step; steps are counted from 0")
            return int(text)
        k = self.second("time", str(text), where) / self.seconds
        if k.denominator != 1 or k < 0:
            raise StudyError(
                f"{where}: {text} lies before `start` or within a step of {self.seconds} s"
            )
        return int(k)


def parse_clock(text: Any, where: str) -> Fraction:
    """Return the seconds of the day of HH:MM or HH:MM:SS; hours go on past midnight, up to 48."""
    found = re.fullmatch(r"([0-9]{1,2}):([0-9]{1,2})(?::([0-9]{1,2}))?", str(text).strip())
    h, m, s = (int(x or 0) for x in found.groups()) if found else (99, 99, 99)
    if not (h <= 48 and m < 60 and s < 60):
        raise StudyError(f"{where}: {show(text)} is no clock time like 07:30 or 07:30:20")
    return Fraction(3600 * h + 60 * m + s)


def format_clock(second: Fraction) -> str:
    """Return a second of the day as a study writes it: 07:00:20, with decimals if it has some."""
    t = int(second)
    part = f"{float(second - t):.9f}"[1:].rstrip("0") if second != t else ""
    return f"{t // 3600:02d}:{t // 60 % 60:02d}:{t % 60:02d}{part}"
