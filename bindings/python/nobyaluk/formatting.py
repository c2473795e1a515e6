"""Names and tables as files have them: TOML texts, and CSV that no spreadsheet computes."""
import csv
import io
import json
from collections.abc import Iterable
from typing import Any

from .errors import StudyError


def quote_toml(text: str) -> str:
    """Return a text as TOML writes it."""
    try:
        text.encode()
    except UnicodeEncodeError:
        raise StudyError(f"{text!r} can't be written as text: it is not in UTF-8") from None
    return json.dumps(text, ensure_ascii=False).replace("\x7f", "\\u007f")


def csv_safe(name: str) -> str:
    """Return a name for a CSV file.

    One that a spreadsheet would compute as a formula gets an apostrophe before it.
    """
    return f"'{name}" if name[:1] in ("=", "+", "-", "@", "\t", "\r") and name else name


def columns_key(names: Iterable[str]) -> str:
    """Return the key of a study that reads such names back; nothing if none was changed."""
    changed = [f"{quote_toml(csv_safe(x))} = {quote_toml(x)}" for x in names if csv_safe(x) != x]
    return f"columns = {{ {', '.join(changed)} }}" if changed else ""


def format_csv(heading: list[str], rows: Iterable[list[Any]]) -> str:
    """Return a table as CSV; names that a spreadsheet would compute have an apostrophe."""
    f = io.StringIO()
    out = csv.writer(f, lineterminator="\n")
    out.writerow([csv_safe(x) for x in heading])
    out.writerows(rows)
    return f.getvalue()
