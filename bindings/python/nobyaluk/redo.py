"""A report redone from its own page.

The studies are taken out of the page and run, and their totals are compared with those on the page.
"""
import base64
import binascii
import re
import tempfile
from dataclasses import dataclass, field
from html.parser import HTMLParser
from pathlib import Path

from .engine import Refused
from .errors import StudyError, show
from .input_files import read_text
from .output_files import make_folder, write_files
from .study import load
from .summary import record_sha256

MOST = 256 << 20  # bytes of a page
_NAME = re.compile(r"[\w.+-]{1,200}\.(toml|rec)")


@dataclass
class ReportedStudy:
    """What a page has of one study: its files, the totals and the sum of its record."""

    totals: str
    sum: str = ""
    files: dict[str, str] = field(default_factory=dict)


class _Page(HTMLParser):
    """Finds the marked places of a page."""

    def __init__(self) -> None:
        super().__init__(convert_charrefs=True)
        self.found: list[ReportedStudy] = []
        self.inside: tuple[str, str] | None = None
        self.text: list[str] = []

    def handle_starttag(self, tag: str, attrs: list[tuple[str, str | None]]) -> None:
        given = dict(attrs)
        if (kind := given.get("class") or "") in ("totals", "sum", "file"):
            self.inside, self.text = (kind, given.get("data-name") or ""), []

    def handle_data(self, data: str) -> None:
        if self.inside:
            self.text.append(data)

    def handle_endtag(self, tag: str) -> None:
        if self.inside is None or tag not in ("code", "pre"):
            return
        (kind, name), text, self.inside = self.inside, "".join(self.text), None
        if kind == "totals":
            self.found.append(ReportedStudy(text))
        elif self.found and kind == "sum":
            self.found[-1].sum = text
        elif self.found:
            self.found[-1].files[name] = text


def read_report(path: str | Path) -> list[ReportedStudy]:
    """Return the studies that a report has; a fault if it has none."""
    page = _Page()
    page.feed(read_text(path, MOST))
    page.close()
    found = [x for x in page.found if x.files]
    if not found:
        raise StudyError(f"{path}: it has no studies; a report of `nobyaluk report` has them")
    for name in (name for x in found for name in x.files):
        if not _NAME.fullmatch(name):
            raise StudyError(f"{path}: {show(name)} is no name of a study's file")
    return found


def redo_report(
    path: str | Path, folder: str | Path | None = None, force: bool = False
) -> list[tuple[str, str]]:
    """Run each study of a report again and compare its totals with those of the report.

    Parameters
    ----------
    path : str or Path
        The report's page.
    folder : str or Path, optional
        Where the studies are kept as files. An existing file with the same contents is kept.
    force : bool, default False
        Replace existing files with other contents.

    Returns
    -------
    list of (str, str)
        Each study's name, and what differs from the report; nothing if all is the same.

    Raises
    ------
    StudyError
        If the page has no studies, or the folder has another file of a study's name.
    """
    out = []
    taken: set[Path] = set()  # files of this report
    with tempfile.TemporaryDirectory() as own:
        for k, x in enumerate(read_report(path)):
            place = Path(folder) if folder is not None else Path(own) / str(k)
            make_folder(place)
            files = _study_files(x, place, path, taken)
            write_files(files, [], force)
            taken.update(files)
            study = next(file for file in files if file.suffix == ".toml")
            out.append((study.stem, _difference(study, x)))
    return out


def _study_files(
    x: ReportedStudy, folder: Path, path: str | Path, taken: set[Path]
) -> dict[Path, str | bytes]:
    """Return the files of a study.

    If two studies have the same name, the second gets a number.
    """
    number = 1
    while any(folder / _numbered(name, number) in taken for name in x.files):
        number += 1
    out: dict[Path, str | bytes] = {}
    for name, text in x.files.items():
        file = folder / _numbered(name, number)
        if name.endswith(".rec"):
            try:
                out[file] = base64.b64decode(text)
            except binascii.Error:
                raise StudyError(f"{path}: the record {name} is damaged") from None
            continue
        for old in x.files:
            text = text.replace(f'record = "{old}"', f'record = "{_numbered(old, number)}"', 1)
        out[file] = text
    return out


def _numbered(name: str, number: int) -> str:
    stem, dot, kind = name.rpartition(".")
    return name if number == 1 else f"{stem}-{number}{dot}{kind}"


def _difference(study: Path, x: ReportedStudy) -> str:
    """Return how the run of a study differs from its report; nothing if it does not."""
    s = load(study)
    try:
        run = s.run()
    except Refused as e:
        return s.describe_refusal(e)
    weighted = f" weighted {run.weighted}" if run.weighted is not None else ""
    totals = (
        f"total {run.total} gate {run.gate} road {run.road} ramp {run.ramp} exits"
        f" {run.exits}{weighted}"
    )
    if totals != x.totals:
        return f"the run has {totals}; the report says {x.totals}"
    return (
        ""
        if record_sha256(run) == x.sum
        else f"the run's record has the sum {record_sha256(run)}; the report says {x.sum}"
    )
