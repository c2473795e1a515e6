"""Studies, tables, texts, records and command lines damaged at random, through the command line as a user calls it: each ends in time with a status that the
manual names, none is an internal error or a traceback, and no input is changed.

NOBYALUK_CASES sets how many of each kind are tried (the checks: some 5,000 in all).
"""
import contextlib
import io
import os
import random
import re
import shutil
import signal
from collections.abc import Iterator
from pathlib import Path

import pytest
from conftest import ROOT
from hypothesis import HealthCheck, given, settings
from hypothesis import strategies as st
from nobyaluk import cli, toml_reader

CASES = int(os.environ.get("NOBYALUK_CASES", "1125"))
SECONDS = 20  # a case may take
STATUSES = {0, 1, 2, 4}
STUDY = """title = "Four cells"
step = 20
start = "07:00"
steps = 12
[gate]
capacity = 4400
[defaults]
length = 0.6
speed = 90
jam = 250
capacity = 4400
[[cell]]
[[cell]]
split = 0.8
lanes = 2
[[cell]]
ramp = "Mill Street"
queue = 2
[[cell]]
capacity = 3800
ramp = "R 2"
[arrivals]
file = "arrivals.csv"
[meter."Mill Street"]
law = "alinea"
gain_kmh = 40
[releases]
step = [0, 4]
"R 2" = [300, 200.5]
[[closure]]
cell = 2
lanes = 1
from = "07:01"
to = "07:02"
[weights]
gate = 2
road = [2, 2, 1, 1]
"""
TABLES = ["time,gate,Mill Street,R 2\n07:00,3000,300,200\n07:01,3600.5,300,0\n07:02,100,0,0\n",
          "time;detector;count\n07:00;gate;30\n07:00;Mill Street;4\n07:00;R 2;1\n07:02;gate;31\n07:02;Mill Street;4\n07:02;R 2;0\n07:04;gate;3\n07:04;Mill Street;3\n07:04;R 2;3\n",
          "2026-05-12T07:00:00+02:00".join(["time,gate,Mill Street,R 2\n", ",3000,300,200\n"])]
ODD = ["-1", "0", "0.5", "1e30", "1e-30", "1e999999999", "nan", "inf", "-0.0", "true", "'x'", "''", "[]", "{}", "[1, 'a']", "{a = 1}", "1970-01-01", "07:00:00",
       "99999999999999999999", "['07:00']", "2.5", "²", "1_000", "0x10", "9" * 5000, "[" * 1200, '"\\u0000"', '"$\\\\frac{$"', "2024-02-30", "1e99999999999999999999",
       "'12.05.2026 00:00'", "-9223372036854775809", '"' + "a" * 140_000 + '"', "'=cmd'", '"constructor"', "1979-05-27T07:32:00Z"]
KEYS = sorted({key for keys in toml_reader.KEYS.values() for key in keys})
RANGES = ["0.8:1.2:0.2", "1:3", "0:2:0", "2:1", "nan:1:1", "0.5:2.5", "1:1e9:1e-9", "-1:1:1", "²:3", "4294967290:4294967300", "a:b", "", "1:2:3:4", "9" * 4400]
COMMANDS = ["run", "run --listing", "run --csv out.csv", "run --csv STUDY", "run --csv -", "compare", "fill -o out.rec", "fill -o STUDY", "exercise", "convert STUDY out.rec",
            "convert STUDY out.toml", "convert STUDY STUDY", "queue 'Mill Street' --ceiling 5 --rate 900", "queue 'R 2' --ceiling ODD --rate ODD -o out.csv", "load --seed ODD --peak ODD",
            "load --seed 1 --peak 900 -o arrivals.csv", "judge other", "join STUDY --share 890 -o out.rec", "join STUDY --share ODD -o STUDY", "sweep --load RANGE --workers 1",
            "sweep --vary KEY=RANGE --workers 1", "sweep --seeds RANGE --workers 1", "--seconds ODD", "street", "new out", "nonsense", "run --nonsense", ""]


class TooLong(Exception):
    """A case took longer than it may."""


@contextlib.contextmanager
def in_time() -> Iterator[None]:
    def late(*_: object) -> None:
        raise TooLong

    before = signal.signal(signal.SIGALRM, late)
    signal.alarm(SECONDS)
    try:
        yield
    finally:
        signal.alarm(0)
        signal.signal(signal.SIGALRM, before)


def called(words: list[str]) -> None:
    """Calls the command line as a user does and checks it against its manual."""
    out, err = io.StringIO(), io.StringIO()
    with in_time(), contextlib.redirect_stdout(out), contextlib.redirect_stderr(err):
        status = cli.main(words)
    said = err.getvalue()
    assert status in STATUSES, (status, words, said[-2000:])
    assert "Traceback" not in said and "internal" not in said.lower(), (words, said[-2000:])
    if status:
        assert said.strip() or out.getvalue().strip(), words


def damaged_lines(text: str, dice: random.Random) -> str:
    """One line changed, put in, moved or taken out."""
    lines = text.split("\n")
    i, what = dice.randrange(len(lines)), dice.random()
    if what < 0.5 and "=" in lines[i]:
        lines[i] = lines[i].split("=")[0] + "= " + dice.choice(ODD)
    elif what < 0.65:
        lines.insert(i, f"{dice.choice(KEYS)} = {dice.choice(ODD)}")
    elif what < 0.8:
        del lines[i]
    elif what < 0.9:
        lines.insert(i, dice.choice([f"[{dice.choice(KEYS)}]", f"[[{dice.choice(KEYS)}]]", lines[dice.randrange(len(lines))]]))
    else:
        lines[i] = damaged_bytes(lines[i].encode(), dice).decode("utf-8", "replace")
    return "\n".join(lines)


def damaged_bytes(data: bytes, dice: random.Random) -> bytes:
    """Some bytes changed, put in or taken out."""
    out = bytearray(data)
    for _ in range(dice.randint(1, 3)):
        at = dice.randrange(len(out) + 1)
        out[at : at + dice.randint(0, 4)] = dice.choice([b"", b"\0", b"\xff\xfe", b",", b";", b"\n", b'"', b"-", "²".encode(), b"1e9", bytes([dice.randrange(256)])])
    return bytes(out)


def damaged_table(text: str, dice: random.Random) -> bytes:
    """A field of a table changed, or some of its bytes."""
    if dice.random() < 0.5:
        return damaged_bytes(text.encode(), dice)
    rows = [re.split("[,;]", line) for line in text.strip("\n").split("\n")]
    row = dice.choice(rows)
    row[dice.randrange(len(row))] = dice.choice(ODD)
    return ("\ufeff" * dice.randint(0, 1) + "\n".join(",".join(r) for r in rows) + "\n").encode()


@pytest.fixture(scope="module")
def folder(tmp_path_factory: pytest.TempPathFactory) -> Iterator[Path]:
    path, here = tmp_path_factory.mktemp("attack"), os.getcwd()
    os.chdir(path)
    yield path
    os.chdir(here)


COMMON = settings(max_examples=CASES, deadline=None, suppress_health_check=[HealthCheck.too_slow, HealthCheck.function_scoped_fixture])
DICE = st.randoms(use_true_random=False)


def put_anew(folder: Path, study: str, table: bytes) -> None:
    for path in folder.iterdir():
        shutil.rmtree(path) if path.is_dir() else path.unlink()
    (folder / "study.toml").write_bytes(study.encode("utf-8", "surrogatepass"))
    (folder / "arrivals.csv").write_bytes(table)


@COMMON
@given(dice=DICE)
def test_damaged_studies(folder: Path, dice: random.Random) -> None:
    study = STUDY
    for _ in range(dice.randint(1, 3)):
        study = damaged_lines(study, dice)
    put_anew(folder, study, dice.choice(TABLES).encode())
    called(["run", "study.toml"])


@COMMON
@given(dice=DICE)
def test_damaged_tables(folder: Path, dice: random.Random) -> None:
    put_anew(folder, STUDY, damaged_table(dice.choice(TABLES), dice))
    called(["run", "study.toml"])


@COMMON
@given(dice=DICE)
def test_damaged_records_and_texts(folder: Path, dice: random.Random) -> None:
    put_anew(folder, STUDY, TABLES[0].encode())
    examples = ROOT / "examples"
    source = dice.choice([examples / "printed-run.rec", examples / "exercise-8-cells.rec", examples / "classroom-cut.schedule.csv"])
    name = "damaged" + source.suffix
    (folder / name).write_bytes(damaged_bytes(source.read_bytes(), dice))
    whole = str(examples / "printed-run.rec")
    called(dice.choice([["run", name], ["judge", whole, name], ["convert", name, "out.toml"], ["fill", name, "-o", "out.rec"],
                        ["join", name, whole, "--share", "500", "-o", "out.rec"], ["exercise", name], ["convert", name, "out.rec"]]))


@COMMON
@given(dice=DICE)
def test_command_lines(folder: Path, dice: random.Random) -> None:
    put_anew(folder, STUDY, TABLES[0].encode())
    (folder / "other").write_bytes(damaged_bytes(dice.choice([b"1,2,3\n", b"step,1,2,3,4,5\n0,1,2,3,4,5\n", b"lanes 3 3 3 3\n", b"20.0;24,0\n"]), dice))
    before = {name: (folder / name).read_bytes() for name in ("study.toml", "arrivals.csv", "other")}
    words = []
    for word in re.findall(r"'[^']*'|\S+", dice.choice(COMMANDS)):
        word = word.strip("'").replace("STUDY", "study.toml").replace("KEY", dice.choice(["step", "cell.2.split", "meter.all.rate", "nothing", "gate.capacity", "cell.99.jam", "steps"]))
        words.append(word.replace("RANGE", dice.choice(RANGES)).replace("ODD", dice.choice(ODD).strip("'\"")))
    if words and words[0] not in ("convert", "new", "nonsense", ""):
        words.insert(1, "study.toml")
    if dice.random() < 0.2 and words:
        words.insert(dice.randrange(len(words) + 1), dice.choice(ODD))
    called([word.replace("\0", "") if dice.random() < 0.9 else word for word in words])
    for name, data in before.items():
        assert (folder / name).read_bytes() == data, (name, words)
