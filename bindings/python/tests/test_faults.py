"""Faults and their exit statuses: every input gives a message and no traceback."""
import os
import subprocess
import sys
from decimal import Decimal
from fractions import Fraction
from pathlib import Path

import pytest
import text_form
from nobyaluk import StudyError, __version__, engine, load, summary
from nobyaluk.cli import main
from nobyaluk.clock import parse_clock
from nobyaluk.errors import TomlTable

LONG = "9" * 5000


@pytest.fixture
def told(capsys):
    """told(word, ..): exit status, standard output and standard error."""

    def run(*words):
        status = main([str(x) for x in words])
        out = capsys.readouterr()
        assert "Traceback" not in out.err and len(out.err) < 1500
        return status, out.out, out.err

    return run


def called(words, **how):
    """The command in a process of its own."""
    return subprocess.run([sys.executable, "-m", "nobyaluk", *map(str, words)], stderr=subprocess.PIPE, text=True, **how)


@pytest.fixture
def files(examples, tmp_path):
    """Files of every kind that is no study, with their messages."""
    text = {"counts.csv": "time,gate\n07:00,3000\n", "toml.rec": 'title = "x"\nstep = 20\n', "words.rec": "hello there\n", "page.rec": "<!doctype html><html></html>",
            "not.toml": "hello\n"}
    for name, words in text.items():
        (tmp_path / name).write_text(words)
    for name, data in {"sheet.rec": b"PK\3\4" + bytes(60), "picture.rec": b"\x89PNG\r\n\x1a\n" + bytes(60), "latin.toml": b"# \xfc\n", "empty.rec": b"", "other.rec": b"\xff" * 40,
                       "long.rec": bytes([0, 1, 0, 0]) + bytes(70_000)}.items():
        (tmp_path / name).write_bytes(data)
    return tmp_path


@pytest.mark.parametrize("name, status, says", [
    ("counts.csv", 2, "it is a table (.csv), not a study; name the .toml file whose [arrivals] or [releases] reads it"), ("toml.rec", 2, "it is not a record, but text in TOML"),
    ("words.rec", 2, "it is not a record, but text; a study is a .toml or .rec file"), ("page.rec", 2, "a page (HTML or XML)"), ("sheet.rec", 2, "a spreadsheet or another archive"),
    ("picture.rec", 2, "a picture (PNG)"), ("latin.toml", 2, "it is not in UTF-8"), ("other.rec", 2, "other data"), ("empty.rec", 1, "refused 1"), ("long.rec", 1, "refused 1"),
    ("not.toml", 2, "not.toml")])
def test_what_is_no_study_says_what_it_is(files, told, name, status, says):
    for words in (["run"], ["exercise"], ["plot"]):
        assert told(*words, files / name)[::2] == (status, told("run", files / name)[2])
    found, _, err = told("run", files / name)
    assert found == status and says in err and f"{name}" in err
    with pytest.raises(ValueError):
        load(files / name)


def test_devices_and_long_files_are_not_read_whole(files, told, tmp_path):
    """Each kind of input has its size; a file of 3 GB without contents takes no room."""
    with open(tmp_path / "big.rec", "wb") as f:
        f.truncate(3 << 30)
    for suffix in ("toml", "csv"):
        os.link(tmp_path / "big.rec", tmp_path / f"big.{suffix}")
    record = Path(__file__).parents[3] / "examples/rocade-sud.rec"
    assert told("run", "/dev/zero")[0] == told("run", tmp_path / "big.rec")[0] == 1
    for words in (["judge", record, "/dev/zero"], ["judge", record, tmp_path / "big.csv"]):
        status, _, err = told(*words)
        assert status == 2 and "it has more than 16,777,216 bytes" in err, words


@pytest.mark.parametrize("words, says", [
    (["load", "STUDY", "--seed", LONG, "--peak", "1"], "--seed is '9999"), (["load", "STUDY", "--seed", "²", "--peak", "1"], "--seed is '²'; it is a whole number from 0 to 4294967295"),
    (["load", "STUDY", "--seed", "1", "--peak", LONG], "--peak is '999"), (["load", "STUDY", "--seed", "1", "--peak", "nan"], "where a number is needed"),
    (["queue", "STUDY", "Mill Street", "--ceiling", LONG, "--rate", "1"], "--ceiling is '999"), (["queue", "STUDY", "Mill Street", "--ceiling", "²", "--rate", "1"], "--ceiling is '²'"),
    (["queue", "STUDY", "Mill Street", "--ceiling", "1", "--rate", "1e99"], "--rate is 1e99; it is 0 to"), (["sweep", "STUDY", "--vary", f"step={LONG}:1:1"], "--vary is '999"),
    (["sweep", "STUDY", "--vary", "cell.².capacity=1:2:1"], "there is no `cell.².capacity` to vary"), (["sweep", "STUDY", "--vary", "=1:2:1"], "`` is not known here"), (["sweep", "STUDY", "--vary", f"cell.{LONG}.capacity=1:2:1"], "to vary"), (["sweep", "STUDY", "--vary", "step="], "--vary is KEY="),
    (["run", "REC", "--seconds", LONG], "--seconds is '999"), (["run", "REC", "--seconds", ""], "--seconds is ''"), (["run", "REC", "--seconds", "0"], "--seconds is '0'"),
    (["run", "STUDY", "--seconds", "20"], "it has a step's seconds itself"), (["run", "TIMED", "--seconds", "30"], "it has a step's seconds itself, 20"),
    (["compare", "STUDY", "TIMED", "--seconds", "30"], "each study here has a step's seconds itself"),
    (["exercise", "REC", "--cells", LONG], "no whole number from 0 to 2^64 - 1"), (["exercise", "REC", "--bytes", "²"], "no whole number"), (["fill", "METERED", "-o", "-"], "name a file for it"), (["fill", "REC", "-o", "x.rec"], "write a .toml with `record = \"rocade-sud.rec\"` and [meter.all]"),
    (["run", "a\0b"], "no name of a file"), (["judge", "REC", "a\0b"], "no name of a file")])
def test_wrong_calls(examples, told, words, says):
    known = {"STUDY": "studies/five-cells.toml", "REC": "rocade-sud.rec", "TIMED": "rocade-sud-seconds.rec", "METERED": "studies/rocade-sud-alinea.toml"}
    status, _, err = told(*(examples / known[x] if x in known else x for x in words))
    assert status == 2 and says in err


def test_seconds_are_for_those_that_do_not_say_them(examples, told):
    assert told("compare", examples / "studies/five-cells.toml", examples / "rocade-sud.rec", "--seconds", "20")[0] == 0
    with pytest.raises(StudyError, match="by `step`"):
        load(examples / "studies/five-cells.toml", 20)


def test_laws_leave_no_ramp_out(examples):
    """A ramp without a law would stay shut, and a law without a ramp would do nothing."""
    laws, record = text_form.laws_of((examples / "rocade-sud-alinea.laws.txt").read_text()), load(examples / "rocade-sud.rec").record
    for given, says in (({cell: law for cell, law in laws.items() if cell != 7}, "there is no law for the ramp at cell 7"), (laws | {1: ("fixed", 5)}, "cell 1 has no ramp; ramps are at cell 2 and 5")):
        with pytest.raises(StudyError, match=says):
            engine.fill(record, given)


def test_judge_reads_tables_as_people_write_them(examples, told, tmp_path):
    record, path = examples / "printed-run.rec", tmp_path / "s.csv"
    run = load(record).run()
    rows = run.outflow.tolist()
    for head, sign in (("", ","), ("gate,1,2\n", ","), ("gate;1;2\n", ";"), ("step,gate,1,2\n", ",")):
        body = "".join(sign.join(map(str, ([k] if head.startswith("step") else []) + row)) + "\n" for k, row in enumerate(rows))
        path.write_text(head + body)
        assert told("judge", record, path)[0] == 0, head
    for sign, point in ((",", "."), (";", ",")):
        path.write_text(sign.join(["gate", "1", "2"]) + "\n" + "".join(sign.join(f"{x / 1000:.1f}".replace(".", point) for x in row) + "\n" for row in rows))
        status, _, err = told("judge", record, path)
        assert status == 2 and f"s.csv, row 2, column 1: '1{point}5' is no outflow; an outflow is a whole number of parts, thousandths of a vehicle" in err
    for big in (1 << 32, 1 << 63, 1 << 64, int("9" * 4000)):
        for name in ("s.csv", "s.txt"):
            (tmp_path / name).write_text(f"0,0,{big}\n".replace(",", "," if name == "s.csv" else " "))
            assert told("judge", record, tmp_path / name)[0] == 2
    path.write_text("0,0,0\n0,0,0\n")
    status, _, err = told("judge", record, path)
    assert status == 1 and "refused 12" in err and "3 steps of 3 outflows are 9; the schedule has 6" in err


def test_an_internal_error_has_its_own_status(examples, told, monkeypatch, capsys):
    """One line that says what to report; the traceback where it is asked for."""
    def broken(*_):
        raise ZeroDivisionError("by\nnobody")

    monkeypatch.setattr(summary, "summary_lines", broken)
    status, out, err = told("run", examples / "printed-run.rec")
    assert (status, out) == (5, "") and err == (f"nobyaluk: internal error: ZeroDivisionError: by; please report it with this command, its files and nobyaluk {__version__}"
                                                 " (NOBYALUK_DEBUG=1 shows where it happened)\n")
    monkeypatch.setenv("NOBYALUK_DEBUG", "1")
    assert main(["run", str(examples / "printed-run.rec")]) == 5 and "Traceback" in capsys.readouterr().err


@pytest.mark.parametrize("error, status, says", [(KeyboardInterrupt(), 130, ""), (MemoryError(), 3, "not enough memory"), (RecursionError(), 2, "nested too deeply"),
                                                 (BlockingIOError(11, "Resource temporarily unavailable"), 3, "no room for this"), (PermissionError(13, "Permission denied", "x"), 2, "x can't be read")])
def test_errors_of_the_system(examples, told, monkeypatch, error, status, says):
    def broken(*_):
        raise error

    monkeypatch.setattr(summary, "summary_lines", broken)
    found, _, err = told("run", examples / "printed-run.rec")
    assert found == status and says in err


def test_closed_outputs(examples):
    """Standard output that is closed or full is status 4; closed standard error never spills into the output."""
    path = examples / "studies/five-cells.toml"
    shell = lambda more, *words: subprocess.run(["sh", "-c", f'"$@" {more}', "sh", sys.executable, "-m", "nobyaluk", *map(str, words)], capture_output=True, text=True)
    for words in (["run", path], ["--help"], ["run", path, "--csv", "-"], ["sweep", path, "--load", "1:1:1"]):
        out = shell(">&-", *words)
        assert (out.returncode, out.stderr) == (4, "nobyaluk: standard output is closed, so nothing can be printed\n"), words
        out = shell(">/dev/full", *words)
        assert out.returncode == 4 and out.stderr == "nobyaluk: the output could not be written whole: No space left on device\n", words
    out = shell("2>&-", "run", path / "none")
    assert (out.returncode, out.stdout) == (2, "")
    out = shell("2>&-", "compare", path, examples / "rocade-sud.rec")
    assert out.returncode == 0 and "note" not in out.stdout


def test_names_that_the_terminal_does_not_have(examples, tmp_path):
    """An ASCII terminal and a name that is no UTF-8."""
    text = (examples / "studies/five-cells.toml").read_text().replace("Mill Street", "Mühlstraße")
    (tmp_path / "road.toml").write_text(text)
    out = called(["run", tmp_path / "road.toml"], stdout=subprocess.PIPE, env={**os.environ, "PYTHONIOENCODING": "ascii"})
    assert out.returncode == 0 and "M\\xfchlstra" in out.stdout
    name = os.fsencode(tmp_path) + b"/\xff.toml"
    with open(name, "w") as f:
        f.write(text)
    for words in (["run", name, "--csv", os.fsencode(tmp_path) + b"/t.csv"], ["report", name, "-o", os.fsencode(tmp_path) + b"/r.html"], ["run", name + b"x"]):
        out = subprocess.run([sys.executable, "-m", "nobyaluk", *words], capture_output=True, text=True)
        assert out.returncode == (2 if words[1] != name else 0) and "Traceback" not in out.stderr, out.stderr


def test_a_comma_in_a_number(examples, told):
    """1,200 is 1200 to some and 1.2 to others; 0,8 and 1,25 are decimals to all."""
    path = examples / "studies/five-cells.toml"
    for words in (["queue", path, "Mill Street", "--ceiling", "40", "--rate", "1,200"], ["queue", path, "Mill Street", "--ceiling", "1,000", "--rate", "1200"],
                  ["load", path, "--seed", "1", "--peak", "3,600"], ["sweep", path, "--load", "0.5:1,000:1"], ["sweep", path, "--vary", "gate.capacity=4,000:4,400:400"]):
        status, _, err = told(*words)
        assert status == 2 and "write it without a comma" in err, words
    assert told("sweep", path, "--load", "0,8:1,25:0,45")[0] == 0


def test_numbers_of_a_table():
    """A message shows the value in short, and its limits as decimals."""
    for value, says in ((10**4400, "`x` is a number of 14617 bits"), (-(10**4400), "`x` is a number of"), (Decimal("9" * 5000), "`x` is 999"), (Decimal("1e31"), "no number of a road"),
                        ("9" * 5000, "`x` is '999"), (Fraction(1, 10**7), "it is at least 0.000001"), (Decimal("1e9"), "it is at most 2.5"), (True, "`x` is True, where a number is needed"),
                        ([[1] * 5000], "`x` is [[1, 1"), (None, "it is a number from 0.000001 to 2.5"), (float("nan"), "where a number is needed"), (Decimal("nan"), "where a number is needed")):
        with pytest.raises(StudyError) as caught:
            TomlTable({"x": value} if value is not None else {}, "there").number("x", low=Fraction(1, 10**6), high=Fraction(5, 2))
        assert says in str(caught.value) and len(str(caught.value)) < 200


def test_keys_and_tables_are_shown_in_short():
    for values, known in (({"k" * 5000: 1}, ["a"]), ({"\x1b[2J": 1}, ["a"]), ([1] * 5000, None)):
        with pytest.raises(StudyError) as caught:
            TomlTable(values, "there", known)
        assert len(str(caught.value)) < 200 and str(caught.value).isprintable()


def test_clock_times():
    assert [parse_clock(x, "") for x in ("07:30", "7:30:20", " 24:00 ", "48:59:59")] == [27000, 27020, 86400, 176399]
    for text in ("-0:30", "7", "07:60", "49:00", "1_0:00", "²:00", "07:30:", "07:30:20:00", "+7:30", "9" * 5000 + ":00", "٧:٣٠", 730, None, "7:-1"):
        with pytest.raises(StudyError, match="is no clock time like 07:30"):
            parse_clock(text, "here")


def test_values_that_argparse_drops(examples, told):
    """A value `--` is left out by Python's argparse, with a list in its place."""
    path = examples / "studies/five-cells.toml"
    for words in (["load", path, "--seed=--", "--peak", "1"], ["load", path, "--seed", "1", "--peak=--"], ["sweep", path, "--load=--"], ["run", path, "--csv=--"]):
        assert told(*words)[::2] == (2, "nobyaluk: an option has no value; `nobyaluk COMMAND --help` says what it takes\n"), words


def test_names_that_no_file_has(examples, told):
    path = examples / "studies/five-cells.toml"
    for words, status in ((["report", path, "-o", "a\0b"], 4), (["run", path, "--csv", "a\0b"], 4), (["sweep", path, "--load", "1:1:1", "-o", "a\0b"], 4), (["report", "a\0b", "-o", "r.html"], 2), (["run", ""], 2),
                          (["run", path, "--csv", ""], 4), (["judge", path, ""], 2), (["run", "x" * 300], 2), (["plot", path, "-o", "a\0b", "--kind", "queues"], 4)):
        assert told(*words)[0] == status, words


def test_records_are_written_to_files(examples, told):
    up, down = (examples / f"rocade-sud-{x}.rec" for x in ("upstream", "downstream"))
    for words in (["fill", examples / "studies/five-cells-alinea.toml", "-o", "."], ["fill", examples / "studies/five-cells-alinea.toml", "-o", ""], ["convert", up, "."],
                  ["join", up, down, "--share", "890", "-o", ".."], ["join", up, down, "--share", LONG, "-o", "x.rec"]):
        status, _, err = told(*words)
        assert status in (2, 4) and "internal" not in err, words
