"""Sweeps lose nothing: rows, --resume, killed processes, lost clusters and signals, each as a user sees it."""
import csv
import io
import os
import shutil
import signal
import socket
import subprocess
import sys
import time
from contextlib import contextmanager
from fractions import Fraction
from functools import partial
from pathlib import Path

import pytest
from nobyaluk import StudyError, hours, input_files, load, parallel, sweep, workers
from nobyaluk.cli import sweep_commands
from nobyaluk.totals import totals_and_queues
from nobyaluk.study import Study
from nobyaluk.variants import Variants

COMMAND = [sys.executable, "-m", "nobyaluk", "sweep"]
SLOW = """
import os, signal, sys, time
from nobyaluk import cli, cluster, parallel
from nobyaluk.cli import sweep_commands
parallel.Estimate.pays = lambda *_: True
signal.signal(signal.SIGINT, signal.default_int_handler)  # a shell's background job ignores SIGINT, and the sweep would too
def slow(study):
    time.sleep(0.01)
    if "%(bad)s" and study.name.endswith("%(bad)s"):
        os.kill(os.getpid(), signal.SIGKILL)
    return totals(study)
totals = parallel.totals_and_queues
cluster.totals_and_queues = parallel.totals_and_queues = sweep_commands.totals_and_queues = slow
sys.exit(cli.main(sys.argv[1:]))
"""


def children(pid):
    """The children of a process that are not dead."""
    found = []
    for path in Path("/proc").iterdir():
        if path.name.isdigit():
            try:
                state, parent = (path / "stat").read_text().rpartition(")")[2].split()[:2]
            except OSError:
                continue
            if int(parent) == pid and state != "Z":
                found.append(int(path.name))
    return found


def alive(pid):
    try:
        return (Path("/proc") / str(pid) / "stat").read_text().rpartition(")")[2].split()[0] != "Z"
    except OSError:
        return False


def until(true, seconds=80):
    end = time.time() + seconds
    while not true():
        assert time.time() < end, "waited too long"
        time.sleep(0.02)


@pytest.fixture
def sweeping(examples):
    """sweeping(word, ..): starts a sweep of 10 ms per study, and waits until its two processes run."""
    started = []

    def start(*words, bad="", study=examples / "studies/five-cells.toml", processes=2):
        p = subprocess.Popen([sys.executable, "-c", SLOW % {"bad": bad}, "sweep", *map(str, (study, *words))], stdout=subprocess.PIPE, stderr=subprocess.PIPE, text=True, start_new_session=True)
        started.append(p)
        until(lambda: len(children(p.pid)) >= processes or p.poll() is not None)
        return p

    yield start
    for p in started:
        p.kill()
        p.wait()
        p.stdout.close(), p.stderr.close()


@pytest.fixture
def two(monkeypatch):
    if workers.processors() < 2:
        pytest.skip("one processor")


def rows_of(path):
    return list(csv.DictReader(open(path)))


def wanted(examples, loads):
    one = load(examples / "studies/five-cells.toml")
    return [f"{hours(one.scaled(x).run(), 20).total:.4f}" for x in loads]


LOADS = [Fraction(500 + k, 1000) for k in range(401)]


@pytest.mark.parametrize("number", range(5))
def test_a_killed_process_costs_nothing(sweeping, examples, tmp_path, two, number):
    """Another process runs its studies again: five times of five."""
    p = sweeping("--load", "0.5:0.9:0.001", "--workers", 2, "-o", tmp_path / "a.csv")
    time.sleep(0.05 + 0.1 * number)
    os.kill(children(p.pid)[number % 2], signal.SIGKILL)
    _, err = p.communicate(timeout=60)
    rows = rows_of(tmp_path / "a.csv")
    assert (p.returncode, len(rows)) == (0, 401) and "failed" not in err
    assert [r["total_vehicle_hours"] for r in rows] == wanted(examples, LOADS)


def test_a_study_whose_processes_die_is_named(sweeping, examples, tmp_path, two):
    p = sweeping("--load", "0.5:0.9:0.001", "--workers", 2, "-o", tmp_path / "a.csv", bad=" x 0.75")
    _, err = p.communicate(timeout=60)
    rows = rows_of(tmp_path / "a.csv")
    faults = [r["refused"] for r in rows if r["refused"]]
    assert p.returncode == 0 and faults == ["two processes ended while running it, the last by SIGKILL; it may need more memory than there is"] and rows[250]["refused"] == faults[0]
    right = wanted(examples, LOADS)
    assert [r["total_vehicle_hours"] for r in rows] == [*right[:250], "", *right[251:]] and "1 of 401 failed" in err


@pytest.mark.parametrize("name, status, group", [("SIGTERM", 143, False), ("SIGTERM", 143, True), ("SIGINT", 130, True), ("SIGKILL", -9, False)])
def test_signals_leave_no_process_and_every_row(sweeping, examples, tmp_path, two, name, status, group):
    """--resume then continues the sweep. Ctrl-C goes to all processes of the terminal; a batch system's signal may too."""
    words = ("--load", "0.5:0.9:0.001", "--workers", 2, "-o", tmp_path / "a.csv")
    p = sweeping(*words)
    part = tmp_path / "a.csv.part"
    until(lambda: part.exists() and len(part.read_text().splitlines()) > 60)
    mine = children(p.pid)
    assert len(mine) == 2
    (os.killpg if group else os.kill)(p.pid, getattr(signal, name))
    _, err = p.communicate(timeout=80)
    assert p.returncode == status and "Traceback" not in err, err
    until(lambda: not any(map(alive, mine)), 20)
    there = len(part.read_text().splitlines()) - 2
    assert 59 <= there < 401 and not (tmp_path / "a.csv").exists()
    if name != "SIGKILL":
        assert err.splitlines()[-1] == f"nobyaluk: {part} has {there} of 401 rows; the same command with --resume continues"
    first = subprocess.run([*COMMAND, examples / "studies/five-cells.toml", *map(str, words)], capture_output=True, text=True)
    assert first.returncode == 2 and f"a sweep was interrupted after {there} rows; --resume continues it, --force starts again" in first.stderr
    with open(part, "a") as f:
        f.write("0.9,12")  # a row that was cut
    began = part.read_text().splitlines()[1:-1]
    again = subprocess.run([*COMMAND, examples / "studies/five-cells.toml", *map(str, words), "--resume"], capture_output=True, text=True)
    assert (again.returncode, again.stderr) == (0, "") and not part.exists()
    assert (tmp_path / "a.csv").read_text().splitlines()[: len(began)] == began
    assert [r["total_vehicle_hours"] for r in rows_of(tmp_path / "a.csv")] == wanted(examples, LOADS)


def test_resume_is_of_the_same_sweep(road, told, tmp_path):
    path, out = road("step = 20", "step = 20"), tmp_path / "a.csv"
    words = ("sweep", path, "--load", "0.9:1.1:0.1", "-o", out)
    assert told(*words, "--resume")[0] == 0 and len(rows_of(out)) == 3  # there are no rows yet: it begins with the first study
    whole = out.read_text()
    mark = f"# nobyaluk sweep {'0' * 32}\n"
    part = tmp_path / "a.csv.part"
    part.write_text(mark + "".join(whole.splitlines(True)[:3]))
    for more in ((), ("--load", "0.9:1.2:0.1")):
        status, _, err = told(*words, *more, "--resume")
        assert status == 2 and "these are rows of another sweep, or the study has changed; --force starts again" in err and part.exists()
    assert told(*words)[0] == 2 and told(*words, "--force")[0] == 0 and out.read_text() == whole and not part.exists()
    assert "--resume continues a file" in told("sweep", path, "--load", "1:2:1", "--resume")[2]


def test_the_study_may_not_change_between(road, told, tmp_path, monkeypatch):
    path, out = road("step = 20", "step = 20"), tmp_path / "a.csv"
    words = ("sweep", path, "--vary", "gate.capacity=4000:4400:100", "-o", out)
    each, calls = totals_and_queues, []

    def twice(study):
        calls.append(1)
        if len(calls) > 2:
            raise KeyboardInterrupt
        return each(study)

    monkeypatch.setattr(parallel, "totals_and_queues", twice)
    monkeypatch.setattr(sweep_commands, "totals_and_queues", twice)
    status, _, err = told(*words)
    assert status == 130 and "a.csv.part has " in err and " of 5 rows" in err
    monkeypatch.undo()
    road("step = 20", "step = 10")
    assert "the study has changed" in told(*words, "--resume")[2]
    road("step = 20", "step = 20")
    assert told(*words, "--resume")[0] == 0 and [r["gate.capacity"] for r in rows_of(out)] == ["4000", "4100", "4200", "4300", "4400"]


def test_two_sweeps_into_one_file(sweeping, examples, told, tmp_path, monkeypatch):
    words = ("--load", "0.5:3.5:0.001", "-o", tmp_path / "a.csv")
    sweeping(*words, processes=1)
    until(lambda: (tmp_path / "a.csv.part").exists())
    monkeypatch.setattr(sweep, "PATIENCE", 0.2)
    status, _, err = told("sweep", examples / "studies/five-cells.toml", *words, "--force")
    assert status == 2 and "another sweep is writing it" in err and (tmp_path / "a.csv.part").stat().st_size


def test_rows_are_printed_as_they_come(sweeping, two):
    p = sweeping("--load", "0.5:0.9:0.001")
    heading, first = p.stdout.readline(), p.stdout.readline()
    assert p.poll() is None and heading.startswith("load,total_") and first.startswith("0.5,")


@pytest.mark.skipif(not Path("/dev/full").exists(), reason="no /dev/full")
def test_a_full_disk(examples, tmp_path):
    """A message names the file that could not be written."""
    command = "import resource, signal, sys; signal.signal(signal.SIGXFSZ, signal.SIG_IGN); resource.setrlimit(resource.RLIMIT_FSIZE, (900, 900)); from nobyaluk.cli import main; sys.exit(main())"
    p = subprocess.run([sys.executable, "-c", command, "sweep", examples / "studies/five-cells.toml", "--load", "0.5:0.9:0.001", "-o", tmp_path / "a.csv"], capture_output=True, text=True)
    assert p.returncode == 4 and "a.csv.part could not be written: File too large" in p.stderr and "Traceback" not in p.stderr and not (tmp_path / "a.csv").exists()


def test_whatever_fails_is_named(examples, monkeypatch):
    """If a study fails in an unforeseen way, only it fails."""
    good = load(examples / "studies/five-cells.toml")

    class Bad(Study):
        def run_engine(self):
            raise ZeroDivisionError("of all things")

    bad = Bad(**vars(good) | {"name": "bad", "weights": ([1] * 6, [1] * 5)})
    found = list(parallel.map([good, bad, "no such.toml", partial(good.scaled, "x"), good]))
    assert [x.total for x in found] == [good.run().total, 0, 0, 0, good.run().total]
    assert (found[1].name, found[1].fault) == ("bad", "ZeroDivisionError: of all things") and "FileNotFoundError" in found[2].fault and found[3].name == "five-cells scaled x"


@pytest.mark.parametrize("file", ["studies/five-cells.toml", "studies/five-cells-alinea.toml", "exercise/weights.toml", "exercise/works.toml", "studies/rocade-sud-alinea.toml", "exercise/fixed.toml"])
def test_variants_are_what_the_file_with_other_numbers_gives(examples, tmp_path, file):
    """The file is read once, and each variant is the study of a file with that number, to the byte."""
    import tomllib

    path = examples / file
    for key, x in (("gate.capacity", 3900), ("cell.2.capacity", 3000), ("defaults.jam", 180), ("meter.all.rate", 500), ("meter.all.gain_kmh", 12), ("weights.gate", 3), ("closure.1.lanes", 1),
                   ("step", 10), ("cell.1.queue", 3), ("cell.1.held", 2)):
        try:
            variants = Variants(path, [key])
        except StudyError:
            continue
        try:
            found = variants.study(Fraction(x))
        except StudyError as e:
            found = str(e)
        source = tomllib.loads(path.read_text())
        if "base" in source and key.split(".")[0] not in source:
            continue
        at, *way = source, *key.split(".")
        for word in way[:-1]:
            at = at[int(word) - 1] if isinstance(at, list) else at[word]
        at[way[-1]] = x
        folder = tmp_path / "copy"
        shutil.copytree(path.parent, folder, dirs_exist_ok=True)
        (folder / path.name).write_text(toml_of(source))
        try:
            want = load(folder / path.name)
        except StudyError as e:
            assert found == str(e).replace(str(folder), str(path.parent)), key
            continue
        assert isinstance(found, Study), (key, found)
        assert (found.record.data, found.laws, found.lanes, found.weights, found.seconds) == (want.record.data, want.laws, want.lanes, want.weights, want.seconds), key
        assert (found.plan is None) == (want.plan is None) and found.run().total == want.run().total


def toml_of(top):
    """Tables as TOML, one line each."""

    def value(x):
        if isinstance(x, dict):
            return "{" + ", ".join(f'"{k}" = {value(v)}' for k, v in x.items()) + "}"
        if isinstance(x, list):
            return "[" + ", ".join(map(value, x)) + "]"
        return "true" if x is True else "false" if x is False else f'"{x}"' if isinstance(x, str) else str(x)

    return "".join(f'"{k}" = {value(v)}\n' for k, v in top.items())


def test_a_grid(examples, told, tmp_path):
    path = examples / "studies/five-cells-alinea.toml"
    status, out, err = told("sweep", path, "--vary", "meter.all.gain_kmh=10:30:10", "--vary", "gate.capacity=4000:4400:400")
    rows = list(csv.DictReader(io.StringIO(out)))
    assert (status, err) == (0, "") and [(r["meter.all.gain_kmh"], r["gate.capacity"]) for r in rows] == [(x, y) for x in ("10", "20", "30") for y in ("4000", "4400")]
    both = Variants(path, ["meter.all.gain_kmh", "gate.capacity"])
    for r in rows:
        run = both.study(Fraction(r["meter.all.gain_kmh"]), Fraction(r["gate.capacity"])).run()
        assert r["total_vehicle_hours"] == f"{hours(run, 20).total:.4f}"
    vary = lambda *keys: told("sweep", path, *(x for key in keys for x in ("--vary", f"{key}=1:1000:1")))[2]
    assert "is varied twice" in vary("gate.capacity", "gate.capacity") and "given 3 times" in vary("gate.capacity", "step", "cell.1.capacity")
    assert "--vary makes 1,000 x 1,001 studies; a sweep has at most 1,000,000" in told("sweep", path, "--vary", "gate.capacity=1:1000:1", "--vary", "step=0:1000:1")[2]


def test_files_are_read_once(examples, told, monkeypatch):
    """A sweep of a law's number opens the study's files as often for many values as for two."""
    path, opened, read = examples / "studies/five-cells-alinea.toml", [], input_files.read_start
    monkeypatch.setattr(input_files, "read_start", lambda name, most: opened.append(str(name)) or read(name, most))
    counts = []
    for span in ("10:11:1", "10:30:1"):
        opened.clear()
        status, _, err = told("sweep", path, "--vary", f"meter.all.gain_kmh={span}")
        assert status == 0, err
        counts.append(len(opened))
    assert counts[0] == counts[1], counts


@contextmanager
def scheduler(tmp_path, count, nanny=False):
    """A Dask scheduler with so many workers, each a separate process; a nanny starts them again."""
    pytest.importorskip("distributed")
    with socket.socket() as s:
        s.bind(("127.0.0.1", 0))
        port = s.getsockname()[1]
    address, started = f"tcp://127.0.0.1:{port}", []

    def start(*words):
        started.append(subprocess.Popen([sys.executable, "-m", *words], stdout=subprocess.DEVNULL, stderr=subprocess.DEVNULL, cwd=tmp_path,
                                        env={**os.environ, "DASK_DISTRIBUTED__SCHEDULER__ALLOWED_FAILURES": "0"} if nanny else None))
        return started[-1]

    try:
        first = start("distributed.cli.dask_scheduler", "--host", "127.0.0.1", "--port", str(port), "--no-dashboard", "--no-show")
        until(lambda: socket.socket().connect_ex(("127.0.0.1", port)) == 0, 120)
        how = ["--nanny" if nanny else "--no-nanny", "--no-dashboard", "--nthreads", "1", "--local-directory", str(tmp_path), "--death-timeout", "60"]
        yield address, first, [start("distributed.cli.dask_worker", address, *how) for _ in range(count)]
    finally:
        for p in started:
            p.terminate()  # a nanny ends its worker
        for p in started:
            try:
                p.wait(10)
            except subprocess.TimeoutExpired:
                p.kill()
                p.wait()


SWEEP = ["--load", "0.5:1.5:0.0001"]  # 10,001 studies


def cluster_sweep(examples, out, address, *words):
    path = examples / "studies/five-cells-alinea.toml"
    return subprocess.Popen([*COMMAND, path, *SWEEP, "--scheduler", address, "-o", out, *words], stderr=subprocess.PIPE, text=True)


def test_a_lost_scheduler_and_a_killed_worker(examples, tmp_path):
    """A killed worker costs nothing, a lost scheduler gives a message, and the sweep continues without it."""
    part = tmp_path / "a.csv.part"
    lines = lambda: part.read_text().count("\n") - 2 if part.exists() else 0
    with scheduler(tmp_path, 2) as (address, first, others):
        p = cluster_sweep(examples, tmp_path / "a.csv", address)
        try:
            until(lambda: lines() > 500, 60)
            others[0].kill()
            there = lines()
            until(lambda: lines() > there + 2000, 60)
            first.kill()
            _, err = p.communicate(timeout=60)
        finally:
            p.kill()
    assert p.returncode == 3 and "Traceback" not in err, err
    message = err.strip().splitlines()[-1]
    assert f"at {address} was lost" in message and f"{part} has {lines():,} of 10,001 rows; the same command with --resume continues" in message, err
    again = subprocess.run([*COMMAND, examples / "studies/five-cells-alinea.toml", *SWEEP, "-o", tmp_path / "a.csv", "--resume"], capture_output=True, text=True)
    rows, one = rows_of(tmp_path / "a.csv"), load(examples / "studies/five-cells-alinea.toml")
    assert again.returncode == 0 and len(rows) == 10001 and not part.exists()
    for k in range(0, len(rows), 997):
        assert rows[k]["total_vehicle_hours"] == f"{hours(one.scaled(Fraction(5000 + k, 10000)).run(), 20).total:.4f}"


def test_a_study_whose_workers_of_a_cluster_die_is_named(examples, tmp_path):
    with scheduler(tmp_path, 1, nanny=True) as (address, _, _):
        words = ["sweep", examples / "studies/five-cells.toml", "--load", "0.8:1.2:0.1", "--scheduler", address, "-o", tmp_path / "a.csv"]
        p = subprocess.run([sys.executable, "-c", SLOW % {"bad": " x 1"}, *map(str, words)], capture_output=True, text=True, timeout=120)
    rows = rows_of(tmp_path / "a.csv")
    assert p.returncode == 0 and "1 of 5 failed" in p.stderr and "Traceback" not in p.stderr, p.stderr
    assert [bool(r["refused"]) for r in rows] == [False, False, True, False, False] and rows[2]["refused"].startswith("workers of the cluster ended repeatedly while running it")


def test_a_scheduler_without_workers_and_a_wrong_address(examples, tmp_path):
    with scheduler(tmp_path, 0) as (address, _, _):
        command = "import sys; from nobyaluk import cluster; cluster.PATIENCE = 2; from nobyaluk.cli import main; sys.exit(main())"
        words = [sys.executable, "-c", command, "sweep", examples / "studies/five-cells.toml", "--load", "1:2:1", "-o", tmp_path / "a.csv", "--scheduler"]
        p = subprocess.run([*words, address], capture_output=True, text=True)
        assert p.returncode == 3 and f"the cluster at {address} has no workers, and none came within 2 s" in p.stderr and "Traceback" not in p.stderr
    p = subprocess.run([*words, "tcp://nowhere.invalid:8786"], capture_output=True, text=True)
    assert p.returncode == 3 and "the scheduler at tcp://nowhere.invalid:8786 is not found" in p.stderr
    p = subprocess.run([*words, "10.0.0.1:port"], capture_output=True, text=True)
    assert p.returncode == 2 and "--scheduler is '10.0.0.1:port'; it is an address like tcp://10.0.0.1:8786" in p.stderr
    assert list(tmp_path.glob("a.csv*")) == []
