"""Many studies at once: threads, processes, a cluster of two workers, and sweeps as CSV."""
import csv
import io
import time
from concurrent.futures import Future, ProcessPoolExecutor, ThreadPoolExecutor
from fractions import Fraction
from functools import partial

import nobyaluk
import numpy as np
import pytest
from nobyaluk import StudyError, cluster as cluster_module, load, parallel, workers
from nobyaluk.cluster import NoCluster
from nobyaluk.cli import main
from nobyaluk.variants import Variants


@pytest.fixture(scope="module")
def study(examples):
    return load(examples / "studies/five-cells-alinea.toml")


@pytest.fixture(scope="module")
def loads(study):
    return [study.scaled(x / 100) for x in range(60, 140)]


@pytest.fixture(scope="module")
def wanted(loads):
    return [s.run().total for s in loads]


def test_threads(loads, wanted):
    done = []
    assert [t.total for t in nobyaluk.map(iter(loads), progress=done.append)] == wanted
    assert done[-1] == len(loads)
    assert [t.total for t in nobyaluk.map(loads, workers=1, batch=7)] == wanted


def test_executors(loads, wanted):
    with ThreadPoolExecutor(2) as pool:
        assert [t.total for t in nobyaluk.map(loads, pool)] == wanted
    with ProcessPoolExecutor(2) as pool:
        assert [t.total for t in nobyaluk.map(loads, pool)] == wanted


def test_recipes(study, wanted):
    """Each thread or process makes the variants that it runs."""
    recipes = [partial(study.scaled, x / 100) for x in range(60, 140)]
    assert [t.total for t in nobyaluk.map(recipes)] == wanted
    with ProcessPoolExecutor(2) as pool:
        assert [t.total for t in nobyaluk.map(recipes, pool)] == wanted


def test_a_sweep_by_processes(examples, capsys):
    path = str(examples / "studies/five-cells.toml")
    assert main(["sweep", path, "--load", "0.8:1:0.001", "--workers", "2"]) == 0
    one, rows = load(path), rows_of(capsys.readouterr().out)
    assert len(rows) == 201 and rows[57]["total_vehicle_hours"] == f"{one.scaled(0.857).run().total * 20 / 3_600_000:.4f}"


def test_whole_runs_and_paths(examples, loads):
    runs = list(nobyaluk.map(loads[:3], each=nobyaluk.Study.run))
    assert [(r.outflow == s.run().outflow).all() for r, s in zip(runs, loads)] == [True] * 3
    paths = [str(examples / f"studies/five-cells{x}.toml") for x in ("", "-alinea")]
    assert [t.name for t in nobyaluk.map(paths)] == ["five-cells", "five-cells-alinea"]


def test_plain_records_take_the_short_way(examples):
    s = load(examples / "rocade-sud.rec")
    t, r = parallel.totals(s), s.run()
    assert (t.total, t.gate, t.road, t.ramp, t.exits, t.present) == (r.total, r.gate, r.road, r.ramp, r.exits, r.present)


def test_a_refusal_stops_nobody(examples):
    good, bad = load(examples / "rocade-sud.rec"), load(examples / "refused-09-release-above-queue.rec")
    found = list(nobyaluk.map([good, bad, good]))
    assert [t.refused.line if t.refused else t.total for t in found] == [294407512, "refused 9 1 2", 294407512]


def rows_of(text):
    return list(csv.DictReader(io.StringIO(text)))


def test_sweeps(examples, capsys, tmp_path):
    path = str(examples / "studies/five-cells.toml")
    assert main(["sweep", path, "--load", "0.9:1.1:0.1", "-o", str(tmp_path / "a.csv")]) == 0
    rows = rows_of((tmp_path / "a.csv").read_text())
    assert [r["load"] for r in rows] == ["0.9", "1", "1.1"] and rows[1]["total_vehicle_hours"] == "170.3150"
    capsys.readouterr()
    assert main(["sweep", path, "--vary", "gate.capacity=4000:4400:400"]) == 0
    rows = rows_of(capsys.readouterr().out)
    assert [r["gate.capacity"] for r in rows] == ["4000", "4400"] and rows[1]["total_vehicle_hours"] == "170.3150"
    assert main(["sweep", path, "--vary", "cell.5.capacity=3600:3800:200"]) == 0
    rows = rows_of(capsys.readouterr().out)
    assert rows[1]["total_vehicle_hours"] == "170.3150" < rows[0]["total_vehicle_hours"]
    assert main(["sweep", path, "--seeds", "1:5", "--peak", "6000", "--ramp-peak", "800"]) == 0
    rows = rows_of(capsys.readouterr().out)
    assert [r["seed"] for r in rows] == list("12345") and len({r["total_vehicle_hours"] for r in rows}) == 5
    for words, message in ((["--load", "1:0:1"], "LOW:HIGH:STEP"), (["--load", "1:1e99:1"], "up to 1,000,000 steps"), ([], "one of --load, --seeds and --vary"), (["--vary", "gate.x.y=1:2:1"], "there is no `gate.x.y` to vary"),
                        (["--seeds", "1:2"], "--seeds needs --peak")):
        assert main(["sweep", path, *words]) == 2
        assert message in capsys.readouterr().err


def test_sweep_reports_refusals(examples, capsys):
    assert main(["sweep", str(examples / "rocade-sud.rec"), "--load", "0.2:1:0.8"]) == 0
    printed = capsys.readouterr()
    rows = rows_of(printed.out)
    assert rows[0]["refused"].startswith("9 ") and rows[1]["refused"] == "" and "1 of 2 were refused" in printed.err


def test_a_cluster(examples, loads, wanted, capsys):
    """Two worker processes of Dask, through an executor and through the command's --scheduler."""
    distributed = pytest.importorskip("distributed")
    with distributed.LocalCluster(n_workers=2, threads_per_worker=1, processes=True, dashboard_address=None) as cluster:
        executor, client = cluster_module.connect(cluster.scheduler_address)
        assert [t.total for t in nobyaluk.map(loads, executor)] == wanted
        client.close()
        path = str(examples / "studies/five-cells-alinea.toml")
        assert main(["sweep", path, "--load", "0.6:1.39:0.01", "--scheduler", cluster.scheduler_address]) == 0
    rows = rows_of(capsys.readouterr().out)
    assert [r["total_vehicle_hours"] for r in rows] == [f"{x * (20 / 3_600_000):.4f}" for x in wanted]


def test_a_sweep_of_the_steps_seconds(examples, road, capsys):
    """Each variant's hours use its own seconds."""
    path = str(examples / "studies/five-cells.toml")
    assert main(["sweep", path, "--vary", "step=10:20:10"]) == 0
    rows = rows_of(capsys.readouterr().out)
    for row, seconds in zip(rows, (10, 20)):
        s = load(road("step = 20", f"step = {seconds}", name=f"{seconds}.toml"))
        assert row["total_vehicle_hours"] == f"{nobyaluk.hours(s.run(), seconds).total:.4f}" and s.seconds == seconds
    assert [r["total_vehicle_hours"] for r in rows] == ["95.7527", "170.3150"]


def test_a_sweep_of_weights(examples, capsys):
    """Weights change only the weighted total, so the table of a study with weights has it."""
    path = str(examples / "exercise/weights.toml")
    assert main(["sweep", path, "--vary", "weights.gate=3:5:2"]) == 0
    rows = rows_of(capsys.readouterr().out)
    for row, gate in zip(rows, (3, 5)):
        r = Variants(path, ["weights.gate"]).study(Fraction(gate)).run()
        assert row["weighted_vehicle_hours"] == f"{r.weighted * 36 / 3_600_000:.4f}"
    assert rows[0]["weighted_vehicle_hours"] != rows[1]["weighted_vehicle_hours"] and rows[0]["total_vehicle_hours"] == rows[1]["total_vehicle_hours"]
    assert main(["sweep", path, "--vary", "weights.gate=1:999:998"]) == 0
    assert "at most 255" in rows_of(capsys.readouterr().out)[1]["refused"]


def test_no_load_is_cut(examples, study, capsys):
    """A step takes at most 1,000 vehicles at an entry. More is a fault with step, entry and number; in a sweep only that study fails."""
    rows = study.record.rows
    with pytest.raises(StudyError, match=r"the gate has 1,111\.\d+ vehicles in step \d+; a step takes at most 1,000"):
        study.scaled(1_111_111 / int(rows[:, 0].max()))
    with pytest.raises(StudyError, match="ramp Mill Street has"):
        study.with_rows(rows * (np.arange(rows.shape[1]) == 7)).scaled(900)
    for load in (float("nan"), float("inf"), -0.1, -float("inf"), 1e300, 1_000_001):
        with pytest.raises(StudyError, match="it is a number from 0 to 1,000,000"):
            study.scaled(load)
    most = int(rows[:, [0, 7]].max())
    top = study.scaled(Fraction(1_000_000, most))
    assert top.record.rows.max() == 1_000_000
    path = str(examples / "studies/five-cells-alinea.toml")
    assert main(["sweep", path, "--load", "1:1001:500"]) == 0
    printed = capsys.readouterr()
    found = rows_of(printed.out)
    assert found[0]["refused"] == "" and [r["total_vehicle_hours"] for r in found[1:]] == ["", ""]
    assert found[1]["refused"].startswith("five-cells-alinea x 501: the gate has ") and "2 of 3 failed" in printed.err
    assert main(["sweep", path, "--load", "1001:1002:1"]) == 2 and "the gate has" in capsys.readouterr().err
    assert main(["sweep", path, "--load=-1:1:1"]) == 2 and "--load is '-1:1:1'; it is at least 0" in capsys.readouterr().err


def test_loads_are_the_decimals_written(study):
    """145 thousandths of 100 parts are 14.5, rounded to 15 parts."""
    rows = np.zeros_like(study.record.rows)
    rows[:, 0] = 100
    for load in (0.145, Fraction(145, 1000), np.float64(0.145)):
        assert study.with_rows(rows).scaled(load).record.rows[0, 0] == 15


def test_a_variant_out_of_its_limits_is_named(examples, capsys):
    path = str(examples / "studies/five-cells.toml")
    assert main(["sweep", path, "--vary", "cell.5.capacity=3600:400000:396400"]) == 0
    printed = capsys.readouterr()
    rows = rows_of(printed.out)
    assert rows[0]["refused"] == "" and "`capacity` makes" in rows[1]["refused"] and "1 of 2 failed" in printed.err


@pytest.mark.parametrize("words", ["0.5:2.5", "1:2:0.5", "-1:2", "4294967290:4294967300", "4294967296:4294967296", "1:1e30", "a:b", "1", "²:3", "9" * 5000 + ":1"])
def test_seeds_are_whole(examples, capsys, words):
    status = main(["sweep", str(examples / "studies/five-cells.toml"), f"--seeds={words}", "--peak", "6000"])
    printed = capsys.readouterr()
    assert (status, printed.out) == (2, "") and "--seeds is" in printed.err and len(printed.err) < 400


def test_the_last_seeds(examples, capsys):
    assert main(["sweep", str(examples / "studies/five-cells.toml"), "--seeds", "4294967294:4294967295", "--peak", "6000", "--ramp-peak", "800"]) == 0
    assert [r["seed"] for r in rows_of(capsys.readouterr().out)] == ["4294967294", "4294967295"]


def burn(seconds):
    """Compute for so many seconds of this thread."""
    end = time.thread_time() + seconds
    while time.thread_time() < end:
        pass


@pytest.fixture
def started(monkeypatch):
    """How many processes each pool starts, on a machine of two processors."""
    asked = []

    class Counted(workers.Workers):
        def __init__(self, count, *how):
            asked.append(count)
            super().__init__(count, *how)

    monkeypatch.setattr(parallel, "Workers", Counted)
    monkeypatch.setattr(parallel, "processors", lambda: 2)
    return asked


def test_a_short_sweep_starts_no_process(examples, started, capsys):
    """A sweep of some milliseconds is over before a process has started; one of a second is not."""
    path = str(examples / "studies/rocade-sud-alinea.toml")
    for words, processes in (("0.9:1.1:0.01", []), ("0.9:1:0.001", []), ("0.9:1.1:0.00002", [2])):
        assert main(["sweep", path, "--load", words]) == 0 and started == processes
        assert len(rows_of(capsys.readouterr().out)) == round((float(words.split(":")[1]) - 0.9) / float(words.split(":")[2])) + 1
    started.clear()
    for words, processes in (("0.01:0.2:0.01", []), ("0.00002:0.2:0.00002", [2])):
        assert main(["sweep", path, "--vary", f"meter.all.gain={words}"]) == 0 and started == processes
    started.clear()
    assert main(["sweep", path, "--load", "0.9:1.1:0.0001", "--workers", "1"]) == 0 and started == []


@pytest.mark.parametrize("first, next_, count, processes", [(0.08, 0.00001, 400, []), (0.08, 0.002, 400, [2]), (0.3, 0.3, 2, []), (0.3, 0.3, 4, [2]), (0.00001, 0.00001, 400, [])])
def test_the_first_call_does_not_decide(started, first, next_, count, processes):
    """A first study that is slow says nothing of the next ones, unless it takes longer than any start."""
    done = []

    def run(items):
        for _ in items:
            burn(next_ if done else first)
            done.append(1)
        return items

    assert [x for some in parallel.spread_run(range(count), count, run, None) for x in some] == list(range(count))
    assert started == processes


def test_other_work_does_not_decide(started):
    """A study that waits takes no processor time, and other programs' work is such a wait."""
    run = lambda items: time.sleep(0.002) or items
    assert [x for some in parallel.spread_run(range(400), 400, run, None) for x in some] == list(range(400)) and started == []


def test_workers_are_bounded(examples, capsys, monkeypatch):
    """There are at most as many workers as processors and studies; a number below 1 is a wrong call."""
    asked = []

    class Counted(workers.Workers):
        def __init__(self, count, *how):
            asked.append(count)
            super().__init__(min(count, 2), *how)

    monkeypatch.setattr(parallel, "Workers", Counted)
    monkeypatch.setattr(parallel.Estimate, "pays", lambda *_: True)
    monkeypatch.setattr(parallel, "processors", lambda: 8)
    study = load(examples / "studies/five-cells.toml")
    for given, studies in ((100_000, 40), (None, 40), (3, 40), (100_000, 3), (1, 40)):
        assert [x.total for group in parallel.spread([study] * studies, studies, workers=given) for x in group] == [study.run().total] * studies
    assert asked == [8, 8, 3, 3]
    for words in ("-1", "0", "x", "1.5", "9" * 5000):
        assert main(["sweep", str(examples / "studies/five-cells.toml"), "--load", "1:2:1", f"--workers={words}"]) == 2
        assert "whole number from 1" in capsys.readouterr().err


def test_a_cluster_that_is_not_there(examples, capsys, monkeypatch):
    """A wrong address is a wrong call (status 2). A scheduler that does not answer, or has no workers, is something missing (3). Nothing is printed."""
    distributed = pytest.importorskip("distributed")
    monkeypatch.setattr(cluster_module, "TIMEOUT", 1)
    monkeypatch.setattr(cluster_module, "PATIENCE", 1)
    path = str(examples / "studies/five-cells.toml")
    sweep = lambda address: main(["sweep", path, "--load", "1:2:1", "--scheduler", address])
    for address in ("nonsense", "foo://x:1", "", "tcp://127.0.0.1"):
        status = sweep(address)
        printed = capsys.readouterr()
        assert (status, printed.out) == (2, "") and printed.err.startswith(f"nobyaluk: --scheduler is '{address}'; it is an address like tcp://10.0.0.1:8786"), address
    assert sweep("tcp://127.0.0.1:9") == 3
    assert "the scheduler at tcp://127.0.0.1:9 does not answer" in capsys.readouterr().err
    monkeypatch.setattr(cluster_module, "TIMEOUT", 20)
    with distributed.LocalCluster(n_workers=0, processes=False, dashboard_address=None) as cluster:
        assert sweep(cluster.scheduler_address) == 3
        assert f"the cluster at {cluster.scheduler_address} has no workers" in capsys.readouterr().err


def test_workers_that_are_lost(loads, wanted, monkeypatch):
    """`map` does not wait forever for a task that no worker runs."""
    seen = []

    def watch():
        seen.append(1)
        if len(seen) == 3:
            raise NoCluster("lost")

    class Never(ThreadPoolExecutor):
        def submit(self, *_):
            return Future()

    monkeypatch.setattr(parallel, "PATROL", 0.01)
    with pytest.raises(NoCluster, match="lost"):
        list(nobyaluk.map(loads, Never(1), watch=watch))
    assert [t.total for t in nobyaluk.map(loads, ThreadPoolExecutor(1), watch=watch)] == wanted


def test_a_task_has_a_study(loads):
    with pytest.raises(ValueError, match="at least one study"):
        list(nobyaluk.map(loads, batch=0))
