"""Studies that no record holds, run in stretches that go on from one another: the numbers of one record, 1,440 steps of 64 cells, and a day."""
import numpy as np
import pytest
import text_form as text
from nobyaluk import LongRecord, Refused, Study, StudyError, engine, load, long_record, parallel, stepping
from nobyaluk.cli import main


def same(a, b):
    assert (a.outflow == b.outflow).all() and (a.held == b.held).all() and (a.queue == b.queue).all()
    assert (a.record.rows == b.record.rows).all()
    assert (a.total, a.gate, a.road, a.ramp, a.present, a.exits) == (b.total, b.gate, b.road, b.ramp, b.present, b.exits)


@pytest.fixture
def short(monkeypatch):
    """Stretches of 50 steps."""
    monkeypatch.setattr(long_record, "most_steps", lambda road: 50)


def far(record):
    return LongRecord(record.road, record.start, record.rows)


@pytest.fixture(scope="module")
def rocade(examples):
    return engine.read((examples / "rocade-sud.rec").read_bytes())


@pytest.fixture(scope="module")
def works(examples):
    return text.lanes_of((examples / "rocade-sud-works.lanes.txt").read_text())


def test_stretches_are_the_run(rocade, works, monkeypatch):
    """Of 377 steps: in stretches of 50, of 376 and of 1."""
    for fits in (50, 376, 1):
        monkeypatch.setattr(long_record, "most_steps", lambda road: fits)
        for lanes in (b"", works):
            one, many = engine.run(rocade, lanes), long_record.run_long(far(rocade), lanes)
            same(one, many)
            assert one.longest == many.longest and one.state == many.state


@pytest.mark.parametrize("law", ["alinea", "demand-capacity", "fixed", "open"])
def test_laws_are_fillings(examples, rocade, works, law, monkeypatch):
    """By going on, and step by step."""
    laws = text.laws_of((examples / f"rocade-sud-{law}.laws.txt").read_text())
    for lanes in (b"", works):
        one = engine.fill(rocade, laws, lanes)
        same(one, stepping.run_metered(rocade, laws, None, lanes))
        for fits in (50, 1):
            monkeypatch.setattr(long_record, "most_steps", lambda road: fits)
            many = long_record.fill_long(far(rocade), laws, lanes)
            same(one, many)
            assert one.longest == many.longest and one.state == many.state
            same(engine.run(one.record, lanes), long_record.run_long(many.record, lanes))


@pytest.mark.parametrize("fits", [50, 377])
def test_a_filled_record_is_another(examples, rocade, fits, monkeypatch):
    """Filling leaves the record unchanged, and nobody can change the answer: its outflows, its rows or the bytes in its stretches."""
    monkeypatch.setattr(long_record, "most_steps", lambda road: fits)
    laws = text.laws_of((examples / "rocade-sud-alinea.laws.txt").read_text())
    record = far(rocade)
    before = [s.data.tobytes() for s in record.stretches]
    one, two = (long_record.fill_long(record, laws) for _ in range(2))
    assert [s.data.tobytes() for s in record.stretches] == before and (record.rows == rocade.rows).all()
    other = long_record.fill_long(record, {cell: ("fixed", 0.0) for cell in laws})
    same(one, two)
    same(one, engine.fill(rocade, laws))
    assert other.record.rows[:, 2::2].max() == 0 and one.record != other.record
    for a in (one.outflow, one.record.rows, one.record.stretches[-1].data, record.stretches[0].data, engine.run(rocade).outflow, engine.fill(rocade, laws).outflow):
        with pytest.raises(ValueError, match="read-only"):
            a[0] = 0
        with pytest.raises(ValueError, match="WRITEABLE"):
            a.setflags(write=True)


@pytest.mark.usefixtures("short")
def test_a_history_needs_all_outflows(rocade):
    record = far(rocade)
    outflow = long_record.run_long(record).outflow
    for zs in (outflow[1:], outflow[:-50], outflow[:, 1:], np.vstack([outflow, outflow])):
        assert refusal(record.history, zs, b"") == "refused 12 0 0"


@pytest.mark.usefixtures("short")
def test_what_enters_is_fillings():
    """Demand-capacity goes by what entered from upstream: from the gate, and from places that let 750 and 900 thousandths on."""
    n, steps = 6, 60
    road = engine.Road(n=n, version=1, gate_capacity=20_000)
    for i, share in enumerate((750, 1000, 900, 333, 1000, 0)):
        road.speed[i], road.wave[i], road.share[i], road.ramp[i] = 800, 300, share, int(i in (0, 1, 3, 4))
        road.jam[i], road.capacity[i] = 90_000, 17_000 - 1_000 * i
    rows = np.zeros((steps, 1 + 2 * n), np.uint32)
    rows[:, 0], last = engine.stated_load(7, 30_000, steps)
    for i in (0, 1, 3, 4):
        rows[:, 2 * i + 1], last = engine.stated_load(last, 6_000, steps)
    record = engine.write(road, engine.Start(), rows)
    laws = {i + 1: ("demand-capacity", 15_000.0, 40_000.0, 500.0) for i in (0, 1, 3, 4)}
    filled = engine.fill(record, laws)
    assert len(np.unique(filled.record.rows[:, 2])) > 5  # the ramp at cell 1 goes by what the gate sends
    same(filled, stepping.run_metered(record, laws))
    same(filled, long_record.fill_long(far(record), laws))


@pytest.mark.usefixtures("short")
def test_weighted(examples, rocade):
    """The sum over the stretches is the whole's, of a run and of a filling."""
    weights = [3] + [1] * 21, [2] * 21
    assert long_record.run_long(far(rocade), weights=weights).weighted == engine.run_weighted(rocade, *weights).weighted
    laws = text.laws_of((examples / "rocade-sud-alinea.laws.txt").read_text())
    wanted = engine.run_weighted(engine.fill(rocade, laws).record, *weights).weighted
    assert long_record.fill_long(far(rocade), laws, weights=weights).weighted == wanted


def refusal(run, *words):
    with pytest.raises(Refused) as caught:
        run(*words)
    return caught.value.line


@pytest.mark.usefixtures("short")
def test_refusals_are_the_same(examples, rocade, works, monkeypatch):
    """Of a record in stretches: number, step counted from the study's start, and place."""
    for name in ("refused-09-release-above-queue", "refused-10-release-above-supply"):
        record = engine.read((examples / f"{name}.rec").read_bytes())
        assert refusal(engine.run, record) == refusal(long_record.run_long, far(record))
    for step in (0, 49, 50, 149, 376):
        rows = rocade.rows.copy()
        rows[step, 2 * rocade.ramps[0]] = 1_000_000
        record = engine.write(rocade.road, rocade.begin, rows)
        assert refusal(engine.run, record) == refusal(long_record.run_long, far(record)) == f"refused 9 {step} {rocade.ramps[0]}"
        bad = bytearray(works)
        bad[21 * 300 + 4] = 255  # a lane that is not built, in step 299: it is refused first, as of a record
        assert refusal(engine.run, record, bytes(bad)) == refusal(long_record.run_long, far(record), bytes(bad)) == "refused 18 0 5"
    for lanes, number in ((works[:-1], 17), (bytes(len(works)), 18)):
        assert refusal(long_record.run_long, far(rocade), lanes).startswith(f"refused {number} ")
        assert refusal(stepping.run_metered, rocade, {}, None, lanes).startswith(f"refused {number} ")
    laws = {i + 1: ("fixed", float("nan") if i == 4 else 0.0) for i in range(21) if rocade.road.ramp[i]}
    for fill in (engine.fill, stepping.run_metered):
        assert refusal(fill, rocade, laws) == "refused 16 0 5"
    assert refusal(long_record.fill_long, far(rocade), laws) == "refused 16 0 5"


@pytest.mark.usefixtures("short")
def test_judging(rocade, works):
    """A schedule of a study in stretches is judged as of a record: its total, and the first broken rule."""
    for lanes in (b"", works):
        best = engine.run(rocade, lanes)
        schedule = best.outflow.copy()
        schedule[:, -1] //= 2  # the last cell sends less, which breaks rules or costs time
        for zs in (best.outflow, best.outflow.ravel(), schedule, best.outflow + np.eye(*best.outflow.shape, -200, dtype=np.uint32) * 10**6):
            try:
                one = engine.judge(rocade, zs, lanes)
            except Refused as e:
                assert refusal(long_record.judge, far(rocade), zs, lanes) == e.line
                assert long_record.state_before(far(rocade), zs, lanes) == engine.state_before(rocade, zs, lanes)
            else:
                same(one, long_record.judge(far(rocade), zs, lanes))
        assert refusal(long_record.judge, far(rocade), schedule[1:], lanes) == "refused 12 0 0"


def widest():
    """64 cells, a ramp at every third, a bottleneck at every sixth."""
    n = 64
    road = engine.Road(n=n, version=2, seconds=20, gate_capacity=25000)
    for i in range(n):
        road.speed[i], road.wave[i], road.share[i], road.jam[i] = 900 + i, 250, 1000 if i % 4 else 900, 125_000
        road.capacity[i], road.ramp[i] = 21_000 if i % 6 == 5 else 25_000, int(i % 3 == 1)
    road.share[n - 1] = 0
    rows = np.zeros((1440, 1 + 2 * n), np.uint32)
    rows[:, 0], last = engine.stated_load(1, 40_000, 1440)
    for i in range(1, n, 3):
        rows[:, 2 * i + 1], last = engine.stated_load(last, 4_000, 1440)
    return road, rows


def test_the_widest_study():
    """1,440 steps of 64 cells, by ALINEA: what comes is present or has left, and the first steps are a record's."""
    road, rows = widest()
    study = Study("widest", "widest", long_record.make_record(road, engine.Start(), rows), laws={i + 1: ("alinea", 0.1, 25_000.0) for i in range(64) if road.ramp[i]})
    assert isinstance(study.record, LongRecord) and study.record.steps == 1440
    run = study.run()
    assert run.outflow.shape == (1440, 65) and run.total == run.gate + run.road + run.ramp
    assert int(rows[:, [0, *range(1, 129, 2)]].sum()) == run.present + run.exits
    first = engine.fill(engine.write(road, engine.Start(), rows[:123]), study.laws)
    assert (first.outflow == run.outflow[:123]).all() and (first.queue == run.queue[:123]).all()
    assert parallel.totals(study).total == run.total
    rows[1200, 5] = 1_000_001  # cell 3 has no ramp, and the number is too large
    with pytest.raises(Refused) as caught:
        long_record.make_record(road, engine.Start(), rows)
    assert (caught.value.number, caught.value.place) == (6, 1200)
    with pytest.raises(StudyError, match="at most 17,280 steps"):
        long_record.make_record(road, engine.Start(), np.zeros((17281, 129), np.uint32))
    with pytest.raises(Refused) as caught:
        long_record.make_record(road, engine.Start(), np.zeros((0, 129), np.uint32))
    assert caught.value.number == 3


def test_a_long_file(examples, tmp_path, capsys):
    """Rocade Sud for eight hours: run, listed, drawn and judged; a record can't hold it."""
    (tmp_path / "long.toml").write_text(f'base = "{examples}/studies/rocade-sud-works.toml"\nsteps = 1440\n[arrivals]\nfile = "{examples}/studies/rocade-sud-arrivals.csv"\n')
    path = str(tmp_path / "long.toml")
    s = load(path)
    run = s.run()
    assert (run.outflow[:377] == load(examples / "studies/rocade-sud-works.toml").run().outflow).all()
    assert main(["run", path, "--listing"]) == 0
    out = capsys.readouterr().out.splitlines()
    assert len(out) == 1 + 1440 * 22 + 2 and out[-1] == f"seconds {run.total * 20 // 1000}"
    assert main(["plot", path, "-o", str(tmp_path), "--kind", "queues"]) == 0
    capsys.readouterr()
    assert main(["convert", path, str(tmp_path / "a.rec")]) == 2
    assert "21 cells leave room for 377 steps" in capsys.readouterr().err
    schedule = tmp_path / "a.csv"
    np.savetxt(schedule, run.outflow, "%d", ",")
    assert main(["judge", path, str(schedule)]) == 0
    assert f"accepted total {run.total} " in (said := capsys.readouterr().out) and "it is the engine's run\n" in said
    cut = run.outflow.astype(int)
    cut[1300, 3] += 10**5
    np.savetxt(schedule, cut, "%d", ",")
    assert main(["judge", path, str(schedule)]) == 1
    assert "refused 13: step 1300" in (said := capsys.readouterr().err) and "the place can send" in said


def test_rows_of_any_type(rocade):
    """numpy's own whole numbers have 64 bits: they are converted, and never read as others."""
    rows, wanted = rocade.rows, engine.run(rocade).total
    for kind in (np.int64, np.uint64, np.int32, np.float64):
        assert long_record.run_long(LongRecord(rocade.road, rocade.start, rows.astype(kind))).total == wanted
    small = np.zeros(rows.shape, np.uint8)
    assert long_record.run_long(LongRecord(rocade.road, rocade.start, small)).total == long_record.run_long(LongRecord(rocade.road, rocade.start, small.astype(np.uint32))).total
    for bad in (rows.astype(float) + 0.5, rows.astype(np.int64) - 10**7, rows[:, :-1], rows[0], rows.tolist()[0]):
        with pytest.raises(ValueError):
            LongRecord(rocade.road, rocade.start, bad)
    with pytest.raises(TypeError):
        LongRecord(rocade.road, rocade.begin, rows)
    record = LongRecord(rocade.road, rocade.start, rows)
    with pytest.raises(ValueError, match="read-only"):
        record.rows[0, 0] = 1
    with pytest.raises(TypeError, match="bytes are needed"):
        long_record.run_long(record, np.ones(40, np.int64))


def test_plans_of_any_type(rocade):
    """A plan is whole numbers, a row a step: one of another shape, below 0 or between two parts is a fault."""
    plan = np.full((rocade.steps, rocade.road.n), 1500)
    wanted = stepping.run_metered(rocade, {}, plan.astype(np.uint32)).total
    assert stepping.run_metered(rocade, {}, plan).total == stepping.run_metered(rocade, {}, plan.tolist()).total == wanted
    for bad in (plan[:3], plan[:, :-1], -plan, plan + 0.5, plan * np.nan):
        with pytest.raises(ValueError):
            stepping.run_metered(rocade, {}, bad)


def test_laws_are_of_ramps(rocade):
    ramps = [i + 1 for i in range(rocade.road.n) if rocade.road.ramp[i]]
    with pytest.raises(ValueError, match="cell 1 has no ramp"):
        long_record.fill_long(far(rocade), {1: ("fixed", 1.0), **{cell: ("fixed", 1.0) for cell in ramps}})
    with pytest.raises(ValueError, match=f"no law for the ramp at cell {ramps[0]}"):
        long_record.fill_long(far(rocade), {cell: ("fixed", 1.0) for cell in ramps[1:]})


def test_of_a_long_study_nothing_is_promised(examples, tmp_path, capsys):
    """Weighted totals of studies beyond one record: no promise is proved of them, and none is printed."""
    said = []
    for steps in (377, 1440):
        (tmp_path / "w.toml").write_text(f'base = "{examples}/studies/rocade-sud-works.toml"\nsteps = {steps}\n[arrivals]\nfile = "{examples}/studies/rocade-sud-arrivals.csv"\n[weights]\ngate = 2\n')
        assert main(["run", str(tmp_path / "w.toml")]) == 0
        said.append(next(x for x in capsys.readouterr().out.splitlines() if "weighted total" in x))
    assert "no schedule has a smaller one" in said[0] and "no schedule" not in said[1]
