"""Studies, roads, records and runs as a programmer uses them: built from numbers, compared, printed, and never changed silently."""
import doctest
import pickle
from dataclasses import replace
from datetime import time

import nobyaluk
import numpy as np
import pytest
from nobyaluk import Cell, Closure, Gate, LongRecord, Meter, Study, StudyError, cells, load

FIVE = {"length": 0.5, "speed": 90, "jam": 250, "capacity": [4400, 4400, 4400, 4400, 3800], "split": [1, 0.8, 1, 1, 1], "ramp": [None, None, None, "Mill Street", None]}
RUSH = {"time": ["07:00", "07:10", "07:40"], "gate": [3000, 4000, 2400], "Mill Street": [300, 900, 200]}


def five(**changed):
    """The study of README's file, built from numbers."""
    given = {"gate": Gate(4400), "step": 20, "steps": 225, "start": "07:00", "arrivals": RUSH, "meter": Meter("open"), "title": "Five cells, meters open"}
    return Study.of(cells(**FIVE), **{**given, **changed})


@pytest.fixture(scope="module")
def study(examples):
    return load(examples / "studies/five-cells.toml")


@pytest.fixture(scope="module")
def run(study):
    return study.run()


def test_a_study_built_from_numbers_is_the_file_s(study, run):
    built = five()
    assert built == study and built.run() == run and built.record.data == study.record.data
    assert [x.error for x in built.rounding] == [x.error for x in study.rounding] and built.name == "study"
    one = Cell(length=0.5, speed=90, jam=250, capacity=4400)
    road = [one, replace(one, split=0.8), one, replace(one, ramp="Mill Street"), replace(one, capacity=3800)]
    assert Study.of(road, gate=Gate(4400), step=20, steps=225, start=time(7), arrivals=RUSH, meter={"all": Meter("open")}, title=study.title) == study


def test_the_page_for_those_who_program(root):
    page = (root / "bindings/README.md").read_text()
    names: dict = {}
    exec(page.partition("```python\n")[2].partition("```")[0], names)
    assert names["run"].study.ramps == {"Mill Street": 2} and names["run"].density_veh_per_km.shape == (180, 3)
    for name in ("density_veh_per_km", "speed_km_per_h", "inflow_veh_per_h", "outflow_veh_per_h", "frame()", "plot(kind"):
        assert f"`{name}" in page and hasattr(nobyaluk.StudyRun, name.partition("(")[0])


def test_numbers_of_any_kind(study):
    """Floats as they are printed, numpy's numbers and arrays, one number for the whole time, one for each step, and a frame."""
    typed = five(gate=Gate(np.float64(4400)), step=np.int64(20), arrivals={k: np.array(x) for k, x in RUSH.items()})
    assert typed == study
    rates = np.repeat([3000.0, 4000.0, 2400.0], [30, 90, 105])
    a_step = five(arrivals={"gate": rates, "Mill Street": np.repeat([300, 900, 200], [30, 90, 105])})
    assert a_step == study
    steady = five(arrivals={"gate": 1000, "Mill Street": 0})
    assert steady.record.rows[:, 0].sum() == 225 * 20 * 1000 * 1000 // 3600 and not steady.record.rows[:, 7].any()
    tenth = five(arrivals={"unit": "veh", "gate": 0.1, "Mill Street": 0})
    assert (tenth.record.rows[:, 0] == 100).all()  # 0.1 is a tenth
    pandas = pytest.importorskip("pandas")
    assert five(arrivals=pandas.DataFrame(RUSH)) == study


def test_meters_works_releases_and_weights(examples):
    alinea = five(meter={"Mill Street": Meter("alinea", gain_kmh=21)})
    assert alinea.laws == load(examples / "studies/five-cells-alinea.toml").laws
    road = [replace(x, lanes=3) for x in cells(**FIVE)]
    given = {"gate": Gate(4400, queue=3), "step": 20, "steps": 225, "start": "07:00", "arrivals": RUSH}
    works = Study.of(road, **given, meter=Meter("demand-capacity", least=200), closures=[Closure(5, 1, "07:20", "07:30"), Closure(cell=1, lanes=2, begin=3, end=6)],
                     weights={"gate": 3, "road": 2, "ramps": {"Mill Street": 5}})
    table = np.frombuffer(works.lanes, np.uint8).reshape(226, 5)
    assert (table[61:91, 4] == 3).all() and table[91, 4] == 7 and (table[4:7, 0] == 1).all() and works.run().weighted > 0
    assert works.record.start.gate_queue == 3000 and works.weights == ([3] + [2] * 5, [1, 1, 1, 5, 1])
    held = Study.of(road, **given, releases={"Mill Street": 600})
    assert (held.plan[:, 3].sum(), held.run().queue.max() > 0) == (600 * 225 * 20 * 1000 // 3600, True)


@pytest.mark.parametrize("changed, words", [
    ({"step": 30}, "cell 1: `speed` 90 km/h x 30 s = 0.750 km passes the cell's 0.5 km in one step; take a step of at most 20 s"),
    ({"arrivals": {"gate": 1000}}, "there are no arrivals for Mill Street"),
    ({"arrivals": {"gate": [1000, 2000], "Mill Street": 0}}, "arrivals: `gate` has 2 numbers; it has one for each of the 225 steps, or one number for all"),
    ({"arrivals": {**RUSH, "gate": [1, 2]}}, "`gate` has 2 numbers; it has as many as `time` has, 3"),
    ({"arrivals": {"gate": float("nan"), "Mill Street": 0}}, "number 1 of `gate` is 'NaN', where a number is needed"),
    ({"arrivals": {"gate": 1, "Mil Street": 0}}, "did you mean 'Mill Street'"),
    ({"meter": None}, "these ramps have no law and no table: Mill Street"),
    ({"meter": Meter("alinea")}, "`gain` (a step) or `gain_kmh` (km/h) is needed"),
    ({"gate": Gate(-1)}, "`capacity` is -1; it is at least 0"),
    ({"gate": 4400}, "study: gate is 4400; it is a Gate, or a mapping with its words"),
    ({"meter": "open"}, "study: meter of all is 'open'; it is a Meter"),
    ({"arrivals": 3000}, 'arrivals is 3000; it has a number or a list for each name, as {"gate": 3000}'),
    ({"arrivals": {}}, "there are no arrivals for gate, Mill Street"),
    ({"steps": 17281}, "`steps` is 17281; it is at most 17280"),
    ({"closures": [Closure(6, 1, 0, 1)]}, "`cell` is 6; it is at most 5"),
])
def test_faults_have_the_words_of_a_file(changed, words):
    with pytest.raises(StudyError) as e:
        five(**changed)
    assert words in str(e.value)


def test_columns_of_cells():
    assert [c.capacity for c in cells(**FIVE)] == FIVE["capacity"] and cells(**FIVE)[3].ramp == "Mill Street"
    for wrong in ({"length": [1, 2], "speed": [1]}, {"length": 1}):
        with pytest.raises(StudyError, match="one for each cell, or one for all"):
            cells(**{"jam": 1, "capacity": 1, "speed": 1, **wrong})
    assert doctest.testmod(nobyaluk.study_builder).failed == 0
    with pytest.raises(TypeError, match="capcity"):
        cells(length=[1], speed=1, jam=1, capcity=1)


def test_equal(study, run, examples):
    again = load(examples / "studies/five-cells.toml")
    assert again == study and again.run() == run and again.record == study.record and again.record.road == study.record.road and again.record.start == study.record.start
    assert hash(again.record) == hash(study.record) and len({again.run(), run}) == 1
    other = load(examples / "studies/five-cells-alinea.toml")
    assert other != study and other.run() != run and study.scaled(1.1) != study and study.scaled(1) == study  # whatever its name
    assert study != replace(study, title="Another") and study != replace(study, lengths=None) and study != "five-cells" and run != 3
    planned = [load(examples / "studies/rocade-sud-plan.toml") for _ in range(2)]
    assert planned[0] == planned[1] and planned[0] != replace(planned[1], plan=planned[1].plan + 1) and planned[0] != replace(planned[1], plan=None)
    road = study.record.road.copy()
    road.capacity[2] += 1
    assert road != study.record.road and nobyaluk.engine.Start() == nobyaluk.engine.Start() and nobyaluk.engine.Start() != nobyaluk.engine.State()
    far = [LongRecord(study.record.road, study.record.start, study.record.rows) for _ in range(2)]
    assert far[0] == far[1] and hash(far[0]) == hash(far[1]) and far[0] != study.record
    assert far[0] != LongRecord(study.record.road, study.record.start, study.record.rows[1:])


def test_short_words(study, run, examples):
    big = load(examples / "studies/rocade-sud-works.toml")
    for x in (study, run, big, big.run(), study.record, study.record.road, study.record.start, run.state, study.record.begin, nobyaluk.engine.Road(),
              LongRecord(study.record.road, study.record.start, study.record.rows), nobyaluk.engine.run(study.record)):
        assert 5 < len(repr(x)) < 180 and "\n" not in repr(x) and "object at" not in repr(x), repr(x)
    assert repr(study) == "<Study 'five-cells': 5 cells, 225 steps of 20 s, 1 on-ramp>"
    assert repr(run) == "<Run of 'five-cells': 170.32 vehicle-hours (gate 30.28, road 140.04, ramps 0.00)>"
    assert repr(study.record) == "Record(5 cells, 225 steps, 10,038 bytes)"
    assert repr(load(examples / "printed-run.rec").run()) == "<Run of 'printed-run': 33.10 vehicle-steps (gate 6.53, road 20.87, ramps 5.70)>"


def test_a_notebook_shows_totals_and_a_small_picture(study, run, examples):
    pytest.importorskip("matplotlib")
    page = run._repr_html_()
    for words in ("Five cells, meters open", "170.32", "30.28", "of it arriving", "data:image/png;base64,", "alt="):
        assert words in page, words
    assert len(page) < 60_000 and "Mill Street" in study._repr_html_() and "open" in study._repr_html_()
    named = replace(study, title="<b>$5</b>")
    assert "&lt;b&gt;$5" in named.run()._repr_html_() and "&lt;b&gt;$5" in named._repr_html_()
    assert "33.10" in load(examples / "printed-run.rec").run()._repr_html_()
    undrawn = replace(study, lengths=[1e-6] * 5).run()._repr_html_()
    assert "170.32" in undrawn and "<img" not in undrawn


def writable_at_last(array):
    """Whether an array, or what it is a view of, can be made writable."""
    while array is not None:
        try:
            array.flags.writeable = True
            return True
        except ValueError:
            array = array.base if isinstance(array.base, np.ndarray) else None
    return False


def test_nothing_of_a_record_or_run_can_be_changed(study, examples):
    run = study.run()
    far = LongRecord(study.record.road, study.record.start, study.record.rows)
    stepped = nobyaluk.long_record.run_long(far)
    for array in (study.record.rows, far.rows, run.outflow, run.held, run.queue, run.held[:, 1:], run.record.rows, stepped.outflow, stepped.held, stepped.queue,
                  run.density_veh_per_km, run.speed_km_per_h, run.inflow_veh_per_h, run.outflow_veh_per_h):
        assert not writable_at_last(array)
        with pytest.raises(ValueError, match="read-only"):
            array[0, 0] = 1
    for lent in (study.record.road, study.record.start, run.state, far.road, far.start):
        with pytest.raises(ValueError, match="belongs to a record"):
            setattr(lent, "n" if hasattr(lent, "n") else "done", 1)
    for lent in (lambda: study.record.road.capacity, lambda: study.record.start.held, lambda: run.state.held, lambda: far.road.speed):
        was = list(lent())
        np.asarray(lent())[:] = 7  # numpy writes to the memory of a ctypes array: here to a copy's
        assert list(lent()) == was
    road, start, rows = study.record.road.copy(), study.record.start.copy(), study.record.rows.copy()
    kept = LongRecord(road, start, rows)
    road.capacity[0], start.held[0], rows[0, 0] = 1, 1, 1  # the caller's own
    assert kept == far
    with pytest.raises(AttributeError):
        run.total = 0


def test_a_run_keeps_the_study_as_it_was(study):
    own = replace(study, lengths=list(study.lengths), ramps=dict(study.ramps), weights=([1] * 6, [1] * 5))
    run = own.run()
    own.lengths[0], own.ramps["Mill Road"], own.weights[0][0] = 7.0, own.ramps.pop("Mill Street"), 9
    own.title, own.lengths = "Another", [1.0] * 5
    assert run.study == replace(study, weights=([1] * 6, [1] * 5)) and (run.density_veh_per_km == study.run().density_veh_per_km).all()


def test_runs_travel(study, run):
    again = pickle.loads(pickle.dumps(run))
    assert again == run and again.study == study and again.held[3, 2] == run.held[3, 2] and not writable_at_last(again.outflow)


def test_densities_speeds_and_flows(study, run, examples):
    """Counts of the library divided by lengths and times; in shape (T, n), column i - 1 being cell i."""
    assert run.density_veh_per_km.shape == run.speed_km_per_h.shape == run.inflow_veh_per_h.shape == run.outflow_veh_per_h.shape == (225, 5)
    assert (run.density_veh_per_km == run.held[:, 1:] / 1000 / 0.5).all()
    assert run.density_veh_per_km[100, 2] == 58.77 / 0.5 and np.isclose(run.speed_km_per_h[100, 4], 90)
    assert np.isclose(run.outflow_veh_per_h[100], run.outflow[100, 1:] * 0.18).all()
    assert (run.inflow_veh_per_h[:, 0] == run.outflow[:, 0] / 1000 * 180).all()
    for name in ("studies/rocade-sud-works.toml", "studies/rocade-sud-plan.toml", "studies/five-cells-alinea.toml"):
        s = load(examples / name)
        r = s.run()
        held = np.vstack([s.record.column("held"), r.held[:, 1:]]).astype(int)
        release = r.record.rows[:, 2::2].astype(int)
        balance = np.rint(r.inflow_veh_per_h * 1000 / 180).astype(int) + release - r.outflow[:, 1:]
        assert (np.diff(held, axis=0) == balance).all()  # to the part: nothing is lost
    bare = load(examples / "printed-run.rec").run()
    for name in ("density_veh_per_km", "speed_km_per_h", "inflow_veh_per_h", "outflow_veh_per_h"):
        with pytest.raises(StudyError, match="needs the"):
            getattr(bare, name)
    timed = load(examples / "rocade-sud-seconds.rec").run()
    assert timed.inflow_veh_per_h.shape[1] == 21


def test_frame(study, run, examples, tmp_path):
    pandas = pytest.importorskip("pandas")
    frame = run.frame()
    assert len(frame) == 225 * 6 and not {"density_veh_per_km", "speed_km_per_h", "inflow_veh_per_h"} - set(frame)
    row = frame[(frame.step == 100) & (frame.place == 3)].iloc[0]
    assert row.time == pandas.Timedelta("07:33:40") and row.density_veh_per_km == run.density_veh_per_km[100, 2] and row.held_veh == run.held[100, 3] / 1000
    assert frame[frame.place == 0].density_veh_per_km.isna().all() and frame.ramp[4] == "Mill Street"
    gate = frame[frame.place == 0]
    assert np.allclose(gate.held_veh.diff()[1:], ((gate.inflow_veh_per_h - gate.outflow_veh_per_h) / 180)[1:])
    assert np.isclose((frame.held_veh + frame.ramp_queue_veh).sum() * 20 / 3600, nobyaluk.hours(run, 20).total)
    from nobyaluk.cli import main

    assert main(["run", str(examples / "studies/five-cells.toml"), "--csv", str(tmp_path / "t.csv")]) == 0
    table = pandas.read_csv(tmp_path / "t.csv", keep_default_na=True)
    assert list(table) == list(frame)
    for name in frame.select_dtypes(["int64", "float64"]):
        assert np.allclose(table[name], frame[name], rtol=1e-5, equal_nan=True), name
    bare = load(examples / "printed-run.rec").run().frame()
    assert bare.time.isna().all() and bare.density_veh_per_km.isna().all() and round(1000 * (bare.held_veh + bare.ramp_queue_veh).sum()) == 33098


def test_frame_of_several(study, run, examples):
    pytest.importorskip("pandas")
    from functools import partial

    both = nobyaluk.frame([run, load(examples / "studies/five-cells-alinea.toml").run()])
    assert list(both.index) == ["five-cells", "five-cells-alinea"] and round(both.total_vehicle_hours["five-cells-alinea"], 2) == 167.25
    assert (both.gate_vehicle_hours + both.road_vehicle_hours + both.ramp_vehicle_hours - both.total_vehicle_hours).abs().max() < 1e-9
    assert round(both.arriving_vehicle_hours.iloc[0], 2) == 21.67 and round(both.longest_gate_queue_veh.iloc[0], 1) == 70.6
    loads = [0.8, 1.0, 200.0]
    sweep = nobyaluk.frame(nobyaluk.map([partial(study.scaled, x) for x in loads]))
    assert np.isclose(sweep.total_vehicle_hours.iloc[1], both.total_vehicle_hours.iloc[0]) and "a step takes at most 1,000" in sweep.refused.iloc[2]
    assert list(sweep.refused[:2]) == ["", ""] and np.isnan(sweep.total_vehicle_hours.iloc[2]) and len(nobyaluk.frame([])) == 0


def test_frames_need_pandas(run, monkeypatch):
    import sys

    monkeypatch.setitem(sys.modules, "pandas", None)
    with pytest.raises(ImportError, match="apt-get install python3-pandas"):
        run.frame()


def test_pictures_of_a_run(run, examples):
    pytest.importorskip("matplotlib")
    other = load(examples / "studies/five-cells-alinea.toml").run()
    assert run.plot().axes[0].get_title(loc="left") == "Where the road fills"
    ends = [x.plot("queues", beside=[y]).axes[0].get_ylim() for x, y in ((run, other), (other, run))]
    assert ends[0] == ends[1] and run.plot("queues").axes[0].get_ylim() != ends[0]
    with pytest.raises(StudyError, match="a picture is one of space-time, density, speed, queues, cumulative"):
        run.plot("pie")


def test_every_public_name_says_what_it_is():
    """With units: what has parameters or attributes in numbers of the field or in parts says which."""
    for name in nobyaluk.__all__:
        assert getattr(nobyaluk, name).__doc__, name
    for of in (Study.of, Cell, Gate, Meter, Closure, Study.run, Study.scaled, Study.with_stated_load, load, nobyaluk.frame, nobyaluk.StudyRun.frame, nobyaluk.StudyRun.plot):
        assert "\n    ----" in of.__doc__ or "\n        ----" in of.__doc__, of
    for name in "read run run_weighted judge history fill write stated_load wanted grant put step hours".split():
        words = getattr(nobyaluk if name == "hours" else nobyaluk.engine, name).__doc__
        assert "Parameters\n    ----" in words and "Returns\n    ----" in words and ("part" in words or "Record" in words), name
    for of, unit in ((Cell, "km/h"), (Cell, "veh/km"), (Gate, "veh/h"), (Meter, "veh/h"), (Study.of, "veh/h"), (nobyaluk.Run, "parts"), (nobyaluk.StudyRun, "shape (T, n)")):
        assert unit in of.__doc__
