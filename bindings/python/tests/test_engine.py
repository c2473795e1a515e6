"""Every operation of the boundary through Python, by numbers worked out on paper (docs/MODEL.md, docs/BY-HAND.md)."""
import ctypes
import math
import pickle
import re
import sys
import threading
import time

import nobyaluk
import numpy as np
import pytest
from hypothesis import given, settings
from hypothesis import strategies as st
from nobyaluk import arrays, engine, library
from nobyaluk.refusals import Refusal, meaning
from nobyaluk.summary import explain_refusal


def refusal(call, *arguments):
    with pytest.raises(engine.Refused) as caught:
        call(*arguments)
    return caught.value.number, caught.value.step, caught.value.place


@pytest.fixture(scope="module")
def printed(examples):
    return engine.read((examples / "printed-run.rec").read_bytes())


def test_the_longest_queues(printed, examples):
    """The gate's queue after the steps is 2500, 2142 and 1890, with 1000 arrivals in each; ramp 2's is 1700, 1900 and 2100."""
    assert engine.run(printed).longest == (2500, 1500, (0, 2100))
    shut = engine.fill(printed, {2: ("fixed", 0)})
    assert shut.longest.ramps == (0, int(shut.queue[:, 2].max()))
    assert engine.run_weighted(printed, [1, 1, 1], [1, 1]).longest is None
    for path in sorted(examples.glob("*.rec")):
        try:
            run = engine.run(path.read_bytes())
        except engine.Refused:
            continue
        arrived = run.record.rows[:, 0].astype(np.int64)
        gate, stay = run.held[:, 0].astype(np.int64), run.held[:, 0] - arrived
        assert run.longest == (gate.max(), stay.max(), tuple(run.queue[:, 1:].max(0)))


def test_the_printed_run(printed):
    run = engine.run(printed)
    assert run.outflow.tolist() == [[1500, 934, 1000], [1358, 933, 1000], [1252, 934, 1000]]
    assert run.held.tolist() == [[2500, 2566, 4000], [2142, 2991, 4000], [1890, 3309, 4000]]
    assert run.queue.tolist() == [[0, 0, 1700], [0, 0, 1900], [0, 0, 2100]]
    assert (run.total, run.gate, run.road, run.ramp, run.exits) == (33098, 6532, 20866, 5700, 3701)
    assert engine.listing(run).splitlines()[-1] == "total 33098 gate 6532 road 20866 ramp 5700 exits 3701"


def test_the_starred_edges():
    assert (engine.demand(500, 2000, 2566), engine.demand(500, 2000, 2567), engine.demand(1000, 9999, 2001)) == (1283, 1283, 2001)
    assert (engine.supply(250, 2000, 8000, 2566), engine.supply(250, 2000, 8000, 8000)) == (1358, 0)
    assert (engine.outflow(750, 934, 700, 1283), engine.outflow(750, 0, 0, 7), engine.outflow(0, 5, 0, 7)) == (933, 1, 7)
    assert engine.open_capacity(1000, 0b111, 0b110) == 666


def test_a_step_by_its_rules(printed):
    """Step 1 of the printed run, place by place: the gate into cell 1, cell 1 into cell 2, and out of the road."""
    road, row = printed.road, printed.rows[1]
    state = engine.step(road, printed.start, printed.rows[0])
    rooms = [engine.room(engine.supply(road.wave[i], road.capacity[i], road.jam[i], state.held[i]), int(row[2 * i + 2])) for i in range(2)]
    demands = [engine.gate_demand(road.gate_capacity, state.gate_queue)] + [engine.demand(road.speed[i], road.capacity[i], state.held[i]) for i in range(2)]
    assert (demands, rooms) == ([2000, 1283, 1000], [1358, 700])
    places = [(1000, state.gate_cumulative), (road.share[0], state.cumulative[0])]
    sent = [engine.outflow(share, f, room, most) for (share, f), room, most in zip(places, rooms, demands)]
    assert sent == [engine.outflow_by_halves(share, f, room, most) for (share, f), room, most in zip(places, rooms, demands)] == [1358, 933]
    assert [engine.entering(share, f, y) for (share, f), y in zip(places, sent)] == [1358, 700]
    assert [engine.onward(share, f) for share, f in places] == [1500, 700]  # 750 thousandths of 934 are 700.5
    assert sent + demands[2:] == engine.run(printed).outflow[1].tolist()
    assert engine.room(300, 301) == 0 and engine.entering(750, 934, 934) == 701


def test_what_a_state_holds(printed):
    run = engine.run(printed)
    start, end, road = printed.start, run.state, printed.road
    assert (engine.present(road, start), engine.on_road(road, start), engine.at_ramps(road, start), engine.exits(road, start)) == (10500, 6000, 1500, 0)
    assert engine.present(road, end) == run.present == end.gate_queue + engine.on_road(road, end) + engine.at_ramps(road, end)
    assert engine.exits(road, end) == run.exits == 3701
    came = int(printed.rows[:, 0].sum() + printed.rows[:, 1::2].sum())
    assert engine.present(road, start) + came == run.present + run.exits
    assert [engine.vehicle_seconds(seconds, end) for seconds in (0, 1, 20, 900)] == [0, 33, 661, 29788]
    assert engine.total(start) == 0 and engine.total(end) == run.total == end.gate_time + end.road_time + end.ramp_time == 33098
    full = engine.State(gate_time=2**64 - 1, road_time=1)
    assert engine.total(full) == engine.total(engine.State(gate_time=2**64 - 3, road_time=1, ramp_time=1)) == 2**64 - 1
    assert [engine.vehicle_seconds(seconds, full) for seconds in (1, 1000, 65535)] == [(2**64 - 1) // 1000, 2**64 - 1, 2**64 - 1]


def test_one_row(printed):
    assert [engine.row(printed.data, 2, k).tolist() for k in range(3)] == printed.rows.tolist()
    assert engine.row(printed.data, 2, 3).tolist() == [0] * 5 and engine.row(b"", 64, 1439).size == 129
    for n, step in ((65, 0), (2, 1440), (-1, 0), (2, 1 << 64)):
        with pytest.raises(ValueError):
            engine.row(printed.data, n, step)


def test_read_edit_write(printed):
    assert printed.rows.tolist() == [[1000, 0, 0, 500, 300]] * 3
    assert engine.write(printed.road, printed.begin, printed.rows).data == printed.data
    assert printed.column("jam").tolist() == [8000, 8000] and printed.column("held").tolist() == [2000, 4000]


def test_judge_and_history(printed):
    zeros = np.zeros((3, 3), np.uint32)
    judged = engine.judge(printed, zeros)
    assert (judged.total, judged.exits) == (40500, 0)
    held, queue = engine.history(printed, zeros)
    assert held.tolist() == judged.held.tolist() and queue[:, 2].tolist() == [1700, 1900, 2100]
    worse = engine.run(printed).outflow.copy()
    worse[1, 1] = 934
    assert refusal(engine.judge, printed, worse) == refusal(engine.history, printed, worse) == (14, 1, 1)
    assert refusal(engine.judge, printed, zeros[:2]) == (12, 0, 0)


def test_steps_are_the_run(printed):
    state = printed.start
    for row in printed.rows:
        state = engine.step(printed.road, state, row)
    assert state.done == 3 and (state.gate_time, state.road_time, state.ramp_time) == (6532, 20866, 5700)
    assert refusal(engine.step, printed.road, state, printed.rows[0][:3])[0] == 7


def test_weights(printed):
    run = engine.run_weighted(printed, [2, 1, 1], [1, 1])
    assert run.weighted == run.total + run.gate and run.total == 33098
    assert engine.weighted(printed.road, printed.start, [1, 1, 1], [1, 1]) == 3000 + 2000 + 4000 + 1500
    for places, ramps in (([1, 1], [1, 1]), ([1, 1, 1], [256, 1]), ([-1, 1, 1], [1, 1])):
        with pytest.raises(ValueError):
            engine.run_weighted(printed, places, ramps)


def test_laws(printed):
    assert engine.wish(("fixed", 300.5), 0, 0, 0) == 300.5
    assert engine.wish(("alinea", 0.5, 4000.0), 300, 0, 3000) == 800.0
    assert engine.wish(("demand-capacity", 1000.0, 4000.0, 100.0), 0, 700, 4000) == 300.0
    assert engine.wish(("demand-capacity", 1000.0, 4000.0, 100.0), 0, 700, 4001) == 100.0
    assert [engine.release(x, 500) for x in (300.9, -1.0, math.nan, math.inf)] == [300, 0, 0, 500]
    filled = engine.fill(printed, {2: ("fixed", 250.7)})
    assert filled.record.rows[:, 4].tolist() == [250, 250, 250]
    assert engine.run(filled.record).total == filled.total
    assert refusal(engine.fill, printed, {2: ("fixed", math.inf)}) == (16, 0, 2)
    with pytest.raises(ValueError, match=r"one of fixed \(rate\), alinea \(gain, target\), demand-capacity"):
        engine.fill(printed, {2: ("open",)})


def test_lanes(printed):
    table = bytes([7, 7, 7, 7, 7, 6, 7, 7])
    assert engine.run(printed, table).outflow[1, 2] == engine.open_capacity(1000, 7, 6) == 666
    assert refusal(engine.run, printed, b"\1") == (17, 0, 0)
    assert refusal(engine.run, printed, bytes([1, 0] + [1, 0] * 3)) == (18, 0, 2)


def test_a_stated_load():
    arrivals, last = engine.stated_load(0, 1000, 10)
    assert arrivals.tolist() == [236, 278, 820, 668, 384, 622, 344, 640, 508, 582] and last == 2498801434
    first, half = engine.stated_load(0, 1000, 4)
    second, end = engine.stated_load(half, 1000, 6)
    assert np.concatenate([first, second]).tolist() == arrivals.tolist() and end == last
    assert engine.stated_load(42, 7, 0)[1] == 42
    assert refusal(engine.stated_load, 42, 1_000_001, 3) == (25, 0, 0)


def test_a_wanted_queue():
    assert engine.wanted(4, 3, 2, [0, 0, 3]).tolist() == [1, 1, 2]
    assert engine.wanted(4, 3, 2, [0, 0, 6]) is None
    assert refusal(engine.wanted, 4, 3, 2, []) == (23, 0, 0)


def test_a_street():
    assert engine.grant(10, [2, 3, 1], [7, 1, 9]).tolist() == [7, 1, 2]
    assert refusal(engine.grant, 5, [2, 3, 1], [7, 1, 9]) == (24, 0, 0)


def test_a_release_put(printed):
    assert [refusal(engine.put, printed, step, cell, release)[::2] for step, cell, release in
            [(0, 0, 7), (0, 1, 7), (0, 3, 7), (3, 2, 7), (1, 2, 1_000_001)]] == [(5, 0), (5, 1), (5, 3), (6, 3), (6, 1)]
    new = engine.put(printed, 1, 2, 7)
    assert new.rows[1].tolist() == [1000, 0, 0, 500, 7] and new.rows[[0, 2]].tolist() == printed.rows[[0, 2]].tolist()
    assert refusal(engine.run, engine.put(printed, 1, 2, 2201)) == (9, 1, 2)  # 1,700 wait after step 0 and 500 arrive


def test_two_roads_joined(printed, examples):
    rows = printed.rows.copy()
    rows[:, 0] = 0
    down = engine.write(printed.road, engine.Start(0, printed.start.held, printed.start.queue), rows)
    both = engine.join(printed, down.data, 650)
    assert both.column("share").tolist() == [750, 650, 750, 0] and both.start.gate_queue == 3000
    assert both.rows.tolist() == [[1000, 0, 0, 500, 300, 0, 0, 500, 300]] * 3
    assert refusal(engine.join, printed, down, 1001) == (5, 0, 2)
    assert refusal(engine.join, printed, printed, 650) == (21, 0, 0)
    assert refusal(engine.join, b"", down, 650) == refusal(engine.join, printed, b"", 650) == (1, 0, 0)
    up, down, whole = (examples / f"rocade-sud{x}.rec" for x in ("-upstream", "-downstream", ""))
    assert engine.join(up.read_bytes(), down.read_bytes(), 890).data == whole.read_bytes()
    assert refusal(engine.join, printed, down.read_bytes(), 0) == (20, 0, 0)
    assert refusal(engine.join, whole.read_bytes(), down.read_bytes(), 0) == (22, 0, 0)


def test_refusals_have_words(examples):
    assert [*Refusal] == [*range(1, len(Refusal) + 1)]
    for path in examples.glob("refused-*.rec"):
        with pytest.raises(engine.Refused) as caught:
            engine.run(path.read_bytes())
        e = caught.value
        assert e.number == int(path.name.split("-")[1]) and str(e).endswith(": " + e.words) and e.words == meaning(e.number, "run").words
        assert e.refusal == e.number and e.operation in ("read", "run")
        again = pickle.loads(pickle.dumps(e))
        assert (again.number, again.step, again.place, again.line, str(again)) == (e.number, e.step, e.place, e.line, str(e))


def test_what_is_no_number_of_its_kind():
    for call in (lambda: engine.demand(-1, 0, 0), lambda: engine.room(1, 1 << 32), lambda: engine.onward(1 << 16, 0),
                 lambda: engine.vehicle_seconds(-1, engine.State()), lambda: engine.stated_load(1 << 32, 1, 1), lambda: engine.wanted(0, 0, 0, [-1]),
                 lambda: engine.grant(1, [1.5], [1]), lambda: engine.join(b"", b"", 1 << 16)):
        with pytest.raises((ValueError, TypeError)):
            call()


def test_reading_within_limits(printed, examples):
    """26 comes above either limit, directly after 4 and before 5; what is accepted is as reading gives it."""
    small = engine.read_within(printed.data)
    assert small.rows.tolist() == printed.rows.tolist() and bytes(small.start) == bytes(printed.start)
    assert engine.read_within(printed.data, 2, 124).steps == 3
    assert refusal(engine.read_within, printed.data, 1, 124) == refusal(engine.read_within, printed.data, 2, 123) == (26, 0, 0)
    assert refusal(engine.read_within, (examples / "rocade-sud.rec").read_bytes()) == (26, 0, 0)
    faulty = (examples / "refused-05-held-above-jam.rec").read_bytes()
    assert refusal(engine.read_within, faulty)[0] == 5 and refusal(engine.read_within, faulty, 1)[0] == 26
    assert refusal(engine.read_within, (examples / "refused-04-row-cut-short.rec").read_bytes(), 1)[0] == 4


def test_a_record_travels(printed):
    again = pickle.loads(pickle.dumps(printed))
    assert again.data == printed.data and again.rows.tolist() == printed.rows.tolist()
    run = pickle.loads(pickle.dumps(engine.run(printed)))
    assert run.total == 33098 and run.held.tolist() == engine.run(printed).held.tolist()


def test_the_lock_is_given_up(examples):
    """While calls of the engine last, another thread of Python goes on: nothing else gives it the lock within the interval set here."""
    record = engine.read((examples / "rocade-sud.rec").read_bytes())
    data, out = record.data, np.empty(library.MOST_OUTFLOWS, np.uint32)
    ticks, calls, stop, interval = 0, 0, threading.Event(), sys.getswitchinterval()

    def tick():
        nonlocal ticks
        while not stop.is_set():
            ticks += 1
            time.sleep(0)

    other = threading.Thread(target=tick)
    sys.setswitchinterval(60)
    try:
        other.start()
        before = ticks
        while ticks < before + 20 and calls < 50_000:
            library.run(data, len(data), b"", 0, *arrays.lend(out))
            calls += 1
        during = ticks - before
    finally:
        sys.setswitchinterval(interval)
        stop.set()
        other.join()
    assert during >= 20


def test_everything_is_told(root):
    """Every function of the C header is called by the package; every public name has its words."""
    header = (root / "bindings/c/nobyaluk.h").read_text()
    source = (root / "bindings/python/nobyaluk/library.py").read_text()
    for name in set(re.findall(r"^\w+ nobyaluk_(\w+)\(", header, re.M)):
        assert f'_function("{name}"' in source, name
    for name in nobyaluk.__all__:
        assert getattr(nobyaluk, name).__doc__, name


@settings(max_examples=60, deadline=None)
@given(st.data())
def test_no_schedule_beats_the_run(data):
    """Demand 3, tried: no random schedule that judging accepts is ahead of the run."""
    n, steps = data.draw(st.integers(1, 5)), 6
    r, s = engine.Road(n=n, version=1, gate_capacity=data.draw(st.integers(0, 5000))), engine.Start(data.draw(st.integers(0, 9000)))
    for i in range(n):
        r.jam[i] = data.draw(st.integers(0, 20000))
        r.speed[i], r.wave[i], r.capacity[i] = (data.draw(st.integers(0, x)) for x in (1000, 1000, 9000))
        r.share[i] = data.draw(st.integers(0, 1000)) if i < n - 1 else 0
        s.held[i] = data.draw(st.integers(0, r.jam[i]))
    rows = np.zeros((steps, 1 + 2 * n), np.uint32)
    rows[:, 0] = data.draw(st.lists(st.integers(0, 4000), min_size=steps, max_size=steps))
    record = engine.write(r, s, rows)
    run = engine.run(record)
    assert engine.judge(record, run.outflow).total == run.total
    zs = accepted(record, [[data.draw(st.integers(0, 1000)) for _ in range(n + 1)] for _ in range(steps)])
    other = engine.judge(record, zs)
    assert other.total >= run.total and other.ramp == run.ramp
    assert (np.cumsum(zs, 0) <= np.cumsum(run.outflow.astype(np.int64), 0)).all()
    wild = data.draw(st.lists(st.integers(0, 9000), min_size=zs.size, max_size=zs.size))
    try:
        assert engine.judge(record, wild).total >= run.total
    except engine.Refused as e:
        assert e.number in (13, 14)


def accepted(record, thousandths):
    """A schedule that judging accepts: each outflow is these thousandths of the run's, less wherever a rule would break."""
    n, zs = record.road.n, engine.run(record).outflow * np.array(thousandths) // 1000
    while True:
        try:
            engine.judge(record, zs)
            return zs
        except engine.Refused as e:
            zs[e.step, e.place] = int(explain_refusal(record, zs, b"", e).split()[-1].rstrip(";"))


@settings(max_examples=300, deadline=None)
@given(st.binary(max_size=300))
def test_any_bytes_are_answered(data):
    try:
        engine.run(data)
    except engine.Refused as e:
        assert 1 <= e.number <= 19


@settings(max_examples=200, deadline=None)
@given(st.integers(0, 123), st.integers(0, 255))
def test_any_damage_is_answered(printed_bytes, at, value):
    data = bytearray(printed_bytes)
    data[at] = value
    try:
        run = engine.run(bytes(data))
        assert engine.judge(run.record, run.outflow).total == run.total
    except engine.Refused as e:
        assert e.words


@pytest.fixture(scope="module")
def printed_bytes(examples):
    return (examples / "printed-run.rec").read_bytes()


def test_words_are_those_of_the_operation(printed):
    """The words of a number depend on the operation, and a number without a name has words too."""
    told = {}
    for operation, call in {"read": lambda: engine.read(b""), "put": lambda: engine.put(printed, 0, 3, 7), "join": lambda: engine.join(printed, printed, 1001),
                            "write": lambda: engine.write(printed.road, printed.begin, printed.rows[:, :3])}.items():
        with pytest.raises(engine.Refused) as caught:
            call()
        e = caught.value
        told[operation] = e.refusal
        assert e.operation == operation and str(e).endswith(meaning(e.number, operation).words)
    assert told == {"read": Refusal.LENGTH, "put": Refusal.LIMITS, "join": Refusal.LIMITS, "write": Refusal.SIZE}
    assert meaning(Refusal.LIMITS, "put") != meaning(Refusal.LIMITS, "join") != meaning(Refusal.LIMITS, "read") == meaning(Refusal.LIMITS, "run_weighted")
    other = engine.Refused(200, 1, 2)
    assert other.refusal is None and str(other) == "refused 200: not in the table of refusals"
    assert str(engine.Refused(Refusal.ENTERING_ABOVE_ROOM, 3, 0, "judge")).startswith("refused 14: step 3, gate: ")


def test_stepping_names_no_step(printed):
    """A step's answer has none; running's does."""
    record = printed
    row = record.rows[0].copy()
    row[4] = 2001  # 1,500 wait and 500 arrive
    with pytest.raises(engine.Refused) as caught:
        engine.step(record.road, record.start, row)
    words = meaning(Refusal.RELEASE_ABOVE_QUEUE, "step").words
    assert str(caught.value) == f"refused 9: cell 2: {words}" and caught.value.step is None
    with pytest.raises(engine.Refused) as caught:
        engine.run(engine.put(record, 0, 2, 2001))
    assert str(caught.value) == f"refused 9: step 0, cell 2: {words}" and caught.value.step == 0


def test_a_records_rows_are_read_only(printed):
    """A record is its bytes: a number set in its rows, road or start would have no effect."""
    with pytest.raises(ValueError, match="read-only"):
        printed.rows[0, 0] = 900_000
    for change in (lambda r: r.road.speed.__setitem__(0, 5), lambda r: setattr(r.road, "gate_capacity", 5), lambda r: r.start.held.__setitem__(slice(0, 2), [1, 2]),
                   lambda r: setattr(r.start, "gate_queue", 1)):
        with pytest.raises(ValueError, match="belongs to a record"):
            change(printed)
    road = printed.road.copy()
    road.gate_capacity, road.speed[0] = 5, 7
    assert engine.write(road, printed.begin, printed.rows).road.speed[0] == 7 != printed.road.speed[0]


def test_fields_keep_every_bit():
    """ctypes would keep the low bits of a number that is too large, and a misspelt field for nothing."""
    for call in (lambda: engine.Road(n=2, gate_capacity=(1 << 32) + 5), lambda: engine.Road(version=256), lambda: engine.Road(1 << 64), lambda: engine.Start(-1),
                 lambda: engine.Start(0, [1 << 32]), lambda: engine.State(done=-1), lambda: engine.State(held=(1 << 32,)), lambda: engine.Road(seconds=1.5),
                 lambda: engine.Road(speed=[0] * 65), lambda: engine.make_lanes([256], [1]), lambda: engine.make_lanes([1], [-1]),
                 lambda: engine.make_lanes([1] * 65, [1]), lambda: engine.Road().speed.__setitem__(0, 1 << 16),
                 lambda: engine.Start().queue.__setitem__(slice(0, 2), [1, 1 << 32]), lambda: setattr(engine.Road(), "seconds", 1 << 16)):
        with pytest.raises((ValueError, TypeError, RuntimeError, IndexError)):
            call()
    with pytest.raises(AttributeError, match="Road has no field 'sped'"):
        engine.Road().sped = 5
    road = engine.Road(n=2, speed=[1, 2], capacity=(3, 4))
    road.jam[0], road.wave[0:2] = 1_000_000, [5, np.uint16(6)]
    assert (road.speed[:2], road.capacity[:3], road.jam[0], road.wave[:2]) == ([1, 2], [3, 4, 0], 1_000_000, [5, 6])
    assert engine.make_lanes([255], [0]).built[0] == 255


class Lying(bytes):
    """Bytes that say they are longer."""

    def __len__(self):
        return 65_536

    def __bytes__(self):
        return self


class Nothing:
    """An object that ctypes would pass as a null pointer."""
    _as_parameter_ = None

    def __len__(self):
        return 40


def test_nothing_is_read_past_its_end(printed):
    """What is passed on is plain bytes and arrays, whose length is theirs."""
    assert refusal(engine.read, Lying(b"")) == refusal(engine.read_within, Lying(b"")) == refusal(engine.put, Lying(b""), 0, 1, 0) == (1, 0, 0)
    assert refusal(engine.join, Lying(b""), printed, 0) == (1, 0, 0) and engine.row(Lying(b"\1" * 20), 2, 0).tolist() == engine.row(b"\1" * 20, 2, 0).tolist()
    for data in (Lying(b""), printed.data[:-4], b""):
        with pytest.raises(ValueError):
            engine.Record(data, 3, printed.road, printed.start)
    with pytest.raises(ValueError, match="what `read` gives"):
        engine.Record(printed.data, 4, printed.road, printed.start)
    assert engine.Record(Lying(printed.data), 3, printed.road, printed.start).rows.tolist() == printed.rows.tolist()
    zeros = np.zeros((3, 3), np.uint32)
    for call in (engine.run, lambda r, x: engine.run_weighted(r, [1] * 3, [1] * 2, x), lambda r, x: engine.judge(r, zeros, x), lambda r, x: engine.history(r, zeros, x),
                 lambda r, x: engine.fill(r, {2: ("fixed", 1.0)}, x), lambda r, x: engine.state_before(r, zeros, x)):
        with pytest.raises(TypeError, match="bytes are needed"):
            call(printed, Nothing())
        with pytest.raises(TypeError, match="bytes are needed"):
            call(printed, np.ones(8, np.int64))
        assert refusal(call, printed, Lying(b"\1"))[0] == 17
    table = np.array([7, 7, 7, 7, 7, 6, 7, 7], np.uint8)
    assert engine.run(printed, table).total == engine.run(printed, bytes(table)).total


def test_what_is_no_record_says_so():
    for data in ("abc", 5, [1, 2], None):
        with pytest.raises(TypeError, match="bytes are needed"):
            engine.read(data)


def test_lists_of_any_kind(printed):
    """Whole numbers of any type are taken as they are; anything else is a fault."""
    rows = printed.rows
    for kind in (np.int64, np.uint64, np.float64, np.int32, object):
        assert engine.write(printed.road, printed.begin, rows.astype(kind)).data == printed.data
    assert engine.write(printed.road, printed.begin, np.asfortranarray(rows)).data == printed.data
    for bad in (rows + 0.5, rows.astype(float) * np.nan, rows.astype(float) + 2.0**32, rows.astype(np.int64) - 10**6, rows.astype(np.int64) + (1 << 32), rows > 0, rows.astype(str),
                rows.tolist() + [[1 << 80] * 5]):
        with pytest.raises(ValueError, match="whole numbers from 0 to 4294967295"):
            engine.write(printed.road, printed.begin, bad)


def test_laws_are_of_ramps(printed):
    """A law at a cell without a ramp would leave the ramp shut, as one without its numbers would."""
    with pytest.raises(ValueError, match="cell 1 has no ramp; ramps are at cell 2"):
        engine.fill(printed, {1: ("fixed", 3000.0)})
    with pytest.raises(ValueError, match="no law for the ramp at cell 2"):
        engine.fill(printed, {})
    for law in (("fixed",), ("alinea", 0.5), ("demand-capacity", 1.0, 2.0), ("fixed", 1.0, 2.0), ("fixed", "abc")):
        with pytest.raises(ValueError, match="a law is"):
            engine.fill(printed, {2: law})
        with pytest.raises(ValueError, match="a law is"):
            engine.wish(law, 0, 0, 0)


def test_the_state_before_a_rule_is_broken(printed):
    zeros = np.zeros((3, 3), np.uint32)
    assert refusal(engine.state_before, printed, zeros[:2]) == (12, 0, 0)
    assert refusal(engine.state_before, printed, zeros, b"\1") == (17, 0, 0)
    assert engine.state_before(printed, zeros).done == 3
    worse = engine.run(printed).outflow.copy()
    worse[1, 1] = 934
    assert engine.state_before(printed.data, worse).done == 1


def test_structs_are_not_extended(printed):
    """A larger struct by value would shift the arguments after it; a record of another class is read from its own bytes."""
    with pytest.raises(TypeError, match="Road can't be extended"):
        type("Longer", (engine.Road,), {"_fields_": [("more", ctypes.c_uint64)]})

    class Other(engine.Record):
        data = property(lambda self: Lying(b""))

        def __init__(self):
            pass

    for call in (engine.run, lambda r: engine.put(r, 0, 1, 0), lambda r: engine.join(r, printed, 0)):
        assert refusal(call, Other())[0] == 1
