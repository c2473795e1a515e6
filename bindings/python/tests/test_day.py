"""A day: more than 1,440 steps in one study, in parts that go on from one another; and roads of more than 64 cells, which the engine refuses."""
import csv
import io
from dataclasses import replace
from functools import partial

import numpy as np
import pytest
from nobyaluk import Refused, StudyError, engine, fields, load, long_record, parallel, stepping, summary
from nobyaluk.cli import main
from nobyaluk.totals import totals_and_queues

ANEW = "the cumulative outflows begin at 0 again every 1,440 steps, so each off-ramp's rounding may shift there by less than one thousandth of a vehicle"
HOURS = [(0, 900, 100), (6, 2700, 450), (7, 3600, 720), (9, 1800, 360), (16, 3400, 650), (19, 1200, 200)]


def write_day(folder, examples, study="rocade-sud-alinea", steps=4320, name="day.toml", more=""):
    """24 hours of Rocade Sud by steps of 20 s, with two peaks."""
    names = ["2", "5", "7", "11", "14", "16", "19", "21"]
    lines = [",".join(["time", "gate", *names]), *(f"{h:02d}:00,{gate}," + ",".join([str(ramp)] * 8) for h, gate, ramp in HOURS)]
    (folder / "day.csv").write_text("\n".join(lines) + "\n")
    (folder / name).write_text(f'base = "{examples}/studies/{study}.toml"\nstart = "00:00"\nsteps = {steps}\n{more}[arrivals]\nfile = "day.csv"\n')
    return str(folder / name)


@pytest.fixture
def day(tmp_path, examples):
    return load(write_day(tmp_path, examples))


def parts_of(s):
    """The same by hand: three studies of 1,440 steps, each from what the one before left, the meters from their last releases and entries."""
    road, start, last, rows, out = s.record.road, s.record.begin, {}, s.record.rows, []
    for k in range(0, s.record.steps, 1440):
        record = long_record.make_record(road, start, rows[k : k + 1440])
        m = stepping.MeteredStepper(record, b"", s.laws)
        if out:
            m.last, m.entered = last
        for _ in range(record.steps):
            m.step(m.wishes())
        last = m.last, m.entered
        out.append(m.walk.run())
        end = out[-1].state
        start = engine.Start(end.gate_queue, end.held, end.queue)
    return out


def test_a_day_is_its_parts(day):
    """One total, one table: the sums of three parts, each of which the engine runs as a study of its own."""
    run, parts = day.run(), parts_of(day)
    assert day.record.steps == 4320 and [p.record.steps for p in parts] == [1440] * 3
    for name in ("total", "gate", "road", "ramp", "exits"):
        assert getattr(run, name) == sum(getattr(p, name) for p in parts)
    for name in ("outflow", "held", "queue"):
        assert (getattr(run, name) == np.vstack([getattr(p, name) for p in parts])).all()
    assert (run.record.rows == np.vstack([p.record.rows for p in parts])).all()
    assert run.present == parts[-1].present and run.state.done == 4320 and list(run.state.cumulative) == list(parts[-1].state.cumulative)
    assert run.longest.waiting == summary.gate_waiting(run).max() and list(run.longest.ramps) == run.queue[:, 1:].max(0).tolist() and run.longest.gate == run.held[:, 0].max()
    start, arrived = day.record.start, int(day.record.rows[:, [0, *range(1, 43, 2)]].sum())
    assert start.gate_queue + sum(start.held) + sum(start.queue) + arrived == run.present + run.exits
    assert (fields.entered(run) == np.vstack([fields.entered(p) for p in parts])).all()
    same = stepping.run_metered(day.record, day.laws)
    assert (same.outflow == run.outflow).all() and (same.total, same.gate, same.road, same.ramp, same.exits, same.present, same.state) == (run.total, run.gate, run.road, run.ramp, run.exits, run.present, run.state)


def test_the_widest_day():
    """64 cells: each part is 12 records."""
    from test_long import widest

    road, rows = widest()
    rows = np.vstack([rows] * 2)[:2000]
    record = long_record.make_record(road, engine.Start(), rows)
    assert [(s.begin, s.steps) for s in record.stretches][11:14] == [(1353, 87), (1440, 123), (1563, 123)]
    run = long_record.run_long(record, weights=([1] * 65, [1] * 64))
    first = long_record.run_long(long_record.make_record(road, engine.Start(), rows[:1440]))
    assert (run.outflow[:1440] == first.outflow).all() and run.weighted == run.total
    end = first.state
    second = long_record.run_long(long_record.make_record(road, engine.Start(end.gate_queue, end.held, end.queue), rows[1440:]))
    assert (run.outflow[1440:] == second.outflow).all() and run.exits == first.exits + second.exits and (run.queue[1440:] == second.queue).all()


def test_a_step_of_a_later_part(day):
    """A refusal has the step of the day."""
    rows = day.run().record.rows.copy()
    rows[3000, 2 * day.record.ramps[0]] = 1_000_000
    s = day.with_rows(rows, laws={})
    with pytest.raises(Refused) as caught:
        s.run()
    assert (caught.value.number, caught.value.step, caught.value.place) == (9, 3000, day.record.ramps[0]) and "16:40:00" in s.describe_refusal(caught.value)
    rows[4000, 0] = 1_000_001
    with pytest.raises(Refused) as caught:
        day.with_rows(rows)
    assert (caught.value.number, caught.value.place) == (6, 4000)


def test_commands(tmp_path, examples, capsys):
    """run, its CSV and listing, plot, compare, report and redo of a day."""
    path = write_day(tmp_path, examples)
    s = load(path)
    r = s.run()
    assert main(["run", path, "--csv", str(tmp_path / "a.csv")]) == 0
    said = capsys.readouterr().out
    assert ANEW in said and "4320 steps of 20 s (24 h)" in said
    rows = list(csv.DictReader(io.StringIO((tmp_path / "a.csv").read_text())))
    assert len(rows) == 4320 * 22 and rows[-1]["step"] == "4319" and float(rows[-1]["held_veh"]) == r.held[-1, -1] / 1000
    assert main(["run", path, "--listing"]) == 0
    assert capsys.readouterr().out.splitlines()[-2] == f"total {r.total} gate {r.gate} road {r.road} ramp {r.ramp} exits {r.exits}"
    assert main(["plot", path, "-o", str(tmp_path), "--kind", "space-time"]) == 0
    other = write_day(tmp_path, examples, "rocade-sud", name="open.toml")
    capsys.readouterr()
    assert main(["compare", path, other]) == 0
    said = capsys.readouterr().out.splitlines()
    assert len(said) == 3 and said[1].split()[0] == "day"
    page = tmp_path / "page.html"
    assert main(["report", path, "-o", str(page)]) == 0
    text = page.read_text()
    assert ANEW.replace("'", "&#x27;") in text and f"total {r.total} gate" in text and "run in several, each going on from the one before" in text
    capsys.readouterr()
    assert main(["redo", str(page)]) == 0
    assert "the same totals and record" in capsys.readouterr().out


def test_a_sweep_of_a_day(tmp_path, examples, capsys):
    path = write_day(tmp_path, examples)
    assert main(["sweep", path, "--load", "0.5:1:0.5"]) == 0
    rows = list(csv.DictReader(io.StringIO(capsys.readouterr().out)))
    s = load(path)
    for row, x in zip(rows, (0.5, 1)):
        r = s.scaled(x).run()
        assert row["total_vehicle_hours"] == f"{summary.hours(r, 20).total:.4f}" and float(row["longest_ramp_queue_veh"]) == r.queue.max() / 1000
    assert parallel.run_group(totals_and_queues, [partial(s.scaled, 1)])[0].total == s.run().total


def test_plans_works_and_weights_of_a_day(tmp_path, examples):
    """A plan goes step by step, with the same parts; works and weights go on over them."""
    s = load(write_day(tmp_path, examples))
    capped = replace(s, laws={}, plan=np.full((4320, 21), 2_500, np.uint32))
    run = capped.run()
    again = capped.with_rows(run.record.rows, plan=None).run()
    assert (again.outflow == run.outflow).all() and (again.held == run.held).all() and (again.total, again.exits, again.state) == (run.total, run.exits, run.state)
    weighed = replace(s, weights=([2] + [1] * 21, [1] * 21)).run()
    assert weighed.weighted == s.run().total + s.run().gate
    works = write_day(tmp_path, examples, name="works.toml", more='[[closure]]\ncell = 9\nlanes = 1\nfrom = "09:00"\nto = "17:00"\n')
    closed = load(works).run()
    open_ = s.run()
    assert (closed.outflow[:1620] == open_.outflow[:1620]).all() and closed.total > open_.total


def test_what_a_day_cant(tmp_path, examples, capsys):
    """Each in words: judging, a record, an exercise, more steps than a day of 5 s."""
    path = write_day(tmp_path, examples)
    np.savetxt(tmp_path / "z.csv", load(path).run().outflow, "%d", ",")
    assert main(["judge", path, str(tmp_path / "z.csv")]) == 2
    assert "begins them at 0 again every 1,440; judge studies of at most 1,440 steps, each with the one before it as `after`" in capsys.readouterr().err
    assert main(["convert", path, str(tmp_path / "a.rec")]) == 2
    assert "21 cells leave room for 377 steps; this study has 4320" in capsys.readouterr().err
    assert main(["exercise", path, "-o", str(tmp_path / "sheet.html")]) == 2
    assert "a record has at most 65,536 bytes" in capsys.readouterr().err
    with pytest.raises(StudyError, match="`steps` is 17281; it is at most 17280; a further study continues with `after`"):
        load(write_day(tmp_path, examples, steps=17281))


def test_after_a_day(tmp_path, examples):
    """A study that goes on from a day starts from what it leaves."""
    path = write_day(tmp_path, examples)
    s = load(write_day(tmp_path, examples, steps=100, name="next.toml", more='after = "day.toml"\n'))
    end = load(path).run().state
    assert list(s.record.start.held) == list(end.held) and s.record.start.gate_queue == end.gate_queue


def test_more_than_64_cells(tmp_path):
    text = "step = 20\nsteps = 3\n[gate]\ncapacity = 4000\n[defaults]\nlength = 0.5\nspeed = 90\njam = 250\ncapacity = 4000\n" + "[[cell]]\n" * 65 + "[arrivals]\nstep = [0]\ngate = [100]\n"
    (tmp_path / "wide.toml").write_text(text)
    with pytest.raises(StudyError, match="65 .*cell.*; a road has 1 to 64, for which the engine is proved. Cut the road into studies where no queue reaches"):
        load(tmp_path / "wide.toml")
