"""A summary is true: the gate's part that is the step of arrival, conservation, one numbering of steps, words for numbers."""
import re
from dataclasses import replace

import numpy as np
import pytest
from nobyaluk import engine, load, summary
from nobyaluk.cli import main

FREE = """title = "Free flow"
step = {step}
steps = {steps}
start = "07:00"
[gate]
capacity = 4400
[defaults]
length = 0.5
speed = 90
jam = 250
capacity = 4400
{cells}
[arrivals]
time = ["07:00"]
gate = [1000]
"""


@pytest.fixture
def free(tmp_path):
    def study(step, hours=1, cells=5):
        (tmp_path / "free.toml").write_text(FREE.format(step=step, steps=int(hours * 3600 / step), cells="[[cell]]\n" * cells))
        return load(tmp_path / "free.toml")

    return study


def numbers(line):
    return [float(x.replace(",", "")) for x in re.findall(r"\d[\d,]*\.\d+|\d[\d,]*", line)]


def line(lines, begins):
    return next(x for x in lines if x.strip().startswith(begins))


@pytest.mark.parametrize("step, floor", [(20, 5.56), (10, 2.78), (5, 1.39)])
def test_free_flow_has_no_delay(free, step, floor):
    """An empty road with 1,000 veh/h: what the gate counts is the step of arrival, whatever the step; nobody queues."""
    s = free(step)
    run = s.run()
    d = summary.measure_driven(s, run)
    assert 0 <= d.delay < 0.01 and d.speed == pytest.approx(90, abs=0.02) and d.speed <= 90
    lines = summary.summary_lines(s, run)
    assert "delay 0.00 vehicle-hours" in line(lines, "driven") or "delay 0.01 vehicle-hours" in line(lines, "driven")
    assert numbers(line(lines, "at the gate"))[0] == numbers(line(lines, "of it arriving"))[0] == floor
    assert "queue" not in line(lines, "at the gate")
    assert summary.arriving(run) == 1_000_000 * 1 and summary.gate_waiting(run).max() == 0
    assert summary.compare_runs([(s, run)])[1][0][7] == "0.0"


@pytest.mark.parametrize("hours", [0.1, 1])
def test_delay_does_not_depend_on_how_long_a_road_or_study_is(free, hours):
    """What is still on the road at the end has lost nothing."""
    for cells in (1, 20):
        s = free(10, hours, cells)
        assert 0 <= summary.measure_driven(s, s.run()).delay < 0.01


def all_runs(examples):
    for path in [*sorted(examples.glob("*.rec")), *sorted((examples / "studies").glob("*.toml")), *sorted((examples / "exercise").glob("*.toml"))]:
        if not path.name.startswith("refused"):
            s = load(path)
            yield s, s.run()


def test_the_step_of_arrival_is_a_part_of_the_time_at_the_gate(examples):
    """In every step the gate's queue is what arrived in it and what could not leave: the queue before it less its outflow."""
    for s, run in all_runs(examples):
        rows = run.record.rows.astype(np.int64)
        before = np.concatenate([[run.record.start.gate_queue], run.held[:-1, 0].astype(np.int64)])
        assert (summary.gate_waiting(run) == before - run.outflow[:, 0]).all() and summary.gate_waiting(run).min() >= 0
        assert summary.arriving(run) == rows[:, 0].sum() and run.gate == summary.arriving(run) + summary.gate_waiting(run).sum()


def test_delay_is_never_negative_and_speed_never_above_free_flow(examples):
    for s, run in all_runs(examples):
        if d := summary.measure_driven(s, run):
            free = max(v / 1000 * km * 3600 / float(s.seconds) for v, km in zip(run.record.road.speed[: s.n], s.lengths))
            assert d.delay >= 0 and d.speed <= free + 1e-9


def test_conservation_is_shown(examples):
    """Those at the start and those who arrived are those who left and those who are present, to the thousandth."""
    for s, run in all_runs(examples):
        shown = line(summary.summary_lines(s, run), "vehicles")
        assert re.search(r"[\d.]+ at the start \+ [\d,.]+ arrived = [\d,.]+ left \+ [\d,.]+ present at the end$", shown), shown
        start, arrived, left, present = (round(1000 * x) for x in numbers(shown))
        assert start + arrived == left + present and left == run.exits and present == run.present


def test_steps_are_numbered_as_in_the_listing(examples):
    """`after step 2` is the row of step 2 in the listing, and its time is that of the step's end."""
    for s, run in all_runs(examples):
        rows = [[int(x) for x in row.split()] for row in engine.listing(run).splitlines()[1 : 1 + run.outflow.size]]
        said = summary.summary_lines(s, run)
        for name, place, column in [("at the gate", 0, 3), *((f"ramp {name[:11]}", cell, 4) for name, cell in s.ramps.items())]:
            found = re.search(r"longest queue ([\d,.]+) vehicles after step (\d+)(?:, ([\d:]+))?(?:.*and ([\d,.]+) that arrived in it)?", line(said, name))
            if found:
                here = next(row[column] for row in rows if row[:2] == [int(found[2]), place])
                assert abs(numbers(found[1])[0] + (numbers(found[4])[0] if found[4] else 0) - here / 1000) < 0.11, (s.name, name)
                if s.seconds and s.start is not None:
                    t = int(s.start + (int(found[2]) + 1) * s.seconds)
                    assert found[3] == f"{t // 3600 % 24:02d}:{t // 60 % 60:02d}:{t % 60:02d}"
    s = load(examples / "printed-run.rec")
    assert "longest queue 2.1 vehicles after step 2" in line(summary.summary_lines(s, s.run()), "ramp 2")


def test_numbers_have_their_words(free):
    one = free(20, 20 / 3600, 1)
    assert summary.summary_lines(one, one.run())[1] == "  1 cell, 1 step of 20 s (0.3 min), no metered on-ramp"


def test_cells_steps_and_ramps(examples):
    s = load(examples / "studies/five-cells.toml")
    assert summary.summary_lines(s, s.run())[1] == "  5 cells, 225 steps of 20 s (75 min), 1 metered on-ramp"
    s = load(examples / "classroom.rec", 36)
    assert summary.summary_lines(s, s.run())[1].endswith("no metered on-ramp")


def test_the_promise_of_weights_is_that_of_records(examples):
    """The promise about weighted totals covers records; for a study beyond one record nothing is promised about its total."""
    s = load(examples / "exercise/weights.toml")
    run = s.run()
    assert "no schedule has a smaller one" in summary.weighted_lines(s, run)[0]
    from nobyaluk import LongRecord

    long = replace(run, record=LongRecord(run.record.road, run.record.start, run.record.rows))
    assert "no schedule has a smaller one" not in summary.weighted_lines(s, long)[0] and "nothing is proved" in summary.weighted_lines(s, long)[0]


def test_run_compare_and_sweep_name_the_same_queue(examples, tmp_path, capsys):
    path = str(examples / "studies/five-cells.toml")
    run = load(path).run()
    longest = f"{summary.gate_waiting(run).max() / 1000:,.1f}"
    assert main(["run", path]) == 0 and f"longest queue {longest} vehicles" in capsys.readouterr().out
    assert main(["compare", path]) == 0
    heading, row = capsys.readouterr().out.splitlines()
    assert "of it arriving" in heading and f" {longest} " in row and " 21.67 " in row
    assert main(["sweep", path, "--load", "1:1:1"]) == 0
    assert float(capsys.readouterr().out.splitlines()[1].split(",")[5]) == summary.gate_waiting(run).max() / 1000


def test_names_are_whole_and_on_one_line(road):
    """A long ramp's name is not cut, and no control character of a name or title reaches the terminal."""
    name = "Anschlussstelle München-Nord"
    s = replace(load(road('"Mill Street"', f'"{name}"')), title="\x1b[2J\nFive cells, meters open")
    lines = summary.summary_lines(s, s.run())
    assert lines[0] == "[2J Five cells, meters open" and any(x.startswith(f"      ramp {name}      0.00 ") for x in lines), lines
    assert all(c.isprintable() for c in "".join(lines))
