"""From one form to another: what a record does not hold goes into a study next to it, and nothing is lost or replaced silently."""
import csv
import io
import shutil
import tomllib

import numpy as np
import pytest
import text_form as text
from nobyaluk import Refused, Study, StudyError, engine, load, template
from nobyaluk.cli import main


@pytest.fixture
def told(capsys):
    def run(*words):
        try:
            status = main([str(x) for x in words])
        except SystemExit as e:
            status = e.code
        out = capsys.readouterr()
        return status, out.out, out.err

    return run


FULL = """
title = 'A "road", \\ and more'
step = 20
start = "07:00:20"
steps = 120
[gate]
capacity = 4400
queue = 3
[defaults]
length = 0.51
speed = 90
jam = 250
capacity = 4400
lanes = 3
[[cell]]
name = 'by the "bridge"'
[[cell]]
ramp = "North, upper"
queue = 2.5
[[cell]]
split = 0.9
[[cell]]
ramp = "South \\"B\\""
density = 20
[[cell]]
capacity = 4000
ramp = "5"
lanes = 2
[arrivals]
time = ["07:00", "07:10", "07:30"]
gate = [3000, 3600, 2000]
"North, upper" = [300, 600, 200]
'South "B"' = [400, 700, 100]
5 = 0
[weights]
gate = 3
road = [3, 3, 2, 2, 1]
ramps = { 'South "B"' = 7 }
[[closure]]
cell = 5
lanes = 1
from = 30
to = 60
[[closure]]
cell = 2
lanes = 3
from = 60
to = 62
[[closure]]
cell = 5
lanes = 2
from = 60
to = 61
"""
METERS = {
    "laws": '[meter.all]\nlaw = "alinea"\ngain_kmh = 21\n[meter."North, upper"]\nlaw = "demand-capacity"\nleast = 333\n[meter.5]\nlaw = "open"\n',
    "fixed": '[meter.all]\nlaw = "fixed"\nrate = 431\n',
    "a plan": "[releases]\nstep = [0, 20]\n5 = 0\n'South \"B\"' = [450, 300]\n\"North, upper\" = [450, 500]\n",
    "a plan and laws": "[releases]\nstep = [0, 20]\n5 = 0\n'South \"B\"' = [450, 300]\n[meter.\"North, upper\"]\nlaw = \"alinea\"\ngain = 0.3\n",
    "exact": "[releases]\nstep = [0, 20, 60, 62]\n5 = 0\n'South \"B\"' = [200, 300, 300, 300]\n\"North, upper\" = [180, 270, 0, 270]\ncap = false\n",
    "exact and laws": "[releases]\nstep = [0, 20]\n5 = 0\n'South \"B\"' = [200, 300]\ncap = false\n[meter.\"North, upper\"]\nlaw = \"alinea\"\ngain = 0.3\n",
}


def bits(s):
    return [x.bit_count() for x in s.lanes]


def same_study(a: Study, b: Study) -> None:
    """Everything in a study, and its run."""
    for name in ("title", "seconds", "start", "lengths", "cell_names", "ramps", "laws", "weights", "built"):
        assert getattr(a, name) == getattr(b, name), name
    assert bits(a) == bits(b) and (a.plan is None) == (b.plan is None) and (a.plan is None or (a.plan == b.plan).all())
    same_runs(a, b)


def same_runs(a: Study, b: Study) -> None:
    x, y = a.run(), b.run()
    assert (x.total, x.gate, x.road, x.ramp, x.exits, x.weighted) == (y.total, y.gate, y.road, y.ramp, y.exits, y.weighted)
    assert (x.record.rows == y.record.rows).all() and (x.outflow == y.outflow).all()


@pytest.mark.parametrize("meters", METERS)
def test_nothing_is_lost(told, tmp_path, meters):
    (tmp_path / "a.toml").write_text(FULL + METERS[meters])
    a = load(tmp_path / "a.toml")
    (tmp_path / "out").mkdir()
    status, out, err = told("convert", tmp_path / "a.toml", tmp_path / "out/b.rec")
    assert (status, err) == (0, "") and f"{tmp_path}/out/b.toml" in out
    same_study(a, load(tmp_path / "out/b.toml"))
    assert tomllib.loads((tmp_path / "out/b.toml").read_text())["record"] == "b.rec"
    assert (load(tmp_path / "out/b.rec").record.rows == a.run().record.rows).all()
    status, out, err = told("convert", tmp_path / "a.toml", tmp_path / "out/c.toml")
    assert (status, err) == (0, "")
    same_study(a, load(tmp_path / "out/c.toml"))
    same_study(a, load(tmp_path / "out/b.toml"))
    assert told("convert", tmp_path / "out/c.toml", tmp_path / "out/d.toml")[0] == 0
    same_study(a, load(tmp_path / "out/d.toml"))
    assert told("convert", tmp_path / "out/b.toml", tmp_path / "out/e.toml")[0] == 0
    same_study(a, load(tmp_path / "out/e.toml"))
    if a.laws:
        assert told("fill", tmp_path / "a.toml", "-o", tmp_path / "out/f.rec")[0] == 0
        assert (tmp_path / "out/f.rec").read_bytes() == (tmp_path / "out/b.rec").read_bytes()
        same_study(a, load(tmp_path / "out/f.toml"))


def test_every_example_is_kept(examples, told, tmp_path):
    for path in [*(examples / "studies").glob("*.toml"), *(examples / "exercise").glob("*.toml"), examples / "street/south.toml", examples / "detectors/counts.toml"]:
        assert told("convert", path, tmp_path / f"{path.stem}.rec")[0] == told("convert", path, tmp_path / f"{path.stem}-own.toml")[0] == 0
        for name in (f"{path.stem}.toml", f"{path.stem}-own.toml"):
            same_study(load(path), load(tmp_path / name))


def test_a_study_that_goes_on_and_a_long_one(examples, told, tmp_path):
    """The state that `after` gives is in the numbers; a study beyond a record keeps all as TOML, and as a record is refused."""
    shutil.copy(examples / "studies/five-cells.toml", tmp_path / "first.toml")
    (tmp_path / "then.toml").write_text('base = "first.toml"\nafter = "first.toml"\nstart = "08:15"\n[arrivals]\ntime = ["08:15"]\ngate = [900]\n"Mill Street" = 0\n')
    assert told("convert", tmp_path / "then.toml", tmp_path / "t.rec")[0] == told("convert", tmp_path / "then.toml", tmp_path / "u.toml")[0] == 0
    for name in ("t", "u"):
        same_study(load(tmp_path / "then.toml"), load(tmp_path / f"{name}.toml"))
    (tmp_path / "long.toml").write_text(f'base = "{examples}/studies/rocade-sud-works.toml"\nsteps = 1440\n')
    assert told("convert", tmp_path / "long.toml", tmp_path / "l.toml")[0] == 0
    same_study(load(tmp_path / "long.toml"), load(tmp_path / "l.toml"))
    status, _, err = told("convert", tmp_path / "long.toml", tmp_path / "m.rec")
    assert status == 2 and "leave room for 377 steps" in err and not (tmp_path / "m.rec").exists() and not (tmp_path / "m.toml").exists()


def test_the_source_keeps_what_the_record_does_not(examples, told, tmp_path):
    """`convert road.toml road.rec`: the study next to the record is the source itself."""
    path = tmp_path / "road.toml"
    path.write_text(FULL + METERS["laws"])
    before = path.read_text()
    status, out, err = told("convert", path, tmp_path / "road.rec")
    assert (status, err) == (0, "") and path.read_text() == before and f"{path} keeps" in out
    for word in ("names", "lengths", "clock time", "works", "meter laws", "weights"):
        assert word in out, word
    status, out, err = told("fill", path, "-o", tmp_path / "road.rec")
    assert status == 0 and path.read_text() == before


def test_a_file_that_nobody_named_is_not_replaced(examples, told, tmp_path):
    path = tmp_path / "a.toml"
    path.write_text(FULL + METERS["laws"])
    (tmp_path / "b.toml").write_text("mine\n")
    status, out, err = told("convert", path, tmp_path / "b.rec")
    assert status == 2 and f"{tmp_path}/b.toml" in err and "--force" in err and not (tmp_path / "b.rec").exists() and (tmp_path / "b.toml").read_text() == "mine\n"
    assert told("fill", path, "-o", tmp_path / "b.rec")[0] == 2 and not (tmp_path / "b.rec").exists()
    assert told("convert", path, tmp_path / "b.rec", "--force")[0] == 0 and load(tmp_path / "b.toml").ramps
    assert told("convert", path, tmp_path / "b.rec")[0] == 0  # the same again
    (tmp_path / "c-arrivals.csv").write_text("mine\n")
    status, out, err = told("convert", examples / "printed-run.rec", tmp_path / "c.toml", "--seconds", 20)
    assert status == 2 and "c-arrivals.csv" in err and not (tmp_path / "c.toml").exists() and (tmp_path / "c-arrivals.csv").read_text() == "mine\n"


def test_seconds_are_not_made_up(examples, told, tmp_path):
    status, _, err = told("convert", examples / "printed-run.rec", tmp_path / "a.toml")
    assert status == 2 and "--seconds" in err and not (tmp_path / "a.toml").exists()
    for seconds in ("0.5", "901", "20.5"):
        status, _, err = told("convert", examples / "printed-run.rec", tmp_path / "a.toml", "--seconds", seconds)
        assert status == 2 and "whole" in err and not (tmp_path / "a.toml").exists()
    assert told("convert", examples / "printed-run.rec", tmp_path / "a.toml", "--seconds", 20)[0] == 0
    same_runs(load(examples / "printed-run.rec"), load(tmp_path / "a.toml"))


def test_seconds_that_a_record_does_not_hold_are_beside_it(examples, told, tmp_path):
    assert told("convert", examples / "printed-run.rec", tmp_path / "a.rec") == (0, "", "") and [x.name for x in tmp_path.iterdir()] == ["a.rec"]
    status, out, _ = told("convert", examples / "printed-run.rec", tmp_path / "b.rec", "--seconds", 20)
    assert status == 0 and out == f"{tmp_path}/b.toml: a step's seconds, which a record does not hold\n" and load(tmp_path / "b.toml").seconds == 20
    assert (tmp_path / "b.rec").read_bytes() == (examples / "printed-run.rec").read_bytes()


@pytest.mark.parametrize("name", ['a"b', "a\nversion = 1\nb", "a\\b", "=a", "ä ☃", "a'b", "[x]", "#"])
def test_names_of_files_are_escaped(examples, told, tmp_path, name):
    shutil.copy(examples / "printed-run.rec", tmp_path / f"{name}.rec")
    assert told("convert", tmp_path / f"{name}.rec", tmp_path / f"{name}-x.toml", "--seconds", 20)[0] == 0
    same_runs(load(tmp_path / f"{name}.rec"), load(tmp_path / f"{name}-x.toml"))
    assert load(tmp_path / f"{name}-x.toml").record.road.version == 1
    assert told("convert", tmp_path / f"{name}-x.toml", tmp_path / f"{name}-y.rec")[0] == 0
    assert (tmp_path / f"{name}-y.rec").read_bytes() == (examples / "printed-run.rec").read_bytes()


def test_names_in_tables_are_quoted(told, tmp_path):
    (tmp_path / "a.toml").write_text(FULL + METERS["exact"])
    assert told("convert", tmp_path / "a.toml", tmp_path / "b.toml")[0] == 0
    heading = next(csv.reader(io.StringIO((tmp_path / "b-arrivals.csv").read_text())))
    assert heading == ["step", "gate", "North, upper", 'South "B"', "5"]
    (tmp_path / "c.toml").write_text((FULL + METERS["exact"]).replace("North, upper", "=1+1"))
    assert told("convert", tmp_path / "c.toml", tmp_path / "d.toml")[0] == 0
    assert next(csv.reader(io.StringIO((tmp_path / "d-releases.csv").read_text()))) == ["step", "'=1+1", 'South "B"', "5"]
    same_study(load(tmp_path / "c.toml"), load(tmp_path / "d.toml"))


# Filling.


def test_fill_keeps_laws_and_works_beside_a_record(examples, told, tmp_path):
    """The laws by which a record is filled, and the table of lanes, are not in it: a study next to it keeps both, and fills it again."""
    lanes, laws = examples / "rocade-sud-works.lanes.txt", examples / "rocade-sud-alinea.laws.txt"
    works = "".join(f"[[cell]]\nlanes = {3 if i == 19 else 1}\n" for i in range(1, 22)) + "[[closure]]\ncell = 19\nlanes = 1\nfrom = 0\nto = 90\n"
    for more in ("", "step = 20\n", "step = 20\n" + works):
        (tmp_path / "given.toml").write_text(f'record = "{examples}/rocade-sud.rec"\n{more}{text.laws_toml(laws)}')
        status, out, _ = told("fill", tmp_path / "given.toml", "-o", tmp_path / "f.rec", "--force")
        assert status == 0 and f"{tmp_path}/f.toml" in out and "meter laws" in out and ("works and" in out) is (works in more)
        s = load(tmp_path / "f.toml")
        assert s.laws == text.laws_of(laws.read_text()) and s.seconds == (20 if more else None)
        table = load(tmp_path / "given.toml").lanes
        assert [x.bit_count() for x in table[19 - 1 :: 21]] == ([x.bit_count() for x in text.lanes_of(lanes.read_text())[19 - 1 :: 21]] if works in more else [])
        filled = engine.fill(load(examples / "rocade-sud.rec").record, s.laws, table)
        assert s.run().record.data == filled.record.data == (tmp_path / "f.rec").read_bytes() and s.run().total == filled.total
        assert bits(s) == [x.bit_count() for x in table]


def test_a_law_in_veh_h_needs_a_steps_seconds(examples, tmp_path):
    """A record of version 1 has none; laws and tables in the engine's own numbers need none."""
    (tmp_path / "r.rec").write_bytes((examples / "printed-run.rec").read_bytes())
    for more, works in (('[meter.2]\nlaw = "fixed"\nparts = { rate = 300 }\n', True), ('[meter.2]\nlaw = "open"\n', True), ('[meter.2]\nlaw = "fixed"\nrate = 300\n', False),
                        ('[releases]\nstep = [0]\nunit = "parts"\n2 = [300]\n', True), ('[releases]\nstep = [0]\n2 = [300]\n', False), ('meter = 3\n', False)):
        (tmp_path / "a.toml").write_text('record = "r.rec"\n' + more)
        if works:
            assert load(tmp_path / "a.toml").run().total > 0
        else:
            with pytest.raises(StudyError, match="`step` is missing"):
                load(tmp_path / "a.toml")


# Saving.


@pytest.mark.parametrize("meters", METERS)
def test_a_saved_study_is_the_same(tmp_path, meters):
    (tmp_path / "a.toml").write_text(FULL + METERS[meters])
    a = load(tmp_path / "a.toml")
    assert a.save(tmp_path / "b.toml") == tmp_path / "b.toml" and sorted(x.name for x in tmp_path.iterdir()) == ["a.toml", "b.toml"]
    b = load(tmp_path / "b.toml")
    same_study(a, b)
    assert a == b and a.record.data == b.record.data and a.lanes == b.lanes
    b.save(str(tmp_path / "c.toml"))
    assert (tmp_path / "c.toml").read_text() == (tmp_path / "b.toml").read_text()


def test_every_example_is_saved(examples, tmp_path):
    """Also of records, and of those that no record holds; notes are kept as comments."""
    for path in [*(examples / "studies").glob("*.toml"), *(examples / "detectors").glob("*.toml"), examples / "rocade-sud-seconds.rec", examples / "street/south.toml"]:
        a = load(path)
        b = load(a.save(tmp_path / "b.toml"))
        same_study(a, b)
        assert all(f"# {x}" in (tmp_path / "b.toml").read_text() for x in a.notes)
    (tmp_path / "long.toml").write_text(f'base = "{examples}/studies/rocade-sud-works.toml"\nsteps = 1440\n')
    long = load(tmp_path / "long.toml")
    same_study(long, load(long.save(tmp_path / "b.toml")))
    same_study(long.scaled(0.5), load(long.scaled(0.5).save(tmp_path / "b.toml")))
    empty = load(examples / "studies/five-cells.toml").scaled(0)
    same_study(empty, load(empty.save(tmp_path / "b.toml")))


def test_what_is_not_saved(examples, tmp_path):
    s = load(examples / "printed-run.rec")
    with pytest.raises(StudyError, match=r"the record has no step's seconds, which a study needs: add --seconds N, or load\(path, seconds=N\)"):
        s.save(tmp_path / "a.toml")
    with pytest.raises(StudyError, match=r"a.rec: a study is saved as .toml"):
        s.save(tmp_path / "a.rec")
    assert not list(tmp_path.iterdir())
    same_runs(s, load(load(examples / "printed-run.rec", 20).save(tmp_path / "a.toml")))


# Joining.

HALF = """
step = 20
{start}
steps = 60
[gate]
capacity = 4400
[defaults]
length = {length}
speed = 90
jam = 250
capacity = 4400
lanes = 2
[[cell]]
name = "{name}"
[[cell]]
ramp = "{ramp}"
[[cell]]
[arrivals]
step = [0]
gate = {gate}
"{ramp}" = [300]
"""
ALINEA = '[meter.all]\nlaw = "alinea"\ngain_kmh = 21\n'


def halves(tmp_path, up="", down="", ramps=("North", "South"), start=('start = "07:00"', 'start = "07:00"')):
    (tmp_path / "up.toml").write_text(HALF.format(start=start[0], length=0.5, name="bridge", ramp=ramps[0], gate="[3000]") + up)
    (tmp_path / "down.toml").write_text(HALF.format(start=start[1], length=0.6, name="hill", ramp=ramps[1], gate="0") + down)
    return tmp_path / "up.toml", tmp_path / "down.toml"


def test_a_joined_road_keeps_names_and_laws(told, tmp_path):
    works = "[[closure]]\ncell = 3\nlanes = 1\nfrom = 20\nto = 30\n[weights]\ngate = 3\nroad = 2\n"
    up, down = halves(tmp_path, ALINEA, '[meter.all]\nlaw = "open"\n' + works)
    status, out, err = told("join", up, down, "--share", 900, "-o", tmp_path / "w.rec")
    assert (status, err) == (0, "") and f"{tmp_path}/w.toml" in out
    s, a, b = load(tmp_path / "w.toml"), load(up), load(down)
    assert s.cell_names == ["bridge", "2", "3", "hill", "5", "6"] and s.ramps == {"North": 2, "South": 5} and s.start == 25200
    assert s.lengths == [0.5] * 3 + [0.6] * 3 and s.laws == {2: a.laws[2], 5: b.laws[2]}
    assert s.weights == ([1, 1, 1, 1, 2, 2, 2], [1] * 6)
    table = np.frombuffer(s.lanes, np.uint8).reshape(-1, 6)
    assert (table[:, :3] == 3).all() and table[1 + 20 : 1 + 30, 5].tolist() == [1] * 10 and table[1, 5] == 3
    assert s.run().total > 0 and s.run().record.road.share[2] == 900


def test_two_studies_joined_in_python(told, tmp_path):
    """The study of `join -o FILE.toml`, of `join -o FILE.rec` and of Study.join is one: names, km, clock, works, laws and weights."""
    works = "[[closure]]\ncell = 3\nlanes = 1\nfrom = 20\nto = 30\n[weights]\ngate = 3\nroad = 2\n"
    up, down = halves(tmp_path, ALINEA, '[meter.all]\nlaw = "open"\n' + works)
    whole = load(up).join(load(down), 900)
    status, out, err = told("join", up, down, "--share", "0.9", "-o", tmp_path / "t.toml")
    assert (status, out, err) == (0, f"{tmp_path}/t.toml: 6 cells, 3 and 3; 60 steps\n", "") and not (tmp_path / "t.rec").exists()
    assert told("join", up, down, "--share", 900, "-o", tmp_path / "w.rec")[0] == 0
    for name in ("t.toml", "w.toml"):
        same_study(whole, load(tmp_path / name))
    same_study(whole, load(whole.save(tmp_path / "s.toml")))
    assert whole == load(tmp_path / "s.toml") == load(tmp_path / "t.toml") == load(tmp_path / "w.toml") != load(up).join(load(down), 800)
    assert whole.title == "up and down" and whole.lengths == [0.5] * 3 + [0.6] * 3 and whole.when(0) == "step 0, 07:00:00" and whole.run().weighted > whole.run().total
    assert [x.cell for x in whole.rounding if x.cell > 3] and len(whole.rounding) == len(load(up).rounding) + len([x for x in load(down).rounding if x.cell])
    assert (whole.run().outflow[:, :4].sum() > 0) and whole.place(5) == "cell 5" and whole.place(4) == "cell 4 (hill)"
    with pytest.raises(Refused) as caught:
        load(up).join(load(up), 900)
    assert caught.value.number == 21
    status, _, err = told("join", up, up, "--share", 900, "-o", tmp_path / "x.toml")
    assert status == 1 and "refused 21" in err and "`gate = 0` in its [arrivals]" in err and not (tmp_path / "x.toml").exists()


def test_a_share_as_people_write_it(told, tmp_path):
    up, down = halves(tmp_path, ALINEA, ALINEA)
    for share, want in (("0.9", 900), ("0,9", 900), ("900", 900), ("1.0", 1000), ("0.001", 1), ("0", 0), ("1000", 1000), ("0.0", 0)):
        assert told("join", up, down, "--share", share, "-o", tmp_path / "t.toml", "--force")[0] == 0
        assert load(tmp_path / "t.toml").record.road.share[2] == want
    for share, says in (("1", "write 1000 or 1.0"), ("1.5", "0 to 1,000"), ("0.9005", "0 to 1,000"), ("1001", "0 to 1,000"), ("x", "0 to 1,000"), ("-1", "0 to 1,000"), ("90%", "0 to 1,000")):
        status, _, err = told("join", up, down, f"--share={share}", "-o", tmp_path / "u.toml")
        assert status == 2 and says in err and not (tmp_path / "u.toml").exists(), share


def test_lengths_of_one_road_alone(examples, told, tmp_path):
    """They are in the file, and nothing is shown in km until the other road has some too."""
    up, down = halves(tmp_path, ALINEA, '[meter.all]\nlaw = "open"\n')
    parts = "parts = { v = 700, w = 250, b = 1000, J = 150000, C = 24444 }"
    bare = (down.read_text().partition("[defaults]")[0] + f'[[cell]]\n{parts}\n[[cell]]\nramp = "South"\n{parts}\n[[cell]]\n{parts.replace("b = 1000", "b = 0")}\n'
            + down.read_text()[down.read_text().index("[arrivals]") :])
    down.write_text(bare)
    whole = load(up).join(load(down), 900)
    assert whole.lengths is None and "down has no lengths, so nothing is shown in km" in whole.notes
    assert told("join", up, down, "--share", 900, "-o", tmp_path / "t.toml")[0] == 0 and (tmp_path / "t.toml").read_text().count("length = 0.5") == 3
    assert load(tmp_path / "t.toml").run().total == whole.run().total


def test_joined_ramps_of_one_name(told, tmp_path):
    up, down = halves(tmp_path, ALINEA, ALINEA, ramps=("Mill Street", "Mill Street"))
    assert told("join", up, down, "--share", 900, "-o", tmp_path / "w.rec")[0] == 0
    assert load(tmp_path / "w.toml").ramps == {"Mill Street (cell 2)": 2, "Mill Street (cell 5)": 5}


def test_a_plan_that_a_joined_road_loses_is_named(told, tmp_path):
    up, down = halves(tmp_path, "[releases]\nstep = [0]\nNorth = [200]\n", "[releases]\nstep = [0]\nSouth = [100]\ncap = false\n")
    status, out, err = told("join", up, down, "--share", 900, "-o", tmp_path / "w.rec")
    assert status == 0 and "the plan of up is not kept, since another ramp has exact releases; this one has the releases of its own run" in out
    up, down = halves(tmp_path, "[releases]\nstep = [0]\nNorth = [200]\n", "[releases]\nstep = [0]\nSouth = [100]\n")
    status, out, err = told("join", up, down, "--share", 900, "-o", tmp_path / "v.rec")
    assert status == 0 and "not kept" not in out and load(tmp_path / "v.toml").plan is not None


def test_clocks_that_differ_are_not_joined(told, tmp_path):
    up, down = halves(tmp_path, ALINEA, ALINEA, start=('start = "07:00"', 'start = "08:00"'))
    status, _, err = told("join", up, down, "--share", 900, "-o", tmp_path / "w.rec")
    assert status == 2 and "07:00" in err and "08:00" in err and not (tmp_path / "w.rec").exists()
    up, down = halves(tmp_path, ALINEA, ALINEA, start=("", 'start = "08:00"'))
    assert told("join", up, down, "--share", 900, "-o", tmp_path / "w.rec")[0] == 0 and load(tmp_path / "w.toml").start == 28800


# A street.


def test_a_streets_roads_are_all_kept(examples, told, tmp_path):
    for folder in ("north", "south"):
        (tmp_path / folder).mkdir()
        (tmp_path / folder / "road.toml").write_text((examples / "studies/five-cells.toml").read_text())
    ramp = '[[ramp]]\nstudy = "{}"\nramp = "Mill Street"\nguarantee = 300\n'
    (tmp_path / "street.toml").write_text("limit = 1260\n" + ramp.format("north/road.toml") + ramp.format("south/road.toml"))
    status, out, err = told("street", tmp_path / "street.toml", "-o", tmp_path / "made")
    assert (status, err) == (0, "")
    assert sorted(x.name for x in (tmp_path / "made").iterdir()) == ["north-road.rec", "north-road.toml", "south-road.rec", "south-road.toml"]
    north, south = (load(tmp_path / f"made/{x}-road.toml") for x in ("north", "south"))
    assert north.ramps == {"Mill Street": 4} and north.lengths == [0.5] * 5 and not north.laws and north.start == 25200
    together = north.record.rows[:, 8].astype(int) + south.record.rows[:, 8]
    assert together.max() == 7000 and south.run().queue.max() > 0
    for line in out.splitlines():
        assert "road, ramp" not in line or "north-road" in line or "south-road" in line


def test_a_streets_long_roads_are_written_as_toml(examples, told, tmp_path):
    for name in ("north", "south"):
        (tmp_path / f"{name}.toml").write_text(f'base = "{examples}/studies/rocade-sud-works.toml"\nsteps = 400\n')
    ramp = '[[ramp]]\nstudy = "{}.toml"\nramp = "7"\nguarantee = 200\n'
    (tmp_path / "street.toml").write_text("limit = 900\n" + ramp.format("north") + ramp.format("south"))
    status, out, err = told("street", tmp_path / "street.toml", "-o", tmp_path / "made")
    assert (status, err) == (0, "")
    north, south = (load(tmp_path / f"made/{x}.toml") for x in ("north", "south"))
    together = north.record.rows[:, 14].astype(int) + south.record.rows[:, 14]
    assert together.max() <= 5000 and north.run().total > 0 and bits(north) == bits(load(tmp_path / "north.toml"))


def test_the_template_follows_the_rules(told, tmp_path):
    assert told("new", tmp_path / "road")[0] == 0
    s = load(tmp_path / "road/road.toml")
    assert s.run().total > 0 and not s.notes
    assert "nothing here means" not in template.TEMPLATE


def test_a_title_that_can_be_printed(examples, tmp_path):
    shutil.copy(examples / "studies/five-cells.toml", tmp_path / "a.toml")
    text = (tmp_path / "a.toml").read_text()
    (tmp_path / "a.toml").write_text(text.replace('"Five cells, meters open"', '"two\\nlines"'))
    with pytest.raises(StudyError, match="`title`"):
        load(tmp_path / "a.toml")
