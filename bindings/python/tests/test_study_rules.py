"""Study files leave nothing out silently: every entry has arrivals, every ramp a law or a table, every name exists, and no input ends in a traceback."""
import re

import numpy as np
import pytest
from nobyaluk import Refused, StudyError, engine, toml_reader, load, street, tables
from nobyaluk.cli import main
from nobyaluk.variants import Variants

TWO = """
step = 20
start = "07:00"
steps = 120
[gate]
capacity = 4400
[defaults]
length = 0.5
speed = 90
jam = 250
capacity = 4400
lanes = 2
[[cell]]
[[cell]]
ramp = "North"
[[cell]]
split = 0.9
[[cell]]
ramp = "South"
[[cell]]
capacity = 4000
"""
LISTS = """
[arrivals]
time = ["07:00", "07:10", "07:30"]
gate = [3000, 3600, 2000]
North = [300, 600, 200]
South = [400, 700, 100]
"""
OPEN = '[meter.all]\nlaw = "open"\n'


@pytest.fixture
def write(tmp_path):
    """write(text, ..): a study of two ramps with these tables; gives its path."""

    def written(*tables, name="road.toml", road=TWO, **csv):
        for stem, text in csv.items():
            (tmp_path / f"{stem}.csv").write_bytes(text.encode() if isinstance(text, str) else text)
        (tmp_path / name).write_text(road + "\n".join(tables))
        return tmp_path / name

    return written


def fault(path, *parts):
    """A faulty study: the message names the folder and has all of these words."""
    with pytest.raises(StudyError) as caught:
        load(path)
    said = str(caught.value)
    assert str(path.parent) in said
    for part in parts:
        assert part in said, said
    return said


# Arrivals: every entry has some, or says 0.

WIDE = "time,gate,North,South\n07:00,3000,300,400\n07:10,3600,600,700\n07:30,2000,200,100\n"
ROWS = [("07:00", (3000, 300, 400)), ("07:10", (3600, 600, 700)), ("07:30", (2000, 200, 100))]


def detectors(names):
    return "time,detector,flow\n" + "".join(f"{t},{name},{x}\n" for t, xs in ROWS for name, x in zip(names, xs))


FILE = '[arrivals]\nfile = "a.csv"\n'


def test_an_entry_without_arrivals_is_a_fault(write):
    said = fault(write(LISTS.replace("South = ", "# "), OPEN), "South", "[arrivals]")
    assert "`South = 0`" in said
    fault(write(LISTS.replace("gate = ", "# "), OPEN), "gate = 0")
    fault(write(FILE, OPEN, a=WIDE.replace("South", "Sout")), "column 'Sout'", "did you mean 'South'?")
    fault(write(FILE, OPEN, a="time,gate,North\n07:00,1,1\n"), "a.csv", "South")
    fault(write(FILE, OPEN, a="time,North,South\n07:00,1,1\n"), "a.csv", "gate")
    fault(write(FILE, OPEN, a=detectors(["gate", "North", "South"]).replace("07:00,South,400\n", "").replace("07:10,South,700\n", "").replace("07:30,South,100\n", "")), "South")


def test_every_name_in_columns_exists(write):
    """A detector that the file does not have, as A9-001 for A9-0001, emptied the road."""
    columns = 'columns = { "A9-001" = "gate", D2 = "North", D3 = "South" }\n'
    fault(write(FILE, columns, OPEN, a=detectors(["A9-0001", "D2", "D3"])), "columns", "`A9-001`", "did you mean 'A9-0001'?")
    fault(write(FILE, 'columns = { Gate = "gate" }\n', OPEN, a=WIDE), "`Gate`", "did you mean 'gate'?")
    fault(write(FILE, 'columns = { D1 = "gate", D2 = "Nord", D3 = "South" }\n', OPEN, a=detectors(["D1", "D2", "D3"])), "`D2` is 'Nord'", "did you mean 'North'?")
    said = fault(write(FILE, 'columns = { D1 = "gate", D2 = "North" }\n', OPEN, a=detectors(["D1", "D2", "Sout"])), "South")
    assert "'Sout'" in said
    right = write(FILE, 'columns = { D1 = "gate", D2 = "North", D3 = "South" }\n', OPEN, a=detectors(["D1", "D2", "D3"]) + "07:00,D9,5\n")
    assert (load(right).record.rows == load(write(LISTS, OPEN, name="lists.toml")).record.rows).all()


def test_nobody_arrives_is_said_by_0(write):
    want = load(write(LISTS.replace("[400, 700, 100]", "[0, 0, 0]"), OPEN)).record.rows
    for i, tables_ in enumerate([(LISTS.replace("[400, 700, 100]", "0"),), (FILE, "South = 0\n"), (FILE, 'South = 0.0\n', 'columns = { N = "North" }\n')]):
        text = "time,gate,North\n07:00,3000,300\n07:10,3600,600\n07:30,2000,200\n"
        path = write(*tables_, OPEN, name=f"zero{i}.toml", a=text.replace("North", "N") if i == 2 else text)
        assert (load(path).record.rows == want).all()
    none = load(write("[arrivals]\ngate = 0\nNorth = 0\nSouth = 0\n", OPEN, name="none.toml"))
    assert none.record.rows.sum() == 0 and none.record.steps == 120
    fault(write(FILE, "South = 0\n", OPEN, a=WIDE), "South", "0 and a column")
    fault(write(FILE, "South = 5\n", OPEN, a=WIDE), "`South` is 5", "0")
    fault(write(LISTS.replace("[400, 700, 100]", "5"), OPEN), "`South` is 5; it is a list as long as `time`, or 0")
    fault(write(FILE, "Sout = 0\n", OPEN, a=WIDE), "`Sout`", "did you mean 'South'?")
    fault(write(LISTS.replace("time = ", "# "), OPEN), "[arrivals]: the lists have no times")
    for bad in ("false", "''", "[]", "{}", "-0.5"):
        fault(write(LISTS.replace("[400, 700, 100]", bad), OPEN), "`South` is")


def test_a_column_may_be_left_out(write):
    text = WIDE.replace("South\n", "South,weather\n").replace("400\n", "400,rain\n").replace("700\n", "700,sun\n").replace("100\n", "100,\n")
    fault(write(FILE, OPEN, a=text), "column 'weather'", 'columns = { weather = "-" }')
    assert (load(write(FILE, 'columns = { weather = "-" }\n', OPEN, a=text)).record.rows == load(write(LISTS, OPEN, name="l.toml")).record.rows).all()


# Releases: each ramp is named exactly once.


def test_each_ramp_is_named_exactly_once(write):
    said = fault(write(LISTS), "North, South", "[meter.all]")
    assert "releases" in said
    fault(write(LISTS, '[meter.North]\nlaw = "open"\n'), "South")
    fault(write(LISTS, '[releases]\nstep = [0]\nNorth = [3]\n'), "South")
    fault(write(LISTS, '[releases]\nstep = [0]\nNorth = [3]\nSouth = 0\n', '[meter.South]\nlaw = "open"\n'), "South", "[releases] and [meter.South]")
    fault(write(LISTS, '[releases]\nstep = [0]\nNorth = [3]\nSouth = 0\n', OPEN), "[meter.all]", "no ramp is left")
    fault(write(LISTS, '[meter.North]\nlaw = "open"\n[meter.South]\nlaw = "open"\n', OPEN), "[meter.all]", "no ramp is left")
    fault(write(LISTS, '[meter.Nord]\nlaw = "open"\n', OPEN), "[meter.Nord]", "did you mean 'North'?")
    fault(write(LISTS, '[releases]\nstep = [0]\nNord = [3]\n', OPEN), "`Nord`", "did you mean 'North'?")
    fault(write(LISTS, '[releases]\nstep = [0]\ngate = [3]\n', OPEN), "`gate`")
    shut = load(write(LISTS, "[releases]\nNorth = 0\nSouth = 0\n"))
    assert shut.plan.sum() == 0 and shut.run().record.rows[:, 2::2].sum() == 0


def test_a_road_without_ramps_needs_neither(write):
    road = TWO.replace('ramp = "North"', "").replace('ramp = "South"', "")
    arrivals = '[arrivals]\nstep = [0]\ngate = [3000]\n'
    assert load(write(arrivals, road=road)).run().ramp == 0
    fault(write(arrivals, OPEN, road=road), "[meter.all]", "no ramp is left")


ALINEA = 'law = "alinea"\ngain_kmh = 21\ntarget = "critical"\n'


def test_a_table_at_one_ramp_and_a_law_at_another(write):
    """A plan at South that never binds is the open law there; one that does is kept to the part; ALINEA goes on at North."""
    both = load(write(LISTS, f"[meter.North]\n{ALINEA}", '[meter.South]\nlaw = "open"\n')).run()
    plan = load(write(LISTS, f"[meter.all]\n{ALINEA}", "[releases]\nstep = [0]\nSouth = [100000]\n", name="a.toml"))
    assert plan.laws.keys() == {2} and (plan.run().record.rows == both.record.rows).all() and plan.run().total == both.total
    fixed = load(write(LISTS, f"[meter.North]\n{ALINEA}", '[meter.South]\nlaw = "fixed"\nrate = 450\n', name="b.toml")).run()
    capped = load(write(LISTS, f"[meter.North]\n{ALINEA}", "[releases]\nstep = [0]\nSouth = [450]\n", name="c.toml")).run()
    assert (capped.record.rows == fixed.record.rows).all() and capped.queue[:, 4].max() > 0


def test_exact_releases_beside_laws(write):
    """With cap = false the table is kept to the part, and the first release that does not fit is refused 9 or 10 there."""
    law = f"[meter.North]\n{ALINEA}"
    s = load(write(LISTS, law, '[releases]\nstep = [0, 3, 40]\nSouth = [0, 1500, 2000]\nunit = "parts"\ncap = false\n'))
    r = s.run()
    assert r.record.rows[:, 8].tolist() == [0] * 3 + [1500] * 37 + [2000] * 80
    assert (r.record.rows == engine.run(r.record).record.rows).all() and engine.run(r.record).total == r.total
    north = r.record.rows[:, 4]
    assert len(np.unique(north)) > 3
    s = load(write(LISTS, law, '[releases]\nstep = [0, 50]\nSouth = [0, 900000]\nunit = "parts"\ncap = false\n'))
    with pytest.raises(Refused) as caught:
        s.run()
    assert (caught.value.number, caught.value.step, caught.value.place) == (9, 50, 4)
    jammed = TWO.replace('ramp = "South"', 'ramp = "South"\nheld = 125\nqueue = 40')
    with pytest.raises(Refused) as caught:
        load(write(LISTS, law, '[releases]\nstep = [0]\nSouth = [5000]\nunit = "parts"\ncap = false\n', road=jammed)).run()
    assert (caught.value.number, caught.value.step, caught.value.place) == (10, 0, 4)


def test_works_weights_and_length_with_a_table_beside_laws(write):
    """The same study as one record and step by step beyond one: the first steps agree, and weights and works count in both."""
    more = "[weights]\ngate = 3\n[[closure]]\ncell = 5\nlanes = 1\nfrom = 30\nto = 60\n"
    tables_ = (LISTS, f"[meter.North]\n{ALINEA}", "[releases]\nstep = [0, 20]\nSouth = [450, 300]\n", more)
    road = TWO + "[[cell]]\n" * 12
    short, long = load(write(*tables_, road=road)), load(write(*tables_, name="long.toml", road=road.replace("steps = 120", "steps = 1440")))
    assert isinstance(short.record, engine.Record) and not isinstance(long.record, engine.Record)
    a, b = short.run(), long.run()
    assert (a.outflow == b.outflow[:120]).all() and (a.record.rows == b.record.rows[:120]).all()
    assert a.weighted == a.total + 2 * a.gate and b.weighted == b.total + 2 * b.gate
    assert a.outflow[30:60, 5].max() < a.outflow[:, 5].max()


# A study next to a record.


def test_a_study_beside_a_record(write, tmp_path):
    whole = load(write(LISTS, f"[meter.all]\n{ALINEA}"))
    (tmp_path / "r.rec").write_bytes(whole.run().record.data)
    cells = "[[cell]]\n[[cell]]\nramp = 'North'\n[[cell]]\n[[cell]]\nramp = 'South'\nlanes = 2\n[[cell]]\n"
    s = load(write('record = "r.rec"\n' + cells, road=""))
    assert s.ramps == whole.ramps and s.run().total == whole.run().total and s.lengths is None and not s.notes
    assert list(load(write('record = "r.rec"\n', road="")).ramps) == ["2", "4"]
    law = load(write(f'record = "r.rec"\n{cells}[meter.North]\nlaw = "open"\n', road=""))
    assert law.laws.keys() == {2} and (law.run().record.rows[:, 8] == whole.run().record.rows[:, 8]).all()  # South as in the record
    exact = load(write(f'record = "r.rec"\n{cells}[releases]\nNorth = 0\ncap = false\n', road="")).run()
    assert exact.record.rows[:, 4].sum() == 0 and (exact.record.rows[:, 8] == whole.run().record.rows[:, 8]).all()
    fault(write(f'record = "r.rec"\n{cells}[releases]\nNorth = 0\n', road=""), "South")  # a plan shuts no ramp silently
    for more, says in (("steps = 3\n", "`steps`"), ("[arrivals]\ngate = 0\n", "`arrivals`"), ("step = 30\n", "steps of 20 s"), ("[[cell]]\n", "1 times"), ("[gate]\ncapacity = 1\n", "`gate`")):
        fault(write('record = "r.rec"\n' + more, road=""), says)
    fault(write('record = "r.rec"\n' + cells.replace("lanes = 2", "speed = 2"), road=""), "cell 4: `speed`", "`record`")
    fault(write('record = "r.rec"\n' + cells.replace("[[cell]]\n[[cell]]\nramp", "[[cell]]\nramp = 'x'\n[[cell]]\nramp"), road=""), "cell 1: `ramp`", "no ramp there")
    fault(write('record = "road.toml"\n', road=""), "`record`", "refused")
    (tmp_path / "v.toml").write_text('base = "b.toml"\ntitle = "v"\n')
    write('record = "r.rec"\n', road="", name="b.toml")
    assert load(tmp_path / "v.toml").title == "v"


def test_lengths_of_some_cells_are_noted(write):
    parts = "parts = { v = 500, w = 250, b = 0, J = 80000, C = 20000 }"
    s = load(write(LISTS, OPEN, road=TWO.replace("length = 0.5\n", "").replace("[[cell]]", "[[cell]]\nlength = 0.5").replace("length = 0.5\ncapacity = 4000", parts)))
    assert s.lengths is None and any("cell 5 has no `length`" in x for x in s.notes)


def test_held_takes_the_place_of_a_default_density(write):
    s = load(write(LISTS, OPEN, road=TWO.replace("lanes = 2", "lanes = 2\ndensity = 20").replace("split = 0.9", "split = 0.9\nheld = 3")))
    assert s.record.start.held[:5] == [10000, 10000, 3000, 10000, 10000]


def test_the_documents_studies(write, tmp_path, root):
    """The snippets of STUDIES.md and PLANNING.md are studies that load."""
    blocks = re.findall(r"^```toml\n(.*?)^```$", (root / "docs/STUDIES.md").read_text(), re.M | re.S)
    first = load(write(blocks[0], road="", arrivals="time,gate,Mill Street\n07:00,3000,300\n"))
    assert first.run().total > 0 and first.n == 4
    beside = next(x for x in blocks if x.startswith("record ="))
    road = TWO.partition("[[cell]]")[0] + '[[cell]]\n[[cell]]\nramp = "a"\n'
    (tmp_path / "road.rec").write_bytes(load(write('[arrivals]\ngate = 0\na = 0\n', OPEN, road=road, name="a.toml")).run().record.data)
    assert load(write(beside, road="")).ramps == {"Mill Street": 2}
    blocks = re.findall(r"^```toml\n(.*?)^```$", (root / "docs/PLANNING.md").read_text(), re.M | re.S)
    assert (root / "examples/studies/rocade-sud-ceiling.toml").read_text() in blocks
    counts = "time,detector,count\n" + "".join(f"07:{m:02d},{d},9\n" for m in range(60) for d in ("D17", "D22", "D99"))
    assert load(write(next(x for x in blocks if x.startswith("[arrivals]")), OPEN, road=road.replace('"a"', '"Mill Street"'), counts=counts)).run().total > 0


# Times and dates.

TIMES = {
    "day first, with points": ["12.05.2026 07:00", "12.05.2026 07:10", "12.05.2026 07:30"],
    "year first, with strokes": ["2026/05/12 07:00:00", "2026/5/12 07:10:00", "2026/05/12 07:30:00"],
    "ISO with an offset": ["2026-05-12T07:00:00+02:00", "2026-05-12T07:10:00+0200", "2026-05-12T07:30:00.000+02:00"],
    "another offset from then on": ["2026-05-12T07:00:00+02:00", "2026-05-12T06:10:00+01:00", "2026-05-12T05:30:00Z"],
    "UTC": ["2026-05-12T07:00:00Z", "2026-05-12 07:10Z", "2026-05-12T07:30:00Z"],
}


@pytest.mark.parametrize("form", TIMES)
def test_dates(write, form):
    csv = WIDE
    for old, new in zip(("07:00", "07:10", "07:30"), TIMES[form]):
        csv = csv.replace(f"{old},", f"{new},")
    assert (load(write(FILE, OPEN, a=csv)).record.rows == load(write(LISTS, OPEN, name="l.toml")).record.rows).all()


def test_a_start_with_a_date_picks_the_day(write):
    """Of a file of three days the study takes the day of its start; without one the first day."""
    days = "time,gate,North,South\n" + "".join(f"{d}.05.2026 {t},{d * 100 + x},0,0\n" for d in (11, 12, 13) for t, x in (("00:00", 1), ("07:00", 2), ("12:00", 3)))
    for start, first in (("07:00", 1102), ("12.05.2026 07:00", 1202), ("2026-05-13T07:00", 1302)):
        s = load(write(FILE, OPEN, a=days, road=TWO.replace('"07:00"', f'"{start}"')))
        assert s.start == 25200 and s.record.rows[:, 0].sum() == first * 120 * 20 * 1000 // 3600
        assert any("rows of several days" in x for x in s.notes) is (start == "07:00")
    assert load(write(FILE, OPEN, a=days, road=TWO.replace('"07:00"', "2026-05-12T07:00:00"))).record.rows[:, 0].sum() == 1202 * 2400 // 3.6


@pytest.mark.parametrize("bad, says", [("2024-02-30 07:00", "no such day"), ("30.02.2024 07:00", "no such day"), ("05/12/2026 07:00", "day or the month"), ("12-05-2026 07:00", "day or the month"),
                                       ("2026-05-12", "no clock time"), ("07:00 PM", "no clock time"), ("²:00", "no clock time"), ("7h00", "no clock time"), ("07:60", "no clock time")])
def test_times_that_are_none(write, bad, says):
    fault(write(FILE, OPEN, a=WIDE.replace("07:00", bad)), "a.csv, row 2", says)
    fault(write(LISTS.replace('"07:00"', f'"{bad}"'), OPEN), says)


def test_zones_are_not_mixed_with_none(write):
    fault(write(FILE, OPEN, a=WIDE.replace("07:00", "2026-05-12T07:00+02:00").replace("07:10", "2026-05-12T07:10").replace("07:30", "2026-05-12T07:30")), "row 3", "offset")


def test_headings_of_any_name(write):
    want = load(write(LISTS, OPEN, name="l.toml")).record.rows
    assert (load(write(FILE, 'columns = { Zeit = "time", Anfang = "gate" }\n', OPEN, a=WIDE.replace("time,gate", "Zeit,Anfang"))).record.rows == want).all()
    text = detectors(["D1", "D2", "D3"]).replace("time,detector,flow", "Zeit;Messstelle;Fluss").replace(",", ";")
    columns = 'columns = { Zeit = "time", Messstelle = "detector", Fluss = "flow", D1 = "gate", D2 = "North", D3 = "South" }\n'
    assert (load(write(FILE, columns, OPEN, a=text)).record.rows == want).all()
    moved = "\n".join(",".join(line.split(",")[1:] + line.split(",")[:1]) for line in WIDE.splitlines()) + "\n"
    assert (load(write(FILE, OPEN, a=moved)).record.rows == want).all()
    assert (load(write(FILE, OPEN, a=WIDE.replace("time", "Zeit"))).record.rows == want).all()
    fault(write(FILE, OPEN, a=WIDE.replace("time", "Zeit").replace(":", " Uhr ")), 'columns = { Zeit = "time" }')
    both = text.replace("Fluss", "flow").replace("\n", ";9\n").replace("flow;9", "flow;count")
    fault(write(FILE, columns.replace('Fluss = "flow", ', ""), OPEN, a=both), "flow, count", "unit")
    assert (load(write(FILE, columns.replace('Fluss = "flow", ', ""), 'unit = "veh/h"\n', OPEN, a=both)).record.rows == want).all()


def test_columns_choose_among_headings(write):
    """Two columns of times, of places or of numbers: `columns` says which, and nothing is chosen silently."""
    want = load(write(LISTS, OPEN, name="l.toml")).record.rows
    rows = "".join(f"{30 * i * (1 if i < 2 else 1.5):g},{t},{d},x{d},{v},9\n" for i, (t, vs) in enumerate(ROWS) for d, v in zip(("gate", "North", "South"), vs))
    text = "step,Zeit,detector,station,flow,count\n" + rows
    fault(write(FILE, 'unit = "veh/h"\n', OPEN, a=text), "'detector', 'station'", "places")
    fault(write(FILE, 'columns = { Zeit = "time", station = "-" }\n', OPEN, a=text), "flow, count", "numbers")
    for columns in ('Zeit = "time", station = "-", flow = "flow"', 'Zeit = "time", detector = "place", count = "-"'):
        assert (load(write(FILE, f"columns = {{ {columns} }}\n", OPEN, a=text)).record.rows == want).all()
    later = text.replace("07:00", "07:05")
    fault(write(FILE, 'columns = { Zeit = "time", station = "-", count = "-" }\n', OPEN, a=later), "begins 300 s after step 0")  # the time is looked at, not the step


def test_separators_are_told_from_names(write):
    """A comma in a name, in quotes or not, is no separator where semicolons or tabs are."""
    road, want = TWO.replace('"North"', '"Mill, Street, North"'), load(write(LISTS, OPEN, name="l.toml")).record.rows
    for separator in ";\t":
        for name in ("Mill, Street, North", '"Mill, Street, North"'):
            text = WIDE.replace(",", separator).replace("North", name)
            assert (load(write(FILE, OPEN, road=road, a=text)).record.rows == want).all()
    assert (load(write(FILE, OPEN, road=road, a=WIDE.replace("North", '"Mill, Street, North"'))).record.rows == want).all()
    few = "time;{}\n07:00;300\n07:10;600\n07:30;200\n"  # one separator and two commas in the heading
    for name in ("Mill, Street, North", '"Mill, Street, North"'):
        assert (load(write(FILE, "gate = 0\nSouth = 0\n", OPEN, road=road, a=few.format(name))).record.rows[:, 3] == want[:, 3]).all()


def test_marks_that_may_be_thousands(write):
    """3.000 may be three or three thousand: a file that never shows which is a fault."""
    for text in (WIDE.replace(",", ";").replace("3000", "3.000"), WIDE.replace(",", "\t").replace("3000", "3,000"), WIDE.replace("3000", '"3,000"')):
        fault(write(FILE, OPEN, a=text), "row 2", "thousand")
    fault(write(FILE, OPEN, a=WIDE.replace(",", ";").replace("3000", "3000,5").replace("3600", "3600.5")), "point", "comma")
    s = load(write(FILE, OPEN, a=WIDE.replace(",", ";").replace("3000", "3000,5").replace("600;700", "600,125;700")))
    assert s.record.rows[:30, 0].sum() == 500083
    assert load(write(FILE, OPEN, a=WIDE.replace("300,400", "300.125,400"))).record.rows[:30, 3].sum() == 50020


def test_counts_say_how_long_they_are(write):
    fault(write(FILE, 'unit = "count"\n', OPEN, a="time,gate,North,South\n07:00,9,9,9\n"), "row 2", "the length of the only row of counts is unknown")
    rows = "".join(f"{m},10,1,1\n" for m in (0, 1, 2, 4, 5, *range(6, 60)))
    s = load(write(FILE, 'unit = "count"\n', OPEN, a="minutes,gate,North,South\n" + rows))
    assert any("row 4" in note and "120 s" in note for note in s.notes)


def test_rows_that_all_begin_before_the_study_are_noted(write):
    """A start of 17:00 with a file of the morning: one rate holds in every step, and a note says so; so does one about a file's last day."""
    evening = TWO.replace('"07:00"', '"17:00"')
    for tables_, csv in (((LISTS,), {}), ((FILE,), {"a": WIDE}), ((FILE,), {"a": detectors(["gate", "North", "South"])})):
        s = load(write(*tables_, OPEN, road=evening, **csv))
        assert [x for x in s.notes if "34200 s before step 0" in x] == s.notes != [] and len(np.unique(s.record.rows[:, 0])) <= 2
        assert not load(write(*tables_, OPEN, **csv)).notes
    one = LISTS.replace(', "07:10", "07:30"', "").replace(", 3600, 2000", "").replace(", 600, 200", "").replace(", 700, 100", "")
    assert not load(write(one, OPEN, road=evening)).notes  # one row is a constant, as it is written


# A base's files are next to the base.


def test_files_of_a_base_are_beside_the_base(write, tmp_path):
    (tmp_path / "sub/deep").mkdir(parents=True)
    base = write(FILE, OPEN, a=WIDE)
    want = load(base).record.rows
    (tmp_path / "sub/one.toml").write_text('base = "../road.toml"\ntitle = "one"\n')
    (tmp_path / "sub/deep/two.toml").write_text('base = "../one.toml"\ntitle = "two"\n[releases]\nfile = "r.csv"\n')
    (tmp_path / "sub/deep/r.csv").write_text("step,North,South\n0,100,100\n")
    assert (load(tmp_path / "sub/one.toml").record.rows == want).all()
    assert load(tmp_path / "sub/deep/two.toml").plan.max() == 556
    (tmp_path / "sub/own.toml").write_text(f'base = "../road.toml"\n{FILE}')
    (tmp_path / "sub/a.csv").write_text(WIDE.replace("3000", "0"))
    assert load(tmp_path / "sub/own.toml").record.rows[0, 0] == 0
    (tmp_path / "first.toml").write_text('base = "road.toml"\nsteps = 3\n')
    (tmp_path / "then.toml").write_text('base = "road.toml"\nafter = "first.toml"\n')
    (tmp_path / "sub/then.toml").write_text('base = "../then.toml"\n')
    assert load(tmp_path / "sub/then.toml").record.start.held[0] > 0
    (tmp_path / "a.csv").unlink()
    with pytest.raises(FileNotFoundError) as caught:
        load(tmp_path / "sub/one.toml")
    assert str(tmp_path / "sub/../a.csv") == str(caught.value.filename)
    base.write_text(base.read_text().replace("split = 0.9", "split = 9"))
    fault(tmp_path / "sub/one.toml", "road.toml: cell 3: `split` is 9")


def test_small_tables_are_merged_with_the_bases(write, tmp_path):
    write(LISTS, OPEN, "[weights]\ngate = 3\n", road=TWO.replace("capacity = 4400\n[defaults]", "capacity = 4400\nqueue = 7\n[defaults]"))
    (tmp_path / "v.toml").write_text('base = "road.toml"\n[gate]\ncapacity = 3600\n[defaults]\nspeed = 72\n[weights]\nramps = 2\n')
    s = load(tmp_path / "v.toml")
    assert (s.record.start.gate_queue, s.record.road.gate_capacity, s.record.road.speed[0], s.record.road.jam[0]) == (7000, 20000, 800, 125000)
    assert s.weights == ([3, 1, 1, 1, 1, 1], [1, 2, 1, 2, 1])


# Names and numbers that were ignored.


def test_nothing_is_passed_over(write):
    parts = "parts = { v = 500, w = 250, b = 750, J = 8000, C = 2000 }"
    fault(write(LISTS, OPEN, road=TWO.replace("split = 0.9", f"split = 0.9\n{parts}")), "cell 3: `split`", "`parts`")
    last = TWO.replace("capacity = 4000", parts)
    fault(write(LISTS, OPEN, road=last), "cell 5: `parts` has a b in the last cell, where it is 0")
    fault(write(LISTS, "cap = true\n", OPEN), "`cap`")
    fault(write(LISTS, OPEN, road=TWO.replace("capacity = 4400\n[def", "capacity = 4400\nparts = { capacity = 1 }\n[def")), "[gate]: `capacity`", "`parts`")
    works = "[[closure]]\ncell = 5\nlanes = 1\nfrom = 3\nto = 9\n"
    fault(write(LISTS, OPEN, works, works.replace("from = 3", "from = 8")), "closure 2", "closure 1")
    load(write(LISTS, OPEN, works, works.replace("from = 3", "from = 9").replace("to = 9", "to = 12")))
    for name in ("file", "unit", "columns", "cap", "all", "gate", "time", "-", "", " x", "a\\tb"):
        fault(write(LISTS, OPEN, road=TWO.replace('"North"', f'"{name}"')), "cell 2: `ramp`")
    for bad in ("false", "1.5", "[]", "07:00:00"):
        fault(write(LISTS, OPEN, road=TWO.replace('"North"', bad)), "cell 2: `ramp` is")
        fault(write(LISTS, OPEN, road=TWO.replace('ramp = "North"', f"ramp = 'North'\nname = {bad}")), "cell 2: `name` is")
    assert list(load(write(LISTS.replace("North", "7"), OPEN, road=TWO.replace('"North"', "7"))).ramps) == ["7", "South"]


def test_a_sweep_of_a_list_changes_the_list(write):
    """`weights.road.2` was changed in a copy: each variant was the study itself."""
    path = write(LISTS, OPEN, "[weights]\nroad = [1, 1, 1, 1, 1]\n")
    assert Variants(path, ["weights.road.2"]).study(7).weights[0] == [1, 1, 7, 1, 1, 1]
    assert Variants(path, ["arrivals.gate.1"]).study(0).record.rows[0, 0] == 0
    for key in ("weights.road.6", "weights.road.0", "weights.road.²", "cell.9.capacity", "nothing.at.all", "cell", "weights.road", "weights.road.2.x"):
        with pytest.raises(StudyError, match="to vary"):
            Variants(path, [key]).study(1)
    with pytest.raises(StudyError, match="`road`, cell 2` is 300|`2` is 300"):
        Variants(path, ["weights.road.2"]).study(300)


def test_a_gap_before_a_study_that_goes_on_is_noted(write):
    write(LISTS, OPEN, name="first.toml")
    s = load(write(LISTS.replace("07:", "08:"), OPEN, name="later.toml", road='after = "first.toml"\n' + TWO.replace('"07:00"', '"08:00"')))
    assert any("07:40" in note and "08:00" in note for note in s.notes)


# No traceback, no hang.

DEEP = "x = " + "[" * 3000 + "]" * 3000
BAD_TOMLS = {
    "digits": ("step = 20", "step = " + "9" * 5000, "digits"),
    "hex digits": ("step = 20", "step = 0x" + "f" * 9000, "digits"),
    "decimals": ("step = 20", "step = 1." + "3" * 5000, "digits"),
    "nesting": ("step = 20", DEEP, "nested"),
    "dotted nesting": ("step = 20", "step = 20\ntitle." + ".".join("a" * 900) + " = 1", "nested"),
    "an exponent": ("speed = 90", "speed = 1e99999999999999999999", "`speed` is Infinity"),
    "a small exponent": ("speed = 90", "speed = 1e-99999999999999999999", "speed"),
    "a NUL in base": ("step = 20", 'base = "a\\u0000b"', "`base`"),
    "a NUL in after": ("step = 20", 'step = 20\nafter = "a\\u0000b"', "`after`"),
    "no base": ("step = 20", 'base = ""', "`base`"),
    "a NUL in file": ("[gate]", '[arrivals]\nfile = "a\\u0000b"\n[gate]', "`file`"),
    "a closure's step": ("[gate]", '[[closure]]\ncell = 1\nlanes = 1\nfrom = "²"\nto = 4\n[gate]', "`from`"),
    "a closure's long step": ("[gate]", f'[[closure]]\ncell = 1\nlanes = 1\nfrom = "{"9" * 5000}"\nto = 4\n[gate]', "`from`"),
    "a day": ('start = "07:00"', "start = 2024-02-30", "date"),
    "a missing number": ("speed = 90", "", "`speed` is missing; it is a number from 0.000001"),
    "no steps": ("steps = 120", "", "`steps` is missing; it is a number from 1 to 17280"),
    "steps": ("steps = 120", "steps = 17281", "it is at most 17280; a further study continues with `after`"),
}


@pytest.mark.parametrize("name", BAD_TOMLS)
def test_bad_tomls(write, name):
    old, new, said = BAD_TOMLS[name]
    tables_ = (OPEN,) if "file" in new else (LISTS, OPEN)
    assert old in TWO
    said = fault(write(*tables_, road=TWO.replace(old, new)), said)
    assert len(said) < 1000


def test_a_byte_order_mark_is_read(write):
    path = write(LISTS, OPEN)
    path.write_bytes(b"\xef\xbb\xbf" + path.read_bytes())
    assert load(path).run().total > 0


BAD_ROWS = {
    "a long field": WIDE.replace("3000", "3" * 140_000),
    "a field of 100,000 digits": WIDE.replace("3000", "3" * 100_000),
    "a power": WIDE.replace("3000", "3²"),
    "an exponent": WIDE.replace("3000", "3e999"),
    "a NUL": WIDE.replace("3000", "3\0"),
    "no UTF-8": WIDE.replace("3000", "3\udcff").encode("utf-8", "surrogateescape"),
    "a quote": WIDE.replace("3000", '"3000'),
    "nothing": "",
    "one heading twice": WIDE.replace("South", "North"),
    "bytes": bytes(range(256)) * 40,
}


@pytest.mark.parametrize("name", BAD_ROWS)
def test_bad_rows(write, name):
    assert len(fault(write(FILE, OPEN, a=BAD_ROWS[name]), "a.csv")) < 1000


def test_inputs_are_bounded(write, tmp_path):
    with pytest.raises(StudyError, match="/dev/zero: it has more than"):
        load(write('[arrivals]\nfile = "/dev/zero"\n', OPEN))
    large = tmp_path / "large.toml"
    with open(large, "wb") as f:
        f.truncate(3 << 30)
    for path in (large, write('base = "large.toml"\n', road="")):
        with pytest.raises(StudyError, match="large.toml: it has more than"):
            load(path)
    large.rename(tmp_path / "large.csv")
    with pytest.raises(StudyError, match="large.csv: it has more than"):
        load(write('[arrivals]\nfile = "large.csv"\n', OPEN))


def test_a_street_reads_whole_names(examples, tmp_path):
    """Roads of one file name keep their folders' names; one road by two names is one road; limits are bounded."""
    for folder in ("north", "south"):
        (tmp_path / folder).mkdir()
        (tmp_path / folder / "road.toml").write_text((examples / "studies/five-cells.toml").read_text())
    ramp = '[[ramp]]\nstudy = "{}"\nramp = "Mill Street"\nguarantee = 300\n'
    path = tmp_path / "street.toml"
    path.write_text("limit = 1260\n" + ramp.format("north/road.toml") + ramp.format("south/road.toml"))
    st = street.read_street(path)
    assert [s.name for s in st.studies] == ["north-road", "south-road"] and st.names[0] == "north-road, ramp Mill Street"
    path.write_text("limit = 1260\n" + ramp.format("north/road.toml") + ramp.format("./north/../north/road.toml"))
    with pytest.raises(StudyError, match="which is named twice"):
        street.read_street(path)
    south = tmp_path / "south/road.toml"
    south.write_text(south.read_text().replace('"07:', '"08:'))
    path.write_text("limit = 1260\n" + ramp.format("north/road.toml") + ramp.format("south/road.toml"))
    with pytest.raises(StudyError, match="07:00:00 and south-road at 08:00:00"):
        street.read_street(path)
    for limit in ("1e30", "-1", "true", '"x"', "99999999999"):
        path.write_text(f"limit = {limit}\n" + ramp.format("north/road.toml"))
        with pytest.raises(StudyError, match="limit"):
            street.read_street(path)
    path.write_text("limit = 1260\n" + ramp.format("north/road.toml").replace("300", "1e20"))
    with pytest.raises(StudyError, match="guarantee"):
        street.read_street(path)


def test_a_stated_load_says_what_arrives_at_ramps(write, capsys):
    path = str(write(LISTS, OPEN))
    for words in (["load", path, "--seed", "1", "--peak", "3600"], ["sweep", path, "--seeds", "1:2", "--peak", "3600"]):
        assert main(words) == 2 and "--ramp-peak is missing: the road has 2 ramps" in capsys.readouterr().err
        assert main([*words, "--ramp-peak", "0"]) == 0
        capsys.readouterr()


def test_the_clock_by_itself():
    clock = tables.Clock(toml_reader.Fraction(20), toml_reader.Fraction(25200), 100)
    assert clock.second("time", "07:00:00.500", "here") == toml_reader.Fraction(1, 2)
    assert clock.second("time", "2026-05-12 24:00", "here") == 17 * 3600
    assert clock.second("time", "2026-05-13 00:00", "here") == 17 * 3600
    assert re.search("no number", str(pytest.raises(StudyError, clock.second, "step", "²", "here").value))
