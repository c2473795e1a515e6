"""Study files: the conversion, arrivals of every form, variants, works, weights, and every fault in words."""
import re

import numpy as np
import pytest
from hypothesis import given, settings
from hypothesis import strategies as st
import text_form as text
from nobyaluk import StudyError, engine, toml_reader, load, summary, tables


def test_physical_road_is_the_record(examples):
    """The road of the paper in km, km/h and veh/h gives the numbers that were converted by hand."""
    s = load(examples / "studies/rocade-sud.toml")
    want = load(examples / "rocade-sud-seconds.rec")
    for name in ("speed", "wave", "share", "ramp", "jam", "capacity", "held", "queue"):
        assert s.record.column(name).tolist() == want.record.column(name).tolist(), name
    arrivals = [0, *range(1, 43, 2)]
    assert (s.record.rows[:, arrivals] == want.record.rows[:, arrivals]).all()


def test_rounded_once_and_told(road):
    """90 km/h x 20 s / 0.6 km is 833.33 thousandths: 833; the exact fraction is kept."""
    s = load(road("length = 0.5 ", "length = 0.6 "))
    told = {(x.cell, x.what): x for x in s.rounding}
    assert s.record.road.speed[0] == 833 and told[1, "speed"].wanted == toml_reader.Fraction(2500, 3)
    assert told[1, "speed"].used == 833 and round(100 * told[1, "speed"].error, 2) == -0.04
    assert s.record.road.jam[0] == 150_000 and (1, "jam") not in told


def test_raw_parts(examples, tmp_path):
    """The printed run in its own numbers."""
    (tmp_path / "a.toml").write_text("""
        step = 20
        steps = 3
        version = 1
        gate = { parts = { capacity = 2000, queue = 3000 } }
        arrivals = { step = [0], gate = [1000], "2" = [500], unit = "parts" }
        releases = { step = [0], "2" = [300], unit = "parts", cap = false }
        [[cell]]
        parts = { v = 500, w = 250, b = 750, J = 8000, C = 2000, held = 2000 }
        [[cell]]
        ramp = "2"
        parts = { v = 500, w = 250, b = 0, J = 8000, C = 1000, held = 4000, queue = 1500 }
    """)
    assert load(tmp_path / "a.toml").record.data == (examples / "printed-run.rec").read_bytes()


def test_texts_are_their_records(examples):
    for path in examples.glob("*.txt"):
        if path.name.count(".") == 1 and not re.match("refused-(0[^9]|19)", path.name):
            assert text.record_of(path.read_text()) == path.with_suffix(".rec").read_bytes()


@pytest.mark.parametrize("law", ["alinea", "demand-capacity", "fixed"])
def test_laws_are_the_filled_records(examples, law):
    s = load(examples / f"studies/rocade-sud-{law}.toml")
    want = load(examples / f"rocade-sud-{law}.rec")
    assert (s.run().record.rows == want.record.rows[:377]).all()
    filled = engine.fill(load(examples / "rocade-sud.rec").record, text.laws_of((examples / f"rocade-sud-{law}.laws.txt").read_text()))
    assert filled.record.data == want.record.data


def test_alinea_gain_in_the_fields_unit(road):
    """60 km/h over steps of 20 s and cells of 0.5 km is 60 x 20 / 3600 / 0.5 = 2/3 a step."""
    one = load(road("law = \"open\" ", 'law = "alinea"\ngain_kmh = 60 '))
    assert one.laws == {4: ("alinea", 2 / 3, 24444.0)}  # critical: 4,400 veh/h x 20 s / 1.0, in parts


def test_works(examples):
    lanes = text.lanes_of((examples / "rocade-sud-works.lanes.txt").read_text())
    s = load(examples / "studies/rocade-sud-works.toml")
    assert [x.bit_count() for x in s.lanes] == [x.bit_count() for x in lanes[: 21 * 378]]
    run = engine.run(load(examples / "rocade-sud.rec").record, lanes)
    assert round(summary.hours(run, 20).total, 2) == 1955.40  # examples/rocade-sud.md


def test_weights(road):
    s = load(road("[meter.all]", "[weights]\ngate = 2\nramps = { \"Mill Street\" = 3 }\n[meter.all]"))
    assert s.weights == ([2, 1, 1, 1, 1, 1], [1, 1, 1, 3, 1])
    assert load(road("[meter.all]", "[weights]\ngate = 2\nramps = 3\n[meter.all]")) == s  # where there is no ramp, nobody waits
    run = s.run()
    assert run.weighted == run.total + run.gate + 2 * run.ramp
    assert "no schedule has a smaller one" in summary.summary_lines(s, run)[-1]
    up = load(road("[meter.all]", "[weights]\nroad = [1, 1, 2, 2, 2]\n[meter.all]"))
    assert "a place weighs more than the one before it" in summary.summary_lines(up, up.run())[-1]


def test_a_plan_is_capped(examples):
    """What a time-of-day plan allows is capped step by step, and a constant one is the fixed law."""
    s = load(examples / "studies/rocade-sud-plan.toml")
    assert (s.run().record.rows[:, 2::2] <= s.plan).all()
    record = load(examples / "rocade-sud.rec").record
    lanes = text.lanes_of((examples / "rocade-sud-works.lanes.txt").read_text())
    rates = {cell: 1000 + 137 * cell for cell in range(1, 22) if record.road.ramp[cell - 1]}
    plan = np.zeros((record.steps, 21), np.uint32)
    for cell, rate in rates.items():
        plan[:, cell - 1] = rate
    s.record, s.plan, s.lanes = record, plan, lanes
    assert s.run().record.data == engine.fill(record, {cell: ("fixed", float(rate)) for cell, rate in rates.items()}, lanes).record.data


def test_going_on(road, tmp_path):
    """A study that begins where another ended; where nothing is rounded, both are the whole."""
    exact = ("split = 0.8 ", "# ", "[   3000,    4000,    2400]", "[3060, 3960, 2340]", "[    300,     900,     200]", "[360, 900, 180]")
    whole = load(road(*exact))
    first = road(*exact, "steps = 225", "steps = 90", name="first.toml")
    later = road(*exact, "steps = 225", 'steps = 135\nafter = "first.toml"', 'start = "07:00"', 'start = "07:30"', name="later.toml")
    a, b, c = (x.run() for x in (whole, load(first), load(later)))
    assert b.total + c.total == a.total and c.state.held[:5] == a.state.held[:5]


ROWS = {
    "a spreadsheet's": "\ufefftime;gate;Mill Street\r\n07:00;3000,5;300\r\n07:10;4000;900\r\n",
    "tabs and comments": "# counted by hand\ntime\tgate\tMill Street\n07:00:00\t3000.5\t300\n07:10\t4000\t900\n",
    "minutes": "minutes,gate,Mill Street\n0,3000.5,300\n10,4000,900\n",
    "steps": "step,gate,Mill Street\n0,3000.5,300\n30,4000,900\n",
    "dates, from before the start": "time,gate,Mill Street\n2026-03-02 06:45,3000.5,300\n2026-03-02T07:10:00,4000,900\n2026-03-02 23:00,0,0\n",
    "a detector's": "time,detector,speed,flow\n07:00,gate,88,3000.5\n07:00,Mill Street,30,300\n07:10,gate,70,4000\n07:10,Mill Street,30,900\n",
}
INLINE = """time          = ["07:00", "07:10", "07:40"]
gate          = [   3000,    4000,    2400]
"Mill Street" = [    300,     900,     200]"""


@pytest.mark.parametrize("form", ROWS)
def test_arrivals_of_every_form(road, tmp_path, form):
    (tmp_path / "a.csv").write_bytes(ROWS[form].encode())
    s = load(road(INLINE, 'file = "a.csv"'))
    a = s.record.rows.astype(int)
    assert a[:30, 0].sum() == int(3000.5 / 6 * 1000) and a[30:, 0].sum() in (4000 * 65 * 1000 // 60, 4000 * 65 * 1000 // 60 + 1)
    assert a[:30, 7].sum() == 50_000 and a[:, [1, 3, 5, 9]].sum() == 0


def test_counts_of_rows_that_lie_across_steps(road, tmp_path):
    """A detector's vehicles in rows of 50 s and steps of 20 s: sums are right to a part at every edge of a row."""
    rows = [f"{50 * k},D{j},{7 * k % 13 + j}" for k in range(90) for j in (1, 2)]
    (tmp_path / "a.csv").write_text("seconds,station,count\n" + "\n".join(rows) + "\n")
    s = load(road(INLINE, 'file = "a.csv"\ncolumns = { D1 = "gate", D2 = "Mill Street" }'))
    came = np.cumsum(s.record.rows[:, 0].astype(int))
    for k in range(0, 88, 2):  # every second edge of a row is an edge of a step
        assert came[(k + 2) * 50 // 20 - 1] == 1000 * sum(7 * j % 13 + 1 for j in range(k + 2))


@settings(max_examples=50, deadline=None)
@given(st.lists(st.tuples(st.integers(1, 400), st.fractions(0, 5000, max_denominator=7)), min_size=1, max_size=6), st.integers(1, 60))
def test_sums_are_right_to_a_part(spans, seconds):
    """Rates that hold for any whole seconds, in steps of any whole seconds: after every step the sum is the exact one, rounded down."""
    begins, rates, at = [], [], 0
    for length, rate in spans:
        begins.append(toml_reader.Fraction(at))
        rates.append(rate)
        at += length
    steps = 40
    rows = tables.TableRows(["gate"], begins, [[x] for x in rates], [""] * len(begins), "veh/h")
    out = tables._steps(rows, tables.Clock(toml_reader.Fraction(seconds), None, steps))["gate"]
    ends = [*begins[1:], toml_reader.Fraction(10**9)]
    for k in range(0, steps, 7):
        t = (k + 1) * seconds
        exact = sum(r * (min(e, t) - b) for r, b, e in zip(rates, begins, ends) if b < t) * toml_reader.Fraction(1000, 3600)
        assert int(out[: k + 1].sum()) == int(exact)


# What the study has, what replaces it, and the message.
FAULTS = {
    "a cell too short": ("length = 0.5", "length = 0.4", "`speed` 90 km/h x 20 s = 0.500 km passes the cell's 0.4 km in one step; take a step of at most 16 s or a cell of at least 0.500 km"),
    "an unknown key": ("steps = 225", "steps = 225\nspeedd = 3", "`speedd` is not known here; the known keys are after, arrivals"),
    "an unknown key of a cell": ("split = 0.8", "splitt = 0.8", "cell 2: `splitt` is not known here; the known keys are capacity"),
    "no file": (INLINE, 'file = "none.csv"', "none.csv"),
    "an unknown law": ('law = "open"', 'law = "best"', '[meter.all]: `law` is \'best\'; it is "open", "fixed", "alinea" or "demand-capacity"'),
    "a law's number": ('law = "open"', 'law = "fixed"', "[meter.all]: `rate` is missing"),
    "another law's number": ('law = "open"', 'law = "open"\nrate = 4', "`rate` belongs to another law; open takes nothing else"),
    "no such ramp": ("[meter.all]", "[meter.Mill]", "[meter.Mill]: no cell has a ramp called 'Mill'; ramps are Mill Street"),
    "too many steps": ("steps = 225", "steps = 17281", "`steps` is 17281; it is at most 17280"),
    "half a second": ("step = 20", "step = 19.5", "`step` is 19.5, where a whole number is needed"),
    "a text": ("step = 20", 'step = "20"', "`step` is '20', where a number is needed"),
    "a capacity": ("capacity = 3800", "capacity = 380000", "cell 5: `capacity` makes the critical density"),
    "more than jam": ("split = 0.8", "split = 0.8\ndensity = 251", "cell 2: `density` is 251; it is at most 250"),
    "too much held": ("split = 0.8", "split = 0.8\nheld = 125.1", "cell 2: `held` makes 125.100 vehicles; the cell holds at most 125.000"),
    "a share": ("split = 0.8", "split = 1.2", "cell 2: `split` is 1.2; it is at most 1"),
    "the last cell's share": ("capacity = 3800", "capacity = 3800\nsplit = 0.5", "cell 5: `split` is in the last cell"),
    "a queue without a ramp": ("split = 0.8", "split = 0.8\nqueue = 3", "cell 2: `queue` is in a cell without a `ramp`"),
    "a clock": ('start = "07:00"', 'start = "7.00"', "`start`: '7.00' is no clock time like 07:30"),
    "no clock": ('start = "07:00"', "", "is a clock time, which needs `start`"),
    "an unknown column": ('"Mill Street" = [', '"Mill Road" = [', "`Mill Road` is no column; columns are gate, Mill Street"),
    "a short list": ("[   3000,    4000,    2400]", "[3000, 4000]", "`gate` is [3000, 4000]; it is a list as long as `time`"),
    "below nothing": ("[   3000,", "[-3000,", "number 1 of `gate` is -3000; it is at least 0"),
    "too many at once": ("[   3000,", "[3000000000,", "a step takes at most 1,000"),
    "no end of works": ("[meter.all]", "[[closure]]\ncell = 5\nlanes = 1\nfrom = 3\n[meter.all]", "closure 1: `to` is missing"),
    "more lanes than built": ("[meter.all]", "[[closure]]\ncell = 5\nlanes = 2\nfrom = 3\nto = 4\n[meter.all]", "closure 1: `lanes` is 2; it is at most 1"),
    "works within a step": ("[meter.all]", "[[closure]]\ncell = 5\nlanes = 1\nfrom = '07:00:10'\nto = 4\n[meter.all]", "lies before `start` or within a step of 20 s"),
    "works before the start": ("[meter.all]", "[[closure]]\ncell = 5\nlanes = 1\nfrom = -1\nto = 4\n[meter.all]", "`from`: -1 is no step; steps are counted from 0"),
    "works after the end": ("[meter.all]", "[[closure]]\ncell = 5\nlanes = 1\nfrom = 225\nto = 226\n[meter.all]", "`from` is 225, when the study has ended"),
    "a weight": ("[meter.all]", "[weights]\ngate = 256\n[meter.all]", "[weights]: `gate` is 256; it is at most 255"),
    "weights of other cells": ("[meter.all]", "[weights]\nroad = [1]\n[meter.all]", "`road` has 1 numbers; it is one for all cells, or a list of 5"),
    "a table": ("[gate]\ncapacity = 4400", "gate = 3", "[gate] is 3, where a table is needed"),
    "one cell": ("[[cell]]\n[[cell]]\nsplit = 0.8", "[cell]", ""),
    "two starts": ("split = 0.8", "density = 20\nheld = 3", "`density` and `held` both say"),
    "no TOML": ("step = 20", "step 20", "Expected '=' after a key"),
    "no base": ("step = 20", 'step = 20\nbase = "none.toml"', "`base` is 'none.toml', and there is no"),
    "itself": ("step = 20", 'step = 20\nbase = "road.toml"', "`base` is circular"),
    "after itself": ("step = 20", 'step = 20\nafter = "road.toml"', "`after` is circular"),
    "releases and a meter": ("[meter.all]", '[releases]\nstep = [0]\n"Mill Street" = [3]\n[meter.all]', "[meter.all]: no ramp is left for it; each has a law or a table of its own"),
}


@pytest.mark.parametrize("name", FAULTS)
def test_faults_are_told(road, name):
    old, new, said = FAULTS[name]
    path = road(old, new)
    with pytest.raises((StudyError, OSError)) as caught:
        load(path)
    assert said in str(caught.value) and (str(path) in str(caught.value) or "none.csv" in str(caught.value))


# Rows of a CSV file, and their messages.
CSV_FAULTS = {
    "a field": ("time,gate\n07:00,3000\n\n07:10,3OO0\n", "a.csv, row 4, column 'gate' is '3OO0', where a number is needed"),
    "an empty field": ("time,gate,Mill Street\n07:00,3000,\n", "a.csv, row 2, column 'Mill Street' is empty; write 0 where nothing came"),
    "too few fields": ("time,gate,Mill Street\n07:00,3000\n", "a.csv, row 2: 2 fields under 3 headings"),
    "the heading": ("when,gate\n7 am,3000\n", "the first column is 'when'; it is time, step, seconds, minutes"),
    "a column": ("time,gate,Mil Street\n07:00,1,1\n", "column 'Mil Street' is not one of gate, Mill Street"),
    "no rows": ("time,gate\n", "a heading and at least one row are needed"),
    "backwards": ("time,gate\n07:00,1\n07:10,1\n07:05,1\n", "a.csv, row 4: its time does not come after the row before it"),
    "too late": ("time,gate\n07:01,1\n", "the first row begins 60 s after step 0; step 0 needs a row"),
    "a detector unknown": ("time,detector,count\n07:00,D3,1\n", "a.csv, row 2: 'D3' is not one of gate, Mill Street; `columns` can name what each detector counts"),
    "a detector that is silent": ("time,place,flow\n07:00,gate,1\n07:00,Mill Street,1\n07:10,gate,1\n", "a.csv, row 4: 'Mill Street' has no row for this time"),
    "counts that end": ("time,place,count\n07:00,gate,1\n07:10,gate,1\n", "counts end 1200 s after the beginning of step 0; 225 steps last 4500 s"),
}


@pytest.mark.parametrize("name", CSV_FAULTS)
def test_rows_faults_are_told(road, tmp_path, name):
    given, said = CSV_FAULTS[name]
    (tmp_path / "a.csv").write_text(given)
    with pytest.raises(StudyError) as caught:
        load(road(INLINE, 'file = "a.csv"'))
    assert said in str(caught.value)


def test_every_key_is_documented(root):
    """docs/STUDIES.md has a row for each key of each table, with unit and limit; and no row more."""
    page = (root / "docs/STUDIES.md").read_text()
    tables_of = dict(re.findall(r"^### `?([^`\n]*)`?\n(.*?)(?=^##|\Z)", page, re.M | re.S))
    sections = {"": "The file", "gate": "[gate]", "gate.parts": "[gate] parts", "cell": "[[cell]]", "cell.parts": "[[cell]] parts", "arrivals": "[arrivals]",
                "releases": "[releases]", "meter": "[meter.NAME]", "meter.parts": "[meter.NAME] parts", "closure": "[[closure]]", "weights": "[weights]"}
    for kind, title in sections.items():
        rows = re.findall(r"^\| `([^`]+)`(?:, `([^`]+)`)*(?:, `([^`]+)`)? \|", tables_of[title], re.M)
        found = set(re.findall(r"`([^`]+)`", "\n".join(line.split("|")[1] for line in tables_of[title].splitlines() if line.startswith("| `"))))
        assert rows and found == toml_reader.KEYS[kind], title
