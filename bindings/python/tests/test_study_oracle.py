"""Studies made at random, and what they must be: arrivals of the files are arrivals of the record to the part, and every ramp is accounted for.

What comes is added up here by another way than the reader's: each row's share of each step, as exact fractions.
"""
import json
from fractions import Fraction

import numpy as np
import pytest
from hypothesis import given, settings
from hypothesis import strategies as st
from nobyaluk import Refused, StudyError, study_writer, engine, load

NAMES = st.lists(st.sampled_from(["A", "B 2", "Mill, Street", 'x"y', "7", "Ümlaut", "=1", "D1"]), max_size=4, unique=True)
STEP, STEPS = 20, 30
ROAD = f"step = {STEP}\nstart = \"07:00\"\nsteps = {STEPS}\n[gate]\ncapacity = 4400\n[defaults]\nlength = 0.5\nspeed = 90\njam = 250\ncapacity = 4400\n"


@st.composite
def studies(draw):
    """A road's ramps, rows of numbers for each entry (None: it says 0), their times in seconds, a unit and a form."""
    ramps = draw(NAMES)
    cells = draw(st.permutations([*ramps, *[None] * draw(st.integers(1, 3))]))
    spans = draw(st.lists(st.one_of(st.integers(1, 60), st.integers(200, 600)), min_size=2, max_size=5))
    begins = np.cumsum([0, *spans[:-1]]) - draw(st.integers(0, spans[0] - 1))
    numbers = st.one_of(st.integers(0, 3000), st.decimals(0, 3000, places=2))
    rows = {x: draw(st.one_of(st.none(), st.lists(numbers, min_size=len(begins), max_size=len(begins)))) for x in ("gate", *ramps)}
    unit = draw(st.sampled_from(["veh/h", "veh", "parts"] + ["count"] * bool(2 * begins[-1] - begins[-2] >= STEP * STEPS)))
    return cells, rows, [int(x) for x in begins], unit, draw(st.sampled_from(["lists", "wide", "detectors"])), draw(st.booleans()), draw(st.sampled_from(";,\t"))


def key(name):
    return json.dumps(name, ensure_ascii=False)


def clock(second):
    t = 25200 + second
    return f"{t // 3600:02d}:{t // 60 % 60:02d}:{t % 60:02d}"


def quoted(field, separator):
    return '"' + field.replace('"', '""') + '"' if separator in field or '"' in field or "," in field else field


def arrivals(folder, rows, begins, unit, form, renamed, separator):
    """The table [arrivals] in one of its forms, with names of the file's own where `renamed`."""
    given = {x: v for x, v in rows.items() if v is not None}
    zeros = "".join(f"{key(x)} = 0\n" for x, v in rows.items() if v is None)
    if not given:
        return zeros
    if form == "lists":
        return f"unit = {key(unit)}\nseconds = {begins}\n" + "".join(f"{key(x)} = [{', '.join(map(str, v))}]\n" for x, v in given.items()) + zeros
    own = {x: f"det {i}" for i, x in enumerate(given)} if renamed else {x: x for x in given}
    if form == "wide":
        lines = [["Uhr" if renamed else "time", *own.values()], *([f"12.05.2026 {clock(b)}", *(str(v[i]) for v in given.values())] for i, b in enumerate(begins))]
    else:
        lines = [["Uhr" if renamed else "time", "place", "parts"], *([f"2026-05-12T{clock(b)}+02:00", own[x], str(v[i])] for i, b in enumerate(begins) for x, v in given.items())]
    (folder / "o.csv").write_text("".join(separator.join(quoted(x, separator) for x in line) + "\n" for line in lines))
    columns = "columns = { Uhr = \"time\", " + ", ".join(f"{key(own[x])} = {key(x)}" for x in given) + " }\n" if renamed else ""
    return f'file = "o.csv"\nunit = {key(unit)}\n' + columns + zeros


def expected(values, begins, unit):
    """Parts of each step: what of each row falls before each edge, added up and rounded down."""
    ends = [*begins[1:], 2 * begins[-1] - begins[-2] if unit == "count" else max(begins[-1] + 1, STEP * STEPS)]
    sums = []
    for edge in range(0, STEP * STEPS + 1, STEP):
        came = Fraction(0)
        for v, a, b in zip(values, begins, ends):
            held = max(0, min(edge, b) - max(a, 0))
            rate = {"veh/h": Fraction(v) * 1000 / 3600, "veh": Fraction(v) * 1000 / STEP, "parts": Fraction(v) / STEP, "count": Fraction(v) * 1000 / (b - a)}[unit]
            came += rate * held
        sums.append(int(came))
    return np.diff(sums)


@settings(max_examples=300, deadline=None)
@given(studies(), st.data())
def test_arrivals_are_the_files(tmp_path_factory, made, data):
    cells, rows, begins, unit, form, renamed, separator = made
    folder = tmp_path_factory.getbasetemp()
    ramps = [x for x in cells if x is not None]
    meters = '[meter.all]\nlaw = "open"\n' if ramps else ""
    table = arrivals(folder, rows, begins, unit, form, renamed, separator)
    road = ROAD + "".join("[[cell]]\n" + (f"ramp = {key(x)}\n" if x is not None else "") for x in cells)
    path = folder / "o.toml"
    path.write_text(f"{road}[arrivals]\n{table}{meters}")
    try:
        s = load(path)
    except StudyError as e:
        assert "at most 1,000" in str(e), e
        return
    for name, values in rows.items():
        column = 0 if name == "gate" else 2 * s.ramps[name] - 1
        want = expected(values, begins, unit) if values is not None else np.zeros(STEPS, int)
        assert s.record.rows[:, column].astype(int).tolist() == want.tolist(), name
    assert s.ramps == {x: i for i, x in enumerate(cells, 1) if x is not None}
    left = data.draw(st.sampled_from(list(rows)))  # an entry that is left out is a fault that names it
    less = arrivals(folder, {x: v for x, v in rows.items() if x != left}, begins, unit, form, renamed, separator)
    path.write_text(f"{road}[arrivals]\n{less}{meters}")
    with pytest.raises((StudyError, FileNotFoundError)) as caught:
        load(path)
    assert left in str(caught.value) or "arrivals.csv" in str(caught.value)


LAWS = ['law = "open"\n', 'law = "fixed"\nrate = 400\n', 'law = "alinea"\ngain_kmh = 21\n', 'law = "demand-capacity"\nleast = 100\n']


@settings(max_examples=200, deadline=None)
@given(st.lists(st.sampled_from(["law", "table", "all", "nothing", "both"]), min_size=1, max_size=5), st.booleans(), st.data())
def test_every_ramp_is_accounted_for(tmp_path_factory, says, exact, data):
    """Each ramp releases by its law or within its table; one with neither, or with both, is named in a fault."""
    folder = tmp_path_factory.getbasetemp()
    names = [f"ramp {i}" for i in range(len(says))]
    text = ROAD + "[[cell]]\n" + "".join(f"[[cell]]\nramp = {key(x)}\n" for x in names) + "[[cell]]\ncapacity = 3000\n"
    text += f"[arrivals]\nstep = [0, 12]\ngate = [{data.draw(st.integers(0, 4000))}, 1000]\n" + "".join(f"{key(x)} = [{data.draw(st.integers(0, 900))}, 200]\n" for x in names)
    tabled = {x: [data.draw(st.integers(0, 3000)), data.draw(st.integers(0, 500))] for x, what in zip(names, says) if what in ("table", "both")}
    laws = [x for x, what in zip(names, says) if what in ("law", "both")]
    if tabled:
        text += f"[releases]\nunit = \"parts\"\ncap = {'false' if exact else 'true'}\nstep = [0, 15]\n" + "".join(f"{key(x)} = {v}\n" for x, v in tabled.items())
    text += "".join(f"[meter.{key(x)}]\n{data.draw(st.sampled_from(LAWS))}" for x in laws) + (f"[meter.all]\n{data.draw(st.sampled_from(LAWS))}" if "all" in says else "")
    path = folder / "ramps.toml"
    path.write_text(text)
    unnamed = [x for x, what in zip(names, says) if what == "nothing"] if "all" not in says else []
    twice = [x for x, what in zip(names, says) if what == "both"]
    if unnamed or twice:
        with pytest.raises(StudyError) as caught:
            load(path)
        assert any(x in str(caught.value) for x in twice) or all(x in str(caught.value) for x in unnamed)
        return
    s = load(path)
    assert {s.ramps[x] for x in names if x not in tabled} == s.laws.keys()
    try:
        r = s.run()
    except Refused as e:
        assert exact and e.number in (9, 10) and names[e.place - 2] in tabled
        return
    rows = r.record.rows.astype(int)
    for x, (first, then) in tabled.items():
        plan, found = np.array([first] * 15 + [then] * 15), rows[:, 2 * s.ramps[x]]
        assert (found == plan).all() if exact else (found <= plan).all()
    assert (rows[:, 1::2] == s.record.rows[:, 1::2]).all() and (rows[:, 0] == s.record.rows[:, 0]).all()
    again = engine.run(r.record)
    assert (again.total, again.exits) == (r.total, r.exits)
    came = rows[:, 0].sum() + rows[:, 1::2].sum()
    assert came == r.present + r.exits
    written = study_writer.toml_files(s, folder / "again.toml") | study_writer.record_files(s, r.record.data, folder / "beside.rec", [])[0]
    for path, text in written.items():
        path.write_bytes(text if isinstance(text, bytes) else text.encode())
    for name in ("again.toml", "beside.toml"):  # a study that is written says and runs the same
        other = load(folder / name)
        assert (other.laws, other.ramps, other.lengths, other.start) == (s.laws, s.ramps, s.lengths, s.start)
        assert (other.run().record.rows == r.record.rows).all() and other.run().total == r.total
