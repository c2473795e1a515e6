"""`nobyaluk mark`: what it says of right answers, broken rules and wrong totals, in every form that students hand in."""
import base64
import csv
import json

import numpy as np
import pytest
from nobyaluk import engine, load
from nobyaluk.teaching.words import Words
from nobyaluk.teaching import wrong_rules, answers, marking, exercises


@pytest.fixture
def printed(examples):
    return exercises.exercise_from_file(examples / "printed-run.rec")


@pytest.fixture
def marked(tmp_path, told, examples):
    """marked(name=text, ..): the rows of the table by student; the exercise is docs/BY-HAND.md's unless `study` names one."""

    def run(study=examples / "printed-run.rec", status=0, **texts):
        folder = tmp_path / "answers"
        folder.mkdir(exist_ok=True)
        for old in folder.iterdir():
            old.unlink()
        for name, text in texts.items():
            (folder / name.replace("_json", ".json").replace("_csv", ".csv")).write_text(text)
        found, out, err = told("mark", study, folder, "-o", tmp_path / "marks")
        assert found == status, err
        assert "Traceback" not in err
        return {r["student"]: r for r in csv.DictReader(open(tmp_path / "marks.csv"))}

    return run


def rows_of(table, heading="", separator=",", step=False, scale=None, comma=False):
    """A table as a student writes it."""
    number = lambda x: str(x) if scale is None else f"{x / scale:g}".replace(".", "," if comma else ".")
    lines = [separator.join([str(k)] * step + [number(x) for x in row]) for k, row in enumerate(np.asarray(table).tolist())]
    return "\n".join([heading] * bool(heading) + lines) + "\n"


RUN = [[1500, 934, 1000], [1358, 933, 1000], [1252, 934, 1000]]


@pytest.mark.parametrize("text", [
    rows_of(RUN), rows_of(RUN, "gate,1,2"), rows_of(RUN, "step,gate,1,2", step=True), rows_of(RUN, step=True), rows_of(RUN, separator=";"), rows_of(RUN, separator="\t"),
    rows_of(RUN, scale=1000), rows_of(RUN, separator=";", scale=1000, comma=True), rows_of(RUN, "Schritt;Eingang;1;2", ";", True, 1000, True),
    "\ufeff" + rows_of(RUN, "step;gate;cell 1;cell 2", ";", True), '"1,500",934,"1,000"\n"1,358",933,"1,000"\n"1,252",934,"1,000"\n', "1.500;934;1.000\n1.358;933;1.000\n1.252;934;1.000\n",
    "1'500;934;1 000\n1358;933;1000\n1252;934;1000\n", "unit,vehicles\n1.5,0.934,1\n1.358,0.933,1\n1.252,0.934,1\n", '# mine\n"1,5","0,934",1\n"1,358","0,933",1\n"1,252","0,934",1\n',
    "step,gate,1,2\n1,1500,934,1000\n2,1358,933,1000\n3,1252,934,1000\n",
])
def test_forms_of_the_same_answer(marked, text):
    row = marked(anna_csv=text)["anna"]
    assert (row["outflows"], row["schedule's total"], row["lost"], row["first broken rule"]) == ("right", "33098", "0", ""), row


@pytest.mark.parametrize("unit", ["", "unit,thousandths of a vehicle\n"])
def test_a_spreadsheets_decimals_make_no_vehicles(marked, unit):
    row = marked(anna_csv=unit + rows_of(RUN) + "total,33098.0\n")["anna"]
    assert (row["outflows"], row["total"], row["notes"]) == ("right", "right", ""), row


def test_one_slip_makes_no_vehicles(marked):
    """A decimal in a file of thousandths is that number's fault alone, and is reported."""
    wrong = [[1500.5, 900, 1000], [1358, 900, 1000], [1252, 900, 1000]]
    row = marked(anna_csv=rows_of(wrong) + "total,27398\n")["anna"]
    assert row["first broken rule"] == "step 0, the gate: 1500.5 is no outflow in whole thousandths of a vehicle", row
    assert row["notes"] == "decimals in a column of thousandths of a vehicle: 1500.5" and row["what a wrong total comes from"] == "ramp queues left out"


@pytest.mark.parametrize("text, outflows, total, notes", [
    (rows_of(RUN) + "total,33.1\n", "right", "33100", "its units differ; read as vehicles: the total; all else as thousandths of a vehicle"),
    ("unit,thousandths of a vehicle\n" + rows_of(RUN) + "total,33.1\n", "right", "33100",
     "its units differ; read as vehicles: the total; all else as thousandths of a vehicle; it says thousandths of a vehicle"),
    (rows_of(RUN, scale=1000) + "total,33098\n", "right", "33098", "its units differ; read as vehicles: the table; all else as thousandths of a vehicle"),
    ("unit,thousandths of a vehicle\n" + rows_of(RUN, scale=1000) + "total,33.098\n", "right", "33098",
     "it says thousandths of a vehicle, but its decimals are of vehicles: read as vehicles"),
    ("1500,0.934,1000\n1358,0.933,1000\n1252,0.934,1000\n", "right", "", "its units differ; read as vehicles: the outflow of cell 1; all else as thousandths of a vehicle"),
    ("unit,vehicles\n1500,0.934,1\n1.358,0.933,1\n1.252,0.934,1\n", "wrong from step 0", "", ""),
    ("0,0,1\n0,0,1\n0,0,1\n", "allowed", "", "it has no decimals and is read as vehicles, because more numbers are right so"),
    (rows_of(RUN) + "total,33.098\n", "right", "33098", ""),
    ("0,2,2\n2,0,3\n0,0,0\n", "allowed", "", "nothing in it shows its unit: read as thousandths of a vehicle"),
    ("unit,thousandths of a vehicle\n0,0,1\n0,0,1\n0,0,1\n", "allowed", "", ""), ("0,0,0\n0,0,0\n0,0,0\n", "allowed", "", ""),
])
def test_units_by_columns(marked, text, outflows, total, notes):
    """Where a file does not settle its unit, its columns do, and the lecturer reads how it was read."""
    row = marked(anna_csv=text)["anna"]
    assert (row["outflows"], row["total given"], row["notes"]) == (outflows, total, notes), row


@pytest.mark.parametrize("text", ["", "\n\n", "name,Anna\nunit,thousandths of a vehicle\nstep,gate,1,2\n0,,,\n1,,,\n2,,,\ntotal,\nwhose waiting,\n"])
def test_an_empty_file_is_not_marked(tmp_path, told, examples, text):
    (tmp_path / "anna.csv").write_text(text)
    (tmp_path / "ben.csv").write_text(rows_of(RUN))
    status, out, err = told("mark", examples / "printed-run.rec", tmp_path / "anna.csv", tmp_path / "ben.csv", "-o", tmp_path / "m")
    assert status == 0 and "nna: nothing is answered\n" in out and "1 marked of 2" in out and "anna.csv: nothing is answered in it" in err
    assert told("mark", examples / "printed-run.rec", tmp_path / "anna.csv", "-o", tmp_path / "m")[0] == 2


def test_first_broken_rules(marked):
    ben, dora, emil, finn = ([list(x) for x in RUN] for _ in range(4))
    ben[1][1] = 934
    dora[0][0] = 2001
    emil[2] = [1252, 934, 999]
    row = marked(ben_csv=rows_of(ben), dora_csv=rows_of(dora), emil_csv=rows_of(emil), finn_csv=rows_of(finn[:2]), none_csv="total,33098\n")
    assert row["ben"]["first broken rule"] == ("refused 14: step 1, cell 1: an outflow that lets too much into the next cell (the outflow is 934; the greatest that fits is 933)")
    assert row["dora"]["first broken rule"].endswith("(the outflow is 2001; the place can send 2000)") and row["dora"]["outflows"] == "wrong from step 0"
    assert (row["emil"]["outflows"], row["emil"]["lost"], row["emil"]["first broken rule"]) == ("allowed", "1", "holds back first at step 2, cell 2: sends 999, and 1000 could go")
    assert row["finn"]["outflows"] == "right up to step 1, 1 missing" and row["none"]["outflows"] == "none" and row["none"]["total"] == "right"


@pytest.mark.parametrize("total, says", [
    (33098, ""), (27398, "ramp queues left out"), (26566, "gate left out"), (20866, "cells alone"), (43598, "start counted too"), (32299, "states before the steps summed"),
    (33096, "shares rounded step by step"), (27396, "shares rounded step by step, and ramp queues left out"), (33098000, "right but for its unit: off by a factor of 1,000"), (4711, "not recognised"),
])
def test_wrong_totals_of_by_hand(marked, total, says):
    row = marked(anna_csv=f"total,{total}\n")["anna"]
    assert (row["total given"], row["total"], row["what a wrong total comes from"]) == (str(total), "right" if not says else "wrong", says)


def test_the_totals_are_the_pages(root, printed):
    """The numbers of docs/BY-HAND.md are those of the key."""
    page = (root / "docs/BY-HAND.md").read_text()
    found = dict(marking.find_mistakes(printed))
    assert found == {"ramp": 27398, "gate": 26566, "cells": 20866, "start": 43598, "before": 32299, "alone": 33096}  # one after another gives the right total here
    for words in (f"a total of **{found['ramp']}**", f"The cells alone give {found['cells']}", f"the total is {found['alone']}"):
        assert words in page, words


def test_outflows_of_a_wrong_rule_are_recognised(marked, printed):
    """Cells moved one after another give the right total here; the outflows show it."""
    last = wrong_rules.move_one_after_another(printed.study.record).outflow
    row = marked(gia_csv=rows_of(last) + "total,33098\n")["gia"]
    assert row["what a wrong total comes from"] == "outflows: cells moved one after another, last first" and row["total"] == "right" and "refused 14: step 0, the gate" in row["first broken rule"]
    alone = wrong_rules.round_shares_alone(printed.study.record).outflow
    row = marked(hal_csv=rows_of(alone) + "total,33096\n")["hal"]
    assert row["what a wrong total comes from"] == "shares rounded step by step"


def test_every_mistake_of_many_roads_is_recognised():
    """On drawn roads each mistake's total is recognised, by its own words or by those of another with the same total."""
    say, seen = Words("en"), set()
    for seed in range(60):
        e = exercises.exercise_from_seed(seed, 2 + seed % 7, 3 + seed % 5)
        for key, total in marking.find_mistakes(e):
            told = marking.diagnose(e, lambda x, total=total: x == total)
            if say(f"wrong.{key}") in told:
                seen.add(key)
            assert told, (seed, key)
    assert seen == {"ramp", "gate", "cells", "start", "before", "alone", "last", "first"}


def test_of_its_own_outflows(marked):
    """A schedule that holds back has a total of its own, which may leave the ramps out too."""
    zeros = rows_of([[0, 0, 0]] * 3)
    assert marked(ida_csv=zeros + "total,40500\n")["ida"]["what a wrong total comes from"] == "of its own outflows"
    assert marked(ida_csv=zeros + "total,34800\n")["ida"]["what a wrong total comes from"] == "of its own outflows, and ramp queues left out"
    row = marked(ida_csv="gate,6532\nroad,20866\nramp,5701\ntotal,33099\n")["ida"]
    assert row["what a wrong total comes from"] == "the sum of its times at gate, cells and ramps, of which one is wrong"
    assert (row["gate time"], row["ramp time"]) == ("right", "5701, not 5700")


def filled(e, language="en", student="", **changed):
    """The form of an exercise with the engine's run in it, as a spreadsheet saves it."""
    t, lines = Words(language), []
    text = exercises.answer_form(e, t, student)
    separator = ";" if language != "en" else ","
    k = 0
    times = iter([e.run.gate, e.run.road, e.run.ramp, e.run.total])
    for line in text.removeprefix("\ufeff").splitlines():
        first = line.split(separator)[0]
        if first.isdecimal():
            row = [k, *e.run.outflow[k].tolist(), *e.run.held[k].tolist(), *e.run.queue[k, e.ramps].tolist()]
            line, k = separator.join(map(str, changed.get(f"row{k}", row))), k + 1
        elif first.lower().startswith(t("times").lower()) or first == t("total"):
            line = f"{first}{separator}{t.number(next(times))}" if separator == ";" else f'{first},"{t.number(next(times))}"'
        elif first == t("form.whose"):
            line = f"{first}{separator}everyone; and all, too"
        lines.append(line)
    return "\n".join(lines) + "\n"


@pytest.mark.parametrize("language", ["en", "de", "fr"])
@pytest.mark.parametrize("cells", [1, 3, 8])
def test_forms_filled_in(language, cells, tmp_path):
    e = exercises.exercise_from_seed(3, cells, 5)
    (tmp_path / "a.csv").write_text(filled(e, language))
    m = marking.mark_answer(e, answers.read_answer(tmp_path / "a.csv", e.n, len(e.ramps), 5), "a")
    assert (m.outflows, m.states, m.right, set(m.times.values())) == ("right", "follow from its outflows", True, {"right"}), m
    assert m.whose.startswith("everyone")


def test_states(tmp_path, printed):
    def states(text):
        (tmp_path / "a.csv").write_text(text)
        return marking.mark_answer(printed, answers.read_answer(tmp_path / "a.csv", 2, 1, 3), "a").states

    assert states(filled(printed, row1=[1, 1358, 933, 1000, 2142, 2992, 4000, 1900])) == "after step 1, held in cell 1: 2992, where its own outflows leave 2991"
    assert states(filled(printed, row2=[2, 1252, 934, 1000, 1890, 3309, 4000, ""])) == "follow from its outflows, 1 missing"
    assert states(filled(printed, row2=[2, 1252, 934, 1000, 1890, 3309, 4000, 2101])) == "after step 2, queue of the ramp at cell 2: 2101, where its own outflows leave 2100"
    assert states(rows_of(RUN)) == "none"


def of_page(e, **changed):
    """The file that the page saves."""
    run, record = e.run, e.study.record
    top = {"format": "nobyaluk-answers", "version": 1, "exercise": {"record": base64.b64encode(record.data).decode(), "seed": e.seed, "cells": e.n, "steps": record.steps},
           "name": "Ada Lovelace", "outflows": run.outflow.tolist(), "held": run.held.tolist(), "queue": run.queue[:, e.ramps].tolist(), "gate": run.gate, "road": run.road,
           "ramp": run.ramp, "total": run.total, "whose": "everyone"}
    return json.dumps(top | changed)


def test_the_pages_file(marked, printed):
    row = marked(x_json=of_page(printed))["Ada Lovelace"]
    assert (row["outflows"], row["states"], row["total"], row["whose waiting, as written"]) == ("right", "follow from its outflows", "right", "everyone")
    row = marked(x_json=of_page(printed, total="27398", outflows=[[1500, None, 1000], [None] * 3, [None] * 3], name=""), answers_b_json=of_page(printed, name=""))
    assert row["x"]["outflows"] == "none" and row["x"]["what a wrong total comes from"] == "ramp queues left out" and row["answers_b"]["outflows"] == "right"
    row = marked(x_json=of_page(printed, outflows=[["1.5", 934, 1], [1358, 933, 1], [1252, 934, 1]], total="33.1", ramp="12.5"))["Ada Lovelace"]  # the page takes thousandths alone
    assert row["first broken rule"] == "step 0, the gate: 1.5 is no outflow in whole thousandths of a vehicle" and (row["total"], row["total given"]) == ("wrong", "33.1"), row
    assert row["notes"] == "the page asks for whole thousandths of a vehicle; marked as typed: 1.5, 12.5, 33.1" and row["ramp time"] == "12.5, not 5700"
    row = marked(x_json=of_page(printed, outflows=[[1, 1, 1], [1, 0, 1], [1, 1, 1]], held=[[None] * 3] * 3, queue=[[None]] * 3, gate=None, road=None, ramp=None, total=None))["Ada Lovelace"]
    assert (row["outflows"], row["notes"]) == ("allowed", ""), row  # one thousandth, not one vehicle


@pytest.mark.parametrize("name, text, say", [
    ("a_csv", "1500,934,x\n1,2,3\n", "row 1, column 3: 'x' is no number"), ("a_csv", "1,2\n", "2 numbers; a row has 3 outflows"), ("a_csv", rows_of(RUN + RUN), "the exercise has 3 steps"),
    ("a_csv", "step,gate,1,2\n0,1,2,3\n5,1,2,3\n", "the step is '5', where step 1 comes next"), ("a_csv", "unit,furlongs\n", "the unit is 'furlongs'"), ("a_csv", "total,abc\n", "'abc' is no number"),
    ("a_csv", "1,5,0,934,1,0\n1,3,0,9,1,0\n", "put semicolons between fields"), ("a_json", "{", "it is no JSON"), ("a_json", "[" * 100000, "it is no JSON"), ("a_json", "{}", "not the page's file"),
    ("a_json", '{"format": "nobyaluk-answers", "version": 2}', "not the page's file"), ("a_json", '{"format": "nobyaluk-answers", "version": 1, "exercise": {"record": "%"}}', "a record in base64"),
    ("a_csv", "exercise,seed=8&cells=4&steps=6\n" + rows_of(RUN), "it answers seed=8&cells=4&steps=6"), ("a_csv", "total,-5\n", "row 1, total: '-5' is below 0; every count and every time is 0 or more"), ("a_csv", "total," + "9" * 5000 + "\n", "has more than 15 digits"),
    ("a_csv", "x" * 200_000 + "\n", "field larger"), ("a_csv", '"' + "1,2,3\n" * 5, "row"), ("a_csv", "total,1e999999999\n", "is no number"), ("a_csv", "1,2,3,4,5\n", "5 numbers; a row has 3"),
])
def test_a_bad_file_is_named_and_the_others_are_marked(marked, capsys, name, text, say):
    rows = marked(**{name: text, "good_csv": rows_of(RUN)})
    assert rows["good"]["outflows"] == "right" and say in rows["a"]["notes"], rows["a"]
    assert marked(status=2, **{name: text})["a"]["outflows"] == ""


def test_bad_bytes_and_sizes(tmp_path, told, examples):
    folder = tmp_path / "answers"
    folder.mkdir()
    (folder / "a.csv").write_bytes(b"\xff\xfe1,2,3\n")
    (folder / "b.csv").write_bytes(b"1" * ((1 << 20) + 1))
    (folder / "c.csv").write_text(rows_of(RUN))
    (folder / "d.pdf").write_text("x")
    status, out, err = told("mark", examples / "printed-run.rec", folder, "-o", tmp_path / "m")
    assert status == 0 and "a.csv: it is not in UTF-8" in err and "b.csv: it has more than 1,048,576 bytes" in err and "1 file neither .csv nor .json, not marked: d.pdf" in err and "1 marked of 3" in out
    assert told("mark", examples / "printed-run.rec", tmp_path / "none")[::2] == (2, f"nobyaluk: there is no {tmp_path}/none\n")
    assert told("mark", examples / "rocade-sud.rec", folder, "-o", tmp_path / "m")[0] == 1
    (tmp_path / "empty").mkdir()
    assert "0 answers" in told("mark", examples / "printed-run.rec", tmp_path / "empty")[2]


def test_names_are_no_formulas_and_no_html(marked, tmp_path):
    rows = marked(a_csv='name,"=cmd|\' /C calc\'!A0"\ntotal,1\nwhose waiting,<script>alert(1)</script>\n', b_csv="name,@x\nwhose waiting,+1\n")
    assert set(rows) == {"'=cmd|' /C calc'!A0", "'@x"} and rows["'@x"]["whose waiting, as written"] == "'+1"
    page = (tmp_path / "marks.html").read_text()
    assert "<script>" not in page and "&lt;script&gt;" in page


def test_nothing_is_written_over_an_answer(tmp_path, told, examples):
    folder = tmp_path / "answers"
    folder.mkdir()
    (folder / "anna.csv").write_text(rows_of(RUN))
    status, _, err = told("mark", examples / "printed-run.rec", folder / "anna.csv", "-o", folder / "anna")
    assert status == 2 and "not written over the input" in err and (folder / "anna.csv").read_text() == rows_of(RUN)
    assert told("mark", examples / "printed-run.rec", folder, "-o", folder / "marks")[0] == 0
    assert "1 marked of 1" in told("mark", examples / "printed-run.rec", folder, "-o", folder / "marks")[1]  # its own table is no answer


def test_a_class(tmp_path, told):
    (tmp_path / "names.txt").write_text("Anna\nBen\nCleo\nDora\n")
    assert told("exercise", "--seed", 7, "--students", tmp_path / "names.txt", "-o", tmp_path / "c", "--no-pdf")[0] == 0
    seats = {x.student: x.exercise for x in exercises.read_class(tmp_path / "c")}
    (tmp_path / "in").mkdir()
    (tmp_path / "in/anna.csv").write_text(filled(seats["Anna"], student="Anna"))
    (tmp_path / "in/from-the-page.json").write_text(of_page(seats["Ben"], name="ben"))
    (tmp_path / "in/cleo.csv").write_text(filled(seats["Anna"], student="Cleo"))  # Anna's
    (tmp_path / "in/zoe.csv").write_text("total,1\n")
    status, out, err = told("mark", tmp_path / "c", tmp_path / "in", "-o", tmp_path / "m")
    rows = {r["student"]: r for r in csv.DictReader(open(tmp_path / "m.csv"))}
    assert status == 0 and [rows[x]["outflows"] for x in ("Anna", "Ben")] == ["right", "right"] and rows["Dora"]["notes"] == "no answer"
    assert "it answers seed=7&cells=4&steps=6, and the exercise is seed=9&cells=4&steps=6" in rows["Cleo"]["notes"]
    assert "nobody in the class is called 'zoe'" in rows["zoe"]["notes"] and list(rows)[:2] == ["Anna", "Ben"] and "zoe.csv" in err and "2 marked of 5" in out
    (tmp_path / "in/answers-dora.csv").write_bytes(b"\xff\xfe\x00")  # damaged, and still Dora's
    told("mark", tmp_path / "c", tmp_path / "in", "-o", tmp_path / "m")
    rows = [(r["student"], r["notes"]) for r in csv.DictReader(open(tmp_path / "m.csv"))]
    assert [x for x, _ in rows] == ["Anna", "Ben", "Cleo", "Dora", "zoe"] and "answers-dora.csv: it is not in UTF-8" in rows[3][1]


def test_the_name_in_a_file_comes_before_the_files_own(tmp_path, told):
    (tmp_path / "names.txt").write_text("Anna B\nAnna-B\nBen\n")
    assert told("exercise", "--seed", 7, "--students", tmp_path / "names.txt", "-o", tmp_path / "c", "--no-pdf")[0] == 0
    seats = {x.student: x.exercise for x in exercises.read_class(tmp_path / "c")}
    (tmp_path / "in").mkdir()
    for file, student in (("anna-b", "Ben"), ("x", "Anna-B"), ("y", "anna b")):
        (tmp_path / f"in/{file}.csv").write_text(f"name,{student}\ntotal,{seats['Anna B' if student == 'anna b' else student].run.total}\n")
    assert told("mark", tmp_path / "c", tmp_path / "in", "-o", tmp_path / "m")[0] == 0
    found = [(r["student"], r["file"].rpartition("/")[2], r["total"]) for r in csv.DictReader(open(tmp_path / "m.csv"))]
    assert found == [("Anna B", "y.csv", "right"), ("Anna-B", "x.csv", "right"), ("Ben", "anna-b.csv", "right")], found


def test_numbers():
    read = lambda text: answers.parse_number(text)
    assert read("") is None and read(" \u202f ") is None
    for text, parts, vehicles in (("1500", 1500, 1_500_000), ("1,500", 1500, 1500), ("1.500", 1500, 1500), ("1.234.567", 1234567, None), ("0,5", None, 500), ("20.25", None, 20250), ("1,234.5", None, 1234500),
                                  ("1.234,5", None, 1234500), ("1\u202f234", 1234, None), (".5", None, 500), ("0.934", None, 934)):
        x = read(text)
        assert parts is None or x.parts(False)[0] == parts, text
        assert vehicles is None or x.parts(True)[0] == vehicles, text
        assert x.is_of_vehicles == (parts is None), text
    for bad in ("x", "-1", "1e5", "1,2,3", "²", "1.2.3", "1" * 16, "٣"):
        with pytest.raises(ValueError):
            read(bad)


def test_works(tmp_path, examples):
    """A closure lowers what a cell may send, on the sheet, in the judge and in wrong rules alike."""
    study = load(examples / "exercise/works.toml")
    run = study.run()
    built, *open_ = np.frombuffer(study.lanes, np.uint8).reshape(-1, study.n)[:, 0].tolist()
    closed = [k for k, lanes in enumerate(open_) if lanes != built]
    most = engine.open_capacity(run.record.road.capacity[0], built, open_[closed[0]])
    for rule in marking.WRONG.values():
        assert 0 < rule(run.record, study.lanes).outflow[closed, 1].max() <= most < rule(run.record, b"").outflow[closed, 1].max()
