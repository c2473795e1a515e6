"""`nobyaluk exercise` with -o: sheets that give nothing away, keys that have it all, forms, and the class as mark reads it."""
import csv
import html
import re
import shutil
import subprocess

import pytest
from nobyaluk import engine, load
from nobyaluk.teaching.words import LANGUAGES, Words
from nobyaluk.teaching import sheet, exercises

QUESTION = """\
title = "Question four"
step = 30
steps = 6
[gate]
capacity = 3000
queue = 20
[defaults]
length = 0.75
speed = 90
wave = 20
jam = 200
capacity = 3000
held = 30
[[cell]]
[[cell]]
split = 0.75
[[cell]]
ramp = "Harbour"
queue = 12
[[cell]]
capacity = 2000
[arrivals]
unit = "veh/h"
minutes = [0]
gate = [2400]
Harbour = [900]
[releases]
unit = "veh/h"
minutes = [0]
Harbour = [600]
cap = false
"""


@pytest.fixture
def question(tmp_path):
    (tmp_path / "q4.toml").write_text(QUESTION)
    return tmp_path / "q4.toml"


def words_of(page):
    """A page's text, without its style."""
    return re.sub(r"[ \n]+", " ", html.unescape(re.sub(r"<[^>]+>", " ", re.sub(r"<style>.*?</style>", "", page.replace("\u200b", ""), flags=re.S))))


@pytest.mark.parametrize("lang", LANGUAGES)
def test_a_sheet_and_its_key(question, told, tmp_path, lang):
    status, out, err = told("exercise", question, "-o", tmp_path / "c", "--lang", lang, "--no-pdf")
    assert (status, err) == (0, "") and "1 sheet to hand out" in out
    t, run = Words(lang), load(question).run()
    page, key = (tmp_path / "c/sheets/exercise.html").read_text(), (tmp_path / "c/keys.html").read_text()
    given, answers = words_of(page), words_of(key)
    for words in (t("question"), "Question four", "Harbour", "0,75 km" if lang != "en" else "0.75 km", t("unit.flow"), t("unit.speed"), t("seconds", x=30), t("whose"), t("total")[1:]):
        assert words in given, words
    assert f"<html lang={lang}>" in page and page.count("<svg") == 1 and f"{t('off-ramp')} 25 %" in given
    # the sheet gives nothing away: neither who is counted, nor a number of the run
    for secret in (t("whose.key"), t.number(run.total), t.number(run.gate), t.number(run.road), t("present"), t("wrong.ramp")):
        assert secret not in given and secret in answers, secret
    fields = re.search(r"<table class=answers[^>]*>(.*?)</table>", page, re.S)[1]
    assert len(re.findall(r"<td[^>]*></td>", fields)) == 6 * (5 + 5 + 1) and page.count("<div class=rule></div>") == 3
    for number in (*run.outflow.flatten().tolist(), *run.held.flatten().tolist(), *run.queue[:, 3].tolist()):
        assert t.number(number) in answers


def test_no_word_of_another_language():
    words = {lang: Words(lang) for lang in LANGUAGES}
    for lang, t in words.items():
        others = [x for x in LANGUAGES if x != lang]
        assert all(t("question") != words[x]("question") for x in others)
    assert "Zuflussregelung" in words["de"]("question") and "Gesamtaufenthaltszeit" in words["de"]("question") and "Abfluss" in words["de"]("outflow")
    assert "Fahrstreifen" in words["de"]("works") and "régulation d’accès" in words["fr"]("question") and "l’attente de qui" in words["fr"]("question")
    assert words["fr"].number(1234567) == "1\u202f234\u202f567" and words["de"].decimal(1234.5, 2) == "1.234,50" and words["en"].decimal(0.25, 2) == "0.25"


def test_the_listing_stays(question, told, examples):
    run = told("run", question, "--listing")
    assert told("exercise", question) == told("exercise", question, "--listing") == run
    status, out, _ = told("exercise", "--seed", 7)
    assert status == 0 and out.splitlines()[-1].startswith("total ") and out == told("exercise", "--seed", 7, "--cells", 4, "--steps", 6)[1]
    assert told("exercise", examples / "rocade-sud.rec", "-o", "nowhere")[:2] == (1, "refused 26 0 0\n")


def test_a_class_of_names(told, tmp_path):
    (tmp_path / "names.txt").write_text("\ufeffAnna Müller\n\n=SUM(1)\n<b>Dora</b> & Co\nAnna-Müller\n")
    assert told("exercise", "--seed", 4294967295, "--students", tmp_path / "names.txt", "-o", tmp_path / "c", "--no-pdf")[0] == 0
    rows = list(csv.DictReader(open(tmp_path / "c/class.csv")))
    assert [r["student"] for r in rows] == ["Anna Müller", "'=SUM(1)", "<b>Dora</b> & Co", "Anna-Müller"]
    assert [r["exercise"] for r in rows] == [f"seed={x}&cells=4&steps=6" for x in (4294967295, 0, 1, 2)]
    assert len({r["files"] for r in rows}) == 4
    page = (tmp_path / "c/sheets" / f"{rows[2]['files']}.html").read_text()
    assert "&lt;b&gt;Dora&lt;/b&gt; &amp; Co" in page and "<b>Dora" not in page
    assert len(re.findall("<div class=page>", (tmp_path / "c/keys.html").read_text())) == 4
    seats = exercises.read_class(tmp_path / "c")
    assert [x.student for x in seats] == ["Anna Müller", "=SUM(1)", "<b>Dora</b> & Co", "Anna-Müller"] and seats[1].exercise.seed == 0
    assert seats[1].exercise.run.total == exercises.exercise_from_seed(0, 4, 6).run.total


def test_seeds(told, tmp_path):
    assert told("exercise", "--seeds", "1:3", "--cells", 8, "--steps", 5, "-o", tmp_path / "c", "--no-pdf", "--lang", "de")[0] == 0
    names = sorted(p.name for p in (tmp_path / "c/sheets").iterdir())
    assert names == [f"seed-{x}.{y}" for x in (1, 2, 3) for y in ("csv", "html")]
    assert "landscape" in (tmp_path / "c/sheets/seed-1.html").read_text()
    assert (tmp_path / "c/sheets/seed-2.csv").read_text("utf-8-sig").startswith("Übung;seed=2&cells=8&steps=5\n")


def test_one_study_for_a_class(question, told, tmp_path):
    (tmp_path / "names.txt").write_text("Anna\nBen\n")
    assert told("exercise", question, "--students", tmp_path / "names.txt", "-o", tmp_path / "c", "--no-pdf", "--title", "Exam")[0] == 0
    assert words_of((tmp_path / "c/keys.html").read_text()).count("Anna, Ben") == 1
    assert len({x.exercise.id for x in exercises.read_class(tmp_path / "c")}) == 1
    assert "<h1>Exam</h1>" in (tmp_path / "c/sheets/ben.html").read_text()


def test_works_are_on_the_sheet(question, told, tmp_path):
    question.write_text(QUESTION.replace('[[cell]]\ncapacity = 2000\n', '[[cell]]\ncapacity = 2000\nlanes = 2\n[[closure]]\ncell = 4\nlanes = 1\nfrom = 2\nto = 4\n'))
    assert told("exercise", question, "-o", tmp_path / "c", "--no-pdf")[0] == 0
    given = words_of((tmp_path / "c/sheets/exercise.html").read_text())
    assert "Capacity where lanes are closed" in given and "cell 4 2 – 3 8,333" in given
    e = exercises.read_class(tmp_path / "c")[0].exercise
    assert e.study.lanes and e.run.total == load(question).run().total


def test_nothing_is_lost(question, told, tmp_path):
    """A form that a student has filled in is not replaced; the study is not written over."""
    assert told("exercise", question, "-o", tmp_path / "c", "--no-pdf")[0] == 0
    assert told("exercise", question, "-o", tmp_path / "c", "--no-pdf")[0] == 0  # the same again
    form = tmp_path / "c/sheets/exercise.csv"
    form.write_text("filled in\n")
    status, _, err = told("exercise", question, "-o", tmp_path / "c", "--no-pdf")
    assert status == 2 and "already exists and would be replaced" in err and form.read_text() == "filled in\n"
    assert told("exercise", question, "-o", tmp_path / "c", "--no-pdf", "--force")[0] == 0 and form.read_text() != "filled in\n"


@pytest.mark.parametrize("words, say", [
    ([], "an exercise is of a STUDY, or drawn by --seed or --seeds"), (["Q", "--seed", 1], "name one of them"), (["--seed", 1, "--seeds", "1:2"], "name one of them"),
    (["--seed", "x"], "whole number from 0"), (["--seed", 1 << 32], "whole number from 0"), (["--seeds", "3:1", "-o", "c"], "FIRST:LAST"), (["--seeds", "1:99999", "-o", "c"], "FIRST:LAST"),
    (["--seeds", "1:3"], "-o FOLDER writes the sheets of a class"), (["--seed", 1, "--cells", 9], "1 to 8"), (["--seed", 1, "--cells", 0], "1 to 8"), (["--seed", 1, "--steps", 0], "1 or more"),
    (["--seed", 1, "--steps", 1 << 60], "1 or more"), (["--seed", 1, "--seconds", 20], "a seed draws its own road"), (["Q", "--steps", 3], "a study has its own"),
    (["--seed", 1, "--students", "NAMES", "-o", "c"], "appears twice"), (["--seeds", "1:3", "--students", "TWO", "-o", "c"], "2 names and --seeds 3 seeds"),
    (["--seed", 1, "--students", "LONG", "-o", "c"], "is no name"), (["--seed", 1, "--students", "EMPTY", "-o", "c"], "0 names"), (["--seed", 1, "--students", "none", "-o", "c"], "there is no"),
])
def test_wrong_calls(question, told, tmp_path, monkeypatch, words, say):
    monkeypatch.chdir(tmp_path)
    for name, text in (("NAMES", "Anna\nanna\n"), ("TWO", "A\nB\n"), ("LONG", "x" * 101), ("EMPTY", "\n")):
        (tmp_path / name).write_text(text)
    status, out, err = told("exercise", *[question if x == "Q" else x for x in words])
    assert (status, out) == (2, "") and say in err and "Traceback" not in err and not (tmp_path / "c").exists()


def test_too_long_for_an_exercise(told):
    status, _, err = told("exercise", "--seed", 1, "--cells", 8, "--steps", 58)
    assert status == 1 and "refused 26" in err


def test_sheets_and_marks_have_the_same_limits(told, tmp_path, examples):
    """What `exercise -o` writes, `mark` takes: at most 8 cells and 4,096 bytes, whatever the options say."""
    for words, say in ((["--bytes", 60000], "--bytes is 60000; a sheet is of at most 4,096, as `mark` takes it"), (["--cells", 64], "--cells is 64; a sheet is of at most 8,")):
        status, out, err = told("exercise", examples / "rocade-sud.rec", *words, "-o", tmp_path / "c", "--no-pdf")
        assert (status, out) == (2, "") and say in err and not (tmp_path / "c").exists()
    assert told("exercise", examples / "rocade-sud.rec", "--bytes", 65536, "--cells", 64)[0] == 0  # the listing takes other limits
    assert told("exercise", examples / "printed-run.rec", "--bytes", 123, "-o", tmp_path / "c")[:2] == (1, "refused 26 0 0\n")
    assert told("exercise", examples / "printed-run.rec", "--bytes", 4096, "--cells", 8, "-o", tmp_path / "c", "--no-pdf")[0] == 0
    (tmp_path / "a.csv").write_text("total,33098\n")
    assert told("mark", tmp_path / "c", tmp_path / "a.csv", "-o", tmp_path / "m")[0] == 0


def test_weights_are_not_on_a_sheet(told, tmp_path, examples):
    path = examples / "exercise/weights.toml"
    status, _, err = told("exercise", path, "-o", tmp_path / "c", "--no-pdf")
    assert status == 0 and err == f"nobyaluk: note: {path} has [weights]; sheet and key ask for the plain total, in which all waiting counts alike\n"
    assert told("exercise", examples / "exercise/road.toml", "-o", tmp_path / "d", "--no-pdf")[2] == ""


@pytest.mark.parametrize("name", ["road", "works"])
def test_present_is_the_engines(examples, monkeypatch, name):
    """The key's table of those present is the engine's count of each state and its running total, which ends with the run's."""
    e, seen = exercises.exercise_from_file(examples / f"exercise/{name}.toml"), []
    count = engine.present
    monkeypatch.setattr(engine, "present", lambda road, state: seen.append(engine.total(state)) or count(road, state))
    page = words_of(sheet._present(e, Words("en")))
    run = e.run
    assert len(seen) == run.record.steps and seen[-1] == run.total
    assert f"sum {run.gate:,} {run.road:,} {run.ramp:,} {run.total:,}" in " ".join(page.split())


def test_many_ramps_fit_the_page(question, told, tmp_path):
    """Answers of more than twelve columns are in two tables, and a German heading breaks a word only by a hyphen."""
    ramps = "".join(f"[[cell]]\nramp = \"R{i}\"\n" for i in range(4))
    given = QUESTION.partition("[[cell]]")[0] + ramps + "[arrivals]\nminutes = [0]\ngate = [2400]\n" + "".join(f"R{i} = [300]\n" for i in range(4)) + '[meter.all]\nlaw = "open"\n'
    question.write_text(given)
    for path, tables in ((question, 2), (None, 1)):
        of = [path] if path else ["--seed", 1]
        assert told("exercise", *of, "-o", tmp_path / f"c{tables}", "--no-pdf", "--lang", "de")[0] == 0
        page = next((tmp_path / f"c{tables}/sheets").glob("*.html")).read_text()
        assert page.count("<table class=answers") == tables and page.count("<table class=many") == tables - 1
        heads = re.findall(r"<th[^>]*>([^<]*)</th>", "".join(re.findall(r"<table class=answers.*?</thead>", page, re.S)))
        assert "Ein\u00adgang" in heads and not [x for x in heads if re.search("Eingang|Auffahrt|Schlange", x)], heads
    form = (tmp_path / "c2/sheets/exercise.csv").read_text("utf-8-sig")
    assert "Abfluss Eingang" in form and "\u00ad" not in form


def test_help_says_defaults(told):
    for name in ("exercise", "mark", "sweep"):
        page = told(name, "--help")[1]
        assert "default: " in page and "unless you say" not in page


def test_pdf(question, told, tmp_path, monkeypatch):
    monkeypatch.setattr(sheet, "pdf_maker", lambda: None)
    status, out, err = told("exercise", question, "-o", tmp_path / "c")
    assert status == 0 and err == f"nobyaluk: {sheet.MISSING}\n" and (tmp_path / "c/sheets/exercise.html").exists() and not list((tmp_path / "c").rglob("*.pdf"))
    monkeypatch.undo()
    if sheet.pdf_maker() is None:
        pytest.skip("no weasyprint")
    assert told("exercise", question, "-o", tmp_path / "d")[0] == 0
    for name in ("sheets/exercise.pdf", "keys.pdf"):
        assert (tmp_path / "d" / name).read_bytes().startswith(b"%PDF-")
    if shutil.which("pdftotext"):
        said = subprocess.run(["pdftotext", tmp_path / "d/sheets/exercise.pdf", "-"], capture_output=True, text=True).stdout
        assert "Harbour" in said and "Whose waiting does your total count?" in said


def test_a_folder_that_is_no_class(tmp_path, told):
    assert "it has no class.csv" in told("mark", tmp_path, tmp_path)[2]
    (tmp_path / "class.csv").write_text("student,exercise,study,files\nA,seed=1&cells=1&steps=1,../x.rec,a\n")
    assert "it is a file in this folder" in told("mark", tmp_path, tmp_path)[2]
    (tmp_path / "class.csv").write_text("a,b\n")
    assert "it is not as `exercise -o` writes it" in told("mark", tmp_path, tmp_path)[2]
