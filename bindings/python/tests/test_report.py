"""A report can be redone from its own page: it states all inputs of a study, has the study as a file, and its totals are those of that file's run."""
import html
import re
from dataclasses import replace

import pytest
from nobyaluk import StudyError, load, report, descriptions, summary
from nobyaluk.inline_svg import InlineSvg
from nobyaluk.redo import read_report

WORKS = """
base = "{}"
title = "Works, weights and four meters"
[weights]
gate = 3
road = 2
ramps = {{ 16 = 7 }}
[meter.2]
law = "fixed"
rate = 431
[meter.5]
law = "demand-capacity"
least = 300
[meter.7]
law = "open"
[meter.all]
law = "alinea"
gain_kmh = 7
target = 20
"""


@pytest.fixture(scope="module")
def written(tmp_path_factory):
    """A report of four studies, as `nobyaluk report` writes it."""
    from conftest import ROOT
    from nobyaluk.cli import main

    folder, studies = tmp_path_factory.mktemp("report"), ROOT / "examples/studies"
    (folder / "works.toml").write_text(WORKS.format(studies / "rocade-sud-works.toml"))
    names = [studies / "five-cells.toml", studies / "rocade-sud-plan.toml", folder / "works.toml", ROOT / "examples/detectors/counts.toml"]
    assert main(["report", *map(str, names), "-o", str(folder / "r.html")]) == 0
    return folder / "r.html", [load(x) for x in names]


def files(page):
    """The files that a page has, as a person takes them from it: marked text, unescaped."""
    return {name: html.unescape(text) for name, text in re.findall(r'<pre class=file data-name="([^"]*)">(.*?)</pre>', page, re.S)}


def test_a_study_is_rebuilt_from_what_a_report_says(written, tmp_path):
    """Taken out by hand, loaded and run: the totals of the table, in hours, and those below each study, to the part."""
    path, studies = written
    page = path.read_text()
    found = files(page)
    assert list(found) == ["five-cells.toml", "rocade-sud-plan.toml", "works.toml", "counts.toml"]
    stated_totals = re.findall(r"<code class=totals>([^<]*)</code>", page)
    assert len(stated_totals) == 4
    for (name, text), line, study in zip(found.items(), stated_totals, studies):
        (tmp_path / name).write_text(text)
        again, run = load(tmp_path / name), study.run()
        r = again.run()
        weighted = f" weighted {r.weighted}" if r.weighted is not None else ""
        assert line == f"total {r.total} gate {r.gate} road {r.road} ramp {r.ramp} exits {r.exits}{weighted}"
        assert (r.total, r.weighted, report.record_sha256(r)) == (run.total, run.weighted, report.record_sha256(run)) and report.record_sha256(r) in page
        assert f"<td>{summary.hours(r, again.seconds).total:,.2f}</td>" in page and again.title == study.title


def test_redo(written, told, tmp_path):
    path, _ = written
    status, out, err = told("redo", path, "-o", tmp_path / "out")
    there = {x.name: x.read_bytes() for x in (tmp_path / "out").iterdir()}
    assert told("redo", path, "-o", tmp_path / "out")[0] == 0 and {x.name: x.read_bytes() for x in (tmp_path / "out").iterdir()} == there  # no copies
    changed = next((tmp_path / "out").glob("*.toml"))
    changed.write_text("mine\n")
    refused = told("redo", path, "-o", tmp_path / "out")
    assert refused[0] == 2 and f"{changed} already exists and would be replaced" in refused[2] and changed.read_text() == "mine\n"
    assert told("redo", path, "-o", tmp_path / "out", "--force")[0] == 0 and changed.read_bytes() == there[changed.name]
    assert (status, err) == (0, "") and out.splitlines()[-1] == f"{tmp_path}/out: 4 studies" and out.count("the same totals and record") == 4
    assert told("run", tmp_path / "out/works.toml")[0] == 0
    assert told("redo", path)[0] == 0 and not list(tmp_path.glob("*.toml"))
    other = tmp_path / "other.html"
    other.write_text(path.read_text().replace("law = &quot;open&quot;", "law = &quot;fixed&quot;\nparts = { rate = 900.0 }", 1))
    status, out, _ = told("redo", other)
    assert status == 1 and "five-cells: the run has total" in out and "the report says total 30656" in out


def test_what_is_no_report(written, told, tmp_path):
    (tmp_path / "a.html").write_text("<p>nothing</p>")
    assert told("redo", tmp_path / "a.html")[::2] == (2, f"nobyaluk: {tmp_path}/a.html: it has no studies; a report of `nobyaluk report` has them\n")
    assert told("redo", tmp_path / "none.html")[0] == 2
    page = written[0].read_text()
    (tmp_path / "b.html").write_text(page.replace('data-name="works.toml"', 'data-name="../works.toml"'))
    status, _, err = told("redo", tmp_path / "b.html", "-o", tmp_path / "out")
    assert status == 2 and "'../works.toml' is no name of a study's file" in err and not (tmp_path / "works.toml").exists()
    (tmp_path / "c.html").write_text(page.replace("steps = 225", "steps = 22x", 1))
    status, _, err = told("redo", tmp_path / "c.html")
    assert status == 2 and "five-cells.toml" in err


def test_a_report_states_what_went_in(written):
    """Meter laws with gains and rates, works, arrivals, releases, weights, versions, filled gaps, sums."""
    page = html.unescape(written[0].read_text())
    for words in ("open: every arrival passes if the cell has room", "fixed rate 431 veh/h", "demand-capacity, capacity 5,257.08 veh/h", "least rate 300 veh/h",
                  "ALINEA, gain 7 km/h (0.0777778 a step), target 20 vehicles (40 veh/km)", "by the table of releases, as the most",
                  "<td>cell 19</td><td>1 of 3</td><td>07:00:00</td><td>07:30:00</td>", "<td>each cell</td><td>2</td>", "<td>queue of ramp 16</td><td>7</td>",
                  "No lane is closed.", "the waiting of every vehicle counts alike", "07:00:00 to 09:05:40", "record: version 2", "Gaps that were filled", "54.667 to 56.333",
                  "<h3>Table of releases</h3>", "SHA-256", "boundary", "numpy", "Python", "The studies differ in their number of steps"):
        assert words in page, words
    arrivals = re.search(r"<h3>Arrivals</h3>(.*?)</table>", page, re.S)[1]
    assert "<td>gate</td>" in arrivals and "<td>ramp Mill Street</td>" in arrivals and "<td>3,900.000</td>" in arrivals


def test_titles_and_one_minus_sign(written):
    """Tables and headings have titles; numbers below 0 have one sign everywhere but in the files and what they quote."""
    page = written[0].read_text()
    compared = page[page.index("<table>") : page.index("</table>")]
    assert "Rocade Sud, Grenoble: a time-of-day plan" in compared and "rocade-sud-plan" not in compared and "<h2>Works, weights and four meters</h2>" in page
    text = re.sub(r"<pre class=file.*?</pre>|<svg.*?</svg>|<style>.*?</style>|<td class=text>[^<]*</td>", "", page, flags=re.S)
    assert "−" in text and not re.search(r">[^<]*(?<![\w(.,-])-\d[^<]*</td>", text)


def test_titles_that_are_alike(examples, tmp_path):
    a = load(examples / "studies/five-cells.toml")
    r = a.run()
    names = [s.name for s, _ in report.name_by_title([(a, r), (replace(a, name="b"), r), (replace(a, name="b"), r), (replace(a, title="other"), r)])]
    assert len(set(names)) == 4 and names[0] == f"{a.title} (five-cells)" and names[3] == "other"
    (tmp_path / "r.html").write_text(report.make_page([(a, r), (a, r)]))
    assert len(read_report(tmp_path / "r.html")) == 2


def test_two_studies_of_one_file_name(examples, told, tmp_path):
    a = load(examples / "studies/five-cells.toml")
    half = a.scaled(0.5)
    (tmp_path / "r.html").write_text(report.make_page([(a, a.run()), (replace(half, name="five-cells"), half.run())]))
    assert told("redo", tmp_path / "r.html", "-o", tmp_path / "out")[0] == 0
    assert load(tmp_path / "out/five-cells.toml").run().total == a.run().total and load(tmp_path / "out/five-cells-2.toml").run().total == half.run().total


def test_a_record_without_seconds(examples, told, tmp_path):
    """Its bytes are in the page, with a study next to them."""
    assert told("report", examples / "printed-run.rec", "-o", tmp_path / "r.html")[0] == 0
    assert told("redo", tmp_path / "r.html", "-o", tmp_path / "out")[0] == 0
    assert (tmp_path / "out/printed-run.rec").read_bytes() == (examples / "printed-run.rec").read_bytes()


def test_a_study_takes_less_than_a_megabyte(written, examples, tmp_path):
    path, _ = written
    assert path.stat().st_size < 4 * 600_000
    (tmp_path / "long.toml").write_text(f'base = "{examples}/studies/rocade-sud-works.toml"\nsteps = 1440\n')
    s = load(tmp_path / "long.toml").with_stated_load(1, 24_000, 6_000)
    page = report.make_page([(s, s.run())])
    assert len(page.encode()) < 1_000_000 and "data:image/png" in page
    (tmp_path / "r.html").write_text(page)
    (x,) = read_report(tmp_path / "r.html")
    (tmp_path / "again.toml").write_text(x.files[next(iter(x.files))])
    assert load(tmp_path / "again.toml").run().total == s.run().total


def test_drawings_are_made_small():
    """Fewer digits, one path for lines of one style, each letter once; filled shapes and other numbers as they are."""
    line = '<path d="M 1.23456 2 \nL 3 4.98765 " clip-path="url(#p1)" style="fill: none; stroke: #000000"/>'
    fill = '<path d="M 1 2 \nL 3 4 z" style="fill: #fff"/>'
    letter = '<path id="DejaVuSans-41" d="M 1 2 \nz" transform="scale(0.015625)"/>'
    one = InlineSvg()
    assert one.small(f"<svg>\n<defs>\n {letter}\n</defs>\n {line}\n {line}\n {fill}\n {fill}\n <use x=\"1.23456\"/></svg>") == (
        '<svg>\n<defs>\n<path id="DejaVuSans-41" d="M 1 2 z" transform="scale(0.015625)"/>\n</defs>\n'
        '<path d="M 1.23 2 L 3 4.98 M 1.23 2 L 3 4.98" clip-path="url(#p1)" style="fill: none; stroke: #000000"/>\n'
        '<path d="M 1 2 L 3 4 z" style="fill: #fff"/>\n<path d="M 1 2 L 3 4 z" style="fill: #fff"/>\n<use x="1.23456"/></svg>')
    assert "DejaVuSans-41" not in one.small(f"<svg>\n{letter}\n</svg>")


def test_laws_in_words(examples):
    s = load(examples / "studies/rocade-sud-alinea.toml")
    assert descriptions.describe_law(s, 7) == "ALINEA, gain 9 km/h (0.1 a step), target 26 vehicles (52 veh/km)"
    assert descriptions.describe_law(replace(s, lengths=None, seconds=None), 7) == "ALINEA, gain 0.1 a step, target 26 vehicles"
    assert descriptions.describe_law(replace(s, laws={}), 7) == "by the table of releases, exactly"


def test_reports_of_nothing_fail(tmp_path):
    (tmp_path / "x.html").write_bytes(b"\xff\xfe")
    with pytest.raises(StudyError, match="UTF-8"):
        read_report(tmp_path / "x.html")
