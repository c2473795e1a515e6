"""Pictures by what they show: the data of what is drawn, its axes, its legend; and the page that has them."""
import re
import subprocess
import sys
from html.parser import HTMLParser

import numpy as np
import pytest

pytest.importorskip("matplotlib")
from matplotlib.patches import PathPatch  # noqa: E402
from matplotlib.text import Text  # noqa: E402
from nobyaluk import StudyError, figures, load, report, scales, summary  # noqa: E402
from nobyaluk.cli import main  # noqa: E402


@pytest.fixture(scope="module")
def works(examples):
    s = load(examples / "studies/rocade-sud-works.toml")
    return s, s.run()


@pytest.fixture(scope="module")
def five(examples):
    return [(s, s.run()) for s in (load(examples / f"studies/five-cells{x}.toml") for x in ("", "-alinea"))]


def drawn(kind, *arguments):
    figure = figures.draw(figures.MORE.get(kind, figures.totals), *arguments)
    figure.canvas.draw()
    return figure


def legend(ax):
    return [t.get_text() for t in ax.get_legend().get_texts()]


def clock(ax):
    return [t.get_text() for t in ax.get_xticklabels()]


def test_density_over_place_and_time(works):
    s, r = works
    for kind, scale in (("density", 1 / 1000 / np.array(s.lengths)), ("space-time", s.record.column("speed") / 1000 / s.record.column("capacity"))):
        figure = drawn(kind, s, r)
        ax, bar = figure.axes
        mesh = ax.collections[0]
        assert np.allclose(np.asarray(mesh.get_array()).reshape(21, 377), (r.held[:, 1:] * scale).T)
        assert ax.get_xlim() == (7 * 3600, 7 * 3600 + 377 * 20) and np.isclose(ax.get_ylim()[1], sum(s.lengths))
        assert "07:30" in clock(ax) and ax.get_xlabel() == "time of day" and "km" in ax.get_ylabel()
        assert {"lanes closed", "on-ramp", "off-ramp"} < set(legend(ax))
        if kind == "density":
            most = (r.held[:, 1:] * scale).max()
            assert most <= mesh.norm.vmax <= 1.5 * most and bar.get_ylabel() == "density, all lanes (veh/km); jam density 250"  # what occurs
    assert "critical" in bar.get_ylabel()


def hatched(path, points):
    """Which points lie in one of a path's rectangles."""
    boxes = path.vertices.reshape(-1, 5, 2)
    low, high = boxes.min(1), boxes.max(1)
    return np.array([((low < p) & (p < high)).all(1).any() for p in points])


def test_the_outline_is_where_cells_send_less_than_they_could(works):
    s, r = works
    figure = drawn("space-time", s, r)
    *hatches, outline, works = (p for p in figure.axes[0].get_children() if isinstance(p, PathPatch))
    there = (r.outflow < summary.demands(r))[:, 1:]
    waits = np.pad(there, 1).astype(int)
    borders = int(np.abs(np.diff(waits, axis=0)[:, 1:-1]).sum() + np.abs(np.diff(waits, axis=1)[1:-1]).sum())
    edges, places = 25200 + 20 * np.arange(378), np.concatenate([[0], np.cumsum(s.lengths)])
    lines = outline.get_path().vertices.reshape(-1, 2, 2)
    spans = [abs(np.searchsorted(edges, x1) - np.searchsorted(edges, x0)) + abs(np.searchsorted(places, y1 - 1e-6) - np.searchsorted(places, y0 - 1e-6))
             for (x0, y0), (x1, y1) in lines]
    assert sum(spans) == borders > 100 and len(lines) < borders / 2  # in one stroke where it goes straight on
    assert works.get_hatch()
    corners = works.get_path().get_extents()
    assert (corners.x0, corners.x1) == (25200, 27000) and np.allclose((corners.y0, corners.y1), (sum(s.lengths[:18]), sum(s.lengths[:19])))
    assert len(hatches) == 2 and legend(figure.axes[0])[0].startswith("queue")
    ends = np.cumsum(s.lengths)
    middles = np.array([(25200 + 20 * k + 10, ends[i] - s.lengths[i] / 2) for k in range(377) for i in range(21)])
    path, to_picture = hatches[0].get_clip_path().get_transformed_path_and_affine()
    assert (hatched(hatches[0].get_clip_path()._path, middles) == there.ravel()).all() and np.allclose(to_picture.get_matrix(), figure.axes[0].transData.get_matrix())


def test_speed(works):
    s, r = works
    figure = drawn("speed", s, r)
    values = np.asarray(figure.axes[0].collections[0].get_array()).reshape(21, 377)
    assert np.allclose(values, summary.speeds(s, r).T) and values.max() < 91 and values.min() < 40
    assert figure.axes[1].get_ylabel() == "mean speed (km/h)" and figure.axes[1].get_ylim() == (0, 90)


def test_queues(five):
    s, r = five[1]
    figure = drawn("queues", s, r)
    ax = figure.axes[0]
    lines = {line.get_label(): line for line in ax.get_lines()}
    assert np.allclose(lines["ramp Mill Street"].get_ydata(), np.concatenate([[0], r.queue[:, 4] / 1000]))
    gate = lines["gate (without each\nstep's arrivals)"]
    assert np.allclose(gate.get_ydata()[1:], (r.held[:, 0].astype(int) - r.record.rows[:, 0]) / 1000) and ax.get_ylabel() == "vehicles waiting"
    box, axes = ax.get_legend().get_window_extent(), ax.get_window_extent()
    assert box.x0 >= axes.x1  # the legend is outside the data
    assert figure.bbox.x1 >= box.x1  # and is not cut off


def test_cumulative_curves(works):
    """The area between the curves is the total time spent."""
    s, r = works
    figure = drawn("cumulative", s, r)
    top, low = figure.axes
    came, left = (line.get_ydata() for line in top.get_lines()[:2])
    assert np.isclose((came - left)[1:].sum() * 20 / 3600, summary.hours(r, 20).total)
    rate = float(top.get_ylabel().split()[-2].replace(",", ""))  # the axes are oblique: a steady flow is taken off
    assert np.isclose(left[-1] + rate * 377 * 20 / 3600, r.exits / 1000) and rate > 5000 and top.get_ylabel().endswith(" veh/h")
    assert came.max() - came.min() < 0.25 * r.exits / 1000  # so that what lies between them can be seen
    assert "1,682.9 vehicle-hours" in low.get_legend().get_title().get_text() + " ".join(legend(low))
    assert [x.split(":")[0] for x in legend(low)] == ["on the road", "at the gate, arriving in the step", "at the gate, waiting", "at the ramps"]
    box, axes = low.get_legend().get_window_extent(), low.get_window_extent()
    assert box.y0 >= axes.y1 and box.y1 <= top.get_window_extent().y0 and box.x1 <= figure.bbox.x1  # between the two, over no data
    arriving, waiting = (float(x.split()[-2].replace(",", "")) for x in legend(low)[1:3])
    assert abs(arriving - r.record.rows[:, 0].sum() * 20 / 3.6e6) < 0.06 and abs(arriving + waiting - summary.hours(r, 20).gate) < 0.11


def test_totals(five):
    figure = drawn("totals", five)
    ax = figure.axes[0]
    widths = np.array([[bar.get_width() for bar in group] for group in ax.containers])
    want = np.array([[getattr(summary.hours(r, s.seconds), part) for s, r in five] for part in ("road", "gate", "ramp")])
    assert np.allclose([widths[0], widths[1] + widths[2], widths[3]], want)
    assert np.allclose(widths[1], [r.record.rows[:, 0].sum() * 20 / 3.6e6 for _, r in five])  # the step of arrival, apart
    assert legend(ax) == ["on the road", "at the gate, arriving in the step", "at the gate, waiting", "at the ramps"]
    box = ax.get_legend().get_window_extent()
    assert box.x0 >= 0 and box.x1 <= figure.bbox.x1 and not box.overlaps(figure._suptitle.get_window_extent())
    right = max(t.get_window_extent().x1 for t in ax.texts)
    assert right <= figure.bbox.x1 and any("−1.8 %" in t.get_text() for t in ax.texts)


def test_one_scale_for_all_that_are_compared(five):
    scales = figures.scales_of(five)
    for kind in figures.MORE:
        one, other = (drawn(kind, *pair, scales).axes for pair in five)
        if kind in ("space-time", "density", "speed"):
            norms = [axes[0].collections[0].norm for axes in (one, other)]
            assert norms[0].vmax == norms[1].vmax and norms[0].vmin == norms[1].vmin == 0
        else:
            assert [ax.get_ylim() for ax in one] == [ax.get_ylim() for ax in other], kind
            assert [ax.get_ylabel() for ax in one] == [ax.get_ylabel() for ax in other], kind
    alone = drawn("queues", *five[0]).axes[0].get_ylim()
    assert alone[1] < drawn("queues", *five[0], scales).axes[0].get_ylim()[1]  # of a study alone, what occurs in it


def test_the_scale_shows_all_densities():
    """The critical density is its middle, heavy queues still differ, and it grows darker all the way, as seen in grey."""
    norm, steps = figures.critical_norm(), np.linspace(0, 1, 200)
    assert norm(1) == 0.5 and norm(10) == 1 and np.all(np.diff(norm([3.5, 4, 5, 6, 7, 8])) > 0.02)
    for colours in (scales.FILLING, scales.SPEED.reversed()):
        rgb = colours(steps)[:, :3]
        light = np.where(rgb <= 0.04045, rgb / 12.92, ((rgb + 0.055) / 1.055) ** 2.4) @ [0.2126, 0.7152, 0.0722]
        assert np.diff(light).max() < 0.01
    blue, yellow = scales.FILLING(float(norm(0.95))), scales.FILLING(float(norm(1.0)))
    assert blue[2] - blue[0] > 0.1 and yellow[0] - yellow[2] > 0.3


def test_lanes_that_fall_are_marked(road):
    """Where lanes and capacity fall; a cell that says no lanes has one, which alone is no lane drop."""
    said = drawn("space-time", (s := load(road("[defaults] ", "[defaults]\nlanes = 3\n", "capacity = 3800", "capacity = 3800\nlanes = 2"))), s.run())
    assert "3 → 2 lanes" in text_of(said) and "fewer lanes" in legend(said.axes[0])
    assert [line.get_ydata()[0] for line in said.axes[0].get_lines() if len(line.get_ydata()) == 2] == [2.0]
    alone = drawn("space-time", (s := load(road("split = 0.8 ", "lanes = 2\nsplit = 0.8 "))), s.run())
    assert "fewer lanes" not in legend(alone.axes[0])


def edge_of(figure):
    """The names at the edge, with their places."""
    ax = figure.axes[0]
    return [(t.get_text(), t.get_window_extent()) for t in ax.texts if t.get_window_extent().x0 > ax.get_window_extent().x1 and t.get_text() not in "►◄"]


def test_ramps_are_named_at_the_edge(works, five):
    figure = drawn("space-time", *five[0])
    assert [x for x, _ in edge_of(figure)] == ["Mill Street"]
    figure = drawn("space-time", *works)
    assert [x for x, _ in edge_of(figure)] == list(works[0].ramps)
    at = figure.axes[0].transData.transform([(0, sum(works[0].lengths[:15]) + 0.25 * 0.5)])[0][1]
    box = dict(edge_of(figure))["16"]
    assert abs((box.y0 + box.y1) / 2 - at) < 4


@pytest.mark.parametrize("cells", [1, 5, 64])
def test_nothing_is_cut_off(cells):
    """All that is drawn lies in the picture, and no two names at the edge overlap, on small and on large roads."""
    from nobyaluk import Cell, Gate, Meter, Study

    names = [f"Interchange {i} of the western ring" for i in range(cells)]
    lanes = [3 if i % 7 else 2 for i in range(cells)]
    road = [Cell(length=0.5, speed=90, jam=75 * k, capacity=1800 * k, lanes=k, ramp=x, split=1 if i == cells - 1 else 0.9) for i, (x, k) in enumerate(zip(names, lanes))]
    s = Study.of(road, gate=Gate(5000), step=20, steps=60, start="23:50", arrivals={"gate": 4200, **dict.fromkeys(names, 400)}, meter=Meter("fixed", rate=300))
    r = s.run()
    for kind in (*figures.MORE, "totals"):
        figure = drawn(kind, *([[(s, r)]] if kind == "totals" else (s, r)))
        box, (width, height) = figure.get_tightbbox(), figure.get_size_inches()
        assert box.x0 > -0.01 and box.y0 > -0.01 and box.x1 < width + 0.01 and box.y1 < height + 0.01, (kind, box)
        names = [box for _, box in edge_of(figure)] if kind in ("space-time", "density", "speed") else []
        assert all(a.y1 <= b.y0 + 2 for a, b in zip(names, names[1:])), kind


def test_a_notebook_shows_a_picture_and_keeps_its_own(five, root):
    figure = drawn("queues", *five[0])
    assert figure._repr_png_().startswith(b"\x89PNG")
    asked = "import matplotlib as m; m.use('svg'); import nobyaluk.figures; print(m.get_backend())"
    out = subprocess.run([sys.executable, "-c", asked], capture_output=True, text=True, check=True)
    assert out.stdout == "svg\n"


def test_records_are_drawn_by_step_and_cell(examples):
    s = load(examples / "printed-run.rec")
    ax = drawn("space-time", s, s.run()).axes[0]
    assert ax.get_xlabel() == "step" and ax.get_ylabel().startswith("cell")
    with pytest.raises(StudyError, match="needs the cells' lengths"):
        figures.speed(s, s.run())


def test_files_of_every_form(examples, tmp_path, capsys):
    path = str(examples / "studies/five-cells.toml")
    for form, magic in (("png", b"\x89PNG"), ("svg", b"<?xml"), ("pdf", b"%PDF")):
        assert main(["plot", path, "-o", str(tmp_path), "--format", form, "--kind", "queues"]) == 0
        assert (tmp_path / f"five-cells-queues.{form}").read_bytes().startswith(magic)
    assert main(["plot", path, "-o", str(tmp_path)]) == 0
    assert len(list(tmp_path.glob("*.png"))) == 5


def test_one_scale_by_the_command(examples, tmp_path, monkeypatch):
    """Two pictures that are drawn one after the other, each with the other as `beside`, have one scale."""
    one, other = (str(examples / f"studies/five-cells{x}.toml") for x in ("", "-alinea"))
    ends = []
    monkeypatch.setattr(figures, "save", lambda figure, path, of="": ends.append(figure.axes[0].get_ylim()) or path)
    for study, beside in ((one, []), (one, ["--beside", other]), (other, ["--beside", one])):
        assert main(["plot", study, "-o", str(tmp_path), "--kind", "queues", *beside]) == 0
    assert ends[0] != ends[1] == ends[2]


class Page(HTMLParser):
    """What a page refers to, and its tags left open."""

    def __init__(self):
        super().__init__()
        self.open, self.outside = [], []

    def handle_starttag(self, tag, attrs):
        if tag not in ("meta", "link", "img", "br", "path", "use"):
            self.open.append(tag)
        self.outside += [v for k, v in attrs if k in ("src", "href", "xlink:href") and v and not v.startswith(("#", "data:"))]

    def handle_endtag(self, tag):
        if tag in self.open:
            while self.open.pop() != tag:
                pass


def test_a_report_needs_no_other_file(five, tmp_path):
    text = report.make_page(five, "Five <cells>")
    page = Page()
    page.feed(text)
    assert page.outside == [] and page.open == [] and "<script" not in text and "Five &lt;cells&gt;" in text
    assert text.count("<svg") == 1 + 2 * 4
    for words in ("−3.06 (−1.8 %)", "Mill Street", "11 numbers were rounded", "SHA-256"):
        assert words in text
    ids = re.findall(r' id="([^"]+)"', text)
    assert all(x in ids for x in re.findall(r'xlink:href="#([^"]+)"', text))


def text_of(figure):
    """All texts of a drawn figure."""
    return [t.get_text() for t in figure.findobj(Text)]


@pytest.mark.parametrize("name", [r"$\frac{$", "$5 and $6", r"\$x", "_a", "50 %_^{}~#&", "a\nb\tc", "\x01\x7f", "W" * 300, "💡 東京 שלום"])
def test_names_are_no_mathematics(five, works, name, recwarn, tmp_path):
    """Dollars, backslashes and the like in a title or a ramp's name are drawn as they are, in every picture and in the report."""
    from dataclasses import replace

    s, r = five[1]
    s = replace(s, title=name, name=name, ramps={name: 4}, cell_names=[name] * 5)
    for kind in ("space-time", "queues"):
        figure = drawn(kind, s, r)
        assert figures.make_legible(name) in text_of(figure), kind
        assert len(figures.to_svg(figure)) > 1000
    figure = drawn("totals", [(s, r)])
    assert figures.make_legible(name, 40) in text_of(figure)
    figures.save(figure, tmp_path / "t.pdf")
    if "$" in name:
        assert "<svg" in report.make_page([(s, r)])


def test_names_on_one_line():
    assert figures.make_legible("a\n b\x00c\u202ed") == "a b c d" and figures.make_legible("x" * 200) == "x" * 109 + "…" and figures.make_legible("$5 and $6") == "$5 and $6"


def test_a_free_road_has_no_queue(road):
    """What arrives in a step is no queue: nothing is drawn above 0."""
    path = road("3000,    4000,    2400", "1000,    1000,    1000", "   300,     900,     200", "   200,     200,     200")
    s = load(path)
    ax = drawn("queues", s, s.run()).axes[0]
    assert max(max(line.get_ydata(), default=0) for line in ax.get_lines()) == 0 and legend(ax)[-1] == "1 ramp without\na queue"


@pytest.mark.parametrize("km, refused", [(1e-6, "space-time density speed"), (1e20, "space-time density speed"), (400_000, "space-time density speed"),
                                         (12, "speed"), (0.0011, "density")])
def test_extreme_roads_are_refused_and_said_why(examples, km, refused):
    """Cells of a millimetre, 70,000,000 km/h or 100,000 veh/km: no scale has that many ticks, and the words say what to check."""
    from dataclasses import replace

    s = load(examples / "studies/five-cells.toml")
    r, s = s.run(), replace(s, lengths=[km] * 5)
    for kind in figures.MORE:
        if kind in refused.split():
            with pytest.raises(StudyError, match="a picture takes 0.001 to 1,000 km|can't be drawn, at most 1,?0*,000: check the cells' lengths"):
                drawn(kind, s, r)
        else:
            drawn(kind, s, r)


@pytest.mark.parametrize("top", [0.5, 10, 99, 151, 1000, 1e4, 6e7, 1e15])
def test_ticks_are_few(top):
    ticks = figures.round_ticks(top)
    assert 2 <= len(ticks) <= 14 and ticks[0] == 0 and ticks[-1] <= top * 1.1


def test_long_times_have_few_ticks(examples):
    from dataclasses import replace
    from fractions import Fraction

    s = load(examples / "studies/five-cells.toml")
    for seconds in (1, 20, 900, 86400):
        figure = drawn("queues", replace(s, seconds=Fraction(seconds)), s.run())
        assert 2 <= len(figure.axes[0].get_xticks()) <= 130


def test_a_picture_is_written_whole_or_not_at_all(five, tmp_path):
    from nobyaluk.output_files import NotWritten

    path = tmp_path / "t.png"
    path.write_text("old")
    with pytest.raises(StudyError, match="a picture is a .png, .svg or .pdf file"):
        figures.save(drawn("totals", five), tmp_path / "t.xyz")
    (tmp_path / "folder.png").mkdir()
    with pytest.raises(NotWritten):
        figures.save(drawn("totals", five), tmp_path / "folder.png")
    figures.save(drawn("totals", five), path)
    assert path.read_bytes().startswith(b"\x89PNG") and sorted(x.name for x in tmp_path.iterdir()) == ["folder.png", "t.png"]


def test_a_report_says_how_it_counts(five):
    from dataclasses import replace

    from nobyaluk import LongRecord
    from nobyaluk import long_record as far

    text = report.make_page(five[:1])
    for words in ("may leave it in the next", "of it arriving", "On-ramps have priority over the mainline", "no capacity drop", "no schedule of outflows"):
        assert words in text, words
    s, r = five[0]
    long = far.run_long(LongRecord(r.record.road, r.record.start, r.record.rows))
    assert "no schedule of outflows" not in report.make_page([(s, long)]) and "nothing is proved of other schedules" in report.make_page([(s, long)])
    s = replace(s, rounding=s.rounding[:1])
    assert "1 number was rounded" in report.make_page([(s, r)])
