"""The pages are true: their commands are run, their studies are the files, their picture is the study's."""
import re
import shlex

import nobyaluk
import pytest
import teaching
from nobyaluk import load
from nobyaluk.cli import main
from nobyaluk.report import record_sha256
from nobyaluk.teaching import sheet

PAGES = ["README.md", "docs/BESIDE-SUMO.md", "docs/TEACHING.md", "docs/PLANNING.md", "docs/STUDIES.md"]


def blocks(text, kind=""):
    """The fenced blocks of this kind, each from its opening fence to its closing one."""
    return [block for found, block in re.findall(r"^```(\w*)\n(.*?)^```$", text, re.M | re.S) if found == kind]


def same(shown, printed):
    """Whether a block is what was printed; a line `...` stands for any lines."""
    pattern = "".join(r"(?:.*\n)*?" if line == "..." else re.escape(line) + "\n" for line in shown.splitlines())
    return re.fullmatch(pattern, printed)


@pytest.mark.parametrize("page", PAGES)
def test_commands_print_what_is_shown(root, page, capsys, monkeypatch, tmp_path):
    """Run in a folder that is empty but for the examples, in the page's order, so that what one writes the next may read."""
    (tmp_path / "examples").symlink_to(root / "examples")
    monkeypatch.chdir(tmp_path)
    monkeypatch.setattr(sheet, "pdf_maker", lambda: None)  # PDFs take seconds each; test_exercise.py makes some
    for block in blocks((root / page).read_text()):
        if block.startswith("$ ./nobyaluk "):
            command, _, shown = block.partition("\n")
            main([x for x in shlex.split(command)[2:] if x != "--install"])  # which ./nobyaluk takes
            out = capsys.readouterr()
            assert same(shown, (out.out + out.err).replace(f"nobyaluk: {sheet.MISSING}\n", "")), command


def test_commands_within_sentences(root, told, monkeypatch, tmp_path):
    """The commands of docs/TEACHING.md and docs/STUDIES.md that are named in a sentence work too; a name in capitals is a study of the reader's."""
    (tmp_path / "examples").symlink_to(root / "examples")
    monkeypatch.chdir(tmp_path)
    found = [x for page in ("TEACHING", "STUDIES") for x in re.findall(r"`\./nobyaluk ([^`\s]+ [^`]+)`", (root / f"docs/{page}.md").read_text())]
    for command in found:
        if not re.search(r"[A-Z]{3,}\.|FOLDER|FILE|HOST|\.\.", command):
            status, _, err = told(*shlex.split(command.replace("STUDY", "examples/printed-run.rec")))
            assert status == 0, f"{command}: {err}"
    assert len(found) >= 5


def test_studies_shown_are_the_files(root):
    shown = blocks((root / "README.md").read_text(), "toml")[0]
    assert shown == (root / "examples/studies/five-cells.toml").read_text()
    shown = blocks((root / "docs/TEACHING.md").read_text(), "toml")
    assert shown == [(root / f"examples/{name}.toml").read_text() for name in ("teaching/question", "exercise/road")]
    assert (root / "examples/street/street.toml").read_text() in blocks((root / "docs/STUDIES.md").read_text(), "toml")
    for study in [*(root / "examples/studies").glob("*.toml"), *(root / "examples/teaching").glob("*.toml"), *(root / "examples/exercise").glob("*.toml")]:
        assert load(study).run().total > 0


def test_the_planners_page(root):
    """Each rule of its table has a section with an example that is run, and no number of its prose is from elsewhere."""
    page = (root / "docs/PLANNING.md").read_text()
    rules = re.findall(r"^\| \[([^]]+)\]\(#([^)]+)\)", page, re.M)
    assert len(rules) == 5 and len(page.split()) < 3500
    for title, anchor in rules:
        section = page.partition(f"\n## {title}\n")[2].partition("\n## ")[0]
        assert anchor == title.lower().replace(" ", "-") and "\n$ ./nobyaluk " in section, title
    named = set(re.findall(r"examples/planning/([a-z0-9-]+\.toml)", page))
    assert named == {x.name for x in (root / "examples/planning").glob("*.toml")}
    shown = " ".join(blocks(page))
    from nobyaluk import summary
    metered, full = (load(root / f"examples/planning/{x}.toml") for x in ("merge-metered", "merge"))
    assert f"{metered.run().queue.max() / 1000:,.1f}" in shown and full.record.road.capacity[2] == 22_222  # 600 vehicles; 4,000 veh/h in 20 s
    dropped = load(root / "examples/planning/merge-dropped.toml")
    assert 0.3 < 1 - summary.hours(metered.run(), 20).total / summary.hours(dropped.run(), 20).total < 0.36  # "a third"


def test_readme_in_python(root, monkeypatch):
    monkeypatch.chdir(root)
    names: dict = {}
    exec(blocks((root / "README.md").read_text(), "python")[0], names)
    assert len(names["totals"]) == 41 and names["totals"][20] == names["run"].total
    told = nobyaluk.hours(names["run"], 20)
    assert (str(told.gate)[:5], str(told.road)[:6]) == ("30.27", "140.03")


def test_pictures_shown_are_of_their_studies(root):
    for picture in (root / "docs/pictures").glob("*-space-time.png"):
        name, kind = picture.stem.removesuffix("-space-time"), "space-time"
        record = record_sha256(load(root / f"examples/studies/{name}.toml").run())
        assert f"{kind} of record {record}".encode() in picture.read_bytes(), f"./nobyaluk plot examples/studies/{name}.toml --kind {kind} -o docs/pictures"


def test_pictures_of_teaching_are_of_their_pages(root, tmp_path):
    for name, page in teaching.pages(root, tmp_path).items():
        assert f"page {teaching.sum_of(page)}".encode() in (root / f"docs/pictures/{name}.png").read_bytes(), "bindings/pictures makes it again"


def test_commands_are_all_told(root):
    """README's table has each command of ./nobyaluk."""
    from nobyaluk.cli.entry import COMMANDS

    table = (root / "README.md").read_text().partition("| command | does |")[2].partition("\n\n")[0]
    for name in (x.name for x in COMMANDS):
        assert f"`{name}`" in table or f"`{name} " in table, name
