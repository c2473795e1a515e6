"""The commands as a user calls them: their output, messages and exit statuses; and ./nobyaluk itself."""
import csv
import os
import re
import shutil
import subprocess
import sys
import tempfile
from fractions import Fraction
from pathlib import Path

import numpy as np
import pytest
import text_form
from nobyaluk import Gate, Study, __version__, cells, engine, library, load, summary
from nobyaluk.cli.entry import COMMANDS
from nobyaluk.refusals import meaning


def test_run_says_who_waits_where(examples, told):
    status, out, err = told("run", examples / "studies/five-cells-alinea.toml")
    assert (status, err) == (0, "")
    for line in ("total time spent        167.25 vehicle-hours", "at the gate            21.67   13.0 %   nobody waits longer than the step of arrival",
                 "on the road           103.16", "at the ramps           42.42", "ramp Mill Street     42.42            longest queue 142.3 vehicles after step 119, 07:40:00",
                 "9,082 vehicle-km, at 88.3 km/h on the road; delay 44.34", "rounding: 11 numbers, the worst wave of cell 5, 203.21 -> 203 (-0.10 %)",
                 "whole parts: counted in finer parts, no cumulative outflow would differ by more than 0.56 vehicles"):
        assert line in out, line


def test_listing_is_ctms(examples, told):
    """If the program ctm is built, byte for byte on every example; else by the printed run of docs/MODEL.md."""
    ctm = examples.parent / "target/bin/ctm"
    for record in sorted(examples.glob("*.rec")):
        status, out, err = told("run", record, "--listing")
        refused = record.name.startswith("refused")
        assert status == int(refused) and bool(err) == refused
        if ctm.exists():
            assert out.encode() == subprocess.run([ctm], stdin=record.open("rb"), capture_output=True).stdout, record
        elif refused:
            assert re.fullmatch(r"refused \d+ \d+ \d+\n", out)


def test_csv(examples, told, tmp_path):
    status, out, _ = told("run", examples / "studies/five-cells.toml", "--csv", tmp_path / "t.csv")
    rows = list(csv.DictReader(open(tmp_path / "t.csv")))
    assert status == 0 and len(rows) == 225 * 6 and "vehicle-hours" in out
    held = sum(float(r["held_veh"]) + float(r["ramp_queue_veh"]) for r in rows)
    assert abs(held * 20 / 3600 - 170.3150) < 0.001
    assert rows[5] == {"step": "0", "time": "07:00:20", "seconds": "20.0", "place": "5", "cell": "5", "km": "2", "ramp": "", "outflow_veh": "0.0", "held_veh": "0.0",
                       "ramp_queue_veh": "0.0", "ramp_release_veh": "0.0", "density_veh_per_km": "0", "speed_km_per_h": "90", "inflow_veh_per_h": "0",
                       "outflow_veh_per_h": "0"} and rows[0]["density_veh_per_km"] == "" and rows[0]["inflow_veh_per_h"] == "2999.88" and rows[4]["ramp"] == "Mill Street"
    status, out, _ = told("run", examples / "studies/five-cells.toml", "--csv", "-")
    assert out == (tmp_path / "t.csv").read_text()


def test_judge(examples, told, tmp_path):
    status, out, _ = told("judge", examples / "classroom.rec", examples / "classroom-cut.schedule.csv", "--seconds", 36)
    assert (status, out) == (0, "accepted total 8123346 gate 1756916 road 6366430 ramp 0 exits 627782\n"
                                "  81.23 vehicle-hours, and the engine's run has 30.00: it loses 51.23 (+170.8 %)\n"
                                "  it first differs at step 10, 6:00 min, cell 2: it sends 0.000 vehicles, and 20.000 could leave\n")
    run = load(examples / "printed-run.rec").run()
    np.savetxt(tmp_path / "own.csv", run.outflow, "%d", ",", header="gate,1,2", comments="")
    status, out, _ = told("judge", examples / "printed-run.rec", tmp_path / "own.csv")
    assert status == 0 and "it is the engine's run, and no schedule with these arrivals and releases has less" in out


def test_judge_names_the_first_broken_rule(examples, told, tmp_path):
    record, path = examples / "printed-run.rec", tmp_path / "s.csv"
    path.write_text(text_form.schedule_csv(examples / "printed-run-934.schedule.txt", 2))
    status, out, err = told("judge", record, path)
    assert (status, out) == (1, "") and "refused 14: step 1, cell 1: an outflow that lets too much into the next cell (the outflow is 934; the greatest that fits is 933," in err
    path.write_text("2001,0,0\n0,0,0\n0,0,0\n")
    assert "refused 13: step 0, the gate: an outflow above the demand of its place (the outflow is 2001; the place can send 2000," in told("judge", record, path)[2]
    path.write_text("1501,0,0\n0,0,0\n0,0,0\n")
    assert "the outflow is 1501; the greatest that fits is 1500" in told("judge", record, path)[2]
    path.write_text("1,2,3\n")
    assert "(3 steps of 3 outflows are 9; the schedule has 3)" in told("judge", record, path)[2]
    path.write_text("1,2,x\n")
    assert told("judge", record, path)[0] == 2
    path.write_text("0,0,0\n" * 2)
    status, _, err = told("judge", examples / "refused-09-release-above-queue.rec", path)
    assert status == 1 and re.search(r"refused 9: step 1, cell 2: .*\(the release is \d+; \d+ wait and \d+ arrive", err)


def test_judge_of_a_metered_study(examples, told, tmp_path):
    """A schedule is judged with the releases that the meter grants in the engine's run."""
    path = examples / "studies/five-cells-alinea.toml"
    zs = load(path).run().outflow.copy()
    zs[100, 5] = 0
    zs[101:, :] = 0
    np.savetxt(tmp_path / "s.csv", zs, "%d", ",")
    status, out, err = told("judge", path, tmp_path / "s.csv")
    assert (status == 0 and "it first differs at step 100, 07:33:20, cell 5" in out) or (status == 1 and "refused 10" in err)


def test_compare(examples, told, tmp_path):
    paths = [examples / f"studies/five-cells{x}.toml" for x in ("", "-alinea")]
    status, out, err = told("compare", *paths, "--plot", tmp_path / "t.svg")
    assert (status, err) == (0, "") and "-3.06 (-1.8 %)" in out and (tmp_path / "t.svg").exists()
    status, out, _ = told("compare", examples / "exercise/road.toml", examples / "exercise/weights.toml")
    assert out.splitlines()[0].endswith("weighted total") and out.splitlines()[2].endswith("236.54")
    assert "differ in their number of steps" in told("compare", paths[0], examples / "studies/rocade-sud.toml")[2]


def test_queue(examples, told, tmp_path):
    path = examples / "studies/five-cells-alinea.toml"
    status, out, _ = told("queue", path, "Mill Street", "--ceiling", 40, "--rate", 1200, "-o", tmp_path / "r.csv")
    assert status == 0 and "longest queue 40.0 vehicles" in out
    (tmp_path / "b.toml").write_text(f'base = "{path}"\n[releases]\nfile = "r.csv"\nunit = "parts"\ncap = false\n')
    run = load(tmp_path / "b.toml").run()
    assert run.queue.max() == 40_000
    assert told("queue", path, "Mill Street", "--ceiling", 5, "--rate", 300)[::2] == (1, "nobyaluk: no releases of at most 300 veh/h keep the queue of ramp Mill Street at or under 5 vehicles\n")
    assert told("queue", path, "Mill", "--ceiling", 5, "--rate", 300)[0] == 2


def test_street(examples, told, tmp_path):
    for name in ("north", "south"):
        shutil.copy(examples / "studies/five-cells.toml", tmp_path / f"{name}.toml")
    ramp = '[[ramp]]\nstudy = "{}.toml"\nramp = "Mill Street"\nguarantee = 300\n'
    (tmp_path / "street.toml").write_text("limit = 1260\n" + ramp.format("north") + ramp.format("south"))
    status, out, _ = told("street", tmp_path / "street.toml", "-o", tmp_path / "out")
    assert status == 0 and "a street that lets 7.000 vehicles a step go to 2 ramps" in out
    north, south = (load(tmp_path / f"out/{name}.rec") for name in ("north", "south"))
    together = north.record.rows[:, 8].astype(int) + south.record.rows[:, 8]
    assert together.max() == 7000 and (south.record.rows[:, 8] >= np.minimum(1667, together - north.record.rows[:, 8])).all()
    assert north.run().queue.max() == 0 < south.run().queue.max()  # the first has what it wishes, the second waits
    (tmp_path / "street.toml").write_text("limit = 100\n" + ramp.format("north") + ramp.format("south"))
    assert told("street", tmp_path / "street.toml")[::2] == (1, f"nobyaluk: refused 24: {meaning(24, 'grant').words}\n")
    (tmp_path / "street.toml").write_text("limit = 100\n" + ramp.format("north") + ramp.format("north"))
    assert "which is named twice" in told("street", tmp_path / "street.toml")[2]


def test_join(examples, told, tmp_path):
    up, down, whole = (examples / f"rocade-sud{x}.rec" for x in ("-upstream", "-downstream", ""))
    both = tmp_path / "both.rec"
    assert told("join", up, down, "--share", 890, "-o", both) == (0, f"{both}: 21 cells, 9 and 12; 378 steps, 65,536 bytes\n", "")
    assert both.read_bytes() == whole.read_bytes()
    assert told("join", up, down, "--share", 889, "-o", both, "--force")[0] == 0
    assert both.read_bytes() != whole.read_bytes()
    pair = f"{down} and {up}"
    assert told("join", down, up, "--share", 0, "-o", both)[::2] == (
        1, f"nobyaluk: {pair}: refused 21: {meaning(21, 'join').words} (queue 15.000, arrivals 6,030.000 vehicles)\n")
    assert "(378 steps of version 1; 377 steps of version 2, 20 s each)" in told("join", up, examples / "rocade-sud-seconds.rec", "--share", 0, "-o", both)[2]
    assert "(21 and 12 cells, 378 steps)" in told("join", whole, down, "--share", 0, "-o", both)[2]
    refused = examples / "refused-05-held-above-jam.rec"
    assert told("join", up, refused, "--share", 0, "-o", both)[::2] == (1, f"nobyaluk: {refused}: refused 5: cell 2: {meaning(5, 'read').words}\n")
    for share in ("0.8905", "1001", "-1", "x"):
        assert told("join", up, down, f"--share={share}", "-o", both)[0] == 2
    assert told("join", up, down, "--share", "0.89", "-o", both)[0] == 0 and both.read_bytes() == whole.read_bytes()
    assert told("join", up, down, "--share", 890, "-o", tmp_path / "j.toml")[0] == 2
    assert told("join", up, down, "--share", 890, "--seconds", 20, "-o", tmp_path / "j.toml")[0] == 0 and load(tmp_path / "j.toml").record.data == whole.read_bytes()
    assert "--seconds is for records of version 1" in told("join", tmp_path / "j.toml", tmp_path / "j.toml", "--share", 0, "--seconds", 20, "-o", both)[2]
    assert told("join", both, down, "--share", 0, "-o", both)[::2] == (2, f"nobyaluk: {both}: the output is not written over the input\n")
    metered = examples / "studies/five-cells-alinea.toml"
    assert told("join", metered, metered, "--share", 800, "-o", both)[0] == 1


def test_load(examples, told, tmp_path):
    path = examples / "studies/five-cells.toml"
    assert told("load", path, "--seed", 0, "--peak", 180, "--ramp-peak", 90, "-o", tmp_path / "a.csv")[0] == 0
    lines = (tmp_path / "a.csv").read_text().splitlines()
    assert lines[:4] == ["step,gate,Mill Street", f"0,236,{lines[1].split(',')[2]}", f"1,278,{lines[2].split(',')[2]}", f"2,820,{lines[3].split(',')[2]}"]
    (tmp_path / "b.toml").write_text(f'base = "{path}"\n[arrivals]\nfile = "a.csv"\nunit = "parts"\n')
    gate, last = engine.stated_load(0, 1000, 225)
    assert (load(tmp_path / "b.toml").record.rows[:, 0] == gate).all()
    assert (load(tmp_path / "b.toml").record.rows[:, 7] == engine.stated_load(last, 500, 225)[0]).all()
    assert told("load", path, "--seed", 1, "--peak", 180_001)[::2] == (2, "nobyaluk: --peak is 180001; it is 0 to 180,000 veh/h, 1,000 vehicles a step\n")
    assert told("load", path, "--seed", "x", "--peak", 1)[0] == told("load", path, "--seed", 1 << 32, "--peak", 1)[0] == 2


def test_exercise(examples, told):
    """An accepted exercise has the same lines as a run; more than 8 cells or 4,096 bytes is refused."""
    for name in ("printed-run.rec", "classroom.rec", "exercise/road.toml", "exercise/alinea.toml"):
        status, out, err = told("exercise", examples / name)
        assert (status, err) == (0, "") and out == told("run", examples / name, "--listing")[1]
    for name in ("rocade-sud.rec", "studies/rocade-sud.toml"):
        assert told("exercise", examples / name) == (1, "refused 26 0 0\n", f"nobyaluk: {examples}/{name}: refused 26: {meaning(26, 'read_within').words}\n")
    assert told("exercise", examples / "printed-run.rec", "--cells", 1)[1] == "refused 26 0 0\n"
    assert told("exercise", examples / "refused-09-release-above-queue.rec")[:2] == (1, "refused 9 1 2\n")


def test_fill_and_convert(examples, told, tmp_path):
    laws = text_form.laws_toml(examples / "rocade-sud-alinea.laws.txt")
    (tmp_path / "laws.toml").write_text(f'record = "{examples}/rocade-sud.rec"\nstep = 20\n{laws}')
    assert told("fill", tmp_path / "laws.toml", "-o", tmp_path / "f.rec")[0] == 0
    assert (tmp_path / "f.rec").read_bytes() == (examples / "rocade-sud-alinea.rec").read_bytes() and load(tmp_path / "f.toml").laws
    assert told("fill", examples / "studies/rocade-sud-alinea.toml", "-o", tmp_path / "g.rec")[0] == 0
    assert told("convert", examples / "studies/rocade-sud-alinea.toml", tmp_path / "h.rec")[0] == 0
    assert (tmp_path / "g.rec").read_bytes() == (tmp_path / "h.rec").read_bytes()
    for name in ("printed-run", "rocade-sud", "rocade-sud-alinea", "classroom", "rocade-sud-seconds"):
        seconds = () if name == "rocade-sud-seconds" else ("--seconds", 20)  # a study needs them, and version 1 has none
        assert told("convert", examples / f"{name}.rec", tmp_path / "a.toml", "--force", *seconds)[0] == 0
        assert told("convert", tmp_path / "a.toml", tmp_path / "b.rec", "--force")[0] == 0
        assert (tmp_path / "b.rec").read_bytes() == (examples / f"{name}.rec").read_bytes()
    assert told("convert", tmp_path / "b.rec", tmp_path / "b.rec")[::2] == (2, f"nobyaluk: {tmp_path}/b.rec: the output is not written over the input\n")


def test_new(told, tmp_path):
    folder = tmp_path / "my road"
    status, out, _ = told("new", folder)
    assert status == 0 and f"'{folder}/road.toml'" in out
    assert told("run", folder / "road.toml")[0] == 0
    assert told("new", folder)[0] == 2
    inside = folder / "road.toml/inside"
    assert told("new", inside)[::2] == (4, f"nobyaluk: {inside} could not be made: Not a directory\n")


def test_without_matplotlib_only_pictures_are_missing(root):
    """run, compare and sweep print as before; a command that draws names what to install."""
    study = root / "examples/studies/five-cells.toml"
    for words, status, part in (("run", 0, "170.32"), ("compare", 0, "170.32"), ("sweep", 0, "170.3150"), ("plot", 3, "apt-get install python3-matplotlib"),
                                ("report -o -", 3, "apt-get install python3-matplotlib")):
        command = "import sys; sys.modules['matplotlib'] = None; from nobyaluk.cli import main; sys.exit(main(sys.argv[1:]))"
        more = ["--load", "1:1:1"] if words == "sweep" else []
        out = subprocess.run([sys.executable, "-c", command, *words.split(), study, *more], capture_output=True, text=True)
        assert out.returncode == status and part in (out.stderr if status else out.stdout), words


def test_statuses(examples, told, tmp_path):
    """As ./run's: 1 after a refusal, 2 for what can't be read, 4 for what can't be written."""
    record = examples / "printed-run.rec"
    assert told("run", examples / "refused-09-release-above-queue.rec")[::2] == (
        1, f"nobyaluk: {examples}/refused-09-release-above-queue.rec: refused 9: step 1, cell 2: {meaning(9, 'run').words}\n")
    assert told("run", tmp_path / "none.toml")[::2] == (2, f"nobyaluk: there is no {tmp_path}/none.toml\n")
    assert told("run", examples)[::2] == (2, f"nobyaluk: {examples} is a directory, not a file\n")
    assert told("run")[0] == told("walk", record)[0] == 2
    assert told("run", record, "--seconds", "x")[0] == 2
    assert told("run", record, "--csv", tmp_path / "no/such.csv")[::2] == (4, f"nobyaluk: {tmp_path}/no/such.csv could not be written: No such file or directory\n")
    assert told("report", record, "-o", tmp_path / "no/such.html")[0] == 4
    command = [sys.executable, "-m", "nobyaluk", "run", "--listing", examples / "rocade-sud.rec"]
    with open("/dev/full", "w") as full:
        out = subprocess.run(command, stdout=full, stderr=subprocess.PIPE)
    assert out.returncode == 4 and b"could not be written whole" in out.stderr
    piped = subprocess.run(["sh", "-c", '"$@" | head -n 1', "sh", *command], capture_output=True)
    assert (piped.stdout, piped.stderr) == (b"step place outflow held queue\n", b"")


def test_what_whole_parts_cost(examples):
    """2 parts a step, divided by the part of the outflow that reaches the end: docs/MODEL.md has 1.84 vehicles for Rocade Sud."""
    assert round(float(summary.rounding_bound(load(examples / "rocade-sud.rec"))), 2) == 1.84
    whole = Study.of(cells(length=[0.5] * 3, speed=90, jam=250, capacity=4400), gate=Gate(4400), step=20, steps=50, arrivals={"gate": 100})
    assert summary.rounding_bound(whole) == Fraction(1, 10)


def test_help_has_examples(told):
    status, out, _ = told("--help")
    for name in (x.name for x in COMMANDS):
        assert f"nobyaluk {name} " in out
        status, page, _ = told(name, "--help")
        assert status == 0 and "examples:\n  nobyaluk " + name in page
    assert told("--version")[1] == f"nobyaluk {__version__}\n"


@pytest.fixture
def checkout(root, tmp_path):
    """A small checkout in a folder with a space, whose rt is a stand-in that builds the archive that is here already."""
    there = tmp_path / "a checkout"
    (there / "bindings").mkdir(parents=True)
    for name in ("nobyaluk", "bindings/build", "bindings/sources", "bindings/c/nobyaluk.h", "tools/proving.sh", "bindings/python/nobyaluk", "docs/refusals.tsv", "examples/studies"):
        (there / name).parent.mkdir(parents=True, exist_ok=True)
        (shutil.copytree if (root / name).is_dir() else shutil.copy)(root / name, there / name)
    (there / "crates.txt").write_text("rows:\nexports: rows\nedges: rows\n")
    for crate in ("rows", "exports", "edges"):
        (there / f"crates/{crate}/src").mkdir(parents=True)
        (there / f"crates/{crate}/src/lib.rt").write_text("")
    archive, bin = root / "target/staticlib/libexports.a", tmp_path / "bin"
    bin.mkdir()
    (bin / "rt").write_text(f'#!/bin/sh\necho "$@" >>"{tmp_path}/calls"\nsleep 0.5\necho "rt: chose --jobs 2 for rows"\necho "logic=proved functions=1"\n'
                            f'mkdir -p out && cp "{archive}" out/libexports.a && echo "logic=proved functions=1 target=x86_64"\n')
    (bin / "rt").chmod(0o755)
    if not archive.exists() or not shutil.which("cc"):
        pytest.skip("no archive, or no compiler to link it")
    env = {**os.environ, "PATH": f"{bin}:{os.environ['PATH']}", "PYTHON": sys.executable}
    for name in ("NOBYALUK_LIBRARY", "NOBYALUK_LIB_DIR", "NOBYALUK_PROVED"):  # the checkout builds its own
        env.pop(name, None)
    return there, env, tmp_path / "calls"


def test_front_door(checkout, tmp_path):
    """From another folder, with a space in its path: built once, also by two at once, and read-only after that."""
    there, env, calls = checkout
    command = [there / "nobyaluk", "run", "a checkout/examples/studies/five-cells.toml"]
    start = lambda: subprocess.Popen(command, cwd=tmp_path, env=env, stdout=subprocess.PIPE, stderr=subprocess.PIPE, text=True)
    both = [start(), start()]
    told = [p.communicate() for p in both]
    assert [p.returncode for p in both] == [0, 0] and all("170.32 vehicle-hours" in out for out, _ in told)
    assert calls.read_text() == "lib --cpu x86-64\n"
    said = "".join(err for _, err in told)
    assert re.search("nobyaluk: the engine is proved and built first: 2 crates, about eight minutes\n", said)
    assert "nobyaluk: crate 1 of at most 2: rows proved" in said and "another process proves and builds here; this one waits for it" in said
    again = subprocess.run(command, cwd=tmp_path, env=env, capture_output=True, text=True)
    assert again.returncode == 0 and again.stderr == "" and calls.read_text().count("\n") == 1
    shown = subprocess.run([there / "nobyaluk", "new", "my road"], cwd=tmp_path, env=env, capture_output=True, text=True).stdout.splitlines()
    assert shown[1] == f"  '{there}/nobyaluk' run 'my road/road.toml'"  # a command to copy, as this one was called
    assert subprocess.run(shown[1], shell=True, cwd=tmp_path, env=env, capture_output=True).returncode == 0
    (there / "crates/edges/src/lib.rt").write_text("// changed\n")  # not part of the engine
    assert subprocess.run(command, cwd=tmp_path, env=env, capture_output=True).returncode == 0 and calls.read_text().count("\n") == 1
    (there / "crates/rows/src/lib.rt").write_text("// changed\n")
    without = {**env, "PATH": "/usr/bin:/bin"}
    out = subprocess.run(command, cwd=tmp_path, env=without, capture_output=True, text=True)
    assert out.returncode == 3 and "rt of the Rattle kit, which proves and builds the engine, is not on the PATH" in out.stderr


@pytest.mark.parametrize("version, told", [
    (library.VERSION, "has no nobyaluk_read: it is older than this package;"),
    (library.VERSION - 1, f"has boundary {library.VERSION - 1}, and this package needs {library.VERSION}:"),
])
def test_an_old_library_is_told(checkout, tmp_path, version, told):
    there, env, _ = checkout
    command = [there / "nobyaluk", "run", there / "examples/studies/five-cells.toml"]
    (tmp_path / "old.c").write_text(f"unsigned nobyaluk_version(void) {{ return {version}; }}\n")
    (there / "target/bindings").mkdir(parents=True)
    subprocess.run(["cc", "-shared", "-fPIC", "-o", there / "target/bindings/libnobyaluk.so", tmp_path / "old.c"], check=True)
    out = subprocess.run(command, env=env, capture_output=True, text=True)
    assert out.returncode == 3 and out.stderr == f"nobyaluk: the engine's library {told} build it again with bindings/build\n"


def test_a_read_only_checkout(checkout, tmp_path):
    there, env, calls = checkout
    command = [there / "nobyaluk", "run", there / "examples/studies/five-cells.toml"]
    assert subprocess.run(command, env=env, capture_output=True).returncode == 0
    subprocess.run(["chmod", "-R", "a-w", there], check=True)
    try:
        prefix = ["setpriv", "--reuid=65534", "--clear-groups"] if os.getuid() == 0 and shutil.which("setpriv") else []
        subprocess.run(["chmod", "-R", "a+rX", there.parent], check=True)
        for folder in there.parents:
            if folder.is_relative_to(tempfile.gettempdir()) and folder != Path(tempfile.gettempdir()):
                folder.chmod(folder.stat().st_mode | 0o055)
        out = subprocess.run([*prefix, *command], env={**env, "PATH": "/usr/bin:/bin"}, capture_output=True, text=True)
        assert (out.returncode, out.stderr) == (0, "") and "170.32 vehicle-hours" in out.stdout
    finally:
        subprocess.run(["chmod", "-R", "u+w", there], check=True)


def test_without_numpy_it_says_what_to_install(root, tmp_path):
    (tmp_path / "python3").write_text("#!/bin/sh\nexit 1\n")
    (tmp_path / "python3").chmod(0o755)
    out = subprocess.run([root / "nobyaluk", "run"], env={**os.environ, "PYTHON": str(tmp_path / "python3")}, capture_output=True, text=True)
    assert out.returncode == 3 and "apt-get install python3-numpy python3-matplotlib; elsewhere: pip install numpy matplotlib" in out.stderr


def only(folder, *names, **scripts):
    """A folder that can be the whole PATH: these programs of the machine, and these scripts."""
    folder.mkdir()
    for name in names:
        (folder / name).symlink_to(shutil.which(name))
    for name, script in scripts.items():
        (folder / name.replace("_", "-")).write_text(f"#!/bin/sh\n{script}\n")
        (folder / name.replace("_", "-")).chmod(0o755)
    return str(folder)


def test_without_a_compiler_the_kit_links(checkout, tmp_path):
    """Neither cc nor nm is there: the kit's own tools link the library, and look at the archive before that."""
    there, env, _ = checkout
    if not shutil.which("rt"):
        pytest.skip("no kit")
    (tmp_path / "kit").mkdir()
    (tmp_path / "kit/toolchain").symlink_to(Path(shutil.which("rt")).resolve().parents[1] / "toolchain")
    (tmp_path / "bin").rename(tmp_path / "kit/bin")
    tools = "sh bash env dirname readlink awk find head id flock mkdir grep cat sleep cp uname sort tr touch rm mv cksum sed tail"
    env["PATH"] = only(tmp_path / "few", *tools.split()) + f":{tmp_path}/kit/bin"
    out = subprocess.run([there / "nobyaluk", "run", there / "examples/studies/five-cells.toml"], env=env, capture_output=True, text=True)
    assert out.returncode == 0 and "170.32 vehicle-hours" in out.stdout and "not found" not in out.stderr
    (tmp_path / "more.c").write_text("int puts(const char *s); int more(void) { return puts(0); }\n")
    subprocess.run("cc -c more.c && ar rc libexports.a more.o", shell=True, cwd=tmp_path, check=True)
    out = subprocess.run([there / "bindings/build"], env={**env, "NOBYALUK_LIB_DIR": str(tmp_path)}, capture_output=True, text=True)
    assert out.returncode == 1 and "U puts" in out.stdout


@pytest.mark.parametrize("user, settings, installs", [(0, {}, True), (0, {"NOBYALUK_NO_INSTALL": "1"}, False), (0, {"PYTHON": "/bin/false"}, False), (1000, {}, False)])
def test_what_the_checks_install(root, tmp_path, user, settings, installs):
    """If something is missing, and only as root: everything that bindings/apt.txt names, with a stand-in for apt-get; a failure gives its reason."""
    apt = f'echo "$@" >>"{tmp_path}/calls"\ncase $* in *install*) echo "E: no network" && exit 100 ;; esac'
    path = only(tmp_path / "few", "sh", "bash", "env", "dirname", "tr", "cat", "grep", apt_get=apt, id=f"echo {user}")
    out = subprocess.run([root / "bindings/install"], env={"PATH": path, **settings}, capture_output=True, text=True)
    assert out.returncode == 0
    if not installs:
        assert out.stderr == "" and not (tmp_path / "calls").exists()
        return
    update, install = (tmp_path / "calls").read_text().splitlines()
    assert update == "update -q" and install.endswith(" ".join(["", *(root / "bindings/apt.txt").read_text().split()]))
    assert out.stderr.endswith("E: no network\n")


def test_the_checks_name_the_cargo_they_need(root, tmp_path):
    for cargo, found in (("exit 1", "none"), ("echo cargo 1.65.0", "1.65.0"), ("echo 'cargo 1.84.1 (66221abde 2024-11-19)'", "1.84.1")):
        path = only(tmp_path / found, rt="exit 1", cargo=f'case $1 in --version) {cargo} ;; *) exit 1 ;; esac')
        out = subprocess.run([root / ".ci/run"], env={**os.environ, "PATH": f"{path}:{os.environ['PATH']}", "NOBYALUK_NO_INSTALL": "1"}, capture_output=True, text=True)
        assert (out.returncode, out.stdout) == (1, "")
        assert out.stderr == f"the checks need cargo 1.85 or later, for reference/ (on Debian 12: apt-get install cargo-web); {found} was found\n"
