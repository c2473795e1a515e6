"""Files that commands write: whole or not at all, and never over what the command reads; and files that are read, up to a size."""
import csv
import os
import signal
import stat
import subprocess
import sys
import time

import pytest
from nobyaluk import StudyError, input_files, load
from nobyaluk.cli import main
from nobyaluk.output_files import NotWritten, check_target, protect_inputs, write_file


def others(folder):
    """What else is in a folder: temporary files that were left."""
    return [x for x in os.listdir(folder) if x.endswith(".part")]


def test_a_file_is_written_and_replaced(tmp_path):
    path = tmp_path / "a.csv"
    write_file(path, "ü,1\n")
    assert path.read_bytes() == "ü,1\n".encode() and stat.S_IMODE(path.stat().st_mode) == 0o666 & ~_umask()
    path.chmod(0o640)
    write_file(str(path), b"\0\1")
    assert path.read_bytes() == b"\0\1" and stat.S_IMODE(path.stat().st_mode) == 0o640 and not others(tmp_path)
    (tmp_path / "link").symlink_to("a.csv")
    write_file(tmp_path / "link", "by a link")
    assert (tmp_path / "link").is_symlink() and path.read_text() == "by a link"
    write_file(tmp_path / ("n" * 250), "long")
    assert (tmp_path / ("n" * 250)).read_text() == "long"


def _umask():
    old = os.umask(0)
    os.umask(old)
    return old


def test_what_cannot_be_written_is_said(tmp_path):
    (tmp_path / "file").write_text("x")
    for path in (tmp_path / "no/such.csv", tmp_path, tmp_path / "file/inside", tmp_path / "a\0b", tmp_path / ("n" * 300)):
        with pytest.raises(NotWritten, match="could not be written"):
            write_file(path, "x")
    with pytest.raises(NotWritten, match="No space left"):
        write_file("/dev/full", "x")
    write_file(os.devnull, "x")
    assert not others(tmp_path)


LIMITED = """
import resource, signal, sys
signal.signal(signal.SIGXFSZ, signal.SIG_IGN)
from nobyaluk.output_files import NotWritten, write_file
resource.setrlimit(resource.RLIMIT_FSIZE, (1000, 1000))
try:
    write_file(sys.argv[1], b"new" * 1000)
except NotWritten as e:
    sys.exit(7)
"""


def test_a_full_disk_leaves_the_old_file(tmp_path):
    """A limit of 1,000 bytes on each file, as a full disk: the write ends in the middle."""
    path = tmp_path / "a.csv"
    path.write_text("old contents")
    assert subprocess.run([sys.executable, "-c", LIMITED, path]).returncode == 7
    assert path.read_text() == "old contents" and not others(tmp_path)


LOOP = """
import sys
from nobyaluk.output_files import write_file
k = 0
while True:
    write_file(sys.argv[1], (b"%09d" % k) * 20000)
    k += 1
"""


def test_a_killed_writer_leaves_a_whole_file(tmp_path):
    """Killed at twelve moments of writing without end: the file is always one of the whole ones."""
    path = tmp_path / "a.csv"
    path.write_bytes(b"old")
    for k in range(12):
        writer = subprocess.Popen([sys.executable, "-c", LOOP, path])
        before = path.stat().st_ino
        for _ in range(2000):
            if path.stat().st_ino != before:
                break
            time.sleep(0.005)
        time.sleep(0.003 * k)
        writer.send_signal(signal.SIGKILL)
        writer.wait()
        data = path.read_bytes()
        assert len(data) == 180_000 and data == data[:9] * 20_000


def test_no_input_is_written_over(tmp_path):
    a, b = tmp_path / "a.csv", tmp_path / "b.csv"
    a.write_text("input")
    os.link(a, b)
    (tmp_path / "c.csv").symlink_to(a)
    for path in (a, b, tmp_path / "c.csv", tmp_path / "x/../a.csv"):
        (tmp_path / "x").mkdir(exist_ok=True)
        with pytest.raises(StudyError, match="the output is not written over the input; name another file, or add --force"):
            write_file(path, "new", [a])
    assert a.read_text() == "input"
    with pytest.raises(StudyError):  # names of which there is no file
        write_file(tmp_path / "x/../d.csv", "new", [tmp_path / "d.csv"])
    write_file(a, "new", [a], force=True)
    assert a.read_text() == "new"


def test_what_a_study_reads(tmp_path):
    """Base, study before, tables and street, with their default names, from every folder of the chain."""
    (tmp_path / "deep/er").mkdir(parents=True)
    (tmp_path / "deep/er/first.toml").write_text("[arrivals]\nunit = 'parts'\n")
    (tmp_path / "deep/base.toml").write_text("after = 'er/first.toml'\n[arrivals]\nfile = 'counts.csv'\n")
    (tmp_path / "road.toml").write_text("base = 'deep/base.toml'\n[releases]\ncap = false\n")
    (tmp_path / "street.toml").write_text("[[ramp]]\nstudy = 'road.toml'\n[[ramp]]\nstudy = 'other.rec'\n")
    found = {os.path.realpath(x) for x in input_files.find_inputs([tmp_path / "street.toml"])}
    for name in ("street.toml", "other.rec", "road.toml", "deep/base.toml", "deep/er/first.toml", "counts.csv", "deep/counts.csv", "releases.csv", "deep/er/arrivals.csv"):
        assert os.path.realpath(tmp_path / name) in found, name
    with protect_inputs([tmp_path / "street.toml"]), pytest.raises(StudyError, match="not written over"):
        check_target(tmp_path / "deep/er/arrivals.csv")
    with protect_inputs([tmp_path / "street.toml"], force=True):
        check_target(tmp_path / "deep/er/arrivals.csv")
    (tmp_path / "round.toml").write_text("base = 'round.toml'\nafter = 'deep/../round.toml'\n")
    assert input_files.find_inputs([tmp_path / "round.toml"])


def test_no_output_is_written_twice(tmp_path):
    """Two outputs of one command with one name would lose the first."""
    with protect_inputs([]):
        write_file(tmp_path / "a.rec", "1")
        with pytest.raises(StudyError, match="two outputs of this name"):
            write_file(tmp_path / "a.rec", "2")
    write_file(tmp_path / "a.rec", "3")
    write_file(tmp_path / "a.rec", "4")


def test_what_is_read_has_a_size():
    assert len(input_files.read_start("/dev/zero", 1000)) == 1000
    with pytest.raises(StudyError, match="more than 1,000 bytes"):
        input_files.read_file("/dev/zero", 1000)
    with pytest.raises(StudyError, match="no name of a file"):
        input_files.read_file("a\0b")


@pytest.fixture
def own(examples, tmp_path):
    """A study in its own folder with a base, arrivals, releases and a study before it, and a record with a study that meters it."""
    (tmp_path / "metered.toml").write_text('record = "rocade-sud.rec"\nstep = 20\n[meter.all]\nlaw = "open"\n')
    for name in ("rocade-sud.rec", "rocade-sud-upstream.rec", "rocade-sud-downstream.rec"):
        (tmp_path / name).write_bytes((examples / name).read_bytes())
    (tmp_path / "base.toml").write_text((examples / "studies/five-cells.toml").read_text().partition("[arrivals]")[0])
    (tmp_path / "first.toml").write_bytes((examples / "studies/five-cells.toml").read_bytes())
    (tmp_path / "arrivals.csv").write_text("time,gate,Mill Street\n07:00,3000,300\n")
    (tmp_path / "r.csv").write_text("time,Mill Street\n07:00,900\n")
    (tmp_path / "road.toml").write_text('base = "base.toml"\nafter = "first.toml"\n[arrivals]\n[releases]\nfile = "r.csv"\n')
    (tmp_path / "plain.toml").write_bytes((examples / "studies/five-cells.toml").read_bytes())
    (tmp_path / "street.toml").write_text('limit = 1260\n[[ramp]]\nstudy = "plain.toml"\nramp = "Mill Street"\nguarantee = 300\n')
    return tmp_path


READ = ["road.toml", "base.toml", "first.toml", "arrivals.csv", "r.csv"]
WRITING = [("run road.toml --csv", READ), ("load road.toml --seed 1 --peak 3600 --ramp-peak 600 -o", READ), ("report road.toml -o", READ), ("sweep road.toml --load 1:1:1 -o", READ),
           ("queue road.toml Mill_Street --ceiling 40 --rate 1200 -o", READ), ("fill metered.toml -o", ["rocade-sud.rec"]),
           ("run rocade-sud.rec --csv", ["rocade-sud.rec"]),
           ("join rocade-sud-upstream.rec rocade-sud-downstream.rec --share 890 -o", ["rocade-sud-upstream.rec", "rocade-sud-downstream.rec"])]


@pytest.mark.parametrize("words, names", WRITING)
def test_commands_keep_their_inputs(own, capsys, monkeypatch, words, names):
    monkeypatch.chdir(own)
    words = [x.replace("_", " ") for x in words.split()]
    for name in names:
        before = (own / name).read_bytes()
        for spelt in (name, f"./{name}", str(own / name)):
            status = main([*words, spelt])
            err = capsys.readouterr().err
            assert status == 2 and "the output is not written over the input" in err, (words, spelt, err)
            assert (own / name).read_bytes() == before
    if words[0] != "join":  # it refuses by itself
        assert main([*words, names[-1], "--force"]) == 0
        assert (own / names[-1]).read_bytes() != before
    assert not others(own)


def test_pictures_and_streets_keep_their_inputs(own, capsys, monkeypatch):
    """Where an output's name is made of the study's, it may be an input too."""
    monkeypatch.chdir(own)
    (own / "plain.rec").write_bytes((own / "rocade-sud.rec").read_bytes())
    (own / "street.toml").write_text((own / "street.toml").read_text() + '[[ramp]]\nstudy = "plain.rec"\nramp = "5"\nguarantee = 1\n')
    (own / "linked-queues.png").symlink_to("linked.toml")
    (own / "linked.toml").write_bytes((own / "plain.toml").read_bytes())
    before = (own / "linked.toml").read_bytes()
    assert main(["plot", "linked.toml", "--kind", "queues"]) == 2 and "not written over the input" in capsys.readouterr().err
    assert (own / "linked.toml").read_bytes() == before
    assert main(["compare", "linked.toml", "--plot", "."]) == 2 and "--plot is '.'; it is a file named .png, .svg or .pdf" in capsys.readouterr().err


def test_a_full_disk_leaves_the_old_table(own):
    """`run --csv` whose disk is full in the middle: status 4, and the table of the last time is there."""
    table = own / "t.csv"
    table.write_text("of the last time")
    limited = ("import resource, signal, sys; signal.signal(signal.SIGXFSZ, signal.SIG_IGN); from nobyaluk.cli import main;"
               "resource.setrlimit(resource.RLIMIT_FSIZE, (20_000, 20_000)); sys.exit(main(sys.argv[1:]))")
    out = subprocess.run([sys.executable, "-c", limited, "run", own / "plain.toml", "--csv", table], capture_output=True, text=True)
    assert out.returncode == 4 and out.stderr == f"nobyaluk: {table} could not be written: File too large\n"
    assert table.read_text() == "of the last time" and not others(own)


def test_a_sweep_looks_at_its_output_first(own, capsys):
    status = main(["sweep", str(own / "plain.toml"), "--load", "0:1000:0.001", "-o", str(own / "no/such.csv")])
    assert status == 4 and "could not be written: No such file or directory" in capsys.readouterr().err


def test_a_refused_queue_writes_nothing(own, capsys):
    """The table is written once its run is accepted: here the cell can't take what the ceiling wants."""
    (own / "full.toml").write_text((own / "plain.toml").read_text().replace("[    300,     900,     200]", "[5000, 5000, 5000]"))
    status = main(["queue", str(own / "full.toml"), "Mill Street", "--ceiling", "0", "--rate", "7000", "-o", str(own / "q.csv")])
    assert status == 1 and "refused 10" in capsys.readouterr().err and not (own / "q.csv").exists()


def test_names_in_tables(own, capsys):
    """A comma is quoted, and what a spreadsheet would compute has an apostrophe; such a table is read back by `columns`."""
    for name in ('=cmd|\' /C calc\'!A0', "Mill, Street", "+1", "-1", "@x", '"quoted"', "a\"b'c"):
        (own / "named.toml").write_text((own / "plain.toml").read_text().replace("Mill Street", name.replace('"', '\\"')))
        path = str(own / "named.toml")
        assert main(["run", path, "--csv", str(own / "t.csv")]) == 0, capsys.readouterr().err
        ramps = {row["ramp"] for row in csv.DictReader(open(own / "t.csv"))} - {""}
        formula = name[0] in "=+-@"
        assert ramps == {"'" + name if formula else name}
        capsys.readouterr()
        assert main(["load", path, "--seed", "1", "--peak", "3600", "--ramp-peak", "600", "-o", str(own / "a.csv")]) == 0
        said = capsys.readouterr().out
        assert next(csv.reader(open(own / "a.csv"))) == ["step", "gate", "'" + name if formula else name]
        more = said.strip().partition(" and ")[2]
        assert bool(more) == formula
        (own / "again.toml").write_text(f'base = "named.toml"\n[arrivals]\nfile = "a.csv"\nunit = "parts"\n{more}\n')
        assert load(own / "again.toml").record.rows[:, 7].sum() > 0
        assert main(["queue", path, name, "--ceiling", "40", "--rate", "1200", "-o", str(own / "q.csv")]) in (0, 1)
        if (own / "q.csv").exists():
            assert next(csv.reader(open(own / "q.csv"))) == ["step", "'" + name if formula else name]
        capsys.readouterr()
