"""./nobyaluk itself: it installs nothing unasked, imports nothing of the current folder, and builds again only after a change."""
import os
import pty
import signal
import subprocess
import sys
import time
from pathlib import Path

import pytest
from test_cli import checkout, only  # noqa: F401

DEBIAN = Path("/usr/bin/python3")
HIDES = """
import importlib.machinery as m, os
whole, hidden = m.PathFinder.find_spec, os.environ.get("HIDDEN", "").split()
m.PathFinder.find_spec = classmethod(lambda cls, name, *rest: None if name in hidden and not os.path.exists(os.environ["INSTALLED"]) else whole(name, *rest))
"""


@pytest.fixture
def machine(root, tmp_path):
    """A machine as root, whose Debian Python lacks modules until a stand-in for apt-get has been called: (call, its calls)."""
    if not DEBIAN.exists() or subprocess.run([DEBIAN, "-P", "-c", "import numpy, matplotlib"]).returncode:
        pytest.skip("Debian's Python with numpy and matplotlib is not here")
    (tmp_path / "site").mkdir()
    (tmp_path / "site/sitecustomize.py").write_text(HIDES)
    apt = f'echo "$@" >>"{tmp_path}/calls"\ncase $* in *install*) if [ -e "{tmp_path}/offline" ]; then echo "E: no network" && exit 100; fi; : >"{tmp_path}/installed" ;; esac'
    stand_ins = only(tmp_path / "bin", apt_get=apt, id="echo 0", python3="exit 1")
    env = {**os.environ, "PATH": f"{stand_ins}:{os.environ['PATH']}", "PYTHONPATH": str(tmp_path / "site"), "INSTALLED": str(tmp_path / "installed")}
    for name in ("PYTHON", "NOBYALUK_NO_INSTALL", "NOBYALUK_LIBRARY", "NOBYALUK_LIB_DIR"):
        env.pop(name, None)
    calls = lambda: (tmp_path / "calls").read_text() if (tmp_path / "calls").exists() else ""

    def call(*words, lacks="numpy matplotlib", cwd=tmp_path, stdin=subprocess.DEVNULL, **more):
        return subprocess.run([root / "nobyaluk", *words], cwd=cwd, env={**env, "HIDDEN": lacks, **more}, stdin=stdin, capture_output=True, text=True)

    call.env = env
    return call, calls


@pytest.mark.parametrize("words", [["--version"], ["run", "road.toml"], ["--help"], [], ["plot", "road.toml"]])
def test_nothing_is_installed_unasked(machine, words):
    call, calls = machine
    out = call(*words)
    assert out.returncode == 3 and calls() == ""
    assert "/usr/bin/python3 lacks numpy" in out.stderr and "./nobyaluk --install" in out.stderr
    assert "apt-get install python3-numpy python3-matplotlib" in out.stderr and "pip install numpy matplotlib" in out.stderr


def test_install_is_asked_for_by_the_first_word(machine, root):
    call, calls = machine
    study = root / "examples/studies/five-cells.toml"
    out = call("--install", "run", study)
    assert out.returncode == 0 and "170.32 vehicle-hours" in out.stdout
    update, install = calls().splitlines()
    assert update == "update -q" and install.endswith("install -qy python3 python3-numpy python3-matplotlib")
    assert "some 200 MB" in out.stderr
    assert call("--install", "run", study).stderr == "" and calls().count("\n") == 2  # once it is there, nothing is done
    assert call("run", study, "--install").returncode == 2


def test_install_alone(machine):
    call, calls = machine
    out = call("--install")
    assert out.returncode == 0 and calls().count("\n") == 2 and out.stderr.endswith("nobyaluk: all is there: /usr/bin/python3, numpy, matplotlib and the engine\n")


def test_install_that_fails_says_why(machine, tmp_path):
    call, calls = machine
    (tmp_path / "offline").touch()
    out = call("--install", "--version")
    assert out.returncode == 3 and "E: no network" in out.stderr and "lacks numpy" in out.stderr


@pytest.mark.parametrize("settings", [{"NOBYALUK_NO_INSTALL": "1"}, {"PYTHON": "/bin/false"}, {"USER_ID": "1000"}])
def test_install_that_cannot_be_done_says_so(machine, tmp_path, settings):
    call, calls = machine
    (tmp_path / "bin/id").write_text("#!/bin/sh\necho ${USER_ID:-0}\n")
    out = call("--install", "--version", **settings)
    assert out.returncode == 3 and calls() == "" and "--install works on Debian, as root, without PYTHON and NOBYALUK_NO_INSTALL" in out.stderr


def test_only_pictures_need_matplotlib(machine, root, tmp_path):
    call, calls = machine
    study = root / "examples/studies/five-cells.toml"
    for words in (["run", study], ["compare", study], ["--version"]):
        out = call(*words, lacks="matplotlib")
        assert (out.returncode, out.stderr) == (0, ""), words
    for words in (["plot", study], ["compare", study, "--plot", "t.png"], ["report", study, "-o", "r.html"]):
        out = call(*words, lacks="matplotlib")
        assert out.returncode == 3 and "pictures need matplotlib" in out.stderr, words
    assert calls() == ""


@pytest.mark.parametrize("answer, installs", [("y", True), ("yes", True), ("n", False), ("", False)])
def test_a_yes_at_a_terminal_installs(machine, root, answer, installs):
    call, calls = machine
    ours, theirs = pty.openpty()
    os.write(ours, (answer + "\n").encode())
    out = subprocess.Popen([root / "nobyaluk", "--version"], env={**call.env, "HIDDEN": "numpy"}, stdin=theirs, stderr=theirs, stdout=subprocess.PIPE)
    printed, _ = out.communicate(timeout=60)
    said = os.read(ours, 10_000).decode()
    assert "numpy is missing. Install python3-numpy python3-matplotlib by apt-get, some 200 MB with what they need? [y/N]" in said
    assert (out.returncode == 0) is installs is bool(calls()) is printed.startswith(b"nobyaluk ")


def test_a_python_that_does_not_start_is_not_one_without_numpy(machine):
    call, calls = machine
    out = call("--version", lacks="", PYTHONHOME="/no/such/home")
    assert out.returncode == 3 and calls() == "" and "/usr/bin/python3 is no Python of 3.11 or later, or does not start" in out.stderr


@pytest.mark.parametrize("path", [None, "", ":", ":/nowhere", "/nowhere::/elsewhere:"])
def test_nothing_of_the_current_folder_is_imported(root, tmp_path, path):
    """Neither when modules are looked for nor when the program starts; an empty entry of PYTHONPATH is the current folder too."""
    here = tmp_path / "here"
    here.mkdir()
    for name in ("warnings", "contextlib", "importlib", "numpy", "argparse", "csv", "tomllib", "nobyaluk", "sitecustomize", "usercustomize"):
        (here / f"{name}.py").write_text('open("RAN", "a").write(__name__)\n')
    bare = only(tmp_path / "bare", python3=f'exec "{sys.executable}" -S "$@"')  # without .pth files, which import some of these early
    env = {k: v for k, v in os.environ.items() if k != "PYTHONPATH"} | ({} if path is None else {"PYTHONPATH": path})
    for python in (f"{bare}/python3", sys.executable):
        subprocess.run([root / "nobyaluk", "--version"], cwd=here, env={**env, "PYTHON": python}, capture_output=True)
        assert not (here / "RAN").exists(), (here / "RAN").read_text()


@pytest.mark.parametrize("stream, status", [(">&-", 4), ("2>&-", 0), ("<&-", 0)])
def test_a_closed_stream(root, stream, status):
    command = ["sh", "-c", f'"$@" {stream}', "sh", root / "nobyaluk", "run", root / "examples/printed-run.rec"]
    out = subprocess.run(command, env={**os.environ, "PYTHON": sys.executable}, capture_output=True, text=True)
    assert out.returncode == status and "Traceback" not in out.stderr
    assert out.stderr == "nobyaluk: standard output is closed\n" if status else "vehicle-steps" in out.stdout


@pytest.fixture
def built(checkout):  # noqa: F811
    """A checkout that is built: (folder, call, how often rt was called)."""
    there, env, calls = checkout
    env.pop("PYTHONPATH", None)  # its own package, not the one under test

    def call(folder=there, **more):
        return subprocess.run([folder / "nobyaluk", "run", folder / "examples/studies/five-cells.toml"], env={**env, **more}, capture_output=True, text=True)

    assert call().returncode == 0 and calls.read_text().count("\n") == 1
    return there, call, lambda: calls.read_text().count("\n")


@pytest.mark.parametrize("name", ["a:b", "ends with a newline\n", "it's $HOME; a \\name"])
def test_any_folder(built, tmp_path, name):
    there, call, calls = built
    there.rename(tmp_path / name)
    out = call(tmp_path / name, PATH="/usr/bin:/bin")
    assert out.returncode == 0 and "170.32 vehicle-hours" in out.stdout and calls() == 1, out.stderr


def test_dates_are_no_changes(built):
    """A source from the future, or one that was only touched, builds nothing; one that changed does, whatever its date."""
    there, call, calls = built
    source = there / "crates/rows/src/lib.rt"
    for date in (time.time() + 86_400, time.time() + 1, 0):
        os.utime(source, (date, date))
        out = call(PATH="/usr/bin:/bin")
        assert (out.returncode, out.stderr) == (0, "") and calls() == 1
    source.write_text("// changed\n")
    os.utime(source, (0, 0))
    assert call().returncode == 0 and calls() == 2
    assert call().returncode == 0 and calls() == 2
    (there / "crates/rows/specs").mkdir()
    (there / "crates/rows/specs/New.antt").touch()
    assert call().returncode == 0 and calls() == 3


def test_a_library_cut_short_is_built_again(built):
    there, call, calls = built
    library = there / "target/bindings/libnobyaluk.so"
    library.write_bytes(library.read_bytes()[:5000])
    assert call().returncode == 0 and calls() == 2


def test_a_change_during_the_build_is_seen(checkout):  # noqa: F811
    there, env, calls = checkout
    command = [there / "nobyaluk", "--version"]
    first = subprocess.Popen(command, env=env, stdout=subprocess.DEVNULL, stderr=subprocess.DEVNULL)
    while not calls.exists():
        time.sleep(0.02)
    (there / "crates/rows/src/lib.rt").write_text("// changed\n")
    assert first.wait() == 0
    assert subprocess.run(command, env=env, capture_output=True).returncode == 0 and calls.read_text().count("\n") == 2


@pytest.mark.parametrize("number, status", [(signal.SIGTERM, 143), (signal.SIGINT, 130), (signal.SIGHUP, 129)])
def test_a_build_ends_with_what_was_called(checkout, tmp_path, number, status):  # noqa: F811
    """A signal to ./nobyaluk alone ends rt and what rt has started."""
    there, env, calls = checkout
    (tmp_path / "bin/rt").write_text(f'#!/bin/sh\nsleep 300 &\necho $! >"{tmp_path}/started"\nwait\n')
    taken = lambda: signal.signal(number, signal.SIG_DFL)  # a job in the background starts with Ctrl-C ignored
    running = subprocess.Popen([there / "nobyaluk", "--version"], env=env, stdout=subprocess.PIPE, stderr=subprocess.PIPE, start_new_session=True, preexec_fn=taken)
    until = time.time() + 120
    while not (tmp_path / "started").exists() or not (tmp_path / "started").read_text().strip():
        assert time.time() < until
        time.sleep(0.02)
    child = Path("/proc") / (tmp_path / "started").read_text().strip()
    assert child.exists()
    running.send_signal(number)
    assert running.wait(60) == status
    while child.exists() and "(zombie)" not in (child / "status").read_text():
        assert time.time() < until, "what rt has started is still there"
        time.sleep(0.02)
