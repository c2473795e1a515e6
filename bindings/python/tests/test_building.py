"""What a first build prints: how long it takes, and each crate as it is proved; by ./nobyaluk, by cargo and by the page's build."""
import os
import pty
import re
import select
import shutil
import subprocess

import pytest
from test_cli import checkout  # noqa: F401

FIRST = re.compile(r"nobyaluk: the engine is proved and built first: 2 crates, about eight minutes\r?\n")
CRATE = "nobyaluk: crate 1 of at most 2: rows proved"


def at_a_terminal(command, env, folder):
    """What a command shows at a terminal, and its exit status."""
    child, there = pty.fork()
    if child == 0:
        os.chdir(folder)
        os.execvpe(command[0], command, env)
    seen = b""
    while select.select([there], [], [], 300)[0]:
        try:
            data = os.read(there, 4096)
        except OSError:  # the terminal is closed
            break
        if not data:
            break
        seen += data
    os.close(there)
    return seen.decode(errors="replace"), os.waitstatus_to_exitcode(os.waitpid(child, 0)[1])


@pytest.fixture
def proving(checkout):  # noqa: F811
    """The stand-in checkout, and what `bindings/build` prints in it."""
    there, env, calls = checkout
    return there, env, calls, lambda *words: subprocess.run([there / "bindings/build", *words], env=env, capture_output=True, text=True)


def test_an_estimate_at_the_first_build_alone(proving):
    there, env, calls, prove = proving
    out = prove()
    assert out.returncode == 0 and FIRST.match(out.stderr) and CRATE in out.stderr and calls.read_text() == "lib --cpu x86-64\n"
    (there / "crates/rows/out/rlib").mkdir(parents=True)
    (there / "crates/rows/out/rlib/stamp").write_text("")
    assert re.match(r"nobyaluk: what has changed of the engine's 2 crates is proved and built first, .* at most\n", prove().stderr)


def test_the_archive_is_built_by_one_at_a_time(proving):
    there, env, calls, prove = proving
    both = [subprocess.Popen([there / "bindings/build"], env=env, stderr=subprocess.PIPE, text=True) for _ in range(2)]
    said = [p.communicate()[1] for p in both]
    assert [p.returncode for p in both] == [0, 0] and (there / "target/staticlib/libexports.a").exists()
    assert sum("another process proves and builds here; this one waits for it" in x for x in said) == 1 and calls.read_text() == "lib --cpu x86-64\n" * 2


def test_what_fails_is_shown(proving, tmp_path):
    there, env, _, prove = proving
    (tmp_path / "bin/rt").write_text("#!/bin/sh\necho 'rt: rows does not prove'\nexit 1\n")
    out = prove()
    assert out.returncode == 1 and "rt: rows does not prove" in out.stderr
    without = {**env, "PATH": "/usr/bin:/bin"}
    out = subprocess.run([there / "bindings/build"], env=without, capture_output=True, text=True)
    assert out.returncode == 1 and "the tool rt of the Rattle kit, which proves and builds the engine, is not on the PATH" in out.stderr


@pytest.mark.skipif(not (shutil.which("cargo") or os.path.exists("/root/.cargo/bin/cargo")), reason="no cargo")
def test_cargo_shows_each_crate(root, proving, tmp_path):
    """At a terminal lines come as the crates are proved; otherwise cargo hides them, except after a failure."""
    there, env, calls, _ = proving
    shutil.copytree(root / "bindings/rust", there / "bindings/rust", ignore=shutil.ignore_patterns("target", "tests"))
    shutil.copytree(root / "bindings/c", there / "bindings/c", dirs_exist_ok=True)
    env = {**env, "PATH": f"{env['PATH']}:{os.path.expanduser('~/.cargo/bin')}", "TERM": "xterm", "CARGO_TARGET_DIR": str(tmp_path / "cargo")}
    shown, status = at_a_terminal(["cargo", "build", "--offline", "--lib"], env, there / "bindings/rust")
    assert status == 0 and FIRST.search(shown) and CRATE in shown and shown.index(CRATE) < shown.index("Finished"), shown
    assert calls.read_text() == "lib --cpu x86-64\n"
    (tmp_path / "bin/rt").write_text("#!/bin/sh\necho 'rt: rows does not prove'\nexit 1\n")
    (there / "crates/rows/src/lib.rt").write_text("// changed\n")
    out = subprocess.run(["cargo", "build", "--offline", "--lib"], env=env, cwd=there / "bindings/rust", capture_output=True, text=True)
    assert out.returncode != 0 and "rt: rows does not prove" in out.stderr and "NOBYALUK_LIB_DIR" in out.stderr


def test_the_pages_build_proves_by_the_same_script(root):
    build = (root / "bindings/wasm/build").read_text()
    assert build.index("    estimate exports\n") < build.index("    prove exports ") < build.index("\nmake_archive ")
