"""./release with stand-ins for the checks and for what makes the packages: nothing is released from a tree that is not clean, proved and tested."""
import os
import shutil
import subprocess

import pytest

BUILT = ["staticlib/libexports.a", "staticlib/proved", "staticlib/flags", "bindings/libnobyaluk.so", "bindings/flags", "wasm/nobyaluk.html", "wasm/nobyaluk.wasm", "wasm/flags",
         "bin/ctm", "bin/exercise", "log/ctm.out", "log/exercise.out"]
GATE = f"""#!/bin/sh
echo x >>../calls
[ ! -e ../red ] || exit 1
for file in {' '.join(BUILT)}; do mkdir -p "target/${{file%/*}}" && echo "$file" >"target/$file"; done
tools/verdict keep "$(git rev-parse HEAD)" '7 passed, 0 failed' && echo '7 passed, 0 failed'
"""
PACKAGES = """#!/bin/sh
mkdir -p "$1" && cp target/bin/ctm "$1/ctm" && printf 'commit      %s\\nchecks      %s\\n' "$2" "$3" >"$1/PROVENANCE.txt"
[ ! -e ../clock ] || date +%N >"$1/clock"
(cd "$1" && sha256sum * >SHA256SUMS)
"""


@pytest.fixture
def tree(root, tmp_path):
    """A small repository whose every file is committed."""
    if not shutil.which("git"):
        pytest.skip("git is not installed here")
    there = tmp_path / "tree"
    for name in ("release", "tools/verdict", "VERSION"):
        (there / name).parent.mkdir(parents=True, exist_ok=True)
        shutil.copy(root / name, there / name)
    for name, text in ((".ci/run", GATE), ("tools/packages", PACKAGES), (".gitignore", "target/\n/dist/\n")):
        (there / name).parent.mkdir(exist_ok=True)
        (there / name).write_text(text)
        (there / name).chmod(0o755)
    env = {**os.environ, "GIT_CONFIG_GLOBAL": "/dev/null", "GIT_CONFIG_SYSTEM": "/dev/null"}
    for role in ("AUTHOR", "COMMITTER"):
        env |= {f"GIT_{role}_NAME": "a", f"GIT_{role}_EMAIL": "a@example.org"}
    git = lambda *words: subprocess.run(["git", *words], cwd=there, env=env, check=True, capture_output=True)
    git("init", "-q")
    git("add", ".")
    git("commit", "-qm", "all")

    def release(*words):
        out = subprocess.run([there / "release", *words], env=env, cwd=tmp_path, capture_output=True, text=True)
        return out.returncode, out.stdout + out.stderr

    return there, git, release


REUSE = "--reuse-gate-of-this-commit"


def test_from_the_checks_to_dist(tree):
    there, _, release = tree
    status, said = release()
    assert status == 0 and "made twice with the same bytes; 7 passed, 0 failed" in said
    assert "checks      7 passed, 0 failed" in (there / "dist/PROVENANCE.txt").read_text()
    status, said = release(REUSE)
    assert status == 0 and "the same bytes as the release of this commit that was in dist/" in said
    assert (there.parent / "calls").read_text() == "x\n"  # the second did not run the checks


def test_not_without_a_verdict_on_this_commit(tree):
    there, git, release = tree
    status, said = release(REUSE)
    assert status == 1 and "the checks have not passed here" in said and not (there / "dist").exists()
    (there.parent / "red").touch()
    assert release()[0] == 1 and not (there / "dist").exists()
    (there.parent / "red").unlink()
    assert release()[0] == 0
    git("commit", "-q", "--allow-empty", "-m", "more")
    status, said = release(REUSE)
    assert status == 1 and "the checks have passed on" in said
    git("reset", "-q", "--hard", "HEAD~")
    (there / "target/bin/ctm").write_text("another")
    status, said = release(REUSE)
    assert status == 1 and "target/bin/ctm" in said and "has changed since" in said


@pytest.mark.parametrize("name", ["VERSION", "new"])
def test_not_from_a_changed_tree(tree, name):
    there, _, release = tree
    assert release()[0] == 0
    with open(there / name, "a") as f:
        f.write("changed\n")
    for words in ((), (REUSE,)):
        status, said = release(*words)
        assert status == 1 and "the tree has uncommitted changes" in said and name in said


def test_other_bytes(tree):
    there, _, release = tree
    assert release()[0] == 0
    (there / "dist/ctm").write_text("another")
    status, said = release(REUSE)
    assert status == 1 and "dist/ has a release of this commit with other bytes" in said
    (there.parent / "clock").touch()
    status, said = release(REUSE)
    assert status == 1 and "the two copies of the packages differ" in said
