"""A wheel that needs no compiler: built, unpacked elsewhere, installed and removed, and used with nothing of the checkout."""
import os
import shutil
import subprocess
import sys
import zipfile

import pytest

NAMES = ("pyproject.toml", "setup.py", "README.md", "nobyaluk")
SUMS = "total 33098 gate 6532 road 20866 ramp 5700 exits 3701\n"


def has(module):
    return subprocess.run([sys.executable, "-P", "-c", f"import {module}"], capture_output=True).returncode == 0


@pytest.fixture(scope="module")
def wheel(root, tmp_path_factory):
    """As `python3 -m build` makes it, through a source archive, of a copy: a build leaves folders behind."""
    for module in ("setuptools", "wheel", "build"):
        if not has(module):
            pytest.skip(f"{module} is not installed here")
    source, folder = tmp_path_factory.mktemp("source"), tmp_path_factory.mktemp("dist")
    for name in NAMES:
        path = root / "bindings/python" / name
        (shutil.copytree if path.is_dir() else shutil.copy)(path, source / name)
    env = {**os.environ, "NOBYALUK_ROOT": str(root)}
    subprocess.run([sys.executable, "-m", "build", "--no-isolation", "--outdir", folder, source], check=True, capture_output=True, env=env, cwd=source)
    assert len(list(folder.glob("*.tar.gz"))) == 1
    return next(folder.glob("*.whl"))


def test_it_runs_alone(wheel, examples, tmp_path):
    zipfile.ZipFile(wheel).extractall(tmp_path)
    env = {"PATH": "/nowhere", "PYTHONPATH": str(tmp_path)}
    command = [sys.executable, "-m", "nobyaluk", "run", "--listing", str(examples / "printed-run.rec")]
    out = subprocess.run(command, env=env, cwd=tmp_path, capture_output=True, text=True)
    assert out.returncode == 0 and out.stdout.endswith(SUMS)
    where = subprocess.run([sys.executable, "-c", "import nobyaluk; print(nobyaluk.library.path())"], env=env, cwd=tmp_path, capture_output=True, text=True)
    assert where.stdout.strip() == str(tmp_path / "nobyaluk/libnobyaluk.so")


def test_what_an_installer_reads(wheel, root):
    version = (root / "VERSION").read_text().strip()
    assert wheel.name == f"nobyaluk-{version}-py3-none-linux_x86_64.whl"
    with zipfile.ZipFile(wheel) as z:
        package = root / "bindings/python"
        modules = {p.relative_to(package).as_posix() for p in (package / "nobyaluk").rglob("*.py")}
        assert {n for n in z.namelist() if n.startswith("nobyaluk/")} == modules | {f"nobyaluk/{x}" for x in ("libnobyaluk.so", "py.typed")}


def test_installed_and_removed(wheel, root, examples, tmp_path):
    """pip installs it where numpy is, importlib.metadata knows it, its command runs, and pip removes all of it."""
    if not has("ensurepip"):
        pytest.skip("python3-venv is not installed here")
    subprocess.run([sys.executable, "-m", "venv", "--system-site-packages", tmp_path / "v"], check=True)
    env = {"PATH": "/nowhere", "HOME": str(tmp_path)}
    call = lambda *words: subprocess.run([str(x) for x in words], env=env, cwd=tmp_path, check=True, capture_output=True, text=True).stdout
    before = {p for p in (tmp_path / "v").rglob("*") if "__pycache__" not in p.parts}
    call(tmp_path / "v/bin/pip", "install", "--no-index", wheel)
    ask = ("from importlib.metadata import entry_points, metadata, version; m = metadata('nobyaluk'); print(version('nobyaluk'), m['Requires-Python'], *m.get_all('Provides-Extra'),"
           " *[e.value for e in entry_points(group='console_scripts', name='nobyaluk')])")
    version = (root / "VERSION").read_text().strip()
    assert call(tmp_path / "v/bin/python", "-c", ask) == f"{version} >=3.11 cluster frame plot progress test nobyaluk.cli:main\n"
    assert call(tmp_path / "v/bin/nobyaluk", "run", "--listing", examples / "printed-run.rec").endswith(SUMS)
    assert call(tmp_path / "v/bin/nobyaluk", "--version") == f"nobyaluk {version}\n"
    call(tmp_path / "v/bin/pip", "uninstall", "-y", "nobyaluk")
    assert {p for p in (tmp_path / "v").rglob("*") if "__pycache__" not in p.parts} == before
