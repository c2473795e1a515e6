"""The package's own form: hints on every function, lines of 100 columns, no import that hides a cycle, no private name across modules."""
import ast
import re

import pytest
import text_form as text
from nobyaluk import StudyError

OPTIONAL = ("figures", "report", "pandas", "distributed", "weasyprint", "tqdm")  # what needs a package that may be missing


@pytest.fixture(scope="module")
def sources(root):
    package = root / "bindings/python/nobyaluk"
    return {p.relative_to(package).as_posix(): p.read_text() for p in sorted(package.rglob("*.py"))}


def test_hints(sources):
    for name, source in sources.items():
        for f in ast.walk(ast.parse(source)):
            if isinstance(f, ast.FunctionDef):
                bare = [a.arg for a in f.args.args + f.args.kwonlyargs if a.annotation is None and a.arg not in ("self", "cls")]
                assert not bare and f.returns is not None, f"{name}: {f.name} {bare}"


def test_lines(sources):
    for name, source in sources.items():
        for number, line in enumerate(source.splitlines(), 1):
            assert len(line) <= 100, f"{name}:{number}"


def test_imports(sources):
    """At the top of a module, but for what needs a package that may be missing; nothing private of another module."""
    for name, source in sources.items():
        for f in ast.walk(ast.parse(source)):
            if isinstance(f, ast.FunctionDef):
                for x in ast.walk(f):
                    if isinstance(x, (ast.Import, ast.ImportFrom)):
                        words = [getattr(x, "module", None) or "", *(a.name for a in x.names)]
                        assert any(w.split(".")[0] in OPTIONAL for w in words), f"{name}: {f.name} imports {words}"
        modules = "|".join(x.split("/")[-1].removesuffix(".py") for x in sources)
        assert not re.search(rf"(?<![\w.])(?:{modules})\._[a-z]", source), name
        assert not re.search(r"^from \.+\w* import .*\b_[a-z]", source, re.M), name


def test_no_number_of_the_text_form_is_cut():
    """ctypes would keep the low bits of a number that is too large."""
    road = "gate capacity 1\ncell v {v} w 1 b 0 jam 1 capacity 1\nrow 0 0 0\n"
    for bad in ("66536", "-1", "x"):
        with pytest.raises(StudyError, match="line 2"):
            text.record_of(road.format(v=bad))
    with pytest.raises(StudyError, match="line 1"):
        text.record_of("version 257\n" + road.format(v=1))
    with pytest.raises(StudyError, match="1 to 64 cells"):
        text.record_of("repeat 65 cell v 1 w 1 b 0 jam 1 capacity 1\n")
