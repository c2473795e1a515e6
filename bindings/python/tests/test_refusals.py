"""tools/refusals: the one table of refusals, what is made from it, and code with a number instead of a name."""
import shutil
import subprocess
import sys

import pytest

FILES = ["tools/refusals", "docs/refusals.tsv", "docs/REFUSALS.md", "docs/MODEL.md", "crates/model/src/lib.rt", "bindings/c/nobyaluk.h",
         "bindings/rust/src/refusal.rs", "bindings/python/nobyaluk/refusals.py", "bindings/wasm/refusals.mjs", "reference/src/refusals.rs"]


@pytest.fixture
def tree(root, tmp_path):
    for name in FILES:
        (tmp_path / name).parent.mkdir(parents=True, exist_ok=True)
        shutil.copy(root / name, tmp_path / name)
    return tmp_path


def check(tree, *words):
    out = subprocess.run([sys.executable, tree / "tools/refusals", *words], capture_output=True, text=True)
    assert not out.stdout and (out.returncode == 0) == (not out.stderr), out
    return out.stderr


def change(tree, name, old, new):
    text = (tree / name).read_text()
    assert old in text, f"{name} has no {old!r}"
    (tree / name).write_text(text.replace(old, new, 1))


@pytest.mark.parametrize(("name", "old", "new", "message"), [
    ("bindings/c/nobyaluk.h", "REFUSAL_PEAK                 = 25", "REFUSAL_PEAK                 = 24", "not up to date with docs/refusals.tsv: bindings/c/nobyaluk.h;"),
    ("bindings/rust/src/refusal.rs", "R::Peak,", "R::Lanes,", "not up to date with docs/refusals.tsv: bindings/rust/src/refusal.rs;"),
    ("bindings/python/nobyaluk/refusals.py", "PEAK = 25", "PEAK = 24", "not up to date with docs/refusals.tsv: bindings/python/nobyaluk/refusals.py;"),
    ("bindings/wasm/refusals.mjs", "Peak: 25", "Peak: 24", "not up to date with docs/refusals.tsv: bindings/wasm/refusals.mjs;"),
    ("reference/src/refusals.rs", "PEAK: u32 = 25", "PEAK: u32 = 24", "not up to date with docs/refusals.tsv: reference/src/refusals.rs;"),
    ("docs/REFUSALS.md", "a peak above 1,000,000", "a peak", "not up to date with docs/refusals.tsv: docs/REFUSALS.md;"),
    ("docs/MODEL.md", "`Peak`", "`Top`", "not up to date with docs/refusals.tsv: docs/MODEL.md;"),
    ("docs/MODEL.md", "| 25 | `Peak`", "| 24 | `Peak`", "does not have the numbers"),
    ("crates/model/src/lib.rt", "Refusal::Peak => 25", "Refusal::Top => 25", "names or numbers of"),
    ("docs/refusals.tsv", "\tload\t", "\tload, load_many\t", "operations load_many"),
    ("tools/refusals", '"load": "25"', '"load": "24"', "ORDER in tools/refusals does not have the refusals of load"),
    ("docs/refusals.tsv", "\tload\t", "\tload, load\t", "25 of load has two rows"),
    ("docs/refusals.tsv", "eine Spitze über 1.000.000", "", "seven cells"),
    ("docs/refusals.tsv", "25\tPeak", "29\tPeak", "the numbers must be 1, 2, 3 and so on"),
    ("docs/refusals.tsv", "\tload\tnone\t", "\tload\tlane\t", "the place must be one of"),
])
def test_what_differs_is_named(tree, name, old, new, message):
    assert check(tree) == ""
    change(tree, name, old, new)
    assert message in check(tree)


def test_a_number_instead_of_a_name(tree):
    for line in ("if e.number == 9:", "if e.number in (9, 10):", "raise Refused(17, 0, 0)"):
        (tree / "bindings/python/nobyaluk/other.py").write_text(f"{line}\n")
        assert f"other.py:1: use the refusal's name instead of its number: {line}" in check(tree)
    (tree / "bindings/python/nobyaluk/other.py").write_text("if e.number:\n")
    assert check(tree) == ""


def test_a_new_refusal_is_written_everywhere(tree):
    """A row of the table, its order, a case of the model, a function of the header and a line of MODEL.md; --write does the rest."""
    change(tree, "tools/refusals", '"load": "25",', '"load": "25", "load_many": "28",')
    change(tree, "docs/refusals.tsv", "27\tManyLengths", "28\tMany\tload_many\tnone\ttoo many\tzu viele\ttrop\n27\tManyLengths")
    change(tree, "crates/model/src/lib.rt", "Refusal::ManyLengths => 27,", "Refusal::ManyLengths => 27, Refusal::Many => 28,")
    change(tree, "bindings/c/nobyaluk.h", "nobyaluk_loaded nobyaluk_load(", "nobyaluk_loaded nobyaluk_load_many(void);\nnobyaluk_loaded nobyaluk_load(")
    change(tree, "docs/MODEL.md", "\n\nFor 9 and 10, and", "\n| 28 | too many | 0 |\n\nFor 9 and 10, and")
    assert check(tree) != ""
    assert check(tree, "--write") == check(tree) == ""
    for name, line in {"bindings/c/nobyaluk.h": "NOBYALUK_REFUSAL_MANY                 = 28,", "bindings/rust/src/refusal.rs": "    LoadMany,", "docs/MODEL.md": "| 28 | `Many` | too many | 0 |",
                       "bindings/python/nobyaluk/refusals.py": "    MANY = 28", "bindings/wasm/refusals.mjs": "  Many: 28,", "reference/src/refusals.rs": "pub const MANY: u32 = 28;",
                       "docs/REFUSALS.md": "| 28 | `Many` | `load_many` | none | too many |"}.items():
        assert line.strip() in map(str.strip, (tree / name).read_text().splitlines()), name
