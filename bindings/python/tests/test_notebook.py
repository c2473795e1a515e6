"""The notebook of examples/, run as a reader runs it; passed over where pandas, nbconvert or ipykernel is missing."""
import json
import resource

import pytest

NAME = "metering.ipynb"
SECONDS = 30  # that it may take of a processor


@pytest.fixture(scope="module")
def stored(examples):
    return json.loads((examples / NAME).read_text())


def test_it_is_stored_without_outputs(stored):
    """So that a change shows its words alone, and no number in it can be old; the checks run it."""
    assert stored["nbformat"] == 4 and set(stored["metadata"]) == {"kernelspec", "language_info"}
    for cell in stored["cells"]:
        assert cell["metadata"] == {} and (cell["cell_type"] == "markdown" or cell["outputs"] == [] and cell["execution_count"] is None)


def test_it_runs(examples, monkeypatch):
    for module in ("pandas", "matplotlib", "ipykernel"):
        pytest.importorskip(module, reason=f"the notebook needs {module}")
    nbformat = pytest.importorskip("nbformat", reason="the notebook needs nbconvert")
    preprocessors = pytest.importorskip("nbconvert.preprocessors", reason="the notebook needs nbconvert")
    monkeypatch.delenv("MPLBACKEND", raising=False)
    monkeypatch.setenv("PYDEVD_DISABLE_FILE_VALIDATION", "1")
    book = nbformat.read(examples / NAME, as_version=4)
    nbformat.validate(book)
    used = lambda: sum(resource.getrusage(resource.RUSAGE_CHILDREN)[:2])
    before = used()
    done, _ = preprocessors.ExecutePreprocessor(timeout=300, kernel_name="python3").preprocess(book, {"metadata": {"path": str(examples)}})
    assert used() - before < SECONDS
    outputs = [[o.get("data", {}) | {"text/plain": o.get("text", "") or o.get("data", {}).get("text/plain", "")} for o in c.outputs] for c in done.cells if c.cell_type == "code"]
    shown = " ".join(str(x) for cell in outputs for o in cell for x in o.values())
    for words in ("170.32", "total_vehicle_hours", "167.25", "lowest_speed_km_per_h", "Five cells, a wider bottleneck", "225 steps, 5 cells"):
        assert words in shown, words
    assert sum("image/png" in o for cell in outputs for o in cell) == 5 and sum("text/html" in o for cell in outputs for o in cell) >= 6
    assert not any(o.output_type == "error" for c in done.cells if c.cell_type == "code" for o in c.outputs)
