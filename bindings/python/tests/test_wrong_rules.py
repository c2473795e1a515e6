"""Wrong programs answer what docs/BY-HAND.md says of them, and judging finds them out."""
import re

import pytest
from nobyaluk import Refused, engine, load
from nobyaluk.teaching import wrong_rules as wrong


@pytest.fixture
def record(examples):
    return load(examples / "printed-run.rec").record


def test_shares_rounded_alone(record, root):
    w = wrong.round_shares_alone(record)
    assert (w.outflow[:, 1].tolist(), w.total, w.present) == ([934, 934, 934], 33096, 11298)
    with pytest.raises(Refused) as e:
        engine.judge(record, w.outflow)
    assert e.value.line == "refused 14 1 1"
    page = (root / "docs/BY-HAND.md").read_text()
    assert re.search(rf"the total is {w.total}, and present plus exits, {w.present} \+", page) and f"`{e.value.line}`" in page


def test_cells_one_after_another(record, root):
    w = wrong.move_one_after_another(record)
    assert (w.outflow[:, 0].tolist(), w.total) == ([1733, 1533, 1383], 33098)
    with pytest.raises(Refused) as e:
        engine.judge(record, w.outflow)
    assert e.value.line == "refused 14 0 0"
    page = (root / "docs/BY-HAND.md").read_text()
    assert "The gate sends **1733**" in page and "it sends 1533 and 1383" in page and f"The total is {w.total} all the same" in page
    first = wrong.move_one_after_another(record, last_first=False)
    assert first.outflow[0, 1] == 934 and (first.outflow != w.outflow).any()


def test_a_road_that_no_wrong_rule_spoils(examples):
    """One cell without an off-ramp: nothing is rounded, so the shares' rule gives the engine's run."""
    text = "gate capacity 2000 queue 900\ncell v 500 w 250 b 0 jam 8000 capacity 900 held 0\nrepeat 5 row 700 0 0\n"
    import text_form as texts

    run = engine.run(texts.record_of(text))
    w = wrong.round_shares_alone(run.record)
    assert (w.outflow == run.outflow).all() and (w.total, w.gate, w.road, w.ramp, w.present) == (run.total, run.gate, run.road, run.ramp, run.present)
