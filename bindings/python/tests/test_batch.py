"""The engine's batch runs studies that differ only in their arrivals; each gives the same numbers as alone."""
from dataclasses import replace
from fractions import Fraction
from functools import partial

import nobyaluk
import numpy as np
import pytest
from nobyaluk import Study, cluster, engine, library, load, many, parallel
from nobyaluk.totals import totals, totals_and_queues


@pytest.fixture
def calls(monkeypatch):
    """The number of studies in each call of the batch."""
    made = []
    for name in ("run_many", "fill_many"):
        call = getattr(library, name)
        monkeypatch.setattr(library, name, lambda *words, call=call: (made.append(words[-1] // library.ENTRY), call(*words))[1])
    return made


def alone(each, group):
    return [parallel._one(each, x) for x in group]


def fields(t):
    return (*t[:10], t.refused and t.refused.line, *t[11:])


def check(group, calls, batched=None):
    """The batch gives the same totals as single calls, with queues and without; `batched` of them use the batch."""
    for each in (totals, totals_and_queues):
        del calls[:]
        found = parallel.run_group(each, group)
        assert sum(calls) == (len(group) if batched is None else batched)
        assert [fields(t) for t in found] == [fields(t) for t in alone(each, group)]
    return found


STUDIES = ["rocade-sud", "rocade-sud-works", "rocade-sud-alinea", "rocade-sud-demand-capacity", "five-cells", "five-cells-alinea"]


@pytest.mark.parametrize("name", STUDIES)
def test_loads(examples, calls, name):
    """A table of releases, laws and works, with a load of 0, whole loads and decimals."""
    s = load(examples / f"studies/{name}.toml")
    if not many.fits(s):
        s = replace(s, record=s.run().record, plan=None, laws={})
    loads = [0, 1, 0.5, 1.25, *(Fraction(k, 1000) for k in range(700, 1300, 37)), np.float64(0.145), 3]
    found = check([partial(s.scaled, x) for x in loads], calls)
    assert len({t.total for t in found}) > 3 and found[0].name == f"{name} x 0"


@pytest.mark.parametrize("name", ["rocade-sud-alinea", "five-cells-alinea"])
def test_seeds(examples, calls, name):
    s = load(examples / f"studies/{name}.toml")
    found = check([partial(s.with_stated_load, seed, 20_000, 3_000) for seed in (*range(1, 30), 0, (1 << 32) - 1, np.int64(7))], calls)
    assert len({t.total for t in found}) == 31 and found[-1].total == found[6].total and found[0].name == f"{name}, seed 1"


def test_refusals_between_others(examples, calls):
    """Releases of the full load are above the queues of smaller loads. These are refused, each with its step and place; the others go on."""
    s = load(examples / "rocade-sud.rec")
    found = check([partial(s.scaled, Fraction(x, 10)) for x in (10, 2, 11, 5, 10, 0, 12)], calls)
    refused = [t.refused.line if t.refused else None for t in found]
    assert [x is not None for x in refused] == [False, True, False, True, False, True, False] and len(set(refused)) == 3


def test_faults_between_others(examples, calls):
    """A study that can't be made gives the same message as when it is run alone: wrong or too large loads, wrong seeds and peaks."""
    s = load(examples / "studies/five-cells-alinea.toml")
    loads = [1, 501, -1, float("nan"), "x", None, 0.9, Fraction(-1, 3), 1e300, Fraction(1_000_001), 1.1]
    found = check([partial(s.scaled, x) for x in loads], calls, 3)
    assert [bool(t.fault) for t in found] == [x not in (1, 0.9, 1.1) for x in loads] and "the gate has" in found[1].fault
    check([partial(s.with_stated_load, x, 6_000, 800) for x in (1, -1, 1 << 32, "x", 2, None, 1.5)], calls, 2)
    check([partial(s.with_stated_load, 1, x, y) for x, y in ((1_000_001, 0), (0, 1_000_001), (0, 0), (-1, 5), (1_000_000, 1_000_000))], calls, 2)
    most = int(s.record.arrivals.max())
    check([partial(s.scaled, Fraction(2_000_001 + k, 2 * most)) for k in (-2, -1, 0)], calls, 2)  # 999,999.5, 1,000,000 and 1,000,000.5 parts; the last is rounded up, above the limit


def test_numbers_of_many_digits(examples, calls):
    """Factors whose products with the arrivals don't fit 32 or 64 bits."""
    s = load(examples / "studies/five-cells-alinea.toml")
    check([partial(s.scaled, x) for x in (0.1 + 0.2, Fraction(10**30 + 1, 10**30), Fraction(1, 3), Fraction(7, 9973), Fraction(123457, 99991), 1 / 7)], calls)


def test_halves_are_rounded_up(examples, calls):
    s = load(examples / "studies/five-cells-alinea.toml")
    rows = np.zeros_like(s.record.rows)
    rows[:, 0] = np.arange(len(rows))
    check([partial(s.with_rows(rows).scaled, Fraction(k, 200)) for k in range(1, 200, 7)], calls)


def test_what_falls_back(examples, calls, tmp_path):
    """Weights, plans, releases next to laws and studies beyond one record are run one by one, with the same numbers."""
    weighed = load(examples / "exercise/weights.toml")
    check([partial(weighed.scaled, x) for x in (0.9, 1)], calls, 0)
    s = load(examples / "studies/five-cells.toml")
    planned = s if s.plan is not None else replace(s, plan=s.record.rows[:, 2::2] + 300, laws={})
    check([partial(planned.scaled, x) for x in (0.9, 1)], calls, 0)
    mixed = load(examples / "studies/rocade-sud-alinea.toml")
    mixed.laws = dict(list(mixed.laws.items())[1:])
    check([partial(mixed.scaled, x) for x in (0.9, 1)], calls, 0)
    (tmp_path / "long.toml").write_text(f'base = "{examples}/studies/rocade-sud-alinea.toml"\nsteps = 400\n[arrivals]\nfile = "{examples}/studies/rocade-sud-arrivals.csv"\n')
    long = load(tmp_path / "long.toml")
    check([partial(long.scaled, x) for x in (0.9, 1)], calls, 0)
    odd = load(examples / "studies/five-cells-alinea.toml")
    odd.laws = {**odd.laws, 1: ("fixed", 1.0)}  # cell 1 has no ramp
    assert "cell 1 has no ramp" in check([partial(odd.scaled, 1)], calls, 0)[0].fault
    odd.laws = {cell: ("fixed", float("nan")) for cell in odd.record.ramps}
    assert check([partial(odd.scaled, 1)], calls, 1)[0].refused.number == 16
    works = load(examples / "studies/rocade-sud-works.toml")
    works = replace(works, record=works.run().record, plan=None, laws={})
    for lanes, number in ((works.lanes[1:], 17), (bytes(len(works.lanes)), 18)):
        assert check([partial(replace(works, lanes=lanes).scaled, 1)], calls, 1)[0].refused.number == number


def test_studies_of_all_kinds(examples, calls):
    """In a group of recipes, studies and paths, neighbouring recipes of one study and kind share a call."""
    a, b = (load(examples / f"studies/{x}.toml") for x in ("five-cells-alinea", "rocade-sud-alinea"))
    loads = lambda s, *xs: [partial(s.scaled, x) for x in xs]
    group = [*loads(a, 1, 2), *loads(b, 1), partial(a.with_stated_load, 1, 9, 9), partial(a.with_stated_load, 2, 9, 9), partial(a.with_stated_load, 2, 8, 9),
             a, str(examples / "studies/five-cells.toml"), partial(a.scaled, load=1), *loads(a, 3)]
    found = parallel.run_group(totals, group)
    assert calls == [2, 1, 2, 1, 1]
    assert [fields(t) for t in found] == [fields(t) for t in alone(totals, group)]

    class Other(Study):
        def scaled(self, load):
            return a

    other = Other(**{key: x for key, x in vars(a).items()})
    assert parallel.run_group(totals, loads(other, 5))[0].total == a.run().total


def test_chunks(examples, calls, monkeypatch):
    """Chunks of two studies, and of one if a single study is larger than a chunk."""
    s = load(examples / "studies/five-cells-alinea.toml")
    group = [partial(s.scaled, Fraction(k, 10)) for k in range(5, 14)]
    for size, sizes in ((2 * 4 * s.record.arrivals.size, [2, 2, 2, 2, 1]), (1, [1] * 9)):
        monkeypatch.setattr(many, "TABLES", size)
        check(group, calls)
        assert calls == sizes


def test_map_and_objects(examples, calls):
    """`map` by threads uses the batch; studies that are already made have their own records and are run one by one."""
    s = load(examples / "studies/rocade-sud-alinea.toml")
    loads = [Fraction(k, 100) for k in range(50, 150)]
    wanted = [s.scaled(x).run() for x in loads]
    found = list(nobyaluk.map(partial(s.scaled, x) for x in loads))
    assert sum(calls) == 100 and [(t.total, t.exits, t.present) for t in found] == [(r.total, r.exits, r.present) for r in wanted]
    assert [fields(t) for t in nobyaluk.map([s.scaled(x) for x in loads])] == [fields(t) for t in found] and sum(calls) == 100
    runs = list(nobyaluk.map([partial(s.scaled, x) for x in loads[:3]], each=Study.run))
    assert [r.total for r in runs] == [t.total for t in found[:3]] and sum(calls) == 100


def test_the_record_is_not_changed(examples, calls):
    """The engine writes arrivals and releases into a copy."""
    s = load(examples / "studies/rocade-sud-alinea.toml")
    before = bytes(s.record.data)
    parallel.run_group(totals, [partial(s.scaled, x) for x in (0.5, 1.5)])
    assert s.record.data == before and engine.read(before) == s.record and not s.record.arrivals.flags.writeable


def test_a_task_of_a_cluster(examples):
    """What a worker of a cluster receives, and what it returns."""
    import pickle

    s = load(examples / "studies/rocade-sud-alinea.toml")
    group = [partial(s.scaled, Fraction(k, 10)) for k in (5, 10)]
    assert [fields(t) for t in pickle.loads(cluster._packed(pickle.dumps(partial(parallel.run_group, totals)), pickle.dumps(group))[1])] == [fields(t) for t in alone(totals, group)]


def test_total_and_present_are_the_engines(examples, monkeypatch):
    """Python computes neither: other numbers in the entries go into totals and hours as they are."""
    call = many.Batch.call

    def other(batch, tables):
        entries = call(batch, tables)
        entries[:, 6], entries[:, 8] = 7, 9
        return entries

    monkeypatch.setattr(many.Batch, "call", other)
    s = load(examples / "studies/five-cells.toml")
    (t,) = parallel.run_group(totals, [partial(s.scaled, 1)])
    assert (t.total, t.present) == (7, 9) and t.gate + t.road + t.ramp == s.run().total
    assert nobyaluk.hours(t, 3_600).total == 7 / 1000
