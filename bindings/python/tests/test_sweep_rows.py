"""A sweep's rows from few calls are those of each study run separately, to the byte."""
import csv
import io
import pickle
import re
from dataclasses import replace
from decimal import Decimal
from fractions import Fraction
from itertools import permutations, product

import numpy as np
import pytest
from nobyaluk import StudyError, engine, hours, library, load, many, parallel
from nobyaluk.cli.arguments import parse_span
from nobyaluk.spans import Span
from nobyaluk.sweep import SweepRows
from nobyaluk.sweep_studies import LoadSweep, SeedSweep, VariantSweep
from nobyaluk.totals import totals_and_queues
from nobyaluk.variants import Variants


def compare(what, s, together=True):
    """The rows of a sweep; they are the same from few calls, in two tasks and separately."""
    rows, ks = SweepRows(what, s), list(range(len(what)))
    assert (rows.together is not None) == together
    found = rows.run(totals_and_queues, ks)
    assert found == rows.run_alone(totals_and_queues, ks)
    assert found == [rows.line(k, parallel._one(totals_and_queues, what.study(k))) for k in ks]
    again = pickle.loads(pickle.dumps(SweepRows(what, s)))  # as a worker of a cluster has them
    half = len(ks) // 2
    assert [again.run(totals_and_queues, some) for some in (ks[half:], ks[:half])] == [found[half:], found[:half]]
    return found


@pytest.mark.parametrize("name", ["rocade-sud-alinea", "rocade-sud-demand-capacity", "five-cells-alinea"])
@pytest.mark.parametrize("words", ["0:1.5:0.0625", "0.333:1.2:0.111", "0.9:1000:83.7", "0.00000000025:0.000000001:0.00000000025", "1:1.00000000001:0.000000000001", "1e-98:9e-98:1.234567890123e-98"])
def test_loads(examples, name, words):
    s = load(examples / f"studies/{name}.toml")
    found = compare(LoadSweep(s, parse_span(words, "--load", least=0)), s)
    assert ("a step takes at most 1,000" in found[-1]) == (words == "0.9:1000:83.7") and found[0].endswith(",\n")


def test_refusals_and_no_seconds(examples):
    """The record's releases are above the queues of smaller loads, and its step has no seconds."""
    s = replace(load(examples / "rocade-sud.rec"), seconds=None)
    found = compare(LoadSweep(s, Span(range(2, 14), 10)), s)
    assert [x.endswith(",\n") for x in found] == [k >= 10 for k in range(2, 14)] and found[0].startswith("0.2,,,,,,,,9 ")


def test_seeds(examples):
    s = load(examples / "studies/rocade-sud-alinea.toml")
    assert len(set(compare(SeedSweep(s, Span(range(0, 400, 7), 1), (20_000, 3_000)), s))) == 58
    compare(SeedSweep(s, Span(range((1 << 32) - 3, 1 << 32), 1), (engine.RATE, engine.RATE)), s)
    assert "refused" not in compare(SeedSweep(s, Span(range(3), 1), (engine.RATE + 1, 0)), s, together=False)[0]


@pytest.mark.parametrize("file, key, words, together", [
    ("studies/rocade-sud-alinea.toml", "meter.all.gain", "-0.02:0.3:0.01", True), ("studies/rocade-sud-alinea.toml", "meter.all.target", "0:40:5", True),
    ("studies/five-cells-alinea.toml", "meter.all.gain_kmh", "0:40:2.5", True), ("studies/rocade-sud-demand-capacity.toml", "meter.all.least", "-100:500:50", True),
    ("studies/five-cells-alinea.toml", "meter.all.law", "1:2:1", False), ("studies/five-cells-alinea.toml", "meter.all.rate", "1:2:1", False),
    ("studies/five-cells-alinea.toml", "gate.capacity", "-500:4000:500", False), ("studies/five-cells-alinea.toml", "step", "10:20:5", False),
    ("exercise/weights.toml", "weights.gate", "0:300:100", False), ("exercise/works.toml", "closure.1.lanes", "0:3:1", False)])
def test_variants(examples, file, key, words, together):
    path = examples / file
    what = VariantSweep(Variants(path, [key]), [key], [parse_span(words, "--vary")])
    compare(what, load(path), together)


def test_a_grid_of_laws(examples):
    path, keys = examples / "studies/five-cells-alinea.toml", ["meter.all.gain_kmh", "meter.all.target"]
    what = VariantSweep(Variants(path, keys), keys, [parse_span("10:30:10", "--vary"), parse_span("-10:40:10", "--vary")])
    found = compare(what, load(path))
    assert [x.split(",")[:2] for x in found] == [[str(a), str(b)] for a in (10, 20, 30) for b in range(-10, 50, 10)]


ROAD = """
step = {step}
start = "07:00"
steps = 20
gate = {{capacity = 4400}}
defaults = {{length = 0.5, speed = 60, wave = 18, jam = 250, capacity = 4400}}
cell = [{{length = 0.7312345, ramp = "A"}}, {{split = 0.8}}, {{length = 0.3417, ramp = "B"}}, {{ramp = "C"}}, {{capacity = 3800}}]
arrivals = {{time = ["07:00"], gate = [3000], A = [300], B = [100], C = [200]}}
[meter.{ramp}]
{law}
"""
OTHERS = '[meter.all]\nlaw = "fixed"\nrate = 400\n'  # of ramps without a table of their own
LAWS = {
    'law = "fixed"\nrate = 400': ["rate"],
    'law = "alinea"\ngain = 0.07\ntarget = "critical"': ["gain", "target"],
    'law = "alinea"\ngain_kmh = 7\ntarget = 33.3': ["gain_kmh", "target"],
    'law = "demand-capacity"\ncapacity = 4000\ncritical = 30\nleast = 200': ["capacity", "critical", "least"],
    'law = "demand-capacity"\nleast = 200': ["least"],
    'law = "fixed"\nparts = {rate = 5}': ["parts.rate"],
    'law = "alinea"\nparts = {gain = 0.1, target = 20000}': ["parts.gain", "parts.target"],
    'law = "demand-capacity"\nparts = {capacity = 1.5, critical = 3, least = -4}': ["parts.capacity", "parts.critical", "parts.least"],
}
SPANS = ["-0.02:0.3:0.01", "0:7:0.333333", "33.3:33.4:0.000977", "123456789.123456789:123456799.123456789:0.98765432101234567891",
         "9007199254740990:9007199254740999:1", "5:5:1e60", "-1e-28:9e-28:7e-29", "1e-40:9e-40:1e-40", "-3e30:3e30:1e29", "1e99:1e99:1"]


def numbers_of(what):
    """The numbers of each variant's laws, from all variants at once; None for a variant that is made separately."""
    ks, (_, numbers) = range(len(what)), engine.encode_laws(what.variants.base.laws)
    found = np.tile(numbers.ravel(), (len(ks), 1))
    what.set_numbers(ks, found)
    return [None if np.isnan(x).any() else x.tobytes() for x in found]


def laws_or_none(make):
    """The same of one study; None if it can't be made."""
    try:
        return engine.encode_laws(make().laws)[1].tobytes()
    except StudyError:
        return None


@pytest.mark.parametrize("ramp", ["all", "B"])
@pytest.mark.parametrize("law", LAWS)
def test_numbers_of_laws_are_those_of_a_file(tmp_path, ramp, law):
    """To the last bit, for each law, key and unit. All variants are converted at once, a file with that number by itself."""
    path, one = tmp_path / "road.toml", tmp_path / "one.toml"
    path.write_text((ROAD if ramp == "all" else ROAD.replace("[meter", OTHERS + "[meter")).format(step=17, ramp=ramp, law=law))
    keys = [f"meter.{ramp}.{key}" for key in LAWS[law]]
    for key, words in product(keys, SPANS):
        what = VariantSweep(Variants(path, [key]), [key], [parse_span(words, "--vary")])
        found = numbers_of(what)
        assert found == [laws_or_none(what.study(k)) for k in range(len(what))]
        if max(abs(what.axes[0][k]) for k in (0, -1)) < 10**30 and 0 not in what.axes[0].tops and abs(what.axes[0][0]) > Fraction(1, 10**30):
            own = key.split(".")[-1]
            files = [re.sub(rf"(?<=\b{own} = )[^,}}\n]+(?!.*\b{own} = )", what.axes[0].text(k), path.read_text(), flags=re.S) for k in range(len(what))]
            assert found == [laws_or_none(lambda: one.write_text(x) and load(one)) for x in files], key
    for one_key, other in permutations(keys, 2):
        axes = [parse_span("-0.3:2:0.37", "--vary"), parse_span("0.1:4:0.77", "--vary")]
        what = VariantSweep(Variants(path, [one_key, other]), [one_key, other], axes)
        found = numbers_of(what)
        assert found == [laws_or_none(what.study(k)) for k in range(len(what))] and len(set(found)) >= len(axes[1])


def test_a_value_out_of_its_limits_has_its_own_message(tmp_path, told):
    """In its own row; the others have numbers. It is the message of the file with that number."""
    path = tmp_path / "road.toml"
    path.write_text(ROAD.replace("[meter", OTHERS + "[meter").format(step=17, ramp="B", law='law = "alinea"\ngain_kmh = 7\ntarget = 33.3'))
    status, out, err = told("sweep", path, "--vary", "meter.B.gain_kmh=-2:2:1", "--vary", "meter.B.target=-1:1:1")
    rows = list(csv.DictReader(io.StringIO(out)))
    assert status == 0 and len(rows) == 15 and "9 of 15 failed" in err
    for r in rows:
        gain, target = int(r["meter.B.gain_kmh"]), int(r["meter.B.target"])
        wrong = f"`gain_kmh` is {gain}" if gain < 0 else f"`target` is {target}" if target < 0 else ""
        assert r["refused"] == (f"{path}: [meter.B]: {wrong}; it is at least 0" if wrong else "") and (r["total_vehicle_hours"] == "") == bool(wrong)
        path_of_one = tmp_path / "one.toml"
        path_of_one.write_text(path.read_text().replace("gain_kmh = 7", f"gain_kmh = {gain}").replace("target = 33.3", f"target = {target}"))
        if wrong:
            with pytest.raises(StudyError) as caught:
                load(path_of_one)
            assert str(caught.value).replace("one.toml", "road.toml") == r["refused"]
        else:
            assert r["total_vehicle_hours"] == f"{hours(load(path_of_one).run(), 17).total:.4f}"


def test_what_is_run_one_by_one(examples):
    weighed = load(examples / "exercise/weights.toml")
    assert compare(LoadSweep(weighed, Span(range(8, 13), 10)), weighed, together=False)[0].count(",") == 9
    s = load(examples / "studies/five-cells-alinea.toml")
    odd = replace(s, laws={**s.laws, 1: ("fixed", 1.0)})  # cell 1 has no ramp
    assert "cell 1 has no ramp" in compare(LoadSweep(odd, Span(range(8, 13), 10)), odd, together=False)[0]


def test_few_calls(examples, monkeypatch):
    """No study is made: 60 loads take few calls of the engine, and 60 gains take 60 calls with one record."""
    calls = []
    for name in ("fill_many", "fill_longest"):
        call = getattr(library, name)
        monkeypatch.setattr(library, name, lambda *words, call=call, name=name: (calls.append((name, words[0])), call(*words))[1])
    monkeypatch.setattr(many, "TABLES", 1 << 20)
    path = examples / "studies/rocade-sud-alinea.toml"
    s = load(path)
    SweepRows(LoadSweep(s, Span(range(60), 50)), s).run(totals_and_queues, range(60))
    assert [name for name, _ in calls] == ["fill_many"] * -(-60 // ((1 << 20) // (4 * s.record.arrivals.size)))
    calls.clear()
    key = "meter.all.gain"
    SweepRows(VariantSweep(Variants(path, [key]), [key], [Span(range(60), 500)]), s).run(totals_and_queues, range(60))
    assert len(calls) == 60 and len(set(calls)) == 1


@pytest.mark.parametrize("unit", [1, 2, 4, 5, 8, 10, 40, 1000, 10**30, 2**90, 10**100, 2**101])
def test_numbers_as_they_are_written(unit):
    span = Span(range(-30, 31, 5), unit)
    for k in range(len(span)):
        assert Fraction(span.text(k)) == span[k] == Fraction(-30 + 5 * k, unit)
        assert "e" not in span.text(k) and (span.text(k) == "0" or Decimal(span.text(k)) != 0) and not ("." in span.text(k) and span.text(k)[-1] in "0.")


@pytest.mark.parametrize("over", [10**6, 10**29, 10**400])
def test_a_single_zero_times_any_factor(over):
    """The factor may be above 64 bits; the product is a float all the same."""
    found = Span(range(0, 1), 1).times(np.array([0, 0]), Fraction(over, 7), 0)
    assert found.dtype == float and found.tolist() == [0, 0]
