"""Roads of a seed: good exercises, the same on every machine and in the browser page."""
import hashlib
import json
import shutil
import subprocess

import pytest
from nobyaluk import Refused, engine, summary
from nobyaluk.teaching import seeded_roads

SIZES = [(1, 3), (2, 3), (3, 12), (4, 6), (8, 10)]


def test_roads_are_exercises():
    for cells, steps in SIZES:
        for seed in range(120):
            record = seeded_roads.draw_road(seed, cells, steps)
            assert engine.read_within(record.data).road.n == cells and record.steps == steps
            run = engine.run(record)
            assert (run.outflow < summary.demands(run)).any() and record.ramps and run.ramp > 0 and run.gate > 0
            assert cells == 1 or any(0 < b < 1000 for b in record.road.share[: cells - 1])


def test_roads_stay_as_they_are():
    """A sheet that was handed out is drawn again with the same numbers."""
    sums = [hashlib.sha256(seeded_roads.draw_road(seed, 4, 6).data).hexdigest()[:16] for seed in (0, 7, 4294967295)]
    assert sums == ["a4f856af3427ee0d", "04db47a1172c4175", "5d06590ea96c1edf"]
    assert len({seeded_roads.draw_road(seed, 4, 6).data for seed in range(200)}) == 200


def test_roads_are_no_longer_than_an_exercise():
    assert seeded_roads.draw_road(1, 8, 57).steps == 57
    with pytest.raises(Refused, match="refused 26"):
        seeded_roads.draw_road(1, 8, 58)


PAGE = """
import fs from 'fs';
import { Engine } from '%(root)s/bindings/wasm/engine.mjs';
const engine = new Engine(new WebAssembly.Module(fs.readFileSync('%(root)s/target/wasm/nobyaluk.wasm')));
const source = fs.readFileSync('%(root)s/bindings/wasm/exercise.js', 'utf8');
const cut = source.slice(source.indexOf('const MOST_CELLS'), source.indexOf('const seed = ()'));
const drawn = new Function('engine', cut.replaceAll('export ', '') + '; return drawn;')(engine);
const asked = JSON.parse(fs.readFileSync(0, 'utf8'));
console.log(JSON.stringify(asked.map(([seed, cells, steps]) => Buffer.from(drawn(seed, cells, steps)).toString('hex'))));
"""


def test_the_page_draws_the_same_roads(root, tmp_path):
    if not shutil.which("node") or not (root / "target/wasm/nobyaluk.wasm").exists():
        pytest.skip("no node, or bindings/wasm/build was not run")
    asked = [[seed, cells, steps] for cells, steps in SIZES for seed in (*range(40), 4294967295)]
    (tmp_path / "page.mjs").write_text(PAGE % {"root": root})
    out = subprocess.run(["node", tmp_path / "page.mjs"], input=json.dumps(asked), capture_output=True, text=True)
    assert out.returncode == 0, out.stderr
    for (seed, cells, steps), record in zip(asked, json.loads(out.stdout), strict=True):
        assert bytes.fromhex(record) == seeded_roads.draw_road(seed, cells, steps).data, (seed, cells, steps)
