"""tools/definitions finds every definition that a contract cites, however it is written, and refuses an import that it can't read."""
import importlib.machinery
import importlib.util

import pytest

FLOW = ("model", "Flow")


@pytest.fixture(scope="module")
def tool(root):
    loader = importlib.machinery.SourceFileLoader("definitions", str(root / "tools/definitions"))
    module = importlib.util.module_from_spec(importlib.util.spec_from_loader("definitions", loader))
    loader.exec_module(module)
    return module


def cited(tool, text, *uses):
    return tool.Specs().cited(text, tool.imports("\n".join(uses)))


def test_a_name_of_an_import(tool):
    assert cited(tool, "r ≡ demand_of speed s.held", "ghost use Rattle.model.specs.Flow.{demand_of, held};") == {(FLOW, "demand_of")}


def test_under_another_name(tool):
    """`use x as y`, of a definition and of its file."""
    assert cited(tool, "r ≡ wish speed", "use Rattle.model.specs.Flow.{demand_of as wish}") == {(FLOW, "demand_of")}
    assert cited(tool, "r ≡ flows.demand_of speed", "ghost use Rattle.model.specs.Flow as flows;") == {(FLOW, "demand_of")}


def test_an_import_over_several_lines(tool):
    assert cited(tool, "r ≡ room_of speed", "use Rattle.model.specs.Flow.{", "    demand_of,", "    room_of,", "}") == {(FLOW, "room_of")}


@pytest.mark.parametrize("line", [
    "use Rattle.model.specs.Flow",
    "use Rattle.model.specs.Flow.*",
    "use Rattle.model.specs.One.Flow.{demand_of}",
    "use Rattle.model.proofs.step.Met.{met}",
    "ghost use Rattle.model.specs.",
    "use Rattle.model.specs.Flow.{demand_of hiding room_of}",
    "use model::*;",
])
def test_an_import_that_it_cant_read(tool, line):
    with pytest.raises(SystemExit, match="can't read"):
        tool.imports(line)


def test_what_the_facade_passes_on(tool):
    assert list(tool.reexports("pub use stepping::step;\nuse model::Road;\n// pub use x::{f};\n")) == [("stepping", "step")]
    assert list(tool.reexports("pub use stepping::{\n    step, Walk,\n    wait,\n};\n")) == [("stepping", "step"), ("stepping", "Walk"), ("stepping", "wait")]
    for line in ("pub use stepping::step as onward;", "pub use stepping::*;", "pub use stepping::{step as onward};", "pub use stepping::{one::step};"):
        with pytest.raises(SystemExit, match="can't read"):
            list(tool.reexports(line))


def test_operators(tool):
    use = "use Rattle.model.specs.Flow.{◌⊕◌, if◌then◌else◌, demand_of}"
    assert cited(tool, "r ≡ a ⊕ b", use) == {(FLOW, "◌⊕◌")}
    assert cited(tool, "r ≡ (if a then b else c)", use) == {(FLOW, "if◌then◌else◌")}
    assert cited(tool, "r ≡ a", use) == set()


def test_after_a_binder_without_a_space(tool):
    use = "use Rattle.model.specs.Flow.{demand_of, room_of}"
    assert cited(tool, "λ y.demand_of y", use) == {(FLOW, "demand_of")}
    assert cited(tool, "s.demand_of", use) == cited(tool, "(g s).demand_of", use) == set()


HYPOTHESES = """module _ (n : ℕ)
    (small : Small n) where
  pub twice : ℕ
  twice = n + n

  module _ (even : Even n) where
    pub half : ℕ
    half = n / 2

pub other : ℕ
other = 0
"""


def test_hypotheses_of_a_module(tool):
    found = tool.items("use A.{\n    B,\n}\n" + HYPOTHESES)
    assert {name: len(lines) for name, (lines, _) in found.items()} == {"twice": 2, "half": 2, "other": 2}
    around = {name: " ".join(lines) for name, (_, lines) in found.items()}
    assert "Small" in around["twice"] and "Even" not in around["twice"]
    assert "Small" in around["half"] and "Even" in around["half"] and around["other"] == ""


@pytest.mark.parametrize("clause", [
    "    ensures { result ≡ demand_of x }\n{\n    1\n}\n",
    "    ensures {\n        result ≡ demand_of x\n    }\n{\n    1\n}\n",
    "    ensures answer\n    { result ≡ demand_of x }\n{\n    1\n}\n",
    "    requires { x ≡ 0 }\n    // { a comment\n    ensures { result ≡ record { number = demand_of x } }\n{\n    room_of(1)\n}\n",
])
def test_a_contract_however_it_is_broken(tool, clause):
    for head in ("pub fn f(x: u32) -> u32\n", 'pub extern "C" fn f<\'a>(\n    x: &\'a [u32; 4],\n) -> [u32; 129]\n'):
        [(name, facts)] = tool.heads(head + clause)
        assert name == "f" and "demand_of" in facts and "room_of" not in facts


def test_a_contract_that_it_cant_read(tool):
    with pytest.raises(SystemExit, match="can't read the contract of f"):
        tool.heads("pub fn f(x: u32) -> u32;\n{\n")


def test_the_facade_names_sections(tool, root):
    page = (root / "docs/MODEL.md").read_text()
    text = (root / "crates/freeway/src/lib.rt").read_text()
    assert not list(tool.unnamed(text, page))
    assert list(tool.unnamed("// docs/MODEL.md, 'Weights'\n// docs/MODEL.md, 'One step'\n", page)) == ["crates/freeway: 'One step' comes after a later section of docs/MODEL.md"]
    assert list(tool.unnamed("// docs/MODEL.md," " 'Weighing'\n", page)) == ["crates/freeway: docs/MODEL.md has no section 'Weighing'"]
