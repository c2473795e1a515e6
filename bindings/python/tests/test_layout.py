"""The structs of Python's calls are those of nobyaluk.h, in size, order and place of each field, as the C compiler lays them out."""
import ctypes
import shutil
import subprocess
from pathlib import Path

import pytest
from conftest import ROOT

from nobyaluk import library

# The header's name of a struct, where it is not the lower case of Python's.
RENAMED = {"Wanted": "wanted_answer", "Row": "row_answer"}
STRUCTS = {name: kind for name, kind in vars(library).items() if isinstance(kind, type) and issubclass(kind, ctypes.Structure) and hasattr(kind, "_fields_")}


def c_name(name: str) -> str:
    return "nobyaluk_" + RENAMED.get(name, name.lower())


@pytest.mark.skipif(shutil.which("cc") is None, reason="no C compiler")
def test_every_struct_is_laid_out_as_in_c(tmp_path: Path) -> None:
    assert len(STRUCTS) == 20
    lines = []
    for name, kind in STRUCTS.items():
        lines.append(f'printf("{name} %zu\\n", sizeof({c_name(name)}));')
        lines += [f'printf("{name} {field} %zu %zu\\n", offsetof({c_name(name)}, {field}), sizeof((({c_name(name)} *)0)->{field}));' for field, *_ in kind._fields_]
    source = tmp_path / "layout.c"
    source.write_text('#include <stdio.h>\n#include "nobyaluk.h"\nint main(void) {\n' + "\n".join(lines) + "\nreturn 0;\n}\n")
    subprocess.run(["cc", "-std=c11", f"-I{ROOT}/bindings/c", str(source), "-o", str(tmp_path / "layout")], check=True)
    printed = subprocess.run([tmp_path / "layout"], check=True, capture_output=True, text=True).stdout.split("\n")[:-1]
    ours = []
    for name, kind in STRUCTS.items():
        ours.append(f"{name} {ctypes.sizeof(kind)}")
        ours += [f"{name} {field} {getattr(kind, field).offset} {getattr(kind, field).size}" for field, *_ in kind._fields_]
    assert printed == ours
