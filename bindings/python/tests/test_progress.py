"""Progress of long work: lines with rate and time left in a file or a pipe, a bar on a terminal, and lines there too if tqdm is missing."""
import os
import pty
import subprocess
import sys

import pytest
from nobyaluk import progress
from nobyaluk.progress import Progress

WORK = """
import sys, time
if {missing}:
    sys.modules["tqdm"] = None
from nobyaluk import progress
progress.EVERY = 0.2
with progress.Progress(40, "studies") as say:
    for k in range(40):
        time.sleep(0.05)
        say(k + 1)
"""


def test_lines(capsys, monkeypatch):
    now = iter([0.0, 2.0, 5.5, 6.0, 9.0, 7202.0])
    monkeypatch.setattr(progress.time, "monotonic", lambda: next(now))
    with Progress(1000, "studies", 150) as say:
        for done in (150, 500, 550, 850, 851):
            say(done)
    assert capsys.readouterr().err.splitlines() == ["nobyaluk: 500 of 1,000 studies, 6 s, 100 a second, 5 s left", "nobyaluk: 850 of 1,000 studies, 9 s, 100 a second, 2 s left",
                                                    "nobyaluk: 851 of 1,000 studies, 2:00 h, 0.1 a second, 25:30 min left"]


def on_a_terminal(missing):
    """What a terminal shows on standard error."""
    ours, theirs = pty.openpty()
    child = subprocess.Popen([sys.executable, "-c", WORK.format(missing=missing)], stderr=theirs, env={**os.environ, "COLUMNS": "100"})
    os.close(theirs)
    out = b""
    try:
        while data := os.read(ours, 4096):
            out += data
    except OSError:  # the terminal is closed
        pass
    os.close(ours)
    assert child.wait() == 0
    return out.decode()


def test_a_bar_on_a_terminal():
    pytest.importorskip("tqdm")
    shown = on_a_terminal(False)
    assert "\r" in shown and "/40" in shown and "studies/s" in shown and "nobyaluk: " in shown, shown
    assert shown.endswith(" \r"), "the bar is removed at the end"


def test_lines_on_a_terminal_without_tqdm():
    shown = on_a_terminal(True)
    assert " of 40 studies, " in shown and " a second, " in shown and " left" in shown and "Traceback" not in shown
