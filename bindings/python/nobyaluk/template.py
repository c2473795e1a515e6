"""A study to start from: its TOML file and its arrivals."""
from pathlib import Path

from .errors import StudyError
from .output_files import make_folder, write_file

TEMPLATE = """\
# A study of a metered freeway. Cells are listed from upstream; the gate is the entry to the first.
title = "My road"
step = 20                # seconds, whole, 1 to 900; at most the time to drive through a cell
start = "07:00"          # clock time of step 0
steps = 180

[gate]
capacity = 4400          # veh/h

[defaults]               # for every cell that sets no other value
length = 0.5             # km
speed = 90               # km/h, free flow
jam = 250                # veh/km, all lanes together
capacity = 4400          # veh/h
# wave = 24              # km/h; default: from a triangular diagram
lanes = 2

[[cell]]
[[cell]]
ramp = "Mill Street"     # an on-ramp; its columns in the CSV files have this name
[[cell]]
split = 0.9              # of what leaves the cell, 90 % stays on; the rest takes the off-ramp
[[cell]]
[[cell]]
ramp = "Station"
[[cell]]
capacity = 4000          # the bottleneck

[arrivals]
file = "arrivals.csv"    # a column for the gate and each ramp; a row holds until the next one
unit = "veh/h"           # or veh (per step), count (in the row's time), or parts (per step)

# Releases: each ramp has its own law, as [meter.Station], the law of [meter.all],
# or a column of [releases].
[meter.all]
law = "open"             # or fixed (rate), alinea (gain_kmh, target), demand-capacity (least)

# [[closure]]            # lanes closed by works
# cell = 6
# lanes = 1
# from = "07:20"
# to = "07:40"
"""

ARRIVALS = """\
time,gate,Mill Street,Station
07:00,3000,300,300
07:15,3600,600,600
07:40,2400,200,200
"""


def write_template(folder: Path) -> tuple[Path, Path]:
    """Write a study to start from and its arrivals into a folder that is new or empty."""
    if folder.exists() and (not folder.is_dir() or any(folder.iterdir())):
        raise StudyError(f"{folder} already exists and is not an empty folder")
    make_folder(folder)
    files = folder / "road.toml", folder / "arrivals.csv"
    for path, text in zip(files, (TEMPLATE, ARRIVALS)):
        write_file(path, text)
    return files
