#!/usr/bin/env python3
"""Builds the corridor of a study for SUMO: network, demand, meters, and the mesoscopic model's headways.

    corridor.py ../../examples/studies/rocade-sud.toml FOLDER [--sigma 0.1] [--storage 400] [--aux 250] [--gain 1.0]

Each cell becomes a mainline edge of its own length. An on-ramp enters an acceleration lane at the start of its cell. An off-ramp
leaves from a deceleration lane at its end (AUX metres each; the cell's length is unchanged). Each on-ramp is STORAGE metres to the
meter's stop line and 50 m after it.
"""
import argparse
import subprocess
import tomllib
from pathlib import Path

# Arrivals of the study's CSV file: from, to (s), veh/h at the gate and at each ramp.
RATES = ((0, 1800, 2700, 450), (1800, 5400, 3600, 720), (5400, 7560, 1800, 360))


class Net:
    """Nodes, edges and connections, as netconvert reads them."""

    def __init__(self, speed):
        self.speed, self.nodes, self.edges, self.connections = speed, [], [], []

    def node(self, name, x, y, kind="priority"):
        self.nodes.append(f'<node id="{name}" x="{x:.1f}" y="{y:.1f}" type="{kind}"/>')

    def edge(self, name, start, end, lanes, length, kind):
        self.edges.append(f'<edge id="{name}" from="{start}" to="{end}" numLanes="{lanes}" speed="{self.speed:.2f}" length="{length:.1f}" priority="3" type="{kind}"/>')

    def connect(self, start, end, pairs):
        self.connections += [f'<connection from="{start}" to="{end}" fromLane="{p}" toLane="{q}"/>' for p, q in pairs]


def pieces(cells, lanes, aux):
    """The pieces of the mainline: edge, cell, lanes, length, entry, exit. If a cell has the capacity of one more lane, its ramp's lane continues."""
    out = []
    for i, c in enumerate(cells, 1):
        rest, entry, leaves = c["length"] * 1000, "ramp" in c, "split" in c
        if round(c["capacity"] / 2700) > lanes:
            out.append((f"c{i}a", i, lanes + 1, rest, entry, leaves))
        elif aux == 0:
            out.append((f"c{i}", i, lanes, rest, entry, leaves))
        else:
            if entry:
                out.append((f"c{i}a", i, lanes + 1, aux, True, False))
            if rest > aux * (entry + leaves):
                out.append((f"c{i}", i, lanes, rest - aux * (entry + leaves), False, False))
            if leaves:
                out.append((f"c{i}d", i, lanes + 1, aux, False, True))
    return out


def network(road, lanes, storage, speed):
    """The mainline from west to east, with its ramps."""
    net, x = Net(speed), 0.0
    net.node("n0", x, 0)
    for k, (name, i, wide, length, entry, leaves) in enumerate(road):
        start, end = f"n{k}", f"n{k + 1}"
        if entry:
            net.node(f"s{i}", x - 60 - storage, -60)
            net.node(f"m{i}", x - 60, -60, "traffic_light")
            net.edge(f"r{i}", f"s{i}", f"m{i}", 1, storage, "meter")
            net.edge(f"r{i}m", f"m{i}", start, 1, 50, "link")
            net.connect(f"r{i}", f"r{i}m", [(0, 0)])
            net.connect(f"r{i}m", name, [(0, 0)])
        x += length
        net.node(end, x, 0)
        net.edge(name, start, end, wide, length, f"cell{i}" if wide == lanes else f"cell{i}aux")
        if leaves:
            net.node(f"x{i}", x + 50, -50)
            net.edge(f"o{i}", end, f"x{i}", 1, 50, "link")
            net.connect(name, f"o{i}", [(0, 0)])
        if k + 1 < len(road):
            following, further = road[k + 1][0], road[k + 1][2]
            ends, begins = wide - lanes, further - lanes  # auxiliary lanes of this piece and of the next
            net.connect(name, following, [(j + ends, j + begins) for j in range(lanes)])
            if further > lanes and road[k + 1][5]:  # a deceleration lane opens
                net.connect(name, following, [(ends, 0)])
                if wide > lanes and not leaves:  # the acceleration lane continues as the deceleration lane
                    net.connect(name, following, [(0, 0)])
    return net


def demand(cells, road, sigma):
    """Routes with the shares as probabilities, from each entry to each exit downstream. Arrivals are evenly spaced; those waiting at the start come first."""
    rows = [f'<vType id="car" sigma="{sigma}" tau="1.0" minGap="2.5"/>']
    entries = [("gate", 1)] + [(f"r{i}", i) for i, c in enumerate(cells, 1) if "ramp" in c]
    for name, first in entries:
        head = [] if name == "gate" else [name, name + "m"]
        stay, routes = 1.0, []
        for i in range(first, len(cells) + 1):
            path = head + [piece[0] for piece in road if first <= piece[1] <= i]
            share = 1 - cells[i - 1].get("split", 1.0)
            if share > 0:
                routes.append((path + [f"o{i}"], stay * share))
                stay *= 1 - share
        routes.append((path, stay))
        rows.append(f'<routeDistribution id="from_{name}">')
        rows += [f'<route id="{name}_{p[-1]}" edges="{" ".join(p)}" probability="{q:.6f}"/>' for p, q in routes]
        rows.append("</routeDistribution>")
    attributes = 'type="car" departLane="best" departSpeed="max"'
    flows = []
    for n, (name, _) in enumerate(entries):
        waiting = 15 if name == "gate" else 2 + n % 2  # ramps have 2.5 vehicles each at the start
        flows.append((0, f'<flow id="{name}.s" route="from_{name}" begin="0" end="1" number="{waiting}" {attributes}/>'))
        for begin, end, gate, ramp in RATES:
            rate = gate if name == "gate" else ramp
            flows.append((begin, f'<flow id="{name}.{begin}" route="from_{name}" begin="{begin}" end="{end}" vehsPerHour="{rate}" {attributes}/>'))
    return rows + [f for _, f in sorted(flows, key=lambda t: t[0])]


def meters(cells, program, phases):
    """Lights of one program: open is always green; tight passes one car per green of 1 s: 7 in 40 s, 630 veh/h."""
    rows = []
    for i, c in enumerate(cells, 1):
        if "ramp" in c:
            rows.append(f'<tlLogic id="m{i}" type="static" programID="{program}" offset="0">')
            rows += [f'<phase duration="{d}" state="{s}"/>' for d, s in phases] + ["</tlLogic>"]
    return rows


def headways(cells, lanes, gain, rate, speed):
    """The mesoscopic model's headways, from the cells' capacities and waves; the ramps' from the meter's rate."""
    rows = []

    def row(kind, capacity, wide, wave):
        free, jam = 3600 * wide / capacity - 7.5 / speed, 7.5 / (wave / 3.6)
        rows.append(f'<type id="{kind}"><meso tauff="{free:.3f}" taufj="{free:.3f}" taujf="{free:.3f}" taujj="{jam:.3f}" jamThreshold="-1"/></type>')

    for i, c in enumerate(cells, 1):
        row(f"cell{i}", c["capacity"] * gain, lanes, c["wave"])
        row(f"cell{i}aux", c["capacity"] * gain, lanes + 1, c["wave"])
    row("meter", rate, 1, 25)
    row("link", 2500, 1, 25)
    return rows


def main():
    p = argparse.ArgumentParser(description=__doc__, formatter_class=argparse.RawDescriptionHelpFormatter)
    p.add_argument("study")
    p.add_argument("folder", type=Path)
    p.add_argument("--lanes", type=int, default=2)
    p.add_argument("--sigma", type=float, default=0.5, help="Krauss's imperfection; SUMO's default is 0.5")
    p.add_argument("--storage", type=int, default=400)
    p.add_argument("--aux", type=int, default=250)
    p.add_argument("--gain", type=float, default=1.0, help="mesoscopic capacity as a factor of the cell's")
    a = p.parse_args()
    study = tomllib.loads(Path(a.study).read_text())
    cells, speed = study["cell"], study["defaults"]["speed"] / 3.6
    a.folder.mkdir(parents=True, exist_ok=True)

    def write(name, tag, rows):
        (a.folder / name).write_text(f"<{tag}>\n" + "\n".join(rows) + f"\n</{tag}>\n")

    road = pieces(cells, a.lanes, a.aux)
    net = network(road, a.lanes, a.storage, speed)
    kinds = ["meter", "link"] + [f"cell{i}{s}" for i in range(1, len(cells) + 1) for s in ("", "aux")]
    write("net.nod.xml", "nodes", net.nodes)
    write("net.edg.xml", "edges", net.edges)
    write("net.con.xml", "connections", net.connections)
    write("net.typ.xml", "types", [f'<type id="{k}"/>' for k in kinds])
    parts = [x for flag, part in (("-n", "nod"), ("-e", "edg"), ("-t", "typ"), ("-x", "con")) for x in (flag, a.folder / f"net.{part}.xml")]
    netconvert = ["netconvert", *parts, "-o", a.folder / "net.net.xml", "--no-turnarounds", "true", "--offset.disable-normalization", "true"]
    subprocess.run(netconvert, check=True, stdout=subprocess.DEVNULL)
    write("demand.rou.xml", "routes", demand(cells, road, a.sigma))
    write("open.add.xml", "additional", meters(cells, "open", [(1000, "G")]))
    cycle = [phase for seconds in (6, 6, 5, 6, 6, 6, 5) for phase in ((1, "G"), (seconds - 1, "r"))]
    write("tight.add.xml", "additional", meters(cells, "tight", cycle))
    write("meso-open.add.xml", "additional", headways(cells, a.lanes, a.gain, 2500, speed))
    write("meso-tight.add.xml", "additional", headways(cells, a.lanes, a.gain, 630, speed))


main()
