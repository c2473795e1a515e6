#!/usr/bin/env python3
"""Prints SUMO's figures that docs/BESIDE-SUMO.md cites, from the lines that account.py wrote.

    tables.py FILE

The first table has the first seed; the last ones have all seeds, with mean, standard deviation and range.
"""
import json
import statistics
import sys
from pathlib import Path

FIRST, END = 23423, 7560
KINDS = {"micro400": "micro, 400 m ramps", "micro50": "micro, 50 m ramps", "meso400-1.08": "meso, 400 m ramps"}
KINDS |= {f"meso400-{gain}": f"meso, 400 m ramps, capacities x {gain}" for gain in ("1.00", "1.04", "1.12")}
KINDS |= {f"micro400-{sigma}": f"micro, 400 m ramps, sigma {sigma}" for sigma in ("0.2", "0.5")}
HOURS = {"running + waiting": "total", "totalTravelTime + totalDepartDelay": "statistics", "mainline": "mainline", "ramps' edges": "ramps", "waiting": "waiting"}
SECONDS = ("timeLoss", "duration", "meanTravelTime", "waitingTime", "departDelay", "meanWaitingTime")


def table(head, rows):
    if rows:
        print("\n|", " | ".join(head), "|\n|" + "---|" * len(head))
        for cells in rows:
            print("|", " | ".join(map(str, cells)).replace("-", "−"), "|")


def change(old, new, digits=1):
    shown = f"{old:,.{digits}f} → {new:,.{digits}f}"
    return shown if new > 3 * old else f"{shown} ({100 * (new / old - 1):+.1f} %)"


def spread(values):
    if len(values) < 2:
        return f"{values[0]:,.1f}"
    return f"mean {statistics.mean(values):,.1f}, s.d. {statistics.stdev(values):,.1f}, {min(values):,.1f} to {max(values):,.1f}"


def first(runs):
    """Open and tight meters with the first seed: who waits where, and SUMO's own figures."""
    pairs = {net: (runs[net, "open", FIRST], runs[net, "tight", FIRST]) for net in list(KINDS)[:3] if (net, "tight", FIRST) in runs}
    rows = [[f"{name} (h)"] + [change(old[key], new[key]) for old, new in pairs.values()] for name, key in HOURS.items()]
    rows += [[f"{key} (s)"] + [change(old[key], new[key], 2) for old, new in pairs.values()] for key in SECONDS]
    table([f"open → tight, seed {FIRST}", *(KINDS[net] for net in pairs)], rows)


def cut(lines):
    """The study cut before its end, with and without vehicles that have not arrived."""
    table(["cut short", "vehicles", "running + waiting (h)", "totalTravelTime + totalDepartDelay (h)", "on the road", "never inserted", "departDelayWaiting (s)"],
          [[f"{r['net']} {r['meter']}, {r['end']} s, {r['counted']}", f"{r['count']:,.0f}", f"{r['total']:,.1f}", f"{r['statistics']:,.1f}", *r["at the end"].values(),
            r["departDelayWaiting"]] for r in lines if r["end"] != END])


def laws(runs):
    """ALINEA compared with open meters, seed by seed."""
    rows = []
    for (net, meter, seed), r in runs.items():
        if meter.startswith("alinea"):
            old = runs[net, "open", seed]
            rows.append([meter, seed, change(old["total"], r["total"]), r["at the end"]["waiting"], *(change(old[key], r[key]) for key in SECONDS[:2])])
    table(["ALINEA, 400 m ramps", "seed", "total (h)", "never inserted", "timeLoss (s)", "duration (s)"], rows)


def seeds(runs, name, key):
    """The spread of a figure over seeds, compared with open meters of the same seed."""
    rows = []
    for net in KINDS:
        for meter in ("tight", "alinea x 1.3"):
            pairs = [(runs[net, "open", s][key], r[key]) for (n, m, s), r in runs.items() if (n, m) == (net, meter)]
            if pairs:
                more = [new - old for old, new in pairs]
                rows.append([f"{KINDS[net]}, {meter}", len(more), *map(spread, (*zip(*pairs), more)), f"{sum(m > 0 for m in more)} of {len(more)}"])
    table([name, "seeds", "open", "metered", "metered less open", "more than open"], rows)


def times(lines):
    """Processor time of whole runs, outputs on."""
    by = {}
    for r in lines:
        if r["end"] == END and r["net"] in KINDS:
            by.setdefault(f"{KINDS[r['net']]}, {r['meter']}", []).append(r["cpu"])
    table(["SUMO with outputs", "runs", "processor time (s)"], [[kind, len(cpu), spread(cpu)] for kind, cpu in by.items()])


def main():
    lines = [json.loads(line) for line in Path(sys.argv[1]).read_text().splitlines()]
    lines = [{"total": r["running"] + r["waiting"], **r} for r in lines]
    runs = {(r["net"], r["meter"], r["seed"]): r for r in lines if r["end"] == END and r["counted"] == "all vehicles"}
    first(runs)
    cut(lines)
    laws(runs)
    for name, key in (("total (h)", "total"), ("timeLoss (s)", "timeLoss"), ("mainline (h)", "mainline")):
        seeds(runs, name, key)
    times(lines)


main()
