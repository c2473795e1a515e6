#!/usr/bin/env python3
"""Runs one scenario with SUMO's usual outputs and prints who is counted where, in vehicle-hours up to the end.

    account.py FOLDER open|tight|alinea [--meso] [--seed N] [--end S] [--defaults] [--study TOML] [--factor F] [--into FILE]

--defaults leaves out --tripinfo-output.write-unfinished and --tripinfo-output.write-undeparted, as SUMO does by default.
--into appends the figures as a line of JSON, for tables.py.
"""
import argparse
import json
import resource
import subprocess
import tempfile
import time
import xml.etree.ElementTree as ET
from pathlib import Path


def arguments():
    p = argparse.ArgumentParser(description=__doc__, formatter_class=argparse.RawDescriptionHelpFormatter)
    p.add_argument("folder", type=Path)
    p.add_argument("meter", choices=["open", "tight", "alinea"])
    p.add_argument("--meso", action="store_true")
    p.add_argument("--defaults", action="store_true")
    p.add_argument("--seed", type=int, default=23423)
    p.add_argument("--study", help="the study's TOML, for ALINEA's targets")
    p.add_argument("--factor", type=float, default=1.0, help="ALINEA's targets as a factor of the critical counts")
    p.add_argument("--end", type=int, default=7560, help="the record's 378 steps of 20 s are 7,560 s")
    p.add_argument("--into", type=Path)
    return p.parse_args()


def command(a, out):
    """SUMO's command; every output that is used goes into a folder."""
    meter = "open" if a.meter == "alinea" else a.meter
    (out / "edge.add.xml").write_text(f'<additional><edgeData id="e" file="{out}/edges.xml"/></additional>')
    more = [a.folder / f"meso-{meter}.add.xml", a.folder / "open.add.xml"] if a.meso else [a.folder / f"{meter}.add.xml"]
    words = ["sumo", "-n", a.folder / "net.net.xml", "-r", a.folder / "demand.rou.xml", "-e", a.end, "--seed", a.seed,
             "--no-step-log", "--no-warnings", "--xml-validation", "never", "--time-to-teleport", "-1",
             "-a", ",".join(map(str, [*more, out / "edge.add.xml"])), "--tripinfo-output", out / "trip.xml",
             "--summary-output", out / "sum.xml", "--statistic-output", out / "stat.xml", "--duration-log.statistics"]
    words += ["--mesosim", "--meso-multi-queue", "false"] if a.meso else []
    words += [] if a.defaults else ["--tripinfo-output.write-unfinished", "--tripinfo-output.write-undeparted"]
    return [str(w) for w in words]


def hours(values):
    return sum(map(float, values)) / 3600


def on_edges(edges, letter, key="sampledSeconds"):
    return hours(e[key] for name, e in edges.items() if name[0] == letter)


def report(trips, steps, stat, edges):
    """Lines with what each of SUMO's outputs counts."""
    run, wait = hours(s["running"] for s in steps), hours(s["waiting"] for s in steps)
    yield f"summary-output     sum(running + waiting)  {run + wait:9.1f} h   running {run:.1f}  waiting {wait:.1f}"
    last = steps[-1]
    yield f"summary-output     last step               meanWaitingTime {last['meanWaitingTime']} s  meanTravelTime {last['meanTravelTime']} s"
    for tag in ("vehicles", "vehicleTripStatistics"):
        yield f"statistic-output   {tag} {dict(stat[tag])}"
    for name, letter in (("mainline c*", "c"), ("ramps r*", "r"), ("exits o*", "o")):
        sums = "  ".join(f"{key} {on_edges(edges, letter, key):.1f} h" for key in ("sampledSeconds", "timeLoss", "waitingTime"))
        yield f"edgeData           {name:12} {sums}"
    arrived, departed = (lambda v: float(v["arrival"]) >= 0), (lambda v: float(v["depart"]) >= 0)
    groups = {"arrived": [v for v in trips if arrived(v)], "on the road at the end": [v for v in trips if departed(v) and not arrived(v)],
              "never inserted": [v for v in trips if not departed(v)]}
    for name, vs in groups.items():
        if vs:
            sums = "  ".join(f"{key} {hours(v[key] for v in vs):.1f} h" for key in ("duration", "timeLoss", "waitingTime", "departDelay"))
            gate = hours(v["departDelay"] for v in vs if v["id"].startswith("gate"))
            yield f"tripinfo-output    {name:23} {len(vs):6d}  {sums}  (departDelay at the gate {gate:.1f})"


def figures(steps, stat, edges):
    """What tables.py reads: hours, and means per vehicle in seconds."""
    trip = {key: float(value) for key, value in stat["vehicleTripStatistics"].items()}
    means = {key: trip[key] for key in ("count", "timeLoss", "duration", "waitingTime", "departDelay", "departDelayWaiting")}
    last = {key: float(steps[-1][key]) for key in ("meanTravelTime", "meanWaitingTime")}
    left = {key: int(stat["vehicles"][key]) for key in ("running", "waiting")}
    return {"running": hours(s["running"] for s in steps), "waiting": hours(s["waiting"] for s in steps),
            "statistics": hours([trip["totalTravelTime"], trip["totalDepartDelay"]]), "mainline": on_edges(edges, "c"),
            "ramps": on_edges(edges, "r"), "at the end": left, **means, **last}


def main():
    a = arguments()
    with tempfile.TemporaryDirectory() as folder:
        out = Path(folder)
        words, start = command(a, out), time.perf_counter()
        if a.meter == "alinea":
            import alinea

            alinea.run(words, a.study, a.end, a.factor)
        else:
            subprocess.run(words, check=True, stdout=subprocess.DEVNULL)
        wall, use = time.perf_counter() - start, resource.getrusage(resource.RUSAGE_CHILDREN)
        trips, steps, stats = ([e.attrib if name != "stat.xml" else e for e in ET.parse(out / name).getroot()] for name in ("trip.xml", "sum.xml", "stat.xml"))
        edges = {e.get("id"): e.attrib for e in ET.parse(out / "edges.xml").getroot()[0]}
    stat, cpu = {e.tag: e.attrib for e in stats}, use.ru_utime + use.ru_stime
    scenario = {"net": a.folder.name, "meter": a.meter + (f" x {a.factor}" if a.meter == "alinea" else ""), "model": "meso" if a.meso else "micro",
                "seed": a.seed, "end": a.end, "counted": "defaults" if a.defaults else "all vehicles"}
    print("#", "{net} {meter} {model} seed {seed} end {end} {counted}".format(**scenario), f"(SUMO with outputs: {cpu:.1f} s processor, {wall:.1f} s wall)")
    print("\n".join(report(trips, steps, stat, edges)), flush=True)
    if a.into:
        with a.into.open("a") as file:
            file.write(json.dumps({**scenario, **figures(steps, stat, edges), "cpu": cpu}) + "\n")


main()
