"""ALINEA over TraCI, with the numbers of examples/rocade-sud-alinea.laws.txt.

Every 20 s the rate of each on-ramp grows by 0.1 x (target - vehicles in its cell); the target is `factor` x the cell's critical
count, capacity / speed x length. The light lets one car through a green of 1 s.
"""
import contextlib
import os
import sys
import tomllib
from pathlib import Path

sys.path.append(os.environ.get("SUMO_HOME", "/usr/share/sumo") + "/tools")
import traci  # noqa: E402


def run(command, study, end, factor):
    study = tomllib.loads(Path(study).read_text())
    speed = study["defaults"]["speed"]
    with open(os.devnull, "w") as nowhere, contextlib.redirect_stdout(nowhere):  # it prints each attempt to connect
        traci.start(command, stdout=nowhere)
    have, ramps = set(traci.edge.getIDList()), []
    for i, c in enumerate(study["cell"], 1):
        if "ramp" in c:
            edges = [e for e in (f"c{i}a", f"c{i}", f"c{i}d") if e in have]
            ramps.append({"light": f"m{i}", "edges": edges, "target": factor * c["capacity"] / speed * c["length"], "rate": 4.0, "credit": 0.0, "state": ""})
    for t in range(end):
        for r in ramps:
            if t % 20 == 0:
                n = sum(traci.edge.getLastStepVehicleNumber(e) for e in r["edges"])
                r["rate"] = min(10.0, max(0.0, r["rate"] + 0.1 * (r["target"] - n)))
            r["credit"] = min(1.0, r["credit"] + r["rate"] / 20)
            state = "G" if r["credit"] >= 1 else "r"
            if state == "G":
                r["credit"] -= 1
            if state != r["state"]:
                traci.trafficlight.setRedYellowGreenState(r["light"], state)
                r["state"] = state
        traci.simulationStep()
    traci.close()
