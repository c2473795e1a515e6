#!/usr/bin/env python3
"""Median wall and processor time of a command, outputs off.

    timing.py RUNS micro|meso FOLDER open|tight
    timing.py RUNS ctm PROGRAM RECORD
"""
import os
import statistics
import subprocess
import sys
import time


def command(kind, first, second):
    """The command's words, and the file that it reads."""
    if kind == "ctm":
        return [first], second
    more = f"{first}/{second}.add.xml" if kind == "micro" else f"{first}/meso-{second}.add.xml,{first}/open.add.xml"
    words = ["sumo", "-n", f"{first}/net.net.xml", "-r", f"{first}/demand.rou.xml", "-a", more, "-e", "7560", "--no-step-log", "--no-warnings",
             "--xml-validation", "never", "--time-to-teleport", "-1", "--duration-log.disable"]
    return words + (["--mesosim", "--meso-multi-queue", "false"] if kind == "meso" else []), os.devnull


def main():
    runs, (kind, first, second) = int(sys.argv[1]), sys.argv[2:5]
    words, given = command(kind, first, second)
    wall, cpu = [], []
    for _ in range(runs):
        with open(given) as file:
            start = time.perf_counter()
            p = subprocess.Popen(words, stdin=file, stdout=subprocess.DEVNULL)
            _, status, use = os.wait4(p.pid, 0)
        wall.append(time.perf_counter() - start)
        cpu.append(use.ru_utime + use.ru_stime)
        assert status == 0
    shown = lambda xs: f"{statistics.median(xs):.4f} s ({min(xs):.4f} to {max(xs):.4f})"
    print(f"{kind} {os.path.basename(first)} {os.path.basename(second)}: {runs} runs, wall {shown(wall)}, cpu {shown(cpu)}", flush=True)


main()
