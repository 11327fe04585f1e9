#!/usr/bin/env python3
"""Measures commands beside each other: beside.py RUNS [--stdin FILE] COMMAND [-- COMMAND ..]

Each command is run RUNS times, in turn with the others, with its output thrown away. A line has its least processor time (user
and system), its least wall time, its peak memory by GNU time in one run more (a process begins with the peak of the one that
forked it, and python's is higher than that of many programs), and the ratio of its processor time to the first one's.
"""
import os
import subprocess
import sys
import tempfile
import time

words = sys.argv[1:]
if not words or not words[0].isdigit():
    sys.exit(__doc__)
runs, words = int(words[0]), words[1:]
given = os.devnull
if words[:1] == ["--stdin"]:
    given, words = words[1], words[2:]
commands = [[]]
for word in words:
    if word == "--":
        commands.append([])
    else:
        commands[-1].append(word)
least = [(float("inf"), float("inf"))] * len(commands)
for _ in range(runs):
    for at, command in enumerate(commands):
        with open(given, "rb") as stdin:
            start = time.monotonic()
            run = subprocess.Popen(command, stdin=stdin, stdout=subprocess.DEVNULL)
            _, _, used = os.wait4(run.pid, 0)
            wall = time.monotonic() - start
        cpu, old_wall = least[at]
        least[at] = min(cpu, used.ru_utime + used.ru_stime), min(old_wall, wall)
for command, (cpu, wall) in zip(commands, least):
    with tempfile.NamedTemporaryFile() as report, open(given, "rb") as stdin:
        subprocess.run(["/usr/bin/time", "-f", "%M", "-o", report.name, *command], stdin=stdin, stdout=subprocess.DEVNULL)
        peak = int(report.read().split()[-1])
    print(f"{cpu * 1000:8.1f} ms {wall * 1000:8.1f} ms wall {peak / 1024:6.1f} MiB {cpu / least[0][0]:6.2f}  {' '.join(command)}")
