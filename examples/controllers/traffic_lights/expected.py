#!/usr/bin/env python3
"""expected.py STREAM: what the stream must have, worked out beside the tool."""
import sys

here = sys.path[0]
steps = int(open(f"{here}/words").read().split()[1])
ticks = [line.strip() == "true" for line in open(f"{here}/button")]

CYCLE = ["Go", "Stopping", "Walking", "Starting"]
LASTS = {"Go": 12, "Stopping": 3, "Walking": 8, "Starting": 2}
phase, left, waits = "Go", 12, False
cars, walkers = [], []
for pressed in ticks:
    waits = (waits or pressed) and phase != "Walking"
    if left > 0:
        left -= 1
    elif phase != "Go" or waits:
        phase = CYCLE[(CYCLE.index(phase) + 1) % 4]
        left = LASTS[phase] - 1
    cars.append({"Go": "Green", "Walking": "Red"}.get(phase, "Amber"))
    walkers.append("Green" if phase == "Walking" else "Red")

# Tick i, counted from 0, is on its wire after superstep i; two boxes and the output stream take one superstep each.
there = max(0, steps - 3)
streams = {"cars": cars[:there], "walkers": walkers[:there], "stdout": []}
sys.stdout.writelines(f"{value}\n" for value in streams[sys.argv[1]])
