#!/usr/bin/env python3
"""expected.py STREAM: what the stream must have, worked out beside the tool."""
import sys

here = sys.path[0]
steps = int(open(f"{here}/words").read().split()[1])


def calls(name):
    return [int(line.split()[1]) if line.startswith("To") else 0 for line in open(f"{here}/{name}")]


stops, floor, way = set(), 1, 1
floors, doors = [], []
for pair in zip(calls("inside"), calls("outside")):
    stops |= {call for call in pair if 1 <= call <= 5}
    if floor in stops:
        stops.remove(floor)
        doors.append("Open")
    else:
        if stops:
            if not any((stop - floor) * way > 0 for stop in stops):
                way = -way
            floor += way
        doors.append("Shut")
    floors.append(floor)

# The first calls are on their wires after superstep 0, so the desk fires in superstep 1, the motor in 2, and the streams take
# what comes of them in 3. The stops go round through two boxes, so this repeats every two supersteps.
there = max(0, (steps - 2) // 2)
streams = {"floors": floors[:there], "doors": doors[:there], "stdout": []}
sys.stdout.writelines(f"{value}\n" for value in streams[sys.argv[1]])
