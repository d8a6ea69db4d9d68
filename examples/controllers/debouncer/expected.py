#!/usr/bin/env python3
"""expected.py STREAM: what the stream must have, worked out beside the tool."""
import sys

here = sys.path[0]
steps = int(open(f"{here}/words").read().split()[1])
samples = [line.strip() == "true" for line in open(f"{here}/stdin")]

# Sample i is on its wire after superstep i; two boxes and the output stream take one superstep each.
level, changes = False, []
for tick in range(min(len(samples), steps - 3)):
    last = samples[max(0, tick - 3) : tick + 1]
    if len(last) == 4 and all(sample != level for sample in last):
        level = not level
        changes.append(f"{'Rise' if level else 'Fall'} {tick}")

streams = {"stdout": changes}
sys.stdout.writelines(f"{value}\n" for value in streams[sys.argv[1]])
