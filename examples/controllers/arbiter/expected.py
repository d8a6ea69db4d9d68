#!/usr/bin/env python3
"""expected.py STREAM: what the stream must have, worked out beside the tool."""
import sys

here = sys.path[0]
steps = int(open(f"{here}/words").read().split()[1])
LEFT, RIGHT, BOTH = {0}, {1}, {0, 1}
RULES = [("Urgent", 0, BOTH), ("Urgent", 1, BOTH), ("Idle", 0, LEFT), ("Idle", 1, RIGHT), ("Want", 0, LEFT), ("Want", 1, RIGHT)]

# The first requests are on their wires after superstep 0, and whatever was taken in a superstep is followed by the next request
# within it. So the box fires in superstep 1 and each later one while a rule fits, and the output stream takes a grant one later.
sides = [[line.split() for line in open(f"{here}/{name}")] for name in ("left", "right")]
order, grants = list(RULES), []
for _superstep in range(1, steps - 1):
    rule = next((it for it in order if sides[it[1]] and sides[it[1]][0][0] == it[0]), None)
    if rule is None:
        break
    word, side, taken = rule
    if word != "Idle":
        grants.append(f"{('Left', 'Right')[side]} {sides[side][0][1]}")
    for each in taken:
        del sides[each][:1]
    order.remove(rule)
    order.append(rule)

streams = {"grants": grants, "stdout": []}
sys.stdout.writelines(f"{value}\n" for value in streams[sys.argv[1]])
