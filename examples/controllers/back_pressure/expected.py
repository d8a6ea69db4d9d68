#!/usr/bin/env python3
"""expected.py STREAM: what the stream must have, worked out beside the tool."""
import sys

here = sys.path[0]
steps = int(open(f"{here}/words").read().split()[1])
DEPTH = 8

# The consumer finds nothing in superstep 0, takes item k in superstep 1 + 4k, and the output stream has it one superstep later.
used = [f"({1 + 4 * k}, {k * k % 65536})" for k in range(steps) if 2 + 4 * k < steps]

# The producer puts number k out in the first superstep after that of number k - 1 in which the wire has room, once the consumer
# has taken what it takes in that superstep. All outputs wait for that, so `made` has the number one superstep later.
made, time = [], -1
while True:
    number, time = len(made), time + 1
    while number - (time + 3) // 4 >= DEPTH:
        time += 1
    if time + 1 >= steps:
        break
    made.append(number)

streams = {"made": made, "used": used, "stdout": []}
sys.stdout.writelines(f"{value}\n" for value in streams[sys.argv[1]])
