#!/usr/bin/env python3
"""expected.py STREAM: what the stream must have, worked out beside the tool."""
import sys

here = sys.path[0]
steps = int(open(f"{here}/words").read().split()[1])

# The first item is on its wire after superstep 0. A byte takes the box `serial` eight supersteps and an end one; what it does
# in superstep s, the box `crc` answers in s + 1, and the output stream takes the answer in s + 2.
now, check, checks = 1, 0, []
for line in open(f"{here}/items"):
    if line.strip() == "End":
        if now + 2 < steps:
            checks.append(check)
        check = 0
        now += 1
    else:
        check ^= int(line.split()[1])
        for _bit in range(8):
            check = check << 1 ^ 0x107 if check & 0x80 else check << 1
        now += 8

streams = {"stdout": checks}
sys.stdout.writelines(f"{value}\n" for value in streams[sys.argv[1]])
