#!/usr/bin/env python3
"""What `hume demo NUMBER STEPS WORKERS` writes, by the closed form of its net. The words are those of the folder.

A value passes 20 boxes of a chain, so a chain takes its first in superstep 21. In chain K value n, counted from 0, is
-(NUMBER + 31 * K + 170) - 10 * n: behind the head 9 boxes add their state and 10 subtract it, and those that subtract have states that
grow by 2 with each value, and the others by 1.
"""
import pathlib
import sys

_, number, steps, _ = (pathlib.Path(sys.argv[0]).parent / "words").read_text().split()
count = max(int(steps) - 20, 0)
print("total heap 300 stack 1720")
for chain in range(10):
    first = int(number) + 31 * chain + 170
    print(f"chain {chain} count {count} sum {-count * first - 5 * count * (count - 1)}")
