#!/usr/bin/env python3
"""expected.py STREAM: what the stream must have, worked out beside the tool."""
import ast
import sys

pairs = [ast.literal_eval(line) for line in open(f"{sys.path[0]}/pairs")]
streams = {"xors": [a ^ b for a, b in pairs], "ands": [a & b for a, b in pairs], "lefts": [a << 1 & 15 for a, _ in pairs]}
sys.stdout.writelines(f"{value}\n" for value in streams[sys.argv[1]])
