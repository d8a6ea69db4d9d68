#!/usr/bin/env python3
"""expected.py STREAM: what the stream must have, worked out beside the tool, with each group in parentheses."""
import sys

here = sys.path[0]


def div(a, b):
    return abs(a) // abs(b) * (1 if (a < 0) == (b < 0) else -1)


def mod(a, b):
    return a - div(a, b) * b


def numbers(a, b):
    return [
        (a - b) - 3, (a - b) + 3, div(div(a, 3), 2), div(a, 3) * 2, div(a * b, 3), mod(a, 7) * 3, a - (b * 2), (-a) * b, mod(-a, 7), a,
        b - 1, (100 + 1) - a,
    ]


def truths(a, b):
    return [
        (a < b) or ((a == b) and (b > 3)), ((a < b) and (a == b)) or (b > 3), (not (a < b)) or (b > 3), not ((a < b) or (b > 3)),
        (a + 1) < (b - 1), (a - b) == (b - a), True,
    ]


operands = [list(map(int, open(f"{here}/{name}"))) for name in ("left", "right")]
rows = {"numbers": numbers, "truths": truths}[sys.argv[1]]
sys.stdout.writelines(f"<<{', '.join(str(value).lower() for value in rows(a, b))}>>\n" for a, b in zip(*operands))
