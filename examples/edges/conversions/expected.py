#!/usr/bin/env python3
"""expected.py STREAM: what the stream must have, worked out beside the tool, by whole numbers of any size."""
import sys

here = sys.path[0]
WIDTHS = (1, 8, 32, 63, 64)


def wrapped(number, width, least):
    return (number - least) % 2**width + least


def as_int(number, width):
    return wrapped(number, width, -2 ** (width - 1))


def as_nat(number, width):
    return wrapped(number, width, 0)


# Worked by hand: a number, a width, and the number as an int and as a nat of that width.
BY_HAND = [
    (-1, 1, -1, 1), (200, 8, -56, 200), (300, 8, 44, 44), (-128, 32, -128, 4294967168),
    (9223372036854775807, 63, -1, 9223372036854775807), (-1, 64, -1, 18446744073709551615),
]

numbers = [int(line.split()[1]) for line in open(f"{here}/numbers")]
for number, width, of_int, of_nat in BY_HAND:
    assert (as_int(number, width), as_nat(number, width)) == (of_int, of_nat) and number in numbers, number

rows = [[convert(number, width) for width in WIDTHS for convert in (as_int, as_nat)] for number in numbers]
streams = {"converted": [f"({', '.join(map(str, row))})" for row in rows]}
sys.stdout.writelines(f"{value}\n" for value in streams[sys.argv[1]])
