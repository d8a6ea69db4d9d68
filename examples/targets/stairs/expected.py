"""The light worked out tick by tick: expected.py light prints its values."""
import os
import sys

PLACE = os.path.dirname(os.path.abspath(__file__))


def shown(left):
    return "Bright" if left > 10 else "Dim" if left and left % 2 == 0 else "Dark"


def main(_):
    left = 0
    for line in open(os.path.join(PLACE, "button"), encoding="ascii"):
        left = 60 if line.strip() == "true" else max(left - 1, 0)
        print(shown(left))


main(sys.argv[1])
