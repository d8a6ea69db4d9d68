"""The lamp worked out tick by tick: expected.py led prints its values."""
import os
import sys

PLACE = os.path.dirname(os.path.abspath(__file__))


def main(_):
    left, lit = 0, False
    for line in open(os.path.join(PLACE, "button"), encoding="ascii"):
        if left:
            left -= 1
            continue
        lit, left = not lit, (2 if line.strip() == "true" else 10) - 1
        print("true" if lit else "false")


main(sys.argv[1])
