#!/usr/bin/env python3
"""expected.py STREAM: what the stream must have, worked out beside the tool."""
import sys

here = sys.path[0]
steps = int(open(f"{here}/words").read().split()[1])
PRICES = {1: ("Tea", 120), 2: ("Coffee", 150), 3: ("Soup", 200)}

# Act i is on its wire after superstep i; the box and an output stream take one superstep each.
acts = [line.split() for line in open(f"{here}/acts")][: max(0, steps - 2)]
credit, tray, display = 0, [], []
for act, *number in acts:
    number = int(number[0]) if number else None
    if act == "Cancel":
        display.append(f"Back {credit}")
        credit = 0
    elif act == "Coin":
        credit += number if number in (10, 20, 50, 100) else 0
        display.append(f"Credit {credit}" if number in (10, 20, 50, 100) else f"Strange {number}")
    elif number not in PRICES:
        display.append(f"Unknown {number}")
    elif credit < PRICES[number][1]:
        display.append(f"Lacking {PRICES[number][1] - credit}")
    else:
        tray.append(PRICES[number][0])
        display.append(f"Enjoy {credit - PRICES[number][1]}")
        credit = 0

streams = {"tray": tray, "display": display, "stdout": []}
sys.stdout.writelines(f"{value}\n" for value in streams[sys.argv[1]])
