#!/usr/bin/env python3
"""expected.py STREAM: what the stream must have, worked out beside the tool."""
import sys

here = sys.path[0]
OLD = {1: 3, 2: 4}


def changed(place):
    return f"Changed <<3, 4>> <<{', '.join(str(9 if at == place else OLD[at]) for at in OLD)}>>"


places = [int(line.split()[1]) for line in open(f"{here}/places")]
streams = {
    "found": [f"Element {OLD[place]}" if place in OLD else "Outside" for place in places],
    "changed": [changed(place) if place in OLD else "Unchanged" for place in places],
}
sys.stdout.writelines(f"{value}\n" for value in streams[sys.argv[1]])
