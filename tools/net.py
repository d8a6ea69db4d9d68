"""hume net SOURCE --svg: the net as a picture (SVG), which `dot` draws of what `hume net SOURCE` prints."""
import os
import re
import shutil
import subprocess
import sys

from drawing import loop_lines, places_of, quoted, run_dot
from program import TOP, Usage, report, started

EDGE = re.compile(r'  "([^"]+)" -> "([^"]+)" \[.*, (label=.*)\];')


def net_of(source):
    """What the command prints of the net, and its status. Of a failure it says why."""
    with started([os.path.join(TOP, "hume"), "net", source], stdout=subprocess.PIPE) as process:
        text, _ = process.communicate()
    status = process.returncode
    return text, status if status >= 0 else 128 - status


def spread_loops(text):
    """The lines of a net, in which each of several loops at one box leads through a node that has its label."""
    lines = text.split("\n")
    edges = [EDGE.fullmatch(it) for it in lines]
    for line, edge, place in zip(lines, edges, places_of([it and it.group(1, 2) for it in edges])):
        if place is None:
            yield line
        else:
            box, label = edge.group(1, 3)
            yield from loop_lines(quoted(box), quoted(f"{box} {place + 1}"), place, f'shape="plaintext", {label}')


def main(_, words):
    if len(words) != 2 or words[1] != "--svg":
        raise Usage("usage: hume net SOURCE --svg")
    text, status = net_of(words[0])
    if status:
        sys.stdout.buffer.write(text)
        return status
    dot = shutil.which("dot")
    if not dot:
        report("dot is missing, which draws the picture (apt-get install graphviz)")
        return 1
    status, drawn = run_dot(dot, "\n".join(spread_loops(text.decode("latin-1"))))
    if status:
        report("can't draw the picture: dot failed")
        return 4
    sys.stdout.buffer.write(drawn)
    return 0
