"""hume page STEPS SOURCE PORT..: writes a run as one file for a browser, with the net, strips of all supersteps and a slider."""
import json
import os
import re
import sys

from coverage import run_covered
from drawing import cut, graph, picture
from page_data import data_of
from program import Usage, is_number

HERE = os.path.dirname(os.path.realpath(__file__))
MOST_STEPS = 10000
PARTS = {"STYLE": "page.css", "DECODING": "page_run.js", "STRIPS": "page_strips.js", "VIEW": "page_view.js"}


def read_part(name):
    with open(os.path.join(HERE, name), encoding="utf-8") as file:
        return file.read()


def net_picture(run):
    """The net as drawn by `dot`, to stand in the page; nothing without `dot`."""
    shown = [{cut(" | ".join(state[n]) or "empty") for state in run.states} for n in range(len(run.net.wires))]
    text = picture(graph(run.net, run.trace.bounds, [max(it, key=len, default="") for it in shown])).decode("utf-8")
    return re.sub(r"<!--.*?-->\n?", "", text[text.index("<svg") :], flags=re.DOTALL) if text else ""


def page_of(run, coverage, name):
    parts = {part: read_part(file) for part, file in PARTS.items()}
    parts["NET"] = net_picture(run)
    parts["DATA"] = json.dumps(data_of(run, coverage, name), separators=(",", ":")).replace("<", "\\u003c")
    return re.sub(r"\{\{([A-Z]+)\}\}", lambda it: parts[it[1]], read_part("page.html"))


def main(_, words):
    if len(words) < 2 or not is_number(words[0]):
        raise Usage("usage: hume page STEPS SOURCE PORT.. >PAGE.html")
    if int(words[0]) > MOST_STEPS:
        raise Usage(f"a page shows at most {MOST_STEPS} supersteps")
    run, coverage, done = run_covered(words[0], words[1], words[2:], sys.stdin.buffer)
    if run is None:
        sys.stderr.buffer.write(done.stdout + done.stderr)
        return done.returncode
    sys.stdout.write(page_of(run, coverage, os.path.basename(words[1])))
    return run.status
