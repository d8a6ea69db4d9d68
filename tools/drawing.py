"""Draws a net: as text for Graphviz, and by `dot` as a picture (SVG) where that is installed."""
import os
import shutil
import subprocess
import tempfile

from program import started

WIDEST = 24
MOST_SECONDS = 10


def quoted(text):
    return '"' + text.replace("\\", "\\\\").replace('"', '\\"').replace("\n", "\\n") + '"'


def cut(text):
    return text if len(text) <= WIDEST else text[: WIDEST - 2] + ".."


def node_of(end):
    """The node's name for Graphviz: that of the box or stream, as no two have the same."""
    return quoted(end.partition(".")[0])


def box_line(number, box, bounds):
    """A box: its name, what its steps take at most, and a line for what it does."""
    heap, stack, _ = bounds.get(box.name, ("?", "?", "?"))
    label = f"{box.name}\nheap {heap} stack {stack}\nrule 64 fired, blocked"
    return f"  {quoted(box.name)} [id = box{number}, shape = box, label = {quoted(label)}];"


def stream_line(it):
    label = f"{it.name}\n{'from' if it.incoming else 'to'} {it.port}"
    return f"  {quoted(it.name)} [shape = {'cds' if it.incoming else 'note'}, label = {quoted(label)}];"


def label_of(wire, widest):
    """The names of a wire's ends at the boxes and its depth, and a line for its values that is as long as the widest."""
    ends = " to ".join(it.partition(".")[2] for it in (wire.start, wire.finish) if "." in it)
    return quoted(ends + (f" @ {wire.depth}" if wire.depth > 1 else "") + "\n" + widest)


def places_of(ends):
    """For each wire, by the nodes that it joins, its place among several loops at one box. Any other has none, as `dot` draws it well."""
    return [ends[:n].count(it) if it and it[0] == it[1] and ends.count(it) > 1 else None for n, it in enumerate(ends)]


def loop_lines(box, node, place, attributes, marks=""):
    """A wire from a box to itself, through a node that has its label: the first one stands above the box, the second one below, and each
    further one beside it. An edge names the upper node first, since that keeps it there."""
    text = f"{node} [{attributes}];"
    yield f'  {{ rank="same"; {box}; {text} }}' if place < 2 else f"  {text}"
    edge = f"{node} -> {box}" if place == 0 else f"{box} -> {node}"
    yield f'  {edge} [{marks}dir="none"];'
    yield f'  {edge} [{marks}dir="{"back" if place else "forward"}"];'


def wire_lines(net, widest):
    """All wires."""
    ends = [(node_of(it.start), node_of(it.finish)) for it in net.wires]
    for n, ((start, finish), place) in enumerate(zip(ends, places_of(ends))):
        marks, label = f"class = wire{n}, ", label_of(net.wires[n], widest[n])
        if place is None:
            yield f"  {start} -> {finish} [id = wire{n}, {marks}label = {label}];"
        else:
            shown = f"id = wire{n}, {marks}shape = plaintext, fontsize = 10, style = solid, label = {label}"
            yield from loop_lines(start, quoted(f"wire {n}"), place, shown, marks)


def graph(net, bounds, widest):
    """The text for Graphviz; `widest` has for each wire the longest text that it will show."""
    lines = ["digraph net {", "  rankdir = LR;", '  node [fontname = "Helvetica", fontsize = 11, style = filled, fillcolor = white];']
    lines.append('  edge [fontname = "Helvetica", fontsize = 10];')
    lines += [box_line(n, it, bounds) for n, it in enumerate(net.boxes)]
    lines += [stream_line(it) for it in net.streams]
    lines += wire_lines(net, widest)
    return "\n".join(lines) + "\n}\n"


def run_dot(dot, text, seconds=None):
    """Has `dot` draw the text, within a time if one is given; its status, and what it writes."""
    with started([dot, "-Tsvg"], stdin=subprocess.PIPE, stdout=subprocess.PIPE, stderr=subprocess.DEVNULL) as process:
        drawn, _ = process.communicate(text.encode("latin-1"), seconds)
    return process.returncode, drawn


def picture(text):
    """What `dot` makes of the text, as bytes; nothing where it isn't installed, fails, or takes too long."""
    dot = shutil.which("dot")
    if not dot:
        return b""
    try:
        status, drawn = run_dot(dot, text, MOST_SECONDS)
    except (OSError, subprocess.TimeoutExpired):
        return b""
    return b"" if status else drawn


def browser():
    """The command of a Chromium that can run without a screen, or none."""
    return next((it for it in map(shutil.which, ("chromium", "chromium-browser", "google-chrome")) if it), None)


def photograph(page, path, width, height):
    """A picture (PNG) of the page at an address, as a headless Chromium shows it."""
    with tempfile.TemporaryDirectory() as profile:
        options = ["--headless", "--no-sandbox", "--disable-gpu", "--hide-scrollbars", f"--user-data-dir={profile}"]
        size = f"--window-size={width},{height}"
        command = [browser(), *options, size, f"--screenshot={os.path.abspath(path)}", page]
        subprocess.run(command, check=True, stdout=subprocess.DEVNULL, stderr=subprocess.DEVNULL)
