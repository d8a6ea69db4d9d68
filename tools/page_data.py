"""What a page shows of a run, in a form that takes little room: each wire as what was taken from it and put there, each box by runs of deeds."""
import re

from cover import Report
from waiting import standstill

WIDEST_RULE = 90
# What a browser prints as it was read: a whole number that isn't too large for it.
NUMBER = re.compile("0|-?[1-9][0-9]{0,14}")


class Table:
    """Numbers the different things of a list, in the order in which they come."""

    def __init__(self):
        self.numbers = {}

    def number(self, it):
        return self.numbers.setdefault(it, len(self.numbers))

    def all(self):
        return list(self.numbers)


def encoded(text, texts):
    """A number as itself, and any other text as a list of its number in the table."""
    return int(text) if NUMBER.fullmatch(text) else [texts.number(text)]


def deed_of(deed):
    """What a box did: in a few words, its class in the page, and the number of the rule that fired, or none."""
    if deed.unsure:
        return ("waits or is blocked", "unsure", 0)
    if deed.rule:
        return (f"rule {deed.rule} fired" + ", blocked" * deed.blocked, "blocked" if deed.blocked else "fired", deed.rule)
    if deed.blocked:
        return ("blocked", "blocked", 0)
    return ("puts out", "puts", 0) if deed.put else ("waits", "waits", 0)


def runs_of(values):
    """Pairs of a value and how often it follows itself."""
    found = []
    for it in values:
        if found and found[-1][0] == it:
            found[-1][1] += 1
        else:
            found.append([it, 1])
    return found


def turns_of(flags):
    """How often the flag is false, then true, then false again, and so on."""
    runs = runs_of(map(bool, flags))
    return [0] * (bool(runs) and runs[0][0]) + [count for _, count in runs]


def taken_and_put(run, wire):
    """For each superstep whether a value was taken from the wire, and whether one was put there."""
    taken, put = [], []
    for step, before, after in zip(run.steps, run.states, run.states[1:]):
        old, new = before[wire], after[wire]
        taken.append(step.taken[wire] if step else new[: len(old)] != old)
        put.append(step.put[wire] if step else len(new) > len(old) - taken[-1])
    return taken, put


def wire_of(run, n, texts):
    wire = run.net.wires[n]
    taken, put = taken_and_put(run, n)
    return {
        "name": wire.name,
        "type": wire.type,
        "depth": wire.depth,
        "first": [encoded(it, texts) for it in run.states[0][n]],
        "taken": turns_of(taken),
        "put": turns_of(put),
        "values": [encoded(state[n][-1], texts) for state, is_put in zip(run.states[1:], put) if is_put],
    }


def as_written(source, first, last):
    """What stands in the source from a place to the end of a token, in one line, or the front of it."""
    text = " ".join(source[first : last.place + len(last.text)].decode("latin-1").split())
    return text if len(text) <= WIDEST_RULE else text[: WIDEST_RULE - 2] + ".."


def rules_of(run, n, report):
    """The name of each rule and handler of a box, what stands there, and what is known to have been done, in words."""
    box = run.net.boxes[n]
    for number, it in enumerate(box.rules):
        yield f"rule {number + 1}", as_written(run.source, it.place, it.result[-1]), report.counts(n, number)
    for found, it in zip(box.handlers, report.program.bodies[n].handlers.values()):
        yield f"handler {it.exception}", as_written(run.source, it.place, found[-1]), report.handler_counts(n, it)


def box_of(run, n, kinds, report):
    """A box, with what it did as runs of deeds."""
    box = run.net.boxes[n]
    deeds = [deed_of(step.deeds[n]) if step else ("", "waits", 0) for step in run.steps]
    return {
        "name": box.name,
        "bound": run.trace.bounds.get(box.name, (0, 0, 0)),
        "peak": run.trace.peaks.get(box.name),
        "deeds": [[kinds.number(it), count] for it, count in runs_of(deeds)],
        "rules": list(rules_of(run, n, report)),
    }


def data_of(run, coverage, name):
    """All that the page shows, as it is put into it."""
    texts, kinds, report = Table(), Table(), Report(run.source, name, coverage)
    kinds.number(("", "waits", 0))
    return {
        "source": name,
        "steps": len(run.states) - 1,
        "wires": [wire_of(run, n, texts) for n in range(len(run.net.wires))],
        "boxes": [box_of(run, n, kinds, report) for n in range(len(run.net.boxes))],
        "texts": texts.all(),
        "kinds": kinds.all(),
        "counted": report.counted(),
        "untaken": report.untaken(False),
        "standstill": run.standstill,
        "report": standstill(run),
        "ending": run.trace.ending,
    }
