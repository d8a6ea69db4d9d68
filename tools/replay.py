"""Finds which boxes fired in a trace, and which are blocked, by docs/SEMANTICS.md: the rules' patterns and the wires tell it.

What a box has yet to put out is seen on no wire. A box that fired, has put nothing out and finds an output full is either blocked, or
its rule put nothing on any output. So both are followed, until what comes later contradicts one.
"""
from collections import namedtuple
from functools import lru_cache
from itertools import product

from terms import matches, read_text

# Of a box in a superstep: the number of the rule that fired, counted from 1, or 0; whether it put its outputs out; whether it is
# blocked at the end; and whether another answer would explain the trace as well.
Deed = namedtuple("Deed", "rule put blocked unsure")
# One superstep: a deed for each box, and for each wire whether a value was taken and whether one was put there.
Step = namedtuple("Step", "deeds taken put")
# What no wire shows: which boxes have outputs pending, the order of each box's rules, and how many values each input stream has given.
Hidden = namedtuple("Hidden", "pending orders given")

MOST_AT_ONCE = 256


@lru_cache(None)
def shared_deed(rule, put, blocked):
    """The deed; equal ones are one object, since a long run has many."""
    return Deed(rule, put, blocked, False)


class Unexplained(Exception):
    """No course of the net has these wires: the trace is of another source."""


class Nodes:
    """The net by numbers: which wires lead to each box and stream, and which start from it."""

    def __init__(self, net, inputs):
        self.net = net
        starts = {it.start: n for n, it in enumerate(net.wires)}
        ends = {it.finish: n for n, it in enumerate(net.wires)}
        self.depths = [it.depth for it in net.wires]
        self.into = [[ends[f"{box.name}.{port}"] for port, _ in box.inputs] for box in net.boxes]
        self.out_of = [[starts[f"{box.name}.{port}"] for port, _ in box.outputs] for box in net.boxes]
        self.sources = [(starts[it.name], inputs.get(it.name)) for it in net.streams if it.incoming]
        self.sinks = [ends[it.name] for it in net.streams if not it.incoming]
        self.terms = {}

    def term(self, text):
        if text not in self.terms:
            self.terms[text] = read_text(text)
        return self.terms[text]

    def fits(self, rule, heads):
        """Whether the rule fits the oldest values at the inputs, None where there is none."""
        for pattern, head in zip(rule.patterns, heads):
            if pattern.kind not in ("skip", "drain") and (head is None or not matches(pattern, self.term(head))):
                return False
        return True

    def fire(self, box, order, state):
        """The number of the first rule that fits, and the wires that it takes from."""
        heads = [state[wire][0] if state[wire] else None for wire in self.into[box]]
        for number in order:
            rule = self.net.boxes[box].rules[number]
            if self.fits(rule, heads):
                pairs = zip(rule.patterns, self.into[box])
                return number, [wire for pattern, wire in pairs if pattern.kind != "skip" and state[wire]]
        return None, []

    def execute(self, hidden, state):
        """The first half of a superstep: the rules that fire, the wires between the halves, and from which wires was taken."""
        fired, taken = [], [wire for wire in self.sinks if state[wire]]
        for box, pending in enumerate(hidden.pending):
            number, wires = (None, []) if pending else self.fire(box, hidden.orders[box], state)
            fired.append(number)
            taken += wires
        taken = set(taken)
        return fired, [it[1:] if wire in taken else it for wire, it in enumerate(state)], taken

    def given(self, hidden, middle, put, after):
        """How many values each input stream has given after the superstep; None where it should have given another one."""
        given = list(hidden.given)
        for n, (wire, values) in enumerate(self.sources):
            if values is not None:
                due = given[n] < len(values[0]) and len(middle[wire]) < self.depths[wire]
                if due != put[wire] or due and after[wire][-1] != values[0][given[n]]:
                    return None
            given[n] += put[wire]
        return tuple(given)

    def ways(self, box, fired, pending, middle, put):
        """What the box may have done in the second half, as deeds."""
        rule = 0 if fired is None else fired + 1
        wires = self.out_of[box]
        if any(put[wire] for wire in wires):
            return [shared_deed(rule, True, False)] if pending or rule else []
        if not pending and not rule:
            return [shared_deed(0, False, False)]
        ways = []
        if any(len(middle[wire]) >= self.depths[wire] for wire in wires):
            ways.append(shared_deed(rule, False, True))
        if rule and self.net.boxes[box].rules[fired].silent:
            ways.append(shared_deed(rule, False, False))
        return ways

    def successors(self, hidden, before, after):
        """What may have happened between two states of the wires: pairs of a step and what is hidden then."""
        fired, middle, taken = self.execute(hidden, before)
        put = [len(new) == len(old) + 1 and new[:-1] == old for old, new in zip(middle, after)]
        if any(not it and new != old for it, old, new in zip(put, middle, after)):
            return
        given = self.given(hidden, middle, put, after)
        if given is None:
            return
        orders = list(hidden.orders)
        for box, number in enumerate(fired):
            if number is not None and self.net.boxes[box].fair:
                orders[box] = tuple(it for it in orders[box] if it != number) + (number,)
        ways = [self.ways(box, number, hidden.pending[box], middle, put) for box, number in enumerate(fired)]
        for deeds in product(*ways):
            pending = tuple(it.blocked for it in deeds)
            yield Step(deeds, [n in taken for n in range(len(before))], put), Hidden(pending, tuple(orders), given)


def joined(steps):
    """One step of those that may have been made: the first, with what others say otherwise marked as unsure."""
    first = steps[0]
    if len(steps) == 1:
        return first
    deeds = [it._replace(unsure=any(other.deeds[box][:3] != it[:3] for other in steps)) for box, it in enumerate(first.deeds)]
    return first._replace(deeds=deeds)


def follow(nodes, states, progress=None):
    """For each superstep the steps that may have been made: a table from what is hidden after it to pairs of a step and what was before."""
    boxes = nodes.net.boxes
    start = Hidden((False,) * len(boxes), tuple(tuple(range(len(it.rules))) for it in boxes), (0,) * len(nodes.sources))
    reached, layers = [start], []
    for before, after in zip(states, states[1:]):
        layer = {}
        for hidden in reached[:MOST_AT_ONCE]:
            for step, then in nodes.successors(hidden, before, after):
                layer.setdefault(then, []).append((step, hidden))
        if not layer:
            raise Unexplained
        layers.append(layer)
        reached = list(layer)
        if progress:
            progress.tell(f"{len(layers)} of {len(states) - 1} supersteps are looked at")
    return layers


def is_quiet(box, deed):
    """Whether the box is after the superstep as it was before; where wires are too, a rule that fired took nothing and put nothing out."""
    return not deed.put and (not deed.rule or not (box.fair or deed.blocked or deed.unsure))


def still(nodes, step, given, states, k):
    """Whether nothing changed in superstep k + 1, and nothing can come: each input stream has ended, or finds no room."""
    if any(step.taken) or any(step.put) or not all(map(is_quiet, nodes.net.boxes, step.deeds)):
        return False
    for (wire, values), count in zip(nodes.sources, given):
        ended = values is not None and count == len(values[0]) and not values[1]
        if not ended and len(states[k + 1][wire]) < nodes.depths[wire]:
            return False
    return True


def first_still(nodes, steps, states):
    """The number of the first superstep from which on nothing changes, if there is one."""
    given = [0] * len(nodes.sources)
    for k, step in enumerate(steps):
        given = [count + step.put[wire] for count, (wire, _) in zip(given, nodes.sources)]
        if still(nodes, step, given, states, k):
            return k + 1
    return None


def explain(net, states, inputs, progress=None):
    """For each superstep what happened in it; and the number of the first one from which on nothing changes, if there is one."""
    nodes = Nodes(net, inputs)
    layers = follow(nodes, states, progress)
    steps, alive = [], set(layers[-1]) if layers else set()
    for layer in reversed(layers):
        ways = [(pair, hidden) for hidden, pairs in layer.items() if hidden in alive for pair in pairs]
        steps.append(joined([step for (step, _), _ in ways]))
        alive = {before for (_, before), _ in ways}
    steps.reverse()
    return steps, first_still(nodes, steps, states)
