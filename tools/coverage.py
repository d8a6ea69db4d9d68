"""Counts what the rules of a run did: each firing is worked out again, and has to give what the wires show."""
from collections import Counter
from dataclasses import dataclass, field

from evaluating import Evaluator, TooMuch
from progress import Progress
from replay import Hidden, Nodes, Step, first_still, shared_deed
from tracing import explained, traced


@dataclass
class Coverage:
    """Counts by box and rule, both from 0: firings, supersteps in which the box was blocked with the rule's outputs, and the same for each
    output that found no room; by box and exception what handlers took. `taken` has the places of branches and equations. `steps` is how
    many supersteps of `wanted` were counted."""

    fired: Counter = field(default_factory=Counter)
    blocked: Counter = field(default_factory=Counter)
    full: Counter = field(default_factory=Counter)
    handled: Counter = field(default_factory=Counter)
    taken: set = field(default_factory=set)
    steps: int = 0
    wanted: int = 0

    def add(self, other):
        for name in ("fired", "blocked", "full", "handled"):
            getattr(self, name).update(getattr(other, name))
        self.taken |= other.taken
        self.steps += other.steps
        self.wanted += other.wanted


class Walk:
    """The net in a superstep: the outputs that each box has yet to put out, with their rule, and the order of its rules."""

    def __init__(self, net, evaluator, coverage):
        self.nodes, self.evaluator, self.coverage = Nodes(net, {}), evaluator, coverage
        self.pending = [None] * len(net.boxes)
        self.orders = [tuple(range(len(it.rules))) for it in net.boxes]

    def fire(self, box, rule, before, taken):
        """Notes that the rule fires, and what it gives."""
        texts = tuple(before[wire][0] if wire in taken else None for wire in self.nodes.into[box])
        outcome = self.evaluator.fire(box, rule, texts)
        self.pending[box] = (rule, outcome.outputs)
        self.coverage.fired[box, rule] += 1
        self.coverage.taken |= outcome.taken
        if outcome.handler:
            self.coverage.handled[box, outcome.handler] += 1
        if self.nodes.net.boxes[box].fair:
            self.orders[box] = tuple(it for it in self.orders[box] if it != rule) + (rule,)

    def put(self, box, middle):
        """Puts out what the box has pending, or notes why it can't; the deed says whether it does, and whether it is blocked."""
        if self.pending[box] is None:
            return False, False
        rule, outputs = self.pending[box]
        wires = self.nodes.out_of[box]
        full = [n for n, text in enumerate(outputs) if text is not None and len(middle[wires[n]]) >= self.nodes.depths[wires[n]]]
        for n in full:
            self.coverage.full[box, rule, n] += 1
        self.coverage.blocked[box, rule] += bool(full)
        if full:
            return False, True
        for wire, text in zip(wires, outputs):
            if text is not None:
                middle[wire] = [*middle[wire], text]
        self.pending[box] = None
        return any(it is not None for it in outputs), False

    def step(self, before, after):
        """The superstep between two states, or nothing where the net does otherwise."""
        hidden = Hidden([it is not None for it in self.pending], self.orders, ())
        fired, middle, taken = self.nodes.execute(hidden, before)
        held = [len(it) for it in middle]
        for box, rule in enumerate(fired):
            if rule is not None:
                self.fire(box, rule, before, taken)
        deeds = []
        for box, rule in enumerate(fired):
            put, blocked = self.put(box, middle)
            deeds.append(shared_deed(0 if rule is None else rule + 1, put, blocked))
        for wire, _ in self.nodes.sources:
            middle[wire] = after[wire] if after[wire][:-1] == middle[wire] else middle[wire]
        if middle != after:
            return None
        return Step(deeds, [n in taken for n in range(len(after))], [len(it) > count for it, count in zip(after, held)])


def covered(run):
    """What the rules of the run did, and its supersteps as far as that is known."""
    coverage, steps = Coverage(wanted=len(run.states) - 1), []
    walk = Walk(run.net, Evaluator(run.source), coverage)
    with Progress() as progress:
        for before, after in zip(run.states, run.states[1:]):
            try:
                step = walk.step(before, after)
            except TooMuch:
                break
            if step is None:
                break
            steps.append(step)
            coverage.steps += 1
            progress.tell(f"the rules of {coverage.steps} of {coverage.wanted} supersteps are counted")
    return coverage, steps


def run_covered(steps, source, ports, given):
    """Makes a trace by the program: the run, what its rules did, and what the program answered. None where it gives no trace."""
    run, done = traced(steps, source, ports, given)
    if run is None:
        return None, None, done
    coverage, found = covered(run)
    if coverage.steps == coverage.wanted:
        run.steps, run.standstill = found, first_still(Nodes(run.net, run.inputs), found, run.states)
    else:
        run.steps, run.standstill = explained(run.net, run.states, run.inputs)
    return run, coverage, done
