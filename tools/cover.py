"""hume cover STEPS SOURCE PORT..: how often each rule of each box fired and was blocked, and what no superstep took."""
import sys
from collections import namedtuple

from coverage import run_covered
from declarations import read_program
from program import Usage, is_number
from terms import printed

# A rule, handler, equation or branch: its kind, its place in the source, what it is called, and whether it was taken.
Item = namedtuple("Item", "kind place text taken")


def branches_below(it, taken, where):
    """The branches in an expression; none inside one that wasn't taken."""
    for part in it.parts:
        yield from branches_below(part, taken, where)
    for branch in it.branches:
        label = printed(branch.pattern) if it.kind == "case" else "then" if branch.pattern.name == "true" else "else"
        yield Item("branch", branch.place, f"`{label}` in {where}", branch.place in taken)
        if branch.place in taken:
            yield from branches_below(branch.body, taken, where)


class Report:
    """What is told of a program's coverage."""

    def __init__(self, source, name, coverage):
        self.program, self.coverage, self.source, self.name = read_program(source), coverage, source, name

    def at(self, place):
        """The file, the line and the column of a place, as an editor reads it."""
        before = self.source[:place]
        return f"{self.name}:{before.count(10) + 1}:{place - before.rfind(10)}"

    def line(self, place):
        return self.source.count(b"\n", 0, place) + 1

    def counts(self, n, rule):
        """What a rule of the box with the number n did, in words."""
        box, coverage = self.program.net.boxes[n], self.coverage
        if not coverage.fired[n, rule]:
            return "never fired"
        text = f"fired {coverage.fired[n, rule]}"
        if coverage.blocked[n, rule]:
            outputs = [f"{port} {coverage.full[n, rule, o]}" for o, (port, _) in enumerate(box.outputs) if coverage.full[n, rule, o]]
            text += f", blocked {coverage.blocked[n, rule]} (no room: {', '.join(outputs)})"
        return text

    def handler_counts(self, n, handler):
        count = self.coverage.handled[n, handler.exception]
        return f"taken {count}" if count else "never taken"

    def counted(self):
        """A line where not all supersteps are counted."""
        coverage = self.coverage
        return [f"counted: {coverage.steps} of {coverage.wanted} supersteps, since the rest would take too long"] * (coverage.steps < coverage.wanted)

    def box_lines(self, n):
        body = self.program.bodies[n]
        yield f"box {self.program.net.boxes[n].name}"
        for rule, it in enumerate(body.rules):
            yield f"  rule {rule + 1}, line {self.line(it.place)}: {self.counts(n, rule)}"
        for it in body.handlers.values():
            yield f"  handler {it.exception}, line {self.line(it.place)}: {self.handler_counts(n, it)}"

    def items_of_box(self, n):
        name, body, taken = self.program.net.boxes[n].name, self.program.bodies[n], self.coverage.taken
        for rule, it in enumerate(body.rules):
            fired = bool(self.coverage.fired[n, rule])
            yield Item("rule", it.place, f"rule {rule + 1} of box {name}", fired)
            yield from branches_below(it.body, taken, f"rule {rule + 1} of box {name}") if fired else ()
        for it in body.handlers.values():
            yield Item("handler", it.place, f"handler {it.exception} of box {name}", it.place in taken)
            yield from branches_below(it.body, taken, f"handler {it.exception} of box {name}") if it.place in taken else ()

    def items_of_function(self, name):
        for n, it in enumerate(self.program.functions[name].equations):
            where = f"equation {n + 1} of function {name}"
            yield Item("equation", it.place, where, it.place in self.coverage.taken)
            yield from branches_below(it.body, self.coverage.taken, where) if it.place in self.coverage.taken else ()

    def items(self):
        """All rules, handlers, equations and branches, in the order of the source."""
        found = [it for name in self.program.functions for it in self.items_of_function(name)]
        found += [it for n in range(len(self.program.bodies)) for it in self.items_of_box(n)]
        return sorted(found, key=lambda it: it.place)

    def untaken(self, are_rules):
        """A line for each rule that never fired, or for all else that was never taken."""
        found = [it for it in self.items() if not it.taken and (it.kind == "rule") == are_rules]
        return [f"{self.at(it.place)}: never {'fired' if are_rules else 'taken'}: {it.text}" for it in found]

    def lines(self):
        """All but the rules that never fired."""
        for n in range(len(self.program.bodies)):
            yield from self.box_lines(n)
        yield from self.counted()
        yield from self.untaken(False)


def main(_, words):
    if len(words) < 2 or not is_number(words[0]):
        raise Usage("usage: hume cover STEPS SOURCE PORT..")
    run, coverage, done = run_covered(words[0], words[1], words[2:], sys.stdin.buffer)
    if run is None:
        sys.stdout.buffer.write(done.stdout)
        sys.stderr.buffer.write(done.stderr)
        return done.returncode
    report = Report(run.source, words[1], coverage)
    for line in [*report.lines(), *report.untaken(True)]:
        print(line)
    if run.trace.ending:
        print(run.trace.ending)
    return run.status
