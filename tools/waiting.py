"""Says of a run at a standstill which boxes wait, and for what."""
from terms import matches, read_text


class Standstill:
    """The net in the state in which nothing moves any more."""

    def __init__(self, run):
        self.net, self.run = run.net, run
        self.state = {it.name: values for it, values in zip(run.net.wires, run.states[run.standstill])}
        self.deeds = dict(zip((it.name for it in run.net.boxes), run.steps[run.standstill - 1].deeds))
        self.into = {it.finish: it for it in run.net.wires}
        self.out_of = {it.start: it for it in run.net.wires}

    def needs(self, box, rule):
        """The inputs at which the rule needs a value and finds none; None where a value that is there doesn't match."""
        missing = []
        for pattern, (port, _) in zip(rule.patterns, box.inputs):
            values = self.state[self.into[f"{box.name}.{port}"].name]
            if pattern.kind in ("skip", "drain"):
                continue
            if not values:
                missing.append(f"{box.name}.{port}")
            elif not matches(pattern, read_text(values[0])):
                return None
        return missing

    def missing(self, box):
        """For each rule that may still fit the inputs that it lacks, each list once."""
        found = []
        for rule in box.rules:
            needs = self.needs(box, rule)
            if needs and needs not in found:
                found.append(needs)
        return found

    def full(self, box):
        wires = [self.out_of[f"{box.name}.{port}"] for port, _ in box.outputs]
        return [it for it in wires if len(self.state[it.name]) >= it.depth]

    def behind(self, end):
        """Who should send a value to this input."""
        start = self.into[end].start
        name, _, port = start.partition(".")
        if port:
            return f"box {name}"
        return f"stream {name}, which " + ("has ended" if name in self.run.inputs else "gives nothing")

    def waiting(self, box):
        """What the box waits for, in a line."""
        deed, parts = self.deeds[box.name], []
        if deed.rule:
            return f"box {box.name} fires by its rule {deed.rule}, which takes nothing and puts nothing out"
        if deed.blocked or deed.unsure:
            wires = ", ".join(f"{it.name} holds {' | '.join(self.state[it.name])}" for it in self.full(box))
            parts.append(f"is blocked, as it finds no room: {wires}")
        if not deed.blocked or deed.unsure:
            missing = [" and ".join(f"{end} (from {self.behind(end)})" for end in it) for it in self.missing(box)]
            if missing:
                parts.append("waits for a value at " + ", or at ".join(missing))
            else:
                ends = [f"{box.name}.{port}" for port, _ in box.inputs]
                seen = [f"{end} has {(self.state[self.into[end].name] or ['nothing'])[0]}" for end in ends]
                parts.append("waits, as none of its rules fits: " + ", ".join(seen))
        return f"box {box.name} " + ", or ".join(parts)

    def awaited(self, box):
        """The boxes without which this one stays as it is: those that should send to it, or that should take from it."""
        deed = self.deeds[box.name]
        if deed.blocked and not deed.unsure:
            return {it.finish.partition(".")[0] for it in self.full(box)}
        ways = self.missing(box)
        return {self.into[end].start.partition(".")[0] for end in ways[0]} if len(ways) == 1 else set()

    def reached(self, name, boxes):
        """The boxes for which this one waits, directly or through others."""
        seen, left = [], [name]
        while left:
            more = [it for it in boxes.get(left.pop(), ()) if it in boxes and it not in seen]
            seen += more
            left += more
        return seen

    def rings(self):
        """The groups of boxes that wait for each other, or for themselves."""
        boxes = {it.name: sorted(self.awaited(it)) for it in self.net.boxes}
        reached = {it: self.reached(it, boxes) for it in boxes}
        groups = [[it for it in boxes if it in reached[name] and name in reached[it]] for name in boxes]
        return [it for n, it in enumerate(groups) if it and it not in groups[:n]]

    def left(self, stream):
        """How many values the input stream has yet to give, in words; nothing where there are none."""
        values, may_go_on = self.run.inputs.get(stream.name, ([], False))
        wire = self.net.wires.index(self.out_of[stream.name])
        left = len(values) - sum(it.put[wire] for it in self.run.steps)
        return f"at least {left} more" if may_go_on else f"{left} more" if left else ""

    def lines(self):
        """The whole report."""
        yield f"standstill: from superstep {self.run.standstill} on nothing changes, and nothing can come any more"
        for box in self.net.boxes:
            yield "  " + self.waiting(box)
        for it in self.net.streams:
            left = self.left(it) if it.incoming else ""
            if left:
                yield f"  stream {it.name} has {left}, and finds no room: {self.out_of[it.name].name} is full"
        for ring in self.rings():
            waits = "waits for itself" if len(ring) == 1 else "wait for each other"
            mend = "a greater depth (`@`)" if any(self.deeds[it].blocked for it in ring) else "a first value (`initial`)"
            yield f"  {' and '.join(ring)} {waits}: a wire there may need {mend}"


def standstill(run):
    """The report on a standstill, or nothing."""
    return list(Standstill(run).lines()) if run.standstill is not None else []
