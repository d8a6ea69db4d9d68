"""Says from the wires of a net whether nothing can change any more, where superstep for superstep they stay as they are.

A box that is blocked holds what it has yet to put out, and no wire shows that. So the wires tell it by time: a box that isn't blocked
fires, takes values, and has to be given equal ones. That goes on for ever only where boxes hand values round, or an input gives them.
"""
from replay import Nodes
from terms import NoTerm


class Standing:
    """What the wires of a net tell, which are given as they are printed."""

    def __init__(self, net):
        self.net, self.nodes = net, Nodes(net, {})
        self.maker = {wire: box for box, wires in enumerate(self.nodes.out_of) for wire in wires}
        self.taker = {wire: box for box, wires in enumerate(self.nodes.into) for wire in wires}
        # A gap that a box leaves goes from box to box, one in each superstep, before a wire shows it.
        self.enough = 2 * len(net.boxes) + 4
        self.texts, self.same = None, 0

    def look(self, texts, steps):
        """Whether the net stands still, after so many supersteps more, with these texts on its wires."""
        if texts != self.texts:
            self.texts, self.same = texts, 0
            return False
        self.same += steps == 1
        return self.same >= self.enough and self.may_stand()

    def is_doubtful(self):
        """Whether the net may stand still, so that each superstep has to be looked at."""
        return self.texts is not None and self.may_stand()

    def may_stand(self):
        """Whether no output is on its way, and no box can fire for ever while the wires stay as they are."""
        state = [[] if it == "empty" else it.split(" | ") for it in self.texts]
        if any(state[wire] for wire in self.nodes.sinks):
            return False
        try:
            return not self.flowing(state)
        except NoTerm:
            return False

    def flowing(self, state):
        """The boxes that may fire for ever."""
        flowing = set(range(len(self.net.boxes)))
        while True:
            left = {box for box in flowing if self.may_flow(box, state, flowing)}
            if left == flowing:
                return flowing
            flowing = left

    def may_flow(self, box, state, flowing):
        """Whether a rule of the box may fire for ever, where of the others these alone may."""
        heads = [state[wire][0] if state[wire] else None for wire in self.nodes.into[box]]
        for rule in self.net.boxes[box].rules:
            if self.nodes.fits(rule, heads):
                if self.is_fed(box, rule, state, flowing):
                    return True
                if not self.net.boxes[box].fair:
                    return False
        return False

    def is_fed(self, box, rule, state, flowing):
        """Whether what the rule takes may come again, and what it puts out is taken; one that takes and changes nothing doesn't count."""
        taken = [wire for pattern, wire in zip(rule.patterns, self.nodes.into[box]) if pattern.kind != "skip" and state[wire]]
        if any(self.maker.get(wire, box) not in flowing for wire in taken):
            return False
        passed = [bool(state[wire]) and self.taker.get(wire) in flowing for wire in self.nodes.out_of[box]]
        if not rule.silent and not all(passed):
            return False
        return bool(taken) or self.net.boxes[box].fair or any(passed)
