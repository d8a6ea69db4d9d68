#!/usr/bin/env python3
"""simulator.py run|trace STEPS WORKERS SOURCE PORT..: the lockstep of a whole net, by docs/SEMANTICS.md alone. It answers as
`hume` does, but for ports that fail, and whatever the number of workers."""
import sys
from collections import deque

import bounds
import rules
from meaning import Program
from trees import Box, Stream, line_of
from values import Bad, read_value, show


class Net:
    def __init__(self, program):
        self.p = program
        self.at = {d.name: n for n, d in enumerate(program.nodes)}
        self.wires, self.depth, self.first, self.second = [], [], {}, {}
        for w, d in enumerate(program.wires):
            self.first[self.place(d.first, True)] = w
            self.second[self.place(d.second, False)] = w
            self.depth.append(d.depth or 1)
            self.wires.append(deque([] if d.initial is None else [program.value(d.initial, {})]))
        count = range(len(program.nodes))
        self.pending = {n: None for n in count}
        self.order = {n: list(range(len(d.rules))) for n, d in enumerate(program.nodes) if isinstance(d, Box)}
        self.coming, self.taken, self.most = {n: deque() for n in count}, {n: [] for n in count}, {n: (0, 0) for n in count}

    def place(self, end, outgoing):
        """A wire's end as the number of its node and the place there."""
        node = self.p.nodes[self.at[end[0]]]
        names = [end[1]] if isinstance(node, Stream) else [x for x, _ in (node.outs if outgoing else node.ins)]
        return self.at[end[0]], names.index(end[1])

    def wire_type(self, d):
        """The type of a wire, from the box at one of its ends."""
        node = self.p.nodes[self.at[d.first[0]]]
        return dict(node.outs)[d.first[1]] if isinstance(node, Box) else dict(self.p.nodes[self.at[d.second[0]]].ins)[d.second[1]]

    def type_of(self, n):
        """The type of a stream."""
        wires = self.first if self.p.nodes[n].incoming else self.second
        return self.wire_type(self.p.wires[wires[n, 0]])

    def superstep(self):
        """All execute steps, and then all super steps. Each wire has one consumer and one producer, so their order is of no account."""
        for n, d in enumerate(self.p.nodes):
            if isinstance(d, Box):
                self.execute(n, d)
            elif not d.incoming and self.wires[self.second[n, 0]]:
                self.taken[n].append(self.wires[self.second[n, 0]].popleft())
        for n, d in enumerate(self.p.nodes):
            if isinstance(d, Box):
                self.assert_outputs(n)
            elif d.incoming and self.coming[n] and self.has_room(self.first[n, 0]):
                self.wires[self.first[n, 0]].append(self.coming[n].popleft())

    def execute(self, n, box):
        if self.pending[n] is not None:
            return
        queues = [self.wires[self.second[n, i]] for i in range(len(box.ins))]
        fired = self.p.fire(box, self.order[n], [(q[0],) if q else None for q in queues])
        if not fired:
            return
        rule, taken, self.pending[n] = fired
        self.most[n] = max(self.most[n][0], self.p.heap), max(self.most[n][1], self.p.peak)
        for i in taken:
            queues[i].popleft()
        if box.fair:
            self.order[n].remove(rule)
            self.order[n].append(rule)

    def assert_outputs(self, n):
        wanted = [(self.first[n, o], v) for o, v in enumerate(self.pending[n] or ()) if v is not None]
        if self.pending[n] is not None and all(self.has_room(w) for w, _ in wanted):
            for w, v in wanted:
                self.wires[w].append(v[0])
            self.pending[n] = None

    def has_room(self, w):
        return len(self.wires[w]) < self.depth[w]


def lines_of(port):
    data = sys.stdin.buffer.read() if port == 'std_in' else open(port, 'rb').read()
    lines = data.decode('latin-1').split('\n')
    return lines[:-1] if lines[-1] == '' else lines


def without_return(line):
    return line[:-1] if line.endswith('\r') else line


def refusal(text, source, ports):
    """The broken rule that is told, with its line, or nothing."""
    found = rules.check(text) or bounds.refused(text)
    if found:
        return found
    seen = set()
    for d in Program(text).nodes:
        if isinstance(d, Stream):
            if d.port == source or d.port in seen or d.port not in [*ports, 'std_in', 'std_out']:
                return 55, line_of(text, d.place)
            seen.add(d.port)
    return None


class Run:
    def __init__(self, text):
        self.p = Program(text)
        self.net = Net(self.p)
        streams = [n for n, d in enumerate(self.p.nodes) if isinstance(d, Stream)]
        self.ins = [n for n in streams if self.p.nodes[n].incoming]
        self.outs = [n for n in streams if not self.p.nodes[n].incoming]
        self.lines, self.used = {n: lines_of(self.p.nodes[n].port) for n in self.ins}, dict.fromkeys(self.ins, 0)
        self.files = {n: sys.stdout if self.p.nodes[n].port == 'std_out' else open(self.p.nodes[n].port, 'w') for n in self.outs}

    def fill(self, n, wanted):
        """Reads lines until so many values come, or there is no line; whether no line was bad."""
        while len(self.net.coming[n]) < wanted and self.used[n] < len(self.lines[n]):
            line = without_return(self.lines[n][self.used[n]])
            self.used[n] += 1
            try:
                if line.strip(' \t'):
                    self.net.coming[n].append(read_value(line, self.net.type_of(n), self.p.names.cons))
            except Bad:
                print(f'bad value {self.p.nodes[n].name} line {self.used[n]}')
                return False
        return True

    def tell_taken(self):
        for n in self.outs:
            t = self.net.type_of(n)
            self.files[n].write(''.join(show(v, t, self.p.names.cons) + '\n' for v in self.net.taken[n]))
            self.net.taken[n] = []

    def tell_wires(self, done):
        print('step', done)
        for d, values in zip(self.p.wires, self.net.wires):
            ends = ['.'.join(it for it in end if it is not None) for end in (d.first, d.second)]
            t = self.net.wire_type(d)
            print('wire', ends[0], 'to', ends[1], ' | '.join(show(v, t, self.p.names.cons) for v in values) or 'empty')

    def make(self, steps, span, traced):
        """Rounds of so many supersteps; whether no bad line ended them."""
        done = 0
        while done < steps:
            length = min(span, steps - done)
            if not all(self.fill(n, length) for n in self.ins):
                return False
            for _ in range(length):
                self.net.superstep()
            done += length
            self.tell_taken()
            if traced:
                self.tell_wires(done)
        for n, d in enumerate(self.p.nodes):
            if isinstance(d, Box):
                print(f'peak {d.name} heap {self.net.most[n][0]} stack {self.net.most[n][1]}')
        return True


def main(form, steps, source, ports):
    with open(source, 'rb') as file:
        text = file.read().decode('latin-1')
    found = refusal(text, source, ports)
    if found:
        print(f'refused {found[0]} line {found[1]}')
        return 2
    sys.stdout.write(bounds.table(text))
    return 0 if Run(text).make(int(steps), 1 if form == 'trace' else 64, form == 'trace') else 3


if __name__ == '__main__':
    sys.dont_write_bytecode = True
    sys.exit(main(sys.argv[1], sys.argv[2], sys.argv[4], sys.argv[5:]))
