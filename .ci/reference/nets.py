"""Random nets, boxes for functions that none calls, random lines for inputs, and runs over these as files of a folder. A number always
stands for the same net and the same lines."""
import os
import random
import re
import subprocess

import bounds
from meaning import Con, Program
from programs import NetMaker
from rules import check
from simulator import Net
from trees import Box, Exn, Stream
from values import show

STEPS = [0, 1, 2, 5, 20, 63, 64, 65, 100, 128, 130, 200, 300]
STANDARD = 'std_in', 'std_out'
TOKEN = re.compile(r"<<|>>|[(),]|-?[0-9]+|[A-Za-z][A-Za-z0-9_]*|'(?:\\[nt\\']|[^'\\])'")


def random_net(seed):
    """The choices that belong to the number, and the net's text, or none where that is refused."""
    r, text = random.Random(f'net {seed}'), NetMaker(seed * 7919 + 1).program()
    return r, None if check(text) or bounds.refused(text) else text


def with_boxes(text):
    """An accepted source; where it has no box, with one for each of its functions. Each parameter is a stream, and so are the result and
    the number of the exception that is raised."""
    program = Program(text)
    if any(isinstance(d, Box) for d in program.nodes):
        return text
    carried = {'DivZero': None, 'Range': None, 'NoCase': None} | {d.name: d.carried for d in program.decls if isinstance(d, Exn)}
    handlers = ' | '.join(name + (' _' if t else '') + f' -> (*, {n})' for n, (name, t) in enumerate(carried.items()))
    return '\n'.join([text, *(box_of(n, d, handlers) for n, d in enumerate(program.funs.values()))])


def box_of(n, function, handlers):
    """A box that calls the function, and its streams and wires."""
    *types, result = map(NetMaker(0).show, function.types)
    coming, values = [f'i{n}_{k}' for k in range(len(types))], ' '.join(f'value{k}' for k in range(len(types)))
    inputs = ', '.join(f'{name} :: {t}' for name, t in zip(coming, types))
    box = f'box call{n} in ({inputs}) out (result :: {result}, raised :: nat 16)\n'
    box += f'match ({values.replace(" ", ", ")}) -> ({function.name} {values}, *)\nhandle {handlers} ;'
    streams = [f'stream {name} from "{name}" ; wire {name} to call{n}.{name} ;' for name in coming]
    streams += [f'stream {name}{n} to "{name}{n}" ; wire call{n}.{name} to {name}{n} ;' for name in ('result', 'raised')]
    return '\n'.join([box, *streams])


def random_value(r, t, cons):
    """A value of a type, often at an end of it."""
    kind = t[0]
    if kind == 'bool':
        return r.randint(0, 1)
    if kind == 'char':
        return r.choice([9, 10, 39, 92, 32, 126, r.randint(32, 126), *map(ord, 'az0')])
    if kind in ('int', 'nat'):
        low, high = (-2**(t[1] - 1), 2**(t[1] - 1) - 1) if kind == 'int' else (0, 2**t[1] - 1)
        return r.choice([low, high, 0, min(1, high), r.randint(low, high), r.randint(max(low, -9), min(high, 9))])
    if kind in ('tuple', 'vector'):
        return tuple(random_value(r, x, cons) for x in (t[1] if kind == 'tuple' else [t[2]] * t[1]))
    name = r.choice([c for c, d in cons.items() if d[0] == t[1]])
    return Con(name, tuple(random_value(r, x, cons) for x in cons[name][2]))


def laid_out(r, text):
    """The text of a value with other blanks, where any may be."""
    if r.random() < 0.7:
        return text
    out, tokens = '', TOKEN.findall(text)
    for a, b in zip(tokens, tokens[1:] + ['']):
        out += a + (r.choice([' ', '\t', '  ']) if a[-1].isalnum() and b[:1].isalnum() or a[-1] == '_' or r.random() < 0.5 else '')
    return r.choice(['', ' ', '\t']) + out + r.choice(['', ' ']) + r.choice(['', '', '\r'])


def spoiled(r, text):
    i = r.randrange(len(text) + 1)
    return r.choice([text[:i] + r.choice("x1 -,()<>'A\0") + text[i:], text[:i] + text[i + 1:], ''])


def random_lines(r, t, cons, counts, bad):
    """Lines with values of a type, as many as one of these counts, of which each is spoiled by that chance."""
    lines = []
    for _ in range(r.choice(counts)):
        line = laid_out(r, show(random_value(r, t, cons), t, cons))
        lines += [r.choice(['', ' ', '\t', '\r'])] * (r.random() < 0.03) + [spoiled(r, line) if r.random() < bad else line]
    return '\n'.join(lines) + ('\n' if lines and r.random() < 0.8 else '')


class Files:
    """A source and random lines for its inputs as files of a folder. The source's file has the name of no port."""

    def __init__(self, r, text, room, counts=(0, 1, 3, 10, 70, 130, 200), bad=0.01):
        program = Program(text)
        net, streams = Net(program), [(n, d) for n, d in enumerate(program.nodes) if isinstance(d, Stream)]
        names = [d.port for _, d in streams if d.port not in STANDARD]
        self.room, self.source, self.given = room, 'p', set()
        while self.source in names:
            self.source += '_'
        self.give(self.source, text)
        self.give('std_in', '')
        for n, d in streams:
            if d.incoming:
                self.give(d.port, random_lines(r, net.type_of(n), program.names.cons, counts, bad))
        self.ports = r.sample(names, len(names))

    def give(self, name, text):
        if os.path.basename(name) != name:
            raise ValueError(f"'{name}' is no file of the folder itself")
        self.given.add(name)
        with open(os.path.join(self.room, name), 'w', encoding='latin-1', newline='') as file:
            file.write(text)

    def outcome(self, program, words):
        """The status, the standard output and each other file of a call, which are gone then."""
        with open(os.path.join(self.room, 'std_in'), 'rb') as file:
            done = subprocess.run([*program, *words], cwd=self.room, stdin=file, capture_output=True, timeout=300)
        written = {}
        for name in sorted(set(os.listdir(self.room)) - self.given):
            with open(os.path.join(self.room, name), 'rb') as file:
                written[name] = file.read()
            os.remove(os.path.join(self.room, name))
        return done.returncode, done.stdout, written
