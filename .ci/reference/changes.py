"""Small changes of a source, after which it is still read by the grammar: a name, a literal, a type or an operator of another kind; a
wire, an equation, a rule, an alternative or a handler dropped, doubled or moved."""
import glob
import os
import random
import re

from programs import Maker
from rules import check
from trees import KEYWORDS, Parser, Refused, Wire, lex

SOURCES = os.path.join(os.path.dirname(os.path.abspath(__file__)), '../../examples/refusals')
SPELL = re.compile(r"--[^\n]*|\s+|'\\.'|'[^']'|\"[^\"]*\"|[A-Za-z][A-Za-z0-9_]*|[0-9]+|<<|>>|<=|>=|==|/=|->|::|_\*|.", re.S)
TYPES = ['bool', 'char', 'int 8', 'int 32', 'nat 8', 'nat 1', 'int 1', 'nat 64', 'int 0', 'nat 65', 'vector 2 of bool', 'vector 1025 of bool',
         '(bool, nat 8)', 'vector 1024 of int 8']
NUMBERS = [0, 1, 2, 3, 16, 17, 127, 128, 255, 256, 2**31 - 1, 2**31, 2**63 - 1, 2**63, 2**64 - 1]
GROUPS = [['+', '-', '*', 'div', 'mod'], ['==', '/=', '<', '<=', '>', '>='], ['and', 'or'], ['true', 'false'], ['match', 'fair'], ['from', 'to']]
PATTERNS = ['_', '*', '_*', '(_)', '0', 'true', '(x, y)', "'a'"]
LITERALS = ['true', "'a'", '7', '(7)', '<<1, 2>>', '(1, true)', '(- 1)', '(-1)', 'raise DivZero', 'raise E', '*', '(1 as nat 8)']
MARKS = ('|', ';', 'handle', ',', 'end', 'initial', '@', ')')


def parsed(text):
    try:
        return Parser(lex(text), text).program()
    except Refused:
        return None


class Pieces:
    """The pieces of a source, with the places of those that are tokens."""

    def __init__(self, r, text):
        self.r, self.text, self.pieces = r, text, SPELL.findall(text)
        self.real = [i for i, p in enumerate(self.pieces) if p.strip() and not p.startswith('--')]
        self.lowers = [i for i in self.real if re.fullmatch('[a-z][A-Za-z0-9_]*', self.pieces[i]) and self.pieces[i] not in KEYWORDS]
        self.uppers = [i for i in self.real if re.fullmatch('[A-Z][A-Za-z0-9_]*', self.pieces[i])]

    def places(self, is_wanted):
        return [i for i in self.real if is_wanted(self.pieces[i])]

    def put(self, places, new):
        """Puts a text in the place of one of these pieces, if there are any."""
        if places:
            self.pieces[self.r.choice(places)] = new
        return ''.join(self.pieces)

    def name(self):
        group = self.r.choice([x for x in (self.lowers, self.uppers) if x] or [[]])
        return self.put(group, self.pieces[self.r.choice(group)] if group else '')

    def number(self):
        return self.put(self.places(str.isdigit), str(self.r.choice(NUMBERS)))

    def type(self):
        spots = self.places(lambda p: p in ('bool', 'char', 'int', 'nat'))
        if spots:
            i = self.r.choice(spots)
            if self.pieces[i] in ('int', 'nat') and i + 2 < len(self.pieces):
                self.pieces[i + 1] = self.pieces[i + 2] = ''
            self.pieces[i] = self.r.choice(TYPES + ([self.pieces[self.r.choice(self.uppers)]] if self.uppers else []))
        return ''.join(self.pieces)

    def operator(self):
        spots = [(i, group) for i in self.real for group in GROUPS if self.pieces[i] in group]
        if not spots:
            return self.text
        i, group = self.r.choice(spots)
        return self.put([i], self.r.choice(group if self.r.random() < 0.8 else sum(GROUPS[:3], [])))

    def ends(self):
        """One end of a wire becomes that of another one, which may get it in turn."""
        wires, side = re.findall(r'wire ([a-z0-9_.]+) to ([a-z0-9_.]+)', self.text), self.r.choice([0, 1])
        if len(wires) < 2:
            return self.text
        a, b = self.r.sample(wires, 2)
        text = self.text.replace('wire %s to %s ' % a, 'wire %s to %s ' % with_end(a, side, b[side]), 1)
        return text.replace('wire %s to %s ' % b, 'wire %s to %s ' % with_end(b, side, a[side]), 1) if self.r.random() < 0.5 else text

    def declaration(self):
        """A declaration, most often a wire, is dropped, doubled or moved."""
        decls = parsed(self.text)
        if not decls:
            return self.text
        starts = [d.place for d in decls] + [len(self.text)]
        chunks = [self.text[a:b] for a, b in zip(starts, starts[1:])]
        wires = [i for i, d in enumerate(decls) if isinstance(d, Wire)]
        i = self.r.choice(wires) if wires and self.r.random() < 0.6 else self.r.randrange(len(chunks))
        chunk, how = chunks.pop(i), self.r.choice(('drop', 'double', 'move'))
        if how != 'drop':
            chunks.insert(self.r.randrange(len(chunks) + 1), chunk + '\n')
        if how == 'double':
            chunks.insert(i, chunk)
        return self.text[:starts[0]] + '\n'.join(chunks)

    def cut(self):
        """What stands between two marks: an equation, a rule, an alternative, a constructor or a handler."""
        marks = self.places(MARKS.__contains__)
        at = self.r.choice(marks) if marks else self.real[0]
        later = [i for i in marks if i > at]
        if later:
            del self.pieces[at:later[0] if self.r.random() < 0.7 else self.r.choice(later[:3])]
        return ''.join(self.pieces)

    def pattern(self):
        return self.put([i for i in self.real if self.pieces[i] in ('_', '*', '_*') or i in self.lowers] or self.real, self.r.choice(PATTERNS))

    def literal(self):
        spots = self.places(lambda p: p.isdigit() or p in ('true', 'false') or p.startswith("'"))
        return self.put(spots, self.r.choice(LITERALS + [self.pieces[i] for i in self.lowers[:5]]))

    def wrap(self):
        i = self.r.choice(self.real)
        return self.put([i], f'({self.pieces[i]})')

    def argument(self):
        i = self.r.choice(self.lowers + self.uppers or self.real)
        return self.put([i], self.pieces[i] + self.r.choice([' 1', ' x', ' true', ' (1)', ' _']))


KINDS = 'name number number type type operator operator operator ends ends ends declaration declaration declaration cut cut cut'.split()
KINDS += 'pattern pattern literal literal wrap argument'.split()


def with_end(wire, side, end):
    return (end, wire[1]) if side == 0 else (wire[0], end)


def changed_once(r, text):
    pieces = Pieces(r, text)
    return getattr(pieces, r.choice(KINDS))() if pieces.real else text


def example(r):
    """A source of examples/refusals/, most often an accepted one."""
    with open(os.path.join(SOURCES, 'rules'), encoding='utf-8') as file:
        accepted = [os.path.join(SOURCES, it.split()[0] + '.hume') for it in file if it.split()[1] == 'accepted']
    paths = accepted if r.random() < 0.7 else sorted(glob.glob(os.path.join(SOURCES, '*', '*.hume')))
    with open(r.choice(paths), encoding='latin-1') as file:
        return file.read()


def is_unread(text):
    """Whether a source breaks a rule on tokens, the grammar or depth."""
    found = check(text)
    return found is not None and (found[0] < 30 or found[0] in (70, 71, 77))


def source(seed):
    """A random program or an example, with none to three changes."""
    r = random.Random(f'program {seed}')
    text = Maker(seed).program() if r.random() < 0.6 else example(r)
    if is_unread(text):
        text = example(r)
    for _ in range(r.choice([0, 1, 1, 1, 2, 3])):
        tried = (changed_once(r, text) for _ in range(20))
        text = next((it for it in tried if it != text and parsed(it) is not None and not is_unread(it)), text)
    return re.sub(' ;', lambda m: r.choice([' ;', '\n;', ' ;\n']), text) if r.random() < 0.2 else text
