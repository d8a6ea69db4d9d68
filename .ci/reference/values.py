"""Values as lines: how they are written and read, by docs/SEMANTICS.md."""
import re

from meaning import Con
from rules import fits

ESCAPES = {10: "'\\n'", 9: "'\\t'", 92: "'\\\\'", 39: "'\\''"}
TOKEN = re.compile(r"[ \t]*(<<|>>|[(),]|-?[0-9]+|[A-Za-z][A-Za-z0-9_]*|'(?:\\[nt\\']|[^'\\])')")


def show(v, t, cons, inner=False):
    """The text of a value; within a value of a data type one with parts stands in parentheses."""
    kind = t[0]
    if kind == 'bool':
        return 'true' if v else 'false'
    if kind == 'char':
        return ESCAPES.get(v, "'%c'" % v)
    if kind in ('int', 'nat'):
        return str(v)
    if kind == 'tuple':
        return '(' + ', '.join(show(x, s, cons) for x, s in zip(v, t[1])) + ')'
    if kind == 'vector':
        return '<<' + ', '.join(show(x, t[2], cons) for x in v) + '>>'
    text = ' '.join([v.name] + [show(x, s, cons, True) for x, s in zip(v.parts, cons[v.name][2])])
    return '(' + text + ')' if inner and v.parts else text


class Bad(Exception):
    pass


class Reader:
    """The tokens of a line, the next one last."""

    def __init__(self, line, cons):
        self.cons, self.tokens, at = cons, [], 0
        line = line.rstrip(' \t')
        while at < len(line):
            m = TOKEN.match(line, at)
            if not m:
                raise Bad
            self.tokens.insert(0, m[1])
            at = m.end()

    def take(self, wanted=None):
        if not self.tokens or wanted is not None and self.tokens[-1] != wanted:
            raise Bad
        return self.tokens.pop()

    def value(self, t, inner=False):
        kind = t[0]
        if kind in ('tuple', 'vector'):
            return self.listed('()' if kind == 'tuple' else ('<<', '>>'), t[1] if kind == 'tuple' else [t[2]] * t[1])
        if kind == 'named':
            return self.constructed(t[1], inner)
        word = self.take()
        if kind == 'bool' and word in ('true', 'false'):
            return int(word == 'true')
        if kind == 'char' and word[0] == "'":
            return next((b for b, s in ESCAPES.items() if s == word), ord(word[1]))
        if kind in ('int', 'nat') and re.fullmatch('-?[0-9]+', word) and fits(word[0] == '-', abs(int(word)), t):
            return int(word)
        raise Bad

    def listed(self, ends, types):
        self.take(ends[0])
        values = []
        for i, t in enumerate(types):
            if i:
                self.take(',')
            values.append(self.value(t))
        self.take(ends[1])
        return tuple(values)

    def constructed(self, name_of_type, inner):
        paren = inner and self.tokens and self.tokens[-1] == '('
        if paren:
            self.take('(')
        name = self.take()
        if name not in self.cons or self.cons[name][0] != name_of_type or inner and bool(self.cons[name][2]) != bool(paren):
            raise Bad
        parts = tuple(self.value(t, True) for t in self.cons[name][2])
        if paren:
            self.take(')')
        return Con(name, parts)


def read_value(line, t, cons):
    reader = Reader(line, cons)
    value = reader.value(t)
    if reader.tokens:
        raise Bad
    return value
