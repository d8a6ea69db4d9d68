"""What a box does in one execute step, by docs/SEMANTICS.md, and the heap and stack that the step takes, by docs/SPACE.md. A number, a
letter and a truth value is a number here, a tuple and a vector a tuple, and a value of a data type a `Con`."""
from collections import namedtuple

from rules import Names, Typer, bare, types
from trees import Box, Fun, Parser, Stream, Wire, lex, pat_parts

Con = namedtuple('Con', 'name parts')


class Raised(Exception):
    def __init__(self, name, value=None):
        self.name, self.value = name, value


class Recorder(Typer):
    """A Typer that also notes the type of each arithmetic operation."""

    def __init__(self, names, lengths, noted):
        super().__init__(names, lengths)
        self.noted = noted

    def binary(self, e, expected, scope):
        t = super().binary(e, expected, scope)
        self.noted[id(e)] = t
        return t

    def typed(self, e, expected, scope):
        t = super().typed(e, expected, scope)
        if e[0] == 'neg':
            self.noted[id(e)] = t
        return t


def wrapped(n, t):
    n %= 1 << t[1]
    return n - (1 << t[1]) if t[0] == 'int' and n >> (t[1] - 1) else n


def match(p, v, scope):
    """Whether a pattern takes a value; its variables go into the scope."""
    kind = p[0]
    if kind == 'var':
        scope[p[1]] = v
        return True
    if kind == 'num':
        return v == (-p[2] if p[1] else p[2])
    if kind in ('letter', 'truth'):
        return v == int(p[1])
    if kind == 'paren':
        return match(p[1], v, scope)
    if kind == 'con':
        return v.name == p[1] and all(match(q, w, scope) for q, w in zip(p[2], v.parts))
    if kind == 'tuple':
        return all(match(q, w, scope) for q, w in zip(p[1], v))
    return True


def variables(p):
    return (p[0] == 'var') + sum(map(variables, pat_parts(p)))


def divided(operator, x, y):
    """The quotient, cut towards 0, or what it leaves."""
    if y == 0:
        raise Raised('DivZero')
    quotient = abs(x) // abs(y) * (1 if (x < 0) == (y < 0) else -1)
    return quotient if operator == 'div' else x - quotient * y


COMPARE = {
    '==': lambda x, y: x == y, '/=': lambda x, y: x != y, '<': lambda x, y: x < y,
    '<=': lambda x, y: x <= y, '>': lambda x, y: x > y, '>=': lambda x, y: x >= y,
}
COUNT = {'+': lambda x, y: x + y, '-': lambda x, y: x - y, '*': lambda x, y: x * y}


class Program:
    """An accepted program. `heap` and `peak` are what the present execute step has taken; a `depth` is how many words the stack holds."""

    def __init__(self, text):
        self.decls = Parser(lex(text), text).program()
        self.names, self.noted, self.heap, self.peak = Names(self.decls), {}, 0, 0
        list(types(self.decls, self.names, {}, lambda names, lengths: Recorder(names, lengths, self.noted)))
        self.funs = {d.name: d for d in self.decls if isinstance(d, Fun)}
        self.nodes = [d for d in self.decls if isinstance(d, (Box, Stream))]
        self.wires = [d for d in self.decls if isinstance(d, Wire)]

    def at(self, depth):
        self.peak = max(self.peak, depth)

    def value(self, e, scope, depth=0):
        """The value of an expression; it may raise."""
        return getattr(self, 'of_' + e[0])(e, scope, depth)

    def of_num(self, e, scope, depth):
        self.at(depth + 1)
        return -e[2] if e[1] else e[2]

    def of_letter(self, e, scope, depth):
        self.at(depth + 1)
        return int(e[1])

    of_truth = of_letter

    def of_paren(self, e, scope, depth):
        return self.value(e[1], scope, depth)

    def of_raise(self, e, scope, depth):
        self.at(depth + 1)
        raise Raised(e[1], None if e[2] is None else self.value(e[2], scope, depth))

    def of_neg(self, e, scope, depth):
        return wrapped(-self.value(e[1], scope, depth), self.noted[id(e)])

    def of_not(self, e, scope, depth):
        return 1 - self.value(e[1], scope, depth)

    def of_cast(self, e, scope, depth):
        return wrapped(self.value(e[1], scope, depth), e[2])

    def of_let(self, e, scope, depth):
        return self.value(e[3], {**scope, e[1]: self.value(e[2], scope, depth)}, depth + 1)

    def of_if(self, e, scope, depth):
        return self.value(e[2] if self.value(e[1], scope, depth) else e[3], scope, depth)

    def of_case(self, e, scope, depth):
        body, inner, count = self.alternative(e, scope, depth)
        return self.value(body, inner, depth + 1 + count)

    def of_app(self, e, scope, depth):
        if not e[2]:
            self.at(depth + 1)
            return scope[e[1]]
        values = self.parts(e[2], scope, depth)
        depth += len(values) + 2
        for _, patterns, body in self.funs[e[1]].equations:
            inner = {}
            if all(match(p, v, inner) for p, v in zip(patterns, values)):
                return self.value(body, inner, depth + sum(map(variables, patterns)))
        self.at(depth)
        raise Raised('NoCase')

    def of_con(self, e, scope, depth):
        return Con(e[1], self.made(self.parts(e[2], scope, depth)))

    def of_tuple(self, e, scope, depth):
        return self.made(self.parts(e[1], scope, depth))

    of_vector = of_tuple

    def of_update(self, e, scope, depth):
        items, place, item = self.parts(e[1:4], scope, depth)
        if not 1 <= place <= len(items):
            raise Raised('Range')
        return self.made(items[:place - 1] + (item,) + items[place:])

    def of_binary(self, e, scope, depth):
        operator = e[1]
        if operator in ('and', 'or'):
            return self.logic(e, scope, depth)
        x, y = self.parts(e[2:4], scope, depth)
        if operator == '@':
            if not 1 <= y <= len(x):
                raise Raised('Range')
            return x[y - 1]
        if operator in COMPARE:
            return int(COMPARE[operator](x, y))
        return wrapped(COUNT[operator](x, y) if operator in COUNT else divided(operator, x, y), self.noted[id(e)])

    def logic(self, e, scope, depth):
        first = self.value(e[2], scope, depth)
        if first == (e[1] == 'and'):
            return self.value(e[3], scope, depth)
        self.at(depth + 1)
        return first

    def parts(self, expressions, scope, depth):
        """The values of several expressions, each above those before it on the stack."""
        found = tuple(self.value(e, scope, depth + i) for i, e in enumerate(expressions))
        self.at(depth + 1)
        return found

    def made(self, parts):
        self.heap += 1 + len(parts)
        return parts

    def alternative(self, e, scope, depth):
        """The body of the alternative that a `case` takes, what is in scope there, and how many variables its pattern has."""
        value = self.value(e[1], scope, depth)
        for p, body in e[2]:
            inner = dict(scope)
            if match(p, value, inner):
                self.at(depth + 1 + variables(p))
                return body, inner, variables(p)
        self.at(depth + 1)
        raise Raised('NoCase')

    def result(self, e, scope, count, depth):
        """The outputs of a result for so many: a value in a tuple of one, or nothing."""
        kind = e[0]
        if kind == 'paren':
            return self.result(e[1], scope, count, depth)
        if kind == 'let':
            return self.result(e[3], {**scope, e[1]: self.value(e[2], scope, depth)}, count, depth + 1)
        if kind == 'if':
            return self.result(e[2] if self.value(e[1], scope, depth) else e[3], scope, count, depth)
        if kind == 'case':
            body, inner, bound = self.alternative(e, scope, depth)
            return self.result(body, inner, count, depth + 1 + bound)
        if kind == 'raise':
            return self.value(e, scope, depth)
        outs = []
        for part in [e] if count == 1 else e[1]:
            there = sum(it is not None for it in outs)
            outs.append(None if bare(part)[0] == 'star' else (self.value(part, scope, depth + there),))
        return outs

    def fire(self, box, order, ins):
        """The rule that fires, the inputs that it takes and its outputs; or nothing. An input is a tuple of its value, or nothing."""
        for number in order:
            positions, body = box.rules[number]
            scope, taken = {}, []
            if self.fits(positions, ins, scope, taken):
                return number, taken, self.outputs(box, positions, body, ins, scope)
        return None

    @staticmethod
    def fits(positions, ins, scope, taken):
        for i, (p, v) in enumerate(zip(positions, ins)):
            if p[0] in ('star', 'anystar'):
                taken += [i] if p[0] == 'anystar' and v is not None else []
            elif v is None or not match(p, v[0], scope):
                return False
            else:
                taken.append(i)
        return True

    def outputs(self, box, positions, body, ins, scope):
        self.heap = self.peak = 0
        built = [(p, v[0], t) for p, v, (_, t) in zip(positions, ins, box.ins) if p[0] not in ('star', 'anystar', 'any')]
        depth = len(built) + sum(variables(p) for p, _, _ in built)
        self.heap += sum(self.words_to_build(v, t) for _, v, t in built)
        self.at(depth)
        try:
            return self.result(body, scope, len(box.outs), depth)
        except Raised as raised:
            return self.handled(box, raised)

    def handled(self, box, raised):
        _, bound, handler = next(it for it in box.handlers if it[0] == raised.name)
        inner = {bound[1]: raised.value} if bound and bound[0] == 'var' else {}
        self.at(1 + len(inner))
        return self.result(handler, inner, len(box.outs), 1 + len(inner))

    def words_to_build(self, v, t):
        if t[0] == 'tuple':
            return 1 + len(v) + sum(self.words_to_build(x, s) for x, s in zip(v, t[1]))
        if t[0] == 'vector':
            return 1 + len(v) + sum(self.words_to_build(x, t[2]) for x in v)
        if t[0] == 'named':
            return 1 + len(v.parts) + sum(self.words_to_build(x, s) for x, s in zip(v.parts, self.names.cons[v.name][2]))
        return 0
