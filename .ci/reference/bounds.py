"""The table of bounds of an accepted source, by the tables of docs/SPACE.md alone: heap and stack in words, and work in instructions. Each
bound is such a triple."""
from rules import Names, Raising, bare, types
from trees import Box, Parser, exp_parts, lex, line_of, pat_parts

LEAF = 0, 1, 1
LOGIC = {'and', 'or'}


def stack_of_parts(stacks):
    return max([1] + [i + s for i, s in enumerate(stacks)])


def variables(p):
    return (p[0] == 'var') + sum(map(variables, pat_parts(p)))


def tests(p):
    return (p[0] in ('num', 'letter', 'truth', 'con')) + sum(map(tests, pat_parts(p)))


def is_built(p):
    """Whether a position builds its input."""
    return p[0] not in ('star', 'anystar', 'any')


class Bounds:
    def __init__(self, decls):
        self.names, self.lengths, self.known = Names(decls), {}, {}
        list(types(decls, self.names, self.lengths))
        self.raising = Raising(self.names, self.lengths)

    def function(self, name):
        if name not in self.known:
            equations = self.names.funs[name].equations
            bodies = [(sum(map(variables, pats)), self.expression(body)) for _, pats, body in equations]
            asked = sum(tests(p) for _, pats, _ in equations for p in pats)
            self.known[name] = (max(b[0] for _, b in bodies), max(v + b[1] for v, b in bodies), asked + max([1] + [v + b[2] + 1 for v, b in bodies]))
        return self.known[name]

    def parts(self, expressions):
        bounds = [self.expression(it) for it in expressions]
        return sum(b[0] for b in bounds), stack_of_parts([b[1] for b in bounds]), sum(b[2] for b in bounds)

    def expression(self, e):
        kind = e[0]
        if kind in ('num', 'letter', 'truth') or kind == 'app' and not e[2]:
            return LEAF
        if kind == 'paren':
            return self.expression(e[1])
        if kind == 'raise':
            return self.raised(e)
        if kind == 'binary' and e[1] in LOGIC:
            sides = [self.expression(e[3]), LEAF] if e[1] == 'and' else [LEAF, self.expression(e[3])]
            return self.choice(self.expression(e[2]), *sides, 1)
        if kind == 'if':
            return self.choice(*map(self.expression, e[1:4]), 1)
        if kind == 'let':
            return self.binding(self.expression(e[2]), self.expression(e[3]), 1)
        if kind == 'case':
            return self.cases(e, self.expression, 2)
        if kind == 'app':
            return self.call(e)
        return self.operation(e)

    def operation(self, e):
        """A form that takes its parts from the stack, and may make an object of them."""
        heap, stack, work = self.parts(exp_parts(e))
        made = {'con': len(exp_parts(e)), 'tuple': len(exp_parts(e)), 'vector': len(exp_parts(e)), 'update': self.lengths.get(id(e), 0)}
        return heap + (1 + made[e[0]] if e[0] in made else 0), stack, work + 1

    def call(self, e):
        heap, stack, work = self.parts(e[2])
        inner = self.function(e[1])
        return heap + inner[0], max(stack, len(e[2]) + 2 + inner[1]), work + 1 + inner[2]

    def raised(self, e):
        if e[2] is None:
            return 0, 1, 2
        heap, stack, work = self.expression(e[2])
        return heap, stack, work + 1

    @staticmethod
    def choice(test, a, b, jump):
        """An `if`; a branch of an expression ends by a jump, and one of a result doesn't."""
        return test[0] + max(a[0], b[0]), max(test[1], a[1], b[1]), test[2] + 1 + max(a[2] + jump, b[2])

    @staticmethod
    def binding(value, body, slide):
        return value[0] + body[0], max(value[1], 1 + body[1]), value[2] + body[2] + slide

    def cases(self, e, bound_of, ends):
        """A `case`, whose alternatives have their bounds by a method; `ends` counts what an alternative ends by."""
        of = self.expression(e[1])
        arms = [(variables(p), bound_of(body)) for p, body in e[2]]
        work = of[2] + sum(tests(p) for p, _ in e[2]) + max([1] + [v + b[2] + ends for v, b in arms])
        return of[0] + max(b[0] for _, b in arms), max([of[1]] + [1 + v + b[1] for v, b in arms]), work

    def result(self, e, count):
        """The bound of a result for so many outputs."""
        kind = e[0]
        if kind == 'paren':
            return self.result(e[1], count)
        if kind == 'if':
            return self.choice(self.expression(e[1]), self.result(e[2], count), self.result(e[3], count), 0)
        if kind == 'let':
            return self.binding(self.expression(e[2]), self.result(e[3], count), 0)
        if kind == 'case':
            return self.cases(e, lambda body: self.result(body, count), 0)
        if kind == 'raise':
            return self.raised(e)
        outs = [self.expression(it) for it in ([e] if count == 1 else e[1]) if bare(it)[0] != 'star']
        return sum(b[0] for b in outs), max([0] + [i + b[1] for i, b in enumerate(outs)]), sum(b[2] for b in outs) + 1

    def words_to_build(self, t):
        if t[0] == 'tuple':
            return 1 + len(t[1]) + sum(map(self.words_to_build, t[1]))
        if t[0] == 'vector':
            return 1 + t[1] + t[1] * self.words_to_build(t[2])
        if t[0] == 'named':
            return max(1 + len(fields) + sum(map(self.words_to_build, fields)) for _, fields in self.names.sums[t[1]].cons)
        return 0

    def handlers(self, box, body):
        """The bounds of the handlers of what a rule's result may raise."""
        raised = self.raising.exp(body)
        for name, pattern, handler in box.handlers:
            if name in raised:
                heap, stack, work = self.result(handler, len(box.outs))
                bound = int(pattern is not None and pattern[0] == 'var')
                yield heap, 1 + bound + stack, bound + work

    def rule(self, box, positions, body):
        built = [(p, t) for p, (_, t) in zip(positions, box.ins) if is_built(p)]
        heap, stack, work = self.result(body, len(box.outs))
        count = sum(variables(p) for p, _ in built)
        handled = list(self.handlers(box, body))
        heap += sum(self.words_to_build(t) for _, t in built) + max([0] + [it[0] for it in handled])
        return heap, max([len(built) + count + stack] + [it[1] for it in handled]), count + work + max([0] + [it[2] for it in handled])

    def box(self, box):
        rules = [self.rule(box, positions, body) for positions, body in box.rules]
        return tuple(max(it[i] for it in rules) for i in range(3))


def bounds_of(text):
    """The declarations of a source, and each box with its place among them and its bounds."""
    decls = Parser(lex(text), text).program()
    bounds = Bounds(decls)
    return decls, [(d.name, i, bounds.box(d)) for i, d in enumerate(decls) if isinstance(d, Box)]


def refused(text):
    """The least broken rule on bounds, with its line, or nothing."""
    decls, bounds = bounds_of(text)
    total, found = 0, []
    for _, i, (heap, stack, work) in bounds:
        broken = ((75, heap > 65536), (76, stack > 16384), (79, work > 1000000), (78, total <= 4194304 < total + heap + stack))
        found += [(i, code) for code, is_broken in broken if is_broken]
        total += heap + stack
    return (min(found)[1], line_of(text, decls[min(found)[0]].place)) if found else None


def table(text):
    _, bounds = bounds_of(text)
    lines = [f'box {name} heap {b[0]} stack {b[1]} work {b[2]}\n' for name, _, b in bounds]
    return ''.join(lines) + f'total heap {sum(b[0] for _, _, b in bounds)} stack {sum(b[1] for _, _, b in bounds)}\n'
