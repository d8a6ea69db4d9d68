"""Random programs, right or nearly right: typed ones, of which few break a rule."""
import random
import re

WIDTHS = [1, 2, 3, 7, 8, 8, 16, 31, 32, 32, 33, 63, 64]


class Maker:
    def __init__(self, seed):
        self.r = random.Random(seed)
        self.data, self.exns, self.funs, self.fresh = [], [('DivZero', None), ('Range', None), ('NoCase', None)], [], 0

    def chance(self, p):
        return self.r.random() < p

    def name(self, front):
        self.fresh += 1
        return self.r.choice('abcfgnxyz') if front == 'v' and self.chance(0.5) else f'{front}{self.fresh}'

    def number_type(self):
        return (self.r.choice(['int', 'nat']), self.r.choice(WIDTHS))

    def type(self, depth=2):
        kinds = ['number'] * 5 + ['bool'] * 2 + ['char'] + (['tuple', 'vector'] if depth else []) + (['named'] * 3 if self.data else [])
        kind = self.r.choice(kinds)
        if kind == 'number':
            return self.number_type()
        if kind in ('bool', 'char'):
            return (kind,)
        if kind == 'tuple':
            return ('tuple', [self.type(depth - 1) for _ in range(self.r.choice([2, 2, 3]))])
        if kind == 'vector':
            return ('vector', self.r.choice([1, 2, 2, 3, 4]), self.type(depth - 1))
        return ('named', self.r.choice(self.data)[0])

    def show(self, t):
        if t[0] in ('int', 'nat'):
            return f'{t[0]} {t[1]}'
        if t[0] == 'vector':
            return f'vector {t[1]} of {self.show(t[2])}'
        if t[0] == 'tuple':
            return '(' + ', '.join(map(self.show, t[1])) + ')'
        return t[1] if t[0] == 'named' else t[0]

    def cons(self, name):
        return next(cons for other, cons in self.data if other == name)

    def number(self, t):
        low, high = (-2**(t[1] - 1), 2**(t[1] - 1) - 1) if t[0] == 'int' else (0, 2**t[1] - 1)
        choice = [low, high, 0, 1, self.r.randint(low, high), self.r.randint(max(low, -9), min(high, 9))]
        if self.chance(0.005):
            choice = [low - 1, high + 1]
        n = self.r.choice(choice)
        n = n if low <= n <= high or abs(n) < 2**64 else low
        return str(n) if n != 1 or low <= 1 <= high else '0'

    def atom(self, text):
        if re.fullmatch(r"[A-Za-z_][A-Za-z0-9_]*|[0-9]+|'.'|'\\.'|<<[^<>]*>>", text) or self.is_wrapped(text):
            return text
        return f'({text})'

    @staticmethod
    def is_wrapped(text):
        if not text.startswith('('):
            return False
        level = 0
        for i, c in enumerate(text):
            level += (c == '(') - (c == ')')
            if level == 0:
                return i == len(text) - 1
        return False

    def letter(self):
        return self.r.choice(["'a'", "'z'", "' '", "'\\n'", "'\\''", "'0'"])

    def pat(self, t, scope, depth=2, own=None):
        """A pattern for values of a type; its variables go into the scope."""
        own = own if own is not None else set()
        if depth == 0 or self.chance(0.5):
            if self.chance(0.35):
                return '_'
            name = self.name('v')
            while name in own and self.chance(0.97):
                name = self.name('v')
            own.add(name)
            scope.append((name, t))
            return name
        if t[0] in ('int', 'nat'):
            return self.number(t)
        if t[0] == 'bool':
            return self.r.choice(['true', 'false'])
        if t[0] == 'char':
            return self.letter()
        if t[0] == 'tuple':
            return '(' + ', '.join(self.pat(x, scope, depth - 1, own) for x in t[1]) + ')'
        if t[0] == 'named':
            con, fields = self.r.choice(self.cons(t[1]))
            return ' '.join([con] + [self.patom(x, scope, depth - 1, own) for x in fields])
        return f'({self.pat(t, scope, 0, own)})'

    def patom(self, t, scope, depth, own):
        text = self.pat(t, scope, depth, own)
        return f'({text})' if ' ' in text and not self.is_wrapped(text) and not text.startswith("'") else text

    def literal(self, t, scope, depth):
        if t[0] in ('int', 'nat'):
            return self.number(t)
        if t[0] == 'bool':
            return self.r.choice(['true', 'false'])
        if t[0] == 'char':
            return self.letter()
        if t[0] == 'tuple':
            return '(' + ', '.join(self.exp(x, scope, depth - 1) for x in t[1]) + ')'
        if t[0] == 'vector':
            return '<<' + ', '.join(self.exp(t[2], scope, depth - 1) for _ in range(t[1])) + '>>'
        con, fields = self.r.choice(self.cons(t[1]))
        return ' '.join([con] + [self.atom(self.exp(x, scope, depth - 1)) for x in fields])

    def alone(self, t, scope, depth):
        """An expression that has the type by itself."""
        if t[0] == 'vector' and t[2][0] in ('int', 'nat') and self.chance(0.9):
            return '<<' + ', '.join([self.alone(t[2], scope, depth - 1)] + [self.exp(t[2], scope, depth - 1) for _ in range(t[1] - 1)]) + '>>'
        text = self.exp(t, scope, depth)
        if re.fullmatch('-?[0-9]+', text) and not -2**31 <= int(text) < 2**31:
            text = str(self.r.randint(0, 9))
        return f'({text} as {self.show(t)})' if t[0] in ('int', 'nat') and self.chance(0.96) else text

    def place(self, n, scope, depth):
        return str(self.r.randint(1, n)) if self.chance(0.7) else self.r.choice(['0', str(n + 1), '(' + self.alone(self.number_type(), scope, depth) + ')'])

    def exp(self, t, scope, depth):
        r = self.r
        fitting = [name for name, other in dict(scope).items() if other == t]
        if fitting and self.chance(0.45):
            return r.choice(fitting)
        if depth <= 0:
            return self.literal(t, scope, 0) if t[0] != 'named' or self.chance(0.9) else 'raise NoCase'
        choices = ['literal'] * 3 + ['if', 'case', 'let', 'paren', 'index'] + ['call'] * 3 + ['operation'] * (5 if t[0] in ('int', 'nat', 'bool') else 0)
        choices += ['update'] * (3 if t[0] == 'vector' else 0) + (['raise'] if self.chance(0.3) else [])
        kind = r.choice(choices)
        if kind == 'call':
            able = [f for f in self.funs if f[2] == t]
            if able:
                name, params, _ = r.choice(able)
                return ' '.join([name] + [self.atom(self.exp(x, scope, depth - 1)) for x in params])
        if kind == 'paren':
            return f'({self.exp(t, scope, depth - 1)})'
        if kind == 'if':
            return f'(if {self.exp(("bool",), scope, depth - 1)} then {self.exp(t, scope, depth - 1)} else {self.exp(t, scope, depth - 1)})'
        if kind == 'let':
            of = self.type(1)
            name = self.name('v')
            return f'(let {name} = {self.alone(of, scope, depth - 1)} in {self.exp(t, scope + [(name, of)], depth - 1)})'
        if kind == 'case':
            of = self.type(1)
            return f'(case {self.alone(of, scope, depth - 1)} of {self.arms(of, scope, lambda s: self.exp(t, s, depth - 1))} end)'
        if kind == 'index':
            n = r.randint(1, 3)
            return f'{self.atom(self.alone(("vector", n, t), scope, depth - 1))} @ {self.place(n, scope, 0)}'
        if kind == 'update':
            return f'update {self.atom(self.exp(t, scope, depth - 1))} {self.place(t[1], scope, 0)} {self.atom(self.exp(t[2], scope, depth - 1))}'
        if kind == 'raise':
            return self.raising(scope, depth)
        if kind == 'operation':
            return self.operation(t, scope, depth)
        return self.literal(t, scope, depth)

    def arms(self, of, scope, body):
        """The alternatives of a case, often complete."""
        heads = []
        if of[0] == 'named' and self.chance(0.6):
            for con, fields in self.cons(of[1]):
                inner = []
                own = set()
                heads.append((' '.join([con] + [self.patom(x, inner, 0, own) for x in fields]), inner))
            self.r.shuffle(heads)
        elif of[0] == 'bool' and self.chance(0.5):
            heads = [('true', []), ('false', [])]
        else:
            for i in range(self.r.choice([1, 2, 2, 3])):
                inner = []
                heads.append((self.pat(of, inner, 2), inner))
            if self.chance(0.7):
                heads.append(('_', []))
        return ' | '.join(f'{head} -> {body(scope + inner)}' for head, inner in heads)

    def raising(self, scope, depth):
        name, carried = self.r.choice(self.exns)
        return f'(raise {name})' if carried is None else f'(raise {name} {self.atom(self.exp(carried, scope, depth - 1))})'

    def operation(self, t, scope, depth):
        r = self.r
        if t[0] == 'bool':
            if self.chance(0.4):
                a, b = self.exp(t, scope, depth - 1), self.exp(t, scope, depth - 1)
                return r.choice([f'({a} and {b})', f'({a} or {b})', f'(not {self.atom(a)})'])
            of = r.choice([self.number_type(), self.number_type(), ('char',), ('bool',)])
            sign = r.choice(['==', '/='] if of == ('bool',) else ['==', '/=', '<', '<=', '>', '>='])
            return f'({self.alone(of, scope, depth - 1)} {sign} {self.exp(of, scope, depth - 1)})'
        a = self.exp(t, scope, depth - 1)
        kind = r.choice(['+', '-', '*', 'div', 'mod', 'neg', 'as'])
        if kind == 'neg':
            return f'(- ({a}))' if a.isdigit() else f'(- {self.atom(a)})'
        if kind == 'as':
            return f'({self.alone(self.number_type(), scope, depth - 1)} as {self.show(t)})'
        b = self.number(t) if kind in ('div', 'mod') and self.chance(0.7) else self.exp(t, scope, depth - 1)
        return f'({a} {kind} {b})' if self.chance(0.8) else f'{self.atom(a)} {kind} {b}'

    def constant(self, t):
        if t[0] == 'tuple':
            return '(' + ', '.join(map(self.constant, t[1])) + ')'
        if t[0] == 'vector':
            return '<<' + ', '.join(self.constant(t[2]) for _ in range(t[1])) + '>>'
        if t[0] == 'named':
            con, fields = self.r.choice(self.cons(t[1]))
            return ' '.join([con] + [self.atom(self.constant(x)) for x in fields])
        return self.literal(t, [], 0)

    def result(self, outs, scope, depth, handling):
        if depth and self.chance(0.2):
            return f'if {self.exp(("bool",), scope, 1)} then {self.result(outs, scope, depth - 1, handling)} else {self.result(outs, scope, depth - 1, handling)}'
        if depth and self.chance(0.15):
            name, of = self.name('v'), self.type(1)
            return f'let {name} = {self.alone(of, scope, 1)} in {self.result(outs, scope + [(name, of)], depth - 1, handling)}'
        if depth and self.chance(0.15):
            of = self.type(1)
            return f'case {self.alone(of, scope, 1)} of {self.arms(of, scope, lambda s: self.result(outs, s, depth - 1, handling))} end'
        if self.chance(0.05):
            return self.raising(scope, 1)
        parts = [self.r.choice(['*', '(*)']) if self.chance(0.15) else self.constant(t) if handling and self.chance(0.8) else self.exp(t, scope, 2) for t in outs]
        return parts[0] if len(parts) == 1 else '(' + ', '.join(parts) + ')'

    def function(self):
        params = [self.type(1) for _ in range(self.r.choice([1, 1, 2, 3]))]
        gives = self.type(1)
        name = self.name('f')
        lines = [f'{name} :: ' + ' -> '.join(map(self.show, params + [gives])) + ' ;']
        if len(params) == 1 and params[0][0] == 'named' and self.chance(0.5):
            for con, fields in self.cons(params[0][1]):
                scope, own = [], set()
                head = ' '.join([con] + [self.patom(x, scope, 0, own) for x in fields])
                lines.append(f'{name} {self.atom(head)} = {self.exp(gives, scope, 2)} ;')
        else:
            for i in range(self.r.choice([0, 0, 1, 2])):
                scope, own = [], set()
                lines.append(f'{name} ' + ' '.join(self.patom(t, scope, 2, own) for t in params) + f' = {self.exp(gives, scope, 2)} ;')
            scope, own = [], set()
            depth = 0 if self.chance(0.8) else 2
            lines.append(f'{name} ' + ' '.join(self.patom(t, scope, depth, own) for t in params) + f' = {self.exp(gives, scope, 3)} ;')
        self.funs.append((name, params, gives))
        return '\n'.join(lines)

    def box(self, name):
        ins = [(self.name('i'), self.type(2)) for _ in range(self.r.choice([1, 1, 2, 3]))]
        outs = [(self.name('o'), self.type(2)) for _ in range(self.r.choice([1, 1, 2, 3]))]
        rules = []
        for i in range(self.r.choice([1, 1, 2, 3])):
            scope, own, positions = [], set(), []
            for _, t in ins:
                positions.append(self.r.choice(['*', '_*', '_', '(_)']) if self.chance(0.25) else self.pat(t, scope, 2, own))
            rules.append('(' + ', '.join(positions) + ') -> ' + self.result([t for _, t in outs], scope, 2, False))
        handlers = []
        handled = [e for e in self.exns if self.chance(0.8)]
        for exn, carried in handled:
            bound, scope = '', []
            if carried is not None:
                bound = self.r.choice(['_', 'm'])
                scope = [(bound, carried)] if bound == 'm' else []
                bound = ' ' + bound
            handlers.append(f'{exn}{bound} -> ' + self.result([t for _, t in outs], scope, 0, True))
        text = f'box {name} in (' + ', '.join(f'{x} :: {self.show(t)}' for x, t in ins) + ') out ('
        text += ', '.join(f'{x} :: {self.show(t)}' for x, t in outs) + ')\n' + self.r.choice(['match', 'fair']) + ' ' + '\n    | '.join(rules)
        text += ('\nhandle ' + ' | '.join(handlers) if handlers else '') + ' ;'
        return text, [(f'{name}.{x}', t) for x, t in ins], [(f'{name}.{x}', t) for x, t in outs]

    def data_type(self):
        name = self.name('D')
        cons = [(self.name('C'), [self.type(1) for _ in range(self.r.choice([0, 0, 1, 2]))]) for _ in range(self.r.choice([1, 2, 2, 3]))]
        self.data.append((name, cons))
        return f'data {name} = ' + ' | '.join(' '.join([c] + list(map(self.show, fields))) for c, fields in cons) + ' ;'

    def exception(self):
        name, carried = self.name('E'), self.type(1) if self.chance(0.6) else None
        self.exns.append((name, carried))
        return f'exception {name}' + ('' if carried is None else ' ' + self.show(carried)) + ' ;'

    def wire(self, start, place, t, first_value):
        """A wire to an input, at times with a depth, and with a first value by that chance."""
        depth = f' @ {self.r.randint(1, 16)}' if self.chance(0.25) else ''
        return f'wire {start} to {place}{depth}' + (f' initial {self.constant(t)}' if self.chance(first_value) else '') + ' ;'

    def boxes(self, count):
        """So many boxes, and all their inputs and outputs with their types."""
        made = [self.box(f'b{i}') for i in range(count)]
        return [it[0] for it in made], [x for it in made for x in it[1]], [x for it in made for x in it[2]]

    def wired(self, inputs, outputs, port_of):
        """Streams and wires: each input gets an output of its type, or else a stream; each output that is left has a stream."""
        streams, wires = [], []
        for i, (place, t) in enumerate(inputs):
            start = next((x for x in outputs if x[1] == t and self.chance(0.6)), None)
            if start:
                outputs.remove(start)
            else:
                streams.append(f'stream s{i} from "{port_of("i", i)}" ;')
            wires.append(self.wire(start[0] if start else f's{i}', place, t, 0.7 if start else 0.15))
        for i, (place, _) in enumerate(outputs):
            streams.append(f'stream t{i} to "{port_of("o", i)}" ;')
            wires.append(f'wire {place} to t{i} ;')
        return streams + wires

    def declarations(self, functions):
        """Data types, exceptions and functions."""
        found = [self.data_type() for _ in range(self.r.choice([0, 1, 1, 2]))]
        found += [self.exception() for _ in range(self.r.choice([0, 0, 1, 2]))]
        return found + [self.function() for _ in range(self.r.choice(functions))]

    def program(self):
        declared = self.declarations([0, 1, 2, 3])
        boxes, inputs, outputs = self.boxes(self.r.choice([0, 1, 1, 2]))
        return self.text(declared + boxes + self.wired(inputs, outputs, lambda front, i: f'{front}{i}'))

    def text(self, declared):
        if self.chance(0.3):
            self.r.shuffle(declared)
        return '\n'.join(declared) + '\n'


class NetMaker(Maker):
    """Nets of several boxes whose inputs and outputs have few types, so that many boxes feed one another."""

    def program(self):
        declared = self.declarations([0, 1, 2])
        pool, kind = [self.type(1) for _ in range(self.r.choice([1, 2, 3]))], self.type
        self.type = lambda depth=2: self.r.choice(pool) if depth == 2 else kind(depth)
        boxes, inputs, outputs = self.boxes(self.r.choice([1, 2, 3, 4, 5]))
        self.r.shuffle(outputs)
        return self.text(declared + boxes + self.wired(inputs, outputs, self.ports()))

    def ports(self):
        """Names of ports, of which the standard input and output are each at most one."""
        free = {'i': 'std_in', 'o': 'std_out'}
        return lambda front, i: free.pop(front) if front in free and self.chance(0.1) else f'{front}{i}'
