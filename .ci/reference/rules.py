"""The rules on names, counts, types, limits, wires and exceptions, written from the text of the language alone: `check` gives the least
broken rule of a source, with its line, or nothing. Nesting (77) is measured on the tree, and told with the line of its declaration."""
from trees import Box, Exn, Fun, Parser, Refused, Stream, Sum, Wire, all_exps, all_pats, all_types, below, depth, exp_parts, exps_of, lex, line_of, pat_parts, pats_of, type_parts, variables, written_types


class Names:
    def __init__(self, decls):
        self.sums = {d.name: d for d in reversed(decls) if isinstance(d, Sum)}
        self.cons = {c: (d.name, i, types) for d in reversed(decls) if isinstance(d, Sum) for i, (c, types) in reversed(list(enumerate(d.cons)))}
        self.exns = {d.name: d.carried for d in reversed(decls) if isinstance(d, Exn)}
        for given in ('DivZero', 'Range', 'NoCase'):
            self.exns[given] = None
        self.funs = {d.name: d for d in reversed(decls) if isinstance(d, Fun)}
        self.boxes = {d.name: d for d in reversed(decls) if isinstance(d, Box)}
        self.streams = {d.name: d for d in reversed(decls) if isinstance(d, Stream)}


# Phase 4: names

def repeated(decls):
    types, capitals, funs, nodes = set(), {'DivZero', 'Range', 'NoCase'}, set(), set()

    def again(seen, names):
        found = False
        for name in names:
            found = found or name in seen
            seen.add(name)
        return found
    for i, d in enumerate(decls):
        broken = False
        if isinstance(d, Sum):
            broken = again(types, [d.name])
            broken = again(capitals, [c for c, _ in d.cons]) or broken
        elif isinstance(d, Exn):
            broken = again(capitals, [d.name])
        elif isinstance(d, Fun):
            broken = again(funs, [d.name])
        elif isinstance(d, Box):
            broken = again(nodes, [d.name])
            broken = again(set(), [x for x, _ in d.ins + d.outs]) or broken
            broken = again(set(), [x for x, _, _ in d.handlers]) or broken
        elif isinstance(d, Stream):
            broken = again(nodes, [d.name])
        if broken:
            yield i, 30


def unknown_in(e, scope, names):
    """Whether an expression has an unknown name, by the variables in scope."""
    kind = e[0]
    if kind == 'let':
        return unknown_in(e[2], scope, names) or unknown_in(e[3], scope | {e[1]}, names)
    if kind == 'case':
        return unknown_in(e[1], scope, names) or any(unknown_in(body, scope | set(variables([p])), names) for p, body in e[2])
    if kind == 'app':
        known = e[1] in names.funs if e[2] else e[1] in scope
        if not known:
            return True
    if kind == 'con' and e[1] not in names.cons:
        return True
    if kind == 'raise' and e[1] not in names.exns:
        return True
    return any(unknown_in(part, scope, names) for part in exp_parts(e))


def unknown(decls, names):
    boxes = [d for d in decls if isinstance(d, Box)]
    streams = [d for d in decls if isinstance(d, Stream)]

    def is_end(end, outgoing):
        if end[1] is None:
            return any(s.name == end[0] and s.incoming == outgoing for s in streams)
        return any(b.name == end[0] and any(x == end[1] for x, _ in (b.outs if outgoing else b.ins)) for b in boxes)
    for i, d in enumerate(decls):
        broken = any(t[0] == 'named' and t[1] not in names.sums for t in all_types(d))
        broken = broken or any(p[0] == 'con' and p[1] not in names.cons for p in all_pats(d))
        if isinstance(d, Fun):
            broken = broken or any(name != d.name or unknown_in(body, set(variables(pats)), names) for name, pats, body in d.equations)
        if isinstance(d, Box):
            broken = broken or any(unknown_in(body, set(variables(pats)), names) for pats, body in d.rules)
            broken = broken or any(name not in names.exns or unknown_in(body, set(variables([bound] if bound else [])), names)
                                   for name, bound, body in d.handlers)
        if isinstance(d, Wire):
            broken = broken or not is_end(d.first, True) or not is_end(d.second, False)
            broken = broken or (d.initial is not None and unknown_in(d.initial, set(), names))
        if broken:
            yield i, 31


def in_cycles(edges):
    """The numbers that lead back to themselves."""
    for start in edges:
        seen, todo = set(), list(edges[start])
        while todo:
            node = todo.pop()
            if node not in seen:
                seen.add(node)
                todo.extend(edges.get(node, ()))
        if start in seen:
            yield start


def cycles(decls):
    calls, holds = {}, {}
    for i, d in enumerate(decls):
        if isinstance(d, Fun):
            called = {e[1] for e in all_exps(d) if e[0] == 'app' and e[2]}
            calls[i] = [j for j, other in enumerate(decls) if isinstance(other, Fun) and other.name in called]
        if isinstance(d, Sum):
            held = {t[1] for t in all_types(d) if t[0] == 'named'}
            holds[i] = [j for j, other in enumerate(decls) if isinstance(other, Sum) and other.name in held]
    for i in in_cycles(calls):
        yield i, 32
    for i in in_cycles(holds):
        yield i, 33


# Phase 5: counts

def leaves(e):
    """The leaves of a result."""
    kind = e[0]
    if kind == 'paren':
        return leaves(e[1])
    if kind == 'let':
        return leaves(e[3])
    if kind == 'if':
        return leaves(e[2]) + leaves(e[3])
    if kind == 'case':
        return [leaf for _, body in e[2] for leaf in leaves(body)]
    return [e]


def bare(tree):
    while tree[0] == 'paren':
        tree = tree[1]
    return tree


def results_of(decl):
    return [body for _, body in decl.rules] + [body for _, _, body in decl.handlers] if isinstance(decl, Box) else []


def type_miscounts(t):
    if t[0] in ('int', 'nat'):
        return not 1 <= t[1] <= 64
    return t[0] == 'vector' and not 1 <= t[1] <= 1024 or t[0] == 'tuple' and len(t[1]) > 16


def pattern_miscounts(p, names):
    return p[0] == 'con' and len(p[2]) != len(names.cons[p[1]][2]) or p[0] == 'tuple' and len(p[1]) > 16


def expression_miscounts(e, names):
    kind = e[0]
    if kind == 'app':
        return bool(e[2]) and len(e[2]) != len(names.funs[e[1]].types) - 1
    if kind == 'con':
        return len(e[2]) != len(names.cons[e[1]][2])
    if kind == 'raise':
        return (e[2] is None) != (names.exns[e[1]] is None)
    return kind == 'tuple' and len(e[1]) > 16 or kind == 'vector' and len(e[1]) > 1024


def is_result_for(leaf, count):
    """Whether a leaf of a result gives so many outputs, two or more."""
    return leaf[0] == 'raise' or leaf[0] == 'tuple' and len(leaf[1]) == count


def box_miscounts(d, names):
    if any(len(positions) != len(d.ins) for positions, _ in d.rules):
        return True
    if any((bound is None) != (names.exns[name] is None) for name, bound, _ in d.handlers):
        return True
    return len(d.outs) > 1 and not all(is_result_for(leaf, len(d.outs)) for result in results_of(d) for leaf in leaves(result))


def miscounts(d, names):
    if any(map(type_miscounts, all_types(d))) or any(pattern_miscounts(p, names) for p in all_pats(d)):
        return True
    if any(expression_miscounts(e, names) for e in all_exps(d)):
        return True
    if isinstance(d, Fun):
        return any(len(pats) != len(d.types) - 1 for _, pats, _ in d.equations)
    if isinstance(d, Box):
        return box_miscounts(d, names)
    return isinstance(d, Wire) and d.depth is not None and not 1 <= d.depth <= 16


def binds_twice(d):
    groups = [[p] for e in all_exps(d) if e[0] == 'case' for p, _ in e[2]]
    if isinstance(d, Fun):
        groups += [pats for _, pats, _ in d.equations]
    if isinstance(d, Box):
        groups += [pats for pats, _ in d.rules]
    return any(len(bound) != len(set(bound)) for bound in map(variables, groups))


def stray_star(d):
    stars = sum(1 for e in all_exps(d) if e[0] == 'star')
    outputs = 0
    for result in results_of(d):
        for leaf in leaves(result):
            if len(d.outs) == 1:
                outputs += leaf[0] == 'star'
            elif leaf[0] == 'tuple':
                outputs += sum(bare(part)[0] == 'star' for part in leaf[1])
    return stars != outputs


def counts(decls, names):
    for i, d in enumerate(decls):
        if miscounts(d, names):
            yield i, 42
        if binds_twice(d):
            yield i, 43
        if stray_star(d):
            yield i, 44


# Phase 6: types

class Untyped(Exception):
    pass


INT32 = ('int', 32)
ARITHMETIC = ('+', '-', '*', 'div', 'mod')


def is_number(t):
    return t[0] in ('int', 'nat')


def fits(negative, n, t):
    value = -n if negative else n
    low, high = (-2**(t[1] - 1), 2**(t[1] - 1) - 1) if t[0] == 'int' else (0, 2**t[1] - 1)
    return low <= value <= high


def is_open(e):
    kind = e[0]
    if kind in ('num', 'raise'):
        return True
    if kind in ('paren', 'neg'):
        return is_open(e[1])
    if kind == 'binary' and e[1] in ARITHMETIC:
        return is_open(e[2]) and is_open(e[3])
    if kind == 'if':
        return is_open(e[2]) and is_open(e[3])
    if kind == 'case':
        return all(is_open(body) for _, body in e[2])
    if kind == 'let':
        return is_open(e[3])
    return False


def same(t):
    """A type in one form, so that equal types are equal."""
    if t[0] == 'tuple':
        return ('tuple', tuple(same(x) for x in t[1]))
    if t[0] == 'vector':
        return ('vector', t[1], same(t[2]))
    return t


class Typer:
    def __init__(self, names, lengths):
        self.names, self.lengths, self.out_of_range = names, lengths, False

    def need(self, fact):
        if not fact:
            raise Untyped

    def literal(self, negative, n, t):
        self.need(is_number(t))
        if not fits(negative, n, t):
            self.out_of_range = True

    def pattern(self, p, t, scope):
        """Adds the variables of a pattern that is checked against a type."""
        kind = p[0]
        if kind == 'var':
            scope[p[1]] = t
        elif kind == 'num':
            self.literal(p[1], p[2], t)
        elif kind == 'letter':
            self.need(t == ('char',))
        elif kind == 'truth':
            self.need(t == ('bool',))
        elif kind == 'con':
            name, _, fields = self.names.cons[p[1]]
            self.need(t == ('named', name))
            for part, field in zip(p[2], fields):
                self.pattern(part, same(field), scope)
        elif kind == 'paren':
            self.pattern(p[1], t, scope)
        elif kind == 'tuple':
            self.need(t[0] == 'tuple' and len(t[1]) == len(p[1]))
            for part, field in zip(p[1], t[1]):
                self.pattern(part, field, scope)

    def arguments(self, parts, types, scope):
        for part, t in zip(parts, types):
            self.check(part, same(t), scope)

    def arm_scope(self, p, t, scope):
        inner = dict(scope)
        self.pattern(p, t, inner)
        return inner

    def operands(self, a, b, scope, expected):
        """The operand type of two operands: the expected one, or that of the first that isn't open, or int 32."""
        if expected is None and not is_open(a):
            expected = self.has(a, scope)
        elif expected is None and not is_open(b):
            expected = self.has(b, scope)
            self.check(a, expected, scope)
            return expected
        else:
            expected = expected or INT32
            self.check(a, expected, scope)
        self.check(b, expected, scope)
        return expected

    def branches(self, arms, expected):
        """Branches with their scopes: all against the expected type, or that of the first that isn't open."""
        first = next((i for i, (e, _) in enumerate(arms) if not is_open(e)), None) if expected is None else None
        if first is not None:
            expected = self.has(*arms[first])
        for i, (e, scope) in enumerate(arms):
            if i != first:
                self.check(e, expected, scope)
        return expected

    def has(self, e, scope):
        """The type that an expression has by itself."""
        if is_open(e):
            self.check(e, INT32, scope)
            return INT32
        return self.typed(e, None, scope)

    def check(self, e, expected, scope):
        self.need(self.typed(e, expected, scope) == expected)

    def typed(self, e, expected, scope):
        """The type of an expression, where a type is expected or (of one that isn't open) not."""
        method = getattr(self, 'of_' + e[0], None)
        if method is None:
            raise Untyped
        return method(e, expected, scope)

    def of_num(self, e, expected, scope):
        self.literal(e[1], e[2], expected)
        return expected

    def of_letter(self, e, expected, scope):
        return ('char',)

    def of_truth(self, e, expected, scope):
        return ('bool',)

    def of_raise(self, e, expected, scope):
        carried = self.names.exns[e[1]]
        if carried is not None:
            self.check(e[2], same(carried), scope)
        return expected

    def of_paren(self, e, expected, scope):
        return self.typed(e[1], expected, scope)

    def of_neg(self, e, expected, scope):
        t = self.has(e[1], scope) if expected is None else expected
        self.need(is_number(t))
        if expected is not None:
            self.check(e[1], t, scope)
        return t

    def of_not(self, e, expected, scope):
        self.check(e[1], ('bool',), scope)
        return ('bool',)

    def of_binary(self, e, expected, scope):
        return self.binary(e, expected, scope)

    def of_let(self, e, expected, scope):
        return self.typed(e[3], expected, {**scope, e[1]: self.has(e[2], scope)})

    def of_if(self, e, expected, scope):
        self.check(e[1], ('bool',), scope)
        return self.branches([(e[2], scope), (e[3], scope)], expected)

    def of_case(self, e, expected, scope):
        subject = self.has(e[1], scope)
        return self.branches([(body, self.arm_scope(p, subject, scope)) for p, body in e[2]], expected)

    def of_app(self, e, expected, scope):
        if not e[2]:
            return scope[e[1]]
        types = self.names.funs[e[1]].types
        self.arguments(e[2], types[:-1], scope)
        return same(types[-1])

    def of_con(self, e, expected, scope):
        name, _, fields = self.names.cons[e[1]]
        self.arguments(e[2], fields, scope)
        return ('named', name)

    def of_update(self, e, expected, scope):
        if expected is None:
            expected = self.has(e[1], scope)
        else:
            self.check(e[1], expected, scope)
        self.need(expected[0] == 'vector' and is_number(self.has(e[2], scope)))
        self.check(e[3], expected[2], scope)
        self.lengths[id(e)] = expected[1]
        return expected

    def of_cast(self, e, expected, scope):
        self.need(is_number(self.has(e[1], scope)) and is_number(e[2]))
        return e[2]

    def of_tuple(self, e, expected, scope):
        if expected is None:
            return ('tuple', tuple(self.has(part, scope) for part in e[1]))
        self.need(expected[0] == 'tuple' and len(expected[1]) == len(e[1]))
        self.arguments(e[1], expected[1], scope)
        return expected

    def of_vector(self, e, expected, scope):
        if expected is not None:
            self.need(expected[0] == 'vector' and expected[1] == len(e[1]))
            item, first = expected[2], None
        else:
            first = next((i for i, part in enumerate(e[1]) if not is_open(part)), None)
            item = INT32 if first is None else self.has(e[1][first], scope)
        for i, part in enumerate(e[1]):
            if i != first:
                self.check(part, item, scope)
        return ('vector', len(e[1]), item)

    def binary(self, e, expected, scope):
        _, operator, a, b = e
        if operator in ('and', 'or'):
            self.check(a, ('bool',), scope)
            self.check(b, ('bool',), scope)
            return ('bool',)
        if operator == '@':
            vector = self.has(a, scope)
            self.need(vector[0] == 'vector' and is_number(self.has(b, scope)))
            self.lengths[id(e)] = vector[1]
            return vector[2]
        if operator in ARITHMETIC:
            t = self.operands(a, b, scope, expected)
            self.need(is_number(t))
            return t
        t = self.operands(a, b, scope, None)
        self.need(t[0] in (('bool', 'char', 'int', 'nat') if operator in ('==', '/=') else ('char', 'int', 'nat')))
        return ('bool',)

    def result(self, e, outs, scope):
        """A result for outputs of the types."""
        kind = e[0]
        if kind == 'paren':
            self.result(e[1], outs, scope)
        elif kind == 'let':
            self.result(e[3], outs, {**scope, e[1]: self.has(e[2], scope)})
        elif kind == 'if':
            self.check(e[1], ('bool',), scope)
            self.result(e[2], outs, scope)
            self.result(e[3], outs, scope)
        elif kind == 'case':
            subject = self.has(e[1], scope)
            for p, body in e[2]:
                self.result(body, outs, self.arm_scope(p, subject, scope))
        elif kind == 'raise':
            self.typed(e, None, scope)
        else:
            parts = [e] if len(outs) == 1 else e[1]
            for part, t in zip(parts, outs):
                if bare(part)[0] != 'star':
                    self.check(part, t, scope)


def is_built(e):
    return all(x[0] in ('num', 'letter', 'truth', 'con', 'paren', 'tuple', 'vector') for x in below(e, exp_parts))


def is_value(e, t, names):
    kind = e[0]
    if kind == 'num':
        return is_number(t) and fits(e[1], e[2], t)
    if kind == 'letter':
        return t == ('char',)
    if kind == 'truth':
        return t == ('bool',)
    if kind == 'con':
        name, _, fields = names.cons[e[1]]
        return t == ('named', name) and all(is_value(part, same(field), names) for part, field in zip(e[2], fields))
    if kind == 'paren':
        return is_value(e[1], t, names)
    if kind == 'tuple':
        return t[0] == 'tuple' and len(t[1]) == len(e[1]) and all(is_value(part, field, names) for part, field in zip(e[1], t[1]))
    return t[0] == 'vector' and t[1] == len(e[1]) and all(is_value(part, t[2], names) for part in e[1])


def end_type(end, outgoing, names):
    """The type of a wire's end; none of a stream."""
    if end[1] is None:
        return None
    box = names.boxes[end[0]]
    return same(dict(box.outs if outgoing else box.ins)[end[1]])


def wire_type(d, names):
    return end_type(d.first, True, names) or end_type(d.second, False, names)


def types(decls, names, lengths, make=Typer):
    """Notes beside how long the vector of each `@` and `update` is."""
    for i, d in enumerate(decls):
        typer = make(names, lengths)
        try:
            if isinstance(d, Fun):
                for _, pats, body in d.equations:
                    scope = {}
                    for p, t in zip(pats, d.types):
                        typer.pattern(p, same(t), scope)
                    typer.check(body, same(d.types[-1]), scope)
            if isinstance(d, Box):
                outs = [same(t) for _, t in d.outs]
                for positions, body in d.rules:
                    scope = {}
                    for p, (_, t) in zip(positions, d.ins):
                        if p[0] not in ('star', 'anystar'):
                            typer.pattern(p, same(t), scope)
                    typer.result(body, outs, scope)
                for name, bound, body in d.handlers:
                    scope = {}
                    if bound is not None:
                        typer.pattern(bound, same(names.exns[name]), scope)
                    typer.result(body, outs, scope)
        except Untyped:
            yield i, 40
        if typer.out_of_range:
            yield i, 41
        if isinstance(d, Wire) and d.initial is not None:
            t = wire_type(d, names)
            if not is_built(d.initial) or (t is not None and not is_value(d.initial, t, names)):
                yield i, 45


# Phase 7: limits

def words(t, names):
    if t[0] == 'tuple':
        return sum(words(x, names) for x in t[1])
    if t[0] == 'vector':
        return t[1] * words(t[2], names)
    if t[0] == 'named':
        return sum_words(names.sums[t[1]], names)
    return 1


SIZES = {}


def sum_words(d, names):
    if d.name not in SIZES:
        SIZES[d.name] = 1 + max(sum(words(t, names) for t in fields) for _, fields in d.cons)
    return SIZES[d.name]


def limits(decls, names):
    made = {Fun: 0, Exn: 0, 'node': 0, Wire: 0}
    most = {Fun: 256, Exn: 61, 'node': 256, Wire: 1024}
    total = 0
    for i, d in enumerate(decls):
        kind = 'node' if isinstance(d, (Box, Stream)) else type(d)
        broken = False
        if kind in made:
            made[kind] += 1
            broken = made[kind] == most[kind] + 1
        if isinstance(d, Box):
            broken = broken or len(d.ins) > 16 or len(d.outs) > 16 or len(d.rules) > 64
        if isinstance(d, Fun):
            broken = broken or len(d.types) - 1 > 16
        if isinstance(d, Sum):
            broken = broken or any(len(fields) > 16 for _, fields in d.cons)
        if broken:
            yield i, 72
        if any(words(t, names) > 1024 for t in written_types(d)) or (isinstance(d, Sum) and sum_words(d, names) > 1024):
            yield i, 73
        if isinstance(d, Wire):
            t = wire_type(d, names)
            before = total
            total += 0 if t is None else words(t, names) * (1 if d.depth is None else d.depth)
            if before <= 65536 < total:
                yield i, 74


# Phase 8: wires

def wires(decls, names):
    drawn = [d for d in decls if isinstance(d, Wire)]
    led, left = set(), set()
    for i, d in enumerate(decls):
        if isinstance(d, Box):
            inputs, outputs = [(d.name, x) for x, _ in d.ins], [(d.name, x) for x, _ in d.outs]
        elif isinstance(d, Stream):
            inputs, outputs = ([], [(d.name, None)]) if d.incoming else ([(d.name, None)], [])
        else:
            inputs, outputs = [], []
        if any(all(w.second != x for w in drawn) for x in inputs):
            yield i, 50
        if any(all(w.first != x for w in drawn) for x in outputs):
            yield i, 52
        if isinstance(d, Wire):
            if d.second in led:
                yield i, 51
            if d.first in left:
                yield i, 53
            led.add(d.second)
            left.add(d.first)
            first, second = end_type(d.first, True, names), end_type(d.second, False, names)
            if (first is None and second is None) or (first is not None and second is not None and first != second):
                yield i, 54


# Phase 9: exceptions

class Raising:
    def __init__(self, names, lengths):
        self.names, self.lengths, self.known = names, lengths, {}

    def function(self, name):
        if name not in self.known:
            d = self.names.funs[name]
            found = set()
            for _, _, body in d.equations:
                found |= self.exp(body)
            self.known[name] = found | (set() if self.complete_equations(d) else {'NoCase'})
        return self.known[name]

    def irrefutable(self, p):
        p = bare(p)
        return p[0] in ('var', 'any') or (p[0] == 'tuple' and all(self.irrefutable(x) for x in p[1]))

    def complete(self, pats):
        """Whether typed patterns of one type are complete."""
        if self.irrefutable(pats[-1]):
            return True
        pats = [bare(p) for p in pats]
        if all(p[0] == 'truth' for p in pats):
            return sorted(p[1] for p in pats) == [False, True]
        if all(p[0] == 'con' for p in pats):
            cons = [c for c, _ in self.names.sums[self.names.cons[pats[0][1]][0]].cons]
            return sorted(p[1] for p in pats) == sorted(cons) and all(self.irrefutable(x) for p in pats for x in p[2])
        return False

    def complete_equations(self, d):
        if all(self.irrefutable(p) for p in d.equations[-1][1]):
            return True
        return len(d.types) == 2 and self.complete([pats[0] for _, pats, _ in d.equations])

    @staticmethod
    def number(e):
        e = bare(e)
        return None if e[0] != 'num' else -e[2] if e[1] else e[2]

    def exp(self, e):
        found = set()
        for part in exp_parts(e):
            found |= self.exp(part)
        kind = e[0]
        if kind == 'app' and e[2]:
            found |= self.function(e[1])
        if kind == 'raise':
            found |= {e[1]}
        if kind == 'binary' and e[1] in ('div', 'mod') and self.number(e[3]) in (None, 0):
            found |= {'DivZero'}
        if kind == 'case' and not self.complete([p for p, _ in e[2]]):
            found |= {'NoCase'}
        if (kind == 'binary' and e[1] == '@') or kind == 'update':
            at = self.number(e[3] if kind == 'binary' else e[2])
            if at is None or not 1 <= at <= self.lengths[id(e)]:
                found |= {'Range'}
        return found


def exceptions(decls, names, lengths):
    raising = Raising(names, lengths)
    for i, d in enumerate(decls):
        if isinstance(d, Box):
            handled = {name for name, _, _ in d.handlers}
            raised = set()
            for _, body in d.rules:
                raised |= raising.exp(body)
            if raised - handled:
                yield i, 60
            if any(raising.exp(body) for _, _, body in d.handlers):
                yield i, 61


def check(text):
    """None, or the code and the line of the least broken rule."""
    if len(text) > 262144:
        return 70, 1
    SIZES.clear()
    try:
        tokens = lex(text)
        decls = Parser(tokens, text).program()
    except Refused as refused:
        return refused.code, refused.line
    for d in decls:
        tops = [(t, type_parts) for t in written_types(d)] + [(e, exp_parts) for e in exps_of(d)]
        tops += [(p, pat_parts) for p in pats_of(d) + [p for e in all_exps(d) if e[0] == 'case' for p, _ in e[2]]]
        if any(depth(tree, parts) > 64 for tree, parts in tops):
            return 77, line_of(text, d.place)  # the line is only that of the declaration
    names, lengths = Names(decls), {}
    phases = [
        lambda: list(repeated(decls)) + list(unknown(decls, names)) + list(cycles(decls)),
        lambda: list(counts(decls, names)),
        lambda: list(types(decls, names, lengths)),
        lambda: list(limits(decls, names)),
        lambda: list(wires(decls, names)),
        lambda: list(exceptions(decls, names, lengths)),
    ]
    for phase in phases:
        broken = phase()
        if broken:
            i, code = min(broken)
            return code, line_of(text, decls[i].place)
    return None
