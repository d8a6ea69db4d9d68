"""Works out what the rules of boxes give, by docs/SEMANTICS.md, and which branches, equations and handlers are taken on the way."""
import sys
from collections import namedtuple

from declarations import read_program
from terms import Term, matches, printed, read_text
from typed import note_types

ESCAPES = {"'\\n'": 10, "'\\t'": 9, "'\\\\'": 92, "'\\''": 39}
ORDERS = {
    "==": lambda a, b: a == b, "/=": lambda a, b: a != b, "<": lambda a, b: a < b,
    "<=": lambda a, b: a <= b, ">": lambda a, b: a > b, ">=": lambda a, b: a >= b,
}  # fmt: skip
MOST_WORK = 50_000_000
MOST_KEPT = 100_000
# Each form that is nested in another takes a few calls of Python.
MOST_NESTED = 8_000

# What a firing gives: a text or none for each output; the handler's exception or none; and the places of all that was taken.
Outcome = namedtuple("Outcome", "outputs handler taken")


class Raised(Exception):
    """An exception of the language, with what it carries, or none."""

    def __init__(self, name, carried=None):
        super().__init__(name)
        self.name, self.carried = name, carried


class TooMuch(Exception):
    """To work this out takes too long here, or it is nested too deeply."""


def truth(holds):
    return Term("truth", "true" if holds else "false", ())


def number(value, kind):
    """The number, wrapped to the type."""
    value %= 1 << kind.name
    return Term("number", value - (1 << kind.name) if kind.kind == "int" and value >> kind.name - 1 else value, ())


def ordinal(term):
    """What comparisons compare: a number, the byte of a letter, or a truth value."""
    if term.kind == "letter":
        return ESCAPES[term.name] if term.name in ESCAPES else ord(term.name[1])
    return term.name


def divided(name, a, b):
    """The quotient, rounded towards 0, or the remainder with the sign of `a`."""
    if b == 0:
        raise Raised("DivZero")
    quotient = abs(a) // abs(b) * (1 if (a < 0) == (b < 0) else -1)
    return quotient if name == "div" else a - b * quotient


def bind(pattern, value, scope):
    """Puts the values of the pattern's variables into the scope; there may be none where the pattern takes what isn't there."""
    if pattern.kind == "any":
        scope[pattern.name] = value
    elif pattern.parts and value:
        for part, its in zip(pattern.parts, value.parts):
            bind(part, its, scope)


def place_in(vector, place):
    """The place in the vector, counted from 0."""
    if not 1 <= place.name <= len(vector.parts):
        raise Raised("Range")
    return place.name - 1


class Evaluator:
    """Evaluates the expressions of a program. `taken` has the places of the branches, equations and handlers that were taken."""

    def __init__(self, source):
        self.program = read_program(source)
        note_types(self.program)
        sys.setrecursionlimit(max(MOST_NESTED, sys.getrecursionlimit()))
        self.taken, self.work, self.known, self.ways = set(), 0, {}, {}

    def fire(self, box, rule, texts):
        """The outcome of a rule of a box for the texts of the oldest values at its inputs, none where there is none."""
        key = (box, rule, texts)
        if key not in self.known:
            if len(self.known) >= MOST_KEPT:
                self.known.clear()
            try:
                self.known[key] = self.fired(self.program.bodies[box], rule, texts)
            except RecursionError:
                raise TooMuch from None
        return self.known[key]

    def fired(self, body, rule, texts):
        self.taken, scope, handler = set(), {}, None
        chosen = body.rules[rule]
        bind(chosen.pattern, Term("tuple", "", tuple(it and read_text(it) for it in texts)), scope)
        try:
            outputs = self.result(chosen.body, scope, len(body.outputs))
        except Raised as raised:
            handler = body.handlers[raised.name]
            self.taken.add(handler.place)
            outputs = self.result(handler.body, {handler.carried.name: raised.carried} if handler.carried else {}, len(body.outputs))
        taken = frozenset(self.taken)
        return Outcome([it and printed(it) for it in outputs], handler and handler.exception, self.ways.setdefault(taken, taken))

    def result(self, it, scope, count):
        """What a result gives so many outputs, none where `*` stands."""
        if it.kind in ("if", "case"):
            body, inner = self.branch(it, scope)
            return self.result(body, inner, count)
        if it.kind == "let":
            return self.result(it.parts[1], scope | {it.name: self.of(it.parts[0], scope)}, count)
        parts = it.parts if count > 1 and it.kind == "tuple" else [it]
        return [None if part.kind == "nothing" else self.of(part, scope) for part in parts]

    def branch(self, it, scope):
        """The body of the branch or alternative that is taken, and what is in scope there."""
        value = self.of(it.parts[0], scope)
        for branch in it.branches:
            if matches(branch.pattern, value):
                return self.chosen(branch, value, scope)
        raise Raised("NoCase")

    def chosen(self, branch, value, scope):
        self.taken.add(branch.place)
        inner = dict(scope)
        bind(branch.pattern, value, inner)
        return branch.body, inner

    def of(self, it, scope):
        """The value of an expression; it may raise."""
        self.work += 1
        if self.work > MOST_WORK:
            raise TooMuch
        return getattr(self, f"of_{it.kind}")(it, scope)

    def parts(self, it, scope):
        return tuple([self.of(part, scope) for part in it.parts])

    def of_variable(self, it, scope):
        return scope[it.name]

    def of_value(self, it, scope):
        return it.name

    def of_number(self, it, scope):
        return Term("number", it.name, ())

    def of_let(self, it, scope):
        return self.of(it.parts[1], scope | {it.name: self.of(it.parts[0], scope)})

    def of_case(self, it, scope):
        body, inner = self.branch(it, scope)
        return self.of(body, inner)

    of_if = of_case

    def of_raise(self, it, scope):
        raise Raised(it.name, *self.parts(it, scope))

    def of_call(self, it, scope):
        values = Term("tuple", "", self.parts(it, scope))
        for equation in self.program.functions[it.name].equations:
            if matches(equation.pattern, values):
                body, inner = self.chosen(equation, values, {})
                return self.of(body, inner)
        raise Raised("NoCase")

    def of_constructor(self, it, scope):
        return Term("constructor", it.name, self.parts(it, scope))

    def of_tuple(self, it, scope):
        return Term("tuple", "", self.parts(it, scope))

    def of_vector(self, it, scope):
        return Term("vector", "", self.parts(it, scope))

    def of_operation(self, it, scope):
        first = self.of(it.parts[0], scope)
        if it.name in ("and", "or") and (first.name == "true") == (it.name == "or"):
            return first
        second = self.of(it.parts[1], scope)
        if it.name in ("and", "or"):
            return second
        if it.name == "@":
            return first.parts[place_in(first, second)]
        if it.name in ORDERS:
            return truth(ORDERS[it.name](ordinal(first), ordinal(second)))
        return number(self.computed(it.name, first.name, second.name), it.type)

    def computed(self, name, a, b):
        if name in ("div", "mod"):
            return divided(name, a, b)
        return a + b if name == "+" else a - b if name == "-" else a * b

    def of_negation(self, it, scope):
        return number(-self.of(it.parts[0], scope).name, it.type)

    def of_not(self, it, scope):
        return truth(self.of(it.parts[0], scope).name == "false")

    def of_update(self, it, scope):
        vector, place, item = self.parts(it, scope)
        at = place_in(vector, place)
        return vector._replace(parts=(*vector.parts[:at], item, *vector.parts[at + 1 :]))

    def of_as(self, it, scope):
        return number(self.of(it.parts[0], scope).name, it.type)
