"""Finds the type with which each operation computes, by "What an expression has, and what is expected" of docs/LANGUAGE.md."""
from expressions import Type

BOOL, CHAR, INT_32 = Type("bool", None, ()), Type("char", None, ()), Type("int", 32, ())
ARITHMETIC = ("+", "-", "*", "div", "mod")


def is_open(it):
    """Whether the expression takes the type that is expected in its place."""
    if it.kind in ("number", "raise"):
        return True
    if it.kind == "negation" or it.kind == "operation" and it.name in ARITHMETIC:
        return all(map(is_open, it.parts))
    if it.kind in ("if", "case"):
        return all(is_open(branch.body) for branch in it.branches)
    return it.kind == "let" and is_open(it.parts[1])


class Typing:
    """The typing of a program: a call gives an expression's type, and notes the types of the operations in it."""

    def __init__(self, program):
        self.program = program

    def bind(self, pattern, kind, scope):
        """Puts the types of the pattern's variables into the scope."""
        if pattern.kind == "any":
            scope[pattern.name] = kind
        elif pattern.parts:
            for part, its in zip(pattern.parts, self.program.types_of_parts(kind, pattern.name, len(pattern.parts))):
                self.bind(part, its, scope)

    def alike(self, parts, expected, scopes):
        """The one type of all these: the one that is expected, or that of the first one that isn't open."""
        first = None
        if not expected:
            first = next((n for n, it in enumerate(parts) if not is_open(it)), None)
            expected = INT_32 if first is None else self.of(parts[first], None, scopes[first])
        for n, (part, scope) in enumerate(zip(parts, scopes)):
            if n != first:
                self.of(part, expected, scope)
        return expected

    def of(self, it, expected, scope):
        """The type of an expression where this one is expected, or none."""
        return getattr(self, f"of_{it.kind}")(it, expected, scope)

    def of_variable(self, it, expected, scope):
        return scope[it.name]

    def of_value(self, it, expected, scope):
        return CHAR if it.name.kind == "letter" else BOOL

    def of_number(self, it, expected, scope):
        return expected or INT_32

    def of_nothing(self, it, expected, scope):
        return expected

    def of_let(self, it, expected, scope):
        return self.of(it.parts[1], expected, scope | {it.name: self.of(it.parts[0], None, scope)})

    def of_if(self, it, expected, scope):
        self.of(it.parts[0], BOOL, scope)
        return self.alike([branch.body for branch in it.branches], expected, [scope] * 2)

    def of_case(self, it, expected, scope):
        kind, scopes = self.of(it.parts[0], None, scope), []
        for branch in it.branches:
            scopes.append(dict(scope))
            self.bind(branch.pattern, kind, scopes[-1])
        return self.alike([branch.body for branch in it.branches], expected, scopes)

    def of_raise(self, it, expected, scope):
        for part in it.parts:
            self.of(part, self.program.exceptions[it.name], scope)
        return expected or INT_32

    def of_call(self, it, expected, scope):
        function = self.program.functions[it.name]
        for part, kind in zip(it.parts, function.parameters):
            self.of(part, kind, scope)
        return function.result

    def of_constructor(self, it, expected, scope):
        kind, parts = self.program.constructors[it.name]
        for part, its in zip(it.parts, parts):
            self.of(part, its, scope)
        return kind

    def of_operation(self, it, expected, scope):
        if it.name == "@":
            self.of(it.parts[1], None, scope)
            return self.of(it.parts[0], None, scope).parts[0]
        computes = it.name in ARITHMETIC
        it.type = self.alike(it.parts, BOOL if it.name in ("and", "or") else expected if computes else None, [scope] * 2)
        return it.type if computes else BOOL

    def of_negation(self, it, expected, scope):
        it.type = self.of(it.parts[0], expected, scope)
        return it.type

    def of_not(self, it, expected, scope):
        return self.of(it.parts[0], BOOL, scope)

    def of_update(self, it, expected, scope):
        vector, place, item = it.parts
        kind = self.of(vector, expected, scope)
        self.of(place, None, scope)
        self.of(item, kind.parts[0], scope)
        return kind

    def of_as(self, it, expected, scope):
        self.of(it.parts[0], None, scope)
        return it.type

    def of_tuple(self, it, expected, scope):
        wanted = expected.parts if expected else [None] * len(it.parts)
        return Type("tuple", None, tuple(self.of(part, kind, scope) for part, kind in zip(it.parts, wanted)))

    def of_vector(self, it, expected, scope):
        kind = self.alike(it.parts, expected.parts[0] if expected else None, [scope] * len(it.parts))
        return Type("vector", len(it.parts), (kind,))


def note_types(program):
    """Notes the type of each operation of the program."""
    typing = Typing(program)
    for function in program.functions.values():
        for equation in function.equations:
            scope = {}
            typing.bind(equation.pattern, Type("tuple", None, tuple(function.parameters)), scope)
            typing.of(equation.body, function.result, scope)
    for body in program.bodies:
        outputs = body.outputs[0] if len(body.outputs) == 1 else Type("tuple", None, tuple(body.outputs))
        for rule in body.rules:
            scope = {}
            typing.bind(rule.pattern, Type("tuple", None, tuple(body.inputs)), scope)
            typing.of(rule.body, outputs, scope)
        for handler in body.handlers.values():
            typing.of(handler.body, outputs, {handler.carried.name: program.exceptions[handler.exception]} if handler.carried else {})
