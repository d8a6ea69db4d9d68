"""Reads types and expressions from the tokens of a source that the program has accepted, as trees."""
from collections import namedtuple
from dataclasses import dataclass, field

from terms import Term, number_of, read_term

# `kind` is bool, char, int, nat, vector, tuple or named; `name` is the width, the length or the name; `parts` are those of a tuple or vector.
Type = namedtuple("Type", "kind name parts")

LEVELS = {"or": 0, "and": 1, "*": 4, "div": 4, "mod": 4, "+": 3, "-": 3} | dict.fromkeys(("==", "/=", "<", "<=", ">", ">="), 2)


@dataclass(eq=False)
class Branch:
    """What one of several is chosen: a branch of an `if`, or an alternative of a `case` with its pattern. `place` is where it begins."""

    place: int
    pattern: object
    body: object


@dataclass(eq=False)
class Expression:
    """`kind` is variable, value, number, let, if, case, raise, call, constructor, operation, negation, not, update, as, tuple, vector or
    nothing (`*`); `name` is that of a variable, function, constructor, exception or operator, or a value. `type` is the type of what it
    computes with."""

    kind: str
    name: object = None
    parts: list = field(default_factory=list)
    branches: list = field(default_factory=list)
    type: object = None


class Parser:
    """Reads from a list of tokens."""

    def __init__(self, found):
        self.found, self.at = found, 0

    def next(self):
        return self.found[self.at].text if self.at < len(self.found) else ""

    def kind(self):
        return self.found[self.at].kind if self.at < len(self.found) else ""

    def place(self):
        return self.found[self.at].place

    def take(self):
        self.at += 1
        return self.found[self.at - 1]

    def takes(self, text):
        if self.next() != text:
            return False
        self.at += 1
        return True

    def separated(self, read, separator, last):
        """What is read, with separators between, and the token behind it taken."""
        parts = [read()]
        while self.takes(separator):
            parts.append(read())
        self.takes(last)
        return parts

    def type(self):
        word = self.take()
        if word.kind == "upper":
            return Type("named", word.text, ())
        if word.text == "(":
            return Type("tuple", None, tuple(self.separated(self.type, ",", ")")))
        if word.text in ("bool", "char"):
            return Type(word.text, None, ())
        width = number_of(self.take().text)
        if word.text != "vector":
            return Type(word.text, width, ())
        self.takes("of")
        return Type("vector", width, (self.type(),))

    def expression(self):
        word = self.next()
        if word in ("let", "if", "case", "raise"):
            self.take()
            return {"let": self.let, "if": self.choice, "case": self.alternatives, "raise": self.raising}[word]()
        return self.chain(0)

    def let(self):
        name = self.take().text
        self.takes("=")
        value = self.expression()
        self.takes("in")
        return Expression("let", name, [value, self.expression()])

    def choice(self):
        test, branches = self.expression(), []
        for word in ("then", "else"):
            self.takes(word)
            branches.append(Branch(self.place(), Term("truth", "true" if word == "then" else "false", ()), self.expression()))
        return Expression("if", None, [test], branches)

    def alternatives(self):
        value = self.expression()
        self.takes("of")
        return Expression("case", None, [value], self.separated(self.alternative, "|", "end"))

    def alternative(self):
        start, place = self.at, self.place()
        while not self.takes("->"):
            self.take()
        return Branch(place, read_term(self.found[start : self.at - 1]), self.expression())

    def raising(self):
        name = self.take().text
        return Expression("raise", name, [self.atom()] if self.starts_atom() else [])

    def chain(self, level):
        """Operators of at least this level, which group to the left."""
        left = self.unary()
        while LEVELS.get(self.next(), -1) >= level:
            name = self.take().text
            left = Expression("operation", name, [left, self.chain(LEVELS[name] + 1)])
        return left

    def unary(self):
        if self.takes("-"):
            if self.kind() == "number":
                return Expression("number", -number_of(self.take().text))
            return Expression("negation", None, [self.unary()])
        if self.takes("not"):
            return Expression("not", None, [self.unary()])
        left = self.application()
        while self.takes("@"):
            left = Expression("operation", "@", [left, self.application()])
        return left

    def starts_atom(self):
        return self.kind() in ("lower", "upper", "number", "letter") or self.next() in ("true", "false", "(", "<<")

    def application(self):
        if self.takes("*"):
            return Expression("nothing")
        if self.takes("update"):
            return Expression("update", None, [self.atom(), self.atom(), self.atom()])
        if self.kind() not in ("lower", "upper"):
            return self.atom()
        word, parts = self.take(), []
        while self.starts_atom():
            parts.append(self.atom())
        return Expression("constructor" if word.kind == "upper" else "call" if parts else "variable", word.text, parts)

    def atom(self):
        word = self.take()
        if word.kind == "lower":
            return Expression("variable", word.text)
        if word.kind == "upper":
            return Expression("constructor", word.text)
        if word.kind == "number":
            return Expression("number", number_of(word.text))
        if word.kind == "letter":
            return Expression("value", Term("letter", word.text, ()))
        if word.text in ("true", "false"):
            return Expression("value", Term("truth", word.text, ()))
        if word.text == "<<":
            return Expression("vector", None, self.separated(self.expression, ",", ">>"))
        return self.inside()

    def inside(self):
        """What stands in parentheses, behind the first one: a tuple, a conversion, or an expression."""
        parts = [self.expression()]
        if self.takes("as"):
            kind = self.type()
            self.takes(")")
            return Expression("as", None, parts, [], kind)
        while self.takes(","):
            parts.append(self.expression())
        self.takes(")")
        return Expression("tuple", None, parts) if len(parts) > 1 else parts[0]
