"""Values and patterns as trees: they are read from tokens, printed as the program prints a value, and matched."""
from collections import namedtuple

from lexing import NoToken, tokens

# `kind` is number, letter, truth, constructor, tuple or vector, or of a pattern any (`_` and variables), skip (`*`) or drain (`_*`);
# `name` is the number, the letter's text, `true`, the name of the constructor or variable, or that pattern's text.
Term = namedtuple("Term", "kind name parts")


class NoTerm(Exception):
    """The tokens are no value and no pattern."""


def number_of(digits):
    """The number; no type has one of more than 20 digits."""
    digits = digits.lstrip("0") or "0"
    if len(digits) > 20:
        raise NoTerm
    return int(digits)


class Reader:
    """Reads terms from a list of tokens."""

    def __init__(self, found):
        self.found, self.at = found, 0

    def next(self):
        return self.found[self.at].text if self.at < len(self.found) else ""

    def take(self, wanted=None):
        if self.at == len(self.found) or wanted is not None and self.next() != wanted:
            raise NoTerm
        self.at += 1
        return self.found[self.at - 1]

    def list_until(self, last):
        parts = [self.term()]
        while self.next() == ",":
            self.take()
            parts.append(self.term())
        self.take(last)
        return tuple(parts)

    def term(self):
        """A pattern, or a value."""
        if self.at < len(self.found) and self.found[self.at].kind == "upper":
            name, parts = self.take().text, []
            while self.at < len(self.found) and self.next() not in (",", ")", ">>"):
                parts.append(self.atom())
            return Term("constructor", name, tuple(parts))
        return self.atom()

    def atom(self):
        token = self.take()
        if token.text == "-":
            return Term("number", -number_of(self.number()), ())
        if token.kind == "number":
            return Term("number", number_of(token.text), ())
        if token.kind == "letter":
            return Term("letter", token.text, ())
        if token.text in ("true", "false"):
            return Term("truth", token.text, ())
        if token.kind == "upper":
            return Term("constructor", token.text, ())
        if token.kind == "lower" or token.text in ("_", "*", "_*"):
            return Term({"*": "skip", "_*": "drain"}.get(token.text, "any"), token.text, ())
        if token.text == "<<":
            return Term("vector", "", self.list_until(">>"))
        if token.text != "(":
            raise NoTerm
        parts = self.list_until(")")
        return parts[0] if len(parts) == 1 else Term("tuple", "", parts)

    def number(self):
        token = self.take()
        if token.kind != "number":
            raise NoTerm
        return token.text


def read_term(found):
    """The term that all these tokens are."""
    reader = Reader(found)
    term = reader.term()
    if reader.at < len(found):
        raise NoTerm
    return term


def read_text(text):
    """The value with this text; NoTerm where there is none."""
    try:
        return read_term(tokens(text.encode("latin-1", "replace")))
    except NoToken:
        raise NoTerm from None


def printed(term, inner=False):
    """The value as the program prints it; `inner` is an argument of a constructor."""
    if term.kind == "tuple":
        return "(" + ", ".join(map(printed, term.parts)) + ")"
    if term.kind == "vector":
        return "<<" + ", ".join(map(printed, term.parts)) + ">>"
    if not term.parts:
        return str(term.name)
    text = " ".join([term.name, *(printed(it, True) for it in term.parts)])
    return f"({text})" if inner else text


def matches(pattern, value):
    """Whether the pattern matches the value, both of one type."""
    if pattern.kind == "any":
        return True
    same = pattern.kind == value.kind and pattern.name == value.name and len(pattern.parts) == len(value.parts)
    return same and all(map(matches, pattern.parts, value.parts))
