"""Reads what evaluation needs of a source that the program has accepted: data types, exceptions, functions, and the rules of boxes."""
from dataclasses import dataclass, field

from expressions import Branch, Expression, Parser, Type
from lexing import tokens
from source import parts_of, read_net
from terms import Reader, Term


@dataclass
class Function:
    """The types of the parameters and of the result; an equation's pattern is the tuple of those of its parameters."""

    parameters: list
    result: Type
    equations: list = field(default_factory=list)


@dataclass
class Handler:
    """What gives a box's outputs where the exception is raised; `carried` is the pattern for what it carries, or none."""

    exception: str
    place: int
    carried: object
    body: Expression


@dataclass
class Body:
    """The types of a box's inputs and outputs, its rules and handlers; a rule's pattern is the tuple of those of the inputs."""

    inputs: list
    outputs: list
    rules: list
    handlers: dict


@dataclass
class Program:
    """`constructors` has for each its data type and the types of its parts, `exceptions` what each carries, or none. `bodies` are those of
    the boxes of the net, in their order."""

    net: object
    constructors: dict = field(default_factory=dict)
    exceptions: dict = field(default_factory=dict)
    functions: dict = field(default_factory=dict)
    bodies: list = field(default_factory=list)

    def types_of_parts(self, kind, name, count):
        """The types of the parts of a constructor's value, a tuple or a vector of so many."""
        if kind.kind == "named":
            return self.constructors[name][1]
        return kind.parts if kind.kind == "tuple" else kind.parts * count

    def type_of(self, wire):
        return type_of(wire.type)

    def is_value(self, kind, term):
        """Whether the term is a value of the type."""
        if kind.kind in ("int", "nat"):
            low = -(1 << kind.name - 1) if kind.kind == "int" else 0
            return term.kind == "number" and low <= term.name < low + (1 << kind.name)
        if kind.kind in ("bool", "char"):
            return term.kind == ("truth" if kind.kind == "bool" else "letter")
        if kind.kind == "named":
            known = term.kind == "constructor" and self.constructors.get(term.name, (None, ()))
            parts = known and known[0] == kind and known[1]
        else:
            parts = term.kind == kind.kind and self.types_of_parts(kind, "", kind.name or 0)
        return parts is not False and len(parts) == len(term.parts) and all(map(self.is_value, parts, term.parts))


def type_of(text):
    return Parser(tokens(text.encode("latin-1"))).type()


def read_constructor(kind, found):
    parser, parts = Parser(found[1:]), []
    while parser.next():
        parts.append(parser.type())
    return kind, tuple(parts)


def read_equation(found):
    reader = Reader(found)
    reader.take()
    patterns = []
    while reader.next() != "=":
        patterns.append(reader.atom())
    return Branch(found[0].place, Term("tuple", "", tuple(patterns)), Parser(found[reader.at + 1 :]).expression())


def read_function(program, found):
    """The types of a function, or one of its equations."""
    name = found[0].text
    if found[1].text == "::":
        types = [Parser(it).type() for it in parts_of(found[2:], ("->",))]
        program.functions[name] = Function(types[:-1], types[-1])
    else:
        program.functions[name].equations.append(read_equation(found))


def read_handler(found):
    head, body = parts_of(found, ("->",))[0], found
    while body[0].text != "->":
        body = body[1:]
    carried = Term("any", head[1].text, ()) if len(head) > 1 else None
    return Handler(head[0].text, head[0].place, carried, Parser(body[1:]).expression())


def read_body(box):
    rules = [Branch(it.place, Term("tuple", "", tuple(it.patterns)), Parser(it.result).expression()) for it in box.rules]
    handlers = {it.exception: it for it in map(read_handler, box.handlers)}
    return Body([type_of(it) for _, it in box.inputs], [type_of(it) for _, it in box.outputs], rules, handlers)


def read_program(source):
    """The program of the bytes of a source."""
    program = Program(read_net(source), exceptions={"DivZero": None, "Range": None, "NoCase": None})
    for found in parts_of(tokens(source), (";",)):
        kind = found[0].kind if found else ""
        if kind == "lower":
            read_function(program, found)
        elif kind and found[0].text == "data":
            named = Type("named", found[1].text, ())
            program.constructors |= {it[0].text: read_constructor(named, it) for it in parts_of(found[3:], ("|",))}
        elif kind and found[0].text == "exception":
            program.exceptions[found[1].text] = Parser(found[2:]).type() if len(found) > 2 else None
    program.bodies = [read_body(it) for it in program.net.boxes]
    return program
