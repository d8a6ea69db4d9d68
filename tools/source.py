"""Reads the declarations of a source that the program has accepted, as far as the tools show them. It checks no rule."""
from dataclasses import dataclass, field

from lexing import tokens
from terms import printed, read_term

OPENING, CLOSING = ("(", "<<", "case"), (")", ">>", "end")


@dataclass
class Rule:
    """The patterns of a rule, the tokens of its result, and whether it may put nothing on any output: a `*` stands there."""

    patterns: list
    result: list
    silent: bool
    place: int


@dataclass
class Box:
    """A box: its inputs and outputs as pairs of a name and a type, its rules, and the tokens of each of its handlers."""

    name: str
    inputs: list
    outputs: list
    fair: bool
    rules: list
    handlers: list


@dataclass
class Stream:
    """A stream and its port."""

    name: str
    incoming: bool
    port: str


@dataclass
class Wire:
    """A wire between two ends, `box.port` or `stream`; `first` is the text of its initial value, or none."""

    start: str
    finish: str
    depth: int
    first: object
    type: str = ""

    @property
    def name(self):
        return f"{self.start} to {self.finish}"


@dataclass
class Net:
    """The boxes, the streams and the wires of a source, each in its order."""

    boxes: list = field(default_factory=list)
    streams: list = field(default_factory=list)
    wires: list = field(default_factory=list)

    def stream(self, name):
        return next((it for it in self.streams if it.name == name), None)


def parts_of(found, separators):
    """Cuts tokens at the separators that stand in no parentheses, vector or `case`."""
    parts, depth = [[]], 0
    for token in found:
        depth += (token.text in OPENING) - (token.text in CLOSING)
        if depth == 0 and token.text in separators:
            parts.append([])
        else:
            parts[-1].append(token)
    return parts


def inside(found):
    """The tokens in the parentheses with which these begin, and those behind them."""
    depth = 0
    for at, token in enumerate(found):
        depth += (token.text == "(") - (token.text == ")")
        if depth == 0:
            return found[1:at], found[at + 1 :]
    raise ValueError("parentheses that stay open")


def text_of(found):
    """A type as it is written, with one space where one is needed."""
    text = " ".join(it.text for it in found)
    return text.replace("( ", "(").replace(" )", ")").replace(" ,", ",")


def ports_of(found):
    return [(part[0].text, text_of(part[2:])) for part in parts_of(found, (",",))]


def has_star(found):
    """Whether a `*` in the result puts nothing on an output: it has no operand before it."""
    before = ("(", ",", "->", "then", "else", "in")
    return any(it.text == "*" and (at == 0 or found[at - 1].text in before) for at, it in enumerate(found))


def rule_of(found, silent):
    patterns, result = inside(found)
    return Rule([read_term(it) for it in parts_of(patterns, (",",))], result[1:], silent or has_star(result[1:]), found[0].place)


def box_of(found):
    inputs, rest = inside(found[3:])
    outputs, rest = inside(rest[1:])
    rules, *handled = parts_of(rest[1:], ("handle",))
    handlers = [one for it in handled for one in parts_of(it, ("|",))]
    silent = any(map(has_star, handlers))
    fair = rest[0].text == "fair"
    return Box(found[1].text, ports_of(inputs), ports_of(outputs), fair, [rule_of(it, silent) for it in parts_of(rules, ("|",))], handlers)


def wire_of(found):
    ends, *first = parts_of(found, ("initial",))
    ends, *depth = parts_of(ends, ("@",))
    start, finish = parts_of(ends[1:], ("to",))
    names = ["".join(it.text for it in end) for end in (start, finish)]
    return Wire(*names, int(depth[0][0].text) if depth else 1, printed(read_term(first[0])) if first else None)


def type_of(net, wire):
    """The type of the box's end, which is the wire's."""
    for end, side in ((wire.start, "outputs"), (wire.finish, "inputs")):
        name, _, port = end.partition(".")
        box = next((it for it in net.boxes if it.name == name), None)
        if box:
            return dict(getattr(box, side))[port]
    raise ValueError(f"the wire {wire.name} leads to no box")


def read_net(source):
    """The net of the bytes of a source."""
    net = Net()
    for found in parts_of(tokens(source), (";",)):
        kind = found[0].text if found else ""
        if kind == "box":
            net.boxes.append(box_of(found))
        elif kind == "stream":
            net.streams.append(Stream(found[1].text, found[2].text == "from", found[3].text[1:-1]))
        elif kind == "wire":
            net.wires.append(wire_of(found))
    for wire in net.wires:
        wire.type = type_of(net, wire)
    return net
