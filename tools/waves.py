"""hume vcd STEPS SOURCE PORT.. and hume waves TRACE [SOURCE]: a trace as a VCD file, as wave viewers such as GTKWave open it.

Superstep K is time K. Each box is a module with its inputs and outputs; a wire is one signal under the names of its two ends. It shows
the oldest value on the wire, and z where the wire is empty.
"""
import re
import sys

from program import Usage, call, is_number, read_source
from source import read_net
from tracing import lines_of, read_lines, run_traced

NUMBER = re.compile(r"(?:int|nat) (\d+)$")
NUMBER_TEXT = re.compile("-?[0-9]{1,20}")
ESCAPED = re.compile(r"[^!-~]|\\")


class Signal:
    """A signal: its code in the file, and how values are written. `width` is that of a number, 1 of a bool, and 0 of a text."""

    def __init__(self, code, width):
        self.code, self.width, self.last = code, width, None

    def declared(self, name):
        kind = f"wire {self.width}" if self.width else "string 1"
        return f"$var {kind} {self.code} {name} $end"

    def written(self, value):
        """The change to the value, a text or none."""
        if self.width == 1:
            return f"{ {'true': '1', 'false': '0', '-1': '1', None: 'z'}.get(value, value) }{self.code}"
        if self.width:
            if value is not None and not NUMBER_TEXT.fullmatch(value):
                raise Usage("the trace is of another source: a wire of numbers has another value")
            bits = "z" if value is None else format(int(value) % (1 << self.width), f"0{self.width}b")
            return f"b{bits} {self.code}"
        text = "z" if value is None else ESCAPED.sub(lambda it: f"\\x{ord(it[0]):02x}", value)
        return f"s{text} {self.code}"

    def change(self, value):
        """The change, or nothing where the value is the last one."""
        if self.last == (value,):
            return []
        self.last = (value,)
        return [self.written(value)]


def code_of(number):
    """Short codes of the letters from ! to ~."""
    code = ""
    while True:
        number, digit = divmod(number, 94)
        code += chr(33 + digit)
        if not number:
            return code


def width_of(type_text):
    if type_text == "bool":
        return 1
    number = NUMBER.match(type_text)
    return int(number[1]) if number else 0


def guessed_width(values):
    """The width of values whose type isn't known: of truth values 1, of numbers the least that holds all, of others 0."""
    if values and all(it in ("true", "false") for it in values):
        return 1
    if not values or not all(NUMBER_TEXT.fullmatch(it) for it in values):
        return 0
    numbers = [int(it) for it in values]
    if min(numbers) < 0:
        return 1 + max((it if it >= 0 else -it - 1).bit_length() for it in numbers)
    return max(1, max(numbers).bit_length())


def ends_of(name):
    return name.split(" to ")


class Waves:
    """The signals of the wires, and of the boxes where it is known what they did."""

    def __init__(self, wires, widths, deep, boxes):
        codes = iter(range(1 << 20))
        self.wires = [(name, Signal(code_of(next(codes)), width)) for name, width in zip(wires, widths)]
        self.held = {n: Signal(code_of(next(codes)), 5) for n in deep}
        self.boxes = [(it, Signal(code_of(next(codes)), 1), Signal(code_of(next(codes)), 1)) for it in boxes]

    def modules(self):
        """For each module, the top one first, the lines that declare its signals."""
        found = {"": []}
        for n, (name, signal) in enumerate(self.wires):
            for end in ends_of(name):
                module, _, port = end.rpartition(".")
                lines = found.setdefault(module, [])
                lines.append(signal.declared(port))
                if n in self.held:
                    lines.append(self.held[n].declared(f"{port}_held"))
        for name, fired, blocked in self.boxes:
            found.setdefault(name, []).extend([fired.declared("fired"), blocked.declared("blocked")])
        return found

    def head(self):
        yield "$version hume: superstep K of the trace is time K $end"
        yield "$timescale 1 ns $end"
        yield "$scope module net $end"
        for module, lines in self.modules().items():
            yield from [f"$scope module {module} $end", *lines, "$upscope $end"] if module else lines
        yield "$upscope $end"
        yield "$enddefinitions $end"

    def changes(self, state, step):
        for n, (_, signal) in enumerate(self.wires):
            yield from signal.change(state[n][0] if state[n] else None)
            if n in self.held:
                yield from self.held[n].change(str(len(state[n])))
        for n, (_, fired, blocked) in enumerate(self.boxes):
            yield from fired.change("true" if step and step.deeds[n].rule else "false")
            yield from blocked.change("true" if step and step.deeds[n].blocked else "false")

    def lines(self, numbers, states, steps):
        yield from self.head()
        for at, (number, state, step) in enumerate(zip(numbers, states, steps)):
            changes = list(self.changes(state, step))
            yield f"#{number}"
            yield from ["$dumpvars", *changes, "$end"] if at == 0 else changes
        if numbers:
            yield f"#{numbers[-1] + 1}"


def deep_wires(net):
    return [n for n, it in enumerate(net.wires) if it.depth > 1]


def waves_of_run(run):
    net = run.net
    boxes = [it.name for it in net.boxes] if all(run.steps) else []
    waves = Waves([it.name for it in net.wires], [width_of(it.type) for it in net.wires], deep_wires(net), boxes)
    return waves.lines(range(len(run.states)), run.states, [None, *run.steps])


def waves_of_trace(trace, net):
    """The waves of a stored trace, with the types of a net, or with guessed ones."""
    if net and [it.name for it in net.wires] != trace.wires:
        raise Usage("the trace is of another source")
    if net:
        widths, deep = [width_of(it.type) for it in net.wires], deep_wires(net)
    else:
        columns = list(zip(*trace.states))
        widths = [guessed_width([value for values in column for value in values]) for column in columns]
        deep = [n for n, column in enumerate(columns) if any(len(values) > 1 for values in column)]
    return Waves(trace.wires, widths, deep, []).lines(trace.numbers, trace.states, [None] * len(trace.states))


def stored_trace(path):
    if path == "-":
        return read_lines(lines_of(sys.stdin.buffer))[0]
    try:
        with open(path, "rb") as file:
            return read_lines(lines_of(file))[0]
    except OSError as error:
        raise Usage(f"{path}: {error.strerror}") from None


def read_accepted(path):
    """The net of a source, if the program accepts it."""
    text = read_source(path)
    if call(["check", path]).returncode:
        raise Usage(f"{path}: it is no source that 'hume check' accepts")
    return read_net(text)


def main(word, words):
    if word == "waves":
        if not 1 <= len(words) <= 2:
            raise Usage("usage: hume waves TRACE [SOURCE]")
        trace = stored_trace(words[0])
        if not trace.numbers:
            raise Usage(f"{words[0]} has no line 'step K': it is no trace")
        lines, status = waves_of_trace(trace, read_accepted(words[1]) if len(words) == 2 else None), 0
    else:
        if len(words) < 2 or not is_number(words[0]):
            raise Usage("usage: hume vcd STEPS SOURCE PORT..")
        run, done = run_traced(words[0], words[1], words[2:], sys.stdin.buffer)
        if run is None:
            sys.stderr.buffer.write(done.stdout + done.stderr)
            return done.returncode
        lines, status = waves_of_run(run), run.status
    for line in lines:
        print(line)
    return status
