"""hume watch STEPS SOURCE PORT.. [-w WIRE,..] [--until 'WIRE VALUE'] [--width N]: a table of supersteps by wires that prints changes alone,
and what a standstill waits for."""
import sys
from dataclasses import dataclass, field

from declarations import read_program
from program import Usage, is_number
from terms import NoTerm, printed, read_text
from tracing import run_traced
from waiting import standstill

WIDTH, LEAST_WIDTH, MOST_WIDTH = 30, 4, 100_000
SHOWN_BEFORE = 10
USAGE = "usage: hume watch STEPS SOURCE PORT.. [-w WIRE,..] [--until 'WIRE VALUE'] [--width N]"


@dataclass
class Choice:
    """The names of the wires that are shown, all where there are none; the wire and the value at which to stop, or none; and the most
    characters of a cell."""

    names: list = field(default_factory=list)
    until: tuple = None
    width: int = WIDTH

    def take(self, option, word):
        if option == "-w":
            self.names += word.split(",")
        elif option == "--until":
            self.until = until_of(word)
        elif is_number(word, MOST_WIDTH) and int(word) >= LEAST_WIDTH:
            self.width = int(word)
        else:
            raise Usage(f"--width is {LEAST_WIDTH} to {MOST_WIDTH}, not {word!r}")


def until_of(word):
    """The name of a wire and the text of a value, as the program prints it."""
    name, _, text = word.strip().partition(" ")
    try:
        return name, printed(read_text(text))
    except NoTerm:
        raise Usage(f"--until needs a wire and a value, as in --until 'b.y 7', and not {word!r}") from None


def words_of(words):
    """STEPS, SOURCE, the PORTs, and what the options choose."""
    plain, choice, words = [], Choice(), list(words)
    while words:
        word = words.pop(0)
        if word not in ("-w", "--until", "--width"):
            plain.append(word)
        elif words:
            choice.take(word, words.pop(0))
        else:
            raise Usage(USAGE)
    if len(plain) < 2 or not is_number(plain[0]):
        raise Usage(USAGE)
    return plain[0], plain[1], plain[2:], choice


def named(net, name):
    """The numbers of the wires of which an end, or the box or stream of an end, has this name."""
    found = [n for n, it in enumerate(net.wires) if name in (it.start, it.finish, it.start.partition(".")[0], it.finish.partition(".")[0])]
    if not found:
        raise Usage(f"no wire begins or ends at '{name}'; the wires are " + ", ".join(it.name for it in net.wires))
    return found


def chosen(net, wanted):
    """The numbers of the wires of these names; all where there are none."""
    return sorted({it for name in wanted for it in named(net, name)}) if wanted else range(len(net.wires))


def stop_of(program, until):
    """The number of the wire at which to stop, and the text of its value."""
    name, text = until
    found = named(program.net, name)
    if len(found) > 1:
        ends = ", ".join(program.net.wires[it].start for it in found)
        raise Usage(f"--until needs one wire, and '{name}' has {len(found)}: name it by an end, of {ends}")
    wire = program.net.wires[found[0]]
    if not program.is_value(program.type_of(wire), read_text(text)):
        raise Usage(f"--until can't come true: {wire.name} has the type {wire.type}, and {text} is no value of that")
    return found[0], text


class Chooser:
    """The wires that are shown, and the one at which to stop, once the net is known."""

    def __init__(self, choice):
        self.choice, self.wires, self.stop = choice, None, None

    def read(self, source):
        program = read_program(source)
        self.wires = chosen(program.net, self.choice.names)
        self.stop = stop_of(program, self.choice.until) if self.choice.until else None


def shortened(text, width):
    return text if len(text) <= width else text[: width - 2] + ".."


def cell(values, depth, width):
    """The values on a wire; of a queue it begins with how many they are."""
    text = " | ".join(values) or "."
    return shortened(f"{len(values)}: {text}" if values and depth > 1 else text, width)


def changed(run, k, wire):
    """Whether a value was taken from the wire or put there in superstep k."""
    step = run.steps[k - 1]
    if step is None:
        return run.states[k][wire] != run.states[k - 1][wire]
    return step.taken[wire] or step.put[wire]


def rows(run, wires, width=WIDTH, first=0, last=None):
    """The rows of the table, each a list of cells: two of names, the first superstep, and each further one in which a wire changed."""
    last = len(run.states) - 1 if last is None else last
    net = run.net.wires
    yield ["step", *(net[it].start for it in wires)]
    yield ["", *(net[it].finish for it in wires)]
    for k in range(first, last + 1):
        cells = [cell(run.states[k][it], net[it].depth, width) if k == first or changed(run, k, it) else "" for it in wires]
        if k == first or any(cells) or first and k == last:
            yield [str(k), *cells]


def table(lines):
    lines = list(lines)
    widths = [max(len(line[column]) for line in lines) for column in range(len(lines[0]))]
    for line in lines:
        yield "  ".join(text.ljust(width) for text, width in zip(line, widths)).rstrip()


def report(run, wires, stop, width):
    """The table, and what is told behind it."""
    if not stop:
        return [*table(rows(run, wires, width)), *standstill(run)]
    wire, text = stop
    name, last = run.net.wires[wire].name, len(run.states) - 1
    found = next((k for k, state in enumerate(run.states) if text in state[wire]), None)
    end = last if found is None else found
    lines = list(table(rows(run, wires, width, max(0, end - SHOWN_BEFORE), end)))
    if found is not None:
        return [*lines, f"until: {name} has {text} after superstep {found}"]
    return [*lines, *standstill(run), f"until: {name} never has {text} in {last} supersteps"]


def main(_, words):
    steps, source, ports, choice = words_of(words)
    chooser = Chooser(choice)
    run, done = run_traced(steps, source, ports, sys.stdin.buffer, chooser.read)
    if run is None:
        sys.stdout.buffer.write(done.stdout)
        sys.stderr.buffer.write(done.stderr)
        return done.returncode
    for line in report(run, chooser.wires, chooser.stop, choice.width):
        print(line)
    if run.trace.ending:
        print(run.trace.ending)
    return run.status
