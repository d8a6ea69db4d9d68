"""A trace as it was written: the table of bounds, the wires after each superstep, the peaks and the answer at the end; and runs that are traced."""
import os
import re
import subprocess
import tempfile
from contextlib import contextmanager
from dataclasses import dataclass, field

from program import MOST_SOURCE_BYTES, Passed, Usage, call, command, is_number, read_source, started
from progress import Progress
from replay import Unexplained, explain
from source import read_net
from terms import NoTerm, printed, read_text

BOX = re.compile(r"box (\S+) heap (\d+) stack (\d+) work (\d+)$")
PEAK = re.compile(r"peak (\S+) heap (\d+) stack (\d+)$")
WIRE = re.compile(r"wire (\S+ to \S+) (.*)$")
STEP = re.compile(r"step ([0-9]{1,9})$")
# The longest line of a trace is that of a wire of 16 values of 1,024 words, with names of 32 bytes; an input's line is in docs/LANGUAGE.md.
MOST_LINE = 1 << 20
MOST_VALUE_LINE = 65_536
MOST_STEPS = 100_000


@dataclass
class Trace:
    """`wires` has the names; `states[k]` has for each wire its values after superstep `numbers[k]`, the oldest first."""

    wires: list = field(default_factory=list)
    numbers: list = field(default_factory=list)
    states: list = field(default_factory=list)
    bounds: dict = field(default_factory=dict)
    peaks: dict = field(default_factory=dict)
    ending: str = ""


def lines_of(file):
    """The lines of a trace that is open in binary, without their ends."""
    while line := file.readline(MOST_LINE):
        if len(line) == MOST_LINE:
            raise Usage(f"a line has more than {MOST_LINE} bytes: it is no trace")
        yield line.rstrip(b"\n").decode("latin-1")


class Reader:
    """Reads what `hume trace` writes, line by line. `head` has the lines before the first superstep."""

    def __init__(self, progress, total):
        self.trace, self.head, self.contents, self.progress = Trace(), [], None, progress
        self.known, self.of_all = {}, f" of {total}" if total else ""

    def values(self, text):
        """The values on a wire; those of one text are one list."""
        if text not in self.known:
            self.known[text] = [] if text == "empty" else text.split(" | ")
        return self.known[text]

    def close_step(self):
        trace = self.trace
        if self.contents is None:
            return
        trace.wires = trace.wires or list(self.contents)
        if list(self.contents) != trace.wires:
            raise Usage(f"the step {trace.numbers[-1]} has other wires than the first: it is no trace")
        trace.states.append(list(self.contents.values()))

    def read(self, line):
        if step := STEP.match(line):
            self.close_step()
            self.trace.numbers.append(int(step[1]))
            self.contents = {}
            self.progress.tell(f"{step[1]}{self.of_all} supersteps are made")
        elif self.contents is None:
            self.head.append(line)
        if self.contents is not None and (wire := WIRE.match(line)):
            self.contents[wire[1]] = self.values(wire[2])
        elif box := BOX.match(line):
            self.trace.bounds[box[1]] = tuple(map(int, box.groups()[1:]))
        elif peak := PEAK.match(line):
            self.trace.peaks[peak[1]] = tuple(map(int, peak.groups()[1:]))
        elif line.startswith(("bad value ", "refused ")):
            self.trace.ending = line


def read_lines(lines, total=None):
    """The trace of these lines, and those before its first superstep; lines of values that go to std_out are left out."""
    with Progress() as progress:
        reader = Reader(progress, total)
        for line in lines:
            reader.read(line)
        reader.close_step()
    return reader.trace, reader.head


def read_trace(text):
    """The trace with this text."""
    return read_lines(text.split("\n"))[0]


@dataclass
class Run:
    """A trace with its net and source: `states` begins with the start; `steps[k]` says what happened from `states[k]` to `states[k + 1]`."""

    net: object
    source: bytes
    trace: Trace
    states: list
    inputs: dict
    status: int
    steps: list = field(default_factory=list)
    standstill: object = None


def values_of(lines, most):
    """The values of the lines before the first bad one, as they are printed, but no more than `most`; and whether there may be more."""
    values = []
    for line in lines:
        if len(line) > MOST_VALUE_LINE:
            return values, True
        if line.strip(" \t\r"):
            if len(values) == most:
                return values, True
            try:
                values.append(printed(read_text(line.removesuffix("\r"))))
            except NoTerm:
                return values, True
    return values, False


def lines_of_port(file):
    """The lines of an input that is open in binary, of a longer one as much as shows that it is bad."""
    while line := file.readline(MOST_VALUE_LINE + 2):
        yield line.removesuffix(b"\n").decode("latin-1")


def values_of_file(path, most):
    try:
        with open(path, "rb") as file:
            return values_of(lines_of_port(file), most)
    except OSError:
        return None


def values_passed(passed, most):
    """The values of a standard input, as far as it was read; the last line may have been cut."""
    lines, is_all = passed.bytes.decode("latin-1").split("\n"), passed.is_all()
    values, may_go_on = values_of(lines if is_all else lines[:-1], most)
    return values, may_go_on or not is_all


def inputs_of(net, most, passed):
    """For each input stream the values that a run of `most` supersteps may take, and whether there may be more. Of a port that is no file,
    as a pipe, none are known: what is read from it would be lost to the run."""
    found = {}
    for it in net.streams:
        if it.incoming and it.port == "std_in":
            found[it.name] = values_passed(passed, most)
        elif it.incoming and os.path.isfile(it.port):
            found[it.name] = values_of_file(it.port, most)
    return {name: values for name, values in found.items() if values is not None}


def trace_of(words, net, given):
    """The call of a trace: the trace, its status, what it told before the first superstep and on the standard error, and the standard input
    as far as it was read."""
    reads = any(it.port == "std_in" for it in net.streams)
    streams = {"stdin": subprocess.PIPE if reads else subprocess.DEVNULL, "stdout": subprocess.PIPE}
    with tempfile.TemporaryFile() as told, started([command(), *words], stderr=told, **streams) as process:
        passed = Passed(given, process.stdin) if reads else None
        process.stdin = None
        trace, head = read_lines(lines_of(process.stdout), words[1])
        process.wait()
        told.seek(0)
        shown = "".join(f"{it}\n" for it in head).encode("latin-1")
        return trace, passed, subprocess.CompletedProcess(words, process.returncode, shown, told.read())


def explained(net, states, inputs):
    """What happened in each superstep, and from which one on nothing changes; nothing where the wires don't tell it."""
    try:
        with Progress() as progress:
            return explain(net, states, inputs, progress)
    except Unexplained:
        return [None] * (len(states) - 1), None


@contextmanager
def readable(source, given):
    """The bytes of a source, and a name under which the program can read them as often as it has to: of a pipe, or of the standard input,
    that of a copy."""
    text = given.read(MOST_SOURCE_BYTES + 1) if source == "std_in" else read_source(source)
    if os.path.isfile(source) and not source.startswith(("/dev/", "/proc/")):
        yield text, source
        return
    with tempfile.NamedTemporaryFile(suffix=".hume") as copy:
        copy.write(text)
        copy.flush()
        yield text, copy.name


def told_of(done, name, source):
    """What the program has told, of the source by the name that the user knows."""
    done.stderr = done.stderr.replace(os.fsencode(name), os.fsencode(source))
    return done


def traced(steps, source, ports, given, look=None):
    """Makes a trace by the program. None where it gives none; it has said why. `look` gets the source, once it is accepted, before the run."""
    if not is_number(steps, MOST_STEPS):
        raise Usage(f"at most {MOST_STEPS} supersteps can be shown")
    with readable(source, given) as (text, name):
        check = call(["check", name])
        if check.returncode:
            return None, told_of(check, name, source)
        net = read_net(text)
        if look:
            look(text)
        trace, passed, done = trace_of(["trace", steps, "1", name, *ports], net, given)
        if done.returncode not in (0, 3):
            return None, told_of(done, name, source)
        inputs = inputs_of(net, int(steps), passed)
    first = [[it.first] if it.first is not None else [] for it in net.wires]
    trace.wires = [it.name for it in net.wires]
    return Run(net, text, trace, [first, *trace.states], inputs, done.returncode), done


def run_traced(steps, source, ports, given, look=None):
    """Makes a trace by the program, and finds what happened in it. None where the program gives no trace; it has said why."""
    run, done = traced(steps, source, ports, given, look)
    if run:
        run.steps, run.standstill = explained(run.net, run.states, run.inputs)
    return run, done
