"""Calls of the tool with all that they owe, act by act, for trials in which the world fails. What they owe was worked out by hand, or is a rule
here: an input is wanted before each round, and a value that came k-th is put out in superstep k + 2."""
import os
from dataclasses import dataclass, field

TOP = os.path.dirname(os.path.dirname(os.path.abspath(__file__)))
ROUND = 64
# each call is made with each of these numbers of workers
WORKERS = 1, 2
NO_INPUTS = "words", "README.md", "expected.py", "stdin"
# the place of WORKERS among the words
WORKERS_AT = {"run": 2, "trace": 2, "calc": 2, "union": 2, "demo": 3, "console": 1}
NO_OUTPUTS = "status", "table", "taken", "stdout", "hints"
DONE, REFUSED, BAD_VALUE, FAULT, NO_MEMORY, LOG_FAILS = 0, 2, 3, 4, 5, 6


@dataclass(frozen=True)
class Act:
    """A want reads the port, of which it gets the text if one is given; a write gives the text to it by one call, a finish ends it."""
    kind: str
    port: str
    text: bytes = b""


@dataclass
class Case:
    name: str
    words: str
    files: dict
    acts: list
    status: int
    outputs: list = field(default_factory=list)
    standard_input: bytes = b""
    # whether each line for a file is a write of the system, as those for the standard output are
    is_direct: bool = False

    def ports(self):
        """The names of the ports that the words name, and the standard output."""
        return [*self.files, *self.outputs, "std_out"]

    def given(self, acts, port):
        """What these acts write to the port."""
        return b"".join(it.text for it in acts if it.kind == "writes" and it.port == port)


def wants(port, text=b""):
    return Act("wants", port, text)


def writes(port, *lines):
    return [Act("writes", port, f"{line}\n".encode()) for line in lines]


def finishes(*ports):
    return [Act("finishes", port) for port in ports]


ADD_ONE = b"""box b in (x :: int 32) out (y :: int 32)
match (x) -> (x + 1) ;
stream s from "i" ;
stream t to "o" ;
wire s to b.x ;
wire b.y to t ;
"""

SUM_AND_DIFFERENCE = b"""box b in (x :: int 32, y :: int 32) out (u :: int 32, v :: int 32)
match (x, y) -> (x + y, x - y) ;
stream r from "i" ;
stream s from "j" ;
stream t to "o" ;
stream w to "q" ;
wire r to b.x ;
wire s to b.y ;
wire b.u to t ;
wire b.v to w ;
"""

# The costs of ADD_ONE are worked out in .ci/cases. The other box has two inputs, two variables and on the stack the first sum and two words;
# it runs two instructions for its variables, three for each sum and one for the end.
TABLE = writes("std_out", "box b heap 0 stack 4 work 5", "total heap 0 stack 4")
PEAK = writes("std_out", "peak b heap 0 stack 4")
TABLE_OF_TWO = writes("std_out", "box b heap 0 stack 7 work 9", "total heap 0 stack 7")
PEAK_OF_TWO = writes("std_out", "peak b heap 0 stack 7")


def numbers(count, width):
    """Two columns of numbers, each as a line of so many digits at least."""
    first = [7 * k % 1000 for k in range(1, count + 1)]
    second = [3 * k % 500 for k in range(1, count + 1)]
    return first, second, *("".join(f"{it:0{width}}\n" for it in column).encode() for column in (first, second))


def rounds(steps, values):
    """For each round the values that are put out in it: the k-th in superstep k + 2."""
    for begin in range(0, steps, ROUND):
        end = min(begin + ROUND, steps)
        yield [value for k, value in enumerate(values, 1) if begin < k + 2 <= end]


def sum_and_difference(steps, workers, width):
    """Two inputs and two outputs. With longer lines each round reads on in both inputs."""
    first, second, i, j = numbers(steps + 50, width)
    acts = [wants("p"), *TABLE_OF_TWO]
    pairs = [(x + y, x - y) for x, y in zip(first, second)]
    for values in rounds(steps, pairs):
        acts += [wants("i"), wants("j")]
        acts += writes("o", *(it[0] for it in values)) + writes("q", *(it[1] for it in values))
    acts += PEAK_OF_TWO + finishes("o", "q", "std_out")
    files = {"p": SUM_AND_DIFFERENCE, "i": i, "j": j}
    return Case(f"two inputs and two outputs, {steps} supersteps", f"run {steps} {workers} p i j o q", files, acts, DONE, ["o", "q"])


def one_box(name, words, acts, status, **files):
    files = {"p": ADD_ONE, "i": b"1\n2\n", **files}
    return Case(name, words, files, [wants("p"), *acts], status, ["o"])


def add_one(workers=1):
    acts = [*TABLE, wants("i"), *writes("o", 2, 3), *PEAK, *finishes("o", "std_out")]
    return one_box("one box", f"run 4 {workers} p i o", acts, DONE)


def traced(workers):
    steps = [("1", "empty", []), ("2", "2", []), ("empty", "3", ["2"])]
    acts = [*TABLE]
    for k, (first, second, out) in enumerate(steps, 1):
        wires = f"step {k}", f"wire s to b.x {first}", f"wire b.y to t {second}"
        acts += [wants("i"), *writes("o", *out), *writes("std_out", *wires)]
    return one_box("a trace", f"trace 3 {workers} p i o", [*acts, *PEAK, *finishes("o", "std_out")], DONE)


def rewritten(workers):
    acts = [wants("steps"), *writes("std_out", "box b heap 0 stack 8 work 9", "total heap 0 stack 8"), wants("i"), *writes("o", 2, 3)]
    acts += [*writes("std_out", "peak b heap 0 stack 8"), *finishes("o", "std_out")]
    return one_box("a script", f"calc 4 {workers} p steps i o", acts, DONE, steps=b"name b 1 inc\n")


def script_refused(workers):
    acts = [wants("steps"), *writes("std_out", "refused 93 line 1"), *finishes("std_out")]
    return one_box("a script that is refused", f"calc 4 {workers} p steps i o", acts, REFUSED, steps=b"swap b 1\n")


def united(workers):
    """Two programs of one box, the second of which reads `j` and writes `r`."""
    first, second = ["program 1 p"], ["program 2 q"]
    box, peak = ["box b heap 0 stack 4 work 5"], ["peak b heap 0 stack 4"]
    acts = [wants("p"), wants("q"), *writes("std_out", *first, *box, *second, *box, "total heap 0 stack 8"), wants("i"), wants("j")]
    acts += [*writes("o", 2, 3), *writes("r", 8), *writes("std_out", *first, *peak, *second, *peak), *finishes("o", "r", "std_out")]
    files = {"p": ADD_ONE, "q": ADD_ONE.replace(b'"i"', b'"j"').replace(b'"o"', b'"r"'), "i": b"1\n2\n", "j": b"7\n"}
    return Case("two programs in one run", f"union 4 {workers} 2 p q i j o r", files, acts, DONE, ["o", "r"])


def checked():
    return one_box("a check", "check p", [*TABLE, *finishes("std_out")], DONE)


def refused(workers):
    acts = [*writes("std_out", "refused 10 line 2"), *finishes("std_out")]
    return one_box("a source that is refused", f"run 4 {workers} p i o", acts, REFUSED, p=ADD_ONE.replace(b"+", b"/"))


def bad_value(workers):
    acts = [*TABLE, wants("i"), *writes("std_out", "bad value s line 2"), *finishes("o", "std_out")]
    return one_box("a bad line", f"run 4 {workers} p i o", acts, BAD_VALUE, i=b"1\nx\n")


# The log of two supersteps of ADD_ONE on 1 and 2, block by block.
LOG = [
    ["end 0", "wire s to b.x empty", "wire b.y to t empty"],
    ["mid 1", "wire s to b.x empty", "wire b.y to t empty"],
    ["end 1", "wire s to b.x 1", "wire b.y to t empty"],
    ["mid 2", "wire s to b.x empty", "wire b.y to t empty"],
    ["end 2", "wire s to b.x 2", "wire b.y to t 2"],
]


def log_of(blocks):
    return "".join(f"{line}\n" for block in blocks for line in block).encode()


def recorded():
    start, first, second, third, last = (writes("l", *block) for block in LOG)
    acts = [wants("p"), *start, wants("i", b"1\n"), *first, *second, wants("i", b"2\n"), *third, *last, *finishes("l", "std_out")]
    return Case("a run that is recorded", "record 2 p l i o", {"p": ADD_ONE, "i": b"1\n2\n"}, acts, DONE, ["l", "o"])


def verified(name, log, line, status, supersteps=2):
    """So many supersteps are compared, and then this line is told."""
    acts = [wants("p"), wants("l"), *(supersteps * [wants("i"), wants("l")]), *writes("std_out", line), *finishes("std_out")]
    return Case(name, "verify 2 p l i o", {"p": ADD_ONE, "l": log, "i": b"1\n2\n"}, acts, status, ["o"])


def logs():
    """A log that is written, one that holds, and two that don't."""
    yield recorded()
    yield verified("a log that holds", log_of(LOG), "log holds", DONE)
    yield verified("a log whose last line is wrong", log_of(LOG)[:-2] + b"3\n", "log fails line 15 box b", LOG_FAILS)
    yield verified("a log that is wrong at once", b"end 1\n" + log_of(LOG)[6:], "log fails line 1", LOG_FAILS, 0)


def demo(workers):
    """The form `demo` by an example, if there is one: it reads nothing, and each of its lines goes to the standard output."""
    folder = os.path.join(TOP, "examples", "demo", "first_value")
    if not os.path.isdir(folder):
        return []
    words, out = (open(os.path.join(folder, it), encoding="utf-8").read().split("\n")[:-1] for it in ("words", "expected/stdout"))
    return [Case("the demo", " ".join([*words[:-1], str(workers)]), {}, [*writes("std_out", *out), *finishes("std_out")], DONE)]


def session(name, commands, acts, status, workers, **files):
    """A session of ADD_ONE, whose ports are the inputs `i` and `j` and the outputs `o` and `q`."""
    files = {"p": ADD_ONE, "i": b"1\n2\n", "j": b"7\n", **files}
    text = "".join(f"{line}\n" for line in commands).encode()
    return Case(name, f"console {workers} p i j o q", files, [wants("p"), *TABLE, *acts], status, ["o", "q"], text, True)


def exchanged(workers):
    """After three supersteps the stream of `i` goes on with `j`, and that of `o` with `q`. The 2 is put out in the fourth superstep, the 7 in
    the sixth."""
    told = writes("std_out", "wire s to b.x empty", "wire b.y to t empty")
    acts = [wants("std_in"), wants("i"), *writes("o", 2), wants("std_in"), wants("std_in"), *finishes("o"), wants("std_in"), wants("j")]
    acts += [*writes("q", 3, 8), wants("std_in"), *told, wants("std_in"), *PEAK, wants("std_in"), *finishes("q", "std_out")]
    commands = "step 3", "exchange s j", "exchange t q", "step 3", "wires", "peaks", "end"
    return session("a session with other ports", commands, acts, DONE, workers)


def told_and_blocked(workers):
    """Lines that are no command and no exchange, and a step that a bad line blocks."""
    acts = [wants("std_in"), *writes("std_out", "no command line 1"), wants("std_in"), *writes("std_out", "no exchange line 2"), wants("std_in"), wants("i")]
    acts += [*writes("std_out", "bad value s line 2"), *finishes("o", "std_out")]
    return session("a session that a bad line ends", ("look", "exchange s o", "step 2"), acts, BAD_VALUE, workers, i=b"1\nx\n")


def sessions(_):
    for workers in WORKERS:
        yield from (exchanged(workers), told_and_blocked(workers), session("a session without commands", (), [wants("std_in"), *finishes("o", "std_out")], DONE, workers))


def cases(width):
    """All calls. Lines of the inputs of the longest have so many digits."""
    for workers in WORKERS:
        yield from (add_one(workers), traced(workers), refused(workers), bad_value(workers), rewritten(workers), script_refused(workers), united(workers))
        yield from (*demo(workers), sum_and_difference(150, workers, width))
    yield checked()
    yield from logs()


def example(folder, workers):
    """The call of an example, by so many workers if it has any, whose acts are only known port by port."""
    def text(*path):
        whole = os.path.join(folder, *path)
        return open(whole, "rb").read() if os.path.isfile(whole) else b""

    outputs = [it for it in sorted(os.listdir(os.path.join(folder, "expected"))) if it not in NO_OUTPUTS]
    files = {it: text(it) for it in os.listdir(folder) if it not in NO_INPUTS and os.path.isfile(os.path.join(folder, it))}
    acts = [Act("writes", it, text("expected", it)) for it in outputs]
    acts.append(Act("writes", "std_out", text("expected", "table") + text("expected", "stdout")))
    words = text("words").decode().split()
    if words[0] in WORKERS_AT:
        words[WORKERS_AT[words[0]]] = str(workers)
    return Case(folder, " ".join(words), files, acts, int(text("expected", "status")), outputs, text("stdin"))
