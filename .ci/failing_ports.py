#!/usr/bin/env python3
"""Tries calls of the tool over ports in memory, of which each read, write and finish fails in turn, and over ports with room for fewer bytes
than they are owed. It compares the calls that were made, the status and what each port was given with what the call owed until then.

usage: failing_ports.py PROGRAM [whole]

PROGRAM is `trials`, whose ports tell each call. With `whole` the longest call is made by pieces of one byte too. A line tells each finding,
and the last one has the counts. Status 1 says that there are findings."""
import os
import re
import subprocess
import sys
import tempfile
from itertools import product

sys.dont_write_bytecode = True
from failing_cases import ADD_ONE, FAULT, WORKERS, add_one, cases  # noqa: E402

NO_PORT = "-"
WHOLE = 1_000_000
MOST_OF_SOURCE = 262_144
# more than any call writes to a port
ROOM = 1_000_000
# acts of a call that takes long by single bytes
MANY = 50
TWO_LINES = b"box b heap 0 stack 4 work 5\ntotal heap 0 stack 4\n"
THREE_LINES = TWO_LINES + b"peak b heap 0 stack 4\n"

# One box, four supersteps, the inputs 1 and 2: the port, its call that fails, the bytes that it takes, and what `std_out` and `o` then have.
TABLE = [
    ("p", 1, 0, b"", b""),
    ("i", 1, 0, TWO_LINES, b""),
    ("o", 1, 0, TWO_LINES, b""),
    ("o", 2, 1, TWO_LINES, b"2\n3"),
    ("o", 3, 0, THREE_LINES, b"2\n3\n"),
    ("std_out", 1, 3, b"box", b""),
    ("std_out", 4, 0, THREE_LINES, b"2\n3\n"),
]


class Trials:
    """A folder with the files of a case, in which its call is made over ports in memory."""

    def __init__(self, program, case):
        self.program, self.case, self.tried = program, case, 0
        self.folder = tempfile.TemporaryDirectory()
        for name, text in case.files.items():
            with open(os.path.join(self.folder.name, name), "wb") as file:
                file.write(text)

    def run(self, piece, port=NO_PORT, call=1, taken=0, room=ROOM):
        """The calls that were made, the status, and what each port was given."""
        self.tried += 1
        words = [str(piece), str(room), port, str(call), str(taken), *self.case.ports(), "--", *self.case.words.split()]
        out = subprocess.run([self.program, "call", *words], cwd=self.folder.name, capture_output=True, check=False).stdout
        told, _, rest = out.partition(b"status ")
        calls = [tuple(line.split(" ")) for line in told.decode().splitlines()]
        status, _, rest = rest.partition(b"\n")
        given = {}
        while rest:
            name, length, text = re.fullmatch(rb"given (\S+) (\d+)\n(.*)", rest, re.DOTALL).groups()
            given[name.decode()], rest = text[:int(length)], text[int(length):]
        return calls, int(status), given


def made(acts, calls):
    """How many acts these calls make, or none if they don't: each read is of the port that is wanted then, and each write and finish is
    the act itself."""
    at = 0
    for port, kind, *_ in calls:
        while at < len(acts) and acts[at].kind == "wants" and (kind, port) != ("read", acts[at].port):
            at += 1
        if at == len(acts) or acts[at].port != port or not acts[at].kind.startswith({"read": "want"}.get(kind, kind)):
            return None
        at += kind != "read"
    return at


def is_whole(case, run):
    calls, status, given = run
    places = made(case.acts, calls)
    is_made = places is not None and all(it.kind == "wants" for it in case.acts[places:])
    return is_made and status == case.status and all(given[it] == case.given(case.acts, it) for it in given)


def is_front(case, whole, place, run, taken):
    """Whether the run is the whole one until the call at that place, which failed."""
    (calls, status, given), call = run, whole[place]
    port, kind = call[:2]
    if calls != [*whole[:place], (port, kind, "fails")] or status != FAULT:
        return False
    acts = case.acts[:made(case.acts, whole[:place])]
    owed = {it: case.given(acts, it) for it in given}
    if kind == "write":
        owed[port] += next(it.text for it in case.acts[len(acts):] if it.kind == "writes")[:taken]
    return given == owed


def one_case(trials, piece):
    case, findings = trials.case, []
    unharmed = trials.run(piece)
    if not is_whole(case, unharmed):
        return [f"{case.name}, pieces of {piece}: the calls are not those that are owed"]
    whole, counts = unharmed[0], {}
    for place, (port, kind, *_) in enumerate(whole):
        counts[port] = counts.get(port, 0) + 1
        for taken in (0, 1, WHOLE) if kind == "write" else (0,):
            if not is_front(case, whole, place, trials.run(piece, port, counts[port], taken), taken):
                findings.append(f"{case.name}, pieces of {piece}: {kind} of {port}, its call {counts[port]}, taking {taken}")
    return findings


def first_short(whole, room):
    """The place of the first write that a port with that room doesn't take wholly, and how many bytes it takes, if there is one."""
    given = {}
    for place, (port, kind, *count) in enumerate(whole):
        if kind == "write":
            before, size = given.get(port, 0), int(count[0])
            if before + size > room:
                return place, room - before
            given[port] = before + size
    return None


def short_ports(program):
    """Ports with each room from none up to what the longest port is given. A write that doesn't fit takes what does, and is the last call."""
    tried, findings = 0, []
    for workers in WORKERS:
        trials = Trials(program, add_one(workers))
        whole = trials.run(4096)
        for room in range(max(len(it) for it in whole[2].values()) + 1):
            run, short = trials.run(4096, room=room), first_short(whole[0], room)
            if not (is_front(trials.case, whole[0], short[0], run, short[1]) if short else is_whole(trials.case, run)):
                findings.append(f"ports with room for {room} bytes, {workers} workers")
        tried += trials.tried
    return tried, findings


def by_hand(program):
    """The rows of the table, with pieces of 1 and 4,096 bytes."""
    tried, findings = 0, []
    for workers, piece in product(WORKERS, (1, 4096)):
        trials = Trials(program, add_one(workers))
        for port, call, taken, out, o in TABLE:
            _, status, given = trials.run(piece, port, call, taken)
            if (status, given["std_out"], given["o"], given["p"], given["i"]) != (FAULT, out, o, b"", b""):
                findings.append(f"by hand, {workers} workers, pieces of {piece}: call {call} of {port}, taking {taken}")
        tried += trials.tried
    return tried, findings


def long_source(program):
    """A source is read one byte past its limit and no further."""
    case = add_one()
    case.words, case.files = "check p", {"p": ADD_ONE + b" " * MOST_OF_SOURCE}
    calls, status, given = Trials(program, case).run(4096)
    count = sum(int(it[2]) for it in calls if it[:2] == ("p", "read"))
    is_right = (count, status, given["std_out"]) == (MOST_OF_SOURCE + 1, 2, b"refused 70 line 1\n")
    return [] if is_right else ["a source that is too long"]


def main(program, whole):
    tried, findings = by_hand(program)
    more_tried, more = short_ports(program)
    tried, findings = tried + more_tried, findings + more + long_source(program)
    for piece in (1, 4096):
        for case in cases(2 if piece == 1 else 100):
            if whole or piece > 1 or len(case.acts) < MANY:
                trials = Trials(program, case)
                findings += one_case(trials, piece)
                tried += trials.tried
    print(*findings, f"{tried} calls over ports in memory, {len(findings)} findings", sep="\n")
    sys.exit(1 if findings else 0)


if len(sys.argv) not in (2, 3) or sys.argv[2:] not in ([], ["whole"]):
    sys.exit(__doc__)
main(os.path.abspath(sys.argv[1]), sys.argv[2:] == ["whole"])
