#!/usr/bin/env python3
"""Tries the program where each of its calls of the system, and each growth of its memory, fails in turn, and compares what it leaves with what it
owed until then.

usage: failing.py calls LIBRARY PROGRAM [whole]       each open, read and write fails, once or from then on
       failing.py sessions LIBRARY PROGRAM            the same in sessions
       failing.py memory LIBRARY PROGRAM FOLDER..     each growth of memory is refused, in the call of each folder with `words` as in examples/
       failing.py judge LIBRARY PROGRAM               outcomes that are wrong in one part, each of which has to be found

LIBRARY is failing.c as a shared library. A line tells each finding, and the last one has the counts. Status 1 says that there are findings."""
import os
import sys

sys.dont_write_bytecode = True
from failing_cases import FAULT, NO_MEMORY, WORKERS, add_one, cases, example, sessions  # noqa: E402
from failing_world import FAILED, OLD, Call, World  # noqa: E402

PIECES = 1, 4096


def reached(case, calls):
    """How many acts were made before the last of the calls, or none where the calls are not those of the acts. An input is opened and
    read by wants, the next one once the bytes of a want were read. A line for the standard output is one write or several. Lines for a
    file wait until the finish, or for room, unless they are direct."""
    acts, at, part, read = case.acts, 0, 0, 0
    for call in calls:
        if call.port == "std_out" or case.is_direct and call.kind == "write":
            at = at if part else after(acts, at, "writes", call.port)
            if at is None:
                return None
            part += max(call.count, 0)
            if part == len(acts[at].text):
                at, part = at + 1, 0
        elif part:
            return None
        else:
            is_read = 0 < len(acts[at].text) <= read
            there = after(acts, at + is_read, "wants", call.port)
            before, at = at, there if there is not None else output_at(acts, at, call)
            if at is None:
                return None
            read = (read if at == before else 0) + (max(call.count, 0) if call.kind == "read" else 0)
    return at


def after(acts, at, kind, port):
    """The place of the next such act, unless a line for the standard output comes before it."""
    for place in range(at, len(acts)):
        if (acts[place].kind, acts[place].port) == (kind, port):
            return place
        if acts[place].kind == "writes" and acts[place].port == "std_out":
            return None
    return None


def output_at(acts, at, call):
    """The next act that opens or writes an output: a finish writes what waits."""
    places = [after(acts, at, kind, call.port) for kind in (("finishes",) if call.kind == "write" else ("writes", "finishes"))]
    return min((it for it in places if it is not None), default=None)


def owed_wholly(case, outcome):
    """Why the outcome isn't that of a call in which nothing failed."""
    if outcome.status != case.status:
        return f"status {outcome.status} and not {case.status}"
    for port in (*case.outputs, "std_out"):
        owed = case.given(case.acts, port)
        is_touched = any(it.port == port and it.kind != "wants" for it in case.acts)
        if outcome.given[port] != (owed if is_touched or port == "std_out" else OLD):
            return f"{port} has other bytes"
    return None


def front_of(case, outcome, whole, at_most, persistent):
    """Why the outcome isn't that of a call of which the last of the calls of `whole` through its end failed."""
    if outcome.status != FAULT:
        return f"status {outcome.status}"
    if len(outcome.calls) < at_most:
        return "calls are missing"
    calls, failed = outcome.calls, outcome.calls[at_most - 1]
    if calls[:at_most - 1] != whole.calls[:at_most - 1] or (failed.kind, failed.count) != (whole.calls[at_most - 1].kind, FAILED):
        return "other calls come before the one that fails"
    opened = {it.port for it in calls[:at_most] if it.kind == "open"}
    if any(it.kind != "write" or it.port not in opened for it in calls[at_most:]):
        return "a call follows on the one that failed"
    made = reached(case, [*calls[:at_most - 1], Call(failed.kind, failed.port, 0)])
    if made is None:
        return "the calls are not those that are owed"
    for port in (*case.outputs, "std_out"):
        why = given_until(case, outcome, port, made, at_most, persistent)
        if why:
            return why
    return None


def given_until(case, outcome, port, made, at_most, persistent):
    """Why the port hasn't what acts before the one that failed gave to it. Lines that wait are put out if only one call fails."""
    calls, failed, given = outcome.calls, outcome.calls[at_most - 1], outcome.given[port]
    owed = case.given(case.acts[:made], port)
    out = sum(it.count for it in calls if (it.kind, it.port) == ("write", port) and it.count > 0)
    if port == "std_out":
        owed += case.given(case.acts[made:made + 1], port)[:out - len(owed)] if out > len(owed) else b""
        return None if given == owed and out == len(owed) else "the standard output has other bytes"
    if not any((it.kind, it.port) == ("open", port) and it.count >= 0 for it in calls):
        return None if given == OLD else f"{port} isn't left as it was"
    if case.acts[made].kind == "writes" and case.acts[made].port == port:
        owed += case.acts[made].text
    if not owed.startswith(given) or len(given) != out:
        return f"{port} has other bytes"
    if not persistent and failed.port != port and given != owed:
        return f"{port} lacks lines"
    return None


def try_calls(world, piece, is_once):
    """Each call fails in turn. What was tried, and the findings."""
    case = world.case
    whole = world.run(PIECE=piece)
    why = owed_wholly(case, whole) or ("" if reached(case, whole.calls) is not None else "the calls are not those that are owed")
    if why:
        return 1, [f"unharmed: {why}"]
    findings = []
    for number in range(1, len(whole.calls) + 1):
        outcome = world.run(PIECE=piece, **{"FAIL_CALL" if is_once else "FAIL_FROM": number})
        why = front_of(case, outcome, whole, number, not is_once)
        if why:
            findings.append(f"call {number}, {whole.calls[number - 1]}: {why}")
    return len(whole.calls), findings


def interrupted(world):
    why = owed_wholly(world.case, world.run(PIECE=1, INTERRUPTED=1))
    return [f"interrupted at each second call: {why}"] if why else []


def stuck(world):
    """Reads bring nothing, so that each source is empty, and no write takes anything."""
    outcome = world.run(PIECE=0)
    is_fault = outcome.status == FAULT and not outcome.given["std_out"]
    return [] if is_fault else ["writes that take nothing: no fault"]


def all_calls(library, program, calls, whole):
    """How many calls failed in turn, and the findings."""
    tried, findings = 0, []
    for piece in PIECES:
        for case in calls(2 if piece == 1 else 100):
            if piece == 1 and len(case.acts) > 50 and not whole:
                continue
            with World(library, program, case) as world:
                found = interrupted(world) + stuck(world)
                for is_once in (True, False):
                    count, more = try_calls(world, piece, is_once)
                    tried += count
                    found += more
            findings += [f"{case.name}, pieces of {piece}: {it}" for it in found]
    return f"{tried} calls failed", findings


def try_growths(world):
    """Each growth is refused in turn: how many calls were then out of memory, faults and done, and the findings."""
    case = world.case
    whole = world.run()
    why = owed_wholly(case, whole)
    if why:
        return [0, 0, 0], [f"unharmed: {why}"]
    counts, findings = [0, 0, 0], []
    for number in range(1, len(whole.growths) + 1):
        outcome = world.run(FAIL_MEMORY=number)
        why = refused(case, whole, outcome, number)
        findings += [f"growth {number}: {why}"] if why else []
        for place, status in enumerate((NO_MEMORY, FAULT, case.status)):
            counts[place] += outcome.status == status
    return counts, findings


def refused(case, whole, outcome, number):
    """Why the outcome isn't one of a call of which this growth was refused: out of memory with nothing written, or wholly done. A growth
    just behind the opening of an output is that of its buffer, and makes a fault of the write."""
    if outcome.status == NO_MEMORY:
        is_clean = all(outcome.given[it] == OLD for it in case.outputs) and not outcome.given["std_out"]
        return None if is_clean and not any(it.kind == "write" for it in outcome.calls) else "something was written"
    before = whole.calls[:whole.growths[number - 1]]
    if outcome.status == FAULT and before and before[-1].kind == "open" and before[-1].port in case.outputs:
        opened = {it.port for it in before if it.kind == "open"} & set(case.outputs)
        is_front = all(case.given(case.acts, it).startswith(outcome.given[it]) for it in (*opened, "std_out"))
        return None if is_front and not outcome.given[before[-1].port] else "a port has other bytes"
    return owed_wholly(case, outcome)


def all_growths(library, program, folders):
    total, findings = [0, 0, 0], []
    for folder in folders:
        for workers in WORKERS:
            with World(library, program, example(folder, workers)) as world:
                counts, found = try_growths(world)
            total = [first + second for first, second in zip(total, counts)]
            findings += [f"{folder}, {workers} workers: {it}" for it in found]
            print(f"{folder}: {sum(counts)} growths, {told(counts)}", flush=True)
    return f"{sum(total)} growths were refused: {told(total)}", findings


def told(counts):
    return f"{counts[0]} out of memory, {counts[1]} faults, {counts[2]} done"


def wrong_outcomes(case, outcome):
    """The outcome with one part changed: none of them is right."""
    yield "another status", outcome.changed(status=case.status)
    yield "out of memory", outcome.changed(status=NO_MEMORY)
    yield "one more call", outcome.changed(calls=(*outcome.calls, Call("read", "i", 1)))
    yield "one call less", outcome.changed(calls=outcome.calls[1:])
    for port in (*case.outputs, "std_out"):
        text = outcome.given[port]
        for what, other in (("a byte more", text + b"1"), ("a byte less", text[:-1]), ("nothing", b""), ("all", case.given(case.acts, port))):
            if other != text:
                yield f"{what} in {port}", outcome.changed(given={**outcome.given, port: other})


def judged(library, program):
    """Each wrong outcome of each failing call of a small run has to be found."""
    case, tried, findings = add_one(), 0, []
    with World(library, program, case) as world:
        whole = world.run(PIECE=4096)
        for number in range(1, len(whole.calls) + 1):
            for what, outcome in wrong_outcomes(case, world.run(PIECE=4096, FAIL_FROM=number)):
                tried += 1
                findings += [] if front_of(case, outcome, whole, number, True) else [f"call {number}: {what} isn't found"]
    return f"{tried} wrong outcomes", findings


def main(words):
    if words[:1] == ["calls"] and len(words) in (3, 4):
        said, findings = all_calls(*words[1:3], cases, words[3:] == ["whole"])
    elif words[:1] == ["sessions"] and len(words) == 3:
        said, findings = all_calls(*words[1:], sessions, True)
    elif words[:1] == ["memory"] and len(words) > 3:
        said, findings = all_growths(*words[1:3], words[3:])
    elif words[:1] == ["judge"] and len(words) == 3:
        said, findings = judged(*words[1:])
    else:
        sys.exit(__doc__)
    print(*findings, f"{said}, {len(findings)} findings", sep="\n")
    sys.exit(1 if findings else 0)


main(sys.argv[1:])
