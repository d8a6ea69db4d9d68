"""hume test [--bless | --cover] [FOLDER..]: runs the program in every folder that has `words`, and compares what it does with `expected/`.

An example's folder has its inputs, `words` (a word of the call on each line) and maybe `stdin`. `expected/` has `status`, the `table` of
bounds, the rest of the standard output (`stdout`) and each file that is written. `expected/taken` has the superstep in which each value
is taken, in lines `SUPERSTEP STREAM VALUE`. `expected.py STREAM` works the values of a stream out in its own way.
"""
import os
import subprocess
import sys
from concurrent.futures import ThreadPoolExecutor

from covering import Sources
from program import TOP, Usage, built, is_number, running
from room import Room, names, read, words_of

NOT_OUTPUTS = ("status", "table", "taken", "stdout")
# which word of a call is WORKERS, and the numbers that are tried
WORKERS_AT = {"run": 2, "trace": 2, "calc": 2, "union": 2, "demo": 3, "console": 1}
# which word of a call is SOURCE, where it isn't the word 3
SOURCE_AT = {"check": 1, "console": 2}
WORKERS = ("1", "2", "3", "5", "16")


def first_difference(what, wanted, found):
    """None where the texts are the same; else their first line that differs."""
    if wanted == found:
        return None
    old, new = wanted.split(b"\n"), found.split(b"\n")
    at = next((n for n, (a, b) in enumerate(zip(old, new)) if a != b), min(len(old), len(new)))
    shown = [repr(it[at].decode("utf-8", "backslashreplace"))[:200] if at < len(it) else "nothing more" for it in (old, new)]
    return f"{what}, line {at + 1}: wanted {shown[0]}, found {shown[1]}"


def file_differences(wanted, found):
    """The first difference of two tables of files."""
    for name in sorted(wanted.keys() | found.keys()):
        if name not in found:
            return f"file {name}: wanted, and not written"
        if name not in wanted:
            return f"file {name}: written, and not wanted"
        if difference := first_difference(f"file {name}", wanted[name], found[name]):
            return difference
    return None


def outputs(example):
    return [it for it in names(example, "expected") if it not in NOT_OUTPUTS]


def compare_call(example):
    """The call of the words: every byte that it writes, and its status."""
    wanted = os.path.join(example, "expected")
    with Room(example) as room:
        files = room.files() | {it: read(wanted, it) for it in outputs(example)}
        done = room.call(words_of(example))
        # A call that fails may say why, in one line.
        told = done.stderr if done.returncode and done.stderr.count(b"\n") == 1 else b""
        return (
            first_difference("status", read(wanted, "status").strip(), str(done.returncode).encode())
            or first_difference("standard output", read(wanted, "table") + read(wanted, "stdout"), done.stdout)
            or first_difference("standard error", told, done.stderr)
            or file_differences(files, room.files())
        )


def has_workers(example):
    """Whether the words of the call have a form, with a number of workers."""
    return words_of(example)[0] in WORKERS_AT and read(example, "expected", "status").strip() != b"1"


def compare_with(example, workers):
    """The call with so many workers writes the same bytes and ends alike."""
    words, wanted = words_of(example), os.path.join(example, "expected")
    words[WORKERS_AT[words[0]]] = workers
    with Room(example) as room:
        files = room.files() | {it: read(wanted, it) for it in outputs(example)}
        done = room.call_program(words)
        difference = (
            first_difference("status", read(wanted, "status").strip(), str(done.returncode).encode())
            or first_difference("standard output", read(wanted, "table") + read(wanted, "stdout"), done.stdout)
            or file_differences(files, room.files())
        )
        return f"with {workers} workers: {difference}" if difference else None


def compare_workers(example):
    """Other numbers of workers write the same bytes and end alike."""
    if not has_workers(example):
        return None
    own = words_of(example)[WORKERS_AT[words_of(example)[0]]]
    return next((difference for it in WORKERS if it != own and (difference := compare_with(example, it))), None)


def compare_check(example):
    """A check of the same source writes the table, and nothing else. What a script makes of a source, or a union, has a table of its own."""
    words, table = words_of(example), read(example, "expected", "table")
    at = SOURCE_AT.get(words[0], 3)
    if not table or words[0] in ("calc", "union") or len(words) <= at:
        return None
    with Room(example) as room:
        files = room.files()
        done = room.call_program(["check", words[at]])
        return (
            first_difference("status of a check", b"0", str(done.returncode).encode())
            or first_difference("standard output of a check", table, done.stdout)
            or first_difference("standard error of a check", b"", done.stderr)
            or file_differences(files, room.files())
        )


def compare_counts(example):
    """After each number of supersteps a stream has just the values that are taken by then."""
    words = words_of(example)
    lines = [it.split(b" ", 2) for it in read(example, "expected", "taken").split(b"\n")[:-1]]
    if not lines:
        return None
    if not all(len(it) == 3 and it[0].isdigit() for it in lines) or not all(map(is_number, words[1:2])):
        raise Usage(f"{os.path.relpath(example)}/expected/taken needs lines SUPERSTEP STREAM VALUE, and words a number of supersteps")
    for steps in range(int(words[1]) + 1):
        with Room(example) as room:
            files = room.files()
            for name in outputs(example):
                values = [it[2] for it in lines if int(it[0]) <= steps and it[1].decode() == name]
                files[name] = b"".join(it + b"\n" for it in values)
            room.call_program(["run", str(steps), *words[2:]])
            if difference := file_differences(files, room.files()):
                return f"by superstep {steps}: {difference}"
    return None


def compare_worked_out(example):
    """What the example's own script says of each stream is what is stored."""
    script = os.path.join(os.path.abspath(example), "expected.py")
    if not os.path.exists(script):
        return None
    stored = {it: read(example, "expected", it) for it in outputs(example)}
    shown = read(example, "expected", "stdout").splitlines(keepends=True)
    if values := b"".join(it for it in shown if not it.startswith(b"peak ")):
        stored["stdout"] = values
    for name, text in stored.items():
        done = subprocess.run([sys.executable, script, name], capture_output=True)
        if difference := first_difference(f"{name} as expected.py works it out", text, done.stdout + done.stderr):
            return difference
    return None


def compare(example):
    for part in (compare_call, compare_workers, compare_check, compare_counts, compare_worked_out):
        if difference := part(example):
            return difference
    return None


def compare_all(examples):
    """Each example with its first difference or none, in order; as many are tried at once as there are processors."""
    pool = ThreadPoolExecutor(len(os.sched_getaffinity(0)))
    try:
        yield from zip(examples, pool.map(compare, examples))
    except BaseException:
        for process in list(running):
            process.terminate()
        raise
    finally:
        pool.shutdown(wait=False, cancel_futures=True)


def bless_all(examples):
    for example in examples:
        bless(example)
        print(f"written: {os.path.relpath(example)}/expected", flush=True)
    return 0


def bless(example):
    """Writes `expected/` anew, but `taken`, from what the program does now."""
    wanted = os.path.join(example, "expected")
    os.makedirs(wanted, exist_ok=True)
    for name in names(wanted):
        if name != "taken":
            os.remove(os.path.join(wanted, name))
    with Room(example) as room:
        files = room.files()
        done = room.call(words_of(example))
        written = {it: text for it, text in room.files().items() if files.get(it) != text}
    table, rest = [], done.stdout.splitlines(keepends=True)
    while rest and rest[0].startswith((b"box ", b"total ")):
        table.append(rest.pop(0))
    written |= {"status": f"{done.returncode}\n".encode(), "table": b"".join(table), "stdout": b"".join(rest)}
    for name, text in written.items():
        if text or name not in ("table", "stdout"):
            with open(os.path.join(wanted, name), "wb") as file:
                file.write(text)


def examples_below(folders):
    """The folders that have `words`, at and below these."""
    found = []
    for folder in folders:
        if not os.path.isdir(folder):
            raise Usage(f"there is no folder '{folder}'")
        inside = sorted(at for at, _, files in os.walk(folder) if "words" in files)
        if not inside:
            raise Usage(f"no folder in '{folder}' has a file 'words'")
        found += inside
    return found


def try_all(examples):
    """Prints what comes of each example, and gives how many fail."""
    failed = 0
    for example, difference in compare_all(examples):
        failed += difference is not None
        shown = os.path.relpath(example)
        print(f"FAILED: {shown}: {difference}" if difference else f"passed: {shown}", flush=True)
    print(f"{len(examples) - failed} passed, {failed} failed")
    return failed


def cover_all(examples):
    """Prints what the examples cover of their sources."""
    sources = Sources()
    for example in examples:
        sources.add(example)
    for line in sources.lines():
        print(line)


def main(_, words):
    options = {it for it in words if it.startswith("-")}
    if options - {"--bless", "--cover"} or len(options) > 1:
        raise Usage("usage: hume test [--bless | --cover] [FOLDER..]")
    Room.program = built()
    examples = examples_below([it for it in words if it not in options] or [os.path.join(TOP, "examples")])
    if "--bless" in options:
        return bless_all(examples)
    failed = try_all(examples)
    if "--cover" in options:
        cover_all(examples)
    return 1 if failed else 0
