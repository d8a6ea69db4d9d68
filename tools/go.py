"""hume go [STEPS] SOURCE [-j WORKERS] [--force]: runs a source in its folder, on the files that its streams name.

A file that it would write, and that no earlier `hume go` left there, is asked about. `.hume/written` in the folder has the sum of each
file that was written. No stream may have a port in that folder.
"""
import hashlib
import os
import sys

from program import Usage, call, command, is_number, read_bytes, read_source, report
from program import run as run_command
from source import read_net

USAGE = "usage: hume go [STEPS] SOURCE [-j WORKERS] [--force]"
STEPS = "1000"
FOLDER = ".hume"
NOTES = os.path.join(FOLDER, "written")
STANDARD = ("std_in", "std_out")


def words_of(words):
    """STEPS, SOURCE, WORKERS, and whether all files may be written."""
    words, workers = list(words), "1"
    force = "--force" in words
    if force:
        words.remove("--force")
    if "-j" in words:
        at = words.index("-j")
        workers = "".join(words[at + 1 : at + 2])
        del words[at : at + 2]
    steps = words.pop(0) if len(words) == 2 else STEPS
    if len(words) != 1 or not is_number(steps) or not is_number(workers) or words[0].startswith("-"):
        raise Usage(USAGE)
    return steps, words[0], workers, force


def sum_of(name):
    total = hashlib.sha256()
    with open(name, "rb") as file:
        while part := file.read(1 << 16):
            total.update(part)
    return total.hexdigest()


def notes():
    """The sums of the files that earlier runs wrote in this folder, by their names."""
    lines = os.fsdecode(read_bytes(NOTES)).split("\n") if os.path.exists(NOTES) else []
    return dict(reversed(line.split(" ", 1)) for line in lines if " " in line)


def check_ports(streams):
    """No port may lie where the notes are."""
    notes_at = os.path.realpath(FOLDER)
    for it in streams:
        if os.path.commonpath([notes_at, os.path.realpath(it.port)]) == notes_at:
            raise Usage(f"the stream {it.name} has the port '{it.port}', and '{FOLDER}' is kept for the notes of 'hume go'")


def marks(names):
    """What changes when a file is written, of each file that is there."""
    found = {}
    for name in names:
        if os.path.isfile(name):
            seen = os.stat(name)
            found[name] = (seen.st_dev, seen.st_ino, seen.st_ctime_ns, seen.st_size)
    return found


def is_foreign(name, known):
    """Whether a file is there, and isn't what an earlier run left."""
    return os.path.exists(name) and os.path.getsize(name) > 0 and known.get(name) != sum_of(name)


def may_write(name):
    if not sys.stdin.isatty():
        report(f"'{name}' is there and no earlier 'hume go' wrote it; --force writes it anew")
        return False
    print(f"'{name}' is there and no earlier 'hume go' wrote it. Write it anew? [y/N] ", end="", file=sys.stderr, flush=True)
    return sys.stdin.readline().strip().lower() in ("y", "yes")


def note(outputs, before, known):
    """Notes the files that the run has written, and no others."""
    after = marks(outputs)
    written = {it: sum_of(it) for it in after if after[it] != before.get(it)}
    if not written:
        return
    known |= written
    os.makedirs(FOLDER, exist_ok=True)
    with open(NOTES, "w", encoding="utf-8", errors="surrogateescape") as file:
        file.writelines(f"{total} {name}\n" for name, total in sorted(known.items()))


def run(steps, source, workers, force):
    """The run in the current folder."""
    check = call(["check", source])
    if check.returncode:
        sys.stdout.buffer.write(check.stdout)
        sys.stderr.buffer.write(check.stderr)
        return check.returncode
    streams = [it for it in read_net(read_source(source)).streams if it.port not in STANDARD]
    check_ports(streams)
    outputs, known = [it.port for it in streams if not it.incoming], notes()
    if not force and not all(may_write(it) for it in outputs if is_foreign(it, known)):
        return 1
    for it in streams:
        if it.incoming and not os.path.exists(it.port):
            report(f"the stream {it.name} reads the file '{it.port}', which isn't there")
            return 1
    before = marks(outputs)
    try:
        return run_command([command(), "run", steps, workers, source, *(it.port for it in streams)])
    finally:
        note(outputs, before, known)


def main(_, words):
    steps, source, workers, force = words_of(words)
    read_source(source)
    if "HUME_PROGRAM" in os.environ:
        os.environ["HUME_PROGRAM"] = os.path.abspath(command())
    folder, name = os.path.split(source)
    os.chdir(folder or ".")
    return run(steps, name, workers, force)
