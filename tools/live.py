"""hume live SOURCE [PORT..] [-j WORKERS] [--force]: a run that goes on with the world, superstep by superstep.

Each superstep is made by the proved session `hume console`, on the command `step 1`, and the commands are given ahead. So this process
isn't between a sensor and an actuator: the session reads from the ports and writes to them itself, and each line is out at once.
"""
import os
import stat
import sys
import tempfile
import threading
from contextlib import ExitStack, suppress

from following import Following, Outcome
from go import STANDARD, check_ports, is_foreign, marks, may_write, note, notes
from program import Usage, call, is_number, read_source, report, started
from session import Bell, Session, SessionWords
from source import read_net

USAGE = "usage: hume live SOURCE [PORT..] [-j WORKERS] [--force]"
# How long a session may take to end after Ctrl-C: one that waits for an input doesn't end by itself.
PATIENCE, LONG = 0.5, 1 << 20


def words_of(words):
    """SOURCE, the PORTs, WORKERS, and whether all files may be written."""
    words, workers = list(words), "1"
    force = "--force" in words
    if force:
        words.remove("--force")
    if "-j" in words:
        at = words.index("-j")
        workers = "".join(words[at + 1 : at + 2])
        del words[at : at + 2]
    if not words or not is_number(workers) or words[0].startswith("-"):
        raise Usage(USAGE)
    return words[0], words[1:], workers, force


def is_kind(port, kind):
    """Whether there is a file of that name, and it is of this kind (a function of `stat`)."""
    try:
        return kind(os.stat(port).st_mode)
    except OSError:
        return False


def hold(port):
    """Opens a FIFO that is an output, once somebody reads from it, until this process ends."""
    with suppress(OSError):
        os.open(port, os.O_WRONLY)


def hold_outputs(net):
    """Whoever reads from a FIFO that is an output needn't wait for the first value to open it."""
    for it in net.streams:
        if not it.incoming and is_kind(it.port, stat.S_ISFIFO):
            threading.Thread(target=hold, args=(it.port,), daemon=True).start()


def check_output(ports):
    """The standard output may be no file that is a port."""
    seen = os.fstat(1)
    for it in ports:
        if stat.S_ISREG(seen.st_mode) and os.path.exists(it) and os.path.samestat(seen, os.stat(it)):
            raise Usage(f"'{it}' and the standard output are one file")


def named(port):
    """The port in a message."""
    return "the standard input" if port == "std_in" else f"the port '{port}'"


def tell_inputs(followed):
    """Why nothing can change: which inputs have ended, and which can't be taken. Of files nothing is told."""
    parts = []
    for it in followed.net.streams:
        if it.incoming and not is_kind(it.port, stat.S_ISREG):
            wire = next(n for n, wire in enumerate(followed.net.wires) if wire.start == it.name)
            why = "has ended" if followed.state[wire] == "empty" else "has values that nobody takes"
            parts.append(f"{named(it.port)} of stream {it.name} {why}")
    if parts:
        report(f"nothing can change after superstep {followed.made}: " + ", ".join(parts))


def tell_bad_line(followed):
    """The port and the line that the session couldn't read."""
    _, _, name, _, line = followed.ending.split(" ")
    print(f"{followed.net.stream(name).port}:{line}: no value of the type of stream {name}", file=sys.stderr)


def end(followed, outcome, process):
    """Ends the session, writes the last peaks, and gives the status."""
    is_done = outcome is Outcome.ENDED or followed.close(PATIENCE if outcome is Outcome.RUNG else LONG)
    if not is_done:
        process.terminate()
    status = process.wait()
    if status == 0 or not is_done:
        sys.stdout.write("".join(f"{it}\n" for it in followed.peaks))
    if not is_done:
        report(f"Ctrl-C while a port was waited for: the peaks are those after superstep {followed.made}")
        return 0
    if outcome is Outcome.USED_UP:
        report(f"a session has no more commands, so this one ends after superstep {followed.made}")
    elif outcome is Outcome.STANDS and status == 0:
        tell_inputs(followed)
    return status


def run(source, ports, workers):
    """The run in the current folder."""
    check_output(ports)
    with ExitStack() as stack:
        words = SessionWords(source, ports, workers, stack)
        told = stack.enter_context(tempfile.TemporaryFile())
        bell, pipes = Bell(stack), {"stdin": -1, "stdout": -1, "stderr": told}
        hold_outputs(words.net)
        passed = [] if words.input is None else [words.input]
        process = stack.enter_context(started(words.words, restore_signals=False, pass_fds=passed, **pipes))
        bell.listen()
        followed = Following(words.net, Session(process, bell.file))
        status = end(followed, followed.follow(), process)
        told.seek(0)
        if status == 3 and followed.ending:
            tell_bad_line(followed)
        elif status:
            sys.stderr.write(words.told(told.read().decode(errors="replace")))
        return status


def run_in_folder(source, workers, force):
    """The run in the folder of the source, on the files that its streams name, as `hume go` makes it."""
    folder, name = os.path.split(source)
    os.chdir(folder or ".")
    streams = [it for it in read_net(read_source(name)).streams if it.port not in STANDARD]
    check_ports(streams)
    outputs, known = [it.port for it in streams if not it.incoming], notes()
    if not force and not all(may_write(it) for it in outputs if is_foreign(it, known)):
        return 1
    before = marks(outputs)
    try:
        return run(name, [it.port for it in streams], workers)
    finally:
        note(outputs, before, known)


def main(_, words):
    source, ports, workers, force = words_of(words)
    read_source(source)
    check = call(["check", source])
    if check.returncode:
        sys.stdout.buffer.write(check.stdout)
        sys.stderr.buffer.write(check.stderr)
        return check.returncode
    return run(source, ports, workers) if ports else run_in_folder(source, workers, force)
