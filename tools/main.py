#!/usr/bin/env python3
"""The words of `./hume` that stand beside the proved program: docs/COMMANDS.md has a section for each."""
import errno
import importlib
import os
import signal
import sys

sys.dont_write_bytecode = True
from program import Ended, Usage, report  # noqa: E402

WORDS = {
    "test": "examples",
    "go": "go",
    "live": "live",
    "watch": "watch",
    "cover": "cover",
    "vcd": "waves",
    "waves": "waves",
    "page": "page",
    "net": "net",
    "c": "targets",
    "server": "server",
    "install": "install",
    "uninstall": "install",
}
CAUSES = {errno.EBADF: "it is closed", errno.ENOSPC: "no space left", errno.EFBIG: "it is as long as a file may be (ulimit -f)"}


def cause(error):
    """What failed, and why: a file, or where none is named a write to the standard output."""
    if error.filename is not None:
        return f"{error.filename2 or error.filename!r}: {error.strerror}"
    return f"can't write the standard output: {CAUSES[error.errno]}" if error.errno in CAUSES else error.strerror or str(error)


def stop(number, _):
    raise Ended(number)


def end_by(number):
    """Ends this process by the signal."""
    signal.signal(number, signal.SIG_DFL)
    os.kill(os.getpid(), number)


def answer(words):
    """The status of the word; what it prints is out then."""
    try:
        status = importlib.import_module(WORDS[words[0]]).main(words[0], words[1:])
        sys.stdout.flush()
        return status
    except Usage as error:
        report(error)
        return 1
    except BrokenPipeError:
        end_by(signal.SIGPIPE)
    except OSError as error:
        report(cause(error))
        return 4
    except MemoryError:
        report("out of memory")
        return 5
    except Ended as error:
        end_by(error.number)


def main(words):
    if not words or words[0] not in WORDS:
        report("the words are " + ", ".join(WORDS))
        return 1
    for stream in (sys.stdout, sys.stderr):
        stream.reconfigure(errors="backslashreplace")
    for number in (signal.SIGHUP, signal.SIGINT, signal.SIGTERM):
        if signal.getsignal(number) != signal.SIG_IGN:
            signal.signal(number, stop)
    status = answer(words)
    # What is left in the buffer after a failed write would fail again.
    os.dup2(os.open(os.devnull, os.O_WRONLY), 1)
    return status


if __name__ == "__main__":
    sys.exit(main(sys.argv[1:]))
