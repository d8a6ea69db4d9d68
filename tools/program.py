"""Calls the program: the command `./hume`, or the one that the variable HUME_PROGRAM names. Reads words and files as the program does."""
import os
import re
import signal
import subprocess
import sys
import tempfile
import threading
from contextlib import contextmanager

TOP = os.path.dirname(os.path.dirname(os.path.realpath(__file__)))
MOST_STEPS = 1_000_000
MOST_SOURCE_BYTES = 262_144


# The processes that run now.
running = set()


class Usage(Exception):
    """The words have no form, or a file that they name can't be read."""


class Ended(Exception):
    """A signal that ends this process."""

    def __init__(self, number):
        super().__init__(number)
        self.number = number


def command():
    return os.environ.get("HUME_PROGRAM") or os.path.join(TOP, "hume")


def built():
    """The built program itself, which `./hume` runs."""
    return os.environ.get("HUME_PROGRAM") or os.path.join(TOP, "dist", "hume-x86_64-linux")


def is_number(word, most=MOST_STEPS):
    """Whether the word is a number of at most nine digits, and no greater than `most`."""
    return re.fullmatch("[0-9]{1,9}", word) is not None and int(word) <= most


@contextmanager
def started(words, **how):
    """A process that runs while the block does. What ends the block ends it too; a signal is passed on to it."""
    with subprocess.Popen(words, **how) as process:
        running.add(process)
        try:
            yield process
        except BaseException as error:
            process.send_signal(error.number if isinstance(error, Ended) else signal.SIGTERM)
            raise
        finally:
            running.discard(process)


def run(words):
    """Runs a command on the standard streams of this process, and gives its status."""
    with started(words) as process:
        return process.wait()


def call(words, folder=".", given=b"", program=None):
    """Runs the program to its end; gives what it wrote and its status. It need not read what it is given."""
    with tempfile.TemporaryFile() as file:
        file.write(given)
        file.seek(0)
        words = [program or command(), *words]
        with started(words, cwd=folder, stdin=file, stdout=subprocess.PIPE, stderr=subprocess.PIPE) as process:
            shown, told = process.communicate()
    return subprocess.CompletedProcess(words, process.returncode, shown, told)


class Passed:
    """A standard input that is handed on to a process as far as it is read there. `bytes` is what was handed on."""

    def __init__(self, given, pipe):
        self.bytes, self.has_ended = bytearray(), False
        self.thread = threading.Thread(target=self.pass_on, args=(given, pipe), daemon=True)
        self.thread.start()

    def pass_on(self, given, pipe):
        try:
            while part := given.read1(4096):
                self.bytes += part
                pipe.write(part)
                pipe.flush()
            self.has_ended = True
            pipe.close()
        except (OSError, ValueError):
            pass

    def is_all(self):
        """Whether the input has ended, as is known once the process has."""
        self.thread.join(0.2)
        return self.has_ended


def read_bytes(path, most=-1):
    """The bytes of the file, or the first of them."""
    try:
        with open(path, "rb") as file:
            return file.read(most)
    except OSError as error:
        raise Usage(f"{path}: {error.strerror}") from None


def read_source(path):
    """A source, or as much of a longer one as the program reads."""
    return read_bytes(path, MOST_SOURCE_BYTES + 1)


def report(text):
    """Tells one line on the standard error, whatever names are in it."""
    line = re.sub(r"[\x00-\x1f\x7f]", lambda it: repr(it[0])[1:-1], str(text))
    print(f"hume: {line}", file=sys.stderr)
