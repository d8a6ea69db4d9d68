"""Runs of a program in a world that fails when it is told to (failing.c): what it wrote, how it ended, and each of its calls."""
import os
import shutil
import subprocess
import tempfile
from dataclasses import dataclass, replace

STANDARD = {0: "std_in", 1: "std_out", 2: "std_err"}
OLD = b"old\n"
FAILED, INTERRUPTED = -1, -2


@dataclass(frozen=True)
class Call:
    """An open, read or write of a port, and how many bytes it took; below 0 if it failed."""
    kind: str
    port: str
    count: int


@dataclass(frozen=True)
class Outcome:
    status: int
    given: dict
    calls: tuple
    growths: tuple

    def changed(self, **parts):
        return replace(self, **parts)


class World:
    """A folder with the files of a case, in which its call can be made again and again. Each output begins with some old bytes."""

    def __init__(self, library, program, case):
        self.library, self.program, self.case = library, program, case
        self.folder = tempfile.mkdtemp()
        for name, text in case.files.items():
            self.put(name, text)

    def __enter__(self):
        return self

    def __exit__(self, *_):
        shutil.rmtree(self.folder)

    def put(self, name, text):
        with open(os.path.join(self.folder, name), "wb") as file:
            file.write(text)

    def text(self, name):
        with open(os.path.join(self.folder, name), "rb") as file:
            return file.read()

    def run(self, **settings):
        """One call, with these settings of failing.c."""
        for name in self.case.outputs:
            self.put(name, OLD)
        with tempfile.TemporaryFile() as notes:
            world = {"LD_PRELOAD": self.library, "NOTES": str(notes.fileno()), **{name: str(it) for name, it in settings.items()}}
            words = [self.program, *self.case.words.split()]
            shared = {"cwd": self.folder, "env": world, "pass_fds": [notes.fileno()]}
            done = subprocess.run(words, input=self.case.standard_input, capture_output=True, check=False, **shared)
            notes.seek(0)
            calls, growths = read_notes(notes.read().decode())
        given = {name: self.text(name) for name in self.case.outputs}
        for name, text in self.case.files.items():
            assert self.text(name) == text, f"{name} was changed"
        return Outcome(done.returncode, {**given, "std_out": done.stdout}, calls, growths)


def read_notes(text):
    """The calls, and for each growth of memory how many calls came before it."""
    calls, growths, names = [], [], dict(STANDARD)
    for line in text.splitlines():
        if line.startswith("memory"):
            growths.append(len(calls))
            continue
        kind, port, count = line.split(" ")
        if kind == "open":
            names[int(count)] = port
        calls.append(Call(kind, port if kind == "open" else names[int(port)], int(count)))
    return tuple(calls), tuple(growths)
