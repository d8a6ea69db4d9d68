"""An example's folder, and fresh folders with its inputs in which the program runs."""
import os
import shutil
import tempfile

from program import Usage, call

NOT_INPUTS = ("words", "README.md", "expected.py", "expected", "stdin")


def read(*path):
    """The bytes of the file; none where there is no such file."""
    try:
        with open(os.path.join(*path), "rb") as file:
            return file.read()
    except FileNotFoundError:
        return b""


def names(*path):
    folder = os.path.join(*path)
    return sorted(os.listdir(folder)) if os.path.isdir(folder) else []


class Room:
    """A fresh folder with the inputs of an example, in which the program runs."""

    program = None

    def __init__(self, example):
        self.example = example

    def __enter__(self):
        self.path = tempfile.mkdtemp(prefix="hume-test-")
        for name in names(self.example):
            if name not in NOT_INPUTS:
                whole = os.path.join(self.example, name)
                (shutil.copytree if os.path.isdir(whole) else shutil.copy)(whole, os.path.join(self.path, name))
        return self

    def __exit__(self, *_):
        shutil.rmtree(self.path)

    def call(self, words):
        """The call as a user makes it, by the command."""
        return call(words, self.path, read(self.example, "stdin"))

    def call_program(self, words):
        """The same by the built program itself, which takes less time."""
        return call(words, self.path, read(self.example, "stdin"), self.program)

    def files(self):
        """Every file in the room, with its bytes."""
        found = {}
        for folder, _, inside in os.walk(self.path):
            for name in inside:
                whole = os.path.join(folder, name)
                found[os.path.relpath(whole, self.path)] = read(whole)
        return found


def words_of(example):
    """The words of the call; one at least."""
    words = os.fsdecode(read(example, "words")).split("\n")[:-1]
    if not words:
        raise Usage(f"{os.path.relpath(example)}/words has no line: it needs a line for each word of a call")
    return words
