"""What the tests share: the modules of tools/, fresh folders with files in them, and calls of `./hume`."""
import os
import shutil
import subprocess
import sys
import tempfile
import unittest

sys.dont_write_bytecode = True
TOP = os.path.dirname(os.path.dirname(os.path.dirname(os.path.realpath(__file__))))
sys.path.insert(0, os.path.join(TOP, "tools"))

from program import built  # noqa: E402

# The program is looked for once, and not in each call.
os.environ.setdefault("HUME_PROGRAM", built())


def hume(*words, folder=".", given=b""):
    """Calls `./hume` with the words; a word of tools/ by these tools, so that HUME_PROGRAM holds in them."""
    done = subprocess.run([sys.executable, os.path.join(TOP, "tools", "main.py"), *words], cwd=folder, input=given, capture_output=True)
    return done.returncode, done.stdout.decode(), done.stderr.decode()


def sources():
    """The sources of examples/ that are accepted, as paths."""
    found = []
    for folder, _, files in os.walk(os.path.join(TOP, "examples")):
        if "words" in files:
            with open(os.path.join(folder, "expected", "status"), encoding="ascii") as file:
                status = file.read().strip()
            found += [os.path.join(folder, it) for it in files if it.endswith(".hume") and status in ("0", "3")]
    return sorted(found)


def programs():
    """All sources of examples/, refused ones too."""
    found = [os.path.join(at, it) for at, _, files in os.walk(os.path.join(TOP, "examples")) for it in files if it.endswith(".hume")]
    return sorted(found)


class InRoom(unittest.TestCase):
    """A test in a fresh folder."""

    def setUp(self):
        self.room = tempfile.mkdtemp(prefix="hume-tools-")
        self.addCleanup(shutil.rmtree, self.room)

    def put(self, name, text):
        path = os.path.join(self.room, name)
        os.makedirs(os.path.dirname(path), exist_ok=True)
        with open(path, "w", encoding="utf-8") as file:
            file.write(text)
        return path

    def read(self, name):
        with open(os.path.join(self.room, name), encoding="utf-8") as file:
            return file.read()

    def call(self, *words, given=b""):
        return hume(*words, folder=self.room, given=given)


# A box that adds: the sum comes back to it. Without `initial 0` it waits for ever.
ADD = """box add in (x :: int 32, sum :: int 32) out (total :: int 32, next :: int 32)
match (x, sum) -> (sum + x, sum + x) ;
stream numbers from "numbers" ;
stream totals to "totals" ;
wire numbers to add.x ;
wire add.next to add.sum initial 0 ;
wire add.total to totals ;
"""
