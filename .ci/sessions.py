#!/usr/bin/env python3
"""Sessions of the program `console` against runs of `hume`: `sessions.py steps | exchanges | answers`.

`steps`: each example that is run without `std_in` gives the bytes of its run, where a session makes the same supersteps by `step 64`.
`exchanges`: so it does where streams go on with copies of their ports between the steps: an input with a copy of the lines that weren't
read yet, an output with a new file, whose bytes then follow those of the old one.
`answers`: each answer is out before the next command is read, through a terminal and through two pipes.

Prints a line for each difference; the status is 1 then. HUME names another program than that of dist/.
"""
import os
import pty
import random
import re
import select
import shutil
import subprocess
import sys
import tempfile
from pathlib import Path

TOP = Path(__file__).resolve().parent.parent
HUME = os.environ.get("HUME", str(TOP / "dist/hume-x86_64-linux"))
STREAM = re.compile(r'^\s*stream\s+(\w+)\s+(from|to)\s+"([^"]*)"', re.MULTILINE)
SPAN = 64
EXCHANGES = 4
BAD = b"?\n"


class Example:
    """A run that is stored in examples/: its folder, its numbers, its source and its ports."""

    def __init__(self, folder):
        self.folder = folder
        words = (folder / "words").read_text().split("\n")[:-1]
        self.is_run = words[0] == "run"
        if self.is_run:
            self.steps, self.workers, self.source, *self.ports = int(words[1]), words[2], words[3], *words[4:]
            text = re.sub(r"--.*", "", (folder / self.source).read_text(errors="replace")) if (folder / self.source).is_file() else ""
            self.streams = STREAM.findall(text)

    def can_be_stepped(self):
        return self.is_run and self.source != "std_in" and bool(self.streams) and all(port != "std_in" for _, _, port in self.streams)

    def commands(self):
        """The supersteps of the run, in steps of 64 and a last one of fewer."""
        whole, rest = divmod(self.steps, SPAN)
        return ["step 64"] * whole + [f"step {rest}"] * (rest > 0)


class Room:
    """A fresh copy of the example's inputs."""

    def __init__(self, example):
        self.example = example

    def __enter__(self):
        self.path = Path(tempfile.mkdtemp(prefix="session-"))
        for file in self.example.folder.iterdir():
            if file.is_file() and file.name not in ("words", "README.md", "expected.py"):
                shutil.copy(file, self.path)
        return self

    def __exit__(self, *_):
        shutil.rmtree(self.path)

    def call(self, program, words, commands=b""):
        done = subprocess.run([program, *words], cwd=self.path, input=commands, capture_output=True, check=False)
        return done.returncode, done.stdout

    def run(self):
        example = self.example
        return self.call(HUME, ["run", str(example.steps), example.workers, example.source, *example.ports])

    def session(self, commands, more=()):
        example = self.example
        text = "".join(line + "\n" for line in commands).encode()
        return self.call(HUME, ["console", example.workers, example.source, *example.ports, *more], text)

    def text(self, name):
        path = self.path / name
        return path.read_bytes() if path.is_file() else b""


def outputs_of(example):
    return [(stream, port) for stream, way, port in example.streams if way == "to" and port != "std_out"]


def examples():
    found = [Example(words.parent) for words in sorted((TOP / "examples").rglob("words"))]
    return [example for example in found if example.can_be_stepped()]


def run_of(example):
    """What the example's run writes: its status, the standard output, and each output."""
    with Room(example) as room:
        status, out = room.run()
        return status, out, {port: room.text(port) for _, port in outputs_of(example)}


def try_steps(example):
    wanted = run_of(example)
    with Room(example) as room:
        status, out = room.session(example.commands() + ["peaks", "end"])
        found = status, out, {port: room.text(port) for _, port in outputs_of(example)}
    if found != wanted:
        yield f"{example.folder.relative_to(TOP)}: by steps {found}, not {wanted}"


def lines_read(example, commands, stream, port, text):
    """How many lines of an input a session has read after these commands, all others as they are: with fewer good lines before a bad one
    it is blocked."""
    lines = text.splitlines(keepends=True)
    low, high = 0, len(lines)
    while low < high:
        middle = (low + high) // 2
        with Room(example) as room:
            (room.path / port).write_bytes(b"".join(lines[:middle]) + BAD)
            blocked = room.session(commands + ["end"])[0] == 3
        low, high = (middle + 1, high) if blocked else (low, middle)
    return low


def plan(example, chance):
    """Commands with exchanges between them, the ports that they name with what is in them, and the files that each output went to."""
    commands, ports = example.commands(), {}
    wanted = {port: [port] for _, port in outputs_of(example)}
    tried = set()
    for number in range(EXCHANGES):
        stream, way, port = chance.choice(example.streams)
        if port == "std_out" or stream in tried:
            continue
        tried.add(stream)
        at = chance.randrange(len(example.commands()) + 1)
        place = [i for i, line in enumerate(commands + ["step"]) if line.startswith("step")][at]
        new = f"copy.{number}"
        if way == "from":
            text = (example.folder / port).read_bytes()
            read = lines_read(example, [line for line in commands[:place] if line.startswith("step")], stream, port, text)
            ports[new] = b"".join(text.splitlines(keepends=True)[read:])
        else:
            wanted[port].append(new)
            ports[new] = None
        commands.insert(place, f"exchange {stream} {new}")
    return commands, ports, wanted


def try_exchanges(example):
    wanted = run_of(example)
    if wanted[0] != 0:
        return
    commands, ports, files = plan(example, random.Random(str(example.folder.relative_to(TOP))))
    with Room(example) as room:
        for name, text in ports.items():
            if text is not None:
                (room.path / name).write_bytes(text)
        status, out = room.session(commands + ["peaks", "end"], ports)
        found = status, out, {port: b"".join(map(room.text, names)) for port, names in files.items()}
    if found != wanted:
        yield f"{example.folder.relative_to(TOP)}: with {commands} {found}, not {wanted}"


SOURCE = (b'box b in (x :: int 32) out (y :: int 32)\nmatch (x) -> (x + 1) ;\nstream s from "i" ;\nstream t to "std_out" ;\n'
          b'wire s to b.x ;\nwire b.y to t ;\n')
# each command with the lines that answer it
DIALOGUE = (("step 2", []), ("wires", ["wire s to b.x 2", "wire b.y to t 2"]), ("step 2", ["2", "3"]), ("stop", ["no command line 4"]),
            ("exchange s o", ["no exchange line 5"]), ("exchange s j", []), ("step 2", []),
            ("wires", ["wire s to b.x empty", "wire b.y to t 11"]), ("peaks", ["peak b heap 0 stack 4"]))
TABLE = ["box b heap 0 stack 4 work 5", "total heap 0 stack 4"]


def read_lines(file, count):
    """The next lines, if as many come within some seconds."""
    text = b""
    while text.count(b"\n") < count:
        if not select.select([file], [], [], 10)[0]:
            return f"nothing after {text!r}"
        text += os.read(file, 4096)
    return text.decode().replace("\r\n", "\n").split("\n")[:-1]


def talk(give, take, way):
    """Each command is given only once the answers to those before it are there."""
    found = read_lines(take, len(TABLE))
    if found != TABLE:
        yield f"{way}: the table is {found}"
    for command, wanted in DIALOGUE:
        os.write(give, command.encode() + b"\n")
        found = read_lines(take, len(wanted)) if wanted else wanted
        if found != wanted:
            yield f"{way}: {command} is answered by {found}, not {wanted}"
            return
    os.write(give, b"end\n")


def folder_with_ports():
    folder = Path(tempfile.mkdtemp(prefix="session-"))
    (folder / "p").write_bytes(SOURCE)
    (folder / "i").write_bytes(b"1\n2\n")
    (folder / "j").write_bytes(b"10\n")
    return folder


def try_pipes():
    folder = folder_with_ports()
    for name in ("commands", "answers"):
        os.mkfifo(folder / name)
    script = 'exec "$0" console 2 p i j <commands >answers'
    with subprocess.Popen(["sh", "-c", script, HUME], cwd=folder) as process:
        give, take = os.open(folder / "commands", os.O_WRONLY), os.open(folder / "answers", os.O_RDONLY)
        yield from talk(give, take, "through two pipes")
        os.close(give)
        if process.wait() != 0:
            yield "through two pipes: the session doesn't end well"
        os.close(take)
    shutil.rmtree(folder)


def try_terminal():
    folder = folder_with_ports()
    ours, theirs = pty.openpty()
    subprocess.run(["stty", "-echo"], stdin=theirs, check=True)
    with subprocess.Popen([HUME, "console", "2", "p", "i", "j"], cwd=folder, stdin=theirs, stdout=theirs) as process:
        yield from talk(ours, ours, "on a terminal")
        if process.wait() != 0:
            yield "on a terminal: the session doesn't end well"
    os.close(theirs)
    os.close(ours)
    shutil.rmtree(folder)


def main(words):
    tries = {"steps": lambda: (line for example in examples() for line in try_steps(example)),
             "exchanges": lambda: (line for example in examples() for line in try_exchanges(example)),
             "answers": lambda: (*try_pipes(), *try_terminal())}
    if len(words) != 1 or words[0] not in tries:
        print(__doc__)
        return 1
    found = list(tries[words[0]]())
    print("\n".join(found) if found else f"{words[0]}: no difference, of {len(examples())} examples")
    return 1 if found else 0


if __name__ == "__main__":
    sys.exit(main(sys.argv[1:]))
