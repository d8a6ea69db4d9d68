"""hume c [header | main] SOURCE [--name NAME], and hume c FOLDER SOURCE [--name NAME] [--force]: a source as a C program.

The first form writes one text to the standard output: the C file, its header, or a main that reads and writes the files of the streams.
The second writes all three and a Makefile into the folder. A file that is there, and that no earlier call left so, is kept unless
`--force` is said; `.hume/c` in the folder has the sums of the files that were written.
hume c test PROGRAM STEPS SOURCE compares a compiled program with `hume run`: what `make test` calls.
"""
import os
import re
import sys
import tempfile

from go import sum_of
from program import TOP, Usage, call, is_number, read_source, report
from source import read_net

USAGE = "usage: hume c [header | main | FOLDER] SOURCE [--name NAME] [--force]"
TEXTS = {"header": "header", "main": "main"}
NOTES = os.path.join(".hume", "c")
MAKEFILE = """\
# The C program of {source}: `make` compiles it with a main that reads and writes the files of its streams, `make test` compares
# {steps} supersteps of it with `hume run`, and `make size` tells what the controller itself takes.
HUME ?= {hume}
SOURCE ?= {path}
STEPS ?= {steps}
CFLAGS ?= -std=c99 -O2 -Wall -Wextra

all: {name}

{name}: {name}_main.c {name}.c
\t$(CC) $(CFLAGS) -o $@ {name}_main.c

test: {name}
\t$(HUME) c test ./{name} $(STEPS) $(SOURCE)

size: {name}.c
\t$(CC) -std=c99 -Os -c -o {name}.o {name}.c
\tsize {name}.o

.PHONY: all test size
"""


def program():
    """The program, which makes the texts."""
    return os.environ.get("LOOK") or os.path.join(TOP, "dist", "hume-x86_64-linux")


def name_of(source):
    """The name of the file without its ending, made a name of C."""
    stem = os.path.splitext(os.path.basename(source))[0]
    stem = re.sub("[^A-Za-z0-9]", "_", stem)
    return stem if re.match("[A-Za-z]", stem) else "p" + stem


def options(words):
    """The words without options, the name that is asked for, and whether all files may be written."""
    words, name = list(words), None
    force = "--force" in words
    if force:
        words.remove("--force")
    if "--name" in words:
        at = words.index("--name")
        name = "".join(words[at + 1 : at + 2])
        del words[at : at + 2]
        if not re.fullmatch("[A-Za-z][A-Za-z0-9_]*", name):
            raise Usage("NAME is a letter and then letters, digits and '_'")
    return words, name, force


def text_of(kind, name, source):
    """The text; none where the source is refused, which is then told as `check` tells it."""
    done = call(["c", kind, name, source], program=program())
    return done.returncode, done.stdout


def refused(status, source):
    """Tells of a source why there is no text, and gives the status."""
    done = call(["check", source])
    if done.returncode == status:
        sys.stdout.buffer.write(done.stdout)
        sys.stderr.buffer.write(done.stderr)
    else:
        report(f"the C program of {source} can't be made: status {status}")
    return status


def notes(folder):
    """The sums of the files that earlier calls wrote into the folder, by their names."""
    path = os.path.join(folder, NOTES)
    if not os.path.isfile(path):
        return {}
    with open(path, encoding="utf-8", errors="surrogateescape") as file:
        return dict(reversed(line.split(" ", 1)) for line in file.read().split("\n") if " " in line)


def is_foreign(path, known):
    return os.path.exists(path) and known.get(os.path.basename(path)) != sum_of(path)


def files_of(folder, name, source):
    """The status and the files by their names."""
    found = {}
    for kind, file in (("file", f"{name}.c"), ("header", f"{name}.h"), ("main", f"{name}_main.c")):
        status, text = text_of(kind, name, source)
        if status:
            return status, {}
        found[file] = text
    paths = {"hume": os.path.relpath(os.path.join(TOP, "hume"), folder), "path": os.path.relpath(source, folder)}
    made = MAKEFILE.format(name=name, source=os.path.basename(source), steps=1000, **paths)
    return 0, found | {"Makefile": made.encode("utf-8", "surrogateescape")}


def write_folder(folder, name, source, force):
    status, files = files_of(folder, name, source)
    if status:
        return refused(status, source)
    os.makedirs(folder, exist_ok=True)
    known = notes(folder)
    foreign = [it for it in files if is_foreign(os.path.join(folder, it), known)]
    if foreign and not force:
        report(f"'{os.path.join(folder, foreign[0])}' is there and no earlier 'hume c' wrote it; --force writes it anew")
        return 1
    for file, text in files.items():
        with open(os.path.join(folder, file), "wb") as out:
            out.write(text)
    known |= {it: sum_of(os.path.join(folder, it)) for it in files}
    os.makedirs(os.path.dirname(os.path.join(folder, NOTES)), exist_ok=True)
    with open(os.path.join(folder, NOTES), "w", encoding="utf-8", errors="surrogateescape") as out:
        out.writelines(f"{total} {file}\n" for file, total in sorted(known.items()))
    return 0


def run_alone(text):
    """What a run prints beside the table of bounds and the peaks: a line of a value begins with none of these words."""
    return b"".join(it for it in text.splitlines(keepends=True) if it.split(b" ")[0] not in (b"box", b"total", b"peak"))


def outcome(words, inputs, program_path=None):
    """The status of a call in a folder of its own with these files, what it prints, and its files."""
    with tempfile.TemporaryDirectory(prefix="hume-c-") as room:
        for file, text in inputs.items():
            os.makedirs(os.path.dirname(os.path.join(room, file)) or room, exist_ok=True)
            with open(os.path.join(room, file), "wb") as out:
                out.write(text)
        done = call(words, room, program=program_path)
        found = {}
        for at, _, files in os.walk(room):
            for file in files:
                with open(os.path.join(at, file), "rb") as opened:
                    found[os.path.relpath(os.path.join(at, file), room)] = opened.read()
        return done.returncode, run_alone(done.stdout), found


def compare(words):
    """`hume c test PROGRAM STEPS SOURCE`: whether the compiled program writes what `hume run` does, over the files of the source's folder."""
    if len(words) != 3 or not is_number(words[1]):
        raise Usage("usage: hume c test PROGRAM STEPS SOURCE")
    compiled, steps, source = os.path.abspath(words[0]), words[1], words[2]
    text, folder = read_source(source), os.path.dirname(source)
    ports = dict.fromkeys(it.port for it in read_net(text).streams if it.port not in ("std_in", "std_out"))
    inputs = {os.path.basename(source): text}
    for it in read_net(text).streams:
        path = os.path.join(folder, it.port)
        if it.incoming and it.port in ports and os.path.isfile(path):
            with open(path, "rb") as file:
                inputs[it.port] = file.read()
        elif it.incoming and it.port in ports:
            inputs[it.port] = b""
    wanted = outcome(["run", steps, "1", os.path.basename(source), *ports], inputs)
    found = outcome([steps], inputs, compiled)
    if wanted == found:
        print(f"{os.path.basename(compiled)} does what 'hume run {steps}' does")
        return 0
    for what, a, b in zip(("the status", "the standard output", "the files"), wanted, found):
        if a != b:
            report(f"{what} of the C program differ from those of 'hume run {steps}'")
    return 1


def main(_, words):
    if words[:1] == ["test"]:
        return compare(words[1:])
    words, name, force = options(words)
    if len(words) == 2 and words[0] not in TEXTS:
        read_source(words[1])
        return write_folder(words[0], name or name_of(words[1]), words[1], force)
    kind = TEXTS.get(words[0], "file") if len(words) == 2 else "file"
    if len(words) not in (1, 2) or force or words[-1].startswith("-"):
        raise Usage(USAGE)
    read_source(words[-1])
    status, text = text_of(kind, name or name_of(words[-1]), words[-1])
    if status:
        return refused(status, words[-1])
    sys.stdout.buffer.write(text)
    return 0
