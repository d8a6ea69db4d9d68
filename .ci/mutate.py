#!/usr/bin/env python3
"""mutate.py COUNT [FIRST]: whether `why` and `check` tell the same code and line of COUNT changed sources, from number FIRST (0) on.

Each is a source of examples/ with one to three changes: a token left out, doubled, exchanged with another one or replaced by one of
another source, a name or a number changed, a line left out. The changes of a number are always the same ones. HUME and LOOK name
other programs than those of dist/. The status is 1 where some differ; each of these is printed with both answers."""
import os
import random
import re
import subprocess
import sys
import tempfile
from concurrent.futures import ThreadPoolExecutor
from pathlib import Path

TOP = Path(__file__).resolve().parent.parent
sys.path.insert(0, str(TOP / "tools"))
from lexing import KEYWORDS  # noqa: E402

HUME = os.environ.get("HUME", str(TOP / "dist/hume-x86_64-linux"))
LOOK = os.environ.get("LOOK", str(TOP / "dist/hume-x86_64-linux"))
MOST_BYTES = 20_000
PIECE = re.compile(r"--[^\n]*|\"[^\"\n]*\"|'(?:\\.|[^\\])'|[A-Za-z][A-Za-z0-9_]*|[0-9]+|[<>=/]=|<<|>>|->|::|_\*|\s+|.", re.S)
NUMBERS = ("0", "1", "2", "7", "16", "17", "64", "65", "128", "255", "256", "1024", "1025", "65536", "2147483648", "18446744073709551616")
NAMES = ("x", "y", "other", "Other", "Range", "NoCase", "bool", "a" * 33)
TOLD = re.compile(r"^.*:(\d+):\d+: refused (\d+): .*?(?:, in the declaration of line (\d+))?$")


def sources():
    """All sources of examples/, as lists of pieces; a piece of white space is one too."""
    found = sorted((TOP / "examples").rglob("*.hume"))
    texts = [it.read_bytes().decode("latin-1") for it in found if it.stat().st_size <= MOST_BYTES]
    return [PIECE.findall(it) for it in texts]


def tokens(pieces):
    """The places of the pieces that are tokens."""
    return [i for i, it in enumerate(pieces) if not it.isspace() and not it.startswith("--")]


def leave_out(chance, pieces, others):
    del pieces[chance.choice(tokens(pieces))]


def double(chance, pieces, others):
    place = chance.choice(tokens(pieces))
    pieces[place:place] = [pieces[place], " "]


def exchange(chance, pieces, others):
    first, second = (chance.choice(tokens(pieces)) for _ in range(2))
    pieces[first], pieces[second] = pieces[second], pieces[first]


def replace(chance, pieces, others):
    other = chance.choice(others)
    if tokens(other):
        pieces[chance.choice(tokens(pieces))] = other[chance.choice(tokens(other))]


def kind(piece):
    """Names of one case, numbers, and each other token by itself are alike."""
    if piece[0].isalpha() and piece not in KEYWORDS:
        return "upper" if piece[0].isupper() else "lower"
    return "number" if piece.isdigit() else "type" if piece in ("bool", "char") else piece


def exchange_alike(chance, pieces, others):
    first = chance.choice(tokens(pieces))
    second = chance.choice([i for i in tokens(pieces) if kind(pieces[i]) == kind(pieces[first])])
    pieces[first], pieces[second] = pieces[second], pieces[first]


def change_name(chance, pieces, others):
    names = [i for i in tokens(pieces) if kind(pieces[i]) in ("upper", "lower")]
    if names:
        place = chance.choice(names)
        alike = [it for it in (*NAMES, *(pieces[i] for i in names)) if kind(it) == kind(pieces[place])]
        pieces[place] = chance.choice(alike)


def change_number(chance, pieces, others):
    numbers = [i for i in tokens(pieces) if pieces[i].isdigit()]
    if numbers:
        pieces[chance.choice(numbers)] = chance.choice(NUMBERS)


def leave_line_out(chance, pieces, others):
    lines = "".join(pieces).split("\n")
    del lines[chance.randrange(len(lines))]
    pieces[:] = PIECE.findall("\n".join(lines))


# More of the changes that leave a program of the grammar.
CHANGES = (leave_out, double, exchange, replace, leave_line_out, *(exchange_alike, change_name, change_number) * 4)


def changed(number, all_sources):
    """The changed source of that number."""
    chance = random.Random(f"mutation {number}")
    pieces = list(chance.choice(all_sources))
    for _ in range(chance.choice((1, 1, 2, 3))):
        if tokens(pieces):
            chance.choice(CHANGES)(chance, pieces, all_sources)
    return "".join(pieces).encode("latin-1")


def answer(program, word, path):
    done = subprocess.run([program, word, path], stdin=subprocess.DEVNULL, capture_output=True, timeout=60, check=False)
    return done.returncode, done.stdout.decode("latin-1").split("\n")


def told_by_check(path):
    status, lines = answer(HUME, "check", path)
    words = lines[0].split()
    return (status, int(words[1]), int(words[3])) if words[:1] == ["refused"] else (status,)


def told_by_why(path):
    status, lines = answer(LOOK, "why", path)
    told = TOLD.match(lines[0])
    if told:
        return status, int(told[2]), int(told[3] or told[1])
    return (status,) if lines[0] == f"{path}: accepted" else (status, lines[0])


def try_number(number, all_sources, folder):
    """What both answer to the changed source of that number, and how it is called."""
    path = os.path.join(folder, f"{number}.hume")
    Path(path).write_bytes(changed(number, all_sources))
    return number, told_by_check(path), told_by_why(path)


def main(count, first):
    all_sources, codes, differing = sources(), {}, 0
    with tempfile.TemporaryDirectory() as folder, ThreadPoolExecutor(4) as pool:
        for number, check, why in pool.map(lambda it: try_number(it, all_sources, folder), range(first, first + count)):
            codes[check[1] if len(check) > 1 else 0] = codes.get(check[1] if len(check) > 1 else 0, 0) + 1
            if check != why:
                differing += 1
                print(f"differs: changed source {number}: check {check}, why {why}")
    print(", ".join(f"{code or 'accepted'}: {many}" for code, many in sorted(codes.items())))
    print(f"{count - differing} agree, {differing} differ")
    return 1 if differing else 0


if __name__ == "__main__":
    sys.exit(main(int(sys.argv[1]), int(sys.argv[2]) if len(sys.argv) > 2 else 0))
