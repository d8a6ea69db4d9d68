#!/usr/bin/env python3
"""Times a superstep of nets of several shapes by 1, 2, 4 and 8 workers, and beside it a C program with a barrier.

usage: bench/threads.py [--tool TOOL] [--calls N] [--halves A,B,..] [NET ..]
       bench/threads.py [--tool TOOL] [--calls N] unions
       bench/threads.py [--tool TOOL] [--calls N] copies

The nets are named in `NETS` and `OTHERS`; without a name all are timed. Those of `NETS` have boxes whose half step takes about 0.1, 0.4, 1.5,
25 and 200 microseconds, or, where the name ends in `seldom`, would take as long if they did all that they may: HALVES picks among them, by
their places from 0. Those of `OTHERS` are the demo and the controllers of examples/, whose inputs are repeated. TOOL is the program of dist/
by default.

Each time is the least of N calls (5), which are made in turn, and the time of a twentieth of the supersteps is taken off. `gain` is how many
times faster so many workers are than one. `worked` is how many workers worked in the second round: this script counts the threads that are
started in it. `groups` and `crossing` are what the program `trials` tells of so many workers: groups of nodes, and wires between them.
Beside the nets of `NETS` stands the C program `threads.c` (pthreads, gcc -O2), with as many boxes in rings, a half step that takes as long,
and a barrier behind each half superstep; `ahead` is how many times longer it takes.

`unions` times a superstep of a union of eight nets of 24 boxes beside one of a net alone. `copies` says what the machine's processors give:
how many times more supersteps 1, 2 and 4 calls of one worker make that run side by side.
"""
import os
import random
import subprocess
import sys
import tempfile
import time

TOP = os.path.dirname(os.path.dirname(os.path.abspath(__file__)))
WORKERS = 1, 2, 4, 8
DOUBLINGS = 1, 3, 5, 9, 12
SECONDS = 0.3
ROUND = 64


def functions(doublings):
    """2^doublings times `x * 3 + 1`."""
    lines = ["f0 :: int 64 -> int 64 ; f0 x = x * 3 + 1 ;"]
    for i in range(1, doublings + 1):
        lines.append(f"f{i} :: int 64 -> int 64 ; f{i} x = f{i - 1} (f{i - 1} x) ;")
    return lines


def net(doublings, links, seldom=False):
    """Boxes that compute with their first input, and pass the others on. A link is (box, output, box, input). Where boxes compute but seldom
    they compute for no value that comes, so what they may do at most is far more than what they do."""
    inputs, outputs = {}, {}
    for at, output, to, given in links:
        outputs.setdefault(at, set()).add(output)
        inputs.setdefault(to, set()).add(given)
    lines = functions(doublings)
    for number in sorted(inputs):
        taken = [f"x{i}" for i in sorted(inputs[number])]
        put = [f"y{i}" for i in sorted(outputs[number])]
        first = f"if {taken[0]} == -1 then f{doublings} {taken[0]} else {taken[0]}" if seldom else f"f{doublings} {taken[0]}"
        values = [first] + [taken[i % len(taken)] for i in range(1, len(put))]
        lines.append(f"box b{number} in ({', '.join(f'{name} :: int 64' for name in taken)}) "
                     f"out ({', '.join(f'{name} :: int 64' for name in put)}) "
                     f"match ({', '.join(taken)}) -> ({', '.join(values)}) ;")
    for at, output, to, given in links:
        lines.append(f"wire b{at}.y{output} to b{to}.x{given} initial {to} ;")
    return "\n".join(lines) + "\n"


def rings(count, size):
    return [(i, 0, i - size + 1 if i % size == size - 1 or i == count - 1 and count <= size else i + 1, 0) for i in range(count)]


def alone(count):
    return [(i, 0, i, 0) for i in range(count)]


def chain(count):
    """The first box feeds itself too, and the last one keeps what it has."""
    ends = [(0, 0, 0, 0), (count - 1, 0, count - 1, 1)]
    return ends + [(i, 1 if i == 0 else 0, i + 1, 0) for i in range(count - 1)]


def star(leaves):
    return [link for i in range(1, leaves + 1) for link in ((0, i - 1, i, 0), (i, 0, 0, i - 1))]


def grid(size):
    links = []
    for row in range(size):
        for column in range(size):
            at = row * size + column
            links.append((at, 0, row * size + (column + 1) % size, 0))
            links.append((at, 1, (row + 1) % size * size + column, 1))
    return links


def at_random(count):
    chance, links = random.Random(7), []
    for place in (0, 1):
        to = list(range(count))
        chance.shuffle(to)
        links += [(i, place, to[i], place) for i in range(count)]
    return links


NETS = {
    "one box": alone(1),
    "200 boxes alone": alone(200),
    "ring of 8": rings(8, 8),
    "rings of 8, 200 boxes": rings(200, 8),
    "ring of 200": rings(200, 200),
    "chain of 200": chain(200),
    "star of 9": star(8),
    "grid of 14 by 14": grid(14),
    "200 at random": at_random(200),
    "200 at random, seldom": at_random(200),
}
CONTROLLERS = "traffic_lights", "lift", "debouncer", "crc8", "back_pressure", "vending_machine"
OTHERS = ("demo", *CONTROLLERS)


# Writes a byte to the file STARTED for each thread that a program starts.
COUNTER = r"""
#define _GNU_SOURCE
#include <dlfcn.h>
#include <fcntl.h>
#include <pthread.h>
#include <stdlib.h>
#include <unistd.h>
int pthread_create(pthread_t *thread, const pthread_attr_t *how, void *(*work)(void *), void *given) {
    int (*real)(pthread_t *, const pthread_attr_t *, void *(*)(void *), void *) = dlsym(RTLD_NEXT, "pthread_create");
    int file = open(getenv("STARTED"), O_WRONLY | O_CREAT | O_APPEND, 0600);
    if (file < 0 || write(file, ".", 1) != 1 || close(file) != 0) abort();
    return real(thread, how, work, given);
}
"""


class Timer:
    """Calls that are timed in a folder of their own."""

    def __init__(self, tool, calls, room):
        self.tool, self.calls, self.room = tool, calls, room

    def seconds(self, words, **more):
        begun = time.perf_counter()
        done = subprocess.run(words, cwd=self.room, stdout=subprocess.DEVNULL, stdin=subprocess.DEVNULL, check=False, **more)
        took = time.perf_counter() - begun
        if done.returncode not in (0, 3):
            sys.exit(f"{words} ended with {done.returncode}")
        return took

    def least(self, calls, most):
        """For each call, a function of the supersteps, the least seconds a superstep."""
        steps = [self.steps_for(call, most) for call in calls]
        shorts, longs = [[] for _ in calls], [[] for _ in calls]
        for _ in range(self.calls):
            for call, many, short, long in zip(calls, steps, shorts, longs):
                few = max(many // 20, 1)
                short.append(self.seconds(call(few)))
                long.append(self.seconds(call(few + many)))
        return [max(min(long) - min(short), 1e-12) / many for many, short, long in zip(steps, shorts, longs)]

    def steps_for(self, call, most):
        """So many supersteps that the call takes about three tenths of a second."""
        steps = 20
        while steps < most and self.seconds(call(steps)) < SECONDS:
            steps = min(steps * 3, most)
        return steps

    def worked(self, call):
        """How many workers worked in the second round of a call: one, and each thread that was started in it."""
        told = os.path.join(self.room, "started")
        counts = []
        for steps in (ROUND, 2 * ROUND):
            with open(told, "wb"):
                pass
            self.seconds(call(steps), env={**os.environ, "LD_PRELOAD": "./started.so", "STARTED": told})
            counts.append(os.path.getsize(told))
        return 1 + counts[1] - counts[0]

    def groups(self, source, workers):
        """Groups of nodes for so many workers, and the wires between them."""
        trials = os.path.join(TOP, "crates", "trials", "out", "trials")
        if workers == 1 or source is None or not os.path.exists(trials):
            return "", ""
        said = subprocess.run([trials, "groups", source, str(workers)], cwd=self.room, capture_output=True, text=True, check=True).stdout
        return said.split()[1], said.split()[3]


def native_rounds(timer, boxes, half):
    """How many rounds a half step of the C program has for so many seconds."""
    rounds = 20_000
    took = timer.least([lambda steps: ["./native", str(boxes), str(rounds), str(steps), "1"]], 200)[0]
    return max(int(rounds * half * boxes / took), 1)


def row(timer, name, half, source, calls, natives, most):
    times = timer.least([*calls, *natives], most)
    beside = times[len(calls):] or [None] * len(calls)
    for workers, call, took, native in zip(WORKERS, calls, times, beside):
        last = f" {native * 1e6:.2f} | {native / took:.2f} |" if native else "  |  |"
        worked = timer.worked(call)
        groups, crossing = timer.groups(source, worked)
        print(f"| {name} | {half} | {workers} | {took * 1e6:.2f} | {times[0] / took:.2f} | {worked} | {groups} | {crossing} |{last}", flush=True)


def net_rows(timer, name, halves):
    links = NETS[name]
    boxes = 1 + max(link[0] for link in links)
    for place in halves:
        with open(os.path.join(timer.room, "p"), "w", encoding="ascii") as file:
            file.write(net(DOUBLINGS[place], links, name.endswith("seldom")))
        calls = [lambda steps, workers=workers: [timer.tool, "run", str(steps), str(workers), "p"] for workers in WORKERS]
        half = timer.least(calls[:1], 900_000)[0] / boxes
        rounds = native_rounds(timer, boxes, half)
        natives = [lambda steps, workers=workers: ["./native", str(boxes), str(rounds), str(steps), str(workers)] for workers in WORKERS]
        row(timer, name, f"{half * 1e6:.2f} us", "p", calls, natives, 900_000)


def other_row(timer, name):
    if name == "demo":
        calls = [lambda steps, workers=workers: [timer.tool, "demo", "7", str(steps), str(workers)] for workers in WORKERS]
        source = None
    else:
        words = copied(timer.room, name)
        calls = [lambda steps, workers=workers: [timer.tool, "run", str(steps), str(workers), *words] for workers in WORKERS]
        source = words[0]
    row(timer, name, "", source, calls, [], 400_000)


def copied(room, name):
    """The source and the ports of a controller, with inputs that are long enough."""
    folder = os.path.join(TOP, "examples", "controllers", name)
    with open(os.path.join(folder, "words"), encoding="ascii") as file:
        words = file.read().split()[3:]
    for word in words:
        if os.path.isfile(os.path.join(folder, word)):
            with open(os.path.join(folder, word), encoding="ascii") as file:
                text = file.read()
            with open(os.path.join(room, word), "w", encoding="ascii") as file:
                file.write(text if word.endswith(".hume") else text * (450_000 // max(text.count("\n"), 1) + 1))
    return words


def unions(timer):
    print("| half step | one net, one worker | union of eight | by eight nets alone | one net, four workers | union of eight | by four nets in turn |")
    print("|---|---|---|---|---|---|---|")
    names = [f"q{i}" for i in range(8)]
    for doublings in (2, 5, 9):
        for name in ("p", *names):
            with open(os.path.join(timer.room, name), "w", encoding="ascii") as file:
                file.write(net(doublings, rings(24, 8)))
        run = [lambda steps, workers=workers: [timer.tool, "run", str(steps), str(workers), "p"] for workers in (1, 4)]
        union = [lambda steps, workers=workers: [timer.tool, "union", str(steps), str(workers), "8", *names] for workers in (1, 4)]
        one, four, eight, four_eight = timer.least([*run, *union], 900_000)
        print(f"| {one / 24 * 1e6:.2f} us | {one * 1e6:.2f} us | {eight * 1e6:.2f} us | {eight / one / 8:.2f} | {four * 1e6:.2f} us "
              f"| {four_eight * 1e6:.2f} us | {four_eight / four / 4:.2f} |", flush=True)


def copies(timer):
    """Prints how many times more supersteps of the demo so many calls make side by side than one alone."""
    call = [timer.tool, "demo", "7", "20000", "1"]

    def side_by_side(count):
        begun = time.perf_counter()
        for each in [subprocess.Popen(call, stdout=subprocess.DEVNULL, stdin=subprocess.DEVNULL) for _ in range(count)]:
            each.wait()
        return time.perf_counter() - begun

    took = {count: min(side_by_side(count) for _ in range(timer.calls)) for count in (1, 2, 4)}
    print("| calls side by side | supersteps, times one call's |\n|---|---|")
    for count, seconds in took.items():
        print(f"| {count} | {count * took[1] / seconds:.2f} |")


def build_counter(room):
    with open(os.path.join(room, "started.c"), "w", encoding="ascii") as file:
        file.write(COUNTER)
    subprocess.run(["gcc", "-O2", "-shared", "-fPIC", "-o", "started.so", "started.c"], cwd=room, check=True)


def main(words):
    options = {"--tool": os.path.join(TOP, "dist", "hume-x86_64-linux"), "--calls": "5", "--halves": "0,1,2,3,4"}
    while len(words) > 1 and words[0] in options:
        options[words[0]] = words[1]
        words = words[2:]
    names = words or [*NETS, *OTHERS]
    if not all(name in NETS or name in OTHERS or name in ("unions", "copies") for name in names):
        sys.exit(__doc__)
    with tempfile.TemporaryDirectory() as room:
        timer = Timer(os.path.abspath(options["--tool"]), int(options["--calls"]), room)
        subprocess.run(["gcc", "-O2", "-pthread", "-o", os.path.join(room, "native"), os.path.join(TOP, "bench", "threads.c")], check=True)
        if names in (["unions"], ["copies"]):
            return unions(timer) if names == ["unions"] else copies(timer)
        build_counter(room)
        print(f"{len(os.sched_getaffinity(0))} processors.\n\n| net | half step | workers | us a superstep | gain | worked | groups | crossing | barrier, us | ahead |")
        print("|---|---|---|---|---|---|---|---|---|---|")
        for name in names:
            if name in NETS:
                net_rows(timer, name, [int(place) for place in options["--halves"].split(",")])
            else:
                other_row(timer, name)


if __name__ == "__main__":
    main(sys.argv[1:])
