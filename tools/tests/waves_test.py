"""hume vcd and hume waves: the file as it is written, and as a stock reader (`vcd2fst` and `fst2vcd` of gtkwave) reads it back."""
import os
import re
import shutil
import subprocess
import unittest

from setting import ADD, InRoom, sources

from source import read_net
from tracing import read_trace
from waves import guessed_width, waves_of_trace, width_of

ESCAPE = re.compile(r"\\(?:x(..)|(\d{3})|(.))")
VALUE = re.compile(r"(?:b([01z]+) |([01z])|s(\S*) )(\S+)$")


def read_back(text):
    """The declared names with their codes, and for each time the value of each code, as a plain reading of VCD has them."""
    names, path, now, times = {}, [], {}, {}
    for line in text.split("\n"):
        words = line.split()
        if line.startswith("$scope"):
            path.append(words[2])
        elif line.startswith("$upscope"):
            path.pop()
        elif line.startswith("$var"):
            names[".".join([*path[1:], words[4]])] = words[3]
        elif line.startswith("#"):
            time = int(line[1:])
            times[time] = now = dict(now)
        elif change := VALUE.match(line):
            bits, bit, shown, code = change.groups()
            now[code] = bits or bit or ESCAPE.sub(lambda it: it[3] or chr(int(it[1], 16) if it[1] else int(it[2], 8)), shown)
    return names, times


def as_written(type_text, values):
    """What a wave of the type has for the oldest of these values."""
    width = width_of(type_text)
    if not values:
        return "z" * max(1, width)
    if width == 0:
        return values[0]
    if type_text == "bool":
        return {"true": "1", "false": "0"}[values[0]]
    return format(int(values[0]) % (1 << width), f"0{width}b")


class Waves(InRoom):
    def test_widths(self):
        self.assertEqual([width_of(it) for it in ("bool", "nat 8", "int 64", "vector 8 of nat 8", "Light", "(nat 8, bool)")], [1, 8, 64, 0, 0, 0])
        self.assertEqual([guessed_width(it) for it in (["true"], ["0"], ["255", "3"], ["-128", "127"], ["-129"], ["7", "None"], [])], [1, 1, 8, 8, 9, 0, 0])

    def test_a_run_as_a_file(self):
        self.put("add.hume", ADD)
        self.put("numbers", "5\n-8\n")
        status, shown, _ = self.call("vcd", "4", "add.hume", "numbers", "totals")
        self.assertEqual(status, 0)
        names, times = read_back(shown)
        self.assertEqual(names["numbers"], names["add.x"])
        self.assertEqual(names["add.next"], names["add.sum"])
        sums = [times[k][names["add.sum"]] for k in range(5)]
        self.assertEqual(sums, ["0" * 32, "0" * 32, format(5, "032b"), format(2**32 - 3, "032b"), format(2**32 - 3, "032b")])
        self.assertEqual([times[k][names["add.fired"]] for k in range(5)], ["0", "0", "1", "1", "0"])
        self.assertEqual([times[k][names["totals"]][-1] for k in range(5)], ["z", "z", "1", "1", "z"])

    def test_a_stored_trace(self):
        self.put("t", "step 1\nwire s to b.x 1\nwire b.y to t empty\nstep 2\nwire s to b.x empty\nwire b.y to t Some 2\n")
        shown = self.call("waves", "t")[1]
        names, times = read_back(shown)
        self.assertEqual([times[k][names["b.x"]] for k in (1, 2)], ["1", "z"])
        self.assertEqual([times[k][names["b.y"]] for k in (1, 2)], ["z", "Some 2"])
        self.assertEqual(self.call("waves", "absent")[0], 1)

    def test_a_stock_reader_reads_the_traces_of_all_examples(self):
        if not shutil.which("vcd2fst") or not shutil.which("fst2vcd"):
            self.skipTest("vcd2fst is missing (apt-get install gtkwave)")
        tried = 0
        for path in sources():
            folder = os.path.dirname(path)
            with open(os.path.join(folder, "words"), encoding="ascii") as file:
                words = file.read().split()
            with open(path, "rb") as file:
                net = read_net(file.read())
            if words[0] != "trace" or not net.wires:
                continue
            with open(os.path.join(folder, "expected", "stdout"), encoding="ascii") as file:
                trace = read_trace(file.read())
            if trace.numbers:
                self.compare_with_stock_reader(net, trace)
                tried += 1
        self.assertGreaterEqual(tried, 7)

    def test_a_stock_reader_reads_texts_with_spaces_and_quotes(self):
        if not shutil.which("vcd2fst") or not shutil.which("fst2vcd"):
            self.skipTest("vcd2fst is missing (apt-get install gtkwave)")
        net = read_net(b"box b in (x :: T) out (y :: bool) match (x) -> true ; wire s to b.x @ 2 ; wire b.y to t ;")
        trace = read_trace("step 1\nwire s to b.x P ' ' '\\\\'\nwire b.y to t empty\nstep 2\nwire s to b.x <<(1, '|')>> | N\nwire b.y to t true\n")
        self.compare_with_stock_reader(net, trace)

    def compare_with_stock_reader(self, net, trace):
        path = self.put("a.vcd", "\n".join(waves_of_trace(trace, net)) + "\n")
        subprocess.run(["vcd2fst", path, path + ".fst"], check=True, stdout=subprocess.DEVNULL)
        read = subprocess.run(["fst2vcd", path + ".fst"], check=True, stdout=subprocess.PIPE)
        names, times = read_back(read.stdout.decode())
        for number, state in zip(trace.numbers, trace.states):
            for wire, values in zip(net.wires, state):
                for end in (wire.start, wire.finish):
                    self.assertEqual(times[number][names[end]], as_written(wire.type, values), (path, number, wire.name))


if __name__ == "__main__":
    unittest.main()
