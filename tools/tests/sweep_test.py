"""Every program of examples/ that runs alone: what happened is found for each superstep, and it goes with what the program wrote."""
import io
import os
import shutil
import unittest

from setting import TOP, InRoom, sources

from coverage import covered
from page import page_of
from page_data import data_of
from tracing import run_traced
from watch import rows, table
from waves import waves_of_run

MOST = 80


def flags_of(turns):
    return [bool(n % 2) for n, count in enumerate(turns) for _ in range(count)]


def texts_of(values, table):
    return [table[it[0]] if isinstance(it, list) else str(it) for it in values]


class Sweep(InRoom):
    def test_all_programs(self):
        self.addCleanup(os.chdir, os.getcwd())
        tried = 0
        for path in sources():
            with open(os.path.join(os.path.dirname(path), "words"), encoding="ascii") as file:
                words = file.read().split()
            if words[0] in ("run", "trace", "calc"):
                with self.subTest(os.path.relpath(path)):
                    self.try_program(os.path.dirname(path), words)
                tried += 1
        self.assertGreaterEqual(tried, 60)

    def try_program(self, folder, words):
        room = os.path.join(self.room, os.path.relpath(folder, TOP).replace("/", "_"))
        shutil.copytree(folder, room)
        os.chdir(room)
        given = b""
        if os.path.exists("stdin"):
            with open("stdin", "rb") as file:
                given = file.read()
        steps = str(min(MOST, int(words[1])))
        run, done = run_traced(steps, words[3], words[4:], io.BytesIO(given))
        self.assertIsNotNone(run, done)
        self.assertIn(run.status, (0, 3))
        self.assertNotIn(None, run.steps)
        self.assertEqual(len(run.states), len(run.steps) + 1)
        self.compare_with_outputs(run)
        self.assertGreaterEqual(len(list(table(rows(run, range(len(run.net.wires)))))), 3)
        times = [it for it in waves_of_run(run) if it.startswith("#")]
        self.assertEqual(len(times), len(run.states) + 1)
        coverage, steps = covered(run)
        self.assertEqual(coverage.steps, len(run.steps))
        self.compare_deeds(run.steps, steps)
        self.assertIn("</html>", page_of(run, coverage, "p"))
        self.compare_wires(run, data_of(run, coverage, "p"))

    def compare_deeds(self, seen, worked_out):
        """What is worked out from the rules is what the wires show, as far as they show it."""
        for step, exact in zip(seen, worked_out):
            self.assertEqual((step.taken, step.put), (exact.taken, exact.put))
            for deed, other in zip(step.deeds, exact.deeds):
                self.assertTrue(deed.unsure or deed == other)

    def compare_wires(self, run, data):
        """What a page has of each wire gives its values back."""
        for n, wire in enumerate(data["wires"]):
            taken, put = flags_of(wire["taken"]), flags_of(wire["put"])
            state, values = texts_of(wire["first"], data["texts"]), iter(texts_of(wire["values"], data["texts"]))
            for k, (is_taken, is_put) in enumerate(zip(taken, put)):
                self.assertEqual(state, run.states[k][n])
                state = state[is_taken:] + [next(values) for _ in range(is_put)]
            self.assertEqual((state, len(taken)), (run.states[-1][n], data["steps"]))

    def compare_with_outputs(self, run):
        """What output streams have taken by these steps is what the program wrote."""
        for it in run.net.streams:
            if it.incoming or it.port == "std_out":
                continue
            wire = [one.finish for one in run.net.wires].index(it.name)
            taken = [before[wire][0] for before, step in zip(run.states, run.steps) if step.taken[wire]]
            with open(it.port, encoding="ascii") as file:
                self.assertEqual(taken, file.read().split("\n")[:-1])


if __name__ == "__main__":
    unittest.main()
