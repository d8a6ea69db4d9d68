"""Whether a net stands still, by its wires alone: never before a trace's standstill, and soon after it, for the runs of examples/."""
import io
import os
import unittest

from setting import TOP, InRoom

from source import read_net
from standing import Standing
from tracing import run_traced

STEPS = "150"


def texts_of(state):
    return [" | ".join(values) or "empty" for values in state]


def stands_at(net, states, most=1 << 30):
    """The superstep after which the net is said to stand still, if there is one."""
    standing = Standing(net)
    return next((k for k, state in enumerate(states[:most]) if standing.look(texts_of(state), 1)), None)


def net_of(text):
    return read_net(text.encode())


class Runs(InRoom):
    def programs(self):
        """The runs of examples/ whose inputs are files: their folders and words."""
        for folder, _, files in sorted(os.walk(os.path.join(TOP, "examples"))):
            if "words" in files:
                with open(os.path.join(folder, "words"), encoding="utf-8") as file:
                    words = file.read().splitlines()
                if words[0] == "run" and "std_in" not in words and not folder.endswith("functions"):
                    yield folder, words

    def try_program(self, folder, words):
        """The standstills that a trace and the wires tell."""
        os.chdir(folder)
        ports = [it if os.path.exists(it) or it == "std_out" else os.path.join(self.room, it) for it in words[4:]]
        with open(words[3], encoding="latin-1") as file:
            text = file.read()
        for old, new in zip(words[4:], ports):
            text = text.replace(f'"{old}"', f'"{new}"')
        run, _ = run_traced(STEPS, self.put("source", text), ports, io.BytesIO())
        return run and (run.standstill, stands_at(run.net, run.states), Standing(run.net).enough)

    def test_the_runs_of_examples(self):
        here, tried, stood = os.getcwd(), 0, 0
        self.addCleanup(os.chdir, here)
        for folder, words in self.programs():
            found = self.try_program(folder, words)
            if found:
                tried += 1
                wanted, said, enough = found
                if wanted is None:
                    self.assertIsNone(said, folder)
                elif wanted + enough < int(STEPS):
                    self.assertTrue(wanted <= said <= wanted + enough + 1, f"{folder}: {found}")
                    stood += 1
        self.assertGreater(stood, 20)


class Nets(unittest.TestCase):
    STREAMS = 'stream s from "i" ; stream t to "o" ; wire s to a.x ; wire b.z to t ;\n'
    STUCK = 'box a in (x :: int 32) out (y :: int 32) match (x) -> x ;\nbox b in (y :: int 32) out (z :: int 32) match (0) -> 0 ; wire a.y to b.y ;\n'

    def test_equal_values_that_are_taken_again_and_again_are_no_standstill(self):
        net = net_of('box a in (x :: int 32) out (y :: int 32) match (x) -> * ; stream s from "i" ; stream t to "o" ; wire s to a.x ; wire a.y to t ;')
        self.assertIsNone(stands_at(net, [[["20"], []]] * 500))
        self.assertIsNotNone(stands_at(net, [[[], []]] * 500))

    def test_a_box_that_holds_back_all_before_it(self):
        net = net_of(self.STUCK + self.STREAMS)
        wires = [it.name for it in net.wires]
        state = [{"s to a.x": ["1"], "a.y to b.y": ["1"], "b.z to t": []}[it] for it in wires]
        self.assertIsNotNone(stands_at(net, [state] * 50))
        self.assertIsNone(stands_at(net, [state] * 50, 4))

    def test_a_value_on_its_way_out_is_no_standstill(self):
        net = net_of(self.STUCK + self.STREAMS)
        self.assertIsNone(stands_at(net, [[["1"]] * 3] * 500))

    def test_a_ring_that_turns_is_no_standstill(self):
        net = net_of("box a in (x :: nat 8) out (y :: nat 8) match (x) -> x ;\nwire a.y to a.x initial 7 ;\n")
        self.assertIsNone(stands_at(net, [[["7"]]] * 500))


if __name__ == "__main__":
    unittest.main()
