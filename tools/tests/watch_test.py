"""hume watch: its table and its reports, worked out by hand; and that each trace of the examples is explained."""
import glob
import os
import unittest

from setting import ADD, TOP, InRoom

from replay import explain
from source import read_net
from tracing import read_trace

# A joins two numbers and gives the first on; nobody takes what `spare` has to say.
SPARE = """box pass in (x :: int 8) out (y :: int 8, spare :: int 8) match (x) -> (x, x) ;
box never in (x :: int 8) out (y :: int 8) match (100) -> 1 ;
stream s from "numbers" ;
stream t to "totals" ;
stream u to "more" ;
wire s to pass.x ;
wire pass.y to t ;
wire pass.spare to never.x ;
wire never.y to u ;
"""

RING = """box left in (x :: int 8, back :: int 8) out (y :: int 8, go :: int 8) match (x, back) -> (x, back) ;
box right in (go :: int 8) out (back :: int 8) match (n) -> n ;
stream s from "numbers" ;
stream t to "totals" ;
wire s to left.x ;
wire left.y to t ;
wire left.go to right.go ;
wire right.back to left.back ;
"""


class Watch(InRoom):
    def test_the_table_has_changes_alone(self):
        self.put("add.hume", ADD)
        self.put("numbers", "5\n5\n")
        wanted = """step  numbers  add.next  add.total
      add.x    add.sum   totals
0     .        0         .
1     5
2     5        5         5
3     .        10        10
4                        .
standstill: from superstep 5 on nothing changes, and nothing can come any more
  box add waits for a value at add.x (from stream numbers, which has ended)
"""
        self.assertEqual(self.call("watch", "9", "add.hume", "numbers", "totals"), (0, wanted, ""))

    def test_a_box_that_waits_for_itself(self):
        self.put("add.hume", ADD.replace(" initial 0", ""))
        self.put("numbers", "5\n7\n9\n")
        status, shown, _ = self.call("watch", "9", "add.hume", "numbers", "totals")
        self.assertEqual(status, 0)
        self.assertIn("standstill: from superstep 2 on", shown)
        self.assertIn("  box add waits for a value at add.sum (from box add)\n", shown)
        self.assertIn("  stream numbers has 2 more, and finds no room: numbers to add.x is full\n", shown)
        self.assertIn("  add waits for itself: a wire there may need a first value", shown)

    def test_a_ring_of_two(self):
        self.put("ring.hume", RING)
        self.put("numbers", "1\n")
        shown = self.call("watch", "9", "ring.hume", "numbers", "totals")[1]
        self.assertIn("  left and right wait for each other: a wire there may need a first value", shown)

    def test_a_box_that_is_blocked_and_one_of_which_no_rule_fits(self):
        self.put("spare.hume", SPARE)
        self.put("numbers", "1\n2\n3\n")
        shown = self.call("watch", "9", "spare.hume", "numbers", "totals", "more")[1]
        self.assertIn("  box pass is blocked, as it finds no room: pass.spare to never.x holds 1\n", shown)
        self.assertIn("  box never waits, as none of its rules fits: never.x has 1\n", shown)

    def test_some_wires(self):
        self.put("add.hume", ADD)
        self.put("numbers", "5\n")
        wanted = "step  add.total\n      totals\n0     .\n2     5\n3     .\n"
        shown = self.call("watch", "3", "add.hume", "numbers", "totals", "-w", "totals")[1]
        self.assertEqual(shown, wanted)
        self.assertEqual(self.call("watch", "3", "add.hume", "numbers", "totals", "-w", "absent")[0], 1)

    def test_until(self):
        self.put("add.hume", ADD)
        self.put("numbers", "".join(f"{n}\n" for n in range(1, 30)))
        call = ("watch", "40", "add.hume", "numbers", "totals", "-w", "add.total")
        wanted = ["step  add.total", "      totals", "5     10", *(f"{n + 1:<6}{n * (n + 1) // 2}" for n in range(5, 15))]
        status, shown, told = self.call(*call, "--until", "totals  105 ")
        self.assertEqual((status, shown.splitlines(), told), (0, [*wanted, "until: add.total to totals has 105 after superstep 15"], ""))
        shown = self.call(*call, "--until", "add.sum 0")[1]
        self.assertEqual(shown, "step  add.total\n      totals\n0     .\nuntil: add.next to add.sum has 0 after superstep 0\n")
        lines = self.call(*call, "--until", "totals 2")[1].splitlines()
        self.assertEqual([it.split()[0] for it in lines[2:5]], ["30", "31", "40"])
        self.assertEqual(lines[-1], "until: add.total to totals never has 2 in 40 supersteps")

    def test_until_of_no_value_and_of_no_wire(self):
        self.put("add.hume", ADD)
        self.put("numbers", "1\n")
        for until, told in (
            ("totals", "--until needs a wire and a value, as in --until 'b.y 7', and not 'totals'"),
            ("totals 1 2", "--until needs a wire and a value, as in --until 'b.y 7', and not 'totals 1 2'"),
            ("totals true", "--until can't come true: add.total to totals has the type int 32, and true is no value of that"),
            ("totals 2147483648", "--until can't come true: add.total to totals has the type int 32, and 2147483648 is no value of that"),
            ("add 1", "--until needs one wire, and 'add' has 3: name it by an end, of numbers, add.next, add.total"),
            ("add.y 1", "no wire begins or ends at 'add.y'; the wires are numbers to add.x, add.next to add.sum, add.total to totals"),
        ):
            self.assertEqual(self.call("watch", "4", "add.hume", "numbers", "totals", "--until", until), (1, "", f"hume: {told}\n"))
        self.assertFalse(os.path.exists(os.path.join(self.room, "totals")))

    def test_the_width_of_cells_and_the_length_of_a_queue(self):
        self.put("add.hume", ADD.replace("add.total to totals", "add.total to totals @ 2").replace("numbers to add.x", "numbers to add.x @ 3"))
        self.put("numbers", "1000000\n20000\n3\n4\n5\n")
        wanted = "step  numbers   add.next  add.total\n      add.x     add.sum   totals\n0     .         0         .\n1     1: 100..\n"
        shown = self.call("watch", "1", "add.hume", "numbers", "totals", "--width", "8")[1]
        self.assertTrue(shown.startswith(wanted), shown)
        for width in ("3", "x", "100001"):
            told = f"hume: --width is 4 to 100000, not '{width}'\n"
            self.assertEqual(self.call("watch", "1", "add.hume", "numbers", "totals", "--width", width), (1, "", told))
        self.assertEqual(self.call("watch", "1", "add.hume", "numbers", "totals", "--until")[0], 1)

    def test_a_bad_value_and_a_refusal(self):
        self.put("add.hume", ADD)
        self.put("numbers", "5\nx\n")
        status, shown, _ = self.call("watch", "9", "add.hume", "numbers", "totals")
        self.assertEqual((status, shown.splitlines()[-1]), (3, "bad value numbers line 2"))
        self.put("bad.hume", "box")
        self.assertEqual(self.call("watch", "9", "bad.hume")[:2], (2, "refused 20 line 1\n"))


class Traces(unittest.TestCase):
    def test_each_trace_of_the_examples_is_explained(self):
        folders = glob.glob(os.path.join(TOP, "examples", "traces", "*", ""))
        self.assertTrue(folders)
        for folder in folders:
            with open(glob.glob(folder + "*.hume")[0], "rb") as file:
                net = read_net(file.read())
            with open(folder + "expected/stdout", encoding="ascii") as file:
                trace = read_trace(file.read())
            start = [[it.first] if it.first is not None else [] for it in net.wires]
            steps, _ = explain(net, [start, *trace.states], {})
            self.assertEqual(len(steps), len(trace.states))

    def test_who_fires_and_who_is_blocked(self):
        """`d` fires in 2 and 3, and then has 2 and 2 to put out, for which `d.b` has no room; `k` fires and does nothing."""
        folder = os.path.join(TOP, "examples", "traces", "both_outputs_or_none")
        with open(os.path.join(folder, "both_outputs_or_none.hume"), "rb") as file:
            net = read_net(file.read())
        with open(os.path.join(folder, "expected", "stdout"), encoding="ascii") as file:
            trace = read_trace(file.read())
        steps, still = explain(net, [[[], [], [], []], *trace.states], {"s": (["1", "2", "3"], False)})
        self.assertEqual([it.deeds[0][:3] for it in steps[:4]], [(0, False, False), (1, True, False), (1, False, True), (0, False, True)])
        self.assertEqual([it.deeds[1].rule for it in steps], [1] * 6)
        self.assertEqual(still, 4)


if __name__ == "__main__":
    unittest.main()
