"""hume cover and hume test --cover: counts that were worked out by hand."""
import io
import os
import unittest
from unittest import mock

from setting import InRoom

import evaluating
from coverage import run_covered

# `pass` gives on what is small, and `never` takes nothing; in superstep 3 `pass` can't put its second 5 out.
SOURCE = """exception Odd nat 8 ;
half :: nat 8 -> nat 8 ;
half 0 = 0 ;
half n = if n mod 2 == 1 then raise Odd n else n div 2 ;
box pass in (x :: nat 8) out (y :: nat 8, spare :: nat 8)
match (200) -> (0, 0)
    | (x) -> case half x of 0 -> (0, *) | 1 -> (1, *) | n -> (n, n) end
handle Odd _ -> (*, 5)
    | DivZero -> (*, *)
    | NoCase -> (*, *) ;
box never in (x :: nat 8) out (y :: nat 8) match (100) -> 1 ;
stream s from "numbers" ;
stream t to "totals" ;
stream u to "more" ;
wire s to pass.x ;
wire pass.y to t ;
wire pass.spare to never.x ;
wire never.y to u ;
"""
WANTED = """box pass
  rule 1, line 6: never fired
  rule 2, line 7: fired 3, blocked 3 (no room: spare 3)
  handler Odd, line 8: taken 2
  handler DivZero, line 9: never taken
  handler NoCase, line 10: never taken
box never
  rule 1, line 11: never fired
p.hume:3:1: never taken: equation 1 of function half
p.hume:7:29: never taken: `0` in rule 2 of box pass
p.hume:7:57: never taken: `n` in rule 2 of box pass
p.hume:9:7: never taken: handler DivZero of box pass
p.hume:10:7: never taken: handler NoCase of box pass
"""
RULES = """p.hume:6:7: never fired: rule 1 of box pass
p.hume:11:50: never fired: rule 1 of box never
"""
CALL = ("p.hume", "numbers", "totals", "more")


class Cover(InRoom):
    def setUp(self):
        super().setUp()
        self.put("p.hume", SOURCE)
        self.put("numbers", "3\n2\n7\n4\n")

    def test_counts(self):
        self.assertEqual(self.call("cover", "6", *CALL), (0, WANTED + RULES, ""))

    def test_words_and_refusals(self):
        for words in (["4"], ["x", "p.hume"], ["-1", "p.hume"]):
            status, shown, told = self.call("cover", *words)
            self.assertEqual((status, shown, told), (1, "", "hume: usage: hume cover STEPS SOURCE PORT..\n"))
        self.assertEqual(self.call("cover", "4", "absent"), (1, "", "hume: absent: No such file or directory\n"))
        self.put("bad.hume", "box")
        self.assertEqual(self.call("cover", "4", "bad.hume")[:2], (2, "refused 20 line 1\n"))

    def test_a_bad_line(self):
        self.put("numbers", "3\nx\n")
        status, shown, _ = self.call("cover", "6", *CALL)
        self.assertEqual((status, shown.splitlines()[-1]), (3, "bad value s line 2"))

    def test_what_takes_too_long_is_told(self):
        self.addCleanup(os.chdir, os.getcwd())
        os.chdir(self.room)
        with mock.patch.object(evaluating, "MOST_WORK", 20):
            _, coverage, _ = run_covered("6", CALL[0], CALL[1:], io.BytesIO())
        self.assertEqual((coverage.steps, coverage.wanted, coverage.fired), (2, 6, {(0, 1): 1}))

    def test_a_chain_of_functions(self):
        chain = "f0 :: int 64 -> int 64 ;\nf0 x = x ;\n" + "".join(f"f{n} :: int 64 -> int 64 ;\nf{n} x = ((((f{n - 1} (x + 1))))) ;\n" for n in range(1, 250))
        box = "box b in (x :: int 64) out (y :: int 64) match (x) -> f249 x ;\n"
        streams = 'stream s from "numbers" ;\nstream u to "more" ;\nwire s to b.x ;\nwire b.y to u ;\n'
        self.put("p.hume", chain + box + streams)
        self.assertEqual(self.call("cover", "6", "p.hume", "numbers", "more"), (0, "box b\n  rule 1, line 501: fired 4\n", ""))
        self.assertEqual(self.read("more"), "252\n251\n256\n253\n")

    def example(self, name, numbers):
        self.put(f"{name}/p.hume", SOURCE)
        self.put(f"{name}/numbers", numbers)
        self.put(f"{name}/words", "\n".join(["run", "9", "1", *CALL]) + "\n")
        self.call("test", "--bless", name)

    def test_examples_add_up(self):
        self.example("all/a", "3\n2\n")
        self.example("all/b", "200\n")
        status, shown, _ = self.call("test", "--cover", "all")
        self.assertEqual(status, 0)
        head, _, rest = shown.partition("2 passed, 0 failed\n")
        self.assertEqual(head, "passed: all/a\npassed: all/b\n")
        wanted = ["cover of all/a/p.hume, 2 examples", "box pass", "  rule 1, line 6: fired 1", "  rule 2, line 7: fired 2"]
        self.assertEqual(rest.splitlines()[:4], wanted)
        self.assertEqual(rest.splitlines()[-1], "all/a/p.hume:11:50: never fired: rule 1 of box never")

    def test_examples_with_other_words(self):
        self.put("one/words", "check\np.hume\n")
        self.put("one/p.hume", SOURCE)
        self.call("test", "--bless", "one")
        wanted = "passed: one\n1 passed, 0 failed\nnot counted: 1 example, no run, trace or record of an accepted source\nno rule is counted\n"
        self.assertEqual(self.call("test", "--cover", "one")[:2], (0, wanted))
        self.assertEqual(self.call("test", "--cover", "--bless", "one")[0], 1)


if __name__ == "__main__":
    unittest.main()
