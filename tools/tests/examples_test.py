"""hume test: what it says of an example that is right, of one that is wrong, and what --bless writes."""
import os
import unittest

from setting import TOP, InRoom

from examples import examples_below
from program import is_number
from room import words_of

SOURCE = """box b in (x :: int 32) out (y :: int 32)
match (x) -> (x + 1) ;
stream s from "i" ;
stream t to "o" ;
wire s to b.x ;
wire b.y to t ;
"""
# which word behind the first is STEPS
STEPS_AT = {"demo": 1, "run": 0, "trace": 0, "calc": 0, "union": 0, "record": 0, "verify": 0}
NOT_COUNTED = ["not counted: 1 example, no run, trace or record of an accepted source", "no rule is counted"]


class Examples(InRoom):
    def example(self, name, output):
        self.put(f"{name}/p.hume", SOURCE)
        self.put(f"{name}/i", "1\n2\n")
        self.put(f"{name}/words", "run\n4\n1\np.hume\ni\no\n")
        self.put(f"{name}/expected/status", "0\n")
        self.put(f"{name}/expected/table", "box b heap 0 stack 4 work 5\ntotal heap 0 stack 4\n")
        self.put(f"{name}/expected/stdout", "peak b heap 0 stack 4\n")
        self.put(f"{name}/expected/o", output)

    def test_a_right_one_and_a_wrong_one(self):
        self.example("right", "2\n3\n")
        self.example("wrong", "2\n4\n")
        status, shown, _ = self.call("test", "right", "wrong")
        wanted = "passed: right\nFAILED: wrong: file o, line 2: wanted '4', found '3'\n1 passed, 1 failed\n"
        self.assertEqual((status, shown), (1, wanted))

    def test_all_folders_below_one(self):
        self.example("all/a", "2\n3\n")
        self.example("all/b", "2\n3\n")
        self.assertEqual(self.call("test", "all")[:2], (0, "passed: all/a\npassed: all/b\n2 passed, 0 failed\n"))

    def test_no_example_makes_many_supersteps(self):
        made = {word: [0] for word in STEPS_AT}
        for folder in examples_below([os.path.join(TOP, "examples")]):
            word, *numbers = words_of(folder)
            steps = numbers[STEPS_AT.get(word, 0) :][:1]
            if word in made and steps and is_number(steps[0]):
                made[word].append(int(steps[0]))
        self.assertLessEqual(sum(made.pop("demo")), 25_000)
        self.assertLessEqual(max(map(max, made.values())), 1000)

    def test_a_file_too_many_and_one_too_few(self):
        self.example("few", "2\n3\n")
        self.put("few/expected/more", "1\n")
        self.assertIn("file more: wanted, and not written", self.call("test", "few")[1])
        self.example("many", "2\n3\n")
        self.put("many/words", "run\n4\n1\np.hume\ni\n")
        self.assertIn("status, line 1: wanted '0', found '2'", self.call("test", "many")[1])

    def test_what_is_taken_by_each_superstep(self):
        self.example("taken", "2\n3\n")
        self.put("taken/expected/taken", "3 o 2\n4 o 3\n")
        self.assertIn("1 passed", self.call("test", "taken")[1])
        self.put("taken/expected/taken", "2 o 2\n4 o 3\n")
        self.assertIn("by superstep 2: file o, line 1: wanted '2', found ''", self.call("test", "taken")[1])

    def test_a_script_that_works_it_out(self):
        self.example("worked", "2\n3\n")
        self.put("worked/expected.py", "print(2)\nprint(5)\n")
        self.assertIn("o as expected.py works it out, line 2: wanted '3', found '5'", self.call("test", "worked")[1])

    def test_bless(self):
        self.example("new", "old\n")
        self.assertEqual(self.call("test", "--bless", "new")[:2], (0, "written: new/expected\n"))
        self.assertEqual(self.read("new/expected/o"), "2\n3\n")
        self.assertEqual(self.read("new/expected/stdout"), "peak b heap 0 stack 4\n")
        self.assertEqual(self.call("test", "new")[:2], (0, "passed: new\n1 passed, 0 failed\n"))

    def test_words_and_counts_that_are_none(self):
        self.put("empty/words", "")
        wanted = (1, "", "hume: empty/words has no line: it needs a line for each word of a call\n")
        for options in ([], ["--cover"], ["--bless"]):
            self.assertEqual(self.call("test", *options, "empty"), wanted)
        self.example("taken", "2\n3\n")
        for line in ("3 o\n", "x o 2\n"):
            self.put("taken/expected/taken", line)
            status, shown, told = self.call("test", "taken")
            self.assertEqual((status, shown, told.count("\n")), (1, "", 1))
        with open(self.put("bytes/words", ""), "wb") as file:
            file.write(b"run\n4\n1\n\xff\n")
        status, shown, told = self.call("test", "--cover", "bytes")
        self.assertEqual((status, shown.splitlines()[1:], told), (1, ["0 passed, 1 failed", *NOT_COUNTED], ""))

    def test_words_of_no_form(self):
        self.assertEqual(self.call("test", "absent")[0], 1)
        self.assertEqual(self.call("test", "--all")[0], 1)


if __name__ == "__main__":
    unittest.main()
