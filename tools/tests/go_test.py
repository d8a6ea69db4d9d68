"""hume go: the ports of the source's streams, its folder, and files that it asks about."""
import os
import pty
import subprocess
import sys
import unittest

from setting import ADD, TOP, InRoom


class Go(InRoom):
    def setUp(self):
        super().setUp()
        self.put("in/add.hume", ADD)
        self.put("in/numbers", "5\n10\n")

    def test_it_runs_in_the_folder_of_the_source(self):
        status, shown, told = self.call("go", "in/add.hume")
        self.assertEqual((status, shown.splitlines()[-1], told), (0, "peak add heap 0 stack 7", ""))
        self.assertEqual(self.read("in/totals"), "5\n15\n")

    def test_the_number_of_supersteps_and_of_workers(self):
        self.assertEqual(self.call("go", "3", "in/add.hume", "-j", "1")[0], 0)
        self.assertEqual(self.read("in/totals"), "5\n")
        self.assertEqual(self.call("go", "three", "in/add.hume")[0], 1)
        self.assertEqual(self.call("go")[0], 1)

    def test_what_it_wrote_it_writes_again(self):
        self.assertEqual(self.call("go", "3", "in/add.hume")[0], 0)
        self.assertEqual(self.call("go", "4", "in/add.hume")[0], 0)
        self.assertEqual(self.read("in/totals"), "5\n15\n")

    def test_a_file_that_no_run_wrote_is_left(self):
        self.put("in/totals", "mine\n")
        status, shown, told = self.call("go", "in/add.hume")
        self.assertEqual((status, shown), (1, ""))
        self.assertIn("'totals' is there and no earlier 'hume go' wrote it", told)
        self.assertEqual(self.read("in/totals"), "mine\n")
        self.assertEqual(self.call("go", "in/add.hume", "--force")[0], 0)
        self.assertEqual(self.read("in/totals"), "5\n15\n")

    def test_at_a_terminal_it_asks(self):
        for answer, wanted in (("n", "mine\n"), ("y", "5\n15\n")):
            self.put("in/totals", "mine\n")
            keyboard, terminal = pty.openpty()
            os.write(keyboard, f"{answer}\n".encode())
            command = [sys.executable, os.path.join(TOP, "tools", "main.py"), "go", "in/add.hume"]
            subprocess.run(command, cwd=self.room, stdin=terminal, capture_output=True)
            os.close(keyboard)
            os.close(terminal)
            self.assertEqual(self.read("in/totals"), wanted)

    def test_a_file_that_was_changed_since_is_left(self):
        self.assertEqual(self.call("go", "in/add.hume")[0], 0)
        self.put("in/totals", "5\n15\nand a note\n")
        self.assertEqual(self.call("go", "in/add.hume")[0], 1)
        self.assertEqual(self.read("in/totals"), "5\n15\nand a note\n")

    def test_a_file_that_a_failing_run_left_alone_is_no_file_of_its_own(self):
        self.put("out/add.hume", ADD)
        self.put("out/totals", "mine\n")
        os.mkdir(os.path.join(self.room, "out/numbers"))
        self.assertEqual(self.call("go", "out/add.hume", "--force")[0], 4)
        self.assertEqual(self.read("out/totals"), "mine\n")
        self.assertFalse(os.path.exists(os.path.join(self.room, "out/.hume")))
        os.rmdir(os.path.join(self.room, "out/numbers"))
        self.put("out/numbers", "5\n10\n")
        self.assertEqual(self.call("go", "out/add.hume")[0], 1)
        self.assertEqual(self.read("out/totals"), "mine\n")

    def test_notes_and_ports_are_apart(self):
        self.put("in/add.hume", ADD.replace('"totals"', '".hume-go"'))
        for _ in range(2):
            self.assertEqual(self.call("go", "in/add.hume")[0], 0)
            self.assertEqual(self.read("in/.hume-go"), "5\n15\n")
        for port in (".hume", ".hume/written", "./.hume/more"):
            self.put("in/add.hume", ADD.replace('"totals"', f'"{port}"'))
            status, _, told = self.call("go", "in/add.hume", "--force")
            self.assertEqual((status, told), (1, f"hume: the stream totals has the port '{port}', and '.hume' is kept for the notes of 'hume go'\n"))

    def test_notes_that_are_no_text_are_no_notes(self):
        os.mkdir(os.path.join(self.room, "in/.hume"))
        with open(os.path.join(self.room, "in/.hume/written"), "wb") as file:
            file.write(bytes(range(256)))
        self.put("in/totals", "mine\n")
        self.assertEqual(self.call("go", "in/add.hume")[0], 1)
        self.assertEqual(self.call("go", "in/add.hume", "--force")[0], 0)
        self.assertEqual(self.call("go", "in/add.hume")[0], 0)

    def test_an_input_that_is_missing_and_a_refusal(self):
        self.put("out/add.hume", ADD)
        self.assertIn("'numbers', which isn't there", self.call("go", "out/add.hume")[2])
        self.put("out/bad.hume", "box")
        self.assertEqual(self.call("go", "out/bad.hume")[:2], (2, "refused 20 line 1\n"))


if __name__ == "__main__":
    unittest.main()
