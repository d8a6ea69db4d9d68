"""What the words of tools/ say where something fails: outputs, inputs and files that are none; signals; and what they read of what never ends."""
import os
import pty
import resource
import signal
import subprocess
import sys
import threading
import time
import unittest
from unittest import mock

from setting import ADD, TOP, InRoom

import drawing
import examples
from program import is_number
from progress import Progress
from replay import explain
from source import read_net
from tracing import read_trace, values_of

MAIN = os.path.join(TOP, "tools", "main.py")
MOST_MEMORY = 400 << 20


class Failures(InRoom):
    def setUp(self):
        super().setUp()
        self.put("add.hume", ADD)
        self.put("numbers", "5\n10\n")

    def started(self, *words, **how):
        """The word as a process with little memory."""
        bound = lambda: resource.setrlimit(resource.RLIMIT_AS, (MOST_MEMORY, MOST_MEMORY))  # noqa: E731
        return subprocess.Popen([sys.executable, MAIN, *words], cwd=self.room, stderr=subprocess.PIPE, preexec_fn=bound, **how)

    def told(self, *words, **how):
        """The status of the word, and the one line that it tells."""
        with self.started(*words, **how) as process:
            told = process.stderr.read().decode()
            status = process.wait()
        self.assertEqual(told.count("\n"), 1, told)
        return status, told.rstrip("\n")

    def test_an_output_that_takes_nothing(self):
        self.put("trace", "step 1\nwire s to t 1\n")
        runs = [[word, "3", "add.hume", "numbers", "totals"] for word in ("watch", "cover", "vcd", "page")]
        for words in (*runs, ["waves", "trace"], ["install", "there"], ["uninstall", "there"]):
            for place, way, cause in (("/dev/full", "wb", "no space left"), (os.devnull, "rb", "it is closed")):
                self.call("install", "there")
                with open(place, way) as output:
                    self.assertEqual(self.told(*words, stdout=output), (4, f"hume: can't write the standard output: {cause}"))

    def test_numbers_that_are_none(self):
        for word in ("watch", "cover", "vcd", "page", "go"):
            for number in ("\u00b2", "9" * 5000):
                self.assertEqual(self.told(word, number, "add.hume")[0], 1)
        self.assertEqual([is_number(it) for it in ("0", "1000000", "1000001", "-1", "", "0000000001")], [True, True, False, False, False, False])

    def test_a_long_number_among_values(self):
        self.assertEqual(values_of(["0" * 5000 + "7", "9" * 5000, "1"], 9), (["7"], True))
        self.assertEqual(values_of(["1", "2", "3"], 2), (["1", "2"], True))
        self.assertEqual(values_of(["1", "2", ""], 2), (["1", "2"], False))
        self.assertEqual(read_trace("step " + "9" * 5000 + "\n").numbers, [])

    def test_a_folder_and_a_file_in_the_place_of_notes(self):
        self.assertEqual(self.told("watch", "3", "."), (1, "hume: .: Is a directory"))
        self.put(".hume", "mine\n")
        status, told = self.told("go", "add.hume", stdout=subprocess.DEVNULL)
        self.assertEqual((status, told), (4, "hume: '.hume': File exists"))

    def test_a_newline_in_a_name(self):
        for words in (["watch", "3"], ["cover", "3"], ["vcd", "3"], ["page", "3"], ["go"], ["live"], ["waves"]):
            self.assertEqual(self.told(*words, "a\nb"), (1, r"hume: a\nb: No such file or directory"))
        self.assertEqual(self.told("test", "a\nb"), (1, r"hume: there is no folder 'a\nb'"))
        status, told = self.told("watch", "3", "add.hume", "numbers", "totals", "-w", "a\nb")
        self.assertEqual((status, told.split(";")[0]), (1, r"hume: no wire begins or ends at 'a\nb'"))

    def test_a_trace_that_is_none(self):
        self.put("other", "step 1\nwire s to t 1\nstep 2\nwire u to t 1\n")
        self.assertEqual(self.told("waves", "other"), (1, "hume: the step 2 has other wires than the first: it is no trace"))
        self.put("numbers-of-it", "step 1\n" + "".join(f"wire {it} none\n" for it in ("numbers to add.x", "add.next to add.sum", "add.total to totals")))
        wanted = "hume: the trace is of another source: a wire of numbers has another value"
        self.assertEqual(self.told("waves", "numbers-of-it", "add.hume", stdout=subprocess.DEVNULL), (1, wanted))

    def test_an_input_that_never_ends(self):
        self.put("add.hume", ADD.replace('"numbers"', '"std_in"'))
        for word in ("watch", "cover", "vcd", "page"):
            with subprocess.Popen(["yes", "1"], stdout=subprocess.PIPE) as endless:
                with self.started(word, "4", "add.hume", "totals", stdin=endless.stdout, stdout=subprocess.PIPE) as process:
                    endless.stdout.close()
                    shown, told = process.communicate()
                self.assertEqual((process.returncode, told), (0, b""))
            self.assertEqual(self.read("totals"), "1\n2\n")
            self.assertIn(b"box add" if word == "cover" else b"totals", shown)

    def test_a_source_an_input_and_a_trace_that_never_end(self):
        for words in (["watch", "4"], ["cover", "4"], ["vcd", "4"], ["page", "4"], ["go"], ["live"]):
            with self.started(*words, "/dev/zero", stdout=subprocess.PIPE) as process:
                shown, told = process.communicate()
            self.assertEqual((process.returncode, (shown + told).split(b"\n")[0]), (2, b"refused 70 line 1"))
        status, told = self.told("waves", "/dev/zero")
        self.assertEqual((status, told), (1, "hume: a line has more than 1048576 bytes: it is no trace"))
        self.put("add.hume", ADD.replace('"numbers"', '"/dev/zero"'))
        with self.started("watch", "4", "add.hume", "/dev/zero", "totals", stdout=subprocess.PIPE) as process:
            shown, _ = process.communicate()
        self.assertEqual((process.returncode, shown.split(b"\n")[-2]), (3, b"bad value numbers line 1"))

    def test_a_source_that_can_be_read_once(self):
        for word in ("watch", "cover", "vcd", "page"):
            wanted = self.call(word, "4", "add.hume", "numbers", "totals")
            shown = self.call(word, "4", "std_in", "numbers", "totals", given=ADD.encode())
            self.assertEqual((shown[0], shown[1].replace("std_in", "add.hume"), shown[2]), wanted)
            with open(os.path.join(self.room, "add.hume"), "rb") as file, self.started(
                *(word, "4", "/dev/stdin", "numbers", "totals"), stdin=file, stdout=subprocess.PIPE
            ) as process:
                shown, told = process.communicate()
            self.assertEqual((process.returncode, shown.decode().replace("/dev/stdin", "add.hume").replace("stdin", "add.hume"), told), (*wanted[:2], b""))
            shown = self.call(word, "4", "std_in", "totals", given=ADD.encode())
            self.assertEqual((shown[0], (shown[1] + shown[2]).split("\n")[0]), (2, "refused 55 line 3"))

    def test_a_signal_ends_what_it_started(self):
        for word in (["go"], ["watch", "9"]):
            os.mkfifo(os.path.join(self.room, "totals"))
            process = self.started(*word, "add.hume", *(["numbers", "totals"] if word[0] == "watch" else ["--force"]), stdout=subprocess.DEVNULL)
            children = self.wait_for(lambda: self.children(process.pid))
            self.assertTrue(children)
            process.send_signal(signal.SIGTERM)
            self.assertEqual((process.wait(), process.stderr.read()), (-signal.SIGTERM, b""))
            process.stderr.close()
            self.assertTrue(self.wait_for(lambda: not any(map(self.is_running, children))))
            os.remove(os.path.join(self.room, "totals"))

    def wait_for(self, condition):
        """What the condition comes to, once it is more than nothing; none after ten seconds."""
        for _ in range(200):
            found = condition()
            if found:
                return found
            time.sleep(0.05)
        return None

    def children(self, process):
        """The processes that run the program for this one and wait for an output."""
        found = subprocess.run(["pgrep", "-P", str(process), "-f", " (run|trace) "], stdout=subprocess.PIPE).stdout.split()
        return [int(it) for it in found]

    def is_running(self, process):
        try:
            with open(f"/proc/{process}/stat", encoding="ascii") as file:
                return file.read().rsplit(")", 1)[1].split()[0] != "Z"
        except OSError:
            return False


class Slow(InRoom):
    def test_a_drawing_that_fails_or_takes_too_long(self):
        for script in ("exit 1", "exec sleep 60", "cat; exit 3"):
            path = self.put("bin/dot", f"#!/bin/sh\n{script}\n")
            os.chmod(path, 0o755)
            with mock.patch("shutil.which", return_value=path), mock.patch.object(drawing, "MOST_SECONDS", 0.3):
                self.assertEqual(drawing.picture("digraph {}"), b"")

    def test_a_terminal_shows_how_far_it_is(self):
        ours, theirs = pty.openpty()
        with open(theirs, "w", encoding="ascii") as terminal, mock.patch("progress.EVERY", 0):
            with Progress(terminal) as progress:
                explain(read_net(ADD.encode()), [[[], ["0"], []], [["5"], ["0"], []]], {}, progress)
        self.assertEqual(os.read(ours, 43) + os.read(ours, 4096), b"\r\x1b[Khume: 1 of 1 supersteps are looked at\r\x1b[K")
        os.close(ours)

    def test_examples_are_tried_side_by_side(self):
        both = threading.Barrier(2)
        with mock.patch.object(examples, "compare", lambda _: both.wait(30) and None), mock.patch("os.sched_getaffinity", return_value={0, 1}):
            self.assertEqual([it for it, _ in examples.compare_all(["a", "b"])], ["a", "b"])


if __name__ == "__main__":
    unittest.main()
