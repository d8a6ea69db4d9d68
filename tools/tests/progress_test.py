"""How far a long run is: told by the command itself on a terminal once a second, and nowhere else."""
import os
import pty
import re
import signal
import subprocess
import unittest

from setting import TOP, InRoom

# A chain that hands values on, and a ring of forty boxes beside it, which takes the time.
SLOW = "\n".join([
    'box c in (x :: int 32) out (y :: int 32) match (x) -> x ; stream s from "i" ; stream t to "o" ; wire s to c.x ; wire c.y to t ;',
    *(f"box b{k} in (x :: nat 8) out (y :: nat 8) match (x) -> x + 1 ; wire b{k}.y to b{(k + 1) % 40}.x initial {k} ;" for k in range(40)),
])
LINE = re.compile(rb"\r\x1b\[Khume: [0-9]+ s, [0-9]{1,3}%\r")


class Progress(InRoom):
    def setUp(self):
        super().setUp()
        self.put("slow.hume", SLOW)
        self.put("i", "7\n" * 1_000_000)

    def on_a_terminal(self, steps, until):
        """What a run writes to a terminal as its standard error, until that holds what is looked for, or to its end."""
        ours, theirs = pty.openpty()
        words = [os.path.join(TOP, "hume"), "run", steps, "1", "slow.hume", "i", "o"]
        found = b""
        with subprocess.Popen(words, cwd=self.room, stdin=subprocess.DEVNULL, stdout=subprocess.PIPE, stderr=theirs) as process:
            os.close(theirs)
            while not (until and until.search(found)):
                try:
                    found += os.read(ours, 4096)
                except OSError:
                    break
            process.send_signal(signal.SIGTERM)
            table = process.stdout.readline()
        os.close(ours)
        self.assertEqual(table, b"box c heap 0 stack 3 work 3\n")
        return found, process.returncode

    def test_a_long_run_tells_it(self):
        found, status = self.on_a_terminal("1000000", LINE)
        self.assertRegex(found, LINE)
        self.assertEqual(status, -signal.SIGTERM)

    def test_a_shorter_run_tells_nothing(self):
        self.assertEqual(self.on_a_terminal("100000", None)[0], b"")

    def test_no_terminal_hears_of_it(self):
        words = [os.path.join(TOP, "hume"), "run", "200000", "1", "slow.hume", "i", "o"]
        done = subprocess.run(words, cwd=self.room, stdin=subprocess.DEVNULL, capture_output=True)
        self.assertEqual((done.returncode, done.stderr), (0, b""))


if __name__ == "__main__":
    unittest.main()
