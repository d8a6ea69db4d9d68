"""hume live: superstep by superstep over files, pipes, FIFOs and a terminal; what ends it, and what is told then."""
import os
import pty
import select
import signal
import subprocess
import sys
import threading
import unittest

from setting import ADD, TOP, InRoom

MAIN = os.path.join(TOP, "tools", "main.py")
TABLE = "box add heap 0 stack 7 work 9\ntotal heap 0 stack 7\n"
PEAK = "peak add heap 0 stack 7\n"
SECONDS = 30


def line_of(file):
    """The next line of a descriptor, if it comes within some seconds."""
    text = b""
    while not text.endswith(b"\n"):
        if not select.select([file], [], [], SECONDS)[0]:
            return f"nothing after {text!r}"
        part = os.read(file, 1)
        if not part:
            return f"the end after {text!r}"
        text += part
    return text.decode().replace("\r\n", "\n")


def hear_interrupts():
    """Lets the process hear Ctrl-C where the tests ignore it, as all does that a shell runs in the background."""
    signal.signal(signal.SIGINT, signal.SIG_DFL)


class Live(InRoom):
    def setUp(self):
        super().setUp()
        self.put("add.hume", ADD)
        self.put("standard.hume", ADD.replace('"numbers"', '"std_in"').replace('"totals"', '"std_out"'))

    def fifos(self, *names):
        for it in names:
            os.mkfifo(os.path.join(self.room, it))

    def started(self, *words, **how):
        """The word as a process, which is ended with the test."""
        streams = {"stdin": subprocess.DEVNULL, "stdout": subprocess.PIPE, "stderr": subprocess.PIPE, **how}
        process = subprocess.Popen([sys.executable, MAIN, "live", *words], cwd=self.room, preexec_fn=hear_interrupts, **streams)
        self.addCleanup(self.stop, process)
        return process

    def stop(self, process):
        process.kill()
        for it in (process.stdin, process.stdout, process.stderr):
            if it:
                it.close()
        process.wait()

    def opened(self, name, way):
        """The FIFO, which is open once somebody has opened its other end."""
        file = os.open(os.path.join(self.room, name), way)
        self.addCleanup(self.close, file)
        return file

    def close(self, file):
        try:
            os.close(file)
        except OSError:
            pass

    def ended(self, process):
        """The status, the standard output and the standard error."""
        shown, told = process.communicate(timeout=SECONDS)
        return process.returncode, shown.decode(), told.decode()


class Files(Live):
    def test_it_gives_what_a_run_gives(self):
        self.put("numbers", "5\n10\n-3\n")
        self.assertEqual(self.call("live", "add.hume", "numbers", "totals", "-j", "2"), (0, TABLE + PEAK, ""))
        self.assertEqual(self.read("totals"), "5\n15\n12\n")

    def test_without_ports_it_runs_in_the_folder_of_the_source(self):
        self.put("in/add.hume", ADD)
        self.put("in/numbers", "5\n10\n")
        for _ in range(2):
            self.assertEqual(self.call("live", "in/add.hume"), (0, TABLE + PEAK, ""))
            self.assertEqual(self.read("in/totals"), "5\n15\n")
        self.put("in/totals", "mine\n")
        self.assertEqual(self.call("live", "in/add.hume")[:2], (1, ""))
        self.assertEqual(self.call("live", "in/add.hume", "--force"), (0, TABLE + PEAK, ""))

    def test_the_standard_input_and_output(self):
        wanted = "hume: nothing can change after superstep "
        status, shown, told = self.call("live", "standard.hume", given=b"5\n10\n-3\n")
        self.assertEqual((status, shown), (0, TABLE + "5\n15\n12\n" + PEAK))
        self.assertRegex(told, wanted + "[0-9]*: the standard input of stream numbers has ended\n$")

    def test_words_of_no_form(self):
        usage = "hume: usage: hume live SOURCE [PORT..] [-j WORKERS] [--force]\n"
        for words in ([], ["-j"], ["add.hume", "-j"], ["add.hume", "-j", "two"], ["--help"]):
            self.assertEqual(self.call("live", *words), (1, "", usage))
        self.assertEqual(self.call("live", "no.hume")[::2], (1, "hume: no.hume: No such file or directory\n"))

    def test_a_refusal_and_a_port_that_is_not_given(self):
        self.put("bad.hume", "box")
        self.assertEqual(self.call("live", "bad.hume")[:2], (2, "refused 20 line 1\n"))
        status, shown, told = self.call("live", "add.hume", "totals")
        self.assertEqual((status, shown), (2, "refused 55 line 3\n"))
        self.assertEqual(told, "add.hume:3: refused 55: stream numbers needs the port 'numbers' among the words\n")

    def test_an_input_that_is_missing(self):
        status, shown, told = self.call("live", "add.hume", "numbers", "totals")
        self.assertEqual((status, shown, told), (4, TABLE, "hume: can't read the port 'numbers': no such file\n"))

    def test_a_bad_line_leaves_what_was_written(self):
        self.put("numbers", "5\n10\n2\nx\n")
        status, shown, told = self.call("live", "add.hume", "numbers", "totals")
        self.assertEqual((status, shown), (3, TABLE + "bad value numbers line 4\n"))
        self.assertEqual(told, "numbers:4: no value of the type of stream numbers\n")
        self.assertEqual(self.read("totals"), "5\n")
        self.assertEqual(self.call("live", "standard.hume", given=b"x\n")[2], "std_in:1: no value of the type of stream numbers\n")

    def test_the_standard_output_is_no_port(self):
        self.put("numbers", "5\n")
        with open(os.path.join(self.room, "totals"), "wb") as file:
            process = self.started("add.hume", "numbers", "totals", stdout=file)
            told = process.communicate(timeout=SECONDS)[1]
        self.assertEqual((process.returncode, told), (1, b"hume: 'totals' and the standard output are one file\n"))


class Fifos(Live):
    def both(self, process):
        """The two ends: what the sensor writes, and what the actuator reads."""
        return self.opened("numbers", os.O_WRONLY), self.opened("totals", os.O_RDONLY)

    def test_each_output_is_out_before_the_next_input_is_waited_for(self):
        self.fifos("numbers", "totals")
        process = self.started("add.hume", "numbers", "totals")
        sensor, actuator = self.both(process)
        os.write(sensor, b"1\n1\n")
        for total in range(1, 6):
            os.write(sensor, b"1\n")
            self.assertEqual(line_of(actuator), f"{total}\n")
        os.close(sensor)
        status, shown, told = self.ended(process)
        self.assertEqual((status, shown), (0, TABLE + PEAK))
        self.assertRegex(told, "^hume: nothing can change after superstep [0-9]*: the port 'numbers' of stream numbers has ended\n$")
        self.assertEqual([line_of(actuator) for _ in range(3)], ["6\n", "7\n", "the end after b''"])

    def test_who_reads_may_come_first(self):
        """A plant that opens the FIFO that it reads before the one that it writes."""
        self.fifos("numbers", "totals")
        process = self.started("add.hume", "numbers", "totals")
        plant = 'exec <totals >numbers; echo 1; echo 1; for k in 1 2 3; do echo "$k"; read -r total; done; echo "$total" >last; exec >&-; cat >rest'
        subprocess.run(["bash", "-c", plant], cwd=self.room, timeout=SECONDS, check=True)
        self.assertEqual(self.ended(process)[0], 0)
        self.assertEqual((self.read("last"), self.read("rest")), ("3\n", "5\n8\n"))

    def test_a_bad_line(self):
        self.fifos("numbers", "totals")
        process = self.started("add.hume", "numbers", "totals")
        sensor, actuator = self.both(process)
        os.write(sensor, b"1\n2\n3\nx\n")
        self.assertEqual(line_of(actuator), "1\n")
        self.assertEqual(self.ended(process), (3, TABLE + "bad value numbers line 4\n", "numbers:4: no value of the type of stream numbers\n"))
        self.assertEqual(line_of(actuator), "the end after b''")

    def test_an_actuator_that_goes_away(self):
        self.fifos("numbers", "totals")
        process = self.started("add.hume", "numbers", "totals")
        sensor, actuator = self.both(process)
        os.write(sensor, b"1\n2\n3\n")
        self.assertEqual(line_of(actuator), "1\n")
        os.close(actuator)
        os.write(sensor, b"4\n")
        self.assertEqual(self.ended(process), (4, TABLE, "hume: can't write the port 'totals': nobody reads from it any more\n"))

    def test_ctrl_c_while_a_sensor_is_waited_for(self):
        self.fifos("numbers", "totals")
        process = self.started("add.hume", "numbers", "totals")
        sensor, actuator = self.both(process)
        os.write(sensor, b"1\n2\n3\n")
        self.assertEqual(line_of(actuator), "1\n")
        process.send_signal(signal.SIGINT)
        status, shown, told = self.ended(process)
        self.assertEqual((status, shown), (0, TABLE + PEAK))
        self.assertRegex(told, "^hume: Ctrl-C while a port was waited for: the peaks are those after superstep [123]\n$")


class Ends(Live):
    def test_ctrl_c_before_the_first_value(self):
        self.fifos("numbers")
        process = self.started("add.hume", "numbers", "totals")
        self.assertEqual([line_of(process.stdout.fileno()) for _ in range(2)], TABLE.splitlines(keepends=True))
        process.send_signal(signal.SIGINT)
        wanted = "hume: Ctrl-C while a port was waited for: the peaks are those after superstep 0\n"
        self.assertEqual(self.ended(process), (0, "", wanted))

    def test_ctrl_c_in_a_net_that_never_stands_still(self):
        self.put("clock.hume", 'box b in (n :: nat 8) out (m :: nat 8, t :: nat 8) match (n) -> (n + 1, n) ; stream t to "std_out" ;\n'
                               "wire b.m to b.n initial 0 ; wire b.t to t ;\n")
        process = self.started("clock.hume", "std_out")
        self.assertEqual([line_of(process.stdout.fileno()) for _ in range(4)][2:], ["0\n", "1\n"])
        process.send_signal(signal.SIGINT)
        status, shown, told = self.ended(process)
        self.assertEqual((status, told, shown.splitlines()[-1]), (0, "", "peak b heap 0 stack 4"))

    def test_a_session_without_further_commands(self):
        self.put("clock.hume", 'box b in (n :: nat 8) out (m :: nat 8) match (n) -> n + 1 ; wire b.m to b.n initial 0 ;\n')
        script = "import main, following, sys; following.MOST_COMMANDS = 200; sys.exit(main.main(['live', 'clock.hume', 'none']))"
        done = subprocess.run([sys.executable, "-c", script], cwd=self.room, env={**os.environ, "PYTHONPATH": os.path.dirname(MAIN)}, capture_output=True)
        self.assertEqual((done.returncode, done.stdout.splitlines()[-1]), (0, b"peak b heap 0 stack 4"))
        self.assertRegex(done.stderr, b"^hume: a session has no more commands, so this one ends after superstep [0-9]*\n$")

    def test_a_standard_input_that_is_closed(self):
        done = subprocess.run(["bash", "-c", '"$0" live standard.hume <&-', os.path.join(TOP, "hume")], cwd=self.room, capture_output=True)
        self.assertEqual((done.returncode, done.stdout, done.stderr), (4, b"", b"hume: 'std_in': it is closed\n"))

    def test_a_signal_ends_the_session_too(self):
        self.fifos("numbers")
        process = self.started("add.hume", "numbers", "totals")
        self.assertEqual([line_of(process.stdout.fileno()) for _ in range(2)], TABLE.splitlines(keepends=True))
        sensor = self.opened("numbers", os.O_WRONLY)
        process.send_signal(signal.SIGTERM)
        self.assertEqual(self.ended(process), (-signal.SIGTERM, "", ""))
        with self.assertRaises(BrokenPipeError):
            for _ in range(100):
                os.write(sensor, b"1\n")
                threading.Event().wait(0.05)

    def test_values_that_nobody_takes(self):
        """The second total finds no room, since the box that should take the first one takes another number."""
        self.put("stuck.hume", 'box a in (x :: int 32) out (y :: int 32) match (x) -> x ;\nbox b in (y :: int 32) out (z :: int 32) match (0) -> 0 ;\n'
                               'stream s from "std_in" ; stream t to "t" ; wire s to a.x ; wire a.y to b.y ; wire b.z to t ;\n')
        given, ours = os.pipe()
        os.write(ours, b"1\n" * 9)
        process = self.started("stuck.hume", "t", stdin=given)
        status, _, told = self.ended(process)
        self.assertEqual(status, 0)
        self.assertRegex(told, "^hume: nothing can change after superstep [0-9]*: the standard input of stream s has values that nobody takes\n$")
        os.close(given)
        os.close(ours)

    def test_a_terminal(self):
        ours, theirs = pty.openpty()
        subprocess.run(["stty", "-echo"], stdin=theirs, check=True)
        process = self.started("standard.hume", stdin=theirs, stdout=theirs)
        os.close(theirs)
        found = [line_of(ours) for _ in range(2)]
        for it in (b"5\n", b"10\n", b"1\n"):
            os.write(ours, it)
        found.append(line_of(ours))
        os.write(ours, b"\x04")
        found += [line_of(ours) for _ in range(3)]
        self.assertEqual("".join(found), TABLE + "5\n15\n16\n" + PEAK)
        self.assertEqual(process.wait(timeout=SECONDS), 0)
        os.close(ours)


if __name__ == "__main__":
    unittest.main()
