"""hume page: one file without the network; a headless browser moves its slider and reads what it shows."""
import re
import shutil
import time
import unittest
from unittest import mock

from setting import ADD, InRoom

from browser import Browser
from drawing import browser, picture
from page import net_picture
from source import read_net
from tracing import Run, Trace

VALUES = "[...document.querySelectorAll('#wires tbody tr')].map(it => it.cells[3].textContent)"
NUMBER = "document.getElementById('number').textContent"
POINTED = "[...document.querySelectorAll('#names .pointed')].map(it => it.textContent)"
NAMES = ["numbers to add.x", "add.next to add.sum", "add.total to totals"]
DOES = "[...document.querySelectorAll('#boxes tbody tr')].map(it => it.cells[1].textContent)"


class Page(InRoom):
    def page(self, source=ADD, steps="6"):
        self.put("add.hume", source)
        self.put("numbers", "5\n7\n")
        status, shown, told = self.call("page", steps, "add.hume", "numbers", "totals")
        self.assertEqual((status, told), (0, ""))
        return shown

    def test_it_needs_no_network(self):
        shown = self.page()
        found = [it for it in re.findall(r"\b(?:https?:)?//[\w.]+", shown) if "w3.org" not in it]
        self.assertEqual(found, [])
        self.assertNotIn("src=", shown)
        self.assertNotIn("{{", shown)

    def test_without_dot_it_has_the_tables_alone(self):
        with mock.patch("shutil.which", return_value=None):
            self.assertEqual(picture("digraph {}"), b"")
            self.assertEqual(net_picture(Run(read_net(ADD.encode()), ADD.encode(), Trace(), [], {}, 0)), "")

    def test_words(self):
        self.put("add.hume", ADD)
        self.assertEqual(self.call("page", "add.hume")[0], 1)
        self.assertEqual(self.call("page", "10001", "add.hume", "numbers", "totals")[0], 1)
        self.put("bad.hume", "box")
        self.assertEqual(self.call("page", "3", "bad.hume"), (2, "", "refused 20 line 1\n"))

    def open(self, page):
        """The page in a browser; without one the test is left out."""
        if not browser():
            self.skipTest("there is no chromium (apt-get install chromium)")
        seen = Browser(browser(), "file://" + self.put("page.html", page))
        self.addCleanup(seen.close)
        return seen

    def place(self, seen, row, step):
        """The middle of a superstep in a row of the strips."""
        left, top, cell = seen.value("(it => [it.left, it.top, strips.cell])(document.getElementById('drawing').getBoundingClientRect())")
        return left + (step + 0.5) * cell, top + seen.value("HEAD + ROW / 2") + row * seen.value("ROW")

    def test_a_browser_moves_the_slider(self):
        seen = self.open(self.page())
        self.assertEqual(seen.value(VALUES), ["empty", "0", "empty"])
        seen.value("document.getElementById('step').focus()")
        seen.press("ArrowRight", 39)
        seen.press("ArrowRight", 39)
        self.assertEqual(seen.value(NUMBER), "2")
        self.assertEqual(seen.value(VALUES), ["7", "5", "5"])
        self.assertEqual(seen.value(DOES), ["rule 1 fired"])
        if shutil.which("dot"):
            self.assertEqual(seen.value("[...document.querySelectorAll('#wire1 text')].pop().textContent"), "5")
            self.assertEqual(seen.value("[...document.querySelectorAll('#box0 text')].pop().textContent"), "rule 1 fired")
        self.assertTrue(seen.value("document.getElementById('report').hidden"))
        seen.press("End", 35)
        self.assertEqual(seen.value(VALUES), ["empty", "12", "empty"])
        self.assertIn("from superstep 5 on nothing changes", seen.value("document.getElementById('report').textContent"))
        seen.value("document.getElementById('back').click()")
        self.assertEqual(seen.value(NUMBER), "5")

    def test_a_click_on_a_strip_shows_the_values_there(self):
        seen = self.open(self.page())
        self.assertEqual(seen.value("[...document.getElementById('names').children].map(it => it.textContent)"), ["add", *NAMES])
        seen.click(*self.place(seen, 2, 3))
        self.assertEqual(seen.value(NUMBER), "3")
        self.assertEqual(seen.value(VALUES), ["empty", "12", "12"])
        self.assertEqual(seen.value("document.getElementById('drawing').title"), "superstep 3: 12")
        seen.click(*self.place(seen, 0, 1))
        self.assertEqual(seen.value(VALUES), ["5", "0", "empty"])

    def test_keys_and_a_button_move_without_the_slider(self):
        seen = self.open(self.page())
        for key, code, wanted in (("ArrowRight", 39, "1"), ("End", 35, "6"), ("ArrowLeft", 37, "5"), ("Home", 36, "0"), ("PageDown", 34, "6")):
            seen.press(key, code)
            self.assertEqual(seen.value(NUMBER), wanted)
        seen.value("document.getElementById('play').click()")
        self.assertEqual((seen.value(NUMBER), seen.value("document.getElementById('play').textContent")), ("0", "stop"))
        self.assertTrue(self.comes(lambda: seen.value(NUMBER) == "6" and seen.value("document.getElementById('play').textContent") == "play"))

    def comes(self, holds):
        """Whether this holds within ten seconds."""
        for _ in range(100):
            if holds():
                return True
            time.sleep(0.1)
        return False

    def test_what_is_pointed_at_is_marked_everywhere(self):
        seen = self.open(self.page())
        seen.point(*self.place(seen, 1, 2))
        self.assertEqual(seen.value(POINTED), NAMES[:1])
        seen.value("document.querySelector('#boxes tbody tr').scrollIntoView({ block: 'center' })")
        seen.point(*seen.value("(it => [it.left + 5, it.top + 5])(document.querySelector('#boxes tbody tr').getBoundingClientRect())"))
        self.assertEqual(seen.value(POINTED), ["add"])
        if shutil.which("dot"):
            self.assertTrue(seen.value("document.getElementById('box0').classList.contains('pointed')"))
        seen.point(1, 1)
        self.assertEqual(seen.value(POINTED), [])

    def test_a_browser_shows_peaks_beside_bounds_and_counts_at_rules(self):
        seen = self.open(self.page())
        self.assertEqual(seen.value("[...document.querySelectorAll('#boxes tbody td')].map(it => it.textContent)"), ["add", "", "0 of 0", "7 of 7", "9"])
        rules = seen.value("[...document.querySelectorAll('#rules tbody td')].map(it => it.textContent)")
        self.assertEqual(rules, ["add", "rule 1", "(x, sum) -> (sum + x, sum + x)", "fired 2"])

    def test_a_thousand_supersteps_of_twenty_wires_are_short(self):
        boxes = "".join(f"box b{n} in (x :: int 32, s :: int 32) out (y :: int 32, t :: int 32) match (x, s) -> (x * 7 + s, s + x) ;\n" for n in range(10))
        loops = "".join(f"wire b{n}.t to b{n}.s initial {n} ;\n" for n in range(10))
        chain = "".join(f"wire b{n}.y to b{n + 1}.x ;\n" for n in range(9))
        ends = 'stream numbers from "numbers" ;\nstream totals to "totals" ;\nwire numbers to b0.x ;\nwire b9.y to totals ;\n'
        self.put("many.hume", boxes + loops + chain + ends)
        self.put("numbers", "".join(f"{n * 7919}\n" for n in range(1000)))
        status, shown, told = self.call("page", "1000", "many.hume", "numbers", "totals")
        self.assertEqual((status, told), (0, ""))
        self.assertLess(len(shown), 300_000)


if __name__ == "__main__":
    unittest.main()
