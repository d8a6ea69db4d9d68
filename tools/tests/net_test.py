"""hume net SOURCE --svg, and the net of a page: no wire is drawn over the name of another one."""
import io
import os
import re
import shutil
import subprocess
import unittest
import xml.etree.ElementTree as ElementTree
from unittest import mock

from setting import TOP, InRoom, sources

import net
from drawing import graph, picture
from source import read_net

SVG = "{http://www.w3.org/2000/svg}"
PARTS = 24
# A box with three wires to itself, and one with one.
LOOPS = """box b in (x :: bool, p :: bool, q :: bool, r :: bool) out (y :: bool, s :: bool, t :: bool, u :: bool)
match (x, p, q, r) -> (x, p, q, r) ;
box c in (x :: bool, p :: bool) out (y :: bool, s :: bool) match (x, p) -> (x, p) ;
stream i from "i" ;
stream o to "o" ;
wire i to b.x ;
wire b.y to c.x ;
wire c.y to o ;
wire b.s to b.p initial true ;
wire b.t to b.q initial true ;
wire b.u to b.r initial true ;
wire c.s to c.p initial true ;
"""
SPREAD = """  { rank="same"; "b"; "b 1" [shape="plaintext", label="s to p\\nbool\\ninitial true"]; }
  "b 1" -> "b" [dir="none"];
  "b 1" -> "b" [dir="forward"];
  { rank="same"; "b"; "b 2" [shape="plaintext", label="t to q\\nbool\\ninitial true"]; }
  "b" -> "b 2" [dir="none"];
  "b" -> "b 2" [dir="back"];
  "b 3" [shape="plaintext", label="u to r\\nbool\\ninitial true"];
  "b" -> "b 3" [dir="none"];
  "b" -> "b 3" [dir="back"];
"""


def points_of(path):
    """Points on a path of cubic curves, as `dot` writes it."""
    numbers = [float(it) for it in re.findall(r"-?[0-9.]+", path)]
    ends = list(zip(numbers[::2], numbers[1::2]))
    for at in range(0, len(ends) - 3, 3):
        curve = ends[at : at + 4]
        for n in range(PARTS + 1):
            t = n / PARTS
            weights = [(1 - t) ** 3, 3 * t * (1 - t) ** 2, 3 * t * t * (1 - t), t**3]
            yield tuple(sum(w * point[axis] for w, point in zip(weights, curve)) for axis in (0, 1))


def names_in(picture_of):
    """Each line of text of a wire or a loop, with the middle of its foot, its width and its height."""
    for group in picture_of.iter(f"{SVG}g"):
        is_plain = group.get("class", "").startswith("node") and group.find(f"{SVG}polygon") is None and group.find(f"{SVG}ellipse") is None
        if group.get("class", "").startswith("edge") or is_plain:
            for text in group.findall(f"{SVG}text"):
                size = float(text.get("font-size"))
                yield text.text, float(text.get("x")), float(text.get("y")), 0.4 * size * len(text.text or ""), 0.6 * size


def crossings(svg):
    """The texts that a wire goes through."""
    picture_of = ElementTree.fromstring(svg)
    points = [it for path in picture_of.iter(f"{SVG}path") for it in points_of(path.get("d"))]
    return [text for text, x, y, width, height in names_in(picture_of) if any(abs(a - x) < width / 2 and y - height < b < y for a, b in points)]


def told(done):
    """The status of a call, and what it wrote."""
    return done.returncode, done.stdout, done.stderr


class Nets(InRoom):
    def svg(self, path, drawing=None):
        """What `./hume net --svg` writes of a source, by another `dot` if one is given."""
        environment = os.environ | ({"PATH": f"{drawing}:{os.environ['PATH']}"} if drawing else {})
        return subprocess.run([os.path.join(TOP, "hume"), "net", path, "--svg"], capture_output=True, env=environment)

    def test_several_loops_at_a_box_have_nodes_of_their_own(self):
        path = self.put("loops.hume", LOOPS)
        os.chmod(self.put("bin/dot", "#!/bin/sh\ncat\n"), 0o755)
        plain = subprocess.run([os.path.join(TOP, "hume"), "net", path], capture_output=True).stdout.decode()
        drawn = self.svg(path, os.path.join(self.room, "bin")).stdout.decode()
        lines = [it for it in plain.splitlines(keepends=True) if not it.startswith('  "b" -> "b"')]
        loops = SPREAD.splitlines(keepends=True)
        self.assertEqual(drawn.splitlines(keepends=True), [*lines[:-2], *loops, *lines[-2:]])
        self.assertEqual(len(plain.splitlines()), len(lines) + 3)

    def test_a_picture_that_cannot_be_drawn(self):
        path = self.put("loops.hume", LOOPS)
        os.chmod(self.put("bin/dot", "#!/bin/sh\nexit 3\n"), 0o755)
        wanted = (4, b"", b"hume: can't draw the picture: dot failed\n")
        self.assertEqual(told(self.svg(path, os.path.join(self.room, "bin"))), wanted)
        with mock.patch("shutil.which", return_value=None), mock.patch("sys.stderr", io.StringIO()) as shown:
            self.assertEqual(net.main("net", [path, "--svg"]), 1)
        self.assertEqual(shown.getvalue(), "hume: dot is missing, which draws the picture (apt-get install graphviz)\n")

    def test_an_output_that_takes_no_picture(self):
        path = self.put("loops.hume", LOOPS)
        os.chmod(self.put("bin/dot", "#!/bin/sh\ncat\n"), 0o755)
        environment = os.environ | {"PATH": f"{self.room}/bin:{os.environ['PATH']}"}
        for place, cause in (("/dev/full", "no space left"), (os.devnull, "it is closed")):
            with open(place, "wb" if cause == "no space left" else "rb") as output:
                words = [os.path.join(TOP, "hume"), "net", path, "--svg"]
                done = subprocess.run(words, stdout=output, stderr=subprocess.PIPE, env=environment)
            self.assertEqual((done.returncode, done.stderr.decode()), (4, f"hume: can't write the standard output: {cause}\n"))

    def test_a_source_that_is_refused_is_answered_as_without_a_picture(self):
        for path in (self.put("bad.hume", "f :: bool -> bool ;\nf x = y ;\n"), os.path.join(self.room, "missing")):
            plain = subprocess.run([os.path.join(TOP, "hume"), "net", path], capture_output=True)
            self.assertNotEqual(plain.returncode, 0)
            self.assertEqual(told(self.svg(path)), told(plain))

    def test_no_wire_goes_through_the_name_of_another_one(self):
        if not shutil.which("dot"):
            self.skipTest("there is no dot (apt-get install graphviz)")
        for path in [self.put("loops.hume", LOOPS), *(it for it in sources() if "/controllers/" in it or "/tutorial/" in it)]:
            with self.subTest(os.path.relpath(path, TOP)):
                done = self.svg(path)
                self.assertEqual((done.returncode, done.stderr), (0, b""))
                self.assertEqual(crossings(done.stdout), [])
                with open(path, "rb") as file:
                    found = read_net(file.read())
                self.assertEqual(crossings(picture(graph(found, {}, ["(100, 100)"] * len(found.wires)))), [])


if __name__ == "__main__":
    unittest.main()
