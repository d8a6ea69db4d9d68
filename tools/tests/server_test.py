"""hume server, as an editor speaks to it: errors and warnings, bounds, declarations, and what no editor should send."""
import json
import os
import subprocess
import sys
import unittest

from setting import TOP, programs

from declaring import Declarations
from diagnosing import diagnostics
from documents import Document

MAIN = os.path.join(TOP, "tools", "main.py")
NAME = "file:///lights.hume"
SOURCE = """data Light = Red | Green ;
exception Late nat 8 ;
light :: nat 8 -> Light ;
light 0 = Green ;
light p = if p > 200 then raise Late p else Red ;
box show in (p :: nat 8) out (l :: Light)
match (p) -> let it = light p in it
handle Late late -> case late of 3 -> Red | _ -> Green end ;
stream numbers from "numbers" ;
stream lights to "lights" ;
wire numbers to show.p ;
wire show.l to lights ;
"""


def place_of(mark, number=1):
    """The position in SOURCE of a piece of text, as often as it is counted."""
    at = -1
    for _ in range(number):
        at = SOURCE.index(mark, at + 1)
    before = SOURCE[:at].split("\n")
    return {"line": len(before) - 1, "character": len(before[-1])}


class Server(unittest.TestCase):
    def setUp(self):
        self.process = subprocess.Popen([sys.executable, MAIN, "server"], stdin=-1, stdout=-1, stderr=-1)
        self.addCleanup(self.stop)
        self.number = 0

    def stop(self):
        self.process.kill()
        for it in (self.process.stdin, self.process.stdout, self.process.stderr):
            it.close()
        self.process.wait()

    def give(self, text):
        self.process.stdin.write(b"Content-Length: %d\r\n\r\n" % len(text) + text)
        self.process.stdin.flush()

    def note(self, method, **params):
        self.give(json.dumps({"jsonrpc": "2.0", "method": method, "params": params}).encode())

    def take(self):
        """The next message."""
        length = 0
        while (line := self.process.stdout.readline().strip()):
            length = int(line.split(b":")[1])
        return json.loads(self.process.stdout.read(length))

    def ask(self, method, **params):
        self.number += 1
        self.give(json.dumps({"jsonrpc": "2.0", "id": self.number, "method": method, "params": params}).encode())
        answer = self.take()
        self.assertEqual(answer["id"], self.number)
        return answer

    def open(self, text):
        """What is found in a source that is opened."""
        self.note("textDocument/didOpen", textDocument={"uri": NAME, "languageId": "hume", "version": 1, "text": text})
        return self.found()

    def change(self, text):
        self.note("textDocument/didChange", textDocument={"uri": NAME, "version": 2}, contentChanges=[{"text": text}])

    def found(self):
        message = self.take()
        self.assertEqual((message["method"], message["params"]["uri"]), ("textDocument/publishDiagnostics", NAME))
        return message["params"]["diagnostics"]

    def at(self, method, mark, number=1):
        return self.ask(f"textDocument/{method}", textDocument={"uri": NAME}, position=place_of(mark, number))["result"]

    def test_a_session(self):
        able = self.ask("initialize", capabilities={})["result"]["capabilities"]
        self.assertEqual((able["hoverProvider"], able["definitionProvider"]), (True, True))
        self.note("initialized")
        self.assertEqual(self.open(SOURCE), [])
        self.change(SOURCE.replace("light p in it", "lamp p in it"))
        error = self.found()[0]
        self.assertEqual((error["severity"], error["code"], error["source"]), (1, 31, "hume"))
        start = place_of("light p in")
        self.assertEqual(error["range"], {"start": start, "end": {**start, "character": start["character"] + len("lamp")}})
        self.assertIn("`lamp` is unknown here", error["message"])
        self.assertIn("remedy: ", error["message"])
        self.note("textDocument/didClose", textDocument={"uri": NAME})
        self.assertEqual(self.found(), [])
        self.assertIsNone(self.ask("shutdown")["result"])
        self.note("exit")
        self.assertEqual((self.process.wait(), self.process.stderr.read()), (0, b""))

    def test_changes_in_quick_succession_are_looked_at_once(self):
        self.note("textDocument/didOpen", textDocument={"uri": NAME, "languageId": "hume", "version": 1, "text": "b"})
        for text in ("bo", "box"):
            self.change(text)
        self.change(SOURCE)
        self.assertEqual(self.found(), [])

    def test_warnings(self):
        warning = self.open(SOURCE + "unused :: bool -> bool ;\nunused x = x ;\n")[0]
        self.assertEqual((warning["severity"], "code" in warning, warning["range"]["start"]["line"]), (2, False, SOURCE.count("\n")))
        self.assertNotIn("^", warning["message"])

    def test_the_bounds_of_a_box(self):
        self.open(SOURCE)
        for mark in ("show in", "light p in", "show.p", "show.l"):
            shown = self.at("hover", mark)["contents"]["value"]
            self.assertTrue(shown.startswith("```\nbox show heap "), shown)
            self.assertIn("  handler Late heap ", shown)
        self.assertIsNone(self.at("hover", "light 0"))
        self.assertIsNone(self.at("hover", "numbers to"))

    def test_declarations(self):
        self.open(SOURCE)
        ways = [("light p in", 1, "light ::", 1), ("Red", 2, "Red", 1), ("Late p", 1, "Late", 1), ("Late late", 1, "Late", 1), ("Light ;", 1, "Light", 1)]
        ways += [("show.p", 1, "show", 1), ("p ;\nwire", 1, "p :: nat", 1), ("lights ;", 1, "lights to", 1), ("it\n", 1, "it = ", 1)]
        ways += [("late of", 1, "late ->", 1), ("p > 200", 1, "p = if", 1), ("p in it", 1, "p) ->", 1), ("Green end", 1, "Green", 1)]
        for mark, number, wanted, first in ways:
            found = self.at("definition", mark, number)
            self.assertEqual(found and found["range"]["start"], place_of(wanted, first), mark)
        self.assertIsNone(self.at("definition", "nat"))

    def test_what_no_editor_sends(self):
        self.assertEqual(self.ask("textDocument/rename")["error"]["code"], -32601)
        self.assertEqual(self.ask("textDocument/hover", position={})["error"]["code"], -32602)
        self.assertIsNone(self.ask("textDocument/hover", textDocument={"uri": "file:///none"}, position={"line": 0, "character": 0})["result"])
        for text in (b"no JSON", b"[1]"):
            self.give(text)
            self.assertEqual(self.take()["error"]["code"], -32700)
        self.note("textDocument/didOpen", textDocument=3)
        self.note("$/cancelRequest", id=1)
        self.assertIn("result", self.ask("initialize"))
        self.process.stdin.write(b"Length: none\r\n\r\n")
        self.process.stdin.flush()
        self.assertEqual((self.process.wait(), self.process.stderr.read()), (1, b""))


class Sources(unittest.TestCase):
    def test_places_count_as_editors_do(self):
        document = Document("-- \u00fc\U0001f600x\nbox")
        self.assertEqual(document.position(len("-- \u00fc\U0001f600".encode())), {"line": 0, "character": 6})
        self.assertEqual(document.offset({"line": 0, "character": 6}), 9)
        self.assertEqual(document.offset({"line": 9, "character": 9}), len(document.text))
        self.assertEqual(document.offset({"line": 0, "character": 99}), 10)

    def test_each_error_of_a_refused_source_is_at_its_place(self):
        tried = 0
        for path in [it for it in programs() if "/refusals/" in it][:60]:
            with open(path, encoding="latin-1") as file:
                document = Document(file.read())
            for it in diagnostics(document):
                self.assertLessEqual(document.offset(it["range"]["start"]), document.offset(it["range"]["end"]))
                tried += 1
        self.assertGreater(tried, 20)

    def test_each_name_of_an_accepted_source_has_a_declaration(self):
        with open(os.path.join(TOP, "examples/controllers/vending_machine/vending_machine.hume"), encoding="ascii") as file:
            document = Document(file.read())
        declarations = Declarations(document.tokens)
        for it in document.tokens:
            if it.kind in ("lower", "upper"):
                self.assertIsNotNone(declarations.declaration(it), it)

    def test_a_source_in_the_midst_of_a_change(self):
        for end in range(len(SOURCE)):
            document = Document(SOURCE[:end] + "?")
            declarations = Declarations(document.tokens)
            for it in document.tokens[-3:]:
                declarations.declaration(it)
                declarations.box(it)


if __name__ == "__main__":
    unittest.main()
