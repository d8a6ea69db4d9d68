"""Tokens, as docs/LANGUAGE.md shows them, and values and patterns."""
import unittest

from setting import sources

from lexing import NoToken, tokens
from source import read_net
from terms import matches, printed, read_term, read_text


def spellings(text):
    return [it.text for it in tokens(text)]


class Lexing(unittest.TestCase):
    def test_the_longest_token_is_taken(self):
        self.assertEqual(spellings(b"<<="), ["<<", "="])
        self.assertEqual(spellings(b"==="), ["==", "="])
        self.assertEqual(spellings(b"_*_"), ["_*", "_"])
        self.assertEqual(spellings(b"_a"), ["_", "a"])
        self.assertEqual(spellings(b"12a"), ["12", "a"])
        self.assertEqual(spellings(b"lets let"), ["lets", "let"])
        self.assertEqual([it.kind for it in tokens(b"lets let")], ["lower", "keyword"])
        self.assertEqual(spellings(b"- -> --> x\n'\\'' \"a\""), ["-", "->", "'\\''", '"a"'])

    def test_a_place_without_a_token(self):
        for text in (b"/", b"'ab'", b'"a', b"a : b", b"\xe9"):
            self.assertRaises(NoToken, tokens, text)

    def test_values_are_printed_as_the_program_prints_them(self):
        for text, wanted in (
            ("( 1 ,\ttrue )", "(1, true)"),
            ("Pair(Shade Red 1)(Shade Blue 2)", "Pair (Shade Red 1) (Shade Blue 2)"),
            ("Shade  Red\t-7", "Shade Red -7"),
            ("<<<<1>>,<<2>>>>", "<<<<1>>, <<2>>>>"),
            ("<<(J 3, true)>>", "<<(J 3, true)>>"),
            ("-00", "0"),
            ("<<' ','|',' '>>", "<<' ', '|', ' '>>"),
        ):
            self.assertEqual(printed(read_text(text)), wanted)

    def test_patterns_match_as_they_say(self):
        pattern = read_term(tokens(b"Some (x, 7)"))
        self.assertTrue(matches(pattern, read_text("Some (1, 7)")))
        self.assertFalse(matches(pattern, read_text("Some (1, 8)")))
        self.assertFalse(matches(pattern, read_text("None")))

    def test_each_accepted_source_has_a_net(self):
        for path in sources():
            with open(path, "rb") as file:
                read_net(file.read())

    def test_the_parts_of_a_net(self):
        net = read_net(
            b"box b in (x :: (nat 8, bool), y :: T) out (z :: nat 4) fair (_*, Up n) -> case n of 1 -> 2 | m -> m end | (*, _) -> *"
            b' handle NoCase -> 0 ; stream s from "i" ; wire s to b.x @ 4 ; wire b.z to b.y initial (-1) ;'
        )
        box, wires = net.boxes[0], net.wires
        self.assertEqual((box.name, box.fair, len(box.rules)), ("b", True, 2))
        self.assertEqual((box.inputs, box.outputs), ([("x", "(nat 8, bool)"), ("y", "T")], [("z", "nat 4")]))
        self.assertEqual([[it.kind for it in rule.patterns] for rule in box.rules], [["drain", "constructor"], ["skip", "any"]])
        self.assertEqual([it.silent for it in box.rules], [False, True])
        self.assertEqual([(it.name, it.depth, it.first, it.type) for it in wires], [("s to b.x", 4, None, "(nat 8, bool)"), ("b.z to b.y", 1, "-1", "nat 4")])
        self.assertEqual((net.stream("s").incoming, net.stream("s").port), (True, "i"))


if __name__ == "__main__":
    unittest.main()
