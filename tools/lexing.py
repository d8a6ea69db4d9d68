"""Cuts a source, or the printed text of a value, into the tokens of docs/LANGUAGE.md."""
import re
from collections import namedtuple

KEYWORDS = frozenset(
    "data exception box in out match fair handle stream from to wire initial let if then else case of end raise as true false "
    "bool char int nat vector div mod and or not update".split()
)
SYMBOLS = ("<<", ">>", "<=", ">=", "==", "/=", "->", "::", "_*", *"()<>=|,;._*+-@")
PIECE = re.compile(
    rb"(?P<space>[\t\n\r ]+)|(?P<comment>--[^\n]*)|(?P<lower>[a-z][A-Za-z0-9_]*)|(?P<upper>[A-Z][A-Za-z0-9_]*)|(?P<number>[0-9]+)"
    rb"|(?P<letter>'(?:[ -&(-\[\]-~]|\\[nt\\'])')|(?P<quoted>\"[ !#-~]{1,255}\")|(?P<symbol>"
    + b"|".join(re.escape(it.encode()) for it in SYMBOLS)
    + rb")"
)

# `kind` is lower, upper, number, letter, quoted, keyword or symbol; `place` is the offset of the first byte.
Token = namedtuple("Token", "kind text place")


class NoToken(Exception):
    """No token, space or comment starts at `place`."""

    def __init__(self, place):
        super().__init__(f"no token starts at byte {place}")
        self.place = place


def pieces(source):
    """The tokens of the bytes, with the comments among them (kind `comment`)."""
    found, place = [], 0
    while place < len(source):
        piece = PIECE.match(source, place)
        if not piece:
            raise NoToken(place)
        kind, text = piece.lastgroup, piece[0].decode("latin-1")
        if kind == "lower" and text in KEYWORDS:
            kind = "keyword"
        if kind != "space":
            found.append(Token(kind, text, place))
        place = piece.end()
    return found


def tokens(source):
    """The tokens of the bytes."""
    return [it for it in pieces(source) if it.kind != "comment"]
