"""A source in an editor: its bytes, and places in it as editors count them, by lines and by units of UTF-16 in a line."""
from bisect import bisect_right
from functools import cached_property

from lexing import NoToken, tokens

MOST_BAD_BYTES = 100


class Document:
    """The text of a source that may be in the midst of a change."""

    def __init__(self, text):
        self.text = text.encode("utf-8", "surrogatepass")
        self.starts = [0, *(n + 1 for n, it in enumerate(self.text) if it == 10)]

    def line(self, number):
        """The bytes of the line, counted from 0; of a line beyond the end none."""
        if number >= len(self.starts):
            return b""
        return self.text[self.starts[number] :].split(b"\n", 1)[0]

    def position(self, offset):
        """Where the byte is."""
        line = bisect_right(self.starts, offset) - 1
        before = self.text[self.starts[line] : offset].decode("utf-8", "replace")
        return {"line": line, "character": len(before.encode("utf-16-le")) // 2}

    def offset(self, position):
        """The byte at a position."""
        line, character = position["line"], position["character"]
        units = self.line(line).decode("utf-8", "replace").encode("utf-16-le")[: 2 * character]
        start = self.starts[line] if line < len(self.starts) else len(self.text)
        return start + len(units.decode("utf-16-le", "ignore").encode())

    def place(self, line, column):
        """The byte at a line and a column, which count from 1."""
        line = min(line, len(self.starts))
        return min(self.starts[line - 1] + column - 1, len(self.text))

    @cached_property
    def tokens(self):
        """The tokens; bytes that begin none are left out."""
        text = self.text
        for _ in range(MOST_BAD_BYTES):
            try:
                return tokens(text)
            except NoToken as error:
                text = text[: error.place] + b" " + text[error.place + 1 :]
        return []

    def token(self, offset):
        """The token at the byte, or the one that ends right before it."""
        found = [it for it in self.tokens if it.place <= offset <= it.place + len(it.text)]
        return found[-1] if found else None

    def range(self, offset):
        """The token that begins at the byte, or one byte."""
        length = next((len(it.text) for it in self.tokens if it.place == offset), 1)
        return {"start": self.position(offset), "end": self.position(min(offset + length, len(self.text)))}
