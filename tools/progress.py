"""A line on a terminal that says how far a long run is."""
import sys
import time

EVERY = 1


class Progress:
    """The line stands on the standard error, if that is a terminal, and goes at the end."""

    def __init__(self, terminal=None):
        self.terminal = terminal or sys.stderr
        self.shows, self.last = self.terminal.isatty(), time.monotonic()
        self.is_there = False

    def tell(self, text):
        """Shows the text, but not too often."""
        if self.shows and time.monotonic() - self.last >= EVERY:
            self.terminal.write(f"\r\x1b[Khume: {text}")
            self.terminal.flush()
            self.last, self.is_there = time.monotonic(), True

    def __enter__(self):
        return self

    def __exit__(self, *_):
        if self.is_there:
            self.terminal.write("\r\x1b[K")
            self.terminal.flush()
