"""The messages of a language server: JSON texts, each behind a head that says how many bytes it has."""
import json
import os
import select

MOST_BYTES = 1 << 24


class Closed(Exception):
    """No further message can come."""


class Malformed(Exception):
    """A message is no JSON."""


class Messages:
    """Reads messages from a descriptor, and writes them to a file."""

    def __init__(self, given, out):
        self.given, self.out, self.rest = given, out, b""

    def more(self, seconds):
        """Reads on; says whether something came in that time."""
        if not select.select([self.given], [], [], seconds)[0]:
            return False
        part = os.read(self.given, 1 << 16)
        if not part:
            raise Closed
        self.rest += part
        return True

    def length(self):
        """The bytes of the head and of the text behind it, once the head is there."""
        head, end, _ = self.rest.partition(b"\r\n\r\n")
        if not end:
            return None
        for line in head.split(b"\r\n"):
            name, _, value = line.partition(b":")
            if name.strip().lower() == b"content-length" and value.strip().isdigit() and int(value) <= MOST_BYTES:
                return len(head) + len(end), int(value)
        raise Closed

    def next(self, seconds=None):
        """The next message; None where it doesn't come in that time."""
        while True:
            length = self.length()
            if length and len(self.rest) >= sum(length):
                text, self.rest = self.rest[length[0] : sum(length)], self.rest[sum(length) :]
                return read(text)
            if not self.more(seconds):
                return None

    def send(self, **parts):
        text = json.dumps({"jsonrpc": "2.0", **parts}).encode()
        self.out.write(b"Content-Length: %d\r\n\r\n" % len(text) + text)
        self.out.flush()


def read(text):
    """The message with this text."""
    try:
        message = json.loads(text)
    except (ValueError, RecursionError):
        raise Malformed from None
    if not isinstance(message, dict):
        raise Malformed
    return message
