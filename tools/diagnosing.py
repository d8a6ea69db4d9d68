"""What the program says of the text in an editor: errors by `why`, warnings by `hints`, and the bounds of a box."""
import os
import re
import subprocess

from program import TOP

SECONDS = 10
ERROR, WARNING = 1, 2
HEAD = re.compile(r"std_in:(\d+):(\d+): (?:refused (\d+): |(?:hint|warning): )(.*)")
THERE = re.compile(r"std_in:(\d+):(\d+): it is here")
CARET = re.compile(r"  *\^$")


def look(word, text):
    """What the program prints of the bytes of a source; nothing where it takes too long."""
    program = os.path.join(TOP, "dist", "hume-x86_64-linux")
    try:
        done = subprocess.run([program, word, "std_in"], input=text, stdout=subprocess.PIPE, stderr=subprocess.DEVNULL, timeout=SECONDS)
    except subprocess.TimeoutExpired:
        return ""
    return done.stdout.decode("utf-8", "replace")


class Finding:
    """A message of `why` or `hints`: its place, its code if it is an error, and its lines."""

    def __init__(self, place, code, text):
        self.place, self.code, self.lines, self.there = place, code, [text], None

    def diagnostic(self, document):
        """The message as editors take it; at the exact place, where that is in another line than the declaration."""
        first = {"source": "hume", "severity": ERROR if self.code else WARNING, "message": "\n".join(self.lines)}
        at = document.place(*(self.there or self.place))
        return {**first, "range": document.range(at), **({"code": int(self.code)} if self.code else {})}


def findings(shown):
    """The messages that are printed. The line of the source and its caret are left out."""
    found, lines = [], shown.split("\n")
    for line, after in zip(lines, [*lines[1:], ""]):
        if head := HEAD.match(line):
            found.append(Finding((int(head[1]), int(head[2])), head[3], head[4]))
        elif there := THERE.match(line):
            if found:
                found[-1].there = int(there[1]), int(there[2])
        elif line.startswith("  ") and found and not CARET.match(line) and not CARET.match(after):
            found[-1].lines.append(line.strip())
    return found


def diagnostics(document):
    """The errors of the source, or else its warnings."""
    shown = look("why", document.text)
    found = findings(shown) or findings(look("hints", document.text))
    return [it.diagnostic(document) for it in found]


def bounds(document, box):
    """Where the bounds of the box come from; nothing of a source that is refused before they are known."""
    lines = look("bounds", document.text).split("\n")
    begin = next((n for n, it in enumerate(lines) if it.startswith(f"box {box} ")), None)
    if begin is None:
        return ""
    return "\n".join([lines[begin], *taken_while(lines[begin + 1 :])])


def taken_while(lines):
    """The indented lines at the front."""
    for line in lines:
        if not line.startswith(" "):
            return
        yield line
