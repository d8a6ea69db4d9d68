#!/usr/bin/env python3
"""What the command `./hume` writes where its standard error is a terminal: after a refusal the first line of `why` too, and nothing else
changes. Prints a line for each call that does otherwise; the status is 1 then."""
import os
import pty
import subprocess
import sys
import tempfile
from pathlib import Path

TOP = Path(__file__).resolve().parent.parent
HUME = str(TOP / "hume")
REFUSED = b"f :: bool -> bool ;\nf x = not y ;\n"
ACCEPTED = b'box b in (x :: bool) out (y :: bool) match (x) -> x ;\nwire b.y to b.x ;\n'
CHECKS = (["check", "p"], ["run", "4", "1", "p"], ["trace", "4", "1", "p"])
LOOKS = (["bounds", "p"], ["net", "p"], ["hints", "p"])
SENTENCE = "p:1: refused 31: a name is unknown where it stands"


def plain(words, folder):
    done = subprocess.run([HUME, *words], cwd=folder, stdin=subprocess.DEVNULL, capture_output=True, check=False)
    return done.returncode, done.stdout, done.stderr.decode().split("\n")[:-1]


def on_terminal(words, folder):
    """The same where the standard error is a terminal."""
    ours, theirs = pty.openpty()
    with subprocess.Popen([HUME, *words], cwd=folder, stdin=subprocess.DEVNULL, stdout=subprocess.PIPE, stderr=theirs) as process:
        out = process.stdout.read()
        status = process.wait()
    os.close(theirs)
    told = b""
    try:
        while part := os.read(ours, 4096):
            told += part
    except OSError:  # Linux tells the end of a terminal so
        pass
    os.close(ours)
    return status, out, told.decode().replace("\r\n", "\n").split("\n")[:-1]


def differences(folder):
    """Each call that does otherwise than is wanted, with what it did."""
    why = plain(["why", "p"], folder)[1].decode().split("\n")[0]
    wanted = [(words, [SENTENCE], [SENTENCE, why]) for words in CHECKS]
    wanted += [(words, [], [why]) for words in LOOKS] + [(["why", "p"], [], [])]
    if not why.startswith("p:2:11: refused 31: ") or not why.endswith(", in the declaration of line 1"):
        yield f"why tells {why!r}"
    for words, by_itself, there in wanted:
        status, out, told = plain(words, folder)
        if (status, told) != (2, by_itself):
            yield f"{words} ends with {status} and tells {told}"
        if (found := on_terminal(words, folder)) != (status, out, there):
            yield f"{words} on a terminal: {found}, not {(status, out, there)}"


def main():
    with tempfile.TemporaryDirectory() as folder:
        source = Path(folder) / "p"
        source.write_bytes(REFUSED)
        found = list(differences(folder))
        source.write_bytes(ACCEPTED)
        for words in (*CHECKS, *LOOKS):
            if (done := plain(words, folder)) != on_terminal(words, folder) or done[0] != 0:
                found.append(f"{words} of an accepted source does otherwise on a terminal")
    print("\n".join(found) if found else "on a terminal a refusal is told with the first line of why")
    return 1 if found else 0


if __name__ == "__main__":
    sys.exit(main())
