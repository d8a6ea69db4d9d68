"""Asks the prover for a verdict on one crate, over libraries that a run of `rt ci` has left."""
import os
import re
import shutil
import subprocess
import tempfile

from sources import TOP, files_below, read

KIT = os.path.dirname(os.path.dirname(os.path.realpath(shutil.which("rt") or "/rt")))
PARTS = ("src", "specs", "proofs")
# What the prover says of a place in a file.
TOLD = re.compile(r"(note: )?\S+:\d+:\d+:")
# A proof that names what an edit took away, and what cites that proof.
NAMES_ALONE = re.compile(r"(\./)?proofs/.*(has no field|is not in scope|has no `|was not admitted)")
# A text that can't be read, where an edit that only makes a statement false reads well.
UNREAD = re.compile(r"is not in scope|has no field|is no name|operand is missing|expected the end|cannot continue")


def crate_list():
    """The crates of crates.txt, each with what it names there."""
    found = {}
    for line in read(os.path.join(TOP, "crates.txt")).split("\n"):
        m = re.match(r"(\w+)[^:#]*:(.*)", line)
        if m:
            found[m.group(1)] = m.group(2).split()
    return found


class Libraries:
    """The libraries that stand in a folder: a clone in which `rt ci` has run, or runs."""

    def __init__(self, folder):
        self.folder, self.named = os.path.abspath(folder), crate_list()

    def built(self, crate):
        return os.path.join(self.folder, "crates", crate, "out", "rlib", f"{crate}.rlib")

    def stands(self, crate):
        """Whether the crate is built there, of the sources that it has here."""
        return os.path.isdir(self.built(crate)) and texts_of(TOP, crate) == texts_of(self.folder, crate) and self.is_new(crate)

    def is_new(self, crate):
        """Whether no source of the crate there is younger than what was built of it."""
        built = os.path.getmtime(self.built(crate))
        return all(os.path.getmtime(it) <= built for it in sources_of(self.folder, crate))

    def below(self, crate):
        """The crates of the repository on which the crate stands, the near ones and those further below."""
        found = []
        for it in self.named[crate]:
            if it in self.named:
                found += [other for other in [*self.below(it), it] if other not in found]
        return found

    def lacking(self, crate):
        return [it for it in self.below(crate) if not self.stands(it)]

    def words(self, crate):
        """The call of the prover for the crate, in the crate's folder."""
        root = "src/main.rt" if os.path.isfile(os.path.join(TOP, "crates", crate, "src/main.rt")) else "src/lib.rt"
        words = [f"{KIT}/bin/rattle", "check", "--crate-name", crate, root, "--extern", f"std={KIT}/rlibs/std.rlib", "-L", f"dependency={KIT}/rlibs"]
        for it in self.named[crate]:
            if it in self.named:
                words += ["--extern", f"{it}={self.built(it)}"]
            elif os.path.isdir(f"{KIT}/rlibs/{it}.rlib"):
                words += ["--extern", f"{it}={KIT}/rlibs/{it}.rlib"]
        for it in self.below(crate):
            words += ["-L", f"dependency={os.path.dirname(self.built(it))}"]
        logic = ["--antt-project", f"{KIT}/rattle/logic/antt-project.json", "--logic-built", f"{KIT}/logic_built"]
        return [*words, *logic, "--links", f"{crate}=", "--jobs", "1"]

    def check(self, crate, changed, *flags):
        """Checks a copy of the crate with the changed texts: the exit status, and the lines that were said."""
        with tempfile.TemporaryDirectory(prefix="edit-") as room:
            for part in PARTS:
                folder = os.path.join(TOP, "crates", crate, part)
                if os.path.isdir(folder):
                    shutil.copytree(folder, os.path.join(room, part))
            for path, text in changed.items():
                with open(os.path.join(room, path), "w", encoding="utf-8") as file:
                    file.write(text)
            how = {"stdin": subprocess.DEVNULL, "stdout": subprocess.PIPE, "stderr": subprocess.STDOUT, "text": True, "errors": "replace"}
            ran = subprocess.run([*self.words(crate), *flags], cwd=room, **how)
        return ran.returncode, ran.stdout.rstrip("\n").split("\n")


def sources_of(top, crate):
    for part in PARTS:
        for ending in (".rt", ".antt"):
            yield from files_below(os.path.join(top, "crates", crate, part), ending)


def texts_of(top, crate):
    """The texts of the crate's files without lines that are comments."""
    return {os.path.relpath(it, top): re.sub(r"^\s*(//|--).*\n", "", read(it), flags=re.M) for it in sources_of(top, crate)}


def is_unread(line, changed):
    """Whether a line says that a text of src/ or specs/, or of a changed file, couldn't be read."""
    at = re.match(r"(?:\./)?(\S+?):\d+:\d+: error: (?:(`[^`]*`): )?(.*)", line)
    if not at or at[1] not in changed and not at[1].startswith(("src/", "specs/")):
        return False
    return not at[2] or bool(UNREAD.search(re.sub(r"`[^`]*`", "", at[3])))


def judged(status, lines, changed):
    """What the prover said of a crate with these changed texts: refused, names alone (it was refused only since a proof names what is gone),
    proved or unread. Beside it stands the line that says most."""
    unread = next((it for it in lines if is_unread(it, changed)), "")
    if unread:
        return "unread", unread
    if status == 0:
        return "proved", lines[-1]
    if status != 1 or not lines[-1].startswith(("logic=not-proved", "only=")):
        return "unread", lines[-1]
    told = [it for it in lines if TOLD.match(it)]
    told = [it for it in told if ": error" in it or it.startswith("note: ")] or told
    first = next((it for it in told if not NAMES_ALONE.match(it)), "")
    return ("names alone", told[0]) if told and not first else ("refused", first)


def full_paths(lines):
    """The functions of one name among which the prover asks to choose."""
    said = next((it for it in lines if "several functions are named" in it), "")
    return re.findall(r"`([\w:<>+ ]+)`", said.partition("help:")[2])


def paths_of(libraries, edit):
    """The words by which the prover checks the function whose clause refuses the edit, and what it calls; nothing where it knows none."""
    _, *owner, name = edit.function().split("::")
    status, lines = libraries.check(edit.crate, {}, "--only", name)
    if status == 2:
        chosen = [it for it in full_paths(lines) if not owner or it.endswith(f"{owner[-1]}::{name}") or f"{owner[-1]}>" in it or f"{owner[-1]} " in it]
        words = [word for it in chosen for word in ("--only", it)]
        status, _ = libraries.check(edit.crate, {}, *words) if words else (2, [])
        return words if status == 0 else []
    return ["--only", name] if status == 0 else []


def verdict(libraries, edit, only):
    """What the prover says of the edit: by the one function where that refuses it, and else by the whole crate."""
    changed = edit.edited()
    if only:
        said = judged(*libraries.check(edit.crate, changed, *only), changed)
        if said[0] == "refused":
            return said
        print(f"{edit.crate}/{edit.name}: by its function alone: {said[0]}: {said[1][:160]}", flush=True)
    return judged(*libraries.check(edit.crate, changed), changed)
