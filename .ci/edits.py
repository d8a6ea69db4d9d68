"""Reads wrong bodies: the edits that the gate tries (crates/CRATE/must-fail/) and all others (wrong-bodies/CRATE/), and the verdicts on
the others (wrong-bodies/LAST)."""
import hashlib
import os
import re

from sources import TOP, crates, files_below, functions, read, shown

CRATES_OF_GATE, EDITS_OF_GATE = 12, 30
LAST = os.path.join(TOP, "wrong-bodies", "LAST")
HEAD = """# What the prover says of each wrong body beside the gate, made by `.ci/wrong-bodies`: the crate, the edit, what was said (refused,
# proved, unread, or "names alone") and a sum over the edit and the contracts of the crate at that time.
"""


class Edit:
    """A wrong body: its crate, its file, the clause that refuses it, and the texts that it changes, each with its file and its new text."""

    def __init__(self, crate, path):
        self.crate, self.path, self.name = crate, path, os.path.basename(path)[: -len(".edit")]
        self.clause, self.changes, self.text, file, old = "", [], read(path), "", None
        for line in self.text.split("\n"):
            if line.startswith("# clause: "):
                self.clause = line[len("# clause: ") :].strip()
            elif line.startswith("file: "):
                file = line[len("file: ") :].strip()
            elif line.startswith("old: "):
                old = line[len("old: ") :]
            elif line.startswith("new:") and old is not None:
                self.changes.append((file, old, line[len("new:") :].removeprefix(" ")))
                old = None

    def function(self):
        """The function whose clause refuses it, by its crate, its type if it has one, and its name."""
        return self.clause.partition(".")[0]

    def is_of_gate(self):
        return os.path.basename(os.path.dirname(self.path)) == "must-fail"

    def edited(self):
        """The texts of the files that it changes, by their paths in the crate."""
        texts = {}
        for file, old, new in self.changes:
            text = texts.get(file) or read(os.path.join(TOP, "crates", self.crate, file))
            texts[file] = text.replace(old, new)
        return texts


def edits_in(crate, folder):
    names = sorted(os.listdir(folder)) if os.path.isdir(folder) else []
    return [Edit(crate, os.path.join(folder, it)) for it in names if it.endswith(".edit")]


def of_gate(crate):
    return edits_in(crate, os.path.join(TOP, "crates", crate, "must-fail"))


def of_others(crate):
    return edits_in(crate, os.path.join(TOP, "wrong-bodies", crate))


class Contracts:
    """The clauses of all functions by the functions' names, and what each crate promises as text: the clauses of its public functions
    and the definitions of its specs/, without comments."""

    def __init__(self):
        self.functions, self.promised, self.named = {}, {}, {}
        for it in functions(only_public=False):
            self.named[it.crate, it.name] = self.named.get((it.crate, it.name), 0) + 1
            for name in {it.full_name(), it.public_name()}:
                self.functions.setdefault(name, []).append(it)
            if it.public:
                self.promised.setdefault(it.crate, []).append(f"{it.full_name()} {spaced(it.clauses)}")

    def clauses_of(self, name):
        """The names of the clauses of that function, or nothing where there is no such function."""
        return {clause for it in self.functions.get(name, []) for clause in it.named_clauses()} if name in self.functions else None

    def is_alone(self, edit):
        """Whether the function that refuses it has a name that no other one of its crate has."""
        return self.named.get((edit.crate, edit.function().split("::")[-1])) == 1

    def sum(self, edit):
        """A sum over what a verdict on the edit depends on: its text, what its crate promises, and the clauses of the function that refuses it."""
        own = sorted({spaced(it.clauses) for it in self.functions.get(edit.function(), [])})
        return hashlib.sha256("\n".join((edit.text, *own, *self.of_crate(edit.crate))).encode()).hexdigest()[:12]

    def of_crate(self, crate):
        folder = os.path.join(TOP, "crates", crate, "specs")
        definitions = [f"{os.path.relpath(it, folder)} {spaced(re.sub(r'--.*', '', read(it)))}" for it in files_below(folder, ".antt")]
        return sorted(self.promised.get(crate, [])) + definitions


def spaced(text):
    return " ".join(text.split())


def verdicts():
    """The rows of LAST: what was said of each edit, and the sum, by crate and edit."""
    lines = read(LAST).split("\n") if os.path.isfile(LAST) else []
    rows = [it.split() for it in lines if it and not it.startswith("#")]
    return {(it[0], it[1]): (" ".join(it[2:-1]), it[-1]) for it in rows}


def write_verdicts(rows):
    with open(LAST + ".new", "w", encoding="utf-8") as file:
        file.write(HEAD)
        for crate, name in sorted(rows):
            file.write(f"{crate} {name} {' '.join(rows[crate, name])}\n")
    os.replace(LAST + ".new", LAST)


def misfits(edit, contracts):
    """What is wrong with an edit, as far as the sources tell it without the prover."""
    texts = {}
    for file, old, new in edit.changes:
        path = os.path.join(TOP, "crates", edit.crate, file)
        if not os.path.isfile(path):
            yield f"there is no file {file}"
            continue
        text = texts.get(file) or read(path)
        if text.count(old) != 1:
            yield f"its old text is in {file} {text.count(old)} times: {old.strip()}"
        texts[file] = text.replace(old, new)
    if not edit.changes:
        yield "it changes nothing"
    clauses = contracts.clauses_of(edit.function())
    if clauses is None:
        yield f"its clause names no function: '{edit.clause}'"
    elif edit.clause.partition(".")[2] not in (clauses or [""]):
        yield f"its clause is none of that function: '{edit.clause}'"


def stale_verdicts(contracts):
    """A line for each edit beside the gate that has no verdict, or another one than that it is refused by the contracts of today, and for
    each row of LAST without an edit."""
    rows = verdicts()
    for crate in crates():
        for edit in of_others(crate):
            said, at = rows.pop((crate, edit.name), ("", ""))
            if not said:
                yield f"{shown(edit.path)}: it was not tried (.ci/wrong-bodies {crate})"
            elif at != contracts.sum(edit):
                yield f"{shown(edit.path)}: it or the contracts of its crate have changed since it was tried (.ci/wrong-bodies {crate})"
            elif said != "refused":
                yield f"{shown(edit.path)}: the prover said of it: {said}"
    for crate, name in rows:
        yield f"wrong-bodies/LAST: {crate}/{name} is no edit beside the gate"


def all_misfits(contracts):
    """A line for each edit that doesn't fit the sources."""
    gate = [len(of_gate(it)) for it in crates() if of_gate(it)]
    if len(gate) > CRATES_OF_GATE or sum(gate) > EDITS_OF_GATE:
        yield f"{sum(gate)} edits in the must-fail/ of {len(gate)} crates, more than {EDITS_OF_GATE} or {CRATES_OF_GATE}: move some to wrong-bodies/"
    folder = os.path.join(TOP, "wrong-bodies")
    for crate in sorted(it for it in os.listdir(folder) if os.path.isdir(os.path.join(folder, it))):
        if crate not in crates():
            yield f"wrong-bodies/{crate}: there is no crate of that name"
    for crate in crates():
        mine, others = of_gate(crate), of_others(crate)
        for name in sorted({it.name for it in mine} & {it.name for it in others}):
            yield f"{crate}/{name}: it is in both folders"
        for edit in mine + others:
            for why in misfits(edit, contracts):
                yield f"{shown(edit.path)}: {why}"
