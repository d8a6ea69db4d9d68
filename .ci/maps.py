"""Makes the tables of docs/ARCHITECTURE.md and docs/PROOFS.md of the heads of crates, and puts what is made into docs/."""
import contextlib
import io
import os
import re
import sys

from promise import promise
from sources import TOP, read, roots

PROVED = "Proved: "


def groups():
    """The crates in the order of crates.txt, each with its group: the comment above it."""
    group, found = "", []
    for line in read(os.path.join(TOP, "crates.txt")).split("\n")[1:]:
        if line.startswith("#"):
            group = line.lstrip("# ")
        elif ":" in line:
            found.append((group, line.split(":")[0].split()[0]))
    return found


def heads(crate):
    """The crate and its public modules, each with the paragraphs of its head."""
    for path, folder in roots(crate):
        inside = os.path.relpath(folder, os.path.join(TOP, "crates", crate, "src"))
        name = crate if inside == "." else "::".join((crate, *inside.split(os.sep)))
        if name != crate and not os.path.isdir(folder):
            continue
        lines = [re.sub(r"^//! ?", "", it).strip() for it in read(path).split("\n") if it.startswith("//!")]
        paragraphs = [" ".join(it.split("\n")) for it in "\n".join(lines).split("\n\n") if it]
        if not paragraphs:
            sys.exit(f"{path} has no head")
        yield name, paragraphs


def first_sentence(text):
    return re.match(r".*?[.](?= |$)|.*", text).group(0).rstrip(".")


def crate_table():
    """The table of crates: what each is, by the first sentence of its head."""
    print("| group | crate | what it is |\n|---|---|---|")
    last = ""
    for group, crate in groups():
        for name, paragraphs in heads(crate):
            print(f"| {group if group != last else ''} | `{name}` | {first_sentence(paragraphs[0])} |")
            last = group


def proofs_table():
    """What is proved of each crate and module, by the paragraph of its head that says so. A crate that only has modules needs none."""
    print("| crate | proved, and the contract that carries it |\n|---|---|")
    for _, crate in groups():
        parts = list(heads(crate))
        for name, paragraphs in parts:
            proved = [it for it in paragraphs if it.startswith(PROVED)]
            if not proved and name == crate and len(parts) > 1:
                continue
            if len(proved) != 1:
                sys.exit(f"the head of {name} has {len(proved)} paragraphs that begin with '{PROVED.strip()}'")
            said = proved[0][len(PROVED) :]
            print(f"| `{name}` | {said[0].upper()}{said[1:]} |")


def printed(call):
    with contextlib.redirect_stdout(io.StringIO()) as out:
        call()
    return out.getvalue()


# What stands in docs/: the file, the word of `.ci/definitions` that makes it, and how. A table stands between two marks.
MADE = (("PROMISE.md", "promise", promise), ("ARCHITECTURE.md", "map", crate_table), ("PROOFS.md", "proofs", proofs_table))


def with_table(text, word, table):
    """The text of a page with the table between its marks."""
    begin, end = f"<!-- begin: .ci/definitions {word} -->\n", f"<!-- end: .ci/definitions {word} -->\n"
    before, found, rest = text.partition(begin)
    if not found or end not in rest:
        sys.exit(f"there is no place for the table of '.ci/definitions {word}'")
    return before + begin + table + end + rest.split(end, 1)[1]


def wanted():
    """Each made page, as it is to be."""
    for name, word, call in MADE:
        path = os.path.join(TOP, "docs", name)
        yield path, printed(call) if call is promise else with_table(read(path), word, printed(call))


def update():
    for path, text in wanted():
        with open(path, "w", encoding="utf-8") as file:
            file.write(text)


def stale():
    for path, text in wanted():
        if read(path) != text:
            print(f"{os.path.relpath(path, TOP)} is not that of the sources: .ci/definitions update makes it")
