"""Finds all that has to do with one word: a definition, the number of a rule, or a form of the language."""
import os
import re

from edits import of_gate, of_others
from sources import NAME, TOP, crates, files_below, functions, modules, read, shown, target

# Forms that are written with signs, and how the sources name them.
SIGNS = {"*": "Star", "_*": "AnyStar", "_": "Any", "@": "At", "+": "Plus", "-": "Minus", "/=": "SlashEquals", "==": "EqualsEquals"}


class Word:
    """How the sources name the word, and how their comments and examples may speak of it."""

    def __init__(self, word):
        self.word, self.is_rule = word, word.isdigit()
        if self.is_rule:
            self.names, self.said = {f"C{word}"}, re.compile(rf"\brules? (?:\d+, |\d+ (?:and|or|to) )*{word}\b")
        else:
            name = SIGNS.get(word, word)
            small = name[0].upper() + name[1:] if re.match(r"[a-z]+$", name) else name
            self.names, self.said = {name, small}, None
        bare = SIGNS.get(word, word)
        snake = re.sub(r"(?<=[a-z])(?=[A-Z])", "_", bare).lower()
        self.part = re.compile(rf"(?:^|_){re.escape(snake)}s?(?:_|$)") if re.match(r"\w+$", snake) and not self.is_rule else None
        self.shown_as = re.compile(rf"(?<![\w*@]){re.escape(word)}(?![\w*])")

    def names_it(self, name):
        return name in self.names or bool(self.part and self.part.search(name))

    def is_in(self, words, comment=""):
        return bool(self.names & set(words)) or bool(self.said and self.said.search(comment))


def section(title, lines, most=40):
    lines = list(dict.fromkeys(lines))
    print(f"{title}: {len(lines) or 'none'}")
    for it in lines[:most]:
        print(f"  {it}")
    if len(lines) > most:
        print(f"  .. and {len(lines) - most} more")


def line_of(path, pattern):
    return next((at for at, line in enumerate(read(path).split("\n"), 1) if re.search(pattern, line)), 1)


def definitions_of(word, known):
    """Definitions of that name, and those whose text has it or whose comment speaks of the rule."""
    named, using = [], []
    for module in known.values():
        if ".specs." not in module.name or ".specs.formers" in module.name:
            continue
        for it in module.defined.values():
            if word.names_it(it.name):
                named.append(it)
            elif word.is_in(re.findall(NAME, re.sub(r"--.*", "", it.text)), it.says):
                using.append(it)
    return named, using


# Definitions that go through all rules say nothing of one.
GENERAL = 4


def is_special(it):
    return len({name for name in it.words if re.fullmatch(r"C\d\d", name)}) <= GENERAL


def first_the_telling(word, definitions):
    """Those first whose comment speaks of the word, and those last that serve private functions alone."""
    return sorted(definitions, key=lambda it: (".inner." in it.module.name, f"`{word.word}`" not in it.says))


def at_definition(it):
    line = line_of(it.module.path, "^ *(pub |abbrev |data |record |unfoldable )*" + re.escape(it.name) + " ")
    return f"{shown(it.module.path)}:{line} `{it.name}`" + (f": {it.says}" if it.says else "")


def types_of(word):
    """Lines of sources at which a type, a variant or a constant of that name begins."""
    pattern = re.compile(r"^\s*(?:pub )?(?:enum |struct |trait |const )?(" + "|".join(map(re.escape, word.names)) + r")\b *[({,:=]?")
    for crate in crates():
        for path in files_below(os.path.join(TOP, "crates", crate, "src"), ".rt"):
            if path.endswith("_tests.rt"):
                continue
            for at, line in enumerate(read(path).split("\n"), 1):
                if pattern.match(line) and (re.match(r"\s*pub ", line) or re.match(r"\s+\w+(\(.*\)|,| \{.*)?,?$", line)):
                    yield f"{shown(path)}:{at} {line.strip()}"


def citing(word, found, known):
    """Functions whose clauses cite the word or one of these definitions, laws apart."""
    names = {it.name for it in found}
    deciding, laws = [], []
    for it in functions(only_public=False):
        cites = any(target(it.imports, None, name, known) in found for name in it.words if name in names or name in it.imports)
        if it.name != "(member)" and (word.is_in(it.words, it.says) or cites):
            at = f"{shown(it.path)}:{line_of(it.path, 'fn ' + it.name + '[<(]')} `{it.public_name()}`"
            (laws if it.path.endswith("/laws.rt") else deciding).append((it, at + (f": {it.says}" if it.says else "")))
    return deciding, laws


def lemma_files(word, found, known):
    names = {it.name for it in found}
    for module in known.values():
        if ".proofs." not in module.name:
            continue
        count = sum(bool(word.is_in(it.words) or names & it.words) for it in module.defined.values())
        if count:
            yield f"{shown(module.path)} ({count} lemmas)"


def edits_of(word, deciding):
    functions_of = {name for it, _ in deciding for name in (it.full_name(), it.public_name())}
    for crate in crates():
        for edit in of_gate(crate) + of_others(crate):
            changed = {name for _, old, new in edit.changes for name in re.findall(r"\w+", old + " " + new)}
            if word.names & changed or edit.clause.partition(".")[0] in functions_of or word.names_it(edit.name):
                yield f"{shown(edit.path)}: {edit.clause}"


def examples_of(word):
    folder = os.path.join(TOP, "examples")
    for at, folders, names in os.walk(folder):
        folders.sort()
        if word.is_rule:
            for line in read(os.path.join(at, "rules")).split("\n") if "rules" in names else []:
                if word.word in line.split():
                    yield f"{shown(at)}: {line}"
        elif "words" in names:
            sources = [it for it in sorted(names) if it.endswith(".hume")]
            if any(word.shown_as.search(re.sub(r"--.*|\"[^\"]*\"", "", read(os.path.join(at, it)))) for it in sources):
                yield shown(at)


def where(text):
    word, known = Word(text), modules()
    named, using = (first_the_telling(word, it) for it in definitions_of(word, known))
    if word.is_rule:
        named, using = [it for it in using if is_special(it)], [it for it in using if not is_special(it)]
    deciding, laws = citing(word, named, known)
    others, other_laws = citing(word, using, known)
    section("written in the sources as", types_of(word))
    section("defined", map(at_definition, named))
    section("used by definitions", map(at_definition, using))
    section("decided by functions whose clauses cite it", (line for _, line in deciding))
    section("functions whose clauses cite definitions that use it", (line for it, line in others if (it, line) not in deciding), 20)
    section("laws", (line for _, line in laws + other_laws))
    section("lemma files", lemma_files(word, named, known), 20)
    section("wrong bodies", edits_of(word, deciding + others))
    section("examples", examples_of(word), 20)
