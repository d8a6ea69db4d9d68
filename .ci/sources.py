"""Reads the definitions of all crates, their public functions, and what cites what."""
import os
import re
from collections import deque

TOP = os.path.dirname(os.path.dirname(os.path.abspath(__file__)))
NAME = r"[^\s(){}\[\];,.:λ→←×∷≡≢≤<>=|\\\"]+"
HEAD = re.compile(r"(?:(?:pub|abbrev|unfoldable|data|record|ruleset)\s+)*(" + NAME + r")")


def read(path):
    with open(path, encoding="utf-8") as file:
        return file.read()


def files_below(folder, ending):
    for at, folders, names in os.walk(folder):
        folders[:] = sorted(it for it in folders if it != "out")
        for name in sorted(names):
            if name.endswith(ending):
                yield os.path.join(at, name)


class Definition:
    """A definition or lemma: its module, its name, what its comment says, and the words of its text."""

    def __init__(self, module, name, says, text):
        self.module, self.name, self.says, self.text = module, name, says, text
        self.words = set(re.findall(NAME, text))
        self.near = None

    def cited(self, known):
        """What its text cites, in order: definitions, and types of Rust."""
        if self.near is None:
            self.near = cited_by(self, self.text, known)
        return self.near

    def equations(self):
        """What stands before its equations, and each equation."""
        lines, head, found = self.text.split("\n"), [], []
        indent = lines[0][: len(lines[0]) - len(lines[0].lstrip())]
        for at, line in enumerate(lines):
            if at > 0 and re.match(indent + re.escape(self.name) + r"( |$)", line):
                found.append([line])
            else:
                (found[-1] if found else head).append(line)
        return "\n".join(head), ["\n".join(it) for it in found]


class Module:
    """A file of specs/ or proofs/, with what it imports and what it defines."""

    def __init__(self, path, name):
        self.path, self.name, self.defined = path, name, {}
        text = read(path)
        self.imports = imports_of(text, "")
        self.cuts = self.parts(text)

    def parts(self, text):
        says, name, body, kind, indent = [], None, [], "", 0
        for line in text.split("\n") + [""]:
            bare = line.strip()
            if re.match(r"(pub )?use |pub mod |mod |infix", line):
                says = []
                continue
            if re.match(r"\s*module .* where$", line):
                continue
            if bare == "mutual":
                kind = ""
                continue
            head = re.match(r"(\s*)((?:pub |abbrev |unfoldable |data |record |ruleset )*)(" + NAME + r")(.*)", line)
            begins = head and not bare.startswith("--") and len(head.group(1)) <= 2 and self.is_head(head, name, kind, indent)
            if begins:
                self.add(name, says_before, body) if name else None
                name, body, says_before, says = head.group(3), [line], says, []
                kind, indent = head.group(2), len(head.group(1))
            elif bare.startswith("--"):
                says = says + [bare.lstrip("- ").strip()]
            elif not bare:
                says = []
            else:
                body.append(line)
                says = []
        self.add(name, says_before, body) if name else None

    def is_head(self, head, name, kind, indent):
        """Whether a definition begins here, no deeper than the record or the type before it: a line with a word of its own, or a signature."""
        if ("record" in kind or "data" in kind) and len(head.group(1)) > indent:
            return False
        if head.group(2).strip() and len(head.group(1)) <= 2:
            return True
        return bool(re.match(r"\s*(:|\()", head.group(4))) and head.group(3) != name and " : " in head.group(0) and " = " not in head.group(0)

    def add(self, name, says, body):
        self.defined[name] = Definition(self, name, " ".join(says), "\n".join(body))


def imports_of(text, before):
    """The names that a file imports, each with its module and the name there; and the modules that it names by another name."""
    found = {}
    for m in re.finditer(r"^" + before + r"use (Rattle\.[\w.+'-]+)\.\{([^}]*)\};?$", text, re.M):
        for it in m.group(2).split(","):
            name, _, other = it.strip().partition(" as ")
            found[(other or name).strip()] = m.group(1), name.strip()
    for m in re.finditer(r"^" + before + r"use (Rattle\.[\w.+'-]+) as (\w+);?$", text, re.M):
        found[m.group(2)] = m.group(1), None
    return found


def modules(parts=("specs", "proofs")):
    found = {}
    for crate in crates():
        for part in parts:
            folder = os.path.join(TOP, "crates", crate, part)
            for path in files_below(folder, ".antt"):
                inside = os.path.relpath(path, folder)[: -len(".antt")].replace(os.sep, ".")
                if os.path.basename(path) in ("Lib.antt", "inner.antt", "formers.antt") or ".formers" in "." + inside:
                    continue
                name = f"Rattle.{crate}.{part}.{inside}"
                found[name] = Module(path, name)
    return found


class Function:
    """A function: its crate and file, its type if it is a method, what its comment says, its clauses and what these import."""

    def __init__(self, crate, path, name, owner, says, clauses, imports):
        self.crate, self.path, self.name, self.owner = crate, path, name, owner
        self.says, self.clauses, self.imports, self.public = says, clauses, imports, True
        # whether it takes nothing and gives nothing
        self.is_bare = False
        self.words = set(re.findall(NAME, clauses))

    def named_clauses(self):
        """The texts of its clauses by their names; one without a name has the empty one."""
        cuts = re.split(r"^\s*ensures\b\s*", self.clauses, flags=re.M)[1:]
        heads = [re.match(r"(\w*)\s*\{", it) for it in cuts]
        return {head.group(1): it for head, it in zip(heads, cuts) if head}

    def full_name(self):
        return "::".join(it for it in (self.crate, self.owner, self.name) if it)

    def public_name(self):
        """Its name with that of the module folder in which it stands, if it stands in one."""
        inside = os.path.relpath(os.path.dirname(self.path), os.path.join(TOP, "crates", self.crate, "src"))
        return "::".join(it for it in (self.crate, *inside.replace(".", "").split(os.sep), self.owner, self.name) if it)


def crates():
    return sorted(os.listdir(os.path.join(TOP, "crates")))


def roots(crate):
    """The root files of a crate: src/lib.rt or src/main.rt, and below it the file of each module that is public or has files of its
    own, with the folder of its files."""
    source = os.path.join(TOP, "crates", crate, "src")
    found = [(os.path.join(source, it), source) for it in ("lib.rt", "main.rt") if os.path.isfile(os.path.join(source, it))]
    for path, folder in found:
        for public, name in re.findall(r"^(pub )?mod (\w+);", read(path), re.M):
            if public or os.path.isdir(os.path.join(folder, name)):
                found.append((os.path.join(folder, name) + ".rt", os.path.join(folder, name)))
    return found


def exported(crate):
    """The public names of each file of the crate: those that the root above it exports; of a public module all (None)."""
    found = {}
    for path, folder in roots(crate):
        text = read(path)
        if folder != os.path.dirname(path):
            found[path] = None
        for m in re.finditer(r"^pub use (?:crate::|self::)?([\w:]+)::(?:\{([^}]*)\}|(\w+));", text, re.M):
            file = os.path.join(folder, *m.group(1).split("::")) + ".rt"
            names = {it.strip() for it in (m.group(2) or m.group(3)).split(",") if it.strip()}
            if found.get(file, names) is not None:
                found[file] = found.get(file, set()) | names
    return found


def head_of(lines, at):
    """The line at which the `impl` or `trait` begins in which this line stands, or nothing."""
    if not lines[at].startswith(" "):
        return ""
    return next((it for it in reversed(lines[:at]) if re.match(r"(pub )?(impl|trait)\b", it)), "")


def owner_of(head):
    """The type of a method by the head of its `impl`, or its trait."""
    m = re.match(r"(?:pub )?(?:impl(?:<[^>]*>)?|trait)\s+(?:[\w<>':,& ]+ for )?(\w+)", head)
    return m.group(1) if m else ""


def is_public(line, name, path, public, head):
    """Whether a function is reached from outside: an exported one, or a method of an exported file's types or traits."""
    every = set().union(*(it for it in public.values() if it))
    if line.startswith("    pub fn") and every & set(re.findall(r"\w+", head)):
        return True
    if path not in public:
        return False
    if not line.startswith(" "):
        return line.startswith("pub fn") if public[path] is None else name in public[path]
    return line.strip().startswith("pub fn") or " for " in head or "trait " in head


def functions(only_public=True):
    found = []
    for crate in crates():
        exporting = exported(crate)
        for path in files_below(os.path.join(TOP, "crates", crate, "src"), ".rt"):
            text = read(path)
            cut = re.search(r"^#\[cfg\(test\)\]\s*mod tests", text, re.M)
            text = text[: cut.start()] if cut else text
            imports = imports_of(text, r"\s*ghost ")
            lines = text.split("\n")
            for at, line in enumerate(lines):
                m = re.match(r"\s*(?:pub(?:\(crate\))? )?(?:final )?fn (\w+)", line)
                if m:
                    head = head_of(lines, at)
                    public = is_public(line, m.group(1), path, exporting, head)
                    it = Function(crate, path, m.group(1), owner_of(head), comment_before(lines, at), clauses_from(lines, at), imports)
                    it.public = public
                    it.is_bare = re.search(r"fn \w+(<[^()]*>)?\(\)$", line) is not None
                    found.append(it)
            # what a type or a trait means stands in its ghost members
            for m in re.finditer(r"ghost \w+\s*[:=] \{(.*?)\};", text, re.S):
                found.append(Function(crate, path, "(member)", "", "", m.group(1), imports))
            for m in re.finditer(r"ghost (\w+): \{(.*?)\},?\n", text, re.S):
                found.append(Function(crate, path, "(member)", "", "", m.group(2), imports))
    return [it for it in found if it.public or not only_public]


def clauses_from(lines, at):
    text, depth = [], 0
    for line in lines[at + 1 :]:
        if re.match(r"\s*\{", line) and depth == 0 or re.match(r"\s*(pub )?fn ", line):
            break
        if re.match(r"\s*(ensures|requires|ghost)\b", line) or depth > 0:
            text.append(re.sub(r"//.*", "", line))
            depth += line.count("{") - line.count("}")
        elif line.rstrip().endswith("{") or line.strip() in ("}", "{}"):
            break
    return "\n".join(text)


def comment_before(lines, at):
    says, at = [], at - 1
    while at >= 0 and re.match(r"\s*(///|#\[)", lines[at]):
        if "///" in lines[at]:
            says.insert(0, lines[at].strip().lstrip("/ ").strip())
        at -= 1
    return " ".join(says)


def target(imports, module, word, known):
    """The definition that a word means in a file, or the Rust type that it names."""
    if module and word in module.defined:
        return module.defined[word]
    where = imports.get(word)
    if not where:
        return None
    at, name = where
    if at in known and name and name in known[at].defined:
        return known[at].defined[name]
    m = re.match(r"Rattle\.(\w+)\.specs\.declared\.(.+)", at)
    if not m:
        return None
    return "type", m.group(1), m.group(2) + (f".{name}" if m.group(2).endswith(".TheConstants") else "")


def cited_by(it, text, known):
    """What a text cites that stands where a definition stands."""
    bare = re.sub(r"--.*", "", text)
    words = dict.fromkeys(re.findall(NAME + r"(?:\." + NAME + r")?", bare))
    found = (target(it.module.imports, it.module, w.split(".")[0], known) for w in words)
    return [n for n in dict.fromkeys(found) if n is not None]


def reached(starts, known, stop=(), form=None):
    """The definitions reached from these words, in the order in which they are met: each definition before what it cites. What only
    those of `stop` cite isn't reached. A form of a call reads of each definition what concerns it."""
    order, types, queue, stop = {}, {}, deque(starts), set(stop)
    while queue:
        it = queue.popleft()
        if it is None or it in order or it in types:
            continue
        if isinstance(it, tuple):
            types[it] = True
            continue
        order[it] = True
        if it in stop:
            continue
        near = form.cited(it) if form else it.cited(known)
        same_file = [n for n in near if isinstance(n, Definition) and n.module is it.module]
        queue.extendleft(reversed(same_file))
        queue.extend(n for n in near if n not in same_file)
    return list(order), list(types)


def begins(function, known):
    text = re.findall(NAME, function.clauses)
    return [target(function.imports, None, w, known) for w in dict.fromkeys(text)]


def shown(path):
    return os.path.relpath(path, TOP)


def doc_of_type(crate, inside):
    """The file of a Rust type and what its comment says."""
    parts = inside.split(".")
    for end in range(len(parts), 0, -1):
        path = os.path.join(TOP, "crates", crate, "src", *parts[:end]) + ".rt"
        if os.path.isfile(path):
            name = parts[end] if len(parts) > end else ""
            lines = read(path).split("\n")
            for at, line in enumerate(lines):
                if re.match(r"pub (struct|enum) " + re.escape(name) + r"\b", line):
                    return path, name, comment_before(lines, at)
            return path, name, ""
    return None


