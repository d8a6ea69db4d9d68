"""Finds names in docs/ and the pages at the top that nothing in the repository has: of files, definitions, laws, functions and types."""
import os
import re

from sources import TOP, read

# The pages that are read, and what is read for the names that there are.
PAGES = re.compile(r"(README|CONTRIBUTING|docs/[A-Z]+)\.md$")
CODE = re.compile(r".*(\.(rt|antt|py|sh|c|js|hume|edit)|/words|/script)$|(\.ci|command|tools|bench)/|hume$|crates\.txt$|dist/update$")

# Files that a user or the system has.
ELSEWHERE = re.compile(r"(out|bin|share)/")

# Names of no definition: spellings that a page shows.
SHOWN = {"box_1"}

IN_CODE = re.compile(r"`([^`\n]+)`")
FILE = re.compile(r"\.?[\w-]+(/[\w.*-]+)*(\.(antt|rt|md|py|sh|edit|c|1|svg|png|txt)|/)$|\.ci/[\w./-]+$|[\w-]+(/[\w.-]+)+$")
NAMED = re.compile(r"\w*([a-z]_|_[a-z]|\w::)\w+(::\w+)*$|[A-Z][a-z]\w*[A-Z]\w*$")

# A word in capitals stands for any name; pages have such names too.
ANY = re.compile(r"(?<![A-Za-z0-9])([A-Z]{2,}|X)(?![A-Za-z0-9]|\.md$)")


def all_files():
    """The files of the repository but those that a run makes, by their names from the top."""
    for at, folders, names in os.walk(TOP):
        folders[:] = sorted(set(folders) - {".git", "out", "__pycache__"})
        for name in sorted(names):
            yield os.path.relpath(os.path.join(at, name), TOP)


def words_of(files):
    """All words of code, without comments."""
    found = set()
    for path in files:
        if CODE.match(path) and not PAGES.match(path):
            text = read(os.path.join(TOP, path))
            text = re.sub(r"^\s*(//|--).*", "", text, flags=re.M) if path.endswith((".rt", ".antt")) else text
            found.update(re.findall(r"\w+", text))
    return found


def is_there(name, places):
    """Whether there is a file or a folder of that name, from the top or below any folder. A `*` stands for any part of a name."""
    bare = re.escape(name.removeprefix("./").rstrip("/")).replace(r"\*", "[^/]*")
    return re.search(f"(^|/){bare}$", places, re.M)


def misnamed():
    files = list(all_files())
    folders = {"/".join(it.split("/")[:end]) for it in files for end in range(1, it.count("/") + 1)}
    places, words = "\n".join([*files, *sorted(folders)]), words_of(files)
    for page in filter(PAGES.match, files):
        for at, line in enumerate(read(os.path.join(TOP, page)).split("\n"), 1):
            for text in IN_CODE.findall(line):
                if ANY.search(text) or ELSEWHERE.match(text) or text in SHOWN:
                    continue
                if FILE.match(text):
                    if not is_there(text, places):
                        print(f"{page}:{at}: there is no file '{text}'")
                elif NAMED.match(text) and not set(text.split("::")) <= words:
                    print(f"{page}:{at}: nothing has the name '{text}'")
