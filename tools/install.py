"""hume install PREFIX and hume uninstall PREFIX: links to the command, its manual pages and its completion, below a folder."""
import os

from program import TOP, Usage

LINKS = {
    "bin/hume": "hume",
    "share/man/man1/hume.1": "docs/hume.1",
    "share/man/man1/hume-console.1": "docs/hume-console.1",
    "share/bash-completion/completions/hume": "tools/completion.bash",
}


def is_ours(link, target):
    return os.path.islink(link) and os.path.realpath(link) == os.path.realpath(target)


def links(prefix):
    """Each link with what it leads to."""
    return [(os.path.join(prefix, link), os.path.join(TOP, target)) for link, target in LINKS.items()]


def install(prefix):
    for link, target in links(prefix):
        if os.path.lexists(link) and not is_ours(link, target):
            raise Usage(f"'{link}' is there, and is no link to '{target}': nothing is installed")
    for link, target in links(prefix):
        os.makedirs(os.path.dirname(link), exist_ok=True)
        if not os.path.lexists(link):
            os.symlink(target, link)
        print(f"{link} -> {target}")


def uninstall(prefix):
    for link, target in links(prefix):
        if is_ours(link, target):
            os.remove(link)
            print(f"removed: {link}")


def main(word, words):
    if len(words) != 1 or words[0].startswith("-"):
        raise Usage(f"usage: hume {word} PREFIX")
    (install if word == "install" else uninstall)(os.path.abspath(words[0]))
    return 0
