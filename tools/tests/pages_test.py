"""The pages show what the commands write: each block that begins with `$ ` is made again, and only in out/, a copy of examples/."""
import os
import re
import shutil
import subprocess
import sys
import unittest

from setting import TOP, InRoom

from main import WORDS

BLOCK = re.compile(r"^```\n(\$ .*?)^```$", re.MULTILINE | re.DOTALL)
COMMAND = """#!/bin/sh
case $1 in
check | run | trace) exec "$HUME_PROGRAM" "$@" ;;
%s) exec %s -B %s/tools/main.py "$@" ;;
*) exec %s/hume "$@" ;;
esac
"""


def page(name):
    with open(os.path.join(TOP, name), encoding="utf-8") as file:
        return file.read()


def steps_of(block):
    """The commands of a block, each with what it writes."""
    found = []
    for line in block.splitlines(keepends=True):
        if line.startswith("$ "):
            found.append((line[2:], ""))
        else:
            found[-1] = (found[-1][0], found[-1][1] + line)
    return found


class Pages(InRoom):
    def setUp(self):
        super().setUp()
        for name in ("examples", "out"):
            shutil.copytree(os.path.join(TOP, "examples"), os.path.join(self.room, name))
        self.before = self.files_of_examples()
        path = self.put("hume", COMMAND % (" | ".join(WORDS), sys.executable, TOP, TOP))
        os.chmod(path, 0o755)

    def files_of_examples(self):
        return sorted(os.path.join(at, it) for at, _, names in os.walk(os.path.join(self.room, "examples")) for it in names)

    def try_block(self, block):
        """All commands of a block in one shell, with a line between what each writes."""
        steps = steps_of(block)
        script = "".join(f"{command}printf '\\036'\n" for command, _ in steps)
        done = subprocess.run(["bash", "-c", script], cwd=self.room, stdin=subprocess.DEVNULL, capture_output=True)
        self.assertEqual(done.stdout.decode().split("\036")[:-1], [wanted for _, wanted in steps])

    def try_page(self, name, least):
        blocks = BLOCK.findall(page(name))
        self.assertGreaterEqual(len(blocks), least)
        compiles = shutil.which("cc") and shutil.which("make")
        for block in blocks if compiles else [it for it in blocks if "$ make " not in it]:
            with self.subTest(block.splitlines()[1]):
                self.try_block(block)
        self.assertEqual(self.files_of_examples(), self.before)

    def test_the_tutorial(self):
        self.try_page("docs/TUTORIAL.md", 15)

    def test_the_commands(self):
        self.try_page("docs/COMMANDS.md", 4)

    def test_the_console(self):
        self.try_page("docs/CONSOLE.md", 1)

    def test_the_live_run(self):
        self.try_page("docs/LIVE.md", 1)

    def test_the_targets(self):
        self.try_page("docs/TARGETS.md", 2)

    def test_each_word_has_a_section(self):
        sections = " ".join(re.findall(r"^## (.*)$", page("docs/COMMANDS.md"), re.MULTILINE))
        for word in WORDS:
            self.assertRegex(sections, rf"`{word}\b")

    def test_the_idioms_show_the_programs(self):
        shown = page("docs/IDIOMS.md")
        folder = os.path.join(TOP, "examples", "idioms")
        for name in sorted(os.listdir(folder)):
            self.assertIn(page(f"examples/idioms/{name}/{name}.hume").rstrip("\n"), shown)


if __name__ == "__main__":
    unittest.main()
