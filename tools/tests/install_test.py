"""hume install and uninstall, and the completion of words for bash."""
import os
import subprocess
import unittest

from setting import ADD, TOP, InRoom

from main import WORDS

LINKS = ["bin/hume", "share/bash-completion/completions/hume", "share/man/man1/hume-console.1", "share/man/man1/hume.1"]


class Install(InRoom):
    def links(self):
        found = [os.path.join(at, it) for at, _, files in os.walk(os.path.join(self.room, "there")) for it in files]
        return sorted(os.path.relpath(it, os.path.join(self.room, "there")) for it in found)

    def test_links_are_made_and_taken_away(self):
        self.assertEqual(self.call("install", "there")[0], 0)
        self.assertEqual(self.links(), LINKS)
        self.assertEqual(os.path.realpath(os.path.join(self.room, "there/bin/hume")), os.path.join(TOP, "hume"))
        self.assertEqual(self.call("install", "there")[0], 0)
        done = subprocess.run([os.path.join(self.room, "there/bin/hume"), "--help"], stdout=subprocess.PIPE)
        self.assertEqual(done.returncode, 0)
        self.assertTrue(done.stdout.startswith(b"usage: hume check SOURCE"))
        self.put("there/bin/other", "")
        self.assertEqual(self.call("uninstall", "there")[0], 0)
        self.assertEqual(self.links(), ["bin/other"])

    def test_other_files_are_left(self):
        self.put("there/share/man/man1/hume.1", "mine")
        self.assertEqual(self.call("install", "there")[0], 1)
        self.assertEqual(self.call("uninstall", "there")[0], 0)
        self.assertEqual(self.links(), ["share/man/man1/hume.1"])
        self.assertEqual(self.call("install")[0], 1)


class Completion(InRoom):
    def complete(self, *words):
        """What bash offers for the last of these words."""
        script = f"""source {TOP}/tools/completion.bash
COMP_WORDS=("$@") COMP_CWORD=$(($# - 1)) && _hume && printf '%s\\n' "${{COMPREPLY[@]}}" """
        done = subprocess.run(["bash", "-c", script, "bash", *words], cwd=self.room, stdout=subprocess.PIPE, check=True)
        return sorted(done.stdout.decode().split())

    def test_words(self):
        self.assertEqual(self.complete("hume", "w"), ["watch", "waves", "why"])
        self.assertLessEqual(set(WORDS), set(self.complete("hume", "")))

    def test_options(self):
        self.assertEqual(self.complete("hume", "watch", "4", "add.hume", "-"), ["--until", "--width", "-w"])
        self.assertEqual(self.complete("hume", "test", "--"), ["--bless", "--cover"])
        self.assertEqual(self.complete("hume", "net", "p", "-"), ["--svg"])
        self.assertEqual(self.complete("hume", "c", "p", "-"), ["--force", "--name"])

    def test_sources_folders_and_ports(self):
        self.put("add.hume", ADD)
        self.put("other.txt", "")
        self.put("in/numbers", "")
        self.assertEqual(self.complete("hume", "check", "a"), ["add.hume"])
        self.assertEqual(self.complete("hume", "run", "4", "1", ""), ["add.hume", "in"])
        self.assertEqual(self.complete("hume", "run", "4", "1", "add.hume", ""), ["numbers", "totals"])
        self.assertEqual(self.complete("hume", "watch", "4", "add.hume", "t"), ["totals"])
        self.assertEqual(self.complete("hume", "cover", "4", "add.hume", "n"), ["numbers"])
        self.assertEqual(self.complete("hume", "live", "a"), ["add.hume"])
        self.assertEqual(self.complete("hume", "c", ""), ["add.hume", "header", "in", "main"])
        self.assertEqual(self.complete("hume", "c", "header", "a"), ["add.hume"])
        self.assertEqual(self.complete("hume", "live", "add.hume", ""), ["numbers", "totals"])
        self.assertEqual(self.complete("hume", "check", "add.hume", ""), [])
        self.assertEqual(self.complete("hume", "test", ""), ["in"])
        self.assertEqual(self.complete("hume", "waves", "o"), ["other.txt"])


if __name__ == "__main__":
    unittest.main()
