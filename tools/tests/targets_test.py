"""hume c: the texts of a C program, its folder, and what compiled programs do."""
import os
import shutil
import subprocess
import unittest

from setting import ADD, InRoom

NEEDS_COMPILER = unittest.skipUnless(shutil.which("cc") and shutil.which("make"), "no C compiler or no make is there (apt-get install gcc make)")


class Texts(InRoom):
    def setUp(self):
        super().setUp()
        self.put("add.hume", ADD)

    def test_the_file_has_the_two_calls_and_the_hooks_of_its_streams(self):
        status, text, told = self.call("c", "add.hume")
        self.assertEqual((status, told), (0, ""))
        for part in ("void add_init(void)", "void add_step(void)", "bool add_read_numbers(int32_t *value);", "void add_write_totals(int32_t value);"):
            self.assertIn(part, text)

    def test_the_header_declares_them_and_defines_nothing(self):
        status, text, _ = self.call("c", "header", "add.hume")
        self.assertEqual(status, 0)
        self.assertIn("void add_step(void);", text)
        self.assertNotIn("void add_step(void)\n{", text)

    def test_the_name_is_that_of_the_file_or_the_one_that_is_said(self):
        self.put("2 lamps.hume", ADD)
        self.assertIn("void p2_lamps_init(void)", self.call("c", "2 lamps.hume")[1])
        self.assertIn("void lamp_init(void)", self.call("c", "add.hume", "--name", "lamp")[1])
        for name in ("", "2", "a-b", "a b"):
            self.assertEqual(self.call("c", "add.hume", "--name", name)[:2], (1, ""))

    def test_names_of_c_are_names_of_programs(self):
        for name in ("int", "main", "f", "T", "rule1", "bool", "x"):
            self.assertEqual(self.call("c", "add.hume", "--name", name)[0], 0)

    def test_words_without_a_form(self):
        for words in ((), ("add.hume", "add.hume", "add.hume"), ("header",), ("--name", "a")):
            self.assertEqual(self.call("c", *words)[:2], (1, ""))
        self.assertEqual(self.call("c", "nowhere.hume")[:2], (1, ""))

    def test_a_refused_source_is_told_as_by_check(self):
        self.put("bad.hume", ADD.replace("sum + x, sum + x", "sum + x, true"))
        self.assertEqual(self.call("c", "bad.hume")[:2], self.call_command("check", "bad.hume"))
        self.assertEqual(self.call("c", "out", "bad.hume")[0], 2)
        self.assertFalse(os.path.exists(os.path.join(self.room, "out")))

    def call_command(self, *words):
        from program import call

        done = call(words, self.room)
        return done.returncode, done.stdout.decode()


class Folder(InRoom):
    def setUp(self):
        super().setUp()
        self.put("add.hume", ADD)

    def test_it_has_all_texts_and_a_makefile(self):
        self.assertEqual(self.call("c", "out", "add.hume"), (0, "", ""))
        self.assertEqual(sorted(os.listdir(os.path.join(self.room, "out"))), [".hume", "Makefile", "add.c", "add.h", "add_main.c"])
        for words, name in ((("add.hume",), "add.c"), (("header", "add.hume"), "add.h"), (("main", "add.hume"), "add_main.c")):
            self.assertEqual(self.read(f"out/{name}"), self.call("c", *words)[1])

    def test_a_file_that_no_call_wrote_is_kept(self):
        self.put("out/add.h", "mine\n")
        status, _, told = self.call("c", "out", "add.hume")
        self.assertEqual(status, 1)
        self.assertIn("out/add.h' is there", told)
        self.assertEqual((self.read("out/add.h"), os.listdir(os.path.join(self.room, "out"))), ("mine\n", ["add.h"]))
        self.assertEqual(self.call("c", "out", "add.hume", "--force")[0], 0)
        self.assertNotEqual(self.read("out/add.h"), "mine\n")

    def test_what_it_wrote_it_writes_again(self):
        self.assertEqual(self.call("c", "out", "add.hume")[0], 0)
        self.put("add.hume", ADD.replace("sum + x", "sum - x"))
        self.assertEqual(self.call("c", "out", "add.hume")[0], 0)
        self.assertEqual(self.read("out/add.c"), self.call("c", "add.hume")[1])
        self.put("out/add.c", "changed\n")
        self.assertEqual(self.call("c", "out", "add.hume")[0], 1)
        self.assertEqual(self.read("out/add.c"), "changed\n")

    @NEEDS_COMPILER
    def test_make_compiles_and_compares_with_a_run(self):
        self.put("numbers", "5\n10\n-2\n")
        self.assertEqual(self.call("c", "out", "add.hume")[0], 0)
        done = subprocess.run(["make", "-C", os.path.join(self.room, "out"), "all", "test"], capture_output=True, text=True)
        self.assertEqual(done.returncode, 0, done.stdout + done.stderr)
        self.assertIn("add does what 'hume run 1000' does", done.stdout)
        subprocess.run([os.path.join(self.room, "out", "add"), "10"], cwd=self.room, check=True)
        self.assertEqual(self.read("totals"), "5\n15\n13\n")

    @NEEDS_COMPILER
    def test_a_program_that_does_something_else_is_told(self):
        self.put("numbers", "5\n10\n")
        self.put("other.c", "int main(void) { return 0; }\n")
        subprocess.run(["cc", "-o", "other", "other.c"], cwd=self.room, check=True)
        self.assertEqual(self.call("c", "test", "./other", "10", "add.hume")[0], 1)

    @NEEDS_COMPILER
    def test_the_controller_alone_compiles_without_a_warning(self):
        self.assertEqual(self.call("c", "out", "add.hume")[0], 0)
        words = "cc -std=c99 -pedantic -Wall -Wextra -Wconversion -Wshadow -Werror -c -o add.o add.c".split()
        done = subprocess.run(words, cwd=os.path.join(self.room, "out"), capture_output=True, text=True)
        self.assertEqual((done.returncode, done.stderr), (0, ""))


if __name__ == "__main__":
    unittest.main()
