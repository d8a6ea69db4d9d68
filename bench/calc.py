#!/usr/bin/env python3
"""Times `hume calc` with scripts that unfold one call after the other in one rule: the least of three calls, and how many parts the last
result has.

usage: bench/calc.py [TOOL]

TOOL is the program of dist/ by default."""
import importlib.machinery
import importlib.util
import os
import subprocess
import sys
import tempfile
import time

sys.dont_write_bytecode = True
TOP = os.path.dirname(os.path.dirname(os.path.abspath(__file__)))
SCRIPTS = (1000, 250), (7181, 73)


def large_rules():
    """The sources of `.ci/large-rules`."""
    loader = importlib.machinery.SourceFileLoader("large_rules", os.path.join(TOP, ".ci", "large-rules"))
    module = importlib.util.module_from_spec(importlib.util.spec_from_loader("large_rules", loader))
    loader.exec_module(module)
    return module


def seconds(tool, text, steps):
    with tempfile.TemporaryDirectory() as folder:
        for name, content in {"net": text, "script": "unfold b 1\n" * steps, "i": ""}.items():
            with open(os.path.join(folder, name), "w", encoding="ascii") as file:
                file.write(content)
        begun = time.perf_counter()
        subprocess.run([tool, "calc", "0", "1", "net", "script", "i", "o"], cwd=folder, stdout=subprocess.DEVNULL, check=True)
        return time.perf_counter() - begun


def main(words):
    tool = os.path.abspath(words[0]) if words else os.path.join(TOP, "dist", "hume-x86_64-linux")
    rules = large_rules()
    print("| leaves of the function | steps | parts at the end | s, least of 3 |\n|---|---|---|---|")
    for leaves, steps in SCRIPTS:
        text = rules.source(leaves, steps, "n")
        took = min(seconds(tool, text, steps) for _ in range(3))
        print(f"| {leaves:,} | {steps} | {rules.parts(leaves, steps):,} | {took:.2f} |")


if __name__ == "__main__":
    main(sys.argv[1:])
