"""Runs all tests of the module for Python: in_python.py FULL CLASSES PROGRAM.. The folders have the
tables in version 1 and in version 2, and the programs are examples that examples.py runs too."""

import os
import subprocess
import sys

HERE = os.path.dirname(os.path.abspath(__file__))
# Those that run over tables of either version, and those that run over one.
OVER_EITHER = ("calls", "plays", "refusals", "damage")
OVER_CLASSES = ("typed", "paths", "closing", "pickles")


def test(name, *arguments):
    done = subprocess.run([sys.executable, "-B", f"{HERE}/{name}.py", *arguments])
    if done.returncode:
        sys.exit(f"{name}.py {' '.join(arguments)}: ended with status {done.returncode}")


def main():
    full, classes, *programs = sys.argv[1:]
    test("constants")
    for name in OVER_EITHER:
        for folder in (full, classes):
            test(name, folder)
    for name in OVER_CLASSES:
        test(name, classes)
    test("examples", classes, *programs)


main()
