"""Runs one suite: the test cases of a module of tests/, named as `cli.exit_statuses`.

    python3 tests/lib/suite.py SUITE [-k PATTERN]..

What failed is printed whole. The last line counts tests and runs, and what was left out and for
want of what. The status is 0 where all passed, 1 where a test failed, and 77 where no test was run,
since something is missing that each of them needs.
"""

import argparse
import importlib
import sys
import unittest
from collections import Counter
from pathlib import Path

sys.dont_write_bytecode = True
sys.path.insert(0, str(Path(__file__).resolve().parents[2]))
from tests.lib.program import runs_made

FAILED, SKIPPED = 1, 77


def loaded(name, patterns):
    """The tests of a suite that have one of these patterns in their names, or all."""
    loader = unittest.TestLoader()
    if patterns:
        loader.testNamePatterns = [it if "*" in it else f"*{it}*" for it in patterns]
    return loader.loadTestsFromModule(importlib.import_module(f"tests.{name}"))


def left_out(result):
    """The tests that were skipped, wholly or in some of their cases, and why."""
    return {getattr(it, "test_case", it).id(): reason for it, reason in result.skipped}


def summary(name, result):
    """The line that says what was done."""
    skipped = left_out(result)
    line = f"{name}: {result.testsRun - len(skipped)} tests, {runs_made()} runs"
    for reason, many in Counter(skipped.values()).items():
        line += f", {many} left out for want of {reason}"
    return line


def main():
    asked = argparse.ArgumentParser(description=__doc__.partition("\n")[0])
    asked.add_argument("suite")
    asked.add_argument("-k", dest="patterns", metavar="PATTERN", action="append", default=[])
    asked = asked.parse_args()
    result = unittest.TestResult()
    loaded(asked.suite, asked.patterns).run(result)
    for test, said in [*result.failures, *result.errors]:
        print(f"FAILED {test}\n{said}")
    print(summary(asked.suite, result), flush=True)
    if not result.wasSuccessful():
        sys.exit(FAILED)
    sys.exit(SKIPPED if result.testsRun and result.testsRun == len(left_out(result)) else 0)


if __name__ == "__main__":
    main()
