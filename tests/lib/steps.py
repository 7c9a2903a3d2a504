"""How a suite of ./check ends, and which tools of the machine it can do without.

A suite ends with status 0 where all of its tests passed, with 1 where one failed, and with 77 where
it could make none. The last line that it prints has a fixed form, which ./check reads: how many
tests and runs it made, and how many tests it left out for want of what, such as

    cli.table_files: 12 tests, 20514 runs, 2 left out for want of a C compiler (CC=cc)
"""

import importlib.util
import os
import re
import shutil
from pathlib import Path
from typing import NamedTuple, Optional

ROOT = str(Path(__file__).resolve().parents[2])
PASSED, FAILED, SKIPPED = 0, 1, 77


class Ended(NamedTuple):
    """What the last line of a suite says."""

    name: str
    tests: int
    runs: int
    # What was left out for want of what, as the line says it, or an empty text.
    left_out: str


def read_end(line: str) -> Optional[Ended]:
    """What such a line says, or None where it is another line."""
    part = r"[1-9]\d* left out for want of .+?"
    found = re.fullmatch(rf"([\w.]+): (\d+) tests, (\d+) runs((?:, {part})*)", line)
    if not found:
        return None
    return Ended(found[1], int(found[2]), int(found[3]), found[4].removeprefix(", "))


# ---- tools


def is_there(*commands: str) -> bool:
    return all(map(shutil.which, commands))


def words_of(variable: str, default: str) -> list[str]:
    """The command that a variable of the environment names, as `make` reads it."""
    return (os.environ.get(variable) or default).split()


ARCHIVER = words_of("AR", "ar")
C_COMPILER = words_of("CC", "cc")
CPP_COMPILER = words_of("CXX", "c++")
RUST_COMPILER = words_of("RUSTC", "rustc")
NO_C_COMPILER = f"a C compiler (CC={' '.join(C_COMPILER)})"
NO_CPP_COMPILER = f"a C++ compiler (CXX={' '.join(CPP_COMPILER)})"
NO_TRIALS = "morris_trials, which rt ci builds"
NO_PIP = None if importlib.util.find_spec("ensurepip") else "pip for Python (ensurepip)"


def missing(*commands: str) -> Optional[str]:
    """The first of these commands that isn't there, or None."""
    return next((it for it in commands if not is_there(it)), None)


def without_c() -> Optional[str]:
    """What is missing to compile C by `make`, or None."""
    return missing("make", ARCHIVER[0]) if is_there(C_COMPILER[0]) else NO_C_COMPILER
