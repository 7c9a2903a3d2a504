"""What the suites share that try the library of embed/: commands, tables, positions, and what is
compiled once for all tests of a suite."""

import atexit
import functools
import os
import random
import shutil
import subprocess
import sys
import tempfile
import unittest

from gate import packing
from tests.embed.static_library import NO_LIBRARY, core, shared_library, without_static
from tests.lib.case import Case
from tests.lib.program import MORRIS, ROOT, count
from tests.lib.rules import GRID, NINE, positions, text_of
from tests.lib.steps import CPP_COMPILER, NO_CPP_COMPILER, RUST_COMPILER, is_there, missing
from tests.lib.tables import own_tables, tables

EMBED = f"{ROOT}/embed"
# No call takes so many seconds.
MOST_SECONDS = 600
# How many positions of the usual board are asked for, by how many stones of the players, of whom
# one with two stones has lost, and the seed by which they are made up.
ASKED, SEED = 500, 20261125
STONES = ((3, 3), (4, 3), (3, 4), (4, 4), (2, 3), (2, 4))


def run(words, seconds=MOST_SECONDS, **how):
    """What a command prints. It has to end with status 0."""
    count()
    how = {"stdout": subprocess.PIPE, "stderr": subprocess.PIPE, "text": True, **how}
    done = subprocess.run(words, timeout=seconds, **how)
    if done.returncode:
        said = f"{done.stdout or ''}{done.stderr or ''}"
        raise AssertionError(f"{' '.join(words)}: ended with status {done.returncode}\n{said}")
    return done.stdout


def compare(what, found, expected):
    """Fails with the first line that isn't the expected one."""
    if found == expected:
        return
    for place, (a, b) in enumerate(zip(found.splitlines(), expected.splitlines())):
        if a != b:
            raise AssertionError(f"{what}, line {place + 1}: {a!r}, and not {b!r}")
    raise AssertionError(f"{what}: {len(found)} characters, and not {len(expected)}")


def bare(**more):
    """An environment that knows neither the kit nor this clone, but the compilers."""
    tools = {it: os.environ[it] for it in ("AR", "CC", "CXX", "RUSTC") if it in os.environ}
    return {"PATH": "/usr/bin:/bin", "HOME": "/nowhere", "LANG": "C.UTF-8", **tools, **more}


# ---- what is compiled


def need(want):
    """Leaves out the test that asks for it where this is missing, unless nothing is."""
    if want:
        raise unittest.SkipTest(want)


def new_room():
    """A folder that is gone when the process ends."""
    folder = tempfile.mkdtemp(prefix="morris-embed-")
    atexit.register(shutil.rmtree, folder, ignore_errors=True)
    return folder


@functools.cache
def out():
    """The folder of what is compiled."""
    return f"{new_room()}/out"


def make(*words, to=None, **how):
    """What `make` prints that compiles over the proved static library into a folder."""
    fixed = [f"OUT={to or out()}", f"CORE={core()}", f"PROGRAM={MORRIS}"]
    fixed.append("WERROR=-Werror -pedantic")
    return run(["make", "-s", "-C", EMBED, *fixed, *words], **how)


@functools.cache
def library():
    """The shared library, which the module for Python takes from then on."""
    found = shared_library(out())
    need(None if found else NO_LIBRARY)
    os.environ["MORRIS_LIBRARY"] = found
    return found


@functools.cache
def archive():
    """The archive that `make dist` makes."""
    need(without_static())
    return packing.make_archive(out(), f"CORE={core()}", f"PROGRAM={MORRIS}")


class EmbedCase(Case):
    """A test of the library, which leaves nothing beside the module for Python."""

    def setUp(self):
        os.environ["PYTHONDONTWRITEBYTECODE"] = "1"
        if EMBED not in sys.path:
            sys.path.insert(0, EMBED)
        library()


def lacks(language):
    """What is missing to compile a caller, or None."""
    others = {"cpp": None if is_there(CPP_COMPILER[0]) else NO_CPP_COMPILER}
    return without_static() or {**others, "rust": missing(RUST_COMPILER[0])}.get(language)


# ---- positions and tables


@functools.cache
def folders():
    """Two folders with the tables of Nine up to 4-4 and of all pairs of Grid, by positions and by
    classes."""
    found = [new_room(), new_room()]
    for classes, folder in enumerate(found):
        for pair in ("5-4", "6-3"):
            own_tables(folder, "grid", pair, bool(classes))
        links = {"copy_function": os.link, "dirs_exist_ok": True}
        shutil.copytree(tables("nine", "4-4", bool(classes)), folder, **links)
    return found


@functools.cache
def made_up(many=ASKED, stones=STONES, seed=SEED):
    """Positions of the usual board with so many stones of the players, each one once."""
    chance, found = random.Random(seed), {}
    while len(found) < many:
        own, other = chance.choice(stones)
        points = chance.sample(NINE.points, own + other)
        found[text_of((set(points[:own]), set(points[own:])), NINE)] = True
    return list(found)


@functools.cache
def all_of_grid(pair=(3, 3)):
    return [text_of(it, GRID) for it in positions(pair)]
