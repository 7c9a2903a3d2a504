"""The proved static library of crates/morris_c, on which what stands in embed/ is built: as the kit
builds it over what `rt ci` left, or out of the archive in release/."""

import fcntl
import functools
import os
import shutil
import subprocess
from pathlib import Path

from gate.packing import is_of, mark, sources
from launcher.proving import crates_below, libraries
from tests.lib.chosen import BUILT, is_from_proofs, is_released
from tests.lib.steps import ARCHIVER, ROOT, is_there, without_c

EMBED, CRATES = f"{ROOT}/embed", f"{ROOT}/crates"
CRATE = "morris_c"
MADE = f"{CRATES}/{CRATE}/out/lib{CRATE}.a"
# What core.sh takes to unpack the library.
UNPACKING = ("gzip", "tar", "sha256sum", ARCHIVER[0])
NO_LIBRARY = "a library of these sources, built here or released"
# No build takes so many seconds.
MOST_SECONDS = 3600


# ---- as the kit builds it


def build():
    """Builds the static library over what `rt ci` left of the crates below it, by the compiler as
    `rt ci` calls it for a program, since `rt lib` would prove all of them once more. It proves the
    crate, builds only what is proved, and notes that it is of these sources."""
    stamp = sources(ROOT)
    if not is_of(BUILT, stamp):
        raise AssertionError("the crates aren't as the gate proved them: .ci/run proves them anew")
    Path(MADE).unlink(missing_ok=True)
    kit = os.path.dirname(os.path.dirname(os.path.realpath(shutil.which("rt"))))
    named, crates = libraries(), crates_below(CRATE)
    words = [f"{kit}/bin/rattle", "build", "--crate-name", CRATE, "src/lib.rt"]
    for name in ["std", *(it for it in named[CRATE] if it not in named)]:
        words += ["--extern", f"{name}={kit}/rlibs/{name}.rlib"]
    words += ["-L", f"dependency={kit}/rlibs"]
    for name in (it for it in named[CRATE] if it in named):
        words += ["--extern", f"{name}={CRATES}/{name}/out/rlib/{name}.rlib"]
    for name in crates:
        words += ["-L", f"dependency={CRATES}/{name}/out/rlib"]
    words += ["--antt-project", f"{kit}/rattle/logic/antt-project.json"]
    words += ["--logic-built", f"{kit}/logic_built", "--jobs", "2", "--links", f"{CRATE}="]
    words += ["--crate-type", "staticlib", "--toolchain", f"{kit}/toolchain", "--backend", "llvm"]
    words += ["-o", f"out/lib{CRATE}.a"]
    how = {"stdout": subprocess.PIPE, "stderr": subprocess.STDOUT, "text": True}
    done = subprocess.run(words, cwd=f"{CRATES}/{CRATE}", timeout=MOST_SECONDS, check=False, **how)
    verdict = [it for it in done.stdout.splitlines() if it.startswith("logic=")][-1:]
    if done.returncode or not verdict or not verdict[0].startswith("logic=proved "):
        raise AssertionError(f"the static library isn't proved: {done.stdout}")
    mark(MADE, stamp)


# ---- the one that is at hand


def is_made_since():
    """Whether the library was made after `rt ci` built the program."""
    both = os.path.exists(MADE) and os.path.exists(BUILT)
    return both and os.path.getmtime(MADE) > os.path.getmtime(BUILT)


@functools.cache
def core():
    """The static library, or None where none of these sources can be had without a proof. In the
    gate it is the one that the kit builds. One process makes it, and others wait for it."""
    os.makedirs(os.path.dirname(MADE), exist_ok=True)
    with open(f"{os.path.dirname(MADE)}/check.lock", "w", encoding="ascii") as lock:
        fcntl.flock(lock, fcntl.LOCK_EX)
        if is_from_proofs():
            if not is_made_since():
                build()
        elif not is_of(MADE, sources(ROOT)):
            if not is_released() or not is_there(*UNPACKING):
                return None
            subprocess.run([f"{EMBED}/packaging/core.sh"], check=True, timeout=MOST_SECONDS)
    return MADE


def without_static():
    """What is missing to compile something over the static library, or None."""
    return without_c() or (None if core() else NO_LIBRARY)


def shared_library(out):
    """A shared library in a folder, compiled over the static one, or where nothing compiles it the
    released one; or None."""
    made = f"{out}/libmorris.so"
    if not without_static():
        words = ["make", "-s", "-C", EMBED, f"OUT={out}", "WERROR=-Werror", f"CORE={core()}", made]
        subprocess.run(words, check=True, timeout=MOST_SECONDS)
        return made
    done = subprocess.run(["sh", f"{ROOT}/launcher/library"], stdout=subprocess.PIPE, text=True)
    if done.returncode:
        return None
    how, path = done.stdout.splitlines()
    os.makedirs(out, exist_ok=True)
    shutil.copy(path, made)
    if how == "unkept":
        os.remove(path)
    return made
