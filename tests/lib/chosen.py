"""Which program the steps of ./check run: the one that MORRIS_PROGRAM names; or the one that `rt
ci` built here, where no source is newer; or the released one, where release/ is that of these
sources, which the launcher unpacks. With MORRIS_FROM_PROOFS=1 it is the one that was built here."""

import functools
import os
import subprocess
import sys
from pathlib import Path
from typing import NoReturn

from tests.lib.steps import ROOT

BUILT = f"{ROOT}/crates/morris/out/morris"
TRIALS = f"{ROOT}/crates/morris_trials/out/morris_trials"
# No answer of the launcher takes so many seconds.
MOST_SECONDS = 60


def refuse(why: str) -> NoReturn:
    """Ends with status 2: nothing was tried."""
    print(why, file=sys.stderr)
    sys.exit(2)


def is_from_proofs() -> bool:
    """Whether only what was built here will do, as in the gate."""
    return os.environ.get("MORRIS_FROM_PROOFS") == "1"


def sources(*words: str) -> str:
    """The checksum of the sources, or, by the word `names`, their names."""
    command = ["sh", f"{ROOT}/launcher/sources", *words]
    return subprocess.run(command, stdout=subprocess.PIPE, check=True, text=True).stdout.strip()


def is_of_these_sources(path: str) -> bool:
    """Whether a program is there that was built here from the sources as they are now: by what was
    noted of it, or else, since nobody notes it of an `rt ci` that is called by hand, by times."""
    if not os.access(path, os.X_OK):
        return False
    if not subprocess.run(["sh", f"{ROOT}/launcher/sources", "holds", path, sources()]).returncode:
        return True
    built = os.path.getmtime(path)
    return all(os.path.getmtime(f"{ROOT}/{it}") < built for it in sources("names").splitlines())


def is_built_here(path: str) -> bool:
    """Whether `rt ci` built this program here. The gate has just run it."""
    return os.access(path, os.X_OK) if is_from_proofs() else is_of_these_sources(path)


def told() -> dict[str, str]:
    """What release/BUILT says, by name."""
    path = Path(ROOT, "release/BUILT")
    lines = path.read_text(encoding="utf-8").splitlines() if path.exists() else []
    return dict(line.split(" ", 1) for line in lines)


def is_released() -> bool:
    """Whether release/ is that of these sources."""
    return bool(told()) and told()["sources"] == sources()


def released() -> str:
    """The released program, where the launcher has unpacked it."""
    words = [f"{ROOT}/morris", "--released", "--version"]
    done = subprocess.run(words, capture_output=True, text=True, timeout=MOST_SECONDS)
    if done.returncode:
        refuse(f"the released program doesn't run here: {done.stderr.strip()}")
    cache = os.environ.get("XDG_CACHE_HOME") or os.path.expanduser("~/.cache")
    for folder in (f"{ROOT}/crates/morris/out/released", f"{cache}/morris"):
        path = f"{folder}/{told()['program']}/morris"
        if os.access(path, os.X_OK):
            return path
    refuse("the launcher finds no place in which to keep the released program: unpack it from the "
           "archive in release/, and name it by MORRIS_PROGRAM=PATH")


@functools.cache
def program() -> str:
    """The program that is tried, by its absolute path."""
    named = os.environ.get("MORRIS_PROGRAM")
    if named:
        if not os.path.isfile(named) or not os.access(named, os.X_OK):
            refuse(f"MORRIS_PROGRAM={named}: there is no program")
        return os.path.abspath(named)
    if is_built_here(BUILT):
        return BUILT
    if is_from_proofs():
        refuse(f"{BUILT} isn't there: rt ci builds it")
    if is_released():
        return released()
    refuse("no program of these sources is released or built here: build one by ./morris "
           "--from-proofs or rt ci, or name one by MORRIS_PROGRAM=PATH")
