"""Table files that suites share: folders of tables, built once, files by the rules alone, and files
that are damaged."""

import fcntl
import functools
import os
import shutil
import tempfile
from pathlib import Path

from tests.lib.program import DIGESTS, run
from tests.lib.rules import file_of, name_of, solved

# The digest that another program computed of a file of 3-3, or of 4-3, in which each code is 0.
DRAWS = {
    (3, 3): "b3140cd56d34cd5aa55c0d2075725d4a96fe2279e4d7647aec48d3d305672d2d",
    (4, 3): "284c9994d578d16b48a7c77367c73d0c4399c0147b24cc60d12ff410f0a48fea",
}

# Where folders of tables are shared by several suites: `./check` makes the folder.
SHARED = "MORRIS_SHARED_TABLES"
_own = None


def _folder():
    """The folder in which tables are built: one for all suites, or for this process alone."""
    global _own
    if os.environ.get(SHARED):
        return Path(os.environ[SHARED])
    if _own is None:
        _own = tempfile.TemporaryDirectory(prefix="morris-tables-")
    return Path(_own.name)


def build_into(folder, board, pair, classes=False, *words):
    """Builds a pair and all below it into a folder."""
    how = ["--classes"] * classes + ["--blocks", "64", *words]
    done = run(["build", board, pair, "--into", str(folder), *how])
    if done.status or done.errors:
        raise AssertionError(f"build {board} {pair} {how}: answered {done}")


def tables(board, pair, classes=False):
    """A folder with the tables of a pair and of all below it, built once and shared: nobody
    changes it. `own_tables` gives a folder that may be changed."""
    folder = _folder() / f"{board}-{pair}{'-classes' * classes}"
    with open(f"{folder}.lock", "w", encoding="ascii") as lock:
        fcntl.flock(lock, fcntl.LOCK_EX)
        if not folder.is_dir():
            part = folder.with_name(f"{folder.name}.part")
            shutil.rmtree(part, ignore_errors=True)
            build_into(part, board, pair, classes)
            (part / ".morris.lock").unlink()
            part.rename(folder)
    return str(folder)


def own_tables(to, board, pair, classes=False):
    """The same in a folder of the test's own."""
    shutil.copytree(tables(board, pair, classes), to, dirs_exist_ok=True)
    return str(to)


# ---- files by the rules


@functools.cache
def grid_files():
    """The table files of the board grid by name, as the rules alone give them: "4-3" is the file of
    that pair by positions, "4-3c" the one by classes, and "4-3d" (or "3-3d") a file by positions
    that calls each of them a draw."""
    listed = solved().listed
    files = {_file_name(*it): file_of(*it, codes) for it, codes in listed.items()}
    digests = {_file_name(*it): digest for it, digest in DIGESTS.items()}
    for pair, digest in DRAWS.items():
        name = f"{name_of(pair)}d"
        files[name], digests[name] = file_of(pair, 1, [0] * len(listed[pair, 1])), digest
    for name, digest in digests.items():
        if files[name][-32:].hex() != digest:
            raise AssertionError(f"the rules give another file {name} than the other program")
    return files


def _file_name(pair, version):
    return name_of(pair) + "c" * (version - 1)


# ---- damage


def replaced(file, place, content):
    """A file with other bytes from a place on."""
    return file[:place] + content + file[place + len(content) :]


def damaged(file, board="grid"):
    """Files of 3-3 with a header, or a length, that no table file of this board has, each with the
    fault of the first step of reading that refuses it."""
    other = b"\x00" if board == "grid" else b"\x01"
    yield b"", "15: file is too short"
    yield file[:10], "15: file is too short"
    yield file[:-1], "15: file is too short"
    yield file + b"\x00", "21: bytes after the table"
    yield b"X" + file[1:], "16: not a table file"
    yield replaced(file, 4, b"\x03"), "17: unknown version"
    yield replaced(file, 5, other), "18: another board"
    yield replaced(file, 6, b"\x03\x04"), "4: bad counts"
    yield replaced(file, 8, b"\x01"), "19: wrong number of entries"
    yield replaced(file, 15, bytes([file[15] ^ 1])), "19: wrong number of entries"
    if board == "grid":
        yield replaced(file, 6, b"\x09\x09"), "5: more stones than points"
