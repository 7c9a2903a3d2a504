"""Folders that the module for Python opens or refuses: paths.py FOLDER, which has the tables of
Grid. A program that waits is killed."""

import errno
import os
import shutil
import sys
import tempfile
from pathlib import Path

from expect import MOST_SECONDS, morris, raised, raises, run_python

TEXT = "XXXOOO..."
NAME = "grid-3-3.nmmt"
OPENS = f"""
import signal
signal.alarm({MOST_SECONDS // 3})
try:
    print(morris.open_tables(sys.argv[1], "grid").value("{TEXT}"))
except OSError as error:
    print(type(error).__name__, error.errno, error.filename == sys.argv[1] + "/grid-3-3.nmmt")
"""


def opened(folder):
    return morris.open_tables(folder, "grid")


def what_stands_there(full):
    """What has the name of a table file is opened where it is a file, and waited for never."""
    no_file = f"OSError {errno.EINVAL} True\n"
    value = f"{opened(full).value(TEXT)}\n"
    with tempfile.TemporaryDirectory() as room:
        os.mkfifo(f"{room}/fifo")
        for make, said in (
            (os.mkfifo, no_file),
            (os.mkdir, no_file),
            (lambda name: os.symlink("../fifo", name), no_file),
            (lambda name: os.symlink("../../", name), no_file),
            (lambda name: os.symlink("/dev/zero", name), no_file),
            (lambda name: os.symlink(os.path.abspath(f"{full}/{NAME}"), name), value),
            (lambda name: shutil.copy(f"{full}/{NAME}", name), value),
        ):
            os.mkdir(f"{room}/it")
            make(f"{room}/it/{NAME}")
            assert run_python(OPENS, f"{room}/it") == said, make
            (os.rmdir if make is os.mkdir else os.remove)(f"{room}/it/{NAME}")
            os.rmdir(f"{room}/it")


def names_of_folders(full):
    value = opened(full).value(TEXT)
    with tempfile.TemporaryDirectory() as room:
        for name in ("with space", "%s%n", "\u00e4\u26f5", os.fsdecode(b"\xff\xfe"), "new\nline"):
            folder = os.path.join(room, name)
            os.mkdir(folder)
            shutil.copy(f"{full}/{NAME}", folder)
            for path in (folder, Path(folder), os.fsencode(folder), folder + "/"):
                with opened(path) as tables:
                    assert tables.value(TEXT) == value and tables.pairs == [(3, 3)]
            # C reads a path up to its first NUL byte.
            for path in (folder + "\0", os.fsencode(folder) + b"\0more", "\0" + folder):
                raises(ValueError, lambda: opened(path))
        for path in (room, Path(room), room + "/none", os.fsencode(room), ""):
            error = raises(FileNotFoundError, lambda: opened(path))
            assert error.errno == errno.ENOENT and error.filename == os.fspath(path), error
        raises(NotADirectoryError, lambda: opened(f"{folder}/{NAME}"))
        assert raised(lambda: opened("x" * 5000)).errno == errno.ENAMETOOLONG
        # Of several folders the one that is refused is named.
        error = raises(NotADirectoryError, lambda: opened(f"{folder}:{folder}/{NAME}:/nowhere"))
        assert error.filename == f"{folder}/{NAME}", error
    for path in (None, 7, 7.0, [full], (full,), {full}, bytearray(b"x"), object()):
        raises(TypeError, lambda: opened(path))


def replaced(full):
    """Files that are replaced by renaming, or taken away, leave open tables as they are."""
    with tempfile.TemporaryDirectory() as room:
        shutil.copy(f"{full}/{NAME}", room)
        with opened(room) as tables:
            value = tables.value(TEXT)
            Path(room, "new").write_bytes(b"no table")
            os.replace(f"{room}/new", f"{room}/{NAME}")
            assert tables.value(TEXT) == value
            os.remove(f"{room}/{NAME}")
            assert tables.value(TEXT) == value
        raises(FileNotFoundError, lambda: opened(room))


def pairs(full):
    of_grid = [(3, 3), (4, 3), (4, 4), (5, 3), (5, 4), (6, 3)]
    with opened(full) as tables:
        assert tables.pairs == of_grid
        tables.pairs.clear()
        assert tables.pairs == of_grid
    with tempfile.TemporaryDirectory() as room:
        for name in ("grid-5-3.nmmt", NAME):
            shutil.copy(f"{full}/{name}", room)
        for name, given in (("grid-4-4.nmmt", b""), ("grid-9-9.nmmt", b"no table, but a text")):
            Path(room, name).write_bytes(given)
        # A name is a pair's, whatever the file holds; the board has no pair 9-9.
        assert opened(room).pairs == [(3, 3), (4, 4), (5, 3)]


def libraries(full):
    """The library that is named, one that isn't there, and one that is another."""
    named = os.environ["MORRIS_LIBRARY"]
    assert morris.library() == (named, "which MORRIS_LIBRARY names")
    code = OPENS.replace(', error.filename == sys.argv[1] + "/grid-3-3.nmmt"', "")
    for name in (f"{full}/none.so", f"{full}/{NAME}", "libc.so.6"):
        assert run_python(code, full, MORRIS_LIBRARY=name) == "OSError None\n", name


for part in (what_stands_there, names_of_folders, replaced, pairs, libraries):
    part(sys.argv[1])
print("all right")
