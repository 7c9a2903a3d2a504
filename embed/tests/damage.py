"""Files that are damaged, or that lie, through the module for Python: damage.py FOLDER, which has
the tables of Grid and Nine 3-3."""

import errno
import hashlib
import os
import sys
import tempfile

from expect import morris, refused
from morris import Kind, Status, Value

# Positions of 3-3 and 4-3, and one of 4-4 whose second move takes a stone.
TEXT, OTHER_PAIR, CAPTURES = "XXXOO.O..", "XXXXOO.O.", "XX.OOXOXO"
DIGEST = 32


def read(name):
    with open(f"{sys.argv[1]}/{name}", "rb") as file:
        return file.read()


def with_digest(body):
    return body + hashlib.sha256(body).digest()


def changed(file, place, *bytes_there):
    """With other bytes at a place, and a right digest."""
    body = bytearray(file[:-DIGEST])
    body[place : place + len(bytes_there)] = bytes_there
    return with_digest(bytes(body))


def of_file(given, look):
    """Opens a folder in which the file of Grid 3-3 has these bytes, and that of 4-3 is whole."""
    with tempfile.TemporaryDirectory() as room:
        for name, content in (("grid-3-3.nmmt", given), ("grid-4-3.nmmt", other)):
            with open(f"{room}/{name}", "wb") as file:
                file.write(content)
        with morris.open_tables(room, "grid") as tables:
            return look(tables, f"{room}/grid-3-3.nmmt")


def asks(tables):
    """All that is asked of tables about a position of 3-3, and about all files."""
    calls = (tables.value, tables.get, tables.moves, tables.best, tables.choose, tables.line)
    return [*(lambda it=it: it(TEXT) for it in calls), tables.check_digests]


def is_damaged(given, status):
    """All calls that need the file are refused for this, and name it; others answer."""

    def look(tables, path):
        for call in asks(tables):
            fault = refused(status, call)
            assert (fault.pair, fault.path) == ((3, 3), path)
            assert str(fault) == f"{path}: {morris.Fault(status)}" == f"{path}: {fault.reason}"
        assert tables.value(OTHER_PAIR) and tables.pairs == [(3, 3), (4, 3)]

    of_file(given, look)


def is_refused(make, number):
    """What the system refuses to open under the name of 3-3 is that pair's fault alone."""
    with tempfile.TemporaryDirectory() as room:
        path = f"{room}/grid-3-3.nmmt"
        make(path)
        with open(f"{room}/grid-4-3.nmmt", "wb") as file:
            file.write(other)
        with morris.open_tables(room, "grid") as tables:
            for call in asks(tables):
                fault = refused(Status.SYSTEM, call)
                assert isinstance(fault, OSError) and fault.pair == (3, 3)
                assert (fault.errno, fault.filename, fault.path) == (number, path, path)
                assert str(fault) == f"{path}: {os.strerror(number)}"
            assert tables.value(OTHER_PAIR)


def is_of_a_move(folder):
    """A move leads to a file that is missing, and then to one that is damaged."""
    with tempfile.TemporaryDirectory() as room:
        os.symlink(os.path.abspath(f"{folder}/grid-4-4.nmmt"), f"{room}/grid-4-4.nmmt")
        with morris.open_tables(room, "grid") as tables:
            for call in (tables.moves, tables.best, tables.choose):
                assert refused(Status.NO_TABLE, lambda: call(CAPTURES)).pair == (4, 3)
            assert tables.value(CAPTURES) and tables.get(OTHER_PAIR) is None
        with open(f"{room}/grid-4-3.nmmt", "wb"):
            pass
        with morris.open_tables(room, "grid") as tables:
            for call in (tables.moves, tables.best, tables.choose):
                assert refused(Status.SHORT, lambda: call(CAPTURES)).pair == (4, 3)


file, other = read("grid-3-3.nmmt"), read("grid-4-3.nmmt")
assert of_file(file, lambda tables, path: tables.check_digests()) is None
for length in (0, 1, 15, 16, len(file) - 1):
    is_damaged(file[:length], Status.SHORT)
is_damaged(file + b"\0", Status.TRAILING)
is_damaged(bytes(len(file)), Status.MAGIC)
is_damaged(b"<!doctype html><title>404</title>", Status.MAGIC)
is_damaged(changed(file, 0, ord("M")), Status.MAGIC)
is_damaged(changed(file, 4, 3), Status.VERSION)
is_damaged(changed(file, 5, 7), Status.OTHER_BOARD)
is_damaged(read("nine-3-3.nmmt"), Status.OTHER_BOARD)
is_damaged(changed(file, 6, 3, 4), Status.COUNTS)
is_damaged(changed(file, 6, 9, 3), Status.CROWDED)
is_damaged(changed(file, 15, file[15] ^ 1), Status.ENTRIES)
is_damaged(other, Status.OTHER_PAIR)
is_refused(os.mkdir, errno.EINVAL)
is_refused(os.mkfifo, errno.EINVAL)
is_refused(lambda path: os.symlink(path, path), errno.ELOOP)
is_of_a_move(sys.argv[1])
# Damage of a code is found where digests are checked, and only there.
body = bytearray(file)
body[16:18] = 0, 4
of_file(bytes(body), lambda tables, path: refused(Status.DIGEST, tables.check_digests))
# A file that lies with a right digest is believed: `morris verify` is for that.
lies = with_digest(file[:16] + b"\0\x06" * ((len(file) - 16 - DIGEST) // 2))
assert of_file(lies, lambda tables, path: (tables.check_digests(), tables.value(TEXT))) == (
    None, Value(Kind.WON, 5)
)
assert of_file(file, lambda tables, path: tables.value(TEXT)) == Value(Kind.WON, 3)
print("all right")
