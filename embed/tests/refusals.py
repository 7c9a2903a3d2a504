"""What the module for Python refuses as a position, before C is called: refusals.py FOLDER, which
has the tables of Grid and of Nine up to 4-4."""

import enum
import sys

from expect import morris, raises, refused
from morris import Status

OWN, OTHER = 0b000_000_111, 0b000_111_000
TEXT = "XXXOOO..."


class Nobody:
    """Stands in the place of the library."""

    def __getattr__(self, name):
        return self.called

    def called(self, *arguments):
        raise AssertionError(f"C is called with {arguments}")


class Looks:
    """Looks like a mask."""

    def __index__(self):
        return OWN


class Points(enum.IntFlag):
    ROW = OWN


def wrong_types():
    yield from (None, 7, 7.0, OWN << 32 | OTHER, TEXT.encode(), bytearray(TEXT, "ascii"), object())
    two = (OWN, OTHER)
    yield from (set(two), frozenset(two), dict.fromkeys(two), dict.fromkeys(two).keys(), iter(two))
    yield from (map(int, two), range(OWN, OTHER + 1, OTHER - OWN), memoryview(bytes(two)))
    for mask in (float(OWN), str(OWN), b"7", None, True, False, Looks(), (OWN,), [OWN], 7j):
        yield from ((mask, OTHER), (OWN, mask), [mask, OTHER], [OWN, mask])


def wrong_values(points, text):
    yield from ((), [], (OWN,), [OWN], (OWN, OTHER, 0), [OWN, OTHER, 0], (OWN, OTHER) * 12)
    for bit in (points, points + 1, 31, 32, 33, 63, 64, 65, 10_000):
        for mask in (OWN + 2**bit, OWN - 2**bit, 2**bit, -(2**bit)):
            yield from ((mask, OTHER), (OTHER, mask), [mask, OTHER], [OTHER, mask])
    yield from ((-1, OTHER), (OWN, -1), (-OWN, OTHER))
    yield from ("", text[:-1], text[1:], text + ".", text + "\n", text + "\0", text * 2)
    for wrong in "xo0Q _-*\n\0\u0425\u041e\uff38\ud800":
        yield from (wrong + text[1:], text[:4] + wrong + text[5:], text[:-1] + wrong)
    yield "X" * 10**6


def check_positions(tables, points, text):
    calls = (tables.value, tables.moves, tables.best)
    library, morris._loaded = morris._loaded, Nobody()
    for call in calls:
        for position in wrong_types():
            raises(TypeError, lambda: call(position))
        for position in wrong_values(points, text):
            assert len(str(raises(ValueError, lambda: call(position)))) < 200
    morris._loaded = library
    whole = 2**points - 1
    for call in calls:
        answer = call(text)
        assert call((OWN, OTHER)) == call([OWN, OTHER]) == call((Points.ROW, OTHER)) == answer
        for masks in ((OWN, OWN | OTHER), (whole, whole)):
            refused(Status.OVERLAP, lambda: call(masks))
        for masks in ((0, OTHER), (1, OTHER), (OWN, 0b11_000)):
            refused(Status.STONES, lambda: call(masks))


for board, points in (("grid", 9), ("nine", 24)):
    with morris.open_tables(sys.argv[1], board) as tables:
        check_positions(tables, points, TEXT + "." * (points - 9))
        if board == "nine":
            refused(Status.NO_TABLE, lambda: tables.value((OWN | 0b11 << 20, OTHER)))
for board in ("Nine", "", "nine ", "0", None, 0, 1, 2**32, True):
    said = str(raises(ValueError, lambda: morris.open_tables(sys.argv[1], board)))
    assert "nine" in said and "grid" in said
print("all right")
