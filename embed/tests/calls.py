"""Calls from Python over the files of Grid: calls.py FOLDER. The moves are compared with the rules,
which are written down here once more, and the values with those of the moves."""

import os
import sys
import threading
from itertools import combinations

from expect import morris, raises, refused
from morris import Kind, Status

MILLS = [{0, 1, 2}, {3, 4, 5}, {6, 7, 8}, {0, 3, 6}, {1, 4, 7}, {2, 5, 8}]


def adjacent(p: int, q: int) -> bool:
    return abs(p // 3 - q // 3) + abs(p % 3 - q % 3) == 1


def rules(own: frozenset, other: frozenset) -> list:
    """The legal moves, in order."""
    found = []
    for start in sorted(own):
        for end in range(9):
            if end in own | other or len(own) < 3 or (len(own) > 3 and not adjacent(start, end)):
                continue
            went = own - {start} | {end}
            if any(end in mill and mill <= went for mill in MILLS):
                mills = [mill for mill in MILLS if mill <= other]
                free = [t for t in sorted(other) if not any(t in mill for mill in mills)]
                found += [(start, end, t) for t in free or sorted(other)]
            else:
                found.append((start, end, None))
    return found


def text(own: frozenset, other: frozenset) -> str:
    return "".join("X" if p in own else "O" if p in other else "." for p in range(9))


def all_positions(tables: morris.Tables) -> int:
    count = 0
    for own in (frozenset(c) for n in range(2, 7) for c in combinations(range(9), n)):
        rest = [p for p in range(9) if p not in own]
        for other in (frozenset(c) for n in range(3, 7) for c in combinations(rest, n)):
            value, moves = tables.value(text(own, other)), tables.moves(text(own, other))
            assert [(*m.move[:2], m.move.taken) for m in moves] == rules(own, other)
            best = tables.best(text(own, other))
            assert bool(best) == bool(moves) and all(m.value == value for m in best)
            assert moves or value == (Kind.LOST, 0)
            count += 1
    return count


with morris.open_tables(sys.argv[1], "grid") as tables:
    tables.check_digests()
    print(all_positions(tables), "positions")
    refused(Status.STONES, lambda: tables.value("X..OOO..."))
    refused(Status.OVERLAP, lambda: tables.value((7, 14)))
    raises(ValueError, lambda: tables.value((7, 1 << 9)))
    found: list = []
    ask = lambda: found.append(all_positions(tables))  # noqa: E731
    threads = [threading.Thread(target=ask) for _ in range(2)]
    for thread in threads:
        thread.start()
    for thread in threads:
        thread.join()
    assert found[0] == found[1]
raises(FileNotFoundError, lambda: morris.open_tables(os.path.dirname(os.path.abspath(__file__))))
print("all right")
