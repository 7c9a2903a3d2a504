"""Table files as the explorer goes through them: from an entry to its position, the first entry
that has one of some codes, and how many positions of a pair there are of each value.

docs/FILE_FORMAT.md has the format and the order of the entries. A value that is shown comes from
the library; what is read here is counted, or says where to ask.
"""

from __future__ import annotations

import functools
import itertools
import json
import mmap
import os
import queue
import struct
import sys
import threading
import time
from array import array
from collections import Counter
from math import comb
from typing import Any, Callable, Dict, Iterator, List, NamedTuple, Optional, Sequence, Tuple

__all__ = ["BOARDS", "Board", "Counts", "Pair", "TableFile", "Unreadable", "pair_name"]

# How many entries are looked at in a row while the other threads wait, and for how many seconds a
# count then lets them go on.
CHUNK = 16_384
PAUSE_SECONDS = 0.0002
# For how many seconds a search goes on before it says how far it came.
SEARCH_SECONDS = 0.5
# What is stored beside the tables, and how many bytes of it are read.
COUNTS = ".counts.json"
MOST_OF_COUNTS = 1 << 24
HEADER, DIGEST = 16, 32

Pair = Tuple[int, int]
"""The numbers of stones of a table, the greater one first."""


class Unreadable(Exception):
    """A file isn't what its name says."""


# ---- boards: the sets of points that a table's entries are in the order of


def _nine_image(symmetry: int, point: int) -> int:
    """Four turns, four mirrors, and the same with the inner and the outer ring exchanged."""
    ring, place = divmod(point, 8)
    place = 2 * (symmetry % 4) + (-place if symmetry // 4 % 2 else place)
    return 8 * (2 - ring if symmetry >= 8 else ring) + place % 8


def _grid_image(symmetry: int, point: int) -> int:
    """The mirror in the diagonal comes first, and then the quarters of a turn."""
    row, column = divmod(point, 3)
    if symmetry >= 4:
        row, column = column, row
    for _ in range(symmetry % 4):
        row, column = column, 2 - row
    return 3 * row + column


class Board:
    """A board: its number in a file, its points, and where each symmetry takes a set of them."""

    def __init__(
        self, number: int, points: int, symmetries: int, image: Callable[[int, int], int]
    ) -> None:
        self.number = number
        self.points = points
        self.images = [[image(s, p) for p in range(points)] for s in range(symmetries)]

    @functools.cached_property
    def _tables(self) -> List[List[List[int]]]:
        """For each symmetry, the images of the sets within each 8 of the 24 bits of a mask."""
        return [[self._byte_images(it, 8 * byte) for byte in range(3)] for it in self.images]

    def _byte_images(self, image: List[int], first: int) -> List[int]:
        places = range(first, min(first + 8, self.points))
        return [sum(1 << image[p] for p in places if v >> (p - first) & 1) for v in range(256)]

    def image(self, symmetry: int, mask: int) -> int:
        low, middle, high = self._tables[symmetry]
        return low[mask & 255] | middle[mask >> 8 & 255] | high[mask >> 16]

    def _sets(self, count: int, highs: Sequence[int]) -> Iterator[int]:
        """The sets of so many points, in ascending order of their masks, whose bits from 16 on are
        one of these."""
        lows: List[List[int]] = [[] for _ in range(17)]
        for low in range(1 << min(self.points, 16)):
            lows[bin(low).count("1")].append(low)
        for high in highs:
            left = count - bin(high).count("1")
            for low in lows[left] if 0 <= left <= 16 else ():
                yield high << 16 | low

    @functools.lru_cache(maxsize=None)
    def all_sets(self, count: int) -> Tuple[Sequence[int], Sequence[int]]:
        """The sets of so many points in ascending order, and for each its orbit size, here 1."""
        sets = array("I", self._sets(count, range(1 << max(self.points - 16, 0))))
        return sets, bytes([1]) * len(sets)

    @functools.lru_cache(maxsize=None)
    def canonical_sets(self, count: int) -> Tuple[Sequence[int], Sequence[int]]:
        """The sets of so many points in canonical form, none of whose images is less, in ascending
        order, and for each its orbit size: how many different images it has."""
        sets, orbit_sizes = array("I"), bytearray()
        tables = self._tables
        # Without the exchange of rings, the highest 8 points have their images among themselves.
        own = [it[2] for it in tables[:8]] if self.points > 16 else []
        highs = range(1 << max(self.points - 16, 0))
        least = [it for it in highs if all(high[it] >> 16 >= it for high in own)]
        # The exchange comes early, since it rules most sets out.
        rest = tables[8:] + tables[1:8] if self.points > 16 else tables[1:]
        for mask in self._sets(count, least):
            a, b, c = mask & 255, mask >> 8 & 255, mask >> 16
            same = 1
            for low, middle, high in rest:
                image = low[a] | middle[b] | high[c]
                if image < mask:
                    break
                same += image == mask
            else:
                sets.append(mask)
                orbit_sizes.append(len(tables) // same)
        return sets, bytes(orbit_sizes)

    def chosen(self, own: int, count: int, rank: int) -> int:
        """The set of so many points outside `own` that has this rank in ascending order."""
        free = [p for p in range(self.points) if not own >> p & 1]
        mask = 0
        for left in range(count, 0, -1):
            place = left - 1
            while comb(place + 1, left) <= rank:
                place += 1
            rank -= comb(place, left)
            mask |= 1 << free[place]
        return mask

    def text(self, own: int, other: int) -> str:
        """The position string, from the masks of the player to move and of the opponent."""
        return "".join(
            "X" if own >> p & 1 else "O" if other >> p & 1 else "." for p in range(self.points)
        )


BOARDS = {"nine": Board(0, 24, 16, _nine_image), "grid": Board(1, 9, 8, _grid_image)}


# ---- table files, for what goes through all entries; docs/FILE_FORMAT.md has the format


def pair_name(pair: Pair) -> str:
    return f"{pair[0]}-{pair[1]}"


class Half(NamedTuple):
    """The entries of a table in which the player to move has `own` stones, from `first` on: `row`
    entries for each of `sets`, each entry with as many positions as `orbit_sizes` says."""

    own: int
    other: int
    first: int
    row: int
    sets: Sequence[int]
    orbit_sizes: Sequence[int]

    @property
    def end(self) -> int:
        return self.first + self.row * len(self.sets)

    def runs(self) -> Iterator[Tuple[int, int, int]]:
        """The orbit sizes, each with its first entry and with the one past its last."""
        first = self.first
        for orbit_size, those in itertools.groupby(self.orbit_sizes):
            end = first + self.row * sum(1 for _ in those)
            yield orbit_size, first, end
            first = end


class TableFile:
    """A table file, mapped. `check` comes before anything is asked of its entries."""

    def __init__(self, path: str, board: Board, pair: Pair) -> None:
        self.board, self.pair = board, pair
        with open(path, "rb") as file:
            size = os.fstat(file.fileno()).st_size
            # Nothing can be mapped of an empty file.
            self.bytes: Any = mmap.mmap(file.fileno(), 0, access=mmap.ACCESS_READ) if size else b""
        self.version = self.bytes[4] if size >= HEADER else 0
        self.entries = max((size - HEADER - DIGEST) // 2, 0)

    @property
    def digest(self) -> str:
        """The digest that stands at the file's end."""
        return self.bytes[-DIGEST:].hex()

    def check(self) -> None:
        """Raises `Unreadable` where the header or the length isn't that of the pair's file."""
        head = b"NMMT" + bytes([self.version, self.board.number, *self.pair])
        if self.version not in (1, 2) or self.bytes[:8] != head:
            raise Unreadable(f"that of {pair_name(self.pair)} has another header")
        stated = struct.unpack(">Q", self.bytes[8:HEADER])[0]
        if not stated == self.entries == self.halves[-1].end or len(self.bytes) % 2:
            raise Unreadable(f"that of {pair_name(self.pair)} has a wrong number of entries")

    @functools.cached_property
    def halves(self) -> List[Half]:
        """The halves of the table: that of the greater number of stones to move comes first."""
        greater, lesser = self.pair
        sets = self.board.all_sets if self.version == 1 else self.board.canonical_sets
        found: List[Half] = []
        for own, other in dict.fromkeys([(greater, lesser), (lesser, greater)]):
            first = found[-1].end if found else 0
            row = comb(self.board.points - own, other)
            found.append(Half(own, other, first, row, *sets(own)))
        return found

    def codes(self, first: int, end: int) -> Sequence[int]:
        found = array("H", self.bytes[HEADER + 2 * first : HEADER + 2 * end])
        if sys.byteorder == "little":
            found.byteswap()
        return found

    def search(self, codes: Sequence[int], start: int, done: int) -> Tuple[Optional[int], int]:
        """The first entry that has one of some codes, from entry `start` on and after the last one
        from the first; of these, `done` were gone through before. Beside it, how many have been
        now: where none is found, as many as there is time for."""
        deadline, wanted = time.monotonic() + SEARCH_SECONDS, frozenset(codes)
        if not wanted:
            return None, self.entries
        while done < self.entries and time.monotonic() < deadline:
            first = (start + done) % self.entries
            end = min(first + CHUNK, self.entries, first + self.entries - done)
            here = self.codes(first, end)
            if not wanted.isdisjoint(here):
                offset = next(place for place, code in enumerate(here) if code in wanted)
                return first + offset, done + offset
            done += end - first
        return None, done

    def position(self, entry: int) -> Tuple[int, int]:
        """The position that has an entry for its own: the masks of the player to move and of the
        opponent."""
        half = next(it for it in self.halves if entry < it.end)
        place, rank = divmod(entry - half.first, half.row)
        own = half.sets[place]
        return own, self.board.chosen(own, half.other, rank)


# ---- how many positions of a pair there are of each value


def count_half(
    table: TableFile, half: Half, report: Callable[[int], None]
) -> Tuple[Dict[int, int], Dict[int, int]]:
    """How many positions have each code, and the first entry that has it. It reports how many
    entries it has gone through since its last report."""
    counts: Dict[int, int] = Counter()
    firsts: Dict[int, int] = {}
    for orbit_size, first, end in half.runs():
        for at in range(first, end, CHUNK):
            codes = table.codes(at, min(at + CHUNK, end))
            for code, count in Counter(codes).items():
                counts[code] += orbit_size * count
                if code not in firsts:
                    firsts[code] = at + codes.index(code)
            report(len(codes))
    return counts, firsts


def count_side(table: TableFile, half: Half, report: Callable[[int], None]) -> Dict[str, object]:
    """The counts of the positions in which one side of a pair is to move."""
    counts, firsts = count_half(table, half, report)
    side: Dict[str, object] = {
        "own": half.own,
        "other": half.other,
        "positions": sum(counts.values()),
        "drawn": counts.get(0, 0),
    }
    deepest: Dict[str, object] = {"won": None, "lost": None}
    for result, odd in (("won", 0), ("lost", 1)):
        codes = sorted(it for it in counts if it and it % 2 == odd)
        side[result] = [{"depth": code - 1, "count": counts[code]} for code in codes]
        for code in codes[-1:]:
            text = table.board.text(*table.position(firsts[code]))
            deepest[result] = {"text": text, "depth": code - 1}
    return {**side, "deepest": deepest}


class Counts:
    """Counts tables in the background, one after the other, and stores what it found in a file
    beside them, each with the digest of its table."""

    def __init__(self, folder: str) -> None:
        self.path = os.path.join(folder, COUNTS)
        self.lock = threading.Lock()
        self.stored = self._read()
        self.done: Dict[str, int] = {}
        self.waiting: "queue.Queue[Tuple[str, TableFile]]" = queue.Queue()
        self.worker: Optional[threading.Thread] = None

    def _read(self) -> Dict[str, Any]:
        """What the file stores, by the names of table files. One that isn't as this program writes
        it is passed over."""
        try:
            if not os.path.isfile(self.path) or os.path.getsize(self.path) > MOST_OF_COUNTS:
                return {}
            with open(self.path, encoding="utf-8") as file:
                found = json.load(file)
        except (OSError, ValueError, RecursionError):
            return {}
        if not isinstance(found, dict) or found.get("version") != 1:
            return {}
        tables = found.get("tables")
        return {
            name: it
            for name, it in (tables.items() if isinstance(tables, dict) else ())
            if isinstance(it, dict) and isinstance(it.get("sides"), list)
        }

    def ask(self, name: str, table: TableFile) -> Dict[str, object]:
        """The counts of a table, or how many of its entries were gone through; the first who asks
        sets the count going."""
        table.check()
        with self.lock:
            stored = self.stored.get(name)
            if stored and stored.get("digest") == table.digest:
                return {"done": True, "counted": table.entries, "sides": stored["sides"]}
            if name not in self.done:
                self.done[name] = 0
                self.waiting.put((name, table))
            if self.worker is None:
                self.worker = threading.Thread(target=self._work, daemon=True)
                self.worker.start()
            return {"done": False, "counted": self.done[name], "sides": []}

    def _work(self) -> None:
        while True:
            name, table = self.waiting.get()
            report = functools.partial(self._report, name)
            sides = [count_side(table, it, report) for it in table.halves]
            with self.lock:
                self.stored[name] = {"digest": table.digest, "sides": sides}
                del self.done[name]
            self._write(name, self.stored[name])

    def _report(self, name: str, entries: int) -> None:
        """Notes how far a count is, and lets the threads go on that answer."""
        with self.lock:
            self.done[name] += entries
        time.sleep(PAUSE_SECONDS)

    def _write(self, name: str, counted: Dict[str, object]) -> None:
        """Writes the file whole, with what others may have put into it meanwhile."""
        part = f"{self.path}.{os.getpid()}.part"
        try:
            with open(part, "w", encoding="utf-8") as file:
                json.dump({"version": 1, "tables": {**self._read(), name: counted}}, file)
            os.replace(part, self.path)
        except OSError as error:
            print(f"the counts of {name} aren't kept: {error}", file=sys.stderr)
