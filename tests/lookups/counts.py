"""Counts and finds positions of the board grid in table files, and compares each answer with what
the rules alone give.

Every pair is counted in both versions of the file, as text and as fields, and without a file;
every value that occurs is looked for, and each text that comes has to be the next one by the
numbering of docs/FILE_FORMAT.md.
"""

import itertools
from pathlib import Path

from tests.lib.case import Case
from tests.lib.rules import GRID, GRID_PAIRS, csv, entries, file_of, find, in_words, name_of, solved
from tests.lib.rules import stats
from tests.lib.tables import tables


def folder_of(pair, classes=False):
    """A folder with the tables of a pair and of all below it."""
    return tables("grid", "6-3" if pair == (6, 3) else "5-4", classes)


class Grid(Case):
    """Positions of the board grid."""

    def test_counts(self):
        for pair in GRID_PAIRS:
            words, game = ["stats", "grid", name_of(pair)], solved()
            places = (["--from", folder_of(pair, it)] for it in (False, True))
            for how in (*places, [], ["--classes"]):
                self.expect([*words, *how], (0, stats(game, GRID, name_of(pair)).encode(), b""))
                fields = csv(game, GRID, name_of(pair)).encode()
                self.expect([*words, *how, "--csv"], (0, fields, b""))

    def test_positions_of_each_value(self):
        """And of some that don't occur: all texts, the first ones, and how many."""
        for pair, version, every in itertools.product(GRID_PAIRS, (1, 2), (False, True)):
            codes, nodes = solved().listed[pair, version], entries(pair, version)
            values = ["draw", "won", "lost", "deepest", "won in 2", "lost in 7", "won in 65535"]
            values += [in_words(code) for code in sorted(set(codes)) if code]
            words = ["find", "grid", name_of(pair), "--from", folder_of(pair, version == 2)]
            words += ["--all"] * every
            for value in values:
                # In the first version no two positions share an entry.
                found = find(codes, nodes, GRID, value, every and version == 2)
                lines = [f"{it}\n".encode() for it in found]
                self.expect([*words, value], (0, b"".join(lines), b""))
                many = f"{len(lines)}\n".encode()
                self.expect([*words, value, "--count"], (0, many, b""))
                for limit in (1, 3, max(len(lines), 1), 2**32 - 1):
                    first = b"".join(lines[:limit])
                    self.expect([*words, value, "--limit", str(limit)], (0, first, b""))

    def test_false_code_is_found_as_it_stands(self):
        """A code that is no value of the game."""
        for version in (1, 2):
            codes = [*solved().listed[(3, 3), version][:-1], 65535]
            folder = self.make_room()
            Path(folder, "grid-3-3.nmmt").write_bytes(file_of((3, 3), version, codes))
            nodes, value = entries((3, 3), version), "lost in 65534"
            texts = "".join(f"{it}\n" for it in find(codes, nodes, GRID, value, version == 2))
            words = ["find", "grid", "3-3", "--from", folder, value, "--all"]
            self.expect(words, (0, texts.encode(), b""))
