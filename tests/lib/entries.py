"""What the table files of a folder say of positions, read at their entries by the numbering of
docs/FILE_FORMAT.md alone.

Suites compare what the program looks up with it. It shares nothing with the program.
"""

import struct
from math import comb

from tests.lib.rules import BOARDS, code_from, halves, name_of


def rank(places):
    return sum(comb(place, i + 1) for i, place in enumerate(sorted(places)))


class Entries:
    """The entries of the files of a folder, each of which is read once."""

    def __init__(self, name, folder):
        self.name, self.board, self.folder = name, BOARDS[name], folder
        self.files = {}
        self.codes = {}

    def path(self, pair):
        return f"{self.folder}/{self.name}-{name_of(pair)}.nmmt"

    def file(self, pair):
        """The bytes of the file of a pair."""
        if pair not in self.files:
            with open(self.path(pair), "rb") as file:
                self.files[pair] = file.read()
        return self.files[pair]

    def place(self, position):
        """The pair whose file has the code of a position, and where the code stands in it."""
        own, other = position
        pair = tuple(sorted((len(own), len(other)), reverse=True))
        by_classes, points = self.file(pair)[4] == 2, len(self.board.points)
        first = rank(own)
        if by_classes:
            own, other = self.board.led(position)
            first = self.board.representatives(len(own))[sum(1 << it for it in own)]
        rest = [p for p in self.board.points if p not in own]
        at = first * comb(len(rest), len(other)) + rank(rest.index(p) for p in other)
        if (len(own), len(other)) != pair:
            own_count, other_count = halves(pair)[0]
            classes = len(self.board.representatives(own_count))
            sets = classes if by_classes else comb(points, own_count)
            at += sets * comb(points - own_count, other_count)
        return pair, 16 + 2 * at

    def code(self, position):
        """The code of a position: 0 for a draw, else its plies and 1."""
        if len(position[0]) < 3:
            return 1
        if position not in self.codes:
            pair, place = self.place(position)
            self.codes[position] = struct.unpack_from(">H", self.file(pair), place)[0]
        return self.codes[position]

    def agrees(self, position):
        """Whether the code of a position follows from those of its results."""
        results = (self.code(it) for _, it in self.board.moves(*position))
        return self.code(position) == code_from([*results])

    def best(self, position):
        """The best moves, each with its result."""
        code = self.code(position)
        moves = self.board.moves(*position) if code != 1 else []
        return [it for it in moves if self.code(it[1]) == (code - 1 if code else 0)]

    def line(self, position):
        """The positions of a line of best play, as far as the codes agree: it ends with a draw or
        with the end of the game."""
        found = [position]
        while self.agrees(position) and self.code(position) > 1:
            position = self.best(position)[0][1]
            found.append(position)
        return found
