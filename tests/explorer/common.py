"""What suites of the explorer share: its server over tables, and what the program prints of the
same positions."""

import os
import re
import sys
from typing import NamedTuple

from tests.embed.common import EMBED, EmbedCase, folders
from tests.explorer.server import Server

# The pairs of which there are tables.
PAIRS = {"grid": ["3-3", "4-3", "4-4", "5-3", "5-4", "6-3"], "nine": ["3-3", "4-3", "4-4"]}


class Looked(NamedTuple):
    """What `morris lookup --moves` prints of a position: its value, the best moves, and all moves
    with their values, such as "won in 9"."""

    value: str
    best: list
    moves: dict


def points_of(move):
    """From, to, and what is taken or None."""
    found = re.fullmatch(r"(\d+)-(\d+)(?:x(\d+))?", move).groups()
    return tuple(None if it is None else int(it) for it in found)


def fields(value):
    """The result and the depth of a value, which a draw hasn't."""
    result, _, depth = value.partition(" in ")
    return result, int(depth) if depth else None


class Explored(EmbedCase):
    """A test case of the explorer: its server over a folder, and what the program prints of the
    tables there."""

    by_classes = True

    def setUp(self):
        super().setUp()
        self.folder = folders()[self.by_classes]
        self.server = self.serve(self.folder)

    def serve(self, *words, script=(f"{EMBED}/explorer.py",), **env):
        """A server that runs until the test ends."""
        server = Server(sys.executable, *script, *words, env={**os.environ, **env})
        self.addCleanup(server.end)
        return server

    def looked_up(self, board, texts):
        """What `morris lookup --moves` prints of positions, by their texts."""
        given, found = "".join(f"{it}\n" for it in texts).encode(), {}
        words = ["lookup", board, "--from", self.folder, "--moves"]
        for line in self.shown(words, given).splitlines():
            name, value = line.split(maxsplit=1)
            if line.startswith("  "):
                found[text].moves[name] = value
                continue
            text, (value, _, best) = name, value.partition(": ")
            found[text] = Looked(value, best.split(), {})
        return found

    def counted(self, board, pair):
        """How many positions of a pair have each value, by the stones of the player to move."""
        words, found = ["stats", board, pair, "--from", self.folder, "--csv"], {}
        for line in self.shown(words).splitlines()[1:]:
            own, _, result, depth, many = line.split(",")
            value = f"{result} in {depth}" if depth else result
            found.setdefault(int(own), {})[value] = int(many)
        return found

    def deepest(self, board, pair):
        """The deepest win and the deepest loss of a pair, as far as there are such, each the first
        of several: the values by the texts."""
        first = {}
        texts = self.shown(["find", board, pair, "deepest", "--from", self.folder]).split()
        for text, looked in self.looked_up(board, texts).items():
            first.setdefault(looked.value, text)
        return {text: value for value, text in first.items()}
