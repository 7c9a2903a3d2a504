"""What suites of lookups share: folders of tables, positions, and what the program prints of them.

The tables are built by the program; what they say of a position is read from the files by
tests/lib/entries.py.
"""

import functools
import os
import random
import subprocess
import threading
from pathlib import Path

from tests.lib.entries import Entries
from tests.lib.program import MORRIS, MOST_SECONDS, Answer, count, fault
from tests.lib.rules import BOARDS, Refused, below, in_words, read_text, text_of
from tests.lib.tables import tables

SEED = 20261125
# The pair up to which tables of a board are built, and by what stones positions are made up.
GREATEST = {"grid": "4-3", "nine": "4-4"}
STONES = {
    "grid": [(3, 3), (4, 3), (3, 4), (2, 3), (2, 4)],
    "nine": [(3, 3), (4, 3), (3, 4), (4, 4)],
}
# The pair whose file is damaged.
LOW = (3, 3)
# How many positions of each board are looked up.
POSITIONS = 200
# What more is asked of positions.
OPTIONS = ([], ["--moves"], ["--line"])
FIELDS = "text,move,result,depth\n"


@functools.cache
def made_up(name):
    """Positions of a board."""
    draw, found = random.Random(SEED), []
    while len(found) < POSITIONS:
        own, other = draw.choice(STONES[name])
        points = draw.sample(BOARDS[name].points, own + other)
        found.append((frozenset(points[:own]), frozenset(points[own:])))
    return found


def threes(name):
    """Those of 3-3 among them."""
    return [it for it in made_up(name) if len(it[0]) == len(it[1]) == 3]


class Printed(Entries):
    """What the program prints of positions over the tables of a folder."""

    def lookup(self, *more):
        """The arguments of a lookup in this folder."""
        return ["lookup", self.name, "--from", self.folder, *more]

    def text(self, position):
        return text_of(position, self.board)

    def values(self, position):
        """Each move of a position with its value for who moves."""
        codes = ((move, self.code(result)) for move, result in self.board.moves(*position))
        return [(move, in_words(code + 1 if code else 0)) for move, code in codes]

    def first_line(self, position):
        best = "".join(f" {move}" for move, _ in self.best(position))
        value = in_words(self.code(position))
        return f"{self.text(position)} {value}{':' if best else ''}{best}\n"

    def with_moves(self, position):
        lines = (f"  {move} {value}\n" for move, value in self.values(position))
        return self.first_line(position) + "".join(lines)

    def with_line(self, position):
        lines = [self.first_line(position)]
        while self.code(position) > 1:
            move, position = self.best(position)[0]
            lines.append(f"  {move} {self.text(position)} {in_words(self.code(position))}\n")
        return "".join(lines)

    def fields(self, position):
        """The lines of `--csv`, which say what those of `--moves` do."""
        lines = []
        for move, value in self.values(position):
            result, _, depth = value.partition(" in ")
            lines.append(f"{self.text(position)},{move},{result},{depth}\n")
        return "".join(lines)

    def report(self, position):
        """What `probe` prints."""
        best = (move for move, _ in self.best(position))
        lines = [self.text(position), in_words(self.code(position)), *best]
        return "".join(f"{it}\n" for it in lines)

    def lines(self, option, position):
        """The lines of `lookup` with an option."""
        ways = {"": self.first_line, "--moves": self.with_moves, "--line": self.with_line}
        return ways["".join(option)](position)


@functools.cache
def shared(name, classes):
    """The tables of a board, which nobody changes."""
    return Printed(name, tables(name, GREATEST[name], classes))


def own(folder, tables, content=None):
    """The same tables in a folder of the test's own, whose file of 3-3 has another content, or is
    a copy: the others are links."""
    found = Printed(tables.name, folder)
    for pair in below(tuple(map(int, GREATEST[tables.name].split("-")))):
        found.files[pair] = tables.file(pair)
        if pair != LOW and not os.path.exists(found.path(pair)):
            os.symlink(tables.path(pair), found.path(pair))
    found.files[LOW] = content or tables.file(LOW)
    Path(found.path(LOW)).write_bytes(found.files[LOW])
    return found


def over(*boards):
    """Has a test run over the tables of these boards, by positions and by classes: it gets them,
    and a generator of numbers."""

    def decorate(test):
        @functools.wraps(test)
        def run_over_each(self):
            for name in boards:
                for classes in (False, True):
                    with self.subTest(name, classes=classes):
                        test(self, shared(name, classes), random.Random(SEED))

        return run_over_each

    return decorate


# ---- texts without an answer


def answered(lines, bad=0):
    """The answer to a lookup, in which so many texts have a fault."""
    text = lines if isinstance(lines, str) else "".join(lines)
    ends = fault(f"33: {'1 line has' if bad == 1 else f'{bad} lines have'} no answer").errors
    return Answer(1 if bad else 0, text.encode(), ends if bad else b"")


def escaped(text, board):
    """How the bytes that were asked about are shown: by printable characters alone."""
    points, shown = len(board.points), ""
    for byte in text[:points]:
        printable = "\\\\" if byte == ord("\\") else chr(byte)
        shown += printable if 32 <= byte <= 126 else f"\\x{byte:02x}"
    return shown if len(text) <= points else f"{shown} (too long)"


def refused(line, board):
    """The answer to bytes that are no position, or None."""
    try:
        read_text(line, board)
    except Refused as why:
        return f"{escaped(line, board)}: fault {why}\n"
    return None


def spoiled(draw, text, board):
    """A line that is no position any more, and its answer."""
    line = draw.choice(
        [
            text[:-1],
            f" {text}",
            text.replace("X", "x", 1),
            text.replace("O", ".").replace("X", "O"),
            text + text * draw.choice([1, 10_000]),
            text + "X",
        ]
    )
    return line, refused(line.encode(), board)


# ---- line by line


class Session:
    """A run whose input stays open. One that doesn't answer is ended."""

    def __init__(self, words):
        count()
        pipe = subprocess.PIPE
        self.child = subprocess.Popen([MORRIS, *words], stdin=pipe, stdout=pipe, stderr=pipe)
        self.timer = threading.Timer(MOST_SECONDS, self.child.kill)
        self.timer.daemon = True
        self.timer.start()

    def ask(self, lines):
        """Writes lines, and reads one of the answer."""
        self.child.stdin.write(lines.encode())
        self.child.stdin.flush()
        return self.child.stdout.readline().decode()

    def end(self):
        """Ends the input, and returns the rest of the answer."""
        output, errors = self.child.communicate()
        self.timer.cancel()
        return Answer(self.child.returncode, output, errors)

    def leave(self, lines=""):
        """Reads no more of what is printed, and returns what is answered to these lines."""
        self.child.stdout.close()
        self.child.stdout = None
        self.child.stdin.write(lines.encode())
        return self.end()._replace(output=b"")
