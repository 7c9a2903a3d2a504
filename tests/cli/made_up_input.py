"""Made-up texts, pairs and files: each answer is that of an independent reading.

They are made by changing right ones: characters, bytes and files come in, go, and take one
another's place, and right digests stand over wrong codes. The seed is fixed. tests/lib/rules.py
alone gives what each input is answered, to the last byte of both streams.
"""

import random
import struct

from tests.lib.case import Case
from tests.lib.program import Run, fault
from tests.lib.rules import BOARDS, GRID, GRID_PAIRS, NINE, VERSIONS, answer_of, below, build
from tests.lib.rules import file_of, look, probe, sealed, size_of, solved, stats, text_of, verify
from tests.lib.rules import verify_all

SEED = 20260113
RUNS = 6000
# The faults that such an input can have.
FAULTS = (1, 2, 3, 4, 5, *range(13, 22), 25, 26, 32)
PAIRS = ("3-3", "4-3", "3-4", "4-4", "5-3", "5-4", "6-3", "9-9")
# What comes into a text and into a pair.
OF_TEXT, OF_PAIR = 5 * "XO." + "xo0 é€-\t?", "0123456789-+ x٣é"
# Fields of a header, by where they stand.
FIELDS = ((4, 5), (5, 6), (6, 7), (7, 8), (6, 8), (8, 16), (6, 16))
# Codes that a file may lie with.
CODES = (0, 1, 2, 3, 4, 5, 7, 42, 65534, 65535)


class Maker:
    """Makes inputs by changing right ones."""

    def __init__(self):
        self.draw = random.Random(SEED)
        self.files = {it: file_of(*it, codes) for it, codes in solved().listed.items()}
        self.positions = list(solved().codes)

    def spoiled(self, items, piece):
        """A list in which some items became another one, which `piece` gives, went, or changed
        places with another, or others came in."""
        items = list(items)
        for _ in range(self.draw.choice([0, 0, 0, 1, 1, 2, 9])):
            kind, place = self.draw.randrange(4), self.draw.randrange(len(items) + 1)
            if kind == 0:
                items.insert(place, piece())
            elif place < len(items):
                other = self.draw.randrange(len(items))
                if kind == 1:
                    items[place] = piece()
                elif kind == 2:
                    del items[place]
                else:
                    items[place], items[other] = items[other], items[place]
        return items

    def text(self, board):
        """A text, mostly of few stones, so that jumps and captures come often."""
        position = self.draw.choice(self.positions)
        if board is not GRID:
            own, other = self.draw.choice([3, 3, 3, 4, 5, 9, 2]), self.draw.choice([3, 3, 4, 7, 9])
            points = self.draw.sample(board.points, own + other)
            position = points[:own], points[own:]
        text = text_of(position, board)
        return "".join(self.spoiled(text, lambda: self.draw.choice(OF_TEXT)))

    def pair(self):
        return "".join(self.spoiled(self.draw.choice(PAIRS), lambda: self.draw.choice(OF_PAIR)))

    def file(self):
        """A file, right or changed in some way."""
        pair = self.draw.choice([(3, 3)] * 4 + [(4, 3)] * 3 + GRID_PAIRS)
        version = self.draw.choice(VERSIONS)
        data = bytearray(self.files[pair, version])
        kind = self.draw.randrange(8)
        if kind == 1:
            data[:16] = self.spoiled(data[:16], lambda: self.draw.randrange(256))
        elif kind == 2:
            data[self.draw.randrange(len(data))] ^= 1 << self.draw.randrange(8)
        elif kind == 3:
            del data[self.draw.randrange(self.draw.choice([64, len(data)])) :]
        elif kind == 4:
            data += self.draw.randbytes(self.draw.choice([1, 2, 15, 16, 40]))
        elif kind == 5:
            # Fields of another file, or of the same pair's in the other version.
            other = self.draw.choice([(pair, 3 - version), self.draw.choice(list(self.files))])
            for start, end in self.draw.sample(FIELDS, 2):
                data[start:end] = self.files[other][start:end]
            data = sealed(bytes(data[:-32]))
        elif kind == 6:
            return self.start_of_nine(version)
        elif kind == 7:
            return self.lying(pair, version)
        return bytes(data)

    def lying(self, pair, version):
        """Wrong codes under a right digest."""
        codes = list(solved().listed[pair, version])
        for _ in range(self.draw.choice([1, 1, 2, 5])):
            codes[self.draw.randrange(len(codes))] = self.draw.choice([*CODES, codes[0]])
        if self.draw.randrange(8) == 0:
            codes = [self.draw.choice([0, 1, 2, 4])] * len(codes)
        return file_of(pair, version, codes)

    def start_of_nine(self, version):
        """What a file of the board nine begins with. Its number of entries may be that of the other
        version, or beside the right one."""
        lesser = self.draw.choice([3, 3, 4, 5])
        pair = (self.draw.randrange(lesser, 6), lesser)
        counted = self.draw.choice([version, version, 3 - version])
        count = size_of(pair, counted, NINE) + self.draw.choice([0, 0, 0, -1, 1])
        head = b"NMMT" + bytes([version, NINE.number, *pair]) + struct.pack(">Q", count)
        return head + self.draw.randbytes(self.draw.choice([0, 1, 32, 5000]))

    def bundle(self):
        """Files of one version, or of either."""
        versions = self.draw.choice([(1,), (2,), VERSIONS])
        pairs = below(self.draw.choice(GRID_PAIRS))
        whole = [self.files[it, self.draw.choice(versions)] for it in pairs]
        return b"".join(self.spoiled(whole, self.file))

    def run(self):
        """A run and the answer to it."""
        name = self.draw.choice(["grid"] * 40 + ["nine"] * 8 + ["round", "Grid", "", "grids"])
        words, given, made = self.request(name, BOARDS.get(name, GRID))
        answer = answer_of(made) if name in BOARDS else fault("25: no such board")
        return Run(words, answer, given)

    def request(self, name, board):
        """Arguments, the input, and what gives the answer."""
        kind, text = self.draw.randrange(18), self.text(board)
        if kind < 5:
            given = self.file()
            return ["verify", name], given, lambda: verify(solved(), board, given)
        if kind < 7:
            given = self.bundle()
            return ["verify", name, "--all"], given, lambda: verify_all(solved(), board, given)
        if kind < 10:
            given = b"" if board is NINE and self.draw.randrange(2) else self.bundle()
            return ["probe", name, "--", text], given, lambda: probe(solved(), board, text, given)
        if kind < 14:
            depth = self.draw.randrange(7 if board is GRID else 2)
            words = ["look", name, f"--depth={depth}", "--", text]
            return words, b"", lambda: look(solved(), board, text, depth)
        # A table of the board nine takes longer than all of this.
        pair = "9-10" if board is NINE else self.pair()
        if kind < 16:
            return ["stats", name, "--", pair], b"", lambda: stats(solved(), board, pair)
        every, version = self.draw.randrange(2) == 1, self.draw.choice(VERSIONS)
        workers, blocks = self.draw.choice([1, 2, 7, 64]), self.draw.choice([1, 5, 64, 1024])
        words = ["build", name, f"--workers={workers}", f"--blocks={blocks}"]
        words += ["--all"] * every + ["--classes"] * (version == 2)
        return [*words, "--", pair], b"", lambda: build(solved(), board, pair, every, version)


class MadeUp(Case):
    """Answers to made-up input."""

    def test_answers_to_made_up_input(self):
        """Each answer comes up that such an input can have."""
        maker = Maker()
        runs = [maker.run() for _ in range(RUNS)]
        found = {it.expected[2].split(b":")[0].decode() for it in runs}
        self.assertEqual(found, {"", *(f"fault {it}" for it in FAULTS)})
        self.expect_all(runs)
