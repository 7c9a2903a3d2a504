"""Tables of the usual board, built by the program and compared with digests from outside.

The digests are those of the files that another program computed, by classes; that of 3-3 by
positions follows from the one by classes by tests/lib/rules.py. Then the program verifies and
probes what it built, at positions whose values and best moves are known.
"""

import hashlib

from tests.lib.case import Case
from tests.lib.program import Run, run
from tests.lib.rules import NINE, decided, deepest_of, position_at, read_file, read_text

# The files of a build by classes: the entries of each, and the SHA-256 of the whole file.
BY_CLASSES = {
    "3-3": (210_140, "ca2197015905830b2589f912c092beb42e45ffa9a91e998c485ea710a49fbd77"),
    "4-3": (1_808_610, "fa3705efc1fbace1a70246a570b0868b1eb1c01937f7128ad8fe6f39aa9a508c"),
    "4-4": (3_667_665, "f791bcb6497334e8f68c87edf11efc345dbacf9b46de7f0139d1f1f40355d5b0"),
}
# Those of two larger ones: 5-4 is built from a graph by classes, 7-3 from one by rows, as most are.
LARGER = {
    "5-4": (22_705_608, "c173564c2e5c69d7ce467dfae07fe983fadf7206e86f15438164b0fd58a0bdca"),
    "7-3": (33_460_080, "75d9730cea93a5a49f04a2de10e23b26d144bbf617e656507e5ed5bd17bba2ea"),
}
BY_POSITIONS = (2_691_920, "0f14b4f80f5dfccb1df417c46b65f750eeb5a181454e5f12d117b3061d97de48")
TEAMS = ["--workers", "2", "--blocks", "64"]
# How many positions of 3-3 have which value, as a plain solver counted them.
COUNTED = """\
3-3 2691920 positions
won in 1: 1056096
lost in 2: 48780
won in 3: 535592
lost in 4: 75048
won in 5: 264836
lost in 6: 63768
won in 7: 104988
lost in 8: 39816
won in 9: 76104
lost in 10: 33224
won in 11: 40572
lost in 12: 34176
won in 13: 60328
lost in 14: 35904
won in 15: 39584
lost in 16: 37824
won in 17: 18492
lost in 18: 33708
won in 19: 12072
lost in 20: 33672
won in 21: 17700
lost in 22: 16824
won in 23: 5388
lost in 24: 1800
won in 25: 408
lost in 26: 1104
draw: 4112
"""
WON = "XX...O......X.O....O...."
WON_TEXT = f"{WON}\nwon in 1\n12-2x5\n12-2x14\n12-2x19\n"
LOST = "OO..X....O.X..........X."
DRAWN = "XX.X............OOO.X.O."
DRAWN_TEXT = f"{DRAWN}\ndraw\n0-7\n1-2\n1-9\n3-2x22\n3-4\n3-11\n20-19\n20-21\n"
# worked_runs.txt has what `look` finds of it without any table.
DEEP = ".X.............XOO.XOX.O"
DEEP_TEXT = f"{DEEP}\nwon in 5\n1-9\n"


def lost_text():
    """What is printed of LOST: each move is as good as any other, since the opponent then wins at
    once."""
    moves = NINE.moves(*read_text(LOST, NINE))
    if {decided(NINE, result, 1) for _, result in moves} != {2}:
        raise AssertionError(f"{LOST} isn't lost in 2")
    return "".join(f"{it}\n" for it in [LOST, "lost in 2", *(move for move, _ in moves)])


def size_of_file(entries):
    return 16 + 2 * entries + 32


def progress(*lines):
    return "".join(f"progress: {it}\n" for it in lines).encode()


class UsualBoard(Case):
    """Tables of the usual board."""

    @classmethod
    def setUpClass(cls):
        build = ["build", "nine", "4-4", "--classes", "--all", *TEAMS]
        cls.bundle, cls.whole = run(build).output, run(["build", "nine", "3-3", *TEAMS]).output
        cls.parts, at = {}, 0
        for pair, (entries, _) in BY_CLASSES.items():
            end = at + size_of_file(entries)
            cls.parts[pair], at = cls.bundle[at:end], end

    def check_file(self, name, file, expected):
        entries, digest = expected
        with self.subTest(name):
            self.assertEqual(len(file), size_of_file(entries))
            self.assertEqual(hashlib.sha256(file).hexdigest(), digest)

    def test_digests(self):
        self.assertEqual(len(self.bundle), sum(map(len, self.parts.values())))
        for pair, expected in BY_CLASSES.items():
            self.check_file(f"{pair} by classes", self.parts[pair], expected)
        self.check_file("3-3 by positions", self.whole, BY_POSITIONS)

    def test_digests_of_larger_pairs(self):
        for pair, expected in LARGER.items():
            words = ["build", "nine", pair, "--classes", "--workers", "4", "--blocks", "256"]
            self.check_file(f"{pair} by classes", run(words).output, expected)

    def test_counts(self):
        codes = read_file(self.whole, NINE)[2]
        deepest = COUNTED + deepest_of(codes, lambda it: position_at((3, 3), it, NINE), NINE)
        self.expect_all(
            [
                Run(["stats", "nine", "3-3"], (0, COUNTED.encode(), b"")),
                Run(["stats", "nine", "3-3", "--deepest"], (0, deepest.encode(), b"")),
                Run(["stats", "nine", "3-3", "--deepest", "--classes"], (0, deepest.encode(), b"")),
            ],
            at_once=1,
        )

    def test_verify(self):
        """The pair below is built in the layout of the file."""
        lines = progress(
            "2018750 entries, about M MB of memory",
            "3-3 done, 210140 of 2018750 entries (10 %), S s",
            "4-3 done, 2018750 of 2018750 entries (100 %), S s",
        )
        high, low = b"verified 4-3: 1808610 entries\n", b"verified 3-3: 2691920 entries\n"
        words = ["verify", "nine", "--progress"]
        runs = [Run(words, (0, high, lines), self.parts["4-3"])]
        self.expect_all([*runs, Run(["verify", "nine"], (0, low, b""), self.whole)], at_once=1)

    def test_probe(self):
        runs = [
            Run(["probe", "nine", DRAWN], (0, DRAWN_TEXT.encode(), b""), self.bundle),
            Run(["probe", "nine", DEEP], (0, DEEP_TEXT.encode(), b""), self.bundle),
        ]
        for file in (self.parts["3-3"], self.whole):
            for text, printed in ((WON, WON_TEXT), (LOST, lost_text())):
                runs.append(Run(["probe", "nine", text], (0, printed.encode(), b""), file))
        # 5 MB, and 2 bytes for each entry that is read.
        lines = progress(
            "26919200 entries, about 59 MB of memory",
            "3-3 done, 2691920 of 26919200 entries (10 %), S s",
        )
        words = ["probe", "nine", "XXX.X...OOO.............", "--progress"]
        runs.append(Run(words, (1, b"", lines + b"fault 13: needs 4-3\n"), self.whole))
        self.expect_all(runs, at_once=1)
