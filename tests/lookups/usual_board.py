"""Counts and finds positions of the usual board in table files: each number is that of `stats`
without a file, and of the positions that are found; what is found has that value by `lookup`; and
the largest files take little memory."""

import os
import re
import subprocess
from collections import Counter
from math import comb
from pathlib import Path

from tests.lib.case import Case
from tests.lib.program import MORRIS, count
from tests.lib.rules import NINE, name_of
from tests.lib.tables import tables

# How many megabytes a run over a file may have at most.
MOST_MEGABYTES = 40
# The largest pairs, and how many entries their files by classes have.
LARGE = {(9, 9): 414_814_400, (9, 8): 1_069_628_560}
# How many positions are looked up of those that are found.
LOOKED_UP = 200


class UsualBoard(Case):
    """Files of the usual board."""

    def check_memory(self, *asked):
        """How much memory a run has at most."""
        for words in asked:
            count()
            with subprocess.Popen([MORRIS, *words], stdout=subprocess.DEVNULL) as child:
                _, status, usage = os.wait4(child.pid, 0)
                child.returncode = os.waitstatus_to_exitcode(status)
            with self.subTest(" ".join(words)):
                self.assertEqual(child.returncode, 0)
                self.assertLessEqual(usage.ru_maxrss / 1024, MOST_MEGABYTES)

    def test_counts(self):
        """By the file, without it, as fields, and of the positions that are found."""
        for pair, classes in (("3-3", True), ("3-3", False), ("4-3", True), ("4-4", True)):
            text = self.shown(["stats", "nine", pair, "--classes", "--blocks", "64"])
            words = ["nine", pair, "--from", tables("nine", "4-4", classes)]
            expected, fields, last = Counter(), Counter(), Counter()
            for value, kind, many in re.findall(r"(?m)^((won|lost|draw).*): (\d+)$", text):
                expected.update({it: int(many) for it in (value, kind)})
                # The depths of a kind ascend.
                last[kind] = int(many)
            expected["deepest"] = last["won"] + last["lost"]
            for line in self.shown(["stats", *words, "--csv"]).splitlines()[1:]:
                _, _, kind, depth, many = line.split(",")
                value = f"{kind} in {depth}" if depth else kind
                fields.update({it: int(many) for it in (value, kind)})
            with self.subTest(pair, classes=classes):
                self.assertEqual(self.shown(["stats", *words]), text)
                self.assertEqual(fields | {"deepest": expected["deepest"]}, expected)
                count = lambda value: int(self.shown(["find", *words, value, "--all", "--count"]))
                self.assertEqual({it: count(it) for it in expected}, expected)
                self.check_memory(["stats", *words], ["find", *words, "won", "--all"])

    def test_what_is_found_has_its_value(self):
        """Alone and with all that share entries."""
        for pair, classes, value in (
            ("3-3", False, "won in 25"),
            ("3-3", True, "lost in 26"),
            ("4-3", True, "draw"),
        ):
            folder = tables("nine", "4-4", classes)
            for more in ([], ["--all"]):
                words = ["find", "nine", pair, "--from", folder, value, *more]
                texts = self.shown([*words, "--limit", str(LOOKED_UP)])
                answers = self.shown(["lookup", "nine", "--from", folder], texts.encode())
                values = [it.split(":")[0] for it in answers.splitlines()]
                with self.subTest(" ".join(words)):
                    self.assertTrue(texts)
                    self.assertEqual(values, [f"{it} {value}" for it in texts.splitlines()])

    def test_largest_files_take_little_memory(self):
        """These have a header and nothing else: each code is then 0, and each position a draw. How
        many positions there are is known."""
        folder = self.make_room()
        for pair, entries in LARGE.items():
            with Path(folder, f"nine-{name_of(pair)}.nmmt").open("wb") as file:
                file.write(b"NMMT" + bytes([2, NINE.number, *pair]) + entries.to_bytes(8, "big"))
                file.truncate(16 + 2 * entries + 32)
            words = ["nine", name_of(pair), "--from", folder]
            # By the stones of the player to move: where they stand, and those of the opponent.
            halves = {own: comb(24, own) * comb(24 - own, sum(pair) - own) for own in sorted(pair)}
            fields = [f"{own},{sum(pair) - own},draw,,{it}\n" for own, it in halves.items()]
            expected = "own,other,result,depth,positions\n" + "".join(fields)
            self.assertEqual(self.shown(["stats", *words, "--csv"]), expected)
            first = self.shown(["find", *words, "draw", "--limit", "1"])
            self.assertEqual(first.count("\n"), 1)
            self.check_memory(["stats", *words], ["find", *words, "won", "--count"])
