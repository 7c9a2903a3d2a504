"""Compares the explorer's answers with what `morris lookup` and `morris stats` print over the same
tables, and with the rules: positions, counts of pairs, and positions that are found.

It runs over tables of both boards, by positions and by classes.
"""

import itertools
import json
import time
from pathlib import Path

from tests.embed.common import all_of_grid, made_up
from tests.explorer.common import PAIRS, Explored, fields, points_of
from tests.lib.program import MOST_SECONDS
from tests.lib.rules import BOARDS, read_text, text_of
from tests.lib.tables import own_tables

# How many positions of the usual board are asked for.
ASKED = 2_000
# In how many plies positions are asked for that are to be found.
RANGES = [(0, 2), (1, 9), (2, 2), (3, 3), (3, 9), (20, 26), (31, 99)]


def told(value):
    """A value such as "won in 9" as the explorer gives it."""
    return dict(zip(("result", "depth"), fields(value)))


def value_of(answer):
    """The value in an answer, as the program prints it."""
    return answer["result"] + (f" in {answer['depth']}" if answer["depth"] is not None else "")


def answer_for(board, text, looked):
    """The whole answer for a position, by the rules and by what `morris lookup` prints."""
    rules, moves = BOARDS[board], []
    for name, result in rules.moves(*read_text(text, rules)):
        move = {"move": name, **dict(zip(("from", "to", "taken"), points_of(name)))}
        move.update(next=text_of(result, rules), best=name in looked.best)
        moves.append({**move, **told(looked.moves[name])})
    stones = {"own": text.count("X"), "other": text.count("O")}
    return {"board": board, "text": text, **stones, **told(looked.value), "moves": moves}


def counts(server, board, pair):
    """What the explorer counts in a pair, once it has."""
    deadline = time.monotonic() + MOST_SECONDS
    while time.monotonic() < deadline:
        answer = server.ask("/api/counts", board=board, pair=pair)
        if answer["done"]:
            return answer["sides"]
        time.sleep(0.02)
    raise AssertionError(f"{pair} isn't counted after {MOST_SECONDS} seconds")


def by_value(side):
    """How many positions of a side of a pair have each value."""
    found = {"draw": side["drawn"]} if side["drawn"] else {}
    for result in ("won", "lost"):
        found.update({f"{result} in {row['depth']}": row["count"] for row in side[result]})
    return found


def deepest_of(sides):
    """The deepest positions of a pair with their values: of two sides the deeper one's, or the
    first one's."""
    found = {}
    for result in ("won", "lost"):
        there = [side["deepest"][result] for side in sides if side["deepest"][result]]
        if there:
            best = max(there, key=lambda it: it["depth"])
            found[best["text"]] = f"{result} in {best['depth']}"
    return found


class Answers:
    """The answers to requests that are right, over tables by positions or by classes."""

    def test_positions(self):
        """All of 3-3 on the board grid, and made-up ones of the usual board: their values, and all
        moves with what they lead to."""
        for board, texts in (("grid", all_of_grid()), ("nine", made_up(ASKED))):
            looked = self.looked_up(board, texts)
            wrong = {}
            for text in texts:
                expected = answer_for(board, text, looked[text])
                found = self.server.ask("/api/position", board=board, text=text)
                if found != expected:
                    wrong[text] = found, expected
            self.same(f"{len(wrong)} of {len(texts)} positions with what is right", wrong, {})

    def test_counts_of_pairs(self):
        for board, pair in ((board, pair) for board in PAIRS for pair in PAIRS[board]):
            with self.subTest(board, pair=pair):
                sides = counts(self.server, board, pair)
                found = {side["own"]: by_value(side) for side in sides}
                self.same("counts", found, self.counted(board, pair))
                whole = [sum(found[side["own"]].values()) for side in sides]
                self.same("positions", [side["positions"] for side in sides], whole)
                self.same("the deepest", deepest_of(sides), self.deepest(board, pair))

    def test_counts_are_kept_beside_the_tables(self):
        """They are no longer believed once a digest is another, nor where the file isn't one."""
        to = own_tables(f"{self.make_room()}/tables", "grid", "4-3", self.by_classes)
        sides, path = counts(self.serve(to), "grid", "4-3"), Path(to, ".counts.json")
        for _ in range(100):
            if path.exists():
                break
            time.sleep(0.1)
        kept = json.loads(path.read_text(encoding="utf-8"))
        table = kept["tables"]["grid-4-3.nmmt"]
        self.same("the counts that are kept", table["sides"], sides)
        table["sides"] = []
        changed = json.dumps(kept)
        table["digest"] = "0" * 64
        for text, expected in ((changed, []), (json.dumps(kept), sides), ("[" * 9_999, sides)):
            with self.subTest(text[-80:]):
                path.write_text(text, encoding="utf-8")
                self.same("counts", counts(self.serve(to), "grid", "4-3"), expected)

    def test_positions_that_are_found(self):
        """They have what was asked for, and are the same each time; where none is found the counts
        have none."""
        for board, pair in (("grid", "3-3"), ("grid", "4-3"), ("nine", "3-3"), ("nine", "4-3")):
            there, found = set().union(*self.counted(board, pair).values()), {}
            for result, (low, high), seed in itertools.product(("won", "lost"), RANGES, (1, 2)):
                words = {"board": board, "pair": pair, "result": result, "seed": seed}
                words.update({"least": low, "most": high})
                with self.subTest(**words):
                    answer = self.server.find(**words)
                    self.same("found again", self.server.find(**words), answer)
                    asked = {f"{result} in {it}" for it in range(low, high + 1)} & there
                    self.assertEqual(answer["text"] is not None, bool(asked))
                    if asked:
                        self.assertIn(value_of(answer), asked)
                        found[answer["text"]] = value_of(answer)
            found[self.server.find(board=board, pair=pair, result="draw")["text"]] = "draw"
            stones = {f"{it.count('X')}-{it.count('O')}" for it in found}
            self.assertLessEqual(stones, {pair, pair[::-1]})
            looked = self.looked_up(board, found)
            self.same(pair, {it: looked[it].value for it in found}, found)


class OverFilesByPositions(Answers, Explored):
    by_classes = False


class OverFilesByClasses(Answers, Explored):
    by_classes = True
