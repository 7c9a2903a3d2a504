"""Plays a game from a position on, for both players: play.py FOLDER POSITION. It prints each move
with the position after it, until the game is over or a position comes back.

`choose` writes out what `Tables.choose` does. At a win it takes the move that wins soonest, at a
loss the one that loses latest. Moves that keep a draw are all alike to a table: of these it takes
one after which the opponent has the fewest moves that keep it too.
"""

import os
import sys

sys.path.insert(0, os.path.join(os.path.dirname(os.path.abspath(__file__)), ".."))
import morris  # noqa: E402

SWAPPED = str.maketrans("XO", "OX")


def count_replies(tables, position, outcome):
    """How many moves that keep a draw the opponent has after a move."""
    if outcome.value.kind != morris.Kind.DRAW:
        return 0
    after = tables.play(position, outcome.move)
    return sum(value.kind == morris.Kind.DRAW for _, value in tables.moves(after))


def choose(tables, position):
    """The first of the best moves; at a draw of those after which the fewest moves keep it."""
    best = tables.best(position)
    return min(best, key=lambda it: count_replies(tables, position, it), default=None)


def play(tables, position):
    seen = {}
    while position not in seen:
        seen[position] = len(seen)
        chosen = choose(tables, position)
        if chosen is None:
            print("the game is over: who is to move has lost")
            return
        position = tables.play(position, chosen.move)
        # The characters are those of the players at the first ply.
        print(chosen.move, position if len(seen) % 2 == 0 else position.translate(SWAPPED))
    print("the position comes back: a draw")


folder, position = sys.argv[1:] if len(sys.argv) == 3 else ("", "")
if len(position) not in (24, 9) or position.strip("XO."):
    print("play.py FOLDER POSITION, which is 24 or 9 characters X, O and .", file=sys.stderr)
    sys.exit(2)
try:
    with morris.open_tables(folder, "grid" if len(position) == 9 else "nine") as tables:
        play(tables, position)
except (morris.Fault, OSError) as error:
    sys.exit(str(error))
