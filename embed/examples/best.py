"""Prints the value of a position and its first best move: best.py FOLDER POSITION."""

import os
import sys

sys.path.insert(0, os.path.join(os.path.dirname(os.path.abspath(__file__)), ".."))
import morris  # noqa: E402

folder, position = sys.argv[1:] if len(sys.argv) == 3 else ("", "")
if len(position) not in (24, 9) or position.strip("XO."):
    print("best.py FOLDER POSITION, which is 24 or 9 characters X, O and .", file=sys.stderr)
    sys.exit(2)
try:
    with morris.open_tables(folder, "grid" if len(position) == 9 else "nine") as tables:
        print(tables.value(position))
        for outcome in tables.best(position)[:1]:
            print(outcome.move)
except (morris.Fault, OSError) as error:
    sys.exit(str(error))
