"""The examples answer as they should, and refuse what they aren't made for with a line: examples.py
FOLDER PROGRAM.., of which the folder has the tables of Grid and of Nine 3-3."""

import os
import subprocess
import sys
import tempfile

from expect import EMBED, MOST_SECONDS

GRID = "XXXOO.O.."
NINE = "XX.X...O.O.O............"
WRONG = [NINE[:12], NINE + "XXXX", NINE[:-1], NINE + ".", GRID + ".", GRID[:-1], "", "X", NINE * 3]
WRONG += [text.replace("X", it, 1) for text in (GRID, NINE) for it in "xo0 -\n\u0425"]
WRONG += [text[:-1] + it for text in (GRID, NINE) for it in "xo0 -\n"]
WRONG += [GRID[:-1] + "\xff".encode("latin1").decode(errors="surrogateescape"), "\u0425" * 12]


def ran(program, *arguments):
    how = {"capture_output": True, "text": True, "errors": "replace", "timeout": MOST_SECONDS}
    done = subprocess.run([*program, *arguments], **how)
    return done.returncode, done.stdout, done.stderr


def refuses(program, status, *arguments):
    """The program ends with this status and a line on standard error, which is given, and prints
    nothing."""
    found = ran(program, *arguments)
    assert found[:2] == (status, "") and found[2].count("\n") == 1, (program, arguments, found)
    return found[2]


BEST = "won in 3\n1-5\n"
# A game of three plies, whose moves are those of the line that docs/COMMANDS.md shows.
THREE_PLIES = "XXX.OO.O."
GAME = """2-3 XX.XOO.O.
4-2 XXOX.O.O.
1-6x2 X..X.OXO.
the game is over: who is to move has lost
"""


def examine(program, folder, shown, answer):
    assert ran(program, folder, shown) == (0, answer, ""), program
    assert ran(program, folder, NINE)[0] == 0
    for text in WRONG:
        refuses(program, 2, folder, text)
    for given in ((), (folder,), (folder, GRID, GRID), (GRID,), (GRID, folder), ("/nowhere", "X")):
        refuses(program, 2, *given)
    for place in ("/nowhere", "", f"{folder}/grid-3-3.nmmt", os.path.dirname(__file__), "x" * 5000):
        refuses(program, 1, place, GRID)
    refuses(program, 1, folder, "X..OOO...")
    refuses(program, 1, folder, "XXXXXXXXX")
    refuses(program, 1, folder, "XXXXX.OOOOO.............")
    with tempfile.TemporaryDirectory() as room:
        os.mkfifo(f"{room}/grid-3-3.nmmt")
        assert f"{room}/grid-3-3.nmmt" in refuses(program, 1, room, GRID)
        os.remove(f"{room}/grid-3-3.nmmt")
        open(f"{room}/grid-3-3.nmmt", "wb").close()
        assert refuses(program, 1, room, GRID) == f"{room}/grid-3-3.nmmt: file is too short\n"
        assert refuses(program, 1, room, "XXXX..OOO") == "no table of 4-3\n"
        # A folder's name needn't be text.
        name = os.path.join(os.fsencode(room), b"\xff")
        os.symlink(os.path.abspath(folder), name)
        assert ran(program, name, shown) == (0, answer, ""), program


programs = [[it] for it in sys.argv[2:]]
programs += [[sys.executable, f"{EMBED}/examples/{it}.py"] for it in ("best", "play")]
for program in programs:
    plays = os.path.basename(program[-1]).startswith("play")
    examine(program, sys.argv[1], *((THREE_PLIES, GAME) if plays else (GRID, BEST)))
print("all right")
