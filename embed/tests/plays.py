"""Moves that are played and chosen, through the module for Python: plays.py FOLDER, which has the
tables of Grid and of Nine up to 3-3. The moves are those of the proved list."""

import sys
from itertools import combinations

from expect import morris, raises, refused
from morris import Kind, Move, Outcome, Status, Value

TEXT = "XXXOOO..."


def text_of(own, other, points):
    return "".join("X" if p in own else "O" if p in other else "." for p in range(points))


def positions(points, own_counts, other_counts):
    for own in (set(c) for n in own_counts for c in combinations(range(points), n)):
        rest = [p for p in range(points) if p not in own]
        for other in (set(c) for n in other_counts for c in combinations(rest, n)):
            yield own, other


def mask(points):
    return sum(1 << p for p in points)


def plays_each_move(tables, own, other):
    """Each move of the list leads where its points say, and a move beside it isn't played."""
    text = text_of(own, other, 9)
    moves = [it.move for it in tables.moves(text)]
    assert morris.legal_moves(text, "grid") == moves
    for move in moves:
        left, own_after = other - {move.taken}, own - {move.start} | {move.end}
        after = text_of(left, own_after, 9)
        assert tables.play(text, move) == morris.play(text, str(move), "grid") == after
        assert tables.play((mask(own), mask(other)), move) == (mask(left), mask(own_after))
        assert Move.read(str(move)) == move
    for wrong in (Move(0, 0, None), Move(*sorted(own)[:2], None), Move(min(other), 8, None)):
        if wrong not in moves:
            refused(Status.ILLEGAL, lambda: tables.play(text, wrong))


def count_drawing(tables, text, move):
    """How many moves that keep a draw there are after a move."""
    after = tables.play(text, move)
    return sum(value.kind == Kind.DRAW for _, value in tables.moves(after))


def chooses(tables, text):
    """A best move is chosen: the first, and at a draw by how many moves keep it after it."""
    best, chosen = tables.best(text), tables.choose(text)
    if not best:
        assert chosen is None and tables.line(text) == []
        return
    if best[0].value.kind == Kind.DRAW:
        fewest = min(count_drawing(tables, text, it.move) for it in best)
        best = [it for it in best if count_drawing(tables, text, it.move) == fewest]
        assert tables.line(text) == []
    assert type(chosen) is Outcome and chosen == best[0]


def goes_on(tables, position):
    """A line has as many plies as the value says, each a best one, and ends the game."""
    value = tables.value(position)
    line = tables.line(position)
    assert len(line) == (value.depth if value.kind != Kind.DRAW else 0)
    for move, after in line:
        assert move == tables.best(position)[0].move and after == tables.play(position, move)
        position = after
    assert value.kind == Kind.DRAW or tables.value(position) == (Kind.LOST, 0)


def all_of_grid(tables):
    for own, other in positions(9, (2, 3, 4), (3, 4)):
        plays_each_move(tables, own, other)
        text = text_of(own, other, 9)
        chooses(tables, text)
        goes_on(tables, text)
        goes_on(tables, (mask(own), mask(other)))
        assert tables.get(text) == tables.value(text)


def refusals(tables):
    for wrong in (None, 7, ["0-6"], [0, 6, None], b"0-6", 0.5, {0, 6}):
        raises(TypeError, lambda: tables.play(TEXT, wrong))
    for wrong in (("0", 6, None), (0, 6.0, None), (True, 6, None), (0, 6, "x"), (0, None, None)):
        raises(TypeError, lambda: tables.play(TEXT, wrong))
    for wrong in ((), (0, 6), (0, 6, None, None), "", "0", "0-", "0-6x", "-1-6", "0-6 ", "0-6\n"):
        raises(ValueError, lambda: tables.play(TEXT, wrong))
    for wrong in ("\u0660-6", "0-6x\u0663", "256-6", "x" * 10**6):
        assert len(str(raises(ValueError, lambda: tables.play(TEXT, wrong)))) < 200
    # Numbers that C would take a part of are no points.
    for wrong in ((256, 6, None), (0, 262, None), (0, 6, 255), (0, 6, 256), (-1, 6, None)):
        refused(Status.ILLEGAL, lambda: tables.play(TEXT, wrong))
    for wrong in ("0-9", "99-6", "0-6x3", "3-6", "0-1", "0-0", Move(0, 6, 2**40)):
        refused(Status.ILLEGAL, lambda: tables.play(TEXT, wrong))
    for call in (lambda it: tables.play(it, "0-6"), lambda it: morris.legal_moves(it, "grid")):
        raises(TypeError, lambda: call(None))
        raises(ValueError, lambda: call(TEXT + "."))
        refused(Status.OVERLAP, lambda: call((7, 7)))
        refused(Status.STONES, lambda: call((1, 7 << 3)))
    for board in ("", "Nine", 0, None):
        raises(ValueError, lambda: morris.play(TEXT, "0-6", board))
        raises(ValueError, lambda: morris.legal_moves(TEXT, board))


def defaults(folder):
    """The default is given for what has no table, and never for what is no position."""
    with morris.open_tables(folder) as tables:
        many, nothing = "X" * 9 + "O" * 9 + "." * 6, object()
        assert tables.get(many) is None and tables.get(many, nothing) is nothing
        assert tables.get("XX.OOO" + "." * 18, nothing) == Value(Kind.LOST, 0)
        raises(ValueError, lambda: tables.get("", nothing))
        refused(Status.STONES, lambda: tables.get("X" + "OOO" + "." * 20, nothing))
        for call in (tables.value, tables.choose, tables.line):
            fault = refused(Status.NO_TABLE, lambda: call(many))
            assert fault.pair == (9, 9) and str(fault) == "no table of 9-9"
            assert isinstance(fault, KeyError)
        line = tables.line("XXXO.O.O" + "." * 16)
        assert line and tables.value(line[-1].position) == (Kind.LOST, 0)
    raises(ValueError, lambda: tables.get(many, nothing))


with morris.open_tables(sys.argv[1], "grid") as opened:
    all_of_grid(opened)
    refusals(opened)
defaults(sys.argv[1])
print("all right")
