"""A program whose types are those of the module: typed.py FOLDER, which has the tables of Grid and of
Nine. `mypy --strict` passes it."""

import os
import sys
from typing import List, Optional, Tuple, Union

sys.path.insert(0, os.path.dirname(os.path.dirname(os.path.abspath(__file__))))
import morris

TEXT = "XXX.OO.O."
MASKS: Tuple[int, int] = (0b000_000_111, 0b010_110_000)


def ask(tables: morris.Tables) -> morris.Value:
    """Each call gives what its type says."""
    best: Optional[morris.Outcome] = tables.choose(TEXT)
    assert best is not None
    after: str = tables.play(TEXT, best.move)
    masks: morris.Position = tables.play(MASKS, str(best.move))
    assert morris.play(TEXT, best.move, "grid") == after and not isinstance(masks, str)
    moves: List[morris.Move] = [move for move, value in tables.moves(TEXT) if value == best.value]
    line: List[morris.Ply] = tables.line(TEXT)
    assert line[0].move in moves and line[0].position == after
    maybe: Optional[morris.Value] = tables.get(TEXT)
    known: Union[morris.Value, int] = tables.get("XXXXXXOOO", 7)
    pairs: List[Tuple[int, int]] = tables.pairs
    assert maybe is not None and known == morris.Value(morris.Kind.LOST, 0) and (3, 3) in pairs
    try:
        tables.play(TEXT, "0-1")
    except morris.Fault as fault:
        status: morris.Status = fault.status
        assert status is morris.Status.ILLEGAL
    return maybe


def raised(tables: morris.Tables, text: str) -> morris.MissingTable:
    """What is raised for a position whose table is missing."""
    try:
        tables.value(text)
    except (morris.Damaged, morris.Unreadable) as fault:
        sys.exit(f"{fault.pair}: {fault.path} is refused")
    except morris.MissingTable as fault:
        return fault
    sys.exit(f"{text} has a value")


with morris.open_tables(sys.argv[1], "grid") as opened:
    assert str(ask(opened)) == "won in 3"
with morris.open_tables(sys.argv[1]) as opened:
    missing = raised(opened, "X" * 9 + "O" * 9 + "." * 6)
    pair: Tuple[int, int] = missing.pair
    assert isinstance(missing, KeyError) and pair == (9, 9)
print("all right")
