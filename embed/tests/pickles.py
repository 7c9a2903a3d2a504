"""What the module for Python hands out goes from process to process: pickles.py FOLDER, which has
the tables of Grid. A pool that hangs is reported."""

import copy
import errno
import multiprocessing
import pickle
import sys
from concurrent.futures import ProcessPoolExecutor

from expect import MOST_SECONDS, morris, raises, run_python
from morris import Damaged, Fault, Kind, MissingTable, Move, Outcome, Status, Unreadable, Value

POSITIONS = ["XXXOOO...", (0b111, 0b111), "XX.OOO...", (1, 0b111000), "X" * 9, (1 << 32, 7), None]


def opened():
    return morris.open_tables(sys.argv[1], "grid")


def ask(position):
    """In another process: each has tables of its own."""
    with opened() as tables:
        return tables.value(position)


def answers(call):
    """What a call gives or raises for each position, in words."""
    found = []
    for position in POSITIONS:
        try:
            found.append(repr(call(position)))
        except Exception as error:
            found.append(repr(error))
    return found


def copies(it):
    yield from (copy.copy(it), copy.deepcopy(it))
    for protocol in range(pickle.HIGHEST_PROTOCOL + 1):
        yield pickle.loads(pickle.dumps(it, protocol))


def values():
    first, some = POSITIONS[0], [*Kind, *Status, Move(1, 2, None), Move(1, 2, 3)]
    some += [Value(Kind.DRAW, 0), Value(Kind.WON, 9), Outcome(some[-1], Value(Kind.LOST, 0))]
    with opened() as tables:
        some += [tables.value(first), tables.moves(first), tables.best(first)]
        for call in (copy.copy, copy.deepcopy, pickle.dumps, lambda it: pickle.dumps(it, 0)):
            assert "Tables" in str(raises(TypeError, lambda: call(tables)))
        assert tables.value(first) == some[-3]
    for it in some:
        for other in copies(it):
            assert other == it and type(other) is type(it) and repr(other) == repr(it), it
            assert str(other) == str(it)
    assert repr(Outcome(Move(1, 2, None), Value(Kind.WON, 9))) == (
        "Outcome(move=Move(start=1, end=2, taken=None), value=Value(kind=<Kind.WON: 1>, depth=9))"
    )
    assert [f"{it} {it!s}" for it in Kind] == ["draw draw", "won won", "lost lost"]
    assert [str(Value(it, 2)) for it in Kind] == ["draw", "won in 2", "lost in 2"]


def order():
    """The better value is the greater."""
    won, lost = (list(Value(kind, it) for it in (0, 1, 2, 65533, 65534)) for kind in (1, 2))
    wanted = [*lost, Value(Kind.DRAW, 0), *won[::-1]]
    assert sorted(wanted[::-1]) == sorted(wanted[1::2] + wanted[::2]) == wanted
    for i, a in enumerate(wanted):
        for k, b in enumerate(wanted):
            assert (a < b, a <= b, a == b) == (b > a, b >= a, b == a) == (i < k, i <= k, i == k)
    with opened() as tables:
        for position in ("XX.XO..OO", "X.X.OXO.O", "OO.OXX.X.", "XXXOO.O.."):
            best = max(it.value for it in tables.moves(position))
            assert tables.value(position) == best == tables.best(position)[0].value


def faults():
    with opened() as tables:
        raised = raises(Fault, lambda: tables.value(POSITIONS[1]))
    assert repr(raised) == "Fault(<Status.OVERLAP: 3>, 'two stones on a point')"
    for fault in (raised, *map(Fault, Status), Fault(3), Fault(Status.NO_TABLE, "closed")):
        for other in copies(fault):
            assert type(other) is Fault and other.status is fault.status
            assert (str(other), repr(other)) == (str(fault), repr(fault))
    raises(ValueError, lambda: Fault(99))
    of_files = [
        MissingTable((4, 3)),
        Damaged(Status.SHORT, (4, 3), "T/grid-4-3.nmmt"),
        Unreadable(errno.EACCES, (4, 3), "T/grid-4-3.nmmt"),
    ]
    for fault in of_files:
        for other in copies(fault):
            assert type(other) is type(fault) and vars(other) == vars(fault) and other.args
            assert (str(other), repr(other)) == (str(fault), repr(fault))
            assert getattr(other, "filename", None) == getattr(fault, "filename", None)
    assert str(of_files[1]) == "T/grid-4-3.nmmt: file is too short"
    # A fault is read where the library isn't.
    code = "import pickle; print(pickle.loads(bytes.fromhex(sys.argv[1])))"
    for fault in (raised, *of_files):
        said = run_python(code, pickle.dumps(fault).hex(), MORRIS_LIBRARY="/nowhere")
        assert said == f"{fault}\n"


def start(folder):
    """What a process of a pool begins with: tables of its own."""
    global opened
    opened = morris.open_tables(folder, "grid")


def ask_kept(position):
    return opened.value(position), opened.choose(position)


def pools_that_keep():
    """Each process of a pool opens the tables once."""
    with opened() as tables:
        positions = [it for it in POSITIONS if isinstance(it, str)][:2] * 50
        wanted = [(tables.value(it), tables.choose(it)) for it in positions]
    for how in ("fork", "spawn", "forkserver"):
        context = multiprocessing.get_context(how)
        how = {"initializer": start, "initargs": (sys.argv[1],), "mp_context": context}
        with ProcessPoolExecutor(2, **how) as pool:
            assert list(pool.map(ask_kept, positions, chunksize=10)) == wanted, how
    # A process that was forked has the tables that were open then.
    start(sys.argv[1])
    with multiprocessing.get_context("fork").Pool(2) as pool:
        assert pool.map(ask_kept, positions) == wanted


def pools(wanted):
    """Faults and other errors come out of a pool of processes as they do out of a call."""
    for how in ("fork", "spawn"):
        context = multiprocessing.get_context(how)
        with context.Pool(2) as pool, opened() as tables:
            raises(TypeError, lambda: pool.apply(print, (tables,)))
            # All are asked before the first is awaited: an error doesn't hold up those behind it.
            asked = {it: pool.apply_async(ask, (it,)) for it in POSITIONS}
            assert answers(lambda it: asked[it].get(MOST_SECONDS)) == wanted, how
        with ProcessPoolExecutor(2, mp_context=context) as pool, opened() as tables:
            raises(TypeError, pool.submit(print, tables).result)
            asked = {it: pool.submit(ask, it) for it in POSITIONS}
            assert answers(lambda it: asked[it].result(MOST_SECONDS)) == wanted, how


if __name__ == "__main__":
    for part in (values, order, faults):
        part()
    wanted = answers(ask)
    assert [it.partition("(")[0] for it in wanted] == [
        "Value", "Fault", "Value", "Fault", "Fault", "ValueError", "TypeError"
    ], wanted
    pools(wanted)
    pools_that_keep()
    print("all right")
