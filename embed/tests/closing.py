"""Tables that are closed, let go or in use while the program goes on or ends: closing.py FOLDER,
which has the tables of Grid."""

import gc
import os
import sys
import threading

from expect import morris, raised, raises, run_python

OWN, OTHER, TWO = 0b000_000_111, 0b000_111_000, 0b000_000_011
CODE = f"""
tables = morris.open_tables(sys.argv[1], "grid")
position = ({OWN}, {OTHER})
value = tables.value(position)
"""
# The library, but the tables are closed while a call is on its way to it, as by another thread.
CLOSED_MEANWHILE = """
CALLS = "morris_value_of", "morris_moves_of", "morris_best", "morris_check_tables", "morris_has"

class Meanwhile:
    def __init__(self, library):
        self.library = library

    def __getattr__(self, name):
        def call(*arguments):
            if name in CALLS:
                tables.close()
            return getattr(self.library, name)(*arguments)
        return call

morris._loaded = Meanwhile(morris._library())
"""
# A thread is in a call of the library when the program ends.
BUSY = """
import threading
def ask():
    while True:
        tables.moves(position)
for _ in range(4):
    threading.Thread(target=ask, daemon=True).start()
"""


def opened():
    return morris.open_tables(sys.argv[1], "grid")


def mapped():
    """How many files of the folder are mapped."""
    with open("/proc/self/maps", encoding="utf-8") as maps:
        return sum(os.path.realpath(sys.argv[1]) + "/grid-" in line for line in maps)


def asks_closed(tables):
    """Whatever is asked of closed tables is refused, and they may be closed once more."""
    for _ in range(2):
        for position in ((OWN, OTHER), (TWO, OTHER), "XXXOOO...", "XX.OOO..."):
            for call in (tables.value, tables.get, tables.moves, tables.best, tables.choose):
                raises(ValueError, lambda: call(position))
        raises(ValueError, tables.check_digests)
        raises(ValueError, lambda: tables.line((OWN, OTHER)))
        raises(ValueError, lambda: tables.pairs)
        raises(ValueError, tables.__enter__)
        assert "closed" in repr(tables)
        tables.close()


def closes():
    tables = opened()
    assert tables.value((TWO, OTHER)) == (morris.Kind.LOST, 0) and tables.moves((TWO, OTHER)) == []
    assert mapped() == len(tables.pairs) and "open" in repr(tables)
    tables.close()
    asks_closed(tables)
    with opened() as tables:
        pass
    asks_closed(tables)
    with opened() as tables:
        tables.close()
    asks_closed(tables)
    assert mapped() == 0


def lets_go():
    """Tables that nobody has any more are closed, and only those."""
    tables, more = opened(), opened()
    count = mapped()
    del tables
    assert mapped() == count // 2 and more.value((OWN, OTHER))
    more.itself = more
    del more
    gc.collect()
    assert mapped() == 0
    for _ in range(100):
        opened()
    assert mapped() == 0


def closes_at_once():
    """Errors that are still there hold no file open."""
    tables = opened()
    errors = [raised(lambda: tables.value(it)) for it in (None, (1 << 9, OTHER), (OWN, OWN))]
    errors += [raised(lambda: tables.moves(it)) for it in (None, (1 << 9, OTHER), (OWN, OWN))]
    assert mapped() > 0 and len(errors) == 6
    tables.close()
    assert mapped() == 0
    asks_closed(tables)


def closes_in_threads():
    """Some threads ask while others close: each answer is right, or the tables are closed."""
    tables = opened()
    value, answers = tables.value((OWN, OTHER)), []

    def ask():
        try:
            while True:
                answers.append(tables.value((OWN, OTHER)))
        except ValueError as error:
            answers.append(str(error))

    askers = [threading.Thread(target=ask) for _ in range(4)]
    closers = [threading.Thread(target=tables.close) for _ in range(4)]
    for thread in (*askers, *closers):
        thread.start()
    for thread in (*askers, *closers):
        thread.join()
    closed = "the tables are closed"
    assert set(answers) <= {value, closed} and answers.count(closed) == 4
    assert mapped() == 0


def ends():
    """Programs that end while tables are open say nothing and end well."""
    folder = sys.argv[1]
    for end in (
        "",
        "tables.itself = tables",
        "del tables",
        "with tables: sys.exit()",
        "import atexit; atexit.register(lambda: print(tables.value(position)))",
        "import atexit; atexit.register(tables.close)",
        "sys.modules['morris'] = None; del morris",
        "import os; os.fork() or (tables.close(), os._exit(0)); os.wait(); tables.value(position)",
        BUSY,
        CLOSED_MEANWHILE + "assert tables.value(position) == value",
        CLOSED_MEANWHILE + "assert len(tables.moves(position)) > 0",
        CLOSED_MEANWHILE + "tables.check_digests()",
        CLOSED_MEANWHILE + "assert tables.choose(position) is not None",
        CLOSED_MEANWHILE + "assert len(tables.pairs) == 6",
    ):
        run_python(CODE + end, folder)


for part in (closes, lets_go, closes_at_once, closes_in_threads, ends):
    part()
print("all right")
