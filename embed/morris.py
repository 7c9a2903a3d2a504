"""The values of Nine Men's Morris positions, from the table files that `morris build` makes.

    import morris

    with morris.open_tables("tables") as tables:
        position = "XX.X...O.O.O............"
        print(tables.value(position))
        for move, value in tables.moves(position):
            print(move, value, tables.play(position, move))
        print(tables.choose(position))

A position is a string with a character for each point of the board, in order: `X` for a stone of
the player to move, `O` for one of the opponent, `.` for a vacant point. Or it is a pair of masks,
of the stones of the player to move and of the opponent's, in which bit p stands for point p.

The values are those that the files state: `morris verify BOARD --from FOLDER`, run once before,
says whether they are right. The files are mapped, not copied, so any threads may ask the same
`Tables`, and processes that open the same folder share the memory. A file that somebody cuts short
or changes while it is open may end the program (by the signal SIGBUS), or give wrong values: files
are replaced by renaming, as `morris build` does.

`play` and `legal_moves` need no tables.

In a clone of Morris the shared library is the one that `make -C embed` made, if it is of the same
sources as the clone, or else the one in the archive in `release/`, if that is. Elsewhere
`libmorris.so.1` is looked for beside this file, in the folder `out` there, in the folder `lib` of a
release or of the place to which this file was installed, and then where the system looks. The
environment variable `MORRIS_LIBRARY` names another. `library` says which one was taken.
"""

from __future__ import annotations

import ctypes
import enum
import errno
import os
import re
import reprlib
import subprocess
import weakref
from typing import (
    Any,
    Dict,
    List,
    NamedTuple,
    NoReturn,
    Optional,
    Sequence,
    Tuple,
    TypeVar,
    Union,
    overload,
)

__all__ = [
    "Damaged",
    "Fault",
    "Folder",
    "Kind",
    "Library",
    "MissingTable",
    "Move",
    "Outcome",
    "Ply",
    "Position",
    "Status",
    "Tables",
    "Unreadable",
    "Value",
    "legal_moves",
    "library",
    "open_tables",
    "play",
    "version",
]

# The version of the interface that is called here.
_INTERFACE = 1
# The number of each board, and how many points it has.
_BOARDS = {"nine": (0, 24), "grid": (1, 9)}
# What morris.h has in place of a point, and how many moves there are at most.
_NONE = 255
_MOST_MOVES = 1944
# The numbers of stones that tables are of.
_STONES = range(3, 10)

Position = Union[str, Tuple[int, int], List[int]]
"""A position string, or the mask of the player to move and the one of the opponent."""

Folder = Union[str, bytes, "os.PathLike[str]", "os.PathLike[bytes]"]
"""The path of a folder, or of several with colons between them."""

_Default = TypeVar("_Default")


class Status(enum.IntEnum):
    """What a call of the library answers: the statuses of `morris.h` and `morris_folder.h`."""

    OK = 0
    NO_BOARD = 1
    OFF_BOARD = 2
    OVERLAP = 3
    STONES = 4
    NO_TABLE = 5
    NOT_PREPARED = 6
    ROOM = 7
    SHORT = 8
    MAGIC = 9
    VERSION = 10
    OTHER_BOARD = 11
    COUNTS = 12
    CROWDED = 13
    ENTRIES = 14
    TRAILING = 15
    DIGEST = 16
    ILLEGAL = 19
    OVER = 20
    DISAGREE = 21
    OTHER_PAIR = 22
    SYSTEM = 100


class _Value(ctypes.Structure):
    _fields_ = [("kind", ctypes.c_uint16), ("depth", ctypes.c_uint16)]


class _Move(ctypes.Structure):
    _fields_ = [
        ("start", ctypes.c_uint8),
        ("end", ctypes.c_uint8),
        ("taken", ctypes.c_uint8),
        ("pad", ctypes.c_uint8),
        ("value", _Value),
    ]


class _Fault(ctypes.Structure):
    _fields_ = [
        ("status", ctypes.c_int32),
        ("system", ctypes.c_int32),
        ("greater", ctypes.c_uint32),
        ("lesser", ctypes.c_uint32),
        ("path", ctypes.c_char_p),
        ("text", ctypes.c_char_p),
    ]


# A position string with these in place of its characters is the mask of a player, as binary digits.
_OWN = str.maketrans("XO.", "100")
_OTHER = str.maketrans("XO.", "010")


class Fault(Exception):
    """A call was refused, for what `status` says; `text` is that in English. If it is about a file,
    it is one of `MissingTable`, `Damaged` and `Unreadable`."""

    def __init__(self, status: int, text: Optional[str] = None) -> None:
        self.status = Status(status)
        self.text: str = text or _library().morris_error(self.status).decode()
        # A fault is copied and pickled as the call that makes it anew.
        super().__init__(self.status, self.text)

    def __str__(self) -> str:
        return self.text


class MissingTable(Fault, KeyError):
    """No file has the name of `pair`: the numbers of stones, the greater one first, of a position
    that is asked for or that a move leads to."""

    def __init__(self, pair: Tuple[int, int]) -> None:
        super().__init__(Status.NO_TABLE, f"no table of {pair[0]}-{pair[1]}")
        self.pair = pair
        self.args = (pair,)


class Damaged(Fault):
    """The file at `path` isn't the table of `pair`, which its name says: `reason` is why, that of
    `status` in English."""

    def __init__(
        self, status: int, pair: Tuple[int, int], path: str, reason: Optional[str] = None
    ) -> None:
        super().__init__(status, reason)
        self.reason, self.text = self.text, f"{path}: {self.text}"
        self.pair, self.path = pair, path
        self.args = (self.status, pair, path, self.reason)


class Unreadable(Fault, OSError):
    """The system refused to open the file at `path`, which has the name of `pair`: `errno`,
    `strerror` and `filename` are those of `OSError`."""

    def __init__(self, number: int, pair: Tuple[int, int], path: str) -> None:
        Fault.__init__(self, Status.SYSTEM, f"{path}: {os.strerror(number)}")
        OSError.__init__(self, number, os.strerror(number), path)
        self.pair, self.path = pair, path

    def __reduce__(self) -> Tuple[Any, ...]:
        return type(self), (self.errno, self.pair, self.path)


class Kind(enum.IntEnum):
    """What best play of both players leads to, for the player to move. The numbers are those of
    `morris.h`, and no order."""

    DRAW = 0
    WON = 1
    LOST = 2

    def __str__(self) -> str:
        return self.name.lower()


class Value(NamedTuple):
    """The value of a position, or what a move leads to for the player who makes it. Of two values
    the better one is the greater: sooner wins, then later ones, draws, later losses, sooner ones.
    """

    kind: Kind
    depth: int
    """In how many plies the game is over by best play, 0 at a draw."""

    def __str__(self) -> str:
        return "draw" if self.kind == Kind.DRAW else f"{Kind(self.kind)} in {self.depth}"

    def _score(self) -> float:
        if self.kind == Kind.DRAW:
            return 0
        return (1 if self.kind == Kind.WON else -1) / (1 + self.depth)

    def __lt__(self, other: object) -> bool:
        if not isinstance(other, Value):
            return NotImplemented
        return self._score() < other._score()

    def __le__(self, other: object) -> bool:
        if not isinstance(other, Value):
            return NotImplemented
        return self._score() <= other._score()

    def __gt__(self, other: object) -> bool:
        if not isinstance(other, Value):
            return NotImplemented
        return self._score() > other._score()

    def __ge__(self, other: object) -> bool:
        if not isinstance(other, Value):
            return NotImplemented
        return self._score() >= other._score()


class Move(NamedTuple):
    """A move of a stone, and the point of the opponent's stone that it takes, if any."""

    start: int
    end: int
    taken: Optional[int]

    @classmethod
    def read(cls, text: str) -> Move:
        """The move that a string such as `3-2` or `3-2x22` shows. Raises `ValueError` otherwise."""
        found = re.fullmatch(r"([0-9]{1,2})-([0-9]{1,2})(?:x([0-9]{1,2}))?", text)
        if found is None:
            raise ValueError(f"no move, such as 3-2 or 3-2x22: {reprlib.repr(text)}")
        return cls(int(found[1]), int(found[2]), None if found[3] is None else int(found[3]))

    def __str__(self) -> str:
        capture = "" if self.taken is None else f"x{self.taken}"
        return f"{self.start}-{self.end}{capture}"


class Outcome(NamedTuple):
    """A legal move and the value that it leads to, for the player who makes it."""

    move: Move
    value: Value


class Ply(NamedTuple):
    """A move and the position after it, in which the other player is to move."""

    move: Move
    position: Position


class Library(NamedTuple):
    """The shared library whose calls the module makes."""

    path: str
    """Its path, or a bare name where the system found it."""
    origin: str
    """Why it is this one, in words."""

    def __str__(self) -> str:
        return f"{self.path}, {self.origin}"


_loaded: Optional[ctypes.CDLL] = None
_taken: Optional[Library] = None
# What the first line means that `launcher/library` of a clone prints.
_ORIGINS = {
    "built": "which was built here",
    "stale": "the released one, since embed/out/libmorris.so isn't of these sources: "
    "`make -C embed` builds it anew",
    "released": "the released one",
    "unkept": "the released one, which was unpacked for this run alone",
}


def _of_clone() -> Optional[Tuple[str, str]]:
    """What `launcher/library` prints, if this file stands in a clone of Morris: a key of
    `_ORIGINS`, and the path. Raises `OSError` where it says that there is no library of the clone's
    sources."""
    folder = os.path.dirname(os.path.realpath(__file__))
    finder = os.path.join(os.path.dirname(folder), "launcher", "library")
    if os.path.basename(folder) != "embed" or not os.path.isfile(finder):
        return None
    try:
        done = subprocess.run(["/bin/sh", finder], stdin=subprocess.DEVNULL, capture_output=True)
    except OSError as error:
        raise OSError(f"{finder} can't be run: {error}") from None
    if done.returncode:
        raise OSError(os.fsdecode(done.stderr).strip())
    origin, _, path = os.fsdecode(done.stdout).partition("\n")
    return origin, path[:-1]


def _load() -> Tuple[Library, ctypes.CDLL]:
    """The shared library, and which one it is."""
    name, folder = "libmorris.so.1", os.path.dirname(os.path.abspath(__file__))
    near = ((), ("out",), ("..", "lib"), ("..", ".."))
    places = [os.path.normpath(os.path.join(folder, *it, name)) for it in near]
    where = f"looked for {', '.join(places)}, and where the system looks"
    found = None if os.environ.get("MORRIS_LIBRARY") else _of_clone()
    if found is not None:
        taken = Library(found[1], _ORIGINS[found[0]])
        where = taken.origin
    elif os.environ.get("MORRIS_LIBRARY"):
        taken = Library(os.environ["MORRIS_LIBRARY"], "which MORRIS_LIBRARY names")
        where = "the variable MORRIS_LIBRARY names it"
    else:
        path = next(filter(os.path.exists, places), None)
        taken = Library(path or name, "beside the module" if path else "where the system found it")
    try:
        return taken, ctypes.CDLL(taken.path, use_errno=True)
    except OSError as error:
        raise OSError(
            f"the library of Morris can't be loaded ({error}): {where}. `make -C embed` in a clone "
            "of Morris makes it, and a wheel of Morris has it"
        ) from None
    finally:
        if found is not None and found[0] == "unkept":
            os.remove(taken.path)


def _calls() -> Dict[str, Tuple[Any, List[Any]]]:
    """The results and arguments of the calls of `morris.h` that are made here."""
    pointer, number, size = ctypes.POINTER, ctypes.c_uint32, ctypes.c_size_t
    text, status, tables = ctypes.c_char_p, ctypes.c_int32, ctypes.c_void_p
    listed = [pointer(_Move), size, pointer(size)]
    return {
        "morris_open": (tables, [text, number, pointer(status)]),
        "morris_close": (None, [tables]),
        "morris_has": (status, [tables, number, number]),
        "morris_value_of": (status, [tables, number, number, pointer(_Value)]),
        "morris_moves_of": (status, [tables, number, number, *listed]),
        "morris_best": (status, [tables, number, number, pointer(_Move)]),
        "morris_check_tables": (status, [tables]),
        "morris_legal_moves": (status, [number, number, number, *listed]),
        "morris_play": (status, [number] * 3 + [pointer(_Move), pointer(number), pointer(number)]),
        "morris_error": (text, [status]),
        "morris_last_fault": (pointer(_Fault), []),
        "morris_interface": (status, []),
        "morris_version": (text, []),
    }


def _library() -> ctypes.CDLL:
    """The shared library, with the types of its calls. Raises `OSError` where there is none."""
    global _loaded, _taken
    if _loaded is not None:
        return _loaded
    taken, library = _load()
    for call, (result, arguments) in _calls().items():
        function = getattr(library, call, None)
        if function is None:
            raise OSError(
                f"{taken.path} isn't this version of the library of Morris: it has no {call}"
            )
        function.restype, function.argtypes = result, arguments
    if library.morris_interface() != _INTERFACE:
        raise OSError(
            f"{taken.path} isn't this version of the library of Morris: its calls are others"
        )
    _loaded, _taken = library, taken
    return library


def library() -> Library:
    """Which shared library the module calls: its path, and why it is this one. Raises `OSError`
    where there is none."""
    _library()
    assert _taken is not None
    return _taken


def version() -> str:
    """The version of Morris that the library is of, as `morris --version` prints it."""
    found: bytes = _library().morris_version()
    return found.decode()


def _done(status: int) -> None:
    """Raises the fault of a status, where it is one."""
    if status != Status.OK:
        raise Fault(status)


def _answered(status: int) -> None:
    """Raises the fault of a call over tables, which the library noted, where it is one."""
    if status == Status.OK:
        return
    fault = _library().morris_last_fault().contents
    pair = fault.greater, fault.lesser
    if fault.status != status or not any(pair):
        raise Fault(status)
    if fault.path is None:
        raise MissingTable(pair)
    path = os.fsdecode(fault.path)
    if status == Status.SYSTEM:
        raise Unreadable(fault.system, pair, path)
    raise Damaged(status, pair, path)


# The kinds of values by their numbers.
_KINDS = tuple(Kind)


def _value(value: _Value) -> Value:
    return Value(_KINDS[value.kind], value.depth)


def _move(move: _Move) -> Move:
    return Move(move.start, move.end, None if move.taken == _NONE else move.taken)


def _masks(position: Position, points: int) -> Tuple[int, int]:
    """The masks of the player to move and of the opponent, which fit the board. Nothing else may
    reach C, which would take a part of it for another position."""
    if isinstance(position, str):
        if len(position) != points or position.strip("XO."):
            raise ValueError(f"not {points} characters X, O and .: {reprlib.repr(position)}")
        # Bit 0 is the last of the digits.
        digits = position[::-1]
        return int(digits.translate(_OWN), 2), int(digits.translate(_OTHER), 2)
    if not isinstance(position, (tuple, list)):
        raise TypeError(f"a position is a text or two masks, not {type(position).__name__}")
    if len(position) != 2:
        raise ValueError(f"a position is two masks, not {len(position)}")
    own, other = position
    for mask in (own, other):
        if isinstance(mask, bool) or not isinstance(mask, int):
            raise TypeError(f"a mask is an int, not {type(mask).__name__}")
        if not 0 <= mask < 1 << points:
            raise ValueError(f"a mask of {points} points is from 0 to below 2 ** {points}")
    return own, other


def _points(board: str) -> Tuple[int, int]:
    """The number of a board, and how many points it has."""
    if board not in _BOARDS:
        raise ValueError(f"the board is {' or '.join(_BOARDS)}, not {board!r}")
    return _BOARDS[board]


def _text(masks: Tuple[int, int], points: int) -> str:
    own, other = masks
    return "".join("X" if own >> p & 1 else "O" if other >> p & 1 else "." for p in range(points))


def _given_move(move: Union[Move, str, Sequence[Optional[int]]], points: int) -> _Move:
    """The move for C. Numbers that are no points reach no call: C would take a part of them."""
    if isinstance(move, str):
        move = Move.read(move)
    if not isinstance(move, tuple):
        raise TypeError(f"a move is a Move or a text, not {type(move).__name__}")
    if len(move) != 3:
        raise ValueError(f"a move has start, end and taken, not {len(move)} parts")
    for point in move[:2] if move[2] is None else move:
        if isinstance(point, bool) or not isinstance(point, int):
            raise TypeError(f"a point is an int, not {type(point).__name__}")
        if not 0 <= point < points:
            raise Fault(Status.ILLEGAL)
    return _Move(move[0], move[1], _NONE if move[2] is None else move[2])


@overload
def play(position: str, move: Union[Move, str], board: str = "nine") -> str: ...
@overload
def play(position: Position, move: Union[Move, str], board: str = "nine") -> Position: ...
def play(position: Position, move: Union[Move, str], board: str = "nine") -> Position:
    """The position after a legal move, in which the other player is to move: a string where a
    string is given, and else two masks. The move may be a string such as `3-2` or `3-2x22`. Needs
    no tables.

    Raises `Fault` with ILLEGAL where the move isn't legal, with OVERLAP or STONES where no position
    is like that; `ValueError` and `TypeError` for what is no position of the board, or no move."""
    number, points = _points(board)
    own, other = ctypes.c_uint32(), ctypes.c_uint32()
    masks, given = _masks(position, points), _given_move(move, points)
    _done(_library().morris_play(number, *masks, given, own, other))
    after = own.value, other.value
    return _text(after, points) if isinstance(position, str) else after


def legal_moves(position: Position, board: str = "nine") -> List[Move]:
    """The legal moves of a position, in order of start, end and taken. Needs no tables.

    Raises `Fault` with OVERLAP or STONES where no position is like that; `ValueError` and
    `TypeError` for what is no position of the board."""
    number, points = _points(board)
    out, count = (_Move * _MOST_MOVES)(), ctypes.c_size_t()
    masks = _masks(position, points)
    _done(_library().morris_legal_moves(number, *masks, out, len(out), count))
    return [_move(it) for it in out[:count.value]]


class _Files:
    """The open files of some folders. They are given back once nobody has them any more, neither
    `Tables` nor a call that is under way."""

    def __init__(self, handle: int) -> None:
        self.handle = handle
        # At the end of the program the system does it: a thread may still be in a call.
        weakref.finalize(self, _library().morris_close, handle).atexit = False


class Tables:
    """Open table files of one board. Made by `open_tables`, and closed by `close` or `with`, or
    once nobody has them any more. `board` is the board's name. Any threads may ask and close them;
    they can't be copied or pickled (`TypeError`), so each process opens its own, or has those that
    were open when it was forked."""

    def __init__(self, folder: Folder, board: str = "nine") -> None:
        number, self._count = _points(board)
        path = os.fsencode(folder)
        if b"\0" in path:
            raise ValueError(f"a path has no NUL byte: {path!r}")
        self.board = board
        status = ctypes.c_int32()
        handle: Optional[int] = _library().morris_open(path, number, status)
        if status.value == Status.NO_TABLE:
            raise FileNotFoundError(errno.ENOENT, "no table files of the board", os.fspath(folder))
        if status.value == Status.SYSTEM:
            fault = _library().morris_last_fault().contents
            at = os.fspath(folder) if fault.path in (None, path) else os.fsdecode(fault.path)
            raise OSError(fault.system, os.strerror(fault.system), at)
        _done(status.value)
        assert handle is not None
        self._files: Optional[_Files] = _Files(handle)

    def __enter__(self) -> Tables:
        self._open_files()
        return self

    def __exit__(self, *_: object) -> None:
        self.close()

    def __repr__(self) -> str:
        return f"<Tables of {self.board}, {'closed' if self._files is None else 'open'}>"

    def __reduce__(self) -> NoReturn:
        raise TypeError("Tables can't be copied or pickled: open the folder once more instead")

    def close(self) -> None:
        """Gives the files back, once calls of other threads that are under way have ended. All that
        is asked after it raises `ValueError`, but a second `close`."""
        self._files = None

    def _open_files(self) -> _Files:
        files = self._files
        if files is None:
            raise ValueError("the tables are closed")
        return files

    @property
    def pairs(self) -> List[Tuple[int, int]]:
        """The pairs of numbers of stones, the greater one first, whose name a file has, in order.
        What is in a file isn't looked at. Raises `ValueError` where the tables are closed."""
        files, has = self._open_files(), _library().morris_has
        all_pairs = [(a, b) for a in _STONES for b in _STONES if b <= a]
        return [pair for pair in all_pairs if has(files.handle, *pair)]

    def _status(self, call: str, position: Position, *out: object) -> int:
        """What C answers for a position. No frame of a fault that comes of it has the files."""
        masks = _masks(position, self._count)
        files = self._open_files()
        status: int = getattr(_library(), call)(files.handle, *masks, *out)
        return status

    def value(self, position: Position) -> Value:
        """The value of a position for the player to move.

        Raises `TypeError` for what is neither a string nor a tuple or list of ints; `ValueError`
        for a string or masks that don't fit the board, and where the tables are closed; `Fault`
        with OVERLAP or STONES where no position is like that; `MissingTable` where no file has its
        pair; `Damaged` where what has the name of that file isn't its table, with SHORT, MAGIC,
        VERSION, OTHER_BOARD, COUNTS, CROWDED, ENTRIES, TRAILING or OTHER_PAIR; and `Unreadable`
        where the system refused that file. All three are `Fault`."""
        out = _Value()
        _answered(self._status("morris_value_of", position, out))
        return _value(out)

    @overload
    def get(self, position: Position) -> Optional[Value]: ...
    @overload
    def get(self, position: Position, default: _Default) -> Union[Value, _Default]: ...
    def get(self, position: Position, default: Optional[_Default] = None) -> object:
        """The value of a position, or `default` where no file has its pair. Else raises what
        `value` raises: a file that is damaged isn't one that is missing."""
        out = _Value()
        status = self._status("morris_value_of", position, out)
        if status == Status.NO_TABLE:
            return default
        _answered(status)
        return _value(out)

    def moves(self, position: Position) -> List[Outcome]:
        """The legal moves in order of start, end and taken, each with what it leads to. Raises what
        `value` raises, for the position itself or one that a move leads to."""
        out, count = (_Move * _MOST_MOVES)(), ctypes.c_size_t()
        _answered(self._status("morris_moves_of", position, out, len(out), count))
        return [Outcome(_move(it), _value(it.value)) for it in out[:count.value]]

    def best(self, position: Position) -> List[Outcome]:
        """The best moves: those that lead to the value of the position itself. Raises what `value`
        and `moves` raise."""
        value = self.value(position)
        return [outcome for outcome in self.moves(position) if outcome.value == value]

    def choose(self, position: Position) -> Optional[Outcome]:
        """One of the best moves, or None where the game is over. Of several that win or lose it is
        the first; of several that keep a draw the first of those after which the opponent has the
        fewest moves that keep it too. A table doesn't rank draws: this is a rule of thumb.

        Raises what `value` and `moves` raise, for the position and for those that drawing moves
        lead to, and `Fault` with DISAGREE where the files say of the position what doesn't follow
        from what they say of its moves."""
        out = _Move()
        status = self._status("morris_best", position, out)
        if status == Status.OVER:
            return None
        _answered(status)
        return Outcome(_move(out), _value(out.value))

    def line(self, position: Position) -> List[Ply]:
        """A line of best play, as `morris lookup --line` gives it: at each ply the first best move,
        with the position after it, to the end of the game. At a draw it is empty. Raises what
        `choose` raises, for any position of the line."""
        found: List[Ply] = []
        value = self.value(position)
        while value.kind != Kind.DRAW:
            chosen = self.choose(position)
            if chosen is None:
                break
            position = self.play(position, chosen.move)
            found.append(Ply(chosen.move, position))
        return found

    @overload
    def play(self, position: str, move: Union[Move, str]) -> str: ...
    @overload
    def play(self, position: Position, move: Union[Move, str]) -> Position: ...
    def play(self, position: Position, move: Union[Move, str]) -> Position:
        """The position after a legal move, as the function `play` gives it."""
        return play(position, move, self.board)

    def check_digests(self) -> None:
        """Reads all files. Raises `Damaged` at the first that is damaged: with SHORT, MAGIC,
        VERSION, OTHER_BOARD, COUNTS, CROWDED, ENTRIES, TRAILING or OTHER_PAIR for its header and
        length, with DIGEST for its digest; `Unreadable` where the system refused it; and
        `ValueError` where the tables are closed. Only `morris verify` says whether the values of a
        file are right: whoever writes it can write the digest of any values."""
        _answered(self._damage())

    def _damage(self) -> int:
        """The status of the first file that is damaged."""
        files = self._open_files()
        status: int = _library().morris_check_tables(files.handle)
        return status


def open_tables(folder: Folder, board: str = "nine") -> Tables:
    """Opens the table files of a board, `nine` or `grid`, that lie in a folder under the names that
    `morris build` gives them. A path that names nothing that is there is divided at its colons, as
    in `tables:/usr/share/morris`: of each pair the first folder that has its file gives it.

    A file that is damaged, or that the system refuses, is refused where its pair is asked for.

    Raises `FileNotFoundError` where there are none; another `OSError` where the system refuses a
    folder or each of the files, where nothing that has such a name is a regular file, and where the
    shared library isn't found; `ValueError` for another board, or a path with a NUL byte;
    `TypeError` for what is no path."""
    return Tables(folder, board)
