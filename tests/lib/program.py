"""How suites run the program: with arguments, an input and streams that may be held up, and what it
answers.

Which program that is, tests/lib/chosen.py says.
"""

import fcntl
import functools
import os
import re
import resource
import signal
import subprocess
import tempfile
import threading
import unittest
from concurrent.futures import ProcessPoolExecutor
from pathlib import Path
from typing import NamedTuple, Optional

from tests.lib.chosen import program
from tests.lib.steps import C_COMPILER, NO_C_COMPILER, ROOT, is_there

MORRIS = program()
# No run takes this many seconds.
MOST_SECONDS = 300
# How many runs a process of the pool is handed at a time, and after how many wrong ones of a row of
# runs the rest isn't made.
AT_ONCE, MOST_WRONG = 16, 20
# How much of an answer is shown that isn't the expected one, and how much of an input.
SHOWN, SHOWN_INPUT = 2000, 32
# The file descriptor of the first file that a run opens whose streams are held up: the lowest free
# one. The one that counts the calls stands above it.
OPENED, COUNTED_BY = 3, 64
# What the program prints of positions and of a pair of the board grid.
LOOKED = (
    b"XXX.OO.O.\nown 3 other 3\n0-3\n0-6\n0-8\n1-3\n1-6\n1-8\n2-3\n2-6\n2-8\nmoves 9\nwon in 3\n"
)
COUNTED = b"3-3 1680 positions\nwon in 1: 936\nlost in 2: 36\nwon in 3: 108\ndraw: 600\n"
DEEPEST = COUNTED + b"deepest win: XXXOO.O.. won in 3\ndeepest loss: XXOX..O.O lost in 2\n"
PROBED = b"OO.OXX.X.\nlost in 2\n4-2\n4-6\n4-8\n5-2\n5-6\n5-8\n7-2\n7-6\n7-8\n"
# The digests at the end of its table files, as another program computed them, by pair and version.
DIGESTS = {
    ((3, 3), 1): "d66a9ecf001cc695c7904bf2b8bdbcc3ac275065c3b579b95f4f845e2a95d18d",
    ((3, 3), 2): "89f44e18a946218d2123e23d32b258f099e18c48b82512e49abab10ff5a72d8a",
    ((4, 3), 2): "edb52c0945c8e33531d3a377ac8fdf58e45ac9b006278ba767d9e3b63795ec8d",
}
# What every run has of the environment.
ENVIRONMENT = {"PATH": "/usr/bin:/bin", "LANG": "C.UTF-8"}


class Begins(bytes):
    """A text of which only the beginning is fixed."""

    def __eq__(self, other):
        return isinstance(other, bytes) and other[: len(self)] == bytes(self)

    __hash__ = bytes.__hash__


class Has(bytes):
    """Lines of which each occurs in the text, in this order, also as a part of a line there."""

    def __eq__(self, other):
        place = 0
        for line in self.splitlines():
            place = other.find(line, place) + len(line)
            if place < len(line):
                return False
        return True

    __hash__ = bytes.__hash__


class Answer(NamedTuple):
    """What a run of the program answered."""

    status: int
    output: bytes
    errors: bytes


# The answer to arguments that aren't allowed.
USAGE_ERROR = Answer(2, b"", Begins(b"error: "))


class Stream(NamedTuple):
    """How a stream of the program is held up, by preload.c."""

    descriptor: int
    # How many bytes a call moves at most, and which call fails, counted from 1: 0 for none.
    most: int = 0
    failing: int = 0


class Run(NamedTuple):
    """A run of the program: its arguments, its input, how its streams are held up, and the answer
    that is expected."""

    words: list
    expected: Optional[tuple]
    given: bytes = b""
    stream: Optional[Stream] = None
    # How many calls there are on that stream, where that is fixed.
    calls: Optional[int] = None
    # How many bytes the output, and the errors, have room for, in a file.
    room: Optional[int] = None
    error_room: Optional[int] = None
    # What stands in place of the program's name.
    name: str = "morris"
    # Whether the input is a folder, which can't be read.
    of_folder: bool = False


# ---- counting

_runs, _counting = 0, threading.Lock()


def count(more=1):
    """Counts runs that were made."""
    global _runs
    with _counting:
        _runs += more


def runs_made():
    """How many runs of the program this process has counted."""
    return _runs


# ---- single runs


@functools.cache
def _room():
    return tempfile.TemporaryDirectory(prefix="morris-preload-")


@functools.cache
def library():
    """The path of the library that the loader puts in front of the C library, made of preload.c.
    Without a compiler the test that asks for it is skipped."""
    if not is_there(C_COMPILER[0]):
        raise unittest.SkipTest(NO_C_COMPILER)
    source, made = Path(__file__).with_name("preload.c"), f"{_room().name}/preload.so"
    flags = ["-shared", "-fPIC", "-O2", "-nostdlib"]
    subprocess.run([*C_COMPILER, *flags, source, "-o", made], check=True)
    return made


def fault(text):
    """The answer that is a fault, such as "12: out of memory"."""
    return Answer(1, b"", f"fault {text}\n".encode())


def run(words, given=b"", program=MORRIS, seconds=MOST_SECONDS, **how):
    """What the program answers to these arguments and this input."""
    count()
    streams = {"input": given, "stdout": subprocess.PIPE, "stderr": subprocess.PIPE}
    if "stdin" in how:
        del streams["input"]
    done = subprocess.run([program, *words], **{**streams, **how}, timeout=seconds, check=False)
    return Answer(done.returncode, done.stdout or b"", done.stderr or b"")


def limit(room):
    """Has no file of this process grow past so many bytes: a write past them fails."""
    signal.signal(signal.SIGXFSZ, signal.SIG_IGN)
    resource.setrlimit(resource.RLIMIT_FSIZE, (room, room))


def _start(asked, counter):
    """The arguments of `subprocess.run` for a run: where its streams lead, its environment and its
    limits."""
    env = dict(ENVIRONMENT)
    how = {"executable": MORRIS, "env": env, "timeout": MOST_SECONDS, "check": False}
    if asked.of_folder:
        how["stdin"] = os.open("/", os.O_RDONLY)
    else:
        how["input"] = asked.given
    if asked.stream:
        held = {
            "LD_PRELOAD": library(),
            "STREAM": asked.stream.descriptor,
            "MOST_BYTES": asked.stream.most,
            "FAILING_CALL": asked.stream.failing,
            "CALLS_TOLD_TO": counter,
        }
        env.update({name: str(it) for name, it in held.items()})
        how["pass_fds"] = (counter,)
    for name, room in (("stdout", asked.room), ("stderr", asked.error_room)):
        how[name] = subprocess.PIPE
        if room is not None:
            how[name] = tempfile.TemporaryFile()
            how["preexec_fn"] = lambda room=room: limit(room)
    return how


def answer(asked):
    """What a run answers, and how many calls there were on the stream that was held up."""
    file, counter = tempfile.TemporaryFile() if asked.stream else None, None
    if file:
        counter = fcntl.fcntl(file, fcntl.F_DUPFD, COUNTED_BY)
    how = _start(asked, counter)
    done = subprocess.run([asked.name, *asked.words], **how)
    if asked.of_folder:
        os.close(how["stdin"])
    said = []
    for name, text in (("stdout", done.stdout), ("stderr", done.stderr)):
        if how[name] is not subprocess.PIPE:
            with how[name] as it:
                it.seek(0)
                text = it.read()
        said.append(text)
    calls = os.fstat(counter).st_size if file else None
    if file:
        os.close(counter)
        file.close()
    return Answer(done.returncode, *said), calls


# ---- progress


def masked(errors, without_memory):
    """Errors in which S stands for the seconds that lines of progress tell, without about how many
    are left, and where it is asked for M for the memory. A line of a wave or of a block, which
    comes where the machine is slow, is left out where it names the pair that is done next, and how
    much was done before."""
    lines, done = [], b"0"
    for line in errors.splitlines(keepends=True):
        if without_memory:
            line = re.sub(rb"^(progress: \d+ entries, about )\d+ MB", rb"\1M MB", line)
        line = re.sub(rb"^(progress: .* %\)), \d+ s(, about \d+ .* left)?\n", rb"\1, S s\n", line)
        lines.append(line)
    kept = []
    for place, line in enumerate(lines):
        found = re.fullmatch(rb"(progress: .-.)( wave \d+)?, (\d+) of \d+ entries .*, S s\n", line)
        after = b"".join(it for it in lines[place + 1 :] if b" done, " in it)
        if found and found[3] == done and after.startswith(found[1] + b" done, "):
            continue
        kept.append(line)
        if b" done, " in line:
            done = line.split(b" done, ")[1].split(b" ")[0]
    return b"".join(kept)


# ---- many runs


def judge(asked):
    """Why a run isn't right, or None."""
    try:
        got, calls = answer(asked)
    except subprocess.TimeoutExpired:
        return f"{asked.words}: had not ended after {MOST_SECONDS} seconds"
    if b"progress: " in asked.expected[2]:
        got = got._replace(errors=masked(got.errors, b" M MB of memory\n" in asked.expected[2]))
    # A text of which only the beginning is fixed stands on the left.
    if tuple(asked.expected) == tuple(got) and asked.calls in (None, calls):
        return None
    how = asked._replace(given=asked.given[:SHOWN_INPUT], expected=None)
    return f"{how}: answered {got!r:.{SHOWN}} after {calls} calls, not {asked.expected!r:.{SHOWN}}"


def _left(given):
    """Leaves a long input in a file, and says where."""
    if len(given) <= SHOWN_INPUT:
        return ""
    with tempfile.NamedTemporaryFile(prefix="morris-input-", delete=False) as file:
        file.write(given)
    return f", with the input {file.name}"


def judge_all(asked, at_once=AT_ONCE):
    """Makes runs side by side. Returns what is wrong with those that aren't right, of which the
    first are enough. The input of the first one is left in a file."""
    asked, wrong = list(asked), []
    if any(it.stream for it in asked):
        # (once, before any process of the pool asks)
        library()
    with ProcessPoolExecutor(os.cpu_count()) as pool:
        for one, said in zip(asked, pool.map(judge, asked, chunksize=at_once)):
            count()
            if said is not None:
                wrong.append(said if wrong else said + _left(one.given))
            if len(wrong) == MOST_WRONG:
                pool.shutdown(cancel_futures=True)
                break
    return wrong
