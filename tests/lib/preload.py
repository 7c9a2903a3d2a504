"""Requests for memory that are refused, one in each run, and the largest one that a run makes, by
preload.c."""

import os
import subprocess
from collections import deque
from concurrent.futures import ThreadPoolExecutor
from typing import NamedTuple

from tests.lib.program import ENVIRONMENT, Answer, count, library

# No call makes this many requests for memory.
MOST_REQUESTS = 20_000
# How many runs are under way or wait, of which those after the last request are in vain.
AHEAD = 2 * (os.cpu_count() or 1)
MOST_SECONDS = 60


def _with_refuser(words, given, told_by, **environment):
    """The answer of a command, and the numbers of bytes that preload.c told to the file descriptor
    of this variable."""
    told, tells = os.pipe()
    env = {**ENVIRONMENT, "LD_PRELOAD": library(), told_by: str(tells), **environment}
    how = {"capture_output": True, "env": env, "pass_fds": (tells,), "timeout": MOST_SECONDS}
    count()
    try:
        done = subprocess.run(words, input=given, check=False, **how)
    finally:
        os.close(tells)
        with os.fdopen(told, "rb") as it:
            sizes = memoryview(it.read()).cast("N").tolist()
    return Answer(done.returncode, done.stdout, done.stderr), sizes


class Refused(NamedTuple):
    """What a run answered of which a request for memory was refused, and of how many bytes that
    request was: 0 where the run made fewer requests."""

    answer: Answer
    size: int


def run_refused(words, number, given=b"", from_start=True):
    """Runs a command whose request for memory of this number, counted from 1, is refused."""
    how = {"REFUSED_REQUEST": str(number)}
    if from_start:
        how["REFUSE_FROM_START"] = "1"
    answer, sizes = _with_refuser(words, given, "REFUSAL_TOLD_TO", **how)
    return Refused(answer, *(sizes or [0]))


def largest_request(words, given=b""):
    """What a command answers, and for how many bytes its largest request for memory is."""
    answer, sizes = _with_refuser(words, given, "LARGEST_TOLD_TO")
    return answer, max(sizes)


class Requests(NamedTuple):
    """How many requests were refused, and how many of these to no effect."""

    refused: int
    needless: int


def refuse_each(what, start, judge, row=1, may_do_without=lambda size: False):
    """Refuses the first request of a run, in another run the second, and so on, until `row` runs
    one after the other have met no refusal.

    `start` makes the run in which the request of a number is refused, and answers a `Refused`.
    `judge` says of that "right", where it answered as it does with ample memory, "refused", or None
    where it is wrong. `may_do_without` says of a size whether the run may be right without it.
    Raises AssertionError for the first run that is wrong.
    """
    refused = needless = since = 0
    # (once, before any thread asks)
    library()
    with ThreadPoolExecutor(os.cpu_count()) as pool:
        under_way = deque(pool.submit(start, it) for it in range(1, AHEAD + 1))
        for number in range(1, MOST_REQUESTS):
            found = under_way.popleft().result()
            under_way.append(pool.submit(start, number + AHEAD))
            said = judge(found)
            if said is None:
                raise AssertionError(f"{what}: request {number} refused: {found}")
            if not found.size:
                since += 1
                if since < row:
                    continue
                if not refused:
                    raise AssertionError(f"{what}: no request was refused")
                return Requests(refused, needless)
            refused += 1
            since = 0
            if said == "right" and not may_do_without(found.size):
                raise AssertionError(f"{what}: right though request {number} is refused")
            needless += said == "right"
    raise AssertionError(f"{what}: no row of runs without a refusal among {MOST_REQUESTS}")
