"""Builds that are killed, and builds two at a time into one folder: whatever happens, each file
under a final name is whole, and each line of the list of digests is that of its file."""

import fcntl
import os
import random
import shutil
import signal
import subprocess
import threading
import time
from collections import Counter
from concurrent.futures import ThreadPoolExecutor
from pathlib import Path

from tests.folders.common import BUILD, LIST, LOCK, files_in, files_of, lines_of, named, sums_of
from tests.folders.common import verified
from tests.folders.lists import ListCase, lines_of_others, list_in
from tests.lib.program import MORRIS, Answer, count, fault, run
from tests.lib.rules import GRID_PAIRS, name_of

PAIR = (5, 4)
# How many builds of any pair there are one after the other, of which most are killed.
BUILDS = 100
# A build isn't waited for longer than this before it is killed.
MOST_WAITED = 0.25
# How many times two builds begin at once, and in how many folders side by side.
RACES = 200
LANES = 4
SEED = 29
QUIET = {"stdin": subprocess.DEVNULL, "stdout": subprocess.PIPE, "stderr": subprocess.PIPE}


def both_layouts():
    """The files of all pairs, each by positions and by classes."""
    every = [named(files_of((6, 3), it) | files_of(PAIR, it)) for it in (False, True)]
    return {name: [it[name] for it in every] for name in every[0]}


WHOLE = both_layouts()


def words_of(folder, pair=PAIR, classes=False):
    return ["build", "grid", name_of(pair), *["--classes"] * classes, "--into", str(folder)]


def seconds_of(words):
    """How long a run takes, where the machine isn't slow."""
    began = time.monotonic()
    run(words)
    return min(time.monotonic() - began, MOST_WAITED)


def parts_in(folder):
    return {it for it in files_in(folder) if it.endswith(".part")}


class Build:
    """A build that is under way, and is killed after so many seconds, if it hasn't ended."""

    def __init__(self, folder, pair, classes, after=None):
        count()
        self.files = files_of(pair, classes)
        self.child = subprocess.Popen([MORRIS, *words_of(folder, pair, classes)], **QUIET)
        self.killer = threading.Timer(after or 0, self.child.kill)
        if after is not None:
            self.killer.start()

    def end(self):
        """What it answered."""
        output, errors = self.child.communicate()
        self.killer.cancel()
        return Answer(self.child.returncode, output, errors)


class WholeCase(ListCase):
    """Cases in which builds are disturbed."""

    def check_whole(self, folder):
        """Each file under a final name is whole, in one layout or the other, and each line of the
        list fits. Other names are those of parts."""
        for name, content in files_in(folder).items():
            if name in WHOLE:
                self.assertIn(content, WHOLE[name], f"{folder}/{name}: isn't whole")
            elif name not in (LIST, LOCK):
                part = name.removesuffix(".part")
                self.assertIn(part, (*WHOLE, LIST), f"{folder}/{name}: isn't a name of a build")
        self.check_list(folder)


class Killed(WholeCase):
    """Builds that are killed at some moment."""

    def test_those_that_end_keep_the_lines_of_the_others(self):
        """Builds of any pair and layout into one folder. One that is killed leaves whole files and
        at most one part, and no part stays once all pairs are built."""
        chance, folder = random.Random(SEED), self.new_path()
        whole = seconds_of(words_of(folder))
        for number in range(BUILDS):
            pair, classes = chance.choice(GRID_PAIRS), chance.random() < 0.5
            if chance.random() < 0.2:
                self.check_build(folder, pair, classes)
            else:
                if chance.random() < 0.2:
                    shutil.rmtree(folder)
                before, parts, files = list_in(folder), parts_in(folder), files_of(pair, classes)
                Build(folder, pair, classes, chance.uniform(0, whole)).end()
                others = lines_of_others(before, files)
                self.assertIn(list_in(folder), (before, others, others + sums_of(files)))
                self.assertLessEqual(len(parts_in(folder) - parts), 1)
            self.check_whole(folder)
            if number % 10 == 0 and list_in(folder):
                self.check_sums(folder)
        for pair in GRID_PAIRS:
            self.check_build(folder, pair)
            self.check_sums(folder)
        self.assertEqual({*files_in(folder)}, {*WHOLE, LIST, LOCK})


class Race(WholeCase):
    """Two builds into one folder at once."""

    def how_ended(self, folder, build, is_doomed):
        """`killed`, `refused` since another was at work, or `done`."""
        found = build.end()
        if found.status == -signal.SIGKILL and is_doomed:
            return "killed"
        expected = at_work(folder) if found.status == 1 else (0, lines_of(build.files), b"")
        self.same("a build beside another", found, expected)
        return "refused" if found.status == 1 else "done"

    def race(self, folder, chance, whole):
        """Two builds into one folder at once, of which one may be killed. Returns how they
        ended."""
        first = chance.random() < 0.5
        second = first if chance.random() < 0.25 else not first
        doomed, builds = chance.choice((0, 0, 1, None)), []
        for number, classes in enumerate((first, second)):
            after = chance.uniform(0, whole) if number == doomed else None
            builds.append(Build(folder, PAIR, classes, after))
            if number == 0:
                time.sleep(chance.choice((0, chance.uniform(0, whole))))
        hows = [self.how_ended(folder, it, at == doomed) for at, it in enumerate(builds)]
        self.check_whole(folder)
        done = [named(it.files) for it, how in zip(builds, hows) if how == "done"]
        found = files_in(folder)
        if done and "killed" not in hows:
            whole = any({**found, **files} == found for files in done)
            self.assertTrue(whole, f"{hows}, and no files of one that is done are there")
            self.assertTrue(any(list_in(folder).endswith(sums_of(it.files)) for it in builds), hows)
        return hows

    def races(self, folder, seed):
        """Many of them in one folder, which at first isn't there or has what an older build left,
        and then builds alone."""
        chance, ends = random.Random(seed), Counter()
        whole = seconds_of(words_of(folder, PAIR, True))
        for number in range(RACES // LANES):
            if number % 5 == 0:
                shutil.rmtree(folder)
                older = chance.choice((None, *((4, 3), (6, 3), PAIR)))
                if older is not None:
                    run(words_of(folder, older, chance.random() < 0.5))
            ends.update(self.race(folder, chance, whole))
        for classes in (False, True):
            self.check_build(folder, PAIR, classes)
            self.check_whole(folder)
            self.check_sums(folder)
        parts = {it for it in parts_in(folder) if "6-3" not in it}
        self.assertEqual(parts, set(), "parts after a build alone")
        return ends

    def test_again_and_again(self):
        """In some folders side by side: of each end there are some."""
        with ThreadPoolExecutor(LANES) as pool:
            lanes = [pool.submit(self.races, self.new_path(), SEED + it) for it in range(LANES)]
            ends = sum((it.result() for it in lanes), Counter())
        for how in ("done", "refused", "killed"):
            self.assertGreaterEqual(ends[how], RACES // 20, f"hardly any {how}: {ends}")


def at_work(folder):
    return fault(f"35: another build is at work in this folder: {folder}")


def looks_in(folder):
    """What is in a folder, and since when."""
    looks = {it: os.lstat(f"{folder}/{it}") for it in os.listdir(folder)}
    return {it: (look.st_ino, look.st_size, look.st_mtime_ns) for it, look in looks.items()}


class Locked(WholeCase):
    """A build changes nothing in a folder in which another is at work. Who reads needs no lock."""

    def test_by_another_program(self):
        folder = self.new_path()
        run([*BUILD, folder])
        with open(Path(folder, LOCK), "wb") as lock:
            fcntl.flock(lock, fcntl.LOCK_EX)
            before = looks_in(folder)
            for pair in ((3, 3), PAIR):
                self.expect(words_of(folder, pair, True), at_work(folder))
                self.assertEqual(looks_in(folder), before)
            verify = ["verify", "grid", "--from", folder]
            self.expect(verify, (0, verified(files_of((4, 3))), b""))
            words = ["lookup", "grid", "--from", folder, "XXX.OO.O."]
            self.expect(words, (0, b"XXX.OO.O. won in 3: 2-3\n", b""))
