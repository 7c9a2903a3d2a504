"""Memory that is wanting. In one run after the other, the next request for memory is refused, until
a run has met no refusal: each answers want of memory and leaves things as they were.

Only where the standard library or clap asks a second time for less, a verification or a build goes
on without what it asked for, or a graph by classes is read without the captures that are kept, may
a run answer what it answers with ample memory. Two workers make more requests in one run than in
another, so there it goes on until a row of runs has met no refusal.

The last tests have the largest request told of runs that read a file of the usual board.
"""

import math
import re
import unittest
from pathlib import Path
from typing import NamedTuple

from tests.folders.common import BUILD, LIST, LOCK, files_in, files_of, folder_of, lines_of
from tests.folders.common import sums_of, verified
from tests.lib import preload
from tests.lib.case import MEMORY, Case
from tests.lib.chosen import TRIALS, is_built_here
from tests.lib.program import MORRIS, ROOT, Answer, fault
from tests.lib.rules import NINE, size_of
from tests.lib.steps import NO_TRIALS
from tests.lib.tables import grid_files, tables
from tests.lookups.common import answered

# How many bytes the captures take that are kept while a graph by classes is read.
KEPT_BYTES = 81_920
# No request but those for the codes and for classes is for more bytes.
SMALL = 65_536
# How many bytes classes take of each set of stones of one player; and the table of ranks beside
# them, which is the same for each pair.
CLASS_BYTES, RANK_BYTES = 8, 180_224
# What a call may do without.
NOTHING = {"may_do_without": lambda size: False}
KEPT = {"may_do_without": lambda size: size == KEPT_BYTES}
ANYTHING = {"may_do_without": lambda size: True}
# So many runs in a row meet no refusal before a command of two workers has been through.
TWO_WORKERS = {**ANYTHING, "row": 192}
# Commands, the files on standard input, and what they may do without. What they answer with ample
# memory is in worked_runs.txt.
COMMANDS = (
    ("look grid XXX.OO.O. --depth 3", "", NOTHING),
    ("stats grid 3-3", "", NOTHING),
    ("stats grid 3-3 --csv", "", NOTHING),
    ("stats grid 3-3 --classes --workers 1", "", KEPT),
    ("stats grid 3-3 --classes --workers 2", "", TWO_WORKERS),
    ("stats grid 3-3 --classes --workers 1 --deepest", "", KEPT),
    ("stats round 3-3", "", NOTHING),
    ("build grid 3-3 --workers 1 --blocks 5", "", ANYTHING),
    ("build grid 3-3 --workers 1 --all", "", ANYTHING),
    ("build grid 3-3 --workers 2 --blocks 5", "", TWO_WORKERS),
    ("verify grid --workers 1", "3-3", ANYTHING),
    ("verify grid --workers 2", "3-3", TWO_WORKERS),
    ("verify grid --workers 2", "4-3c", TWO_WORKERS),
    ("verify grid --workers 1", "", ANYTHING),
    ("verify grid --all --workers 1", "3-3c", ANYTHING),
    ("verify grid --all --workers 1", "", ANYTHING),
    ("probe grid OO.OXX.X.", "3-3", NOTHING),
    ("probe grid OO.OXX.X.", "", NOTHING),
    ("--help", "", NOTHING),
    ("help look", "", NOTHING),
    ("build --help", "", NOTHING),
    ("--version", "", NOTHING),
    ("lok grid", "", ANYTHING),
    ("look grid XXX.OO.O. --dept 3", "", ANYTHING),
    ("look grid XXX.OO.O. --depth 7", "", NOTHING),
    ("build grid 3-3 --workers 0", "", NOTHING),
    ("stats grid", "", NOTHING),
    ("", "", NOTHING),
)
# The same of commands that tell of their progress, which takes no memory that a run could do
# without.
WITH_PROGRESS = (
    ("build grid 4-3 --classes --workers 1 --blocks 5", "", ANYTHING),
    ("build grid 4-3 --classes --all --workers 1", "", ANYTHING),
    ("verify grid --workers 1", "3-3c", ANYTHING),
    ("probe grid OO.OXX.X.", "3-3c", NOTHING),
    ("probe grid XXXXO.OO.", "3-3c 4-3c", NOTHING),
)
# Commands over the files of a folder, at its place in them.
TEXT = "XXX.OO.O."
OVER_FOLDERS = (
    (f"lookup grid {TEXT} --from", ""),
    (f"lookup grid --line {TEXT} --from", ""),
    ("lookup grid --moves --from", TEXT),
    ("stats grid 4-3 --from", ""),
    ("stats grid 4-3 --csv --from", ""),
    ("find grid 4-3 deepest --from", ""),
    ("find grid 4-3 lost --all --count --from", ""),
    ("find grid 4-3 draw --all --from", ""),
)


def bundle(names):
    return b"".join(grid_files()[it] for it in names.split())


class Commands(Case):
    """Each request of the program."""

    def test_each_request(self):
        for line, names, how in COMMANDS:
            self.each_request_refused(line.split(), bundle(names), **how)

    def test_each_request_of_runs_that_tell_of_their_progress(self):
        for line, names, how in WITH_PROGRESS:
            silent, told = (
                self.each_request_refused([*line.split(), *more], bundle(names), **how)
                for more in ([], ["--progress"])
            )
            self.assertEqual(told and told.needless, silent and silent.needless, line)

    def test_each_request_over_the_files_of_a_folder(self):
        """A text for which memory is wanting is answered by that, or the whole run is."""
        wanting = answered(f"{TEXT}: {MEMORY.errors.decode()}", 1)
        for classes in (False, True):
            folder = tables("grid", "4-3", classes)
            for line, given in OVER_FOLDERS:
                words = [*line.split(), folder]
                self.each_request_refused(words, given.encode(), [wanting], **ANYTHING)


def calls():
    """The calls that the other program makes, each by its name, and the lines that it prints."""
    folder = Path(ROOT, "crates/morris_trials")
    lines = (folder / "stdout").read_bytes().splitlines(keepends=True)
    for name in (folder / "args").read_text(encoding="utf-8").split():
        yield name, [it for it in lines if it.startswith(f"{name} ".encode())]


@unittest.skipUnless(is_built_here(TRIALS), NO_TRIALS)
class Calls(Case):
    """Each request of a call of a library."""

    def test_each_call(self):
        for name, printed in calls():
            with self.subTest(name):
                self.assertTrue(printed)
                how = TWO_WORKERS if name in ("build", "build_classes") else NOTHING
                start = lambda number: preload.run_refused([TRIALS, name], number, b"", False)
                preload.refuse_each(name, start, self.judge(name, printed), **how)

    def judge(self, name, printed):
        """Judges a run: what the call answers first, and everything after that."""
        head = f"{name} first: ".encode()
        # In want of memory, the list that "back" was to fill is empty.
        left = [b"back left: []\n"] if name == "back" else []
        later = [it for it in printed if not it.startswith(head)]
        refused = [head + b"out of memory\n", *left, *later]

        def judge(found):
            if found.answer == (0, b"".join(printed), b""):
                return "right"
            return "refused" if found.size and found.answer == (0, b"".join(refused), b"") else None

        return judge


# A folder's call for which there is no memory fails, and its fault names the step and the folder.
FOLDER_MEMORY = re.compile(
    rb"fault (?:12: out of memory|(?:28: folder can't be made"
    rb"|29: file of \d-\d can't be written"
    rb"|30: file of \d-\d can't be opened"
    rb"|34: file of digests can't be written"
    rb"|36: no such folder"
    rb"|38: folder can't be locked): FOLDER: Cannot allocate memory)\n"
)
# The files of 4-3 and below by classes.
FILES = files_of((4, 3), True)
BUILD_FILES = [*BUILD[:-1], "--classes", "--workers", "1", "--blocks", "5", "--into"]


class Left(NamedTuple):
    """What a run on a folder answered, the size of the request that was refused, 0 for none, and
    what it left there."""

    answer: Answer
    size: int
    files: dict


class Folders(Case):
    """Each request of a run on a folder: the lines that it printed are those of the first files,
    and nothing else is left there but what was before, and the lock once there is one."""

    def each_refused(self, words, printed, before, after):
        """Refuses each request of a run that prints this, and has a folder of some files have
        others."""
        room, lines = self.make_room(), printed.splitlines(keepends=True)
        new = [it for it in after if it.endswith(".nmmt") and it not in before]

        def start(number):
            folder = Path(room, str(number))
            for name, content in before.items():
                folder.mkdir(exist_ok=True)
                (folder / name).write_bytes(content)
            found, size = preload.run_refused([MORRIS, *words, str(folder)], number)
            errors = found.errors.replace(bytes(folder), b"FOLDER")
            return Left(found._replace(errors=errors), size, files_in(folder))

        def judge(found):
            if (found.answer, found.files) == whole:
                return "right"
            status, output, errors = found.answer
            if found.size and status == 1 and FOLDER_MEMORY.fullmatch(errors):
                for many in range(len(lines) + 1):
                    kept = {**before, **{it: after[it] for it in new[:many]}}
                    is_kept = found.files in (kept, {**kept, LOCK: b""})
                    if is_kept and output == b"".join(lines[:many]):
                        return "refused"
            return None

        whole = Answer(0, printed, b""), after
        self.same(words, judge(start(0)), "right")
        preload.refuse_each(words, start, judge, **ANYTHING)

    def test_build_into_a_new_folder(self):
        self.each_refused(BUILD_FILES, lines_of(FILES), {}, folder_of(FILES))

    def test_build_into_a_folder_with_a_list(self):
        """Which has the line of a file that isn't replaced."""
        listed = 64 * b"0" + b"  grid-6-3.nmmt\n"
        after = {**folder_of(FILES), LIST: listed + sums_of(FILES)}
        self.each_refused(BUILD_FILES, lines_of(FILES), {LIST: listed}, after)

    def test_verify_a_folder(self):
        words = ["verify", "grid", "--workers", "1", "--from"]
        self.each_refused(words, verified(FILES), folder_of(FILES), folder_of(FILES))


class Largest(Case):
    """No request is larger than the codes of the pair in the header, or, of one that lies, than 64
    KiB, and by classes than the table of ranks or the classes of one number of stones."""

    def test_largest_request_of_reading(self):
        for pair in ((3, 3), (4, 3)):
            for version in (1, 2):
                for given, most, text in self.readings(pair, version):
                    for words in (["verify", "nine"], ["probe", "nine", "XXX...OOO" + 15 * "."]):
                        found, size = preload.largest_request([MORRIS, *words], given)
                        with self.subTest(words, pair=pair, version=version, bytes=len(given)):
                            self.assertEqual(found, fault(text))
                            self.assertLessEqual(size, most)

    def readings(self, pair, version):
        """Files of a pair of the usual board that are refused, for how many bytes the largest
        request may be, and the fault. The first two are read to their end."""
        entries = size_of(pair, version, NINE)
        header = b"NMMT" + bytes([version, NINE.number, *pair])
        codes, right = 2 * entries, header + entries.to_bytes(8, "big")
        yield right + bytes(codes + 32), codes, "20: digest is wrong"
        yield right, codes, "15: file is too short"
        classes = max(RANK_BYTES, CLASS_BYTES * math.comb(len(NINE.points), pair[0]))
        for lie in (entries + 1, 2 * entries, 2**64 - 1):
            most = SMALL if version == 1 else classes
            yield header + lie.to_bytes(8, "big"), most, "19: wrong number of entries"
