"""Lists of digests: which lines of it a build keeps, and what it makes of lists that are damaged,
lie outside, or are too long.

And what is made to last: the order in which bytes and names come to the device.
"""

import os
import random
import re
import shutil
import subprocess
from pathlib import Path

from tests.folders.common import BUILD, LIST, LOCK, FolderCase, files_in, files_of, lines_of
from tests.folders.common import named, put, sums_of
from tests.lib.program import MORRIS, fault, run
from tests.lib.rules import GRID_PAIRS, name_of

# The file of a pair that is in a folder before 4-3 is built into it, and its line.
BEFORE = {"6-3": files_of((6, 3))["6-3"]}
LINE = sums_of(BEFORE)
# A list of more bytes is none.
MOST_OF_LIST = 65536
SEED = 29
CALLS = "write,fsync,fdatasync,?mkdir,mkdirat,?rename,?renameat,renameat2,?unlink,unlinkat"


def list_in(folder):
    path = Path(folder, LIST)
    return path.read_bytes() if path.exists() else b""


def lines_of_others(lines, files):
    """The lines of a list that are those of other files of the board, and no others."""
    others = []
    for line in lines.split(b"\n"):
        found = re.fullmatch(rb"[0-9a-f]{64}  grid-([3-9])-([3-9])\.nmmt", line)
        if found and found[1] >= found[2] and b"-".join(found.groups()).decode() not in files:
            others.append(line + b"\n")
    return b"".join(others)


class ListCase(FolderCase):
    """Cases over lists of digests."""

    def check_build(self, folder, pair, classes=False):
        """A build into a folder keeps the lines of the files that it doesn't replace."""
        files, before = files_of(pair, classes), list_in(folder)
        words = ["build", "grid", name_of(pair), *["--classes"] * classes, "--into", folder]
        self.same(words, run(words), (0, lines_of(files), b""))
        lines = lines_of_others(before, files) + sums_of(files)
        self.same(f"the list after {words}", list_in(folder), lines)
        found = files_in(folder)
        for name, file in named(files).items():
            self.same(f"{name} after {words}", found[name], file)


class Lines(ListCase):
    """Lines of files that a build doesn't replace."""

    def test_builds_one_after_the_other(self):
        """In different orders and layouts."""
        for row in (
            (((5, 4), False), ((4, 3), False), ((6, 3), False), ((3, 3), True), ((5, 4), True)),
            (((4, 3), False), ((6, 3), False), ((4, 4), False), ((5, 3), True), ((4, 4), False)),
            (((4, 3), True), ((4, 3), False), ((6, 3), True), ((5, 4), False), ((4, 3), True)),
        ):
            folder = self.new_path()
            with self.subTest(row):
                for pair, classes in row:
                    self.check_build(folder, pair, classes)
                    self.check_sums(folder)
                # Each file that is there has a line.
                found = files_in(folder)
                there = {name_of(it): found.get(f"grid-{name_of(it)}.nmmt") for it in GRID_PAIRS}
                expected = sums_of({pair: file for pair, file in there.items() if file})
                self.same(row, sorted(list_in(folder).splitlines()), sorted(expected.splitlines()))

    def test_each_board_has_a_list_of_its_own(self):
        folder = self.new_path()
        nine = ["build", "nine", "3-3", "--classes", "--into", folder]
        run(nine)
        self.check_build(folder, (4, 3))
        of_grid = list_in(folder)
        found, of_nine = run(nine), {"3-3": files_in(folder)["nine-3-3.nmmt"]}
        self.same(nine, found, (0, lines_of(of_nine), b""))
        self.same("the list of grid", list_in(folder), of_grid)
        list_of_nine = files_in(folder)["nine.sha256"]
        self.same("the list of nine", list_of_nine, sums_of(of_nine, "nine"))
        self.check_build(folder, (5, 4), True)
        self.check_sums(folder)
        self.check_sums(folder, "nine")

    def test_damaged_lists(self):
        """Lines that aren't those of a file of the board are dropped."""
        digest, name = LINE[:64], LINE[66:-1]
        others = b"".join(LINE.replace(b"6-3", it) for it in (b"3-6", b"9-9", b"2-2"))
        for lines in (
            b"\n\n",
            random.Random(SEED).randbytes(1000),
            bytes(MOST_OF_LIST),
            LINE[:-1],
            LINE[:-2],
            LINE + LINE,
            LINE[:-1] + b"\r\n",
            b"# of today\n" + LINE + b"\n" + LINE[:70],
            digest.upper() + LINE[64:],
            digest + b" *" + name + b"\n",
            digest + b" " + name + b"\n",
            digest[1:] + LINE[64:],
            b"0" + LINE,
            others,
            LINE.replace(b"grid", b"nine") + LINE.replace(b"grid", b"./grid") + LINE,
            sums_of(files_of((6, 3), True) | files_of((5, 4), True)),
            LINE * 819 + b"# 16 bytes more\n",
        ):
            folder = self.new_path()
            put(folder, BEFORE)
            Path(folder, LIST).write_bytes(lines)
            with self.subTest(lines[:200]):
                self.check_build(folder, (4, 3))

    def test_lists_outside(self):
        """Such a list is read, and stays as it is."""
        for link in (Path.symlink_to, Path.hardlink_to):
            folder = self.new_path()
            put(folder, {})
            outside = Path(f"{folder}-outside")
            outside.write_bytes(LINE)
            link(Path(folder, LIST), outside)
            with self.subTest(link):
                self.check_build(folder, (4, 3))
                self.same("a list outside", outside.read_bytes(), LINE)

    def test_lists_that_are_too_long(self):
        folder = self.new_path()
        put(folder, {})
        for lines in (bytes(MOST_OF_LIST + 1), LINE * 820, bytes(1 << 20)):
            Path(folder, LIST).write_bytes(lines)
            refused = fault(f"34: file of digests can't be written: {folder}")
            self.expect([*BUILD, folder], refused)
            self.same_folder("a list that is too long", folder, {LIST: lines, LOCK: b""})


# ---- what is made to last


def calls_in(trace, top, folder):
    """The calls of a trace by which names and bytes come to last, in order, and the writes to
    standard output: each with its paths, by the folder. Several writes of one file are one."""
    found = []
    for name, words in re.findall(r"(?m)^\d+ +(\w+)\((.*)\) += \d+", trace):
        paths = re.findall(r"<(/[^>]*)>", words)[:1] or re.findall(r'"([^"]*)"', words)
        if words.startswith("1<"):
            paths = ["standard output"]
        names = (os.path.relpath(os.path.join(top, it), folder) for it in paths)
        made = " ".join([re.sub("(at)?2?$", "", name), *(it.removeprefix("../") for it in names)])
        if found[-1:] != [made]:
            found.append(made)
    return found


def made_to_last(name):
    """How a file is written: its bytes last before it gets its name, and then its name does."""
    return [f"write {name}.part", f"fsync {name}.part", f"rename {name}.part {name}", "fsync ."]


class Lasting(FolderCase):
    """What a build wrote is to last before it tells of it: the bytes of each file, its name, and
    that of the folder."""

    def setUp(self):
        if shutil.which("strace") is None:
            self.skipTest("strace")
        if subprocess.run(["strace", "-z", "-o", os.devnull, "true"], check=False).returncode:
            self.skipTest("the right to trace a program")
        self.top = os.path.realpath(self.make_room())
        self.written = []
        for name in named(files_of((4, 3))):
            self.written += [*made_to_last(name), "write standard output"]
        self.written += made_to_last(LIST)

    def expect_calls(self, place, begun):
        """A build into a place begins with these calls."""
        words = [*BUILD, place]
        folder, trace = os.path.join(self.top, place), Path(self.top, "trace")
        traced = ["-f", "-z", "-y", "-o", trace, "-e", f"trace={CALLS}", MORRIS, *words]
        done = run(traced, program="strace", cwd=self.top)
        self.same(words, done[::2], (0, b""))
        calls = calls_in(trace.read_text("utf-8"), self.top, folder)
        self.same(words, calls, [*begun, *self.written])

    def test_new_folders(self):
        for place in (f"{self.top}/new", "other"):
            self.expect_calls(place, ["mkdir .", "fsync ..", "fsync ."])

    def test_over_a_list_of_which_no_line_stays(self):
        put(f"{self.top}/old", {})
        Path(self.top, "old", LIST).write_bytes(sums_of({"3-3": b""}))
        self.expect_calls("old", [f"unlink {LIST}", "fsync ."])

    def test_over_a_list_of_which_all_lines_stay(self):
        put(f"{self.top}/old", {})
        Path(self.top, "old", LIST).write_bytes(LINE)
        self.expect_calls("old", made_to_last(LIST))
