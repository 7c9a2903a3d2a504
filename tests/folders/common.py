"""What suites of folders share: the files that a build leaves in one, and what is printed of them.

The files of the board grid come from the rules alone.
"""

import hashlib
import os
import re
import stat
from pathlib import Path

from tests.lib.case import Case
from tests.lib.program import run
from tests.lib.rules import below, name_of, sealed
from tests.lib.tables import grid_files

BUILD = ["build", "grid", "4-3", "--into"]
LOW, HIGH, LIST, LOCK = "grid-3-3.nmmt", "grid-4-3.nmmt", "grid.sha256", ".morris.lock"
# How many bytes a file has beside its entries.
HEADER_AND_DIGEST = len(sealed(bytes(16)))


def files_of(pair, classes=False):
    """The files of a pair of the board grid and of all below it, by the names of the pairs."""
    return {name_of(it): grid_files()[name_of(it) + "c" * classes] for it in below(pair)}


def digest_of(file):
    return hashlib.sha256(file).hexdigest()


def entries_of(file):
    return (len(file) - HEADER_AND_DIGEST) // 2


# ---- what is in a folder


def named(files, board="grid"):
    return {f"{board}-{pair}.nmmt": file for pair, file in files.items()}


def put(folder, files):
    """Writes these files into a folder, which is made where it isn't there."""
    Path(folder).mkdir(exist_ok=True)
    for name, file in named(files).items():
        Path(folder, name).write_bytes(file)


def sums_of(files, board="grid"):
    """The lines of these files in the list of digests."""
    lines = (f"{digest_of(it)}  {name}\n" for name, it in named(files, board).items())
    return "".join(lines).encode()


def folder_of(files, board="grid"):
    """What is in a folder after a build: the files, the list of their digests and the lock."""
    return {**named(files, board), f"{board}.sha256": sums_of(files, board), LOCK: b""}


def thing_at(path):
    """The bytes of a file, and of anything else what it is."""
    mode = os.lstat(path).st_mode
    if stat.S_ISLNK(mode):
        return "a link", os.readlink(path)
    return Path(path).read_bytes() if stat.S_ISREG(mode) else stat.S_IFMT(mode)


def files_in(folder):
    """What is in a folder, by name: nothing where there is no folder."""
    names = os.listdir(folder) if os.path.isdir(folder) else ()
    return {name: thing_at(f"{folder}/{name}") for name in names}


# ---- what is printed


def lines_of(files):
    """What a build into a folder prints: a line for each file."""
    lines = (
        f"{pair} {entries_of(it)} entries {len(it)} bytes {digest_of(it)}\n"
        for pair, it in files.items()
    )
    return "".join(lines).encode()


def verified(files):
    """What `verify` prints of these files."""
    lines = (f"verified {pair}: {entries_of(it)} entries\n" for pair, it in files.items())
    return "".join(lines).encode()


class FolderCase(Case):
    """Cases over folders of tables."""

    def new_path(self):
        """The path of a folder that isn't there yet."""
        return f"{self.make_room()}/tables"

    def same_folder(self, what, folder, expected):
        self.same(f"{what}: what is in the folder", files_in(folder), expected)

    def check_sums(self, folder, board="grid"):
        """`sha256sum` finds each file of the list as it should be."""
        words = ["-c", "--quiet", "--strict", f"{board}.sha256"]
        self.same("sha256sum", run(words, program="sha256sum", cwd=folder), (0, b"", b""))

    def check_list(self, folder, board="grid"):
        """Each line of the list of digests, where there is one, is that of its file."""
        path = Path(folder, f"{board}.sha256")
        for line in path.read_text("ascii").splitlines() if path.exists() else ():
            found = re.fullmatch(r"([0-9a-f]{64})  (\S+)", line)
            self.assertTrue(found, f"{path}: has the line {line}")
            self.same(f"{path}: {line}", found[1], digest_of(Path(folder, found[2]).read_bytes()))
