"""Tests of an archive of a release as whoever unpacks it would try it: without the kit, without a
network, and with nothing of this clone."""

import functools
import os
import re
import shutil
import subprocess
import sys
import tarfile
import venv
from glob import glob

from gate.packing import read
from tests.embed.common import EMBED, bare, compare, need, new_room, run
from tests.explorer.server import Server
from tests.lib.program import COUNTED, LOOKED
from tests.lib.steps import C_COMPILER, NO_PIP, missing, without_c

# A position of the usual board with what `lookup` and the examples say of it, tables in which it
# is, and a position of the small board.
TEXT = "OXO.OXO.XX.............."
LOOKED_UP = f"{TEXT} won in 9: 9-10\n"
BEST = "won in 9\n9-10\n"
PAIRS = ("3-3", "4-3", "4-4")
SMALL = "XXX.OO.O."
DOCUMENTS = ("LICENSE", "NOTICES", "README.md", "docs/FILE_FORMAT.md", "docs/PROGRAMS.md")


@functools.cache
def unpacked(archive):
    """The folder in which all stands that an archive has, unpacked into a new one."""
    room = new_room()
    with tarfile.open(archive) as packed:
        packed.extractall(room)
    (top,) = os.listdir(room)
    return f"{room}/{top}"


def changes_root():
    """The words that lead to another root, where somebody may change it here, or None."""
    chroot = shutil.which("chroot", path="/usr/sbin:/sbin:/usr/bin:/bin") or "chroot"
    for words in ([chroot], ["unshare", "-r", chroot]):
        try:
            subprocess.run([*words, "/", "true"], capture_output=True, check=True)
        except (OSError, subprocess.CalledProcessError):
            continue
        return words
    return None


def copy_into(root, *paths):
    for path in paths:
        os.makedirs(root + os.path.dirname(path), exist_ok=True)
        shutil.copy(path, root + path)


def libraries_of(program):
    """The files that the system loads for a program."""
    return re.findall(r"(/\S+) \(0x", run(["ldd", program]))


def flags_of(package):
    """The flags that the file of an installed package says."""
    need(missing("pkg-config"))
    env = {**os.environ, "PKG_CONFIG_PATH": os.path.dirname(package)}
    return run(["pkg-config", "--cflags", "--libs", "morris"], env=env).split()


def printed_in_c(room, prefix, source, *words):
    """What a program prints that was compiled against a prefix alone, and loads its library."""
    need(without_c())
    flags, made = flags_of(f"{prefix}/lib/pkgconfig/morris.pc"), f"{room}/installed"
    run([*C_COMPILER, "-std=c99", source, *flags, "-o", made])
    return run([made, *words], env=bare(LD_LIBRARY_PATH=f"{prefix}/lib"))


def environment(place):
    """A fresh virtual environment, and its Python."""
    need(NO_PIP)
    venv.create(place, with_pip=True)
    return f"{place}/bin/python"


def pip(python, *words, **env):
    return run([python, "-m", "pip", "-q", "--disable-pip-version-check", *words], env=bare(**env))


def best_elsewhere(python, folder, **env):
    """What a copy of the example in Python prints that has no module beside it."""
    example = shutil.copy(f"{EMBED}/examples/best.py", new_room())
    return run([python, example, folder, TEXT], env=bare(**env), cwd="/")


def serves(*words):
    """The explorer gives its page."""
    with Server(*words, env=bare(PYTHON=sys.executable), cwd="/") as server:
        assert b"<title>" in server.ask("/"), words


def build_and_ask(words, folder):
    """A program, by the words that run it, answers, and builds and verifies tables in a folder."""

    def printed(*more):
        return run([*words, *more], env=bare())

    compare("look", printed("look", "grid", SMALL, "--depth", "3"), LOOKED.decode())
    compare("stats", printed("stats", "grid", "3-3"), COUNTED.decode())
    said = printed("build", "nine", PAIRS[-1], "--classes", "--into", folder)
    rows = [line.split() for line in said.splitlines()]
    compare("build", " ".join(row[0] for row in rows), " ".join(PAIRS))
    verified = "".join(f"verified {row[0]}: {row[1]} entries\n" for row in rows)
    compare("verify", printed("verify", "nine", "--from", folder), verified)
    compare("lookup", printed("lookup", "nine", "--from", folder, TEXT), LOOKED_UP)


@functools.cache
def built_by(program):
    """A folder of tables that the program of an archive builds through a link to it."""
    room = new_room()
    os.symlink(program, f"{room}/linked")
    build_and_ask([f"{room}/linked"], f"{room}/tables")
    return f"{room}/tables"


class Unpacked:
    """Tests of an archive, for a class of test cases that gives its path."""

    def archive(self):
        raise NotImplementedError

    def setUp(self):
        super().setUp()
        self.top = unpacked(self.archive())

    def tables(self):
        return built_by(f"{self.top}/bin/morris")

    def test_documents_are_there_and_files_have_the_digests_listed(self):
        for name in DOCUMENTS:
            self.assertTrue(read(f"{self.top}/{name}"), name)
        run(["sha256sum", "-c", "--quiet", "SHA256SUMS"], cwd=self.top)

    def test_all_that_names_a_version_names_the_same(self):
        """(tests/documents/claims.py has the versions of what is packed as it stands)"""
        package = read(f"{self.top}/lib/pkgconfig/morris.pc").decode()
        found = {"morris.pc": re.search(r"^Version: (.*)$", package, re.M)[1]}
        asks = [sys.executable, "-c", "import morris; print(morris.version())"]
        found["lib"] = run(asks, env=bare(PYTHONPATH=f"{self.top}/python"), cwd="/").strip()
        found["bin/morris"] = run([f"{self.top}/bin/morris", "--version"], env=bare()).split()[1]
        (wheel,) = glob(f"{self.top}/python/*.whl")
        found["the wheel"] = os.path.basename(wheel).split("-")[1]
        found["the folder"] = os.path.basename(self.top).split("-")[1]
        self.assertEqual(len({*found.values()}), 1, found)

    def test_program_through_a_link(self):
        self.assertTrue(os.listdir(self.tables()))

    def test_program_in_an_empty_root(self):
        """Nothing is there but what was unpacked and the C library; the script beside it runs where
        a shell is there too."""
        change, root = changes_root(), f"{self.make_room()}/root"
        need(None if change else "the right to change the root (chroot, unshare)")
        shutil.copytree(self.top, f"{root}/morris", symlinks=True)
        copy_into(root, *libraries_of(f"{self.top}/libexec/morris/morris"))
        build_and_ask([*change, root, "/morris/libexec/morris/morris"], "/tables")
        copy_into(root, "/bin/sh", *libraries_of("/bin/sh"))
        build_and_ask([*change, root, "/morris/bin/morris"], "/tables")

    def test_example_in_c(self):
        """With the static library in it, and with the shared one."""
        need(without_c())
        room, source = self.make_room(), f"{self.top}/examples/best.c"
        words = ["-std=c99", f"-I{self.top}/include", source, f"{self.top}/lib/libmorris.a"]
        run([*C_COMPILER, *words, "-o", f"{room}/best"])
        found = run([f"{room}/best", self.tables(), TEXT], env=bare())
        self.assertEqual(found, BEST)
        self.assertEqual(printed_in_c(room, self.top, source, self.tables(), TEXT), BEST)

    def test_example_and_explorer_in_python(self):
        words = [sys.executable, f"{self.top}/examples/best.py", self.tables(), TEXT]
        self.assertEqual(run(words, env=bare(PYTHONPATH=f"{self.top}/python"), cwd="/"), BEST)
        serves(sys.executable, f"{self.top}/python/explorer.py", self.tables())
        serves(f"{self.top}/bin/morris-explorer", self.tables())

    def test_example_and_explorer_by_the_wheel(self):
        python = environment(f"{self.make_room()}/environment")
        pip(python, "install", "--no-index", *glob(f"{self.top}/python/*.whl"))
        self.assertEqual(best_elsewhere(python, self.tables()), BEST)
        serves(python, "-m", "morris.explorer", self.tables())

    def test_example_in_rust(self):
        need(without_c() or missing("cargo", "rustc"))
        env = {**os.environ, "CARGO_TARGET_DIR": f"{self.make_room()}/target"}
        env.pop("MORRIS_LIB_DIR", None)
        words = ["cargo", "run", "-q", "--offline", "--example", "best", "--", self.tables(), TEXT]
        self.assertEqual(run(words, cwd=f"{self.top}/rust", env=env), BEST)
