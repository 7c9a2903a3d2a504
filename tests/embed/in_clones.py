"""Which shared library the module for Python takes in a clone, and the explorer with it.

Both run in copies of a clone of this tree, whose PATH has neither a compiler nor make nor the kit,
over an archive that was made here, or else over the one in release/ where that is of these sources
and C files.
"""

import functools
import os
import shutil

from gate import packing
from tests.embed.common import archive, need
from tests.embed.static_library import without_static
from tests.lib.steps import ROOT, missing
from tests.release.clones import Clone, Copies, Unpacking, append, files_below, write

ASKS = "import morris; it = morris.library(); print(it.origin); print(it.path)"
# What the module says of the library that it took.
RELEASED, BUILT = "the released one", "which was built here"
STALE = (
    "the released one, since embed/out/libmorris.so isn't of these sources: "
    "`make -C embed` builds it anew"
)
UNKEPT = "the released one, which was unpacked for this run alone"
# What it says where there is none.
OTHER_SOURCES = (
    "the sources aren't those of the released library: `make -C embed` proves and builds it"
)
OTHER_FILES = (
    "the C files of embed/ aren't those of the released library: `make -C embed` compiles them"
)
NO_RELEASE = "there is no released library here: `make -C embed` makes one"


@functools.cache
def clone():
    """A clone with a release of its own sources and C files, and few crates, since it is copied for
    each test, and its sources are read by each run. Or None where no archive is of these."""
    told, now = packing.told(ROOT), (packing.sources(ROOT), packing.sources(ROOT, "interface"))
    if not without_static():
        kept = archive()
    elif (told.get("sources"), told.get("interface")) == now:
        kept = packing.archive_of(ROOT)
    else:
        return None
    made = Clone()
    for name in os.listdir(f"{made.top}/crates"):
        if name not in ("morris", "morris_board"):
            shutil.rmtree(f"{made.top}/crates/{name}")
    packing.release(made.top, kept, packing.stamps(made.top, kept))
    return made


class Module(Copies):
    clone = staticmethod(clone)

    def setUp(self):
        need(None if clone() else "an archive of these sources, released or made here")
        super().setUp()
        self.built = f"{self.top}/embed/out/libmorris.so"
        self.python = f"{self.room.commands}/python3"

    def words(self):
        return [self.python, "-c", ASKS]

    def library(self, **how):
        """Why the module takes its library, and the library's path. It says nothing else."""
        status, output, errors = self.run_here(self.words(), **how)
        self.assertEqual((status, errors), (0, ""))
        origin, path = output.splitlines()
        return origin, path

    def refused(self, *texts, **how):
        """The module has no library, for a reason of one line with these texts; and the explorer
        ends with that line."""
        status, output, errors = self.run_here(self.words(), **how)
        *_, last = errors.splitlines()
        self.assertEqual((status, output), (1, ""))
        self.assertRegex(last, "^OSError: ")
        explorer = [self.python, f"{self.top}/embed/explorer.py", self.at, "--no-browser"]
        status, output, errors = self.run_here(explorer, **how)
        self.assertEqual((status, output, errors.count("\n")), (1, "", 1))
        for text in texts:
            self.assertIn(text, last)
            self.assertIn(text, errors)


class Released(Module, Unpacking):
    """The library in the archive."""

    digest_named, cannot = "shared", "the released library can't be unpacked"

    def judge(self, found, is_new, is_kept=True):
        status, output, errors = found
        self.assertEqual((status, errors), (0, ""))
        origin, path = output.splitlines()
        self.assertEqual(origin, RELEASED if is_kept else UNKEPT)
        if is_kept:
            told = packing.told(self.top)["shared"]
            self.assertEqual(packing.digest(packing.read(path)), told)
            self.assertTrue(path.endswith(f"/{told}/libmorris.so.1"), path)
        else:
            self.assertTrue(path.startswith(f"{self.at}/tmp/"), path)

    def test_import_takes_nothing(self):
        found = self.run_here([self.python, "-c", "import morris"])
        self.assertEqual((found, files_below(self.released)), ((0, "", ""), []))

    def test_module_is_reached_through_link_to_folder(self):
        os.symlink(f"{self.top}/embed", f"{self.at}/linked")
        self.assertEqual(self.library(PYTHONPATH=f"{self.at}/linked")[0], RELEASED)

    def test_release_without_second_stamp_or_none_is_passed_over(self):
        built = f"{self.top}/{packing.BUILT}"
        lines = packing.read(built).decode().splitlines(keepends=True)
        for name, why in (("interface ", OTHER_FILES), ("shared ", NO_RELEASE)):
            write(built, "".join(it for it in lines if not it.startswith(name)))
            self.refused(why)
        shutil.rmtree(f"{self.top}/release")
        self.refused(NO_RELEASE)

    def test_asked_for_proofs_it_is_passed_over(self):
        self.refused("MORRIS_FROM_PROOFS=1", "`make -C embed`", MORRIS_FROM_PROOFS="1")


class Changes(Module):
    """Sources that have changed, and libraries that were made of others."""

    def test_changed_c_file_passes_release_over(self):
        names = sorted(os.listdir(f"{self.top}/embed"))
        names = [it for it in names if it.endswith((".c", ".h", ".map"))]
        self.assertGreaterEqual(len(names), 5)
        for name in names:
            with self.subTest(name):
                kept = packing.read(f"{self.top}/embed/{name}")
                append(f"{self.top}/embed/{name}")
                self.refused(OTHER_FILES)
                write(f"{self.top}/embed/{name}", kept)
        self.assertEqual(files_below(self.released), [])
        write(f"{self.top}/embed/added.c", "")
        self.refused(OTHER_FILES)
        os.remove(f"{self.top}/embed/added.c")
        self.assertEqual(self.library()[0], RELEASED)

    def test_changed_crate_passes_release_over(self):
        append(f"{self.top}/crates/morris_board/src/points.rt")
        self.refused(OTHER_SOURCES)

    def stamp(self):
        return f"{packing.sources(self.top)} {packing.sources(self.top, 'interface')}"

    def put(self, stamp=None):
        """Puts the released library to where `make -C embed` makes one, with a note of sources."""
        write(self.built, packing.read(self.library()[1]), 0o755)
        if stamp is not None:
            packing.mark(self.built, stamp)

    def test_library_that_was_built_here_is_taken(self):
        self.put(self.stamp())
        self.assertEqual(self.library(), (BUILT, self.built))
        shutil.rmtree(f"{self.top}/release")
        self.assertEqual(self.library(), (BUILT, self.built))

    def test_stale_library_that_was_built_here_is_passed_over(self):
        *sources, sum_of_c, size_of_c = self.stamp().split()
        interface, other = [sum_of_c, size_of_c], ["1", "2"]
        for stamp in (None, [*other, *interface], [*sources, *other], sources):
            with self.subTest(stamp):
                self.put(stamp and " ".join(stamp))
                origin, path = self.library()
                self.assertEqual((origin, [path]), (STALE, files_below(self.released)))
                shutil.rmtree(os.path.dirname(self.built))
        self.put(self.stamp())
        with open(self.built, "ab") as file:
            file.write(b"\0")
        self.assertEqual(self.library()[0], STALE)
        shutil.rmtree(f"{self.top}/release")
        self.refused(NO_RELEASE)

    def make(self, *words):
        """Whether `make -C embed` ends well where no kit is, and what it says."""
        words = ["make", "-s", "-C", f"{self.top}/embed", *words]
        status, output, errors = self.run_here(words, path="/usr/bin:/bin")
        self.assertEqual(output, "")
        return status == 0, errors

    def test_make_builds_what_is_taken(self):
        """`make -C embed` builds anew what isn't of these sources, and the module takes it. What it
        stands on, and what it installs, is what was proved."""
        need(missing("make", "cc", "ar"))
        core = f"{self.top}/crates/morris_c/out/libmorris_c.a"
        make = lambda *words: self.assertTrue(*self.make(*words))
        self.put()
        for change in (None, "/* changed */\n", ""):
            with self.subTest(change):
                append(f"{self.top}/embed/morris_tables.c", change or "")
                if change:
                    self.refused(OTHER_FILES)
                make()
                self.assertEqual(self.library(), (BUILT, self.built))
        # Of a core that somebody names, nobody knows the sources.
        make(f"CORE={shutil.copy(core, self.at)}")
        self.refused(OTHER_FILES)
        make("all", "out/program")
        self.assertEqual(self.library(), (BUILT, self.built))
        told = packing.told(self.top)
        for name, path in (("library", core), ("program", f"{self.top}/embed/out/program")):
            self.assertEqual(packing.digest(packing.read(path)), told[name], name)

    def test_make_without_kit_refuses_what_is_not_of_these_sources(self):
        need(missing("make", "cc", "ar"))
        told, archive = packing.told(self.top), packing.archive_of(self.top)
        refused = lambda why: self.assertRegex(repr(self.make()), rf"^\(False, .*{why}")
        packing.release(self.top, archive, {**told, "library": 64 * "0"})
        refused("has the digest")
        packing.release(self.top, archive, told)
        append(archive)
        refused("has the digest")
        append(f"{self.top}/crates/morris_board/src/points.rt")
        refused("rt isn't on the PATH")
        self.assertEqual(files_below(f"{self.top}/crates/morris_c/out"), [])

    def test_named_library_is_taken_whatever_it_is_of(self):
        self.put()
        append(f"{self.top}/embed/morris_tables.c")
        found = self.library(MORRIS_LIBRARY=self.built)
        self.assertEqual(found, ("which MORRIS_LIBRARY names", self.built))
        self.refused("MORRIS_LIBRARY", "/nowhere/it.so", MORRIS_LIBRARY="/nowhere/it.so")
