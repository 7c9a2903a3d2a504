"""What `make -C embed install`, and `install.sh` in the archive of a release, put under a prefix:
also while programs run what was installed before, under any umask, and where it fails."""

import os
import re
import subprocess
import sys

from gate.packing import read
from tests.embed.common import EMBED, MOST_SECONDS, EmbedCase, archive, bare, folders
from tests.embed.common import lacks, make, need, out, run
from tests.lib.program import COUNTED, ROOT
from tests.lib.steps import C_COMPILER
from tests.release.clones import files_below
from tests.release.unpacked import BEST, TEXT, best_elsewhere, flags_of, printed_in_c
from tests.release.unpacked import serves, unpacked

GRID = "XXX.OO.O."
# What is linked to, and nothing that runs takes.
TO_LINK = ("include/morris.h", "include/morris_folder.h", "lib/libmorris.so", "lib/libmorris.a")


def started(words, **how):
    pipes = {"stdin": subprocess.PIPE, "stdout": subprocess.PIPE, "text": True}
    return subprocess.Popen(words, **pipes, **how)


class Installed:
    """Tests of an installed prefix, for a class of test cases that installs and removes it."""

    def install(self, *task):
        raise NotImplementedError

    def setUp(self):
        super().setUp()
        need(lacks("c"))
        self.room = self.make_room()
        self.prefix = f"{self.room}/prefix"
        self.install()

    def test_everybody_may_read_all_and_run_what_is_to_be_run(self):
        for at, _, names in os.walk(self.prefix):
            for path in (at, *(f"{at}/{it}" for it in names)):
                below = os.path.relpath(path, self.prefix)
                is_run = os.path.isdir(path) or below.startswith(("bin/", "libexec/"))
                expected = 0o755 if is_run or ".so" in below else 0o644
                self.assertEqual(oct(os.stat(path).st_mode & 0o777), oct(expected), below)

    def test_program_explorer_and_an_example_in_c(self):
        words = (f"{EMBED}/examples/best.c", folders()[1], TEXT)
        self.assertEqual(printed_in_c(self.room, self.prefix, *words), BEST)
        stats = run([f"{self.prefix}/bin/morris", "stats", "grid", "3-3"], env=bare())
        self.assertEqual(stats, COUNTED.decode())
        serves(f"{self.prefix}/bin/morris-explorer", folders()[1])
        self.assertEqual(read(f"{self.prefix}/share/man/man1/morris.1")[:3], b".TH")
        self.assertEqual(read(f"{self.prefix}/share/doc/morris/LICENSE"), read(f"{ROOT}/LICENSE"))

    def test_module_for_python_needs_nothing_to_link_to(self):
        for it in TO_LINK:
            os.remove(f"{self.prefix}/{it}")
        (module,) = [it for it in files_below(f"{self.prefix}/lib") if it.endswith("/morris.py")]
        where = {"PYTHONPATH": os.path.dirname(module)}
        self.assertEqual(best_elsewhere(sys.executable, folders()[1], **where), BEST)

    def test_library_exports_what_its_headers_declare(self):
        headers = [f"{self.prefix}/include/{it}" for it in ("morris.h", "morris_folder.h")]
        text = "".join(read(it).decode() for it in headers)
        declared = set(re.findall(r"^[a-z][\w ]* \*?(morris_\w+)\(", text, re.M))
        said = run(["nm", "-D", "--defined-only", f"{self.prefix}/lib/libmorris.so.1"])
        self.assertGreaterEqual(len(declared), 20)
        self.assertEqual({line.split()[-1] for line in said.splitlines()}, declared)

    def test_programs_go_on_while_it_is_installed_again(self):
        made, flags = f"{self.room}/loops", flags_of(f"{self.prefix}/lib/pkgconfig/morris.pc")
        run([*C_COMPILER, "-std=c99", "-pthread", f"{EMBED}/tests/loops.c", *flags, "-o", made])
        loop = started([made, folders()[1]], env=bare(LD_LIBRARY_PATH=f"{self.prefix}/lib"))
        self.assertEqual(loop.stdout.readline(), "begun\n")
        words = [f"{self.prefix}/bin/morris", "lookup", "grid", "--from", folders()[1]]
        lookup = started(words, env=bare())
        lookup.stdin.write(f"{GRID}\n")
        lookup.stdin.flush()
        line = lookup.stdout.readline()
        self.install()
        for it, given, said in ((loop, "", "all right\n"), (lookup, f"{GRID}\n", line)):
            found, _ = it.communicate(given, timeout=MOST_SECONDS)
            self.assertEqual((it.returncode, found), (0, said), it.args)

    def test_uninstall_leaves_nothing(self):
        self.install("uninstall")
        self.assertEqual(files_below(self.prefix), [])


class ByMake(Installed, EmbedCase):
    """With a umask that would let nobody else read anything."""

    def install(self, *task):
        words = [f"PREFIX={self.prefix}", f"PYTHON={sys.executable}", *(task or ("install",))]
        make(*words, umask=0o077)

    def test_install_that_fails_changes_nothing(self):
        documents, kept = f"{self.prefix}/share/doc", f"{self.prefix}/share/kept"
        before = {it: read(it) for it in files_below(self.prefix)}
        os.rename(documents, kept)
        with open(documents, "w", encoding="ascii"):
            pass
        with self.assertRaisesRegex(AssertionError, "nothing was installed"):
            self.install()
        os.remove(documents)
        os.rename(kept, documents)
        self.assertTrue(before == {it: read(it) for it in files_below(self.prefix)})

    def test_folders_that_are_named(self):
        """With LIBDIR, INCLUDEDIR and DESTDIR all is where it is named, and nothing else is."""
        below, place = f"{self.room}/below", "/opt/morris"
        named = [f"PREFIX={place}", f"LIBDIR={place}/lib64/here", f"DESTDIR={below}"]
        named += ["INCLUDEDIR=/usr/include/morris", f"PYTHON={sys.executable}"]
        make(*named, "install")
        lib = f"{below}{place}/lib64/here"
        for it in ("libmorris.so", "libmorris.so.1", "libmorris.a"):
            self.assertIn(f"{lib}/{it}", files_below(below))
        self.assertIn(f"{below}/usr/include/morris/morris.h", files_below(below))
        lines = read(f"{lib}/pkgconfig/morris.pc").decode().splitlines()
        dirs = {"libdir=${prefix}/lib64/here", "includedir=/usr/include/morris"}
        self.assertLessEqual({f"prefix={place}", *dirs}, {*lines})
        make(*named, "uninstall")
        self.assertEqual(files_below(below), [])

    def test_flags_of_whoever_builds_a_package_are_taken(self):
        """No warning is an error there."""
        words = ["make", "-n", "-B", "-C", EMBED, f"OUT={out()}", "CPPFLAGS=-Dhere"]
        lines = run([*words, "LDFLAGS=-Wl,-z,now", "CFLAGS=-Os", "all"]).splitlines()
        compiled = [it for it in lines if " -c morris_" in it]
        self.assertGreaterEqual(len(compiled), 3)
        self.assertEqual([it for it in compiled if " -Dhere -Os " not in it], [])
        (linked,) = [it for it in lines if " -shared " in it]
        self.assertIn(" -Os -Wl,-z,now ", linked)
        self.assertNotIn("-Werror", "".join(lines))


class FromArchive(Installed, EmbedCase):
    """What was unpacked installs itself, without `make`."""

    def install(self, *task):
        words = [*task, f"PREFIX={self.prefix}", f"PYTHON={sys.executable}"]
        run([f"{unpacked(archive())}/install.sh", *words], env=bare(), cwd="/", umask=0o077)

    def test_prefix_that_is_no_path_from_the_root(self):
        with self.assertRaisesRegex(AssertionError, "isn't a path from the root"):
            run([f"{unpacked(archive())}/install.sh", "PREFIX=here"])
