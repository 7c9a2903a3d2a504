"""The launcher, in copies of a clone of this tree with its release/, or with one that is made of
the program that is tried. The kit's place is taken by a script, so that nothing is proved here."""

import functools
import glob
import os
import shutil
import signal
import subprocess
import tempfile
import time

from gate import packing
from tests.lib.program import LOOKED, MORRIS
from tests.release.clones import MOST_SECONDS, Clone, Copies, Unpacking, append, files_below, write

LOOK = ["look", "grid", "XXX.OO.O.", "--depth", "3"]
FIRST = (
    "morris: this is the program that the gate built from these sources; ./morris --from-proofs "
    "proves and builds it here\n"
)
OTHER = (
    "morris: the sources aren't those of the released program, so it is proved and built here; "
    "./morris --released runs that one all the same\n"
)
CHANGED = "morris: the sources have changed since the gate built this program\n"
BEGUN = (
    "morris: proving and building the program (up to an hour from nothing, less after a small "
    "change)\nmorris: proving crate 1 of "
)
NO_KIT = "command rt of the Rattle kit is not on the PATH"
# No first answer takes so many seconds.
MOST_OF_FIRST = 3
# The KiB of stack that the launcher asks for; the program has to do with half.
STACK = 512
# Stands for the kit: it says where it runs and waits, or it builds by a copy.
WAITS = '#!/bin/sh\necho $$ >> "$TOLD"\nexec sleep 600\n'
BUILDS = '#!/bin/sh\n[ "$1" = lib ] || cp "$BUILT_PROGRAM" out/morris\n'
SOURCE = "crates/morris/src/main.rt"
USUAL_PATH = "/usr/bin:/bin"
WORKERS = ["stats", "grid", "4-4", "--classes", "--workers", "16", "--blocks", "64"]


@functools.cache
def clone():
    """A clone with its release, or one of the program that is tried."""
    made = Clone()
    if packing.told(made.top).get("sources") != packing.sources(made.top):
        archive = packing.small_archive(made.at, MORRIS)
        packing.release(made.top, archive, packing.stamps(made.top, archive))
    return made


def shells():
    """The shells that the launcher is tried with, besides the one that it names."""
    found = [[shutil.which(it)] for it in ("dash", "bash") if shutil.which(it)]
    return [[], *found, *([[shutil.which("busybox"), "sh"]] if shutil.which("busybox") else [])]


class Launcher(Copies):
    clone = staticmethod(clone)

    def words(self, *words):
        return [f"{self.top}/morris", *(words or LOOK)]

    def refused(self, *texts, words=(), said="", **how):
        """Status 126, no output, and in the end one line of the launcher with these texts, after
        what else it says."""
        status, output, errors = self.run_here(self.words(*words), **how)
        self.assertEqual((status, output), (126, ""))
        self.assertTrue(errors.startswith(said), errors)
        (line,) = errors.removeprefix(said).splitlines()
        self.assertTrue(line.startswith("morris: "), line)
        for text in texts:
            self.assertIn(text, line)

    def answers(self, said="", words=(), **how):
        """It prints what the program does, and says this of itself."""
        self.assertEqual(self.run_here(self.words(*words), **how), (0, LOOKED.decode(), said))

    def kit(self, script, python=True):
        """A PATH with a script in the place of the kit."""
        folder = tempfile.mkdtemp(dir=self.room.at)
        write(f"{folder}/rt", script, 0o755)
        for it in ("sleep", "cp"):
            self.room.link(folder, it)
        return f"{folder}:{self.room.commands if python else self.room.without('python3')}"


class Released(Launcher, Unpacking):
    """The program in the archive."""

    digest_named, cannot = "program", "the released program can't be unpacked"

    def judge(self, found, is_new, is_kept=True):
        said = {True: [FIRST], False: [""], None: [FIRST, ""]}[is_new]
        self.assertIn(found, [(0, LOOKED.decode(), it) for it in said])

    def test_fresh_copy_answers_at_once_by_any_shell(self):
        for shell in shells():
            for path in (self.room.commands, USUAL_PATH):
                shutil.rmtree(f"{self.top}/crates/morris/out", ignore_errors=True)
                for said in (FIRST, ""):
                    with self.subTest(shell=shell, path=path):
                        self.answers(said, before=shell, path=path, seconds=MOST_OF_FIRST)
            for words in (["look"], ["look", "--released"]):
                self.assertEqual(self.run_here(self.words(*words), before=shell)[0], 2)

    def test_links_lead_to_it(self):
        os.symlink(f"{self.top}/morris", f"{self.at}/home/straight")
        os.symlink("../home/straight", f"{self.at}/tmp/round")
        self.answers(FIRST)
        for link in (f"{self.at}/home/straight", f"{self.at}/tmp/round", "tmp/round"):
            self.assertEqual(self.run_here([link, *LOOK]), (0, LOOKED.decode(), ""), link)

    def test_released_one_is_refused_too_where_it_is_asked_for(self):
        archive = packing.archive_of(self.top)
        write(archive, packing.read(archive)[:-1])
        self.refused("has the digest", words=["--released", *LOOK])


class Proved(Launcher):
    """Sources that have changed, and the program that is built from proofs."""

    def test_what_lacks_to_prove_changed_sources_is_named(self):
        append(f"{self.top}/{SOURCE}")
        self.refused(NO_KIT, said=OTHER)
        self.refused("command python3", said=OTHER, path=self.kit(WAITS, python=False))
        for _ in range(2):
            self.answers(CHANGED, ["--released", *LOOK])
        shutil.rmtree(f"{self.top}/release")
        self.refused(NO_KIT)
        self.refused("no released program", words=["--released", *LOOK], said=CHANGED)

    def stopped(self, number, said, *words, **env):
        """It says this, and begins to prove. Ended by a signal, it leaves no process, no lock and no
        copy of a crate."""
        told = f"{self.at}/told"
        with self.started(self.words(*words), path=self.kit(WAITS), TOLD=told, **env) as it:
            found = "".join(it.stderr.readline() for _ in range(said.count("\n") + 1))
            self.assertTrue(found.startswith(said), found)
            self.wait_for(lambda: os.path.exists(told) and packing.read(told))
            it.send_signal(number)
            it.wait(timeout=MOST_SECONDS)
        lock = f"{self.top}/crates/morris/out/launcher.lock"
        subprocess.run(["flock", "-w", "30", lock, "true"], check=True)
        for process in packing.read(told).decode().split():
            self.wait_for(lambda: not os.path.exists(f"/proc/{process}"))
        self.wait_for(lambda: not glob.glob(f"{self.top}/crates/*/out/room"))
        os.remove(told)

    def wait_for(self, call):
        for _ in range(100):
            if call():
                return
            time.sleep(0.1)
        self.fail("waited in vain")

    def test_proving_that_is_ended_leaves_nothing_at_work(self):
        self.stopped(signal.SIGTERM, BEGUN, "--from-proofs", *LOOK)
        self.stopped(signal.SIGKILL, BEGUN, MORRIS_FROM_PROOFS="1")
        append(f"{self.top}/{SOURCE}")
        for number in (signal.SIGTERM, signal.SIGKILL):
            self.stopped(number, OTHER + BEGUN)

    def test_what_was_built_from_proofs_is_run_from_then_on(self):
        how = {"path": self.kit(BUILDS), "BUILT_PROGRAM": MORRIS}
        found = self.run_here(self.words("--from-proofs", *LOOK), **how)
        self.assertEqual(found[:2], (0, LOOKED.decode()), found)
        self.answers()
        self.assertEqual(files_below(self.released), [])
        self.answers(FIRST, ["--released", *LOOK])


class Limits(Launcher):
    """A file that grows too large is a write that fails. A stack that is too small is made larger,
    or refused."""

    def limited(self, limit):
        """The words that run a command under a limit which `ulimit` sets."""
        return ["sh", "-c", f'ulimit {limit} && exec "$0" "$@"']

    def test_files_that_grow_too_large(self):
        small = self.limited("-f 1")
        self.refused("can't be unpacked", before=small)
        self.answers(FIRST)
        for shell in ("sh", "bash"):
            before = [shutil.which(shell), "-c", 'ulimit -f 1 && exec "$0" "$@" > table']
            status, _, errors = self.run_here(self.words("build", "grid", "3-3"), before=before)
            self.assertEqual(status, 1)
            self.assertRegex(errors, r"^fault 23: writing failed after \d+ bytes\n$")
        found = self.run_here(self.words("build", "grid", "3-3", "--into", "it"), before=small)
        said = "fault 29: file of 3-3 can't be written: it: File too large\n"
        self.assertEqual(found, (1, "", said))

    def test_stacks_that_are_small(self):
        self.answers(FIRST)
        expected = self.run_here(self.words(*WORKERS))
        self.assertEqual(expected[0], 0)
        for limit in ("-S -s 128", f"-S -s {STACK - 1}", f"-s {STACK}", "-S -s unlimited"):
            found = self.run_here(self.words(*WORKERS), before=self.limited(limit))
            self.assertEqual(found, expected, limit)
        self.refused(f"needs {STACK} KiB", "128", words=WORKERS, before=self.limited("-s 128"))
        for _ in range(5):
            found = self.run_here([MORRIS, *WORKERS], before=self.limited(f"-s {STACK // 2}"))
            self.assertEqual(found, expected, "the program itself with half of the stack")
