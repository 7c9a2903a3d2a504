"""Copies of a clone of this tree, in which ./morris and the module for Python are tried with what
is in release/: with few commands on the PATH, and by somebody who may write nothing of them."""

import os
import shutil
import subprocess
import sys
import tempfile
from glob import glob

from gate import packing
from tests.lib.case import Case
from tests.lib.program import count
from tests.lib.steps import ROOT

# What takes the program or the library out of the archive.
COMMANDS = (
    "sh readlink dirname find sort xargs cksum sha256sum gzip tar mktemp mkdir chmod mv rm cat tail"
).split()
NO_RIGHTS = "--reuid=65534 --regid=65534 --clear-groups --no-new-privs".split()
# No run takes so many seconds.
MOST_SECONDS = 120


def write(path, content, mode=0o644):
    os.makedirs(os.path.dirname(path), exist_ok=True)
    with open(path, "wb") as it:
        it.write(content if isinstance(content, bytes) else content.encode())
    os.chmod(path, mode)


def append(path, text="\n"):
    with open(path, "a", encoding="utf-8") as it:
        it.write(text)


def files_below(folder):
    return sorted(f"{at}/{name}" for at, _, names in os.walk(folder) for name in names)


class Clone:
    """A clone of this tree that has a release, of which each test gets a copy."""

    def __init__(self):
        self.folder, self.number = tempfile.TemporaryDirectory(prefix="morris-clone-"), 0
        self.at = self.folder.name
        self.top, self.commands = f"{self.at}/clone", f"{self.at}/commands"
        subprocess.run(["git", "clone", "-q", ROOT, self.top], check=True)
        # (what the launcher doesn't look at would only have to be copied)
        unread = (".git", "docs", "crates/*/must-fail", "crates/*/edits-at-release")
        for folder in (it for name in unread for it in glob(f"{self.top}/{name}")):
            shutil.rmtree(folder)
        for name in COMMANDS:
            self.link(self.commands, name)
        self.link(self.commands, "python3", sys.executable)

    def link(self, folder, name, to=None):
        os.makedirs(folder, exist_ok=True)
        os.symlink(os.path.realpath(to or shutil.which(name)), f"{folder}/{name}")

    def copy(self):
        """A fresh copy, with a home of its own."""
        self.number += 1
        at = f"{self.at}/{self.number}"
        shutil.copytree(self.top, f"{at}/morris", symlinks=True)
        for it in ("home", "tmp"):
            os.mkdir(f"{at}/{it}")
        return at

    def without(self, name):
        """A folder of the commands but for this one."""
        folder = f"{tempfile.mkdtemp(dir=self.at)}/commands"
        shutil.copytree(self.commands, folder, symlinks=True)
        os.remove(f"{folder}/{name}")
        return folder


class Copies(Case):
    """A test has a copy of a clone, and runs commands in it."""

    @staticmethod
    def clone():
        """The clone, which is made once."""
        raise NotImplementedError

    def setUp(self):
        self.room = self.clone()
        self.at = self.room.copy()
        self.top = f"{self.at}/morris"
        self.released = f"{self.top}/crates/morris/out/released"
        self.addCleanup(self.remove)

    def remove(self):
        subprocess.run(["chmod", "-R", "u+w", self.at], check=True)
        shutil.rmtree(self.at)

    def env(self, path=None, **more):
        return {
            "PATH": path or self.room.commands,
            "HOME": f"{self.at}/home",
            "TMPDIR": f"{self.at}/tmp",
            "PYTHONPATH": f"{self.top}/embed",
            "PYTHONDONTWRITEBYTECODE": "1",
            **more,
        }

    def how(self, **env):
        count()
        pipes = {"stdin": subprocess.DEVNULL, "stdout": subprocess.PIPE, "stderr": subprocess.PIPE}
        return {"env": self.env(**env), "cwd": self.at, "text": True, **pipes}

    def started(self, words, before=(), **env):
        return subprocess.Popen([*before, *words], **self.how(**env))

    def run_here(self, words, before=(), seconds=MOST_SECONDS, **env):
        """The status, the output and the errors of a run, which ends in time."""
        done = subprocess.run([*before, *words], timeout=seconds, **self.how(**env))
        return done.returncode, done.stdout, done.stderr

    def as_nobody(self):
        """The words that run a command as somebody who may write nothing of the copy. Where nobody
        can be that, the test is skipped."""
        for it in ("home", "tmp"):
            os.chmod(f"{self.at}/{it}", 0o777)
        if os.geteuid():
            subprocess.run(["chmod", "-R", "a-w", self.top], check=True)
            return []
        os.chmod(self.room.at, 0o755)
        # (it comes to commands that only root may reach, as subprocess doesn't)
        words = [shutil.which("setpriv"), *NO_RIGHTS]
        is_right = [*words, "test", "-r", f"{self.top}/morris"]
        if not words[0] or subprocess.run(is_right, check=False).returncode:
            self.skipTest("another user without rights (setpriv)")
        return words


class Unpacking:
    """Tests of what is taken out of the archive in release/, for a class of `Copies`. That has the
    name under which BUILT tells of its digest, what is said where it can't be unpacked, the command
    that takes it, and judges answers."""

    digest_named = cannot = ""

    def words(self):
        raise NotImplementedError

    def judge(self, found, is_new, is_kept=True):
        """Fails unless this answer is right, of a run that had to unpack, or hadn't, or either
        where `is_new` is None; and that kept what it unpacked, or could keep nothing."""
        raise NotImplementedError

    def refused(self, *texts, **how):
        """Fails unless it is refused by a line with these texts."""
        raise NotImplementedError

    def taken(self, is_new=None, **how):
        self.judge(self.run_here(self.words(), **how), is_new)

    def kept_in(self, folder):
        """The only file that was left in a folder. It is the released one."""
        (found,) = files_below(folder)
        told = packing.told(self.top)[self.digest_named]
        self.assertEqual(packing.digest(packing.read(found)), told)
        return found

    def test_each_command_that_is_lacking_is_named(self):
        for name in ("cksum", "sha256sum", "gzip", "tar", "mktemp"):
            with self.subTest(name):
                self.refused(f" {name} ", path=self.room.without(name))

    def test_archive_with_another_byte_or_none_is_refused(self):
        archive, told = packing.archive_of(self.top), packing.told(self.top)
        turned = bytearray(packing.read(archive))
        turned[5000] ^= 1
        write(archive, bytes(turned))
        self.refused("has the digest", packing.digest(turned), told["packed"])
        os.remove(archive)
        self.refused("no released program", archive)
        self.assertEqual(files_below(self.released), [])

    def test_file_of_another_digest_is_refused(self):
        built, told = f"{self.top}/{packing.BUILT}", packing.told(self.top)[self.digest_named]
        write(built, packing.read(built).replace(told.encode(), 64 * b"0"))
        self.refused("has the digest", told, 64 * "0")
        self.assertEqual(files_below(self.released), [])

    def test_what_was_unpacked_and_damaged_is_unpacked_again(self):
        self.taken(is_new=True)
        path = self.kept_in(self.released)
        whole = packing.read(path)
        for damaged in (whole[:1000], whole[:-1] + bytes([whole[-1] ^ 1]), b""):
            write(path, damaged, 0o755)
            for is_new in (True, False):
                self.taken(is_new)
            self.assertEqual(self.kept_in(self.released), path)
        os.chmod(path, 0o644)
        self.taken(is_new=True)

    def test_ten_at_once_leave_one_file(self):
        for damage in (None, b"damaged"):
            if damage:
                write(self.kept_in(self.released), damage, 0o755)
            each = [self.started(self.words()) for _ in range(10)]
            said = [it.communicate(timeout=MOST_SECONDS) for it in each]
            self.kept_in(self.released)
            for it, answer in zip(each, said):
                self.judge((it.returncode, *answer), None)

    def test_checkout_that_cannot_be_written_to(self):
        before = self.as_nobody()
        for cache, env in (
            (f"{self.at}/home/.cache/morris", {}),
            (f"{self.at}/home/other/morris", {"XDG_CACHE_HOME": f"{self.at}/home/other"}),
        ):
            for is_new in (True, False):
                self.taken(is_new, before=before, **env)
                self.kept_in(cache)

    def test_where_nothing_can_be_kept(self):
        before = self.as_nobody()
        for home in (*2 * ["/nowhere/home"], ""):
            found = self.run_here(self.words(), before=before, HOME=home)
            self.judge(found, is_new=True, is_kept=False)
            self.assertEqual(os.listdir(f"{self.at}/tmp"), [])
        places = {"HOME": "/nowhere/home", "TMPDIR": "/nowhere/tmp"}
        tried = self.released.rpartition("/")[0], "/nowhere/home/.cache/morris", "/nowhere/tmp"
        self.refused(self.cannot, *tried, before=before, **places)
