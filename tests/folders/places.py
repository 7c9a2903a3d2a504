"""Folders that can't be used, and names in them that stand for something else than a file."""

import ctypes
import os
import shutil
import subprocess
from contextlib import contextmanager
from pathlib import Path

from tests.folders.common import BUILD, HIGH, LIST, LOCK, LOW, FolderCase, files_in, files_of
from tests.folders.common import folder_of, lines_of, named, put, sums_of, thing_at, verified
from tests.lib.program import MORRIS, Answer, fault, limit, run

FILES = files_of((4, 3))
FIRST = {"3-3": FILES["3-3"]}
BUILT = Answer(0, lines_of(FILES), b"")
VERIFIED = Answer(0, verified(FILES), b"")
# What has to stay as it is where a link leads to it.
OUTSIDE = b"outside\n"
# What two positions are answered, the first from the file of 3-3, the second from that of 4-3.
ASKED = {LOW: ("XXX.OO.O.", "won in 3: 2-3"), HIGH: ("XXXXO.OO.", "draw: 2-5")}
# What reads a folder whose name comes after it.
READERS = (
    ["verify", "grid", "--from"],
    ["lookup", "grid", "XXX.OO.O.", "--from"],
    ["lookup", "grid", "--from"],
    ["stats", "grid", "3-3", "--from"],
    ["find", "grid", "3-3", "won", "--from"],
)
UNMADE, NO_FOLDER = "28: folder can't be made", "36: no such folder"
LOW_UNWRITTEN, HIGH_UNWRITTEN = (f"29: file of {it} can't be written" for it in ("3-3", "4-3"))
LIST_UNWRITTEN, UNLOCKED = "34: file of digests can't be written", "38: folder can't be locked"
# The user and the group that own nothing.
NOBODY = 65534
# CLONE_NEWNS of Linux.
MOUNTS_OF_ONES_OWN = 0x20000

IRREGULAR, IS_A_FOLDER = "not a regular file", "Is a directory"
NOT_THERE, NOT_A_FOLDER = "No such file or directory", "Not a directory"
NOT_PERMITTED, READ_ONLY = "Permission denied", "Read-only file system"
LOOP, FULL = "Too many levels of symbolic links", "No space left on device"
TOO_LARGE, LONG_NAME = "File too large", "File name too long"

# What a name may stand for, and how it comes to, where a file and a pipe lie outside of the folder.
THINGS = {
    "a link": lambda path, outside: path.symlink_to(outside),
    "a link to nothing": lambda path, outside: path.symlink_to(f"{outside}-not"),
    "a link to itself": lambda path, outside: path.symlink_to(path),
    "a link to a device": lambda path, outside: path.symlink_to("/dev/zero"),
    "a link to a pipe": lambda path, outside: path.symlink_to(f"{outside}-pipe"),
    "a link to a folder": lambda path, outside: path.symlink_to("/"),
    "a second name": lambda path, outside: path.hardlink_to(outside),
    "a pipe": lambda path, outside: os.mkfifo(path),
    "a folder": lambda path, outside: path.mkdir(),
    "a full folder": lambda path, outside: (path / "within").mkdir(parents=True),
}
FOLDERS = ("a folder", "a full folder")
# Why these can't be read, where links are followed.
UNREADABLE = {
    "a link to itself": LOOP,
    **{it: IRREGULAR for it in ("a link to a device", "a link to a pipe", "a pipe")},
    **{it: IS_A_FOLDER for it in ("a link to a folder", *FOLDERS)},
}
# Why these can't be replaced, and why these can't be locked.
IN_THE_WAY = {it: IS_A_FOLDER for it in FOLDERS}
NO_LOCK = {it: IRREGULAR for it in THINGS if it != "a second name"} | IN_THE_WAY
# The fault of each name that a build can't use, and why it can't, by what the name stands for.
BUILT_OVER = {
    f"{LOW}.part": (LOW_UNWRITTEN, IN_THE_WAY),
    f"{HIGH}.part": (HIGH_UNWRITTEN, IN_THE_WAY),
    f"{LIST}.part": (LIST_UNWRITTEN, IN_THE_WAY),
    LOW: (LOW_UNWRITTEN, IN_THE_WAY),
    HIGH: (HIGH_UNWRITTEN, IN_THE_WAY),
    LIST: (LIST_UNWRITTEN, UNREADABLE),
    LOCK: (UNLOCKED, NO_LOCK),
}


def built_before(name):
    """The files that a build has written before it comes to a name that it can't use."""
    if name in (LIST, LOCK) or name.startswith(LOW):
        return {}
    return FIRST if name.startswith(HIGH) else FILES


def verified_past(folder, name, reason):
    """What `verify --from` answers where the file of this name can't be read."""
    if reason is None:
        return VERIFIED
    before = {} if name == LOW else FIRST
    if reason == NOT_THERE:
        # A link that leads nowhere is no file.
        missing = fault("13: needs 3-3, in the file of 4-3")
        return missing if name == LOW else Answer(0, verified(before), b"")
    pair = "3-3" if name == LOW else "4-3"
    return fault(f"30: file of {pair} can't be opened: {folder}: {reason}")._replace(
        output=verified(before)
    )


def looked_up(name, reason):
    """What `lookup` answers a position for which it needs the file of this name."""
    text, value = ASKED[name]
    if reason is None:
        return Answer(0, f"{text} {value}\n".encode(), b"")
    pair = "3-3" if name == LOW else "4-3"
    refused = f"13: needs {pair}" if reason == NOT_THERE else "22: reading failed"
    output = f"{text}: fault {refused}\n".encode()
    return fault("33: 1 line has no answer")._replace(output=output)


class PlaceCase(FolderCase):
    """Cases over places, which some answer in a way of their own."""

    def expect_everywhere(self, folder, texts, **how):
        """The faults of a build into a folder, and of what reads it."""
        build, reading = map(fault, texts)
        self.expect([*BUILD, folder], build, **how)
        for words in READERS:
            self.expect([*words, folder], reading, **how)

    def expect_read(self, folder, name=None, reason=None, **how):
        """What reads a folder in which the file of this name can't be read."""
        reason = reason if name in ASKED else None
        verify = ["verify", "grid", "--from", folder]
        self.expect(verify, verified_past(folder, name, reason), **how)
        for it, (text, _) in ASKED.items():
            words = ["lookup", "grid", "--from", folder, text]
            self.expect(words, looked_up(it, reason if it == name else None), **how)


class Names(PlaceCase):
    """Each name that is read or written, standing for each thing."""

    def made(self, name, kind, files, content):
        """A folder with these files in which a name stands for a thing, and what is beside it."""
        top = Path(self.make_room())
        folder, outside = top / "in", top / "outside"
        put(folder, files)
        outside.write_bytes(content)
        os.mkfifo(f"{outside}-pipe")
        (folder / name).unlink(missing_ok=True)
        THINGS[kind](folder / name, outside)
        return folder, files_in(top)

    def test_builds_over_them(self):
        """A file outside stays as it is."""
        for name, (text, reasons) in BUILT_OVER.items():
            for kind in THINGS:
                folder, beside = self.made(name, kind, {}, OUTSIDE)
                expected, left = BUILT, folder_of(FILES)
                if kind in reasons:
                    before = built_before(name)
                    errors = fault(f"{text}: {folder}: {reasons[kind]}").errors
                    expected = Answer(1, lines_of(before), errors)
                    left = {LOCK: b"", **named(before), name: thing_at(folder / name)}
                elif name == LOCK:
                    left[LOCK] = OUTSIDE
                with self.subTest(name, kind=kind):
                    self.same("build --into", run([*BUILD, folder]), expected)
                    self.same_folder("build --into", folder, left)
                    self.same("outside", files_in(folder.parent), beside)

    def test_reading_them(self):
        for name in BUILT_OVER:
            for kind in THINGS:
                content = FILES["3-3" if name == LOW else "4-3"]
                folder, _ = self.made(name, kind, FILES, content)
                nothing = NOT_THERE if kind == "a link to nothing" else None
                with self.subTest(name, kind=kind):
                    self.expect_read(folder, name, UNREADABLE.get(kind, nothing))


class Missing(PlaceCase):
    """Folders that aren't there, are something else, or can't be made."""

    def setUp(self):
        self.top = top = Path(self.make_room())
        (top / "file").write_bytes(b"")
        os.mkfifo(top / "pipe")
        (top / "nowhere").symlink_to(top / "not")
        (top / "loop").symlink_to(top / "loop")

    def test_each_has_its_fault(self):
        for name, first, why in (
            ("not/below", UNMADE, NOT_THERE),
            ("file/below", UNMADE, NOT_A_FOLDER),
            ("loop/below", UNMADE, LOOP),
            ("x" * 300, UNMADE, LONG_NAME),
            ("file", NO_FOLDER, NOT_A_FOLDER),
            ("file/", NO_FOLDER, NOT_A_FOLDER),
            ("pipe", NO_FOLDER, NOT_A_FOLDER),
            ("nowhere", NO_FOLDER, NOT_THERE),
            ("loop", NO_FOLDER, LOOP),
        ):
            folder = f"{self.top}/{name}"
            texts = (f"{first}: {folder}: {why}", f"{NO_FOLDER}: {folder}: {why}")
            self.expect_everywhere(folder, texts)
        self.expect_everywhere("", (f"{NO_FOLDER}: its name is empty",) * 2)
        self.expect_everywhere("/dev/null", (f"{NO_FOLDER}: /dev/null: {NOT_A_FOLDER}",) * 2)
        texts = (f"{it}: {'y' * 4096}: {LONG_NAME}" for it in (UNMADE, NO_FOLDER))
        self.expect_everywhere("y" * 4097, texts)

    def test_path_stays_one_line_and_harms_no_terminal(self):
        for name, shown in (
            ("a\nfault 12: out of memory", r"a\x0afault 12: out of memory"),
            ("\x1b[2J\\\u00e9\x7f", r"\x1b[2J\\\xc3\xa9\x7f"),
        ):
            text = f"{self.top}/{shown}/below: {NOT_THERE}"
            below = f"{self.top}/{name}/below"
            self.expect_everywhere(below, (f"{UNMADE}: {text}", f"{NO_FOLDER}: {text}"))

    def test_reading_makes_no_folder(self):
        misspelt = self.top / "tabels"
        for words in READERS:
            self.expect([*words, misspelt], fault(f"{NO_FOLDER}: {misspelt}: {NOT_THERE}"))
        self.assertFalse(os.path.lexists(misspelt))

    def test_a_path_may_lead_to_a_folder_in_any_way(self):
        (self.top / "aim").mkdir()
        (self.top / "link").symlink_to("aim")
        for name in ("link", "link/", "new/", "./aim/../other", "other/."):
            folder = f"{self.top}/{name}"
            self.expect([*BUILD, folder], BUILT)
            self.same_folder(folder, folder, folder_of(FILES))
            self.expect_read(folder)


class Sizes(PlaceCase):
    """Files that may have so many bytes alone."""

    def test_list_of_digests(self):
        folder, lines = self.new_path(), sums_of({"6-3": b""})
        put(folder, {})
        for size in (0, 79):
            Path(folder, LIST).write_bytes(lines)
            expected = fault(f"{LIST_UNWRITTEN}: {folder}: {TOO_LARGE}")
            self.expect([*BUILD, folder], expected, preexec_fn=lambda size=size: limit(size))
            self.same_folder(f"{size} bytes", folder, {LIST: lines, LOCK: b""})

    def test_table_files(self):
        """An old file stays that can't be replaced."""
        folder, old = self.new_path(), {"4-3": b"old"}
        put(folder, old)
        for size in (0, 100, 3407, 3408, 5000, 5087):
            done, text = (FIRST, HIGH_UNWRITTEN) if size >= 3408 else ({}, LOW_UNWRITTEN)
            expected = Answer(1, lines_of(done), fault(f"{text}: {folder}: {TOO_LARGE}").errors)
            self.expect([*BUILD, folder], expected, preexec_fn=lambda size=size: limit(size))
            self.same_folder(f"{size} bytes", folder, {**named(old | done), LOCK: b""})


class Permission(PlaceCase):
    """Folders and files of another user, or that this one may not use."""

    def setUp(self):
        """Has runs be another user's, where this one may do anything."""
        top = Path(self.make_room())
        self.folder = top / "tables"
        self.folder.mkdir()
        self.how = {"program": shutil.copy(MORRIS, top / "morris")}
        if os.geteuid() == 0:
            top.chmod(0o755)
            self.how |= {"user": NOBODY, "group": NOBODY, "extra_groups": []}
            try:
                self.assertEqual(run(["--version"], **self.how).status, 0)
            except OSError:
                self.skipTest("another user who may run the program")

    def owned(self, *paths):
        """Gives these paths to the other user."""
        for path in paths if "user" in self.how else ():
            os.chown(path, NOBODY, NOBODY)

    def test_folder_into_which_nobody_may_look(self):
        folder, below = self.folder, self.folder / "below"
        self.owned(folder)
        folder.chmod(0)
        self.expect([*BUILD, folder], fault(f"{UNLOCKED}: {folder}: {NOT_PERMITTED}"), **self.how)
        texts = (f"{it}: {below}: {NOT_PERMITTED}" for it in (UNMADE, NO_FOLDER))
        self.expect_everywhere(below, texts, **self.how)
        unopened = f"30: file of 3-3 can't be opened: {folder}: {NOT_PERMITTED}"
        self.expect(["verify", "grid", "--from", folder], fault(unopened), **self.how)
        words = ["lookup", "grid", "--from", folder, ASKED[LOW][0]]
        self.expect(words, looked_up(LOW, NOT_PERMITTED), **self.how)
        folder.chmod(0o700)

    def test_folder_in_which_nobody_may_write(self):
        folder, build, new = self.folder, [*BUILD, self.folder], self.folder / "new"
        self.owned(folder)
        folder.chmod(0o555)
        self.expect(build, fault(f"{UNLOCKED}: {folder}: {NOT_PERMITTED}"), **self.how)
        self.expect([*BUILD, new], fault(f"{UNMADE}: {new}: {NOT_PERMITTED}"), **self.how)
        for name, text in ((LOCK, LOW_UNWRITTEN), (LIST, LIST_UNWRITTEN)):
            folder.chmod(0o755)
            (folder / name).write_bytes(b"")
            self.owned(folder / name)
            folder.chmod(0o555)
            left = files_in(folder)
            self.expect(build, fault(f"{text}: {folder}: {NOT_PERMITTED}"), **self.how)
            self.same_folder(text, folder, left)
        folder.chmod(0o755)

    def test_folder_of_another_user_who_has_built_in_it(self):
        run([*BUILD, self.folder])
        self.folder.chmod(0o777)
        (self.folder / LOCK).chmod(0o644)
        self.expect([*BUILD, self.folder], BUILT, **self.how)

    def test_files_that_nobody_may_read(self):
        for name, (text, _) in BUILT_OVER.items():
            folder = self.folder / name
            put(folder, FILES)
            (folder / name).write_bytes(b"")
            self.owned(folder, *folder.iterdir())
            (folder / name).chmod(0)
            self.expect_read(folder, name, NOT_PERMITTED, **self.how)
            refused = fault(f"{text}: {folder}: {NOT_PERMITTED}")
            expected = refused if name in (LIST, LOCK) else BUILT
            self.expect([*BUILD, folder], expected, **self.how)


def mounted(*words):
    return subprocess.run(["mount", *words], capture_output=True, check=False).returncode == 0


class Devices(PlaceCase):
    """A full device, and one that can only be read."""

    def setUp(self):
        """Gives this process, and those that it starts, mounts of their own from here on."""
        if shutil.which("mount") is None:
            self.skipTest("mount")
        if ctypes.CDLL(None).unshare(MOUNTS_OF_ONES_OWN) or not mounted("--make-rprivate", "/"):
            self.skipTest("the right to mount")
        with self.device("size=4k"):
            pass

    @contextmanager
    def device(self, options):
        """A device in memory, mounted in a folder of its own."""
        place = self.make_room()
        if not mounted("-t", "tmpfs", "-o", options, "tmpfs", place):
            self.skipTest("a device in memory")
        try:
            yield place
        finally:
            subprocess.run(["umount", "-l", place], check=True)

    def test_full_device(self):
        """So many files a device takes, its own folder and the lock among them."""
        for limits, done, text in (
            ("nr_inodes=1", None, UNLOCKED),
            ("nr_inodes=2", {}, LOW_UNWRITTEN),
            ("nr_inodes=3", FIRST, HIGH_UNWRITTEN),
            ("nr_inodes=4", FILES, LIST_UNWRITTEN),
            ("size=4k", FIRST, HIGH_UNWRITTEN),
            ("size=12k", FILES, LIST_UNWRITTEN),
        ):
            with self.subTest(limits), self.device(limits) as place:
                if done is None:
                    new = f"{place}/new"
                    self.expect([*BUILD, new], fault(f"{UNMADE}: {new}: {FULL}"))
                expected = lines_of(done or {}), fault(f"{text}: {place}: {FULL}").errors
                self.expect([*BUILD, place], (1, *expected))
                left = {} if done is None else {**named(done), LOCK: b""}
                self.same_folder(limits, place, left)

    def test_device_that_can_only_be_read(self):
        with self.device("size=1m") as place:
            folder, new = f"{place}/tables", f"{place}/new"
            run([*BUILD, folder])
            if not mounted("-o", "remount,ro", place):
                self.skipTest("a device that can be mounted read-only")
            self.expect([*BUILD, new], fault(f"{UNMADE}: {new}: {READ_ONLY}"))
            self.expect([*BUILD, folder], fault(f"{UNLOCKED}: {folder}: {READ_ONLY}"))
            self.expect_read(folder)
