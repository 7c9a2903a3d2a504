"""Builds into folders, and `verify --from` over what they left, whole and damaged.

Each file is compared with the one that the rules alone give, or with the digest that another
program gave of it; `sha256sum` reads the list of digests.
"""

import os
import re
from pathlib import Path

from tests.cli.usual_board import BY_CLASSES
from tests.folders.common import BUILD, HIGH, LOCK, LOW, FolderCase, digest_of, entries_of
from tests.folders.common import files_of, folder_of, lines_of, put, verified
from tests.lib.program import USAGE_ERROR, fault, run
from tests.lib.rules import sealed
from tests.lib.tables import damaged, replaced

# By how many workers a folder is verified: the number without the option, one, and more than there
# are files.
TEAMS = ([], ["--workers", "1"], ["--workers", "3"])
# How long it took, and about how long the rest takes.
TIMES = r"\d+ s(?:, about \d+ (?:s|min) left)?\n"


class Build(FolderCase):
    """Builds of whole folders, and `verify` of these."""

    def check_folder(self, what, folder, files, board="grid"):
        """What is in a folder after a build, and what `sha256sum` and `verify` say of it."""
        self.same_folder(what, folder, folder_of(files, board))
        self.check_sums(folder, board)
        for team in TEAMS:
            self.expect(["verify", board, "--from", folder, *team], (0, verified(files), b""))
        self.check_progress(folder, files, board)

    def check_progress(self, folder, files, board):
        """`verify --progress` tells how many entries all files of the folder have, and each pair
        once it is done. Between these, at most once a second, it tells how many entries are
        done."""
        words = ["verify", board, "--from", folder, "--progress"]
        found = run(words)
        self.same(words, found[:2], (0, verified(files)))
        counts = {pair: entries_of(it) for pair, it in files.items()}
        whole, done = sum(counts.values()), 0
        expected = rf"progress: {whole} entries, about \d+ MB of memory\n"
        for pair, count in counts.items():
            done += count
            expected += rf"(progress: {pair}, \d+ of {whole} entries \(\d+ %\), {TIMES})*"
            percent = rf"\({100 * done // whole} %\)"
            expected += rf"progress: {pair} done, {done} of {whole} entries {percent}, {TIMES}"
        lines = found.errors.decode()
        self.assertRegex(lines, rf"\A{expected}\Z")
        seconds = re.findall(r"progress: \d-\d, .* %\), (\d+) s", lines)
        self.assertEqual(len(seconds), len(set(seconds)), lines)
        entries = [int(it) for it in re.findall(r", (\d+) of", lines)]
        self.assertEqual(entries, sorted(entries), lines)

    def test_files_are_those_of_the_rules(self):
        for classes in (False, True):
            files, folder = files_of((4, 3), classes), self.new_path()
            words = [*BUILD, folder, *["--classes"] * classes]
            for what in ("a new folder", "the files that are there"):
                with self.subTest(what, classes=classes):
                    self.same(words, run(words), (0, lines_of(files), b""))
                    self.check_folder(what, folder, files)

    def test_files_of_the_usual_board_are_those_of_another_program(self):
        folder = self.new_path()
        words = ["build", "nine", "4-4", "--classes", "--blocks", "64", "--into", folder]
        found = run(words)
        files = {pair: Path(folder, f"nine-{pair}.nmmt").read_bytes() for pair in BY_CLASSES}
        for pair, (_, digest) in BY_CLASSES.items():
            self.same(f"nine {pair}", digest_of(files[pair]), digest)
        self.same(words, found, (0, lines_of(files), b""))
        self.check_folder(words, folder, files, "nine")

    def test_all_of_them_go_to_one_place(self):
        self.expect([*BUILD, "nowhere", "--all"], USAGE_ERROR)
        self.assertFalse(os.path.lexists("nowhere"))

    def test_no_more_goes_to_lines_that_cannot_be_printed(self):
        folder = self.new_path()
        with open("/dev/full", "wb") as full:
            done = fault("23: writing failed after 0 bytes")
            self.expect([*BUILD, folder], done, stdout=full)
        self.same_folder("a full device", folder, {LOCK: b"", LOW: files_of((3, 3))["3-3"]})


class Damage(FolderCase):
    """Files that are damaged, of another pair or board, or not there."""

    def setUp(self):
        self.files, self.folder = files_of((4, 3)), self.new_path()
        put(self.folder, self.files)
        self.low, self.high = Path(self.folder, LOW), Path(self.folder, HIGH)
        self.first = {"3-3": self.files["3-3"]}

    def expect_refused(self, text, before):
        """`verify` names the fault after the files before it, by any number of workers, and after
        the lines of progress."""
        expected = (1, verified(before), fault(text).errors)
        words = ["verify", "grid", "--from", self.folder]
        with self.subTest(text):
            for team in TEAMS:
                self.same([*words, *team], run([*words, *team]), expected)
            found = run([*words, "--progress"])
            lines = found.errors.splitlines(keepends=True)
            errors = b"".join(it for it in lines if not it.startswith(b"progress: "))
            self.same([*words, "--progress"], found._replace(errors=errors), expected)

    def test_damaged_files(self):
        for path, pair, before in ((self.low, "3-3", {}), (self.high, "4-3", self.first)):
            whole = self.files[pair]
            wrong = sealed(replaced(whole[:-32], 17, bytes([whole[17] ^ 3])))
            for content, text in (
                *damaged(whole),
                (replaced(whole, 16, b"\xff"), "20: digest is wrong"),
                (wrong, "14: entry 0 differs"),
            ):
                path.write_bytes(content)
                self.expect_refused(f"{text}, in the file of {pair}", before)
            path.write_bytes(whole)

    def test_file_of_another_pair(self):
        self.low.write_bytes(self.files["4-3"])
        self.expect_refused("31: file of 3-3 has the table of another pair", {})

    def test_file_below_is_missing(self):
        self.low.unlink()
        self.expect_refused("13: needs 3-3, in the file of 4-3", {})

    def test_one_file_or_none(self):
        self.high.unlink()
        words = ["verify", "grid", "--from", self.folder]
        self.expect(words, (0, verified(self.first), b""))
        self.low.unlink()
        self.expect_refused("32: no table files", {})
        put(self.folder, self.files)
        self.expect(["verify", "nine", "--from", self.folder], fault("32: no table files"))
