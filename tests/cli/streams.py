"""Streams of the system: terminals, full devices, files that may not grow, pipes that nobody reads,
closed descriptors, a folder in place of the input, and streams that move a byte at a time or fail
at any call.

No contract says that `main` hands over each stream as itself and ends with the status that it was
answered. These runs do.
"""

import fcntl
import os
import pty
import re
import subprocess
import tty

from tests.lib.case import UNREAD, Case, unwritten
from tests.lib.program import COUNTED, DEEPEST, LOOKED, MORRIS, PROBED, USAGE_ERROR
from tests.lib.program import Answer, Run, Stream, count, fault, run
from tests.lib.tables import grid_files, tables

LOOK = ["look", "grid", "XXX.OO.O.", "--depth", "3"]
STATS = ["stats", "grid", "3-3"]
BUILD = ["build", "grid", "4-3", "--all"]
CLASSES = [*BUILD, "--classes"]
VERIFY = ["verify", "grid"]
VERIFIED = b"verified 3-3: 1680 entries\n"
VERIFY_ALL = [*VERIFY, "--all"]
BOTH_VERIFIED = VERIFIED + b"verified 4-3: 2520 entries\n"
PROBE = ["probe", "grid", "OO.OXX.X."]
# Commands over the files of a folder, whose path comes after them.
LOOKUP = ["lookup", "grid", "--from"]
COUNT = ["stats", "grid", "3-3", "--from"]
FIND = ["find", "grid", "3-3", "lost", "--all", "--from"]
NOTHING = unwritten(0, b"")
# No run takes this many seconds.
MOST_SECONDS = 60


def printed():
    """Commands with their input, what they print, and after which of these bytes the output
    fails."""
    files, version = grid_files(), run(["--version"]).output
    for folder in (tables("grid", "4-3", it) for it in (False, True)):
        for command, *more in (
            (LOOKUP, "--moves", "XXX.OO.O."),
            (COUNT,),
            (COUNT, "--csv"),
            (FIND,),
            (FIND, "--count"),
        ):
            words = [*command, folder, *more]
            text = run(words).output
            yield words, b"", text, range(len(text))
    both, classes = files["3-3"] + files["4-3"], files["3-3c"] + files["4-3c"]
    for words, given, text in (
        (LOOK, b"", LOOKED),
        (STATS, b"", COUNTED),
        ([*STATS, "--deepest"], b"", DEEPEST),
        (VERIFY, files["3-3"], VERIFIED),
        (VERIFY_ALL, both, BOTH_VERIFIED),
        (PROBE, files["3-3"], PROBED),
        (["--version"], b"", version),
    ):
        yield words, given, text, range(len(text))
    yield BUILD, b"", both, (0, 1, 15, 16, 1000, 3407, 3408, 3409, 3500, 4096, 8495)
    yield CLASSES, b"", classes, (0, 1, 15, 16, 687, 688, 689, 1675)


class Output(Case):
    """Standard output that fails."""

    def test_output_that_takes_nothing(self):
        asked = [(words, given) for words, given, _, _ in printed()]
        asked += [(["--help"], b""), (["look", "--help"], b"")]
        asked.append(([*LOOKUP, tables("grid", "4-3")], b"XXX.OO.O.\n"))
        for words, given in asked:
            with open("/dev/full", "wb") as full:
                self.expect(words, NOTHING, given, stdout=full)
            end, target = os.pipe()
            os.close(end)
            self.expect(words, NOTHING, given, stdout=target)
            os.close(target)
            self.same(f"{words} >&-", closed(words, 1, given), NOTHING)

    def test_output_that_fails_after_any_byte(self):
        """No write is tried after the one that failed."""
        for words, given, text, sizes in printed():
            with self.subTest(words):
                self.each_write_fails(words, text, given, sizes)

    def test_file_that_may_not_grow(self):
        for words, given, text, sizes in printed():
            with self.subTest(words):
                runs = [Run(words, unwritten(it, text), given, room=it) for it in sizes]
                self.expect_all([*runs, Run(words, (0, text, b""), given, room=len(text))])

    def test_output_that_takes_some_bytes_at_a_time(self):
        for words, given, text, _ in printed():
            done, by_sevens = (0, text, b""), Stream(1, most=7)
            runs = [Run(words, done, given, stream=Stream(1, most=1), calls=len(text))]
            self.expect_all([*runs, Run(words, done, given, stream=by_sevens)])

    def test_reader_that_goes_away(self):
        """As `head` does: the bytes that it took or that the pipe still held count as written, and
        the next write is a fault. No signal ends the program."""
        end, target = os.pipe()
        # A pipe of one page, so that the bytes of the files don't fit.
        fcntl.fcntl(target, fcntl.F_SETPIPE_SZ, 4096)
        with subprocess.Popen(["head", "-c", "1"], stdin=end, stdout=subprocess.DEVNULL):
            os.close(end)
            found = run(BUILD, stdout=target)
            os.close(target)
        self.assertEqual(found.status, 1)
        written = re.fullmatch(rb"fault 23: writing failed after (\d+) bytes\n", found.errors)
        self.assertTrue(written and int(written[1]) <= 2 * 4096, found)


class Input(Case):
    """Standard input that fails."""

    def test_input_that_cannot_be_read(self):
        for words in (VERIFY, VERIFY_ALL, PROBE, [*LOOKUP, tables("grid", "4-3")]):
            folder = os.open("/", os.O_RDONLY)
            self.expect(words, UNREAD, stdin=folder)
            os.close(folder)
            self.same(f"{words} <&-", closed(words, 0), UNREAD)

    def test_input_that_fails_at_any_byte(self):
        for words, name, text, step in (
            (PROBE, "3-3", PROBED, 1),
            (PROBE, "3-3c", PROBED, 1),
            (VERIFY, "3-3", VERIFIED, 32),
            (VERIFY, "3-3c", b"verified 3-3: 320 entries\n", 1),
        ):
            file = grid_files()[name]
            # A call for each byte, and one that finds the end.
            calls = len(file) + 1
            runs = [Run(words, (0, text, b""), file, stream=Stream(0, most=1), calls=calls)]
            for failing in range(1, calls + 1, step):
                stream = Stream(0, most=1, failing=failing)
                runs.append(Run(words, UNREAD, file, stream=stream, calls=failing))
            self.expect_all(runs)

    def test_bundle_that_fails(self):
        """The lines stay of the files that were verified before."""
        low, high = grid_files()["3-3c"], grid_files()["4-3c"]
        whole, runs = len(low) + len(high), []
        for failing in (1, 16, len(low), len(low) + 1, whole, whole + 1):
            lines = b"verified 3-3: 320 entries\n" * (failing > len(low))
            lines += b"verified 4-3: 470 entries\n" * (failing > whole)
            stream, expected = Stream(0, most=1, failing=failing), (1, lines, UNREAD.errors)
            runs.append(Run(VERIFY_ALL, expected, low + high, stream=stream, calls=failing))
        self.expect_all(runs)

    def test_nothing_is_read_before_it_is_needed(self):
        """Board and text are looked at first, and other commands read nothing."""
        board, text = fault("25: no such board"), fault("1: text is not one character per point")
        self.expect_all(
            Run(words, expected, of_folder=True, stream=Stream(0), calls=calls)
            for words, expected, calls in (
                (["probe", "round", "XXX.OO.O."], board, 0),
                (["probe", "grid", "X?"], text, 0),
                (["probe", "grid", "xXX.OO.O."], fault("2: bad character at 0"), 0),
                (["probe", "grid", "XXXOO...."], fault("3: bad number of stones"), 0),
                (PROBE, UNREAD, 1),
                (["verify", "round"], board, 0),
                (["verify", "round", "--all"], board, 0),
                (VERIFY, UNREAD, 1),
                (VERIFY_ALL, UNREAD, 1),
                (LOOK, (0, LOOKED, b""), 0),
                (STATS, (0, COUNTED, b""), 0),
                (["build", "grid", "3-3"], (0, grid_files()["3-3"], b""), 0),
                (["lok"], USAGE_ERROR, 0),
            )
        )


class Errors(Case):
    """Standard error that fails."""

    def test_errors_that_cannot_be_written(self):
        """The status is then all that tells of a fault."""
        wrong = ["look", "round", "XXX.OO.O."]
        with open("/dev/full", "wb") as full:
            self.expect(wrong, (1, b"", b""), stderr=full)
            self.same("a fault to nothing", closed(wrong, 2), (1, b"", b""))
            self.expect(LOOK, (1, b"", b""), stdout=full, stderr=full)
            self.expect(["look"], (2, b"", b""), stderr=full)

    def test_errors_that_are_cut(self):
        held = Stream(1, most=1, failing=1)
        cut = [Run(["look", "round", "XXX.OO.O."], (1, b"", b"fau"), error_room=3)]
        cut += [Run(["look"], (2, b"", b"err"), error_room=3)]
        for room in (64, 0):
            expected = 1, b"", NOTHING.errors[:room]
            given = grid_files()["3-3"]
            cut.append(Run(PROBE, expected, given, stream=held, error_room=room))
        self.expect_all(cut)

    def test_progress_that_cannot_be_written(self):
        """It changes nothing else. A line that failed isn't tried twice, and later ones not at
        all."""
        files, runs = grid_files(), []
        both, second = files["3-3"] + files["4-3"], Stream(2, failing=2)
        for words, given in (
            (["stats", "grid", "4-3"], b""),
            (["stats", "grid", "4-3", "--classes"], b""),
            (BUILD, b""),
            (CLASSES, b""),
            (VERIFY, files["4-3c"]),
            (VERIFY_ALL, both),
            (["probe", "grid", "XXXX.OOO."], both),
        ):
            status, output, errors = run([*words, "--progress"], given)
            self.same(words, (status, output, b""), run(words, given))
            words, first = [*words, "--progress"], errors.index(b"\n") + 1
            for room in (0, first + 4):
                expected = status, output, errors[:room]
                runs.append(Run(words, expected, given, error_room=room))
            expected = status, output, errors[:first]
            runs.append(Run(words, expected, given, stream=second, calls=2))
        self.expect_all(runs)


def closed(words, descriptor, given=b""):
    """The answer of a run of which one descriptor is closed."""
    script = f'exec "$@" {descriptor}>&-'
    return run(["-c", script, "sh", MORRIS, *words], given, program="/bin/sh")


class Terminal(Case):
    """What a person sees."""

    def on_terminal(self, words, given=b"", stream="stderr"):
        """What a run writes to a terminal that is this stream of it, and the rest of its answer."""
        count()
        terminal, inner = pty.openpty()
        tty.setraw(inner)
        how = {"stdout": subprocess.PIPE, "stderr": subprocess.PIPE, stream: inner}
        done = subprocess.run(
            [MORRIS, *words], input=given, timeout=MOST_SECONDS, check=False, **how
        )
        os.close(inner)
        shown = b""
        try:
            while part := os.read(terminal, 65536):
                shown += part
        except OSError:
            # All was read that was written.
            os.close(terminal)
        return shown.decode(), Answer(done.returncode, done.stdout or b"", done.stderr or b"")

    def test_lines_of_progress_take_one_anothers_place(self):
        """But for the first line and those of pairs that are done; and what is there at the end is
        cleared, also before a fault."""
        clear = re.escape("\r\x1b[K")
        passing = r"(\rprogress: 3-3( wave \d+)?, 0 of [^\r\n]* s\x1b\[K)*"
        whole = r"\rprogress: \d+ entries, about \d+ MB of memory\x1b\[K\n"
        done = r"\rprogress: [^\r\n]* done, [^\r\n]*\x1b\[K\n"
        needs = "fault 13: needs 4-3\n"
        for words, given, expected in (
            (["build", "grid", "4-3"], b"", whole + done + done + clear),
            (["build", "nine", "3-3", "--workers", "1"], b"", whole + passing + done + clear),
            (["probe", "grid", "XXXXOOO.."], grid_files()["3-3"], whole + done + clear + needs),
        ):
            shown, _ = self.on_terminal([*words, "--progress"], given)
            with self.subTest(words):
                self.assertRegex(shown, rf"\A{expected}\Z")
        # Nobody asked for progress.
        shown, _ = self.on_terminal(["probe", "grid", "XXXXOOO.."], grid_files()["3-3"])
        self.assertEqual(shown, needs)

    def test_no_table_is_written_to_a_terminal(self):
        """Nor is anything else asked of such a run before; other texts are written."""
        refused = fault("40: a table isn't for a terminal: add --into FOLDER or > FILE")
        for words in (["build", "grid", "4-3", "--progress"], ["build", "round", "33", "--all"]):
            with self.subTest(words):
                self.same(words, self.on_terminal(words, b"", "stdout"), ("", refused))
        shown, found = self.on_terminal(VERIFY, grid_files()["3-3"], "stdout")
        self.assertEqual((shown, found), ("verified 3-3: 1680 entries\n", (0, b"", b"")))
