"""Runs whose arguments, input and answer are written down in worked_runs.txt, and others that can't
be written there: arguments that no shell gives, and moves on the board nine and deepest positions
as tests/lib/rules.py gives them. The help, whose lines are no longer than a terminal is wide, and
whose examples print what stands below them.
"""

import os
import re
import shlex
from pathlib import Path

from tests.lib.case import Case
from tests.lib.program import COUNTED, LOOKED, MORRIS, USAGE_ERROR, Answer, Has, Run, Stream
from tests.lib.program import fault, run
from tests.lib.rules import GRID, GRID_PAIRS, NINE, deepest, look, name_of, solved, stats
from tests.lib.tables import grid_files, tables

LOOK = ["look", "grid", "XXX.OO.O.", "--depth", "3"]
# There are more runs than this in worked_runs.txt.
MANY = 400
NOT_TEXT = Answer(2, b"", b"error: a word of the command line is not text\n")
# No line of the help has more characters.
MOST_CHARACTERS = 100
# An example in the help, and what it prints.
EXAMPLE = re.compile(r"^  \$ (morris .*)\n((?:  (?!\$).*\n)*)", re.MULTILINE)
COMMANDS = ("look", "stats", "build", "verify", "probe", "lookup", "find")


def written_runs():
    """The runs of worked_runs.txt."""
    files = {**grid_files(), "more": b"more"}
    folders = {"SMALLER": tables("grid", "5-4", True), "FOLDER": tables("grid", "5-4")}
    for block in Path(__file__).with_suffix(".txt").read_text(encoding="utf-8").split("\n\n"):
        lines = [it for it in block.split("\n") if it and not it.startswith("#")]
        errors = "".join(f"{it[2:]}\n" for it in lines if it.startswith("! ")).encode()
        texts = Has("".join(f"{it[2:]}\n" for it in lines if it.startswith("~ ")).encode())
        output = "".join(f"{it}\n" for it in lines if it[0] not in "$!~").encode()
        for line in (it[1:] for it in lines if it.startswith("$")):
            for name, folder in folders.items():
                line = line.replace(name, folder)
            words, shown = split(shlex.split(line), ">", files)
            words, given = split(words, "<", files)
            expected = Answer(int(b"fault " in errors), texts or output + shown, errors)
            if errors.startswith(USAGE_ERROR.errors):
                whole = USAGE_ERROR._replace(errors=Has(errors))
                expected = USAGE_ERROR if errors == b"error: ..\n" else whole
            yield Run(words, expected, given)


def split(words, mark, files):
    """The words before a mark, and the content of the files that are named after it."""
    at = words.index(mark) if mark in words else len(words)
    return words[:at], b"".join(files[it] for it in words[at + 1 :])


class Written(Case):
    """Runs that are written down."""

    def test_runs_of_the_file(self):
        runs = list(written_runs())
        self.assertGreater(len(runs), MANY)
        self.expect_all(runs)


class Help(Case):
    """The pages of the help."""

    def test_each_page_in_any_way_it_is_asked_for(self):
        for command in COMMANDS:
            page = self.shown(["help", command])
            self.assertLessEqual(max(map(len, page.splitlines())), MOST_CHARACTERS, command)
            for words in ([command, "--help"], [command, "grid", "--help"]):
                self.assertEqual(self.shown(words), page, words)
        for words in (["-h"], ["help"]):
            self.assertEqual(self.shown(words), self.shown(["--help"]), words)

    def test_examples(self):
        """In a folder in which those of a page leave files to the next."""
        room = self.make_room()
        os.symlink(MORRIS, f"{room}/morris")
        how = {"program": "bash", "cwd": room}
        how["env"] = {**os.environ, "PATH": f"{room}:{os.environ['PATH']}"}
        for command in ("build", *COMMANDS, ""):
            page = self.shown([*command.split(), "--help"])
            examples = EXAMPLE.findall(page)
            self.assertTrue(examples, page)
            for line, printed in examples:
                done = run(["-c", f"set -o pipefail; {line}"], **how)
                self.assertEqual((done.status, done.errors), (0, b""), line)
                if printed:
                    self.assertEqual(re.sub("(?m)^", "  ", done.output.decode())[:-2], printed)


class Arguments(Case):
    """Arguments that no shell gives as such."""

    def test_long_arguments(self):
        long = 10_000 * "X"
        self.expect(["look", "grid", long], fault("1: text is not one character per point"))
        self.expect([long], USAGE_ERROR)

    def test_any_name_of_the_program(self):
        looked, version = Answer(0, LOOKED, b""), Answer(0, self.shown(["-V"]).encode(), b"")
        for name in ("", "m", "a/b", "é"):
            asked = (LOOK, looked), ([], USAGE_ERROR), (["-V"], version)
            self.expect_all(Run(words, expected, name=name) for words, expected in asked)

    def test_arguments_that_are_not_text(self):
        for words in (
            [b"\xff"],
            ["--help", b"\xed\xa0\x80"],
            ["look", "grid", b"XXX.OO.\xc3."],
            ["build", "grid", "3-3", "--workers", "1", "--blocks", "5", b"\xc0\xaf"],
        ):
            self.expect(words, NOT_TEXT)


class ByTheRules(Case):
    """Answers that the rules give."""

    def test_look_at_jumps_and_captures_on_nine(self):
        """The texts go out in one write."""
        held, runs = Stream(1), []
        for text, depth, has in (
            ("OO..X....O.X..........X.", 2, "moves 54\nlost in 2\n"),
            ("XX..........X...OOO.....", 0, "\n12-2x16\n12-2x17\n12-2x18\n12-3\n"),
            ("XX...O......X.O....O....", 1, "\n12-2x5\n12-2x14\n12-2x19\n"),
            ("XX...O......X.O....O....", 1, "won in 1\n"),
        ):
            shown = look(solved(), NINE, text, depth)
            self.assertIn(has, shown)
            self.assertEqual("x" in shown, "moves 54" not in shown)
            words = ["look", "nine", text, "--depth", str(depth)]
            runs.append(Run(words, (0, shown.encode(), b""), stream=held, calls=1))
        runs.append(Run(["stats", "grid", "3-3"], (0, COUNTED, b""), stream=held, calls=1))
        self.expect_all(runs)

    def test_deepest_of_each_pair(self):
        """By positions and by classes, which have their entries in another order."""
        runs = []
        for pair in GRID_PAIRS:
            name = name_of(pair)
            for version, how in ((1, []), (2, ["--classes"]), (2, ["--classes", "--workers", "4"])):
                text = stats(solved(), GRID, name) + deepest(solved(), pair, version)
                words = ["stats", "grid", name, "--deepest", *how]
                runs.append(Run(words, (0, text.encode(), b"")))
        self.expect_all(runs)
