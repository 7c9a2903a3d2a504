"""Looks positions up in folders of tables, and compares each answer with what the files say.

Positions are made up with a fixed seed, on both boards and in both versions of the files. The
prober, which verifies the files first, says the same of them.
"""

import unittest

from tests.lib.case import Case
from tests.lib.chosen import TRIALS, is_built_here
from tests.lib.program import run
from tests.lib.rules import NINE, below, positions
from tests.lib.steps import NO_TRIALS
from tests.lookups.common import FIELDS, OPTIONS, Session, answered, made_up, over, refused, shared
from tests.lookups.common import spoiled, threes

# How many of those of 3-3 on the usual board are probed by the program, which verifies the files
# each time.
PROBED = 8
# No more seconds does it take to verify 78 million entries on one processor.
MOST_FOR_REPORTS = 900


class Answers(Case):
    """Texts from arguments and from lines, with moves, with the line of play, and as fields."""

    @over("grid", "nine")
    def test_values_and_best_moves(self, tables, _):
        """A line may end as on other systems, and the last one as the input does. Lines that are
        empty or begin with a number sign are passed over."""
        asked = made_up(tables.name)
        texts = [*map(tables.text, asked)]
        for option in OPTIONS:
            words = tables.lookup(*option)
            expected = answered(tables.lines(option, it) for it in asked)
            for end, last in (("\n", "\n"), ("\r\n", "\r\n"), ("\n", ""), ("\r\n", "\r")):
                given = f"# a position{end}{end}{end.join(texts)}{last}".encode()
                self.same(f"{words}, {end!r}", run(words, given), expected)
            self.same(words, run([*words, *texts]), expected)

    @over("grid", "nine")
    def test_fields(self, tables, draw):
        """They say the same as `--moves`, and their names stand before all."""
        every = [] if tables.board is NINE else positions((3, 3))
        words, lines, bad = tables.lookup("--moves", "--csv"), [FIELDS], 0
        asked = [*made_up(tables.name), *every]
        fields = [*map(tables.fields, asked)]
        texts = [*map(tables.text, asked)]
        self.same(words, run([*words, *texts]), answered([FIELDS, *fields]))
        no_text = [FIELDS, fields[0], refused(b"#", tables.board)]
        self.same(f"{words} #", run([*words, texts[0], "#"]), answered(no_text, 1))
        given = ""
        for text, line in zip(texts, fields):
            passed, answer = draw.choice(["", "\r", "# a position", f"#{text}"]), ""
            if draw.random() < 0.2:
                passed, answer = spoiled(draw, text, tables.board)
                bad += 1
            given += f"{passed}\n{text}\n"
            lines += [answer, line]
        self.same(words, run(words, given.encode()), answered(lines, bad))

    def test_names_of_fields_are_there_before_anything_is_asked(self):
        session = Session(shared("grid", True).lookup("--moves", "--csv"))
        self.assertEqual(session.ask(""), FIELDS)
        self.assertEqual(session.end(), answered(""))


class Probed(Case):
    """What the prober says of the same files. cli.made_up_input has it probe the board grid."""

    @over("nine")
    def test_positions_of_the_usual_board(self, tables, _):
        for position in threes("nine")[:PROBED]:
            words = ["probe", "nine", tables.text(position)]
            self.expect(words, answered(tables.report(position)), tables.file((3, 3)))

    @unittest.skipUnless(is_built_here(TRIALS), NO_TRIALS)
    @over("nine")
    def test_all_positions_of_the_usual_board(self, tables, _):
        """Over files that are verified once."""
        given = b"".join(map(tables.file, below((4, 4))))
        texts = ",".join(map(tables.text, made_up("nine")))
        found = run([texts], given, program=TRIALS, seconds=MOST_FOR_REPORTS)
        self.same("all reports", found, answered(map(tables.report, made_up("nine"))))
