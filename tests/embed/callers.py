"""The library of embed/ as callers in C, C++, Python and Rust have it, over table files that the
program builds, and over what is no table file or no position. What they answer is compared with
`morris lookup`, and moves with the rules; the callers in C run once more under two sanitizers."""

import functools
import os
import random
import re
import subprocess
import sys

from gate.packing import read
from tests.embed.common import EMBED, SEED, EmbedCase, all_of_grid, compare
from tests.embed.common import folders, lacks, made_up, make, need, out, run
from tests.lib.program import MORRIS
from tests.lib.rules import BOARDS, text_of
from tests.lib.steps import is_there
from tests.lib.tables import damaged

# The callers in each language, of which the first answers what `morris lookup --moves` does, and
# the examples.
CALLERS = {"c": ("answers", "plays"), "cpp": ("answers_cpp",), "rust": ("answers_rs",)}
EXAMPLES = {"c": ("best", "play"), "cpp": (), "rust": ("best_rs",)}
# How many positions with any numbers of stones are asked for their moves, and how many of these the
# program is asked for too.
PLAYED, LOOKED_AT = 400, 50
# How many games the examples play from positions of the usual board.
GAMES = 20
SANITIZED = "-O1 -g -fno-sanitize-recover=all -fsanitize=address,undefined -DMOST_PAGES=2000"
# What is given back is kept for a while, but no more of it than a leak of a page each time would
# be.
KEEPS_LITTLE = {"ASAN_OPTIONS": "quarantine_size_mb=1"}


@functools.cache
def compiled(language):
    """The folder with the callers and examples in a language."""
    need(lacks(language))
    make(*(f"{out()}/{it}" for it in CALLERS[language] + EXAMPLES[language]))
    return out()


def tables():
    full, classes = folders()
    return [f"FULL={full}", f"CLASSES={classes}"]


def input_of(texts):
    return "".join(f"{it}\n" for it in texts)


def sanitizer(room):
    """A compiler of C that has the two sanitizers. Without one the test is skipped."""
    for compiler in filter(is_there, ("clang", "gcc", "cc")):
        words = [compiler, *SANITIZED.split(), "-x", "c", "-", "-o", f"{room}/it"]
        how = {"input": b"int main(void) { return 0; }\n", "capture_output": True}
        if not subprocess.run(words, **how).returncode:
            return compiler
    return need("a C compiler with the sanitizers of clang or gcc")


class Callers(EmbedCase):
    """The callers in tests/ of embed, which compare what they are answered themselves. In C and in
    C++ there is one that includes each header before any other."""

    def test_callers_that_are_compiled(self):
        for language in CALLERS:
            with self.subTest(language):
                compiled(language)
                make(*tables(), f"check-{language}")

    def test_callers_in_python(self):
        made = [language for language in EXAMPLES if not lacks(language)]
        examples = [f"{compiled(language)}/{it}" for language in made for it in EXAMPLES[language]]
        run([sys.executable, f"{EMBED}/tests/in_python.py", *folders(), *examples])

    def test_callers_in_c_under_sanitizers(self):
        """The library itself was proved, and is as it is."""
        need(lacks("c"))
        room = self.make_room()
        how = [f"CC={sanitizer(room)}", f"CFLAGS={SANITIZED}", *tables(), "check-c"]
        make(*how, to=room, env={**os.environ, **KEEPS_LITTLE})
        run([f"{room}/answers", folders()[1]], input=input_of(made_up()))


# ---- what is answered


def in_python(board, folder, texts):
    """What the module for Python answers, in the words of `morris lookup --moves`, and of `--line`
    with the value after each ply."""
    import morris

    moves, lines = [], []
    with morris.open_tables(folder, board) as tables:
        for text in texts:
            best = " ".join(str(it.move) for it in tables.best(text))
            head = f"{text} {tables.value(text)}" + (f": {best}" if best else "")
            moves += [head, *(f"  {it.move} {it.value}" for it in tables.moves(text))]
            plies = ((it.move, it.position) for it in tables.line(text))
            lines += [head, *(f"  {it} {after} {tables.value(after)}" for it, after in plies)]
    return input_of(moves), input_of(lines)


def any_positions(board, many):
    """Made-up positions with any numbers of stones."""
    chance = random.Random(SEED)
    while many > 0:
        own, other = chance.randint(2, 9), chance.randint(3, 9)
        if own + other <= len(board.points):
            points = chance.sample(board.points, own + other)
            yield frozenset(points[:own]), frozenset(points[own:])
            many -= 1


class Answers(EmbedCase):
    """What the library answers is what the program does."""

    def test_values_and_moves_in_both_versions(self):
        for board, texts in (("nine", made_up()), ("grid", all_of_grid())):
            words = [MORRIS, "lookup", board, *texts]
            expected, other = (run([*words, "--from", it, "--moves"]) for it in folders())
            self.same(f"{board} by classes", other, expected)
            for folder in folders():
                for language, (caller, *_) in CALLERS.items():
                    with self.subTest(board, language=language, folder=folder):
                        answers = [f"{compiled(language)}/{caller}", folder]
                        compare(caller, run(answers, input=input_of(texts)), expected)
                with self.subTest(board, language="python", folder=folder):
                    moves, lines = in_python(board, folder, texts)
                    compare("moves", moves, expected)
                    compare("lines", lines, run([*words, "--from", folder, "--line"]))

    def test_moves_without_tables(self):
        """They are those of the rules, and those of `morris look`."""
        import morris

        for name, board in BOARDS.items():
            texts, played = [], []
            for position in any_positions(board, PLAYED):
                text = text_of(position, board)
                moves = board.moves(*position)
                lines = [f"{move} {text_of(after, board)}" for move, after in moves]
                found = morris.legal_moves(text, name)
                self.same(text, [f"{it} {morris.play(text, it, name)}" for it in found], lines)
                if len(texts) < LOOKED_AT:
                    look = run([MORRIS, "look", name, text, "--depth", "0"])
                    listed = re.findall(r"^\d+-\d+(?:x\d+)?$", look, re.M)
                    self.same(text, [*map(str, found)], listed)
                texts.append(text)
                played += [text, *lines]
            with self.subTest(name, language="c"):
                found = run([f"{compiled('c')}/plays"], input=input_of(texts))
                compare(name, found, input_of(played))

    def test_games_of_the_examples(self):
        """Those in C and in Python play the same ones."""
        for folder in folders():
            for first in made_up()[:GAMES]:
                with self.subTest(first, folder=folder):
                    game = run([sys.executable, f"{EMBED}/examples/play.py", folder, first])
                    self.assertTrue(game.endswith((": a draw\n", " has lost\n")), game)
                    compare(first, run([f"{compiled('c')}/play", folder, first]), game)

    def test_texts_of_faults(self):
        """The library has no numbers of faults, but the program's texts."""
        import morris

        for folder in folders():
            for content, fault in damaged(read(f"{folder}/grid-3-3.nmmt")):
                place = self.make_room()
                with open(f"{place}/grid-3-3.nmmt", "wb") as file:
                    file.write(content)
                with self.subTest(fault), morris.open_tables(place, "grid") as tables:
                    with self.assertRaises(morris.Damaged) as found:
                        tables.value("XXXOO.O..")
                    self.assertEqual(found.exception.reason, fault.partition(": ")[2])
