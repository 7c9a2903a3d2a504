"""What `--progress` prints of large builds: how many entries there are in all and about how much
memory they take, then how far the build is. worked_runs.txt has its lines for small ones.
"""

import re
import subprocess
import threading

from tests.lib.case import Case
from tests.lib.program import MORRIS, count
from tests.lib.rules import NINE, below, size_of

# A build that takes seconds, by one worker: its arguments, its pairs, and how many entries are done
# with each of them.
LONG = "build nine 4-3 --workers 1 --blocks 64 --progress".split()
PAIRS = {"3-3": 2_691_920, "4-3": 26_919_200}
ENTRIES = PAIRS["4-3"]
MOST_SECONDS = 600


def started(words):
    """A run of the program of which only standard error is read."""
    count()
    how = {"stdin": subprocess.DEVNULL, "stdout": subprocess.DEVNULL, "stderr": subprocess.PIPE}
    return subprocess.Popen([MORRIS, *words], **how)


class FirstLine(Case):
    """How much there is to do."""

    def first_line(self, words):
        """The entries and the megabytes that a run tells first. It is then ended."""
        with started([*words, "--progress"]) as program:
            late = threading.Timer(MOST_SECONDS, program.kill)
            late.start()
            line = program.stderr.readline().decode()
            late.cancel()
            program.kill()
        found = re.fullmatch(r"progress: (\d+) entries, about (\d+) MB of memory\n", line)
        self.assertTrue(found, f"{words}: told {line} first")
        return int(found[1]), int(found[2])

    def memory(self, words):
        """The megabytes that a build tells first."""
        return self.first_line(["build", "nine", "3-3", *words.split()])[1]

    def test_entries_of_the_usual_board(self):
        """As another program counted them."""
        nine = sum(size_of(it, 1, NINE) for it in below((9, 9)))
        for line, entries in (
            ("build nine 4-3 --classes", 2_018_750),
            ("stats nine 4-3 --classes", 2_018_750),
            ("stats nine 9-9", nine),
            ("stats nine 9-4", sum(size_of(it, 1, NINE) for it in below((9, 4)))),
        ):
            with self.subTest(line):
                self.assertEqual(self.first_line(line.split())[0], entries)

    def test_memory_of_the_usual_board(self):
        # 5 MB, 2 bytes for each entry of both tables and 2 more for one of 4-3 while it is swept,
        # and 8 for each of 14.2 million that are decided: 221.2 MB.
        self.assertEqual(self.first_line(["stats", "nine", "4-3"]), (ENTRIES, 222))
        # 5 MB, 1.3 for either worker, 2 bytes for each entry of both tables, 2 for each of 5.7
        # million in lists of waves, and 4 for each of 1.4 million in others: 78.5 MB.
        words = ["build", "nine", "4-3", "--blocks", "64"]
        self.assertEqual(self.first_line(words), (ENTRIES, 79))

    def test_memory_grows_with_workers_and_blocks(self):
        """From the least memory to the most: 16.9 MB of entries may be fresh in all blocks
        together, and each worker has 0.7 MB beside those of its block. Of blocks with fewer than
        49,152 entries 7.4 MB are kept, and each keeps 9 bytes of each other."""
        teams = [(1, 16), (2, 16), (1, 256), (4, 16), (1, 1024), (64, 1), (7, 5)]
        grows = [self.memory(f"--workers={workers} --blocks {it}") for workers, it in teams]
        self.assertEqual(grows, sorted(set(grows)))

    def test_memory_shows_what_the_arguments_were_read_as(self):
        """No two workers are at one block, so that more workers than blocks take no more."""
        for words, same in (
            ("", "--workers=2 --blocks 16"),
            ("--workers=1", "--workers=1 --blocks 16"),
            ("--workers 4", "--workers=4 --blocks 16"),
            ("--blocks 64 --workers 4", "--workers=4 --blocks 64"),
            ("--blocks=1 --all", "--workers=1 --blocks 1"),
            ("--workers=64 --blocks=8", "--workers=8 --blocks 8"),
        ):
            with self.subTest(words):
                self.assertEqual(self.memory(words), self.memory(same))


class LongBuild(Case):
    """The lines after the first one."""

    def test_lines_of_a_long_build(self):
        """Waves are told in order, at most once a second, with the pair to which they belong.
        Before a pair's first wave it is told that its blocks are made. About how long the rest
        takes is told from the end of the first pair to that of the last."""
        program = started(LONG)
        self.addCleanup(program.kill)
        first, *lines = program.communicate(timeout=MOST_SECONDS)[1].decode().splitlines()
        self.assertEqual(program.returncode, 0)
        self.assertRegex(first, f"^progress: {ENTRIES} entries, about ")
        pairs, done, last, wave, waves = [*PAIRS], 0, 0, 0, 0
        for line in lines:
            found = re.fullmatch(
                rf"progress: {pairs[0]}( wave (\d+)| done|), (\d+) of {ENTRIES} entries "
                r"\((\d+) %\), (\d+) s(, about \d+ s left)?",
                line,
            )
            self.assertTrue(found, f"{line!r} of {lines}")
            state, number, entries, percent, seconds, left = found.groups()
            self.assertEqual(int(percent), 100 * int(entries) // ENTRIES, line)
            if state == " done":
                self.assertGreaterEqual(int(seconds), last, lines)
                done, wave = PAIRS[pairs.pop(0)], 0
            else:
                self.assertGreater(int(seconds), last, lines)
                self.assertTrue(int(number) > wave if number else wave == 0, lines)
                wave, waves = int(number or 0), waves + bool(number)
            self.assertEqual(int(entries), done, lines)
            self.assertFalse(left and not (done and pairs), lines)
            last = int(seconds)
        self.assertEqual(pairs, [])
        self.assertGreater(waves, 0)
