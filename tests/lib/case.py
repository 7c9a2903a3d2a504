"""The base of every test case: it runs the program, compares what it answers, and has it fail."""

import shutil
import tempfile
import unittest

from tests.lib import preload
from tests.lib.program import MORRIS, OPENED, SHOWN, Answer, Run, Stream, answer, count, fault
from tests.lib.program import judge_all, masked, run

MEMORY = fault("12: out of memory")
UNREAD = fault("22: reading failed")


def unwritten(sent, text):
    """The answer where so many bytes of a text went out."""
    return Answer(1, text[:sent], fault(f"23: writing failed after {sent} bytes").errors)


class Case(unittest.TestCase):
    """A test case of the program. Tables of cases go through `subTest`, so that all that fail are
    told."""

    @classmethod
    def make_room(cls):
        """A folder that is gone when the tests of this class have ended."""
        room = tempfile.mkdtemp(prefix="morris-test-")
        cls.addClassCleanup(shutil.rmtree, room, ignore_errors=True)
        return room

    def same(self, what, found, expected):
        """Fails where an answer isn't the expected one, of which only the beginning may be
        fixed."""
        if not expected == found:
            self.fail(f"{what}: answered {found!r:.{SHOWN}}, not {expected!r:.{SHOWN}}")

    def expect(self, words, expected, given=b"", **how):
        """Runs the program and compares its answer: status, output and errors."""
        with self.subTest(" ".join(map(str, words))):
            self.same(words, run(words, given, **how), Answer(*expected))

    def expect_all(self, asked, **how):
        """Makes runs side by side, and fails with all that are wrong."""
        wrong = judge_all(asked, **how)
        self.assertFalse(wrong, "\n".join(map(str, wrong)))

    def shown(self, words, given=b""):
        """What the program prints, which must be no fault."""
        done = run(words, given)
        self.assertEqual((done.status, done.errors), (0, b""), words)
        return done.output.decode()

    # ---- each request, each read, each write

    def each_request_refused(self, words, given=b"", refused=(), **how):
        """Refuses each request for memory in turn: the answer is that of a run with ample memory,
        or want of memory after some of its lines of progress, or another of those given. At least
        one has to be refused."""

        def plain(answer):
            return answer._replace(errors=masked(answer.errors, True))

        whole = plain(run(words, given))
        lines = [it for it in whole.errors.splitlines(True) if it.startswith(b"progress: ")]
        before = [b"".join(lines[:many]) for many in range(len(lines) + 1)]
        wanting = [MEMORY._replace(errors=it + MEMORY.errors) for it in before]

        def judge(found):
            answer = plain(found.answer)
            if answer == whole:
                return "right"
            return "refused" if found.size and answer in (*wanting, *refused) else None

        how = {"may_do_without": lambda size: True, **how}
        with self.subTest(" ".join(map(str, words)), refused="each request"):
            start = lambda number: preload.run_refused([MORRIS, *words], number, given)
            done = preload.refuse_each(words, start, judge, **how)
            self.assertGreaterEqual(done.refused, 5, words)
            self.assertGreater(done.refused, done.needless, words)
            return done

    def each_write_fails(self, words, text, given=b"", sizes=None):
        """A write fails after any number of bytes of the text, or after each of these numbers:
        those went out, and no write is tried after it."""
        fails = lambda size: {"stream": Stream(1, 1, size + 1), "calls": size + 1}
        self.expect_all(
            Run(words, unwritten(size, text), given, **fails(size))
            for size in (range(len(text)) if sizes is None else sizes)
        )

    def each_read_fails(self, words, judge, given=b"", descriptor=OPENED, most=0):
        """Each read from a descriptor fails in turn, until a run makes fewer reads: `judge` is
        called with the answer of each, and with whether a read failed in it."""
        failing = calls = 0
        while failing <= calls:
            failing += 1
            count()
            found, calls = answer(Run(words, None, given, Stream(descriptor, most, failing)))
            with self.subTest(" ".join(map(str, words)), read=failing):
                judge(found, calls >= failing)
        self.assertGreater(failing, 1, f"{words}: read nothing")
