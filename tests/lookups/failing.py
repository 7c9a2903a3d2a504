"""Reads of `lookup`, `stats` and `find` that fail, and readers that go away. What they do where a
write fails or a request for memory is refused is in cli.streams and in cli.memory."""

from tests.lib.case import UNREAD, Case, unwritten
from tests.lib.program import run
from tests.lookups.common import Session, answered, made_up, over, shared, threes

# How many positions are asked for while reads fail: pages take one another's place.
SEVERAL = 8


class Reads(Case):
    """Each read of a file fails in turn."""

    @over("grid", "nine")
    def test_each_read_of_a_lookup(self, tables, _):
        """Also where a read takes one byte at most: each text is answered as it is without that,
        or one by the fault that reading failed."""
        for most, asked in ((0, threes(tables.name)[:SEVERAL]), (1, threes(tables.name)[:1])):
            lines = [*map(tables.first_line, asked)]
            unread = [f"{tables.text(it)}: fault 22: reading failed\n" for it in asked]
            cut = [[*lines[:it], unread[it], *lines[it + 1 :]] for it in range(len(asked))]
            whole = answered(lines)

            def judge(found, failed):
                may = [whole, *(answered(it, 1) for it in cut)] if failed else [whole]
                self.assertIn(found, may)

            words = tables.lookup(*map(tables.text, asked))
            self.each_read_fails(words, judge, most=most)

    def test_each_read_of_counts_and_of_positions(self):
        """Where the answer isn't whole it is the fault, and before it come the positions that were
        found, in whole lines; of counts none."""
        given = ["nine", "3-3", "--from", shared("nine", True).folder]
        texts = ["find", *given, "draw", "--all"]
        for words in (["stats", *given], [*texts, "--count"], texts):
            whole, cut = run(words), []
            self.assertEqual((whole.status, whole.errors), (0, b""), words)

            def judge(found, failed):
                if not failed or found.status == 0:
                    self.same(words, found, whole)
                    return
                self.same(words, found._replace(output=b""), UNREAD)
                self.assertTrue(whole.output.startswith(found.output), words)
                self.assertIn(found.output[-1:], (b"", b"\n"), words)
                cut.append(found.output)

            self.each_read_fails(words, judge)
            self.assertEqual(cut, sorted(cut, key=len), words)
            if words is texts:
                self.assertGreater(len({*cut}), 1, words)
            else:
                self.assertEqual({*cut}, {b""}, words)


class Readers(Case):
    """Who reads the answers goes away."""

    @over("grid", "nine")
    def test_one_that_goes_away_after_the_first_answer(self, tables, _):
        first, second = made_up(tables.name)[:2]
        session = Session(tables.lookup())
        line = session.ask(f"{tables.text(first)}\n")
        self.same("the first answer", line, tables.first_line(first))
        found = session.leave(f"{tables.text(second)}\n")
        self.same("no reader", found, unwritten(len(line), b""))
