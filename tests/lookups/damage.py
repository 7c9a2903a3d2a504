"""Files that are damaged, missing, or no files, as `lookup`, `stats` and `find` read them; entries
that disagree; and a file that is cut while it is open."""

import os
import struct
from pathlib import Path

from tests.lib.case import Case
from tests.lib.program import fault, run
from tests.lib.tables import damaged
from tests.lookups.common import LOW, OPTIONS, Session, answered, made_up, over, own, threes

# How many times the entries of the file of 3-3 are damaged in each folder, how many each time, and
# what codes they get.
DAMAGES, DAMAGED = 5, 40
CODES = (0, 1, 2, 3, 4, 5, 6, 49296, 65534, 65535)
# How many bytes of a file the program keeps at once, which it may read from then on without a call.
PAGE = 4096
# No more seconds does it take to look up one position, or to say why not.
MOST_OF_ONE = 20


class Files(Case):
    """The file of 3-3 is another."""

    def expect_refused(self, tables, text):
        """Each command that reads it refuses it, with or without options."""
        position = threes(tables.name)[0]
        expected = answered(f"{tables.text(position)}: fault {text}\n", 1)
        for option in OPTIONS:
            words = tables.lookup(*option, tables.text(position))
            self.expect(words, expected, seconds=MOST_OF_ONE)
        given = [tables.name, "3-3", "--from", tables.folder]
        for words in (
            ["stats", *given],
            ["stats", *given, "--csv"],
            ["find", *given, "won"],
            ["find", *given, "won", "--count"],
        ):
            self.expect(words, fault(text), seconds=MOST_OF_ONE)

    @over("grid", "nine")
    def test_damaged_headers_and_lengths(self, shared, _):
        tables = own(self.make_room(), shared)
        for content, text in damaged(shared.file(LOW), tables.name):
            Path(tables.path(LOW)).write_bytes(content)
            self.expect_refused(tables, text)

    @over("grid", "nine")
    def test_another_file_or_none(self, shared, _):
        """What isn't a regular file isn't opened: a pipe would be waited for."""
        tables = own(self.make_room(), shared)
        path = Path(tables.path(LOW))
        for put, text in (
            (lambda: path.symlink_to(tables.path((4, 3))), "13: needs 3-3"),
            (lambda: None, "13: needs 3-3"),
            (lambda: os.mkfifo(path), "22: reading failed"),
            (lambda: path.symlink_to("/dev/null"), "22: reading failed"),
        ):
            path.unlink(missing_ok=True)
            put()
            self.expect_refused(tables, text)


class Entries(Case):
    """Entries that are damaged, which no header tells."""

    def overwritten(self, tables, draw):
        """The file of 3-3 with other codes for some positions that are asked, and for some that a
        move leads to from one of them; and where these codes stand."""
        asked = threes(tables.name)
        before = draw.sample(asked, DAMAGED // 2)
        reached = (draw.choice(tables.board.moves(*it))[1] for it in before)
        reached = [it for it in reached if len(it[0]) == 3]
        content, changed = bytearray(tables.file(LOW)), set()
        for position in draw.sample(asked, min(DAMAGED // 2, len(asked))) + reached:
            place = tables.place(position)[1]
            struct.pack_into(">H", content, place, draw.choice(CODES))
            changed.add(place)
        return bytes(content), changed

    def check_answers(self, tables):
        """Where what the file says of a position doesn't follow from what it says of its moves,
        that is the answer."""
        asked = made_up(tables.name)
        texts = [*map(tables.text, asked)]
        for option in OPTIONS:
            lines, bad = [], 0
            for position, text in zip(asked, texts):
                read = tables.line(position) if option == ["--line"] else [position]
                if all(map(tables.agrees, read)):
                    lines.append(tables.lines(option, position))
                else:
                    bad += 1
                    why = "37: the files of this position and its moves disagree"
                    lines.append(f"{text}: fault {why}\n")
            for given in ([], texts):
                found = run(tables.lookup(*option, *given), "\n".join(texts).encode())
                self.same(f"lookup {option}, damaged", found, answered(lines, bad))

    @over("grid", "nine")
    def test_entries_that_disagree(self, shared, draw):
        """Of some positions the own entry is damaged, of some only that of a result."""
        folder, is_own = self.make_room(), set()
        for _ in range(DAMAGES):
            content, changed = self.overwritten(shared, draw)
            tables = own(folder, shared, content)
            self.check_answers(tables)
            wrong = [it for it in threes(tables.name) if not tables.agrees(it)]
            is_own |= {tables.place(it)[1] in changed for it in wrong}
        self.assertEqual(is_own, {False, True}, "too little was damaged")

    @over("nine")
    def test_file_that_is_cut_while_it_is_open(self, shared, _):
        """What was cut off can't be read, whatever was read before, and is answered once it is
        there again."""
        tables = own(self.make_room(), shared)
        path, whole = Path(tables.path(LOW)), tables.file(LOW)
        first, *others = threes("nine")
        results = (result for _, result in tables.board.moves(*first))
        read = [first, *(it for it in results if len(it[0]) == 3)]
        pages = {tables.place(it)[1] // PAGE for it in read}
        last = next(it for it in others if tables.place(it)[1] // PAGE not in pages)
        session, text = Session(tables.lookup()), f"{tables.text(last)}\n"
        found = session.ask(f"{tables.text(first)}\n")
        self.same("an open file", found, tables.first_line(first))
        os.truncate(path, tables.place(last)[1])
        unread = f"{tables.text(last)}: fault 22: reading failed\n"
        self.same("a cut file", session.ask(text), unread)
        with path.open("r+b") as file:
            file.write(whole)
        self.same("a whole file again", session.ask(text), tables.first_line(last))
        self.same("the end of it", session.end(), answered("", 1))
