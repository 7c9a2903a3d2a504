"""Lines that are looked up: in sessions that ask one at a time, lines that are no positions, and
lines of any length."""

import resource

from tests.lib.case import Case
from tests.lib.program import run
from tests.lookups.common import Session, answered, escaped, made_up, over, refused, spoiled

# How many lines a session has.
LINES = 1000
# How many lines of any bytes are asked in each folder.
RUBBISH = 300
# How many bytes the longest line has, and how many a program that reads it may have in all.
LONG = 1 << 28
MOST_MEMORY = 1 << 26
NO_POSITION = "fault 1: text is not one character per point\n"


class Lines(Case):
    """Lines on standard input."""

    @over("grid", "nine")
    def test_each_is_answered_before_the_next(self, tables, draw):
        """With bad ones between them. Lines that are passed over have no answer."""
        session, bad = Session(tables.lookup()), 0
        for position in draw.choices(made_up(tables.name), k=LINES):
            line, expected = tables.text(position), tables.first_line(position)
            if draw.random() < 0.2:
                bad += 1
                line, expected = spoiled(draw, line, tables.board)
            passed = draw.choice(["", "\n", "\r\n", "#\n", f"#{line}\r\n"])
            found = session.ask(f"{passed}{line}{draw.choice(['', chr(13)])}\n")
            self.same(f"line {line[:40]}", found, expected)
        self.same("the session's end", session.end(), answered("", bad))

    @over("grid", "nine")
    def test_long_line_takes_no_memory(self, tables, _):
        """A line of any length has a fault and is passed over."""
        limits = (resource.RLIMIT_AS, (MOST_MEMORY, MOST_MEMORY))
        first = made_up(tables.name)[0]
        text, line = tables.text(first), tables.first_line(first)
        given = f"{text}{'X' * LONG}\n{text}\n".encode()
        found = run(tables.lookup(), given, preexec_fn=lambda: resource.setrlimit(*limits))
        too_long = f"{text} (too long): {NO_POSITION}"
        self.same("a long line", found, answered([too_long, line], 1))
        # What stands past the longest text isn't looked at.
        for past in ("\r\r", "X\r", "XX", "\rX", "X" * len(text), "\r" * 30):
            found = run(tables.lookup(), f"{text}{past}\n".encode())
            self.same(f"{text}{past!r}", found, answered(too_long, 1))

    @over("grid", "nine")
    def test_any_bytes(self, tables, draw):
        """What is shown of them is printable. Lines that are empty or begin with a number sign are
        passed over."""
        first = tables.text(made_up(tables.name)[0]).encode()
        lines = [
            b"\x1b[2J\x1b[H",
            first[:-1] + b"\x1b",
            first[:-1] + b"\xc3",
            first[:-2] + "\u00e9".encode(),
            b"\x9b31m\\x1b\x7f\x00\t",
            first + b"\x1b[31m",
            b"\xf0\x9f" * 40,
            *(b"", b"\r", b"\r\r", b"#", b"# " + first, b"#" * 40, b" #", first + b"#"),
        ]
        kinds = [b"XO.", b"XO.\\ ~\x1b", bytes(it for it in range(256) if it != 10)]
        for _ in range(RUBBISH):
            lines.append(bytes(draw.choices(draw.choice(kinds), k=draw.randrange(1, 40))))
        texts = [it.removesuffix(b"\r") for it in lines]
        answers = [refused(it, tables.board) for it in texts]
        faults = [it for it, text in zip(answers, texts) if it and text and text[:1] != b"#"]
        given = b"".join(it + b"\n" for it, answer in zip(lines, answers) if answer)
        self.same("lines", run(tables.lookup(), given), answered(faults, len(faults)))

    @over("grid", "nine")
    def test_any_arguments(self, tables, _):
        """An argument is never passed over."""
        first = tables.text(made_up(tables.name)[0])
        for text in ("\x1b[2J", "\u00e9", "\\" * 40, f"{first}\x1b", "a\nb", "", "# a"):
            unread = f"{escaped(text.encode(), tables.board)}: {NO_POSITION}"
            self.same(f"{text!r}", run(tables.lookup(text)), answered(unread, 1))
