"""What the documents show and say: their examples, which are run in the order in which they stand,
the parts that are made of sources, edits and help (gate/generated.py), the test vectors of the file
format, the files, contracts and faults that they name, and their versions.

Lines of progress depend on the machine, so examples with `--progress` are passed over, and so are
./check itself and what takes long; the explorer is started, and ended again. What is compiled is
left out without a compiler.
"""

import os
import re
import shlex
import shutil
import subprocess
import sys
from pathlib import Path

from gate.generated import documents, made_anew, parts_of, read
from launcher.proving import listed
from tests.embed.packages import shown_programs
from tests.embed.static_library import NO_LIBRARY, shared_library, without_static
from tests.explorer.server import Server
from tests.lib.case import Case
from tests.lib.program import MORRIS, MOST_SECONDS, ROOT, count
from tests.lib.steps import missing

SHOWN = ["README.md", "docs/FAQ.md", "docs/COMMANDS.md", "docs/METHOD.md", "embed/README.md"]
# What names a version, and where.
VERSIONED = {
    "CHANGELOG.md": r"^## (.*)$",
    "CITATION.cff": r"^version: (.*)$",
    "docs/morris.1": r'^\.TH MORRIS 1 "" "morris (.*)" "Morris"$',
    "embed/morris.h": r'^#define MORRIS_VERSION_STRING "(.*)"$',
    "embed/rust/Cargo.toml": r'^version = "(.*)"$',
}
# What the commands begin with that are run: those that compile something or run what was compiled,
# those that need the library for Python, and others.
COMPILED = ("make ", "cc ", "c++ ", "embed/out/", "./game")
IN_PYTHON = ("python3 ", "PYTHONPATH=")
RUN = ("./morris ", "cat ", "printf ", "cmp ", *COMPILED, *IN_PYTHON)
# A command that a document shows, and the lines behind it.
EXAMPLE = re.compile(r"^    \$ (.*)\n((?:    (?!\$ ).*\n)*)", re.MULTILINE)
# A document is named by its path, or by its name beside another.
NAMED = re.compile(
    r"`((?:docs|tests|launcher|gate|bench|crates)/[A-Za-z_0-9./]+|[A-Z][A-Za-z_]+\.md)`"
)
# A line that says which number and which text a fault has.
FAULT = re.compile(
    r"^(?:fault|flaw)_description \(?(?:fault|flaw)\.(\w+).*? = \((\d+), (.*)\)$", re.MULTILINE
)
# A row of test vectors: a board, a position, its places in both versions, and the code there.
VECTOR = re.compile(
    r"^\| `(\w+)` \| `([XO.]+)` \| .* \| (\d+) \| (\d+) \| (\d+) \|$", re.MULTILINE
)


def examples_of(text):
    """The commands that a document shows and that are run, each with what it prints."""
    for command, printed in EXAMPLE.findall(text):
        command = re.sub(r"\s+# .*", "", command)
        if command.startswith(RUN) and "--progress" not in command:
            yield command, re.sub("^    ", "", printed, flags=re.MULTILINE)


class Examples(Case):
    """The examples, all in one folder: later ones use what earlier ones made."""

    @classmethod
    def setUpClass(cls):
        cls.folder = cls.make_room()
        os.symlink(MORRIS, f"{cls.folder}/morris")
        os.symlink(f"{ROOT}/embed", f"{cls.folder}/embed")
        # The programs of embed/README.md, of which that in C is one in C++ too.
        shown_programs(cls.folder)
        shutil.copy(f"{cls.folder}/game.c", f"{cls.folder}/game.cpp")
        # The first example in Python stands before the one that makes the library.
        library = shared_library(f"{cls.folder}/library")
        env = {**os.environ, "PYTHONDONTWRITEBYTECODE": "1"}
        env.update({"MORRIS_LIBRARY": library} if library else {})
        cls.how = {"cwd": cls.folder, "env": env}
        cls.compiled = without_static() or missing("cc")
        cls.in_python = None if library else NO_LIBRARY

    def lacks(self, command):
        """What is missing to run this command, or None."""
        if command.startswith(COMPILED):
            return self.compiled or (missing("c++") if command.startswith("c++ ") else None)
        return self.in_python if command.startswith(IN_PYTHON) else None

    def test_examples(self):
        for path in SHOWN:
            examples = list(examples_of(read(path)))
            self.assertTrue(examples, f"{path}: shows no example")
            for command, printed in examples:
                with self.subTest(f"{path}: {command}"):
                    if lacks := self.lacks(command):
                        self.skipTest(lacks)
                    count()
                    if command.startswith("python3 embed/explorer.py"):
                        # (on any port and without a browser)
                        Server(sys.executable, *shlex.split(command)[1:], **self.how).end()
                        continue
                    words = ["bash", "-c", f"set -eo pipefail; {command}"]
                    how = {"stdin": subprocess.DEVNULL, "capture_output": True, **self.how}
                    done = subprocess.run(words, timeout=MOST_SECONDS, check=False, **how)
                    found = done.returncode, done.stdout.decode(), done.stderr
                    self.same(command, found, (0, printed, b""))


class Program(Case):
    """What documents say that the program does."""

    def test_each_version_is_the_programs(self):
        """The newest changes, the man page, the header and the crate name it."""
        version = self.shown(["--version"]).split()[1]
        for path, pattern in VERSIONED.items():
            with self.subTest(path):
                self.assertEqual(re.findall(pattern, read(path), re.MULTILINE)[:1], [version])

    def test_options_of_each_command(self):
        """The man page and docs/COMMANDS.md have those of each command that the help lists, as a
        part that is made of its help."""
        listed = self.shown(["--help"]).split("Commands:\n")[1].split("\n\n")[0]
        commands = sorted({it.split()[0] for it in listed.splitlines()} - {"help"})
        for path in ("docs/COMMANDS.md", "docs/morris.1"):
            parts = [it[2].split() for it in parts_of(path)]
            with self.subTest(path):
                self.assertEqual(sorted(it[1] for it in parts if it[0] == "options"), commands)

    def test_vectors_of_the_file_format(self):
        """The files that the program builds have what they say at their places, in both
        versions."""
        room, vectors = Path(self.make_room()), VECTOR.findall(read("docs/FILE_FORMAT.md"))
        self.assertTrue(vectors)
        for board, text, *numbers in vectors:
            pair = "-".join(sorted((str(text.count(it)) for it in "XO"), reverse=True))
            *places, code = map(int, numbers)
            for layout, place in zip(([], ["--classes"]), places):
                folder = room / f"{board}{''.join(layout)}"
                file = folder / f"{board}-{pair}.nmmt"
                if not file.exists():
                    self.shown(["build", board, pair, "--blocks", "64", "--into", folder, *layout])
                at = 16 + 2 * place
                with self.subTest(text, board=board, layout=layout):
                    self.assertEqual(int.from_bytes(file.read_bytes()[at : at + 2], "big"), code)

    def test_each_fault_has_a_row(self):
        """docs/FAULTS.md has one with its number and with the pieces of its text."""
        rows = re.findall(r"^\| ([\d, ]+) \| ([^|]*) \|", read("docs/FAULTS.md"), re.MULTILINE)
        told = FAULT.findall(read("crates/morris_jobs/specs/Faults.antt"))
        self.assertTrue(told)
        for name, number, text in told:
            # Only the text of one has a definition of its own. Another without pieces is refused.
            pieces = re.findall(r'codes "([^"]*)"', text) or [name] * (name != "Unanswered")
            cells = [cell for numbers, cell in rows if number in numbers.split(", ")]
            with self.subTest(name, number=number):
                self.assertTrue(any(all(it in cell for it in pieces) for cell in cells), pieces)


class Sources(Case):
    """What documents say of the sources."""

    def test_parts_that_are_made(self):
        """They are as `gate/generated.py --write` makes them."""
        for path in documents():
            with self.subTest(path):
                made, parts = made_anew(path)
                self.assertEqual(made, read(path))
                count(parts)

    def test_each_file_that_is_named_is_there(self):
        """But for those of any crate or edit, `NAME`, and for what is built, `out`."""
        for path in documents():
            for name in NAMED.findall(read(path)):
                with self.subTest(path, name=name):
                    there = [Path(ROOT, it).exists() for it in (name, f"docs/{name}")]
                    self.assertTrue("NAME" in name or name.endswith("/out") or any(there))

    def test_each_contract_that_is_named_is_there(self):
        """Each function, clause and definition in the second column of a table is a word of the
        sources or the specifications."""
        words, crates = {*listed()}, Path(ROOT, "crates")
        for path in [*crates.glob("*/src/**/*.rt"), *crates.glob("*/specs/*.antt")]:
            words.update(re.findall(r"[\w-]+", path.read_text(encoding="utf-8")))
        for path in ("docs/EDITS.md", "docs/PROVED.md"):
            cells = re.findall(r"^\| .*? \| (.*?) \|", read(path), re.MULTILINE)
            named = [(it, cell) for cell in cells for it in re.findall(r"`([^`]+)`", cell)]
            self.assertTrue(named, path)
            for name, cell in named:
                with self.subTest(path, cell=cell, name=name):
                    self.assertIn(name.rpartition("::")[2], words)
