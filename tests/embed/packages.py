"""What others take of embed/, tried as they would: the program in Rust of its page, the package for
Python in a fresh environment, and the crate for Rust."""

import email
import os
import re
import shutil
import sys
from zipfile import ZipFile

from gate.packing import read
from tests.embed.common import EMBED, EmbedCase, bare, folders, lacks, make, need, out, run
from tests.embed.static_library import core
from tests.lib.program import ROOT
from tests.lib.steps import RUST_COMPILER, missing
from tests.release.clones import files_below
from tests.release.unpacked import BEST, TEXT, best_elsewhere, environment, pip

# What the programs of embed/README.md are named, by the language.
SHOWN = {"c": "game.c", "python": "game.py", "rust": "game.rs"}
LEFT_BY_CARGO = shutil.ignore_patterns("target", "Cargo.lock")
CARGO_IS_TOLD_BY = ("CARGO_TARGET_DIR", "MORRIS_LIB_DIR", "PKG_CONFIG_PATH")


# ---- the page


def shown_programs(room):
    """The first program in each language that embed/README.md shows, in files."""
    with open(f"{EMBED}/README.md", encoding="utf-8") as page:
        blocks = re.findall(r"^```(\w+)\n(.*?)^```$", page.read(), re.M | re.S)
    for language, text in reversed(blocks):
        with open(f"{room}/{SHOWN[language]}", "w", encoding="utf-8") as file:
            file.write(text)


class Page(EmbedCase):
    """The programs that embed/README.md begins with; those in C and in Python, whose answers the
    page shows, run with its examples."""

    def test_program_in_rust(self):
        need(lacks("rust"))
        make(f"{out()}/libmorris.a", f"{out()}/libmorris_tables.rlib")
        room = self.make_room()
        os.symlink(folders()[1], f"{room}/tables")
        shown_programs(room)
        crate = ["--extern", f"morris_tables={out()}/libmorris_tables.rlib", "-L", out()]
        words = [*RUST_COMPILER, "--edition", "2021", *crate, "-l", "static=morris"]
        run([*words, f"{room}/game.rs", "-o", f"{room}/in_rust"])
        played = BEST.replace("9-10\n", "9-10 XOX.XOX.O.O.............\n")
        self.assertEqual(run([f"{room}/in_rust"], cwd=room), played)


# ---- the package for Python

# The fields that the metadata of version 2.1 has, each of which may stand once or often.
ONCE = (
    "Metadata-Version Name Version Summary Author License Keywords Requires-Python "
    "Description-Content-Type"
).split()
OFTEN = "Classifier"
LISTED = ("morris/py.typed", "morris/libmorris.so.1", "licenses/LICENSE", "licenses/NOTICES")


class PackageForPython(EmbedCase):
    """The folder in a fresh environment, with no network, and the wheel, which an archive's tests
    install."""

    def test_folder_with_its_explorer(self):
        need(lacks("c"))
        python = environment(f"{self.make_room()}/it")
        words = ("install", "--no-index", "--no-build-isolation", EMBED)
        pip(python, *words, CORE=core(), OUT=out())
        self.assertEqual(best_elsewhere(python, folders()[1]), BEST)
        code = "import morris.explorer, os; print(os.path.dirname(morris.explorer.__file__))"
        installed = run([python, "-c", code], env=bare(), cwd="/").strip()
        for it in (it for it in files_below(f"{EMBED}/explorer") if not it.endswith(".pyc")):
            self.assertEqual(read(f"{installed}/{os.path.relpath(it, EMBED)}"), read(it), it)

    def test_files_of_the_wheel(self):
        """Its license is there too, and the metadata have the fields of their version alone, once
        each, so that strict readers take them."""
        need(lacks("c"))
        wheel = f"{out()}/{make('wheel').strip()}"
        with ZipFile(wheel) as packed:
            names = "\n".join(packed.namelist())
            self.assertEqual([it for it in LISTED if it not in names], [])
            name = re.search(".*/METADATA$", names, re.M)[0]
            head = email.message_from_string(packed.read(name).decode())
        fields = [it for it in head.keys() if it != OFTEN]
        self.assertEqual(sorted(fields), sorted(ONCE))
        self.assertEqual(head["Metadata-Version"], "2.1")
        classifiers = {"Typing :: Typed", "Programming Language :: Python :: 3"}
        self.assertLessEqual(classifiers, {*head.get_all(OFTEN)})

    def test_module_without_a_library_says_where_it_looked(self):
        room = self.make_room()
        os.mkdir(f"{room}/alone")
        shutil.copy(f"{EMBED}/morris.py", f"{room}/alone")
        asks = [sys.executable, "-c", "import morris; morris.version()"]
        texts = [f"{room}/{it}/libmorris.so.1" for it in ("alone", "alone/out", "lib")]
        with self.assertRaises(AssertionError) as failed:
            run(asks, env=bare(PYTHONPATH=f"{room}/alone"), cwd="/")
        for it in ("OSError", *texts, "make -C embed"):
            self.assertIn(it, str(failed.exception))

    def test_types(self):
        need(missing("mypy"))
        files = [f"{EMBED}/morris.py", f"{EMBED}/tests/typed.py"]
        run(["mypy", "--strict", "--cache-dir=/dev/null", *files])


# ---- the crate for Rust


class CrateForRust(EmbedCase):
    def setUp(self):
        super().setUp()
        need(lacks("rust") or missing("cargo"))
        make()
        self.room = self.make_room()
        self.crate = shutil.copytree(f"{EMBED}/rust", f"{self.room}/it/rust", ignore=LEFT_BY_CARGO)
        self.env = {it: value for it, value in os.environ.items() if it not in CARGO_IS_TOLD_BY}

    def cargo(self, *words, **env):
        words = ["cargo", words[0], "-q", "--offline", *words[1:]]
        return run(words, cwd=self.crate, env={**self.env, **env})

    def test_its_tests_and_documents(self):
        for folder in folders():
            env = {"MORRIS_LIB_DIR": out(), "MORRIS_TEST_TABLES": folder}
            said = self.cargo("test", "--", "--include-ignored", **env)
            passed = r"(?m)^test result: ok. [1-9]\d* passed; 0 failed; 0 ignored"
            self.assertRegex(said, passed)
        self.cargo("doc", "--no-deps", MORRIS_LIB_DIR=out(), RUSTDOCFLAGS="-D warnings")

    def test_what_is_packed_builds_beside_the_library(self):
        os.symlink(out(), f"{self.room}/it/out")
        self.cargo("package")
        listed = self.cargo("package", "--list").split()
        self.assertLessEqual({"LICENSE", "Cargo.toml", "src/lib.rs"}, {*listed})
        self.assertEqual(read(f"{EMBED}/rust/LICENSE"), read(f"{ROOT}/LICENSE"))

    def test_library_is_found_where_it_is_installed(self):
        words = ("run", "--example", "best", "--", folders()[1], TEXT)
        with self.assertRaisesRegex(AssertionError, "MORRIS_LIB_DIR names /nowhere"):
            self.cargo(*words, MORRIS_LIB_DIR="/nowhere")
        need(missing("pkg-config"))
        prefix = f"{self.room}/prefix"
        make(f"PREFIX={prefix}", "install")
        found = self.cargo(*words, PKG_CONFIG_PATH=f"{prefix}/lib/pkgconfig")
        self.assertEqual(found, BEST)
