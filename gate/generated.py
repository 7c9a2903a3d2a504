#!/usr/bin/env python3
"""Makes the parts of documents that come from the sources, the edits and the program's help.

    python3 gate/generated.py --write    writes them anew; kinds after it are the only ones written,
                                         which needs no program unless `options` is among them

tests/documents/claims.py compares each part with what it has to be.

A part stands between a mark `<!-- from KIND WORDS -->`, of one line or more, and the next line
`<!-- end -->`; in the man page these are comments of its own form. Kinds:

    definitions FILE NAME..   the definitions of these names, as they stand in crates/FILE
    source FILE               the whole of crates/FILE
    edits                     the edits that the prover has to refuse, crate by crate
    options COMMAND           the options of a command, as its help lists them
    pairs FILE                what bench/pairs put into docs/FILE, as a table
    picture FILE              the same as a picture, by bench/picture.py
    took FILE                 what bench/whole put into docs/FILE, as a table
"""

import csv
import os
import re
import subprocess
import sys
from pathlib import Path

sys.dont_write_bytecode = True
sys.path.insert(0, os.path.dirname(os.path.dirname(os.path.abspath(__file__))))
from launcher.proving import ROOT, listed
from tests.lib.chosen import MOST_SECONDS, program

sys.path.append(f"{ROOT}/bench")
import picture as drawing

# A part with its marks, the words of the first one, and what stands between, in a document and in
# the man page.
MARKDOWN = re.compile(r"^(<!-- from (.*?) -->\n)(.*?)^(<!-- end -->\n)", re.MULTILINE | re.DOTALL)
MAN = re.compile(r'^(\.\\" from (.*?)\n)(.*?)^(\.\\" end\n)', re.MULTILINE | re.DOTALL)
BEGUN = re.compile(r'^(?:<!--|\.\\") from .*', re.MULTILINE)
# A definition of a file of specs/, with the comment right above it, and the names that it gives.
BEGINS = r"(?:unfoldable |abbrev |pub |use )"
ITEM = re.compile(rf"^(?:--.*\n)*{BEGINS}.*(?:\n(?!--|{BEGINS}).*)*", re.MULTILINE)
NAMES = re.compile(
    r"^\s*(?:unfoldable |abbrev )?(?:pub )?(?:record |data )?([\w-]+)(?: [({]| : )", re.MULTILINE
)
# A line of the options in a help: an option, its value, what it does, and the default.
OPTION = re.compile(r" +(?:-h, )?(--[a-z]+)(?: <(\w+)>)? +(.*?)(?: \[default: (\w+)\])?")
# Who tries the edits of a folder.
FOLDERS = {"must-fail": "gate", "edits-at-release": "release"}


def documents():
    """The documents that are written for readers, by their paths from the root."""
    found = [*os.listdir(ROOT), *(f"docs/{it}" for it in os.listdir(f"{ROOT}/docs"))]
    return sorted(it for it in found if it.endswith((".md", ".1", ".svg")))


def read(path):
    return Path(ROOT, path).read_text(encoding="utf-8")


def parts_of(path):
    """The generated parts of a document, as matches."""
    text = read(path)
    parts = list((MAN if path.endswith(".1") else MARKDOWN).finditer(text))
    if len(parts) != len(BEGUN.findall(text)):
        sys.exit(f"{path}: a generated part has no end")
    return parts


def definitions(_, file, *names):
    """The definitions of these names in a file of specs/, in the order of the file."""
    items = [(it.strip(), {*NAMES.findall(it)}) for it in ITEM.findall(read(f"crates/{file}"))]
    if lacking := {*names}.difference(*(given for _, given in items)):
        sys.exit(f"crates/{file}: doesn't define {sorted(lacking)}")
    chosen = [it for it, given in items if given & {*names}]
    return ["```text", *"\n\n".join(chosen).splitlines(), "```"]


def source(_, file):
    """The whole of a source."""
    return ["```rust", *read(f"crates/{file}").splitlines(), "```"]


def edits_of(crate):
    """The edits of a crate: the name of each, what it breaks, as the sentence says that it begins
    with, and who tries it."""
    for folder, tried in FOLDERS.items():
        for path in sorted(Path(ROOT, "crates", crate, folder).glob("*.edit")):
            first = path.read_text(encoding="utf-8").split("\n", 1)[0]
            breaks = first.removeprefix("# Breaks ").removesuffix(".")
            yield f"`{path.stem}`", "" if breaks == first else breaks, tried


def table(head, rows):
    """The lines of a table with this head, such as "crate | seconds", and with these rows."""
    rule = "---|" * (head.count("|") + 1)
    return [f"| {head} |", f"|{rule}", *(f"| {' | '.join(map(str, row))} |" for row in rows)]


def edits(_):
    """A table of the edits of each crate."""
    made = []
    for crate in listed():
        if rows := list(edits_of(crate)):
            made += ["", f"## `{crate}`", "", *table("edit | breaks | tried by", rows)]
    return [*made, ""]


def options_of(command):
    """The options of a command as its help lists them: each with its value, what it does, and what
    stands for it where it is left out."""
    words = [program(), command, "--help"]
    done = subprocess.run(words, capture_output=True, check=True, timeout=MOST_SECONDS)
    listed = done.stdout.decode().split("Options:\n")[1].split("\n\n")[0]
    for line in listed.splitlines():
        found = OPTION.fullmatch(line)
        if found is None:
            sys.exit(f"the help of {command} has a line of another form: {line!r}")
        if found[1] != "--help":
            yield found.groups(default="")


def options(path, command):
    """The options of a command, as a table or as items of the man page."""
    rows = list(options_of(command))
    if not path.endswith(".1"):
        shown = [(f"`{name} {value}".rstrip() + "`", *rest) for name, value, *rest in rows]
        return table("option | what it does | if left out", shown)
    made = []
    for name, value, does, default in rows:
        escaped = name.replace("-", "\\-")
        made += [".TP", f'.BI {escaped} " {value}"' if value else f".B {escaped}"]
        made.append(f"{does}; {default} if left out." if default else f"{does}.")
    return made


def pairs(_, file):
    """What was found of each pair, as a table."""
    rows = []
    for row in csv.DictReader(read(f"docs/{file}").splitlines()):
        counts = [f"{int(row[it]):,}" for it in ("won", "lost", "drawn")]
        depths = row["deepest win"], row["deepest loss"]
        rows.append((row["pair"], *depths, *counts, f"`{row['sha256']}`"))
    return table("pair | deepest win | deepest loss | won | lost | drawn | SHA-256", rows)


def picture(_, file):
    """The same as a picture."""
    return drawing.picture(read(f"docs/{file}").splitlines())


def took(_, file):
    """What the build and the verification of each pair took, as a table, and of all together."""
    rows = list(csv.DictReader(read(f"docs/{file}").splitlines()))
    found = {it: [float(row[it]) for row in rows] for it in rows[0] if it != "pair"}
    whole = {it: max(has) if it.endswith("bytes") else sum(has) for it, has in found.items()}
    head = "pair | build | processors | memory | verification | processors | memory"

    def shown(name, value):
        is_size = name.endswith("bytes")
        return f"{float(value) / 1e6:,.0f} MB" if is_size else f"{float(value):,.1f} s"

    rows = [*rows, {"pair": "all", **whole}]
    return table(head, ([row["pair"], *(shown(it, row[it]) for it in found)] for row in rows))


MAKERS = {it.__name__: it for it in (definitions, source, edits, options, pairs, picture, took)}


def made_anew(path, kinds=MAKERS):
    """A document with its generated parts of these kinds as they have to be, and how many there
    are."""
    text, made, count, place = read(path), "", 0, 0
    for part in parts_of(path):
        kind, *words = part[2].split()
        if kind in kinds:
            lines = MAKERS[kind](path, *words)
            made += text[place : part.start(3)] + "".join(f"{line}\n" for line in lines)
            place, count = part.end(3), count + 1
    return made + text[place:], count


def main():
    kinds = sys.argv[2:]
    if sys.argv[1:2] != ["--write"] or not MAKERS.keys() >= {*kinds}:
        sys.exit(__doc__)
    for path in documents():
        made, _ = made_anew(path, kinds or MAKERS)
        if made != read(path):
            Path(ROOT, path).write_text(made, encoding="utf-8")
            print(path)


if __name__ == "__main__":
    main()
