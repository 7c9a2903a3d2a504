"""What is released: the folder release/ of a copy of the repository. It has the archive that
`make -C embed dist` made, its digest in SHA256SUMS, and BUILT, which says what it was made from.
gate/release writes them; launcher/archive.sh, for ./morris, launcher/library and embed/packaging/,
and the suites in tests/release/ read them."""

import hashlib
import os
import platform
import re
import subprocess
import sys
import tarfile
import tempfile
from datetime import datetime, timezone
from pathlib import Path

from tests.lib.steps import ROOT

sys.path.insert(0, f"{ROOT}/embed/packaging")
from dist import digests, write_archive

FOLDER, BUILT, SUMS = "release", "release/BUILT", "release/SHA256SUMS"
# An archive has no more bytes.
MOST_BYTES = 3_000_000
# What the launcher, `make -C embed` and the module for Python take from it, and the parts of the
# library that C files of embed/ were compiled to.
PROGRAM, LIBRARY, SHARED = "libexec/morris/morris", "lib/libmorris.a", "lib/libmorris.so.1"
COMPILED = ("morris_faults.o", "morris_folder.o", "morris_tables.o")
# The last lines of `rt ci` in the log of a gate, and the last one of `.ci/run`.
GATE = re.compile(
    r"^rt: ok; ([^\n]*)\n.*?^([1-9]\d* passed, 0 failed)\n.*?^rt ci: (\S+) minutes\n"
    r".*^gate: sources (\d+ \d+), (\d+ processors), (\S+) minutes$",
    re.MULTILINE | re.DOTALL,
)


def sources(root, *words):
    """The checksum of the sources, or of what the word `interface` stands for, or, by the word
    `names`, the sources' names."""
    return said(f"{root}/launcher/sources", *words).strip()


def mark(path, stamp):
    """Notes beside a file that it was made of the sources of this checksum."""
    subprocess.run([f"{ROOT}/launcher/sources", "mark", path, stamp], check=True)


def is_of(path, stamp):
    """Whether a file was marked so, and is as it was then."""
    return not subprocess.run([f"{ROOT}/launcher/sources", "holds", path, stamp]).returncode


def said(*words):
    """What a command prints."""
    return subprocess.run(words, stdout=subprocess.PIPE, check=True).stdout.decode()


def kit():
    """What the kit on the PATH is, by its own words."""
    return " ".join(said("rt", "version").split())


def read(path):
    return Path(path).read_bytes()


def digest(content):
    return hashlib.sha256(content).hexdigest()


def told(root):
    """What BUILT says, by name, or nothing where it isn't there."""
    path = Path(root, BUILT)
    lines = path.read_text(encoding="utf-8").splitlines() if path.exists() else []
    return dict(line.split(" ", 1) for line in lines)


def archive_of(root):
    """The path of the archive that BUILT names."""
    return f"{root}/{FOLDER}/{told(root)['archive']}"


def files_of(archive):
    """The files in an archive, without the name of the folder in which all stand."""
    with tarfile.open(archive) as it:
        found = [member for member in it.getmembers() if member.isfile()]
        return {member.name.partition("/")[2]: it.extractfile(member).read() for member in found}


def proved_part(library):
    """The proved static library in one that `make -C embed` made."""
    with tempfile.TemporaryDirectory() as room:
        path = f"{room}/libmorris.a"
        Path(path).write_bytes(library)
        subprocess.run(["ar", "dD", path, *COMPILED], check=True)
        return read(path)


def small_archive(folder, program):
    """An archive in which nothing is but a program."""
    top = "morris-of-these-sources-x86_64-linux"
    path = Path(folder, f"{top}.tar.gz")
    write_archive(path, top, {PROGRAM: read(program)})
    return str(path)


def make_archive(out, *words):
    """What `make dist` makes in a folder: the path of the archive."""
    return said("make", "-s", "-C", f"{ROOT}/embed", f"OUT={out}", *words, "dist").split()[-1]


def stamps(root, archive):
    """What BUILT says of an archive by which something is taken from it: of which sources of a copy
    of the repository it is, and the digests."""
    files = files_of(archive)
    found = {
        "sources": sources(root),
        "archive": os.path.basename(archive),
        "packed": digest(read(archive)),
        "program": digest(files[PROGRAM]),
    }
    if LIBRARY in files:
        found["interface"] = sources(root, "interface")
        found["library"] = digest(proved_part(files[LIBRARY]))
        found["shared"] = digest(files[SHARED])
    return found


def gate_of(log, sources):
    """What the log of a gate says, in which rt says itself how many proofs it kept; or None where
    the gate hasn't passed over these sources."""
    found = GATE.search(Path(log).read_text(encoding="utf-8", errors="replace"))
    if not found or found[4] != sources:
        return None
    said, passed, proved, _, processors, minutes = found.groups()
    took = f"in {minutes} minutes, of which rt ci took {proved}"
    return f"{passed} on {processors} {took}: {said.replace('; ', ', ')}"


def facts(root, archive, built, gate):
    """What BUILT says of an archive with what was built, at a time, from the sources of a copy of
    the repository, and of the gate that built it."""
    machine, date = platform.uname(), datetime.fromtimestamp(int(built), timezone.utc)
    return {
        **stamps(root, archive),
        "kit": kit(),
        "compiler": said("cc", "--version").partition("\n")[0],
        "machine": f"{machine.system} {machine.release} {machine.machine}, "
        f"{os.cpu_count()} processors",
        "date": f"{date:%Y-%m-%dT%H:%M:%SZ}",
        "gate": gate,
    }


def release(root, archive, lines):
    """Puts an archive into release/ of a copy of the repository, and what BUILT says of it, in the
    place of all that stood there."""
    folder, content = f"{root}/{FOLDER}", read(archive)
    os.makedirs(folder, exist_ok=True)
    for name in os.listdir(folder):
        os.remove(f"{folder}/{name}")
    Path(folder, lines["archive"]).write_bytes(content)
    Path(root, SUMS).write_bytes(digests({lines["archive"]: content}))
    Path(root, BUILT).write_text("".join(f"{name} {value}\n" for name, value in lines.items()))
