"""Collects what a release needs into an archive: dist.py OUT, the folder in which `make dist` made
the libraries and put the program. It writes there

    morris-VERSION-x86_64-linux.tar.gz    the program, its man page, libraries, headers, the wheel,
                                          the modules for Python with the explorer, the crate for
                                          Rust, examples, documents, licences, and what installs it
    the wheel by itself
    SHA256SUMS                            the digests of both

`dist.py OUT FOLDER` writes what the archive holds into a folder instead, but for the wheel: `make
install` installs from there.

The same files give the same bytes: names are in order, and nobody's name and no time is in them but
that of SOURCE_DATE_EPOCH, which is 1980 where it isn't set.
"""

import hashlib
import os
import shutil
import subprocess
import sys
import tempfile
from pathlib import Path

from morris_wheel import EMBED, EPOCH, NAME, explorer, version, write_wheel

ROOT = EMBED.parent
PACKAGING = EMBED / "packaging"
SONAME = "libmorris.so.1"


def tree(folder, to):
    """The files of a folder, but for what tools leave there, by their names in the archive."""
    left = {"__pycache__", "target", "Cargo.lock"}
    files = sorted(it for it in folder.rglob("*") if it.is_file())
    chosen = (it for it in files if not left & set(it.relative_to(folder).parts))
    return {f"{to}/{it.relative_to(folder).as_posix()}": it.read_bytes() for it in chosen}


def modules():
    """What a wheel has for Python, as it stands here: it runs without being installed."""
    found = {name.replace(NAME, "python", 1): data for name, data in explorer().items()}
    return {f"python/{NAME}.py": (EMBED / f"{NAME}.py").read_bytes(), **found}


def package_file():
    """morris.pc, whose prefix is wherever it was unpacked."""
    command = [PACKAGING / "pc.sh", "${pcfiledir}/../..", version()]
    return subprocess.run(command, check=True, capture_output=True).stdout


def contents(out):
    """The files of the archive by their names, without the wheel and the list of digests."""
    files = {
        "LICENSE": ROOT / "LICENSE",
        "NOTICES": PACKAGING / "NOTICES",
        "README.md": PACKAGING / "RELEASE.md",
        "bin/morris": PACKAGING / "morris.sh",
        "bin/morris-explorer": PACKAGING / "explorer.sh",
        "docs/FILE_FORMAT.md": ROOT / "docs" / "FILE_FORMAT.md",
        "docs/PROGRAMS.md": EMBED / "README.md",
        "include/morris.h": EMBED / "morris.h",
        "include/morris_folder.h": EMBED / "morris_folder.h",
        "install.sh": PACKAGING / "install.sh",
        "lib/libmorris.a": out / "libmorris.a",
        f"lib/{SONAME}": out / "libmorris.so",
        "libexec/morris/morris": out / "program",
        "share/man/man1/morris.1": ROOT / "docs" / "morris.1",
    }
    found = {name: path.read_bytes() for name, path in files.items()}
    found["lib/pkgconfig/morris.pc"] = package_file()
    folders = {**tree(EMBED / "examples", "examples"), **tree(EMBED / "rust", "rust")}
    return {**found, **modules(), **folders}


def digests(files):
    rows = (f"{hashlib.sha256(data).hexdigest()}  {name}\n" for name, data in sorted(files.items()))
    return "".join(rows).encode()


def is_run(name):
    return name.startswith(("bin/", "install.sh", "libexec/", "lib/libmorris.so"))


def write_tree(folder, files):
    """Writes files into a new folder, in the place of one that is there."""
    shutil.rmtree(folder, ignore_errors=True)
    for name, data in files.items():
        path = folder / name
        path.parent.mkdir(parents=True, exist_ok=True)
        path.write_bytes(data)
        path.chmod(0o755 if is_run(name) else 0o644)
    if f"lib/{SONAME}" in files:
        (folder / "lib" / "libmorris.so").symlink_to(SONAME)


def write_archive(path, top, files):
    """Packs files, which all get into one folder, into an archive, by GNU tar and gzip."""
    how = ["--format=ustar", "--sort=name", "--owner=0", "--group=0", "--numeric-owner"]
    how += ["--mode=u=rwX,go=rX", f"--mtime=@{os.environ.get('SOURCE_DATE_EPOCH', EPOCH)}"]
    part = path.with_name(f"{path.name}.part")
    with tempfile.TemporaryDirectory() as room, part.open("wb") as packed:
        write_tree(Path(room, top), files)
        words = ["tar", *how, "-I", "gzip -9n", "-C", room, "-c", top]
        subprocess.run(words, stdout=packed, check=True)
    part.replace(path)


def main():
    if len(sys.argv) not in (2, 3):
        sys.exit(__doc__)
    out = Path(sys.argv[1])
    files = contents(out)
    if len(sys.argv) == 3:
        write_tree(Path(sys.argv[2]), files)
        return
    wheel = write_wheel(out / "libmorris.so", out)
    top = f"morris-{version()}-x86_64-linux"
    files[f"python/{wheel}"] = (out / wheel).read_bytes()
    files["SHA256SUMS"] = digests(files)
    write_archive(out / f"{top}.tar.gz", top, files)
    made = {it: (out / it).read_bytes() for it in (f"{top}.tar.gz", wheel)}
    (out / "SHA256SUMS").write_bytes(digests(made))
    print(f"{out / top}.tar.gz")


if __name__ == "__main__":
    main()
