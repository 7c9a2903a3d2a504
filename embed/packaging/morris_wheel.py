"""Makes the wheel of Morris for Python, by what Python ships: the backend of `pip install ./embed`,
and of `make wheel`.

    morris_wheel.py LIBRARY FOLDER      writes the wheel with this libmorris.so into a folder

The wheel has the module as the package `morris`, its types, the shared library, and the licences.
The modules beside it whose names begin with `explorer`, and all files of the folder `explorer`, go
with it, so that there is `morris.explorer`. The same files give the same bytes.
"""

import base64
import hashlib
import os
import re
import subprocess
import sys
import time
import zipfile
from pathlib import Path

EMBED = Path(__file__).resolve().parent.parent
NAME = "morris"
# No file is older in a wheel, which can't record times before.
EPOCH = 315532800
CLASSIFIERS = (
    "Development Status :: 5 - Production/Stable",
    "Intended Audience :: Developers",
    "License :: OSI Approved :: MIT License",
    "Operating System :: POSIX :: Linux",
    "Programming Language :: Python :: 3",
    "Programming Language :: Python :: 3 :: Only",
    "Programming Language :: Python :: Implementation :: CPython",
    "Topic :: Games/Entertainment :: Board Games",
    "Typing :: Typed",
)
SUMMARY = "The values of Nine Men's Morris positions, from the table files that Morris builds"


def version():
    """The version that the header names."""
    header = (EMBED / "morris.h").read_text(encoding="utf-8")
    return re.search(r'#define MORRIS_VERSION_STRING "([^"]+)"', header)[1]


def platform_of(library):
    """The tag of the platform: Linux on x86-64, with the C library that the shared library asks
    for by the versions of its symbols."""
    if library[:5] != b"\x7fELF\x02" or library[18:20] != b"\x3e\0":
        sys.exit("libmorris.so isn't a library for Linux on x86-64, and Morris is for no other")
    asked = [int(it) for it in re.findall(rb"GLIBC_2\.(\d+)", library)]
    return f"manylinux_2_{max(asked)}_x86_64" if asked else "linux_x86_64"


def explorer():
    """The files of the explorer, by their names in the package."""
    files = [*EMBED.glob("explorer*.py"), *(EMBED / "explorer").rglob("*")]
    chosen = (it for it in sorted(files) if it.is_file() and "__pycache__" not in it.parts)
    return {f"{NAME}/{it.relative_to(EMBED).as_posix()}": it.read_bytes() for it in chosen}


def metadata():
    readme = (EMBED / "README.md").read_text(encoding="utf-8")
    head = [
        "Metadata-Version: 2.1",
        f"Name: {NAME}",
        f"Version: {version()}",
        f"Summary: {SUMMARY}",
        "Author: the Morris authors",
        "License: MIT",
        "Keywords: endgame,mill,morris,tablebase",
        *(f"Classifier: {it}" for it in CLASSIFIERS),
        "Requires-Python: >=3.8",
        "Description-Content-Type: text/markdown",
    ]
    return "\n".join([*head, "", readme])


def contents(library):
    """The files of the wheel by their names, without the record of them."""
    info = f"{NAME}-{version()}.dist-info"
    tag = f"py3-none-{platform_of(library)}"
    about = ["Wheel-Version: 1.0", f"Generator: {NAME}", "Root-Is-Purelib: false", f"Tag: {tag}"]
    files = {
        f"{NAME}/__init__.py": (EMBED / "morris.py").read_bytes(),
        f"{NAME}/py.typed": b"",
        f"{NAME}/libmorris.so.1": library,
        **explorer(),
        f"{info}/METADATA": metadata().encode(),
        f"{info}/WHEEL": "".join(f"{it}\n" for it in about).encode(),
        f"{info}/licenses/LICENSE": licence("LICENSE"),
        f"{info}/licenses/NOTICES": licence("NOTICES"),
    }
    return f"{NAME}-{version()}-{tag}.whl", f"{info}/RECORD", files


def licence(name):
    """A licence, where a clone or a release of Morris has it."""
    places = [EMBED / "packaging" / name, EMBED.parent / name, EMBED / name]
    return next(it for it in places if it.is_file()).read_bytes()


def row(name, data):
    """The row of a file in the record."""
    digest = base64.urlsafe_b64encode(hashlib.sha256(data).digest()).rstrip(b"=").decode()
    return f"{name},sha256={digest},{len(data)}\n"


def entry(name):
    when = time.gmtime(int(os.environ.get("SOURCE_DATE_EPOCH", EPOCH)))
    found = zipfile.ZipInfo(name, when[:6])
    found.create_system = 3
    found.compress_type = zipfile.ZIP_DEFLATED
    found.external_attr = (0o100755 if ".so" in name else 0o100644) << 16
    return found


def write_wheel(library, folder):
    """Writes the wheel into a folder, and gives its name."""
    name, record, files = contents(Path(library).read_bytes())
    rows = "".join(row(it, data) for it, data in files.items()) + f"{record},,\n"
    part = Path(folder, f"{name}.part")
    with zipfile.ZipFile(part, "w") as wheel:
        for it, data in {**files, record: rows.encode()}.items():
            wheel.writestr(entry(it), data, compresslevel=9)
    os.replace(part, Path(folder, name))
    return name


def find_library():
    """The shared library, which is made where none is named."""
    named = os.environ.get("MORRIS_LIBRARY")
    if named:
        return named
    made = f"{os.environ.get('OUT', 'out')}/libmorris.so"
    try:
        subprocess.run(["make", "-s", "-C", EMBED, made], check=True, stdout=sys.stderr)
    except (OSError, subprocess.CalledProcessError) as error:
        raise RuntimeError(
            f"libmorris.so can't be made ({error}): `make -C embed` says why, and the environment "
            "variable MORRIS_LIBRARY names one that is there"
        ) from None
    return EMBED / made


# ---- what pip calls


def get_requires_for_build_wheel(config_settings=None):
    return []


def prepare_metadata_for_build_wheel(metadata_directory, config_settings=None):
    """What pip reads before it has the wheel made."""
    info = Path(metadata_directory, f"{NAME}-{version()}.dist-info")
    info.mkdir()
    (info / "METADATA").write_text(metadata(), encoding="utf-8")
    return info.name


def build_wheel(wheel_directory, config_settings=None, metadata_directory=None):
    return write_wheel(find_library(), wheel_directory)


class UnsupportedOperation(Exception):
    """What can't be done here, for pip to report."""


def build_sdist(sdist_directory, config_settings=None):
    raise UnsupportedOperation("the library is proved and built in a clone of Morris alone")


if __name__ == "__main__":
    if len(sys.argv) != 3:
        sys.exit(__doc__)
    print(write_wheel(*sys.argv[1:]))
