"""The numbers that stand in several languages are those of the headers."""

import re
from pathlib import Path

from expect import EMBED, morris


def read(name):
    return Path(EMBED, name).read_text(encoding="utf-8")


def in_capitals(name):
    """A name in capitals and underscores: NO_TABLE for NoTable."""
    return re.sub(r"(?<=[a-z])(?=[A-Z])", "_", name).upper()


headers = read("morris.h") + read("morris_folder.h")
found = re.findall(r"^ +MORRIS_(\w+) = (\d+)[, ]|^#define MORRIS_(\w+) (\d+)u?\b", headers, re.M)
numbers = {a or b: int(c or d) for a, c, b, d in found}
statuses = {**{a: int(c) for a, c, _, _ in found if a}, "SYSTEM": numbers["SYSTEM"]}
assert len(statuses) == 22 and statuses == {it.name: it.value for it in morris.Status}
assert numbers["INTERFACE"] == morris._INTERFACE == morris._library().morris_interface()
for kind in morris.Kind:
    assert numbers[kind.name] == kind
for board, (number, points) in morris._BOARDS.items():
    assert numbers[board.upper()] == number
wanted = {name: numbers[name] for name in ("MOST_MOVES", "NONE")}
assert wanted == {name: getattr(morris, f"_{name}") for name in wanted}
in_rust = re.findall(r"^pub const (\w+): \w+ = (\d+);", read("rust/src/raw.rs"), re.M)
kinds = {name: numbers[name] for name in ("DRAW", "WON")}
assert {name: int(it) for name, it in in_rust} == {**wanted, **kinds}
errors = read("rust/src/error.rs")
in_rust = {in_capitals(it): int(n) for it, n in re.findall(r"^    (\w+) = (\d+),", errors, re.M)}
assert in_rust == {name: it for name, it in statuses.items() if it}
listed = re.findall(r"^        Status::(\w+),$", errors, re.M)
assert {in_capitals(it) for it in listed} == set(in_rust) and len(listed) == len(in_rust)
# Each status has a line of its own.
texts = {morris.Fault(it).text for it in morris.Status}
assert len(texts) == len(statuses) and "unknown status" not in texts
# None of the greater numbers is written out where it is used.
sources = ["morris_faults.c", "morris_folder.c", "morris_tables.c", "morris.py"]
sources += [str(it.relative_to(EMBED)) for it in Path(EMBED).glob("examples/*.*")]
sources += [str(it.relative_to(EMBED)) for it in Path(EMBED).glob("rust/*/*.rs")]
for name in sources:
    code = re.sub(r"^(pub const )?_?MOST_\w+(: usize)? = \d+;?$", "", read(name), flags=re.M)
    assert not re.findall(r"\b(1944|28)\b", code), name
print("all right")
