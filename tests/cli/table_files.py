"""Table files that are damaged or state wrong values, alone and in bundles: the first step of
reading that doesn't fit refuses them, or the first entry that isn't what its results give.

Which step that is comes from the layout in docs/FILE_FORMAT.md and from tests/lib/rules.py.
"""

from itertools import product

from tests.lib.case import Case
from tests.lib.program import Run, fault
from tests.lib.rules import GRID, GRID_PAIRS, answer_of, code_from, file_of, name_of, order_of
from tests.lib.rules import probe, solved, verify, verify_all
from tests.lib.tables import damaged, grid_files, replaced

VERIFY = ["verify", "grid"]
TEXT = "XXX.OO.O."
PROBE = ["probe", "grid", TEXT]
SHORT = fault("15: file is too short")
# The files that are damaged at each of their bytes. `verify` reads each of the damaged files, and
# `probe`, which reads the same layout, one in so many.
WHOLE, ONE_IN = ("3-3", "3-3c", "4-3c"), 2
# Up to where a byte belongs to which part of a file, and what is said where it is wrong.
PARTS = (
    (4, "16: not a table file"),
    (5, "17: unknown version"),
    (6, "18: another board"),
    (8, "4: bad counts"),
    (16, "19: wrong number of entries"),
)


def fault_at(place):
    """The fault of a file of which the byte at this place was taken from 255."""
    return fault(next((text for end, text in PARTS if place < end), "20: digest is wrong"))


def verified(given):
    """A run that verifies one file."""
    return Run(VERIFY, answer_of(lambda: verify(solved(), GRID, given)), given)


def probed(given):
    """A run that probes a bundle."""
    return Run(PROBE, answer_of(lambda: probe(solved(), GRID, TEXT, given)), given)


def all_verified(given):
    """A run that verifies a bundle."""
    return Run([*VERIFY, "--all"], answer_of(lambda: verify_all(solved(), GRID, given)), given)


def with_a_wrong_entry(pair, version):
    """Files in which one entry is wrong, under a right digest, each with the first entry that isn't
    what those of its results give: the wrong one itself, or one before it that has it among its
    results."""
    order, codes = order_of(pair, version), solved().listed[pair, version]
    index = {node: entry for entry, (node, _) in enumerate(order)}
    before = [[] for _ in order]
    for entry, (_, results) in enumerate(order):
        for led in {led for _, led in results if led in index}:
            before[index[led]].append(entry)
    for wrong, code in enumerate(codes):
        stated = [*codes]
        stated[wrong] = (code + 1) % 6
        for entry in sorted([*before[wrong], wrong]):
            results = [
                stated[index[led]] if led in index else solved().code(it)
                for it, led in order[entry][1]
            ]
            if code_from(results) != stated[entry]:
                break
        yield file_of(pair, version, stated), entry


class Damaged(Case):
    """Files that are no table files."""

    def test_cut_after_any_byte(self):
        for name in WHOLE:
            file = grid_files()[name]
            runs = [Run(VERIFY, SHORT, file[:size]) for size in range(len(file))]
            runs += [Run(PROBE, SHORT, file[:size]) for size in range(1, len(file), ONE_IN)]
            # No byte at all is a bundle without a table.
            self.expect_all([*runs, Run(PROBE, fault("13: needs 3-3"))])

    def test_any_byte_changed(self):
        for name in WHOLE:
            file, runs = grid_files()[name], []
            for place, byte in enumerate(file):
                changed = replaced(file, place, bytes([255 - byte]))
                runs.append(Run(VERIFY, fault_at(place), changed))
                if place < 16 or place % ONE_IN == 0:
                    runs.append(Run(PROBE, fault_at(place), changed))
            self.expect_all(runs)

    def test_any_version_board_and_numbers_of_stones(self):
        runs = []
        for name, place, byte in product(WHOLE, range(4, 8), range(256)):
            given = replaced(grid_files()[name], place, bytes([byte]))
            runs += verified(given), probed(given)
        self.expect_all(runs)

    def test_headers_and_lengths(self):
        """The first step that refuses decides, so an unknown version of what isn't a table file
        isn't told."""
        file = grid_files()["3-3"]
        cases = [(given, fault(text)) for given, text in damaged(file)]
        cases += [(b"NMMT", SHORT), (file + b"NMMT", fault("21: bytes after the table"))]
        cases += [(file + file, fault("21: bytes after the table"))]
        for given in (b"MMMT\x09" + file[5:], b"XXX.OO.O.\nown 3 other 3\n"):
            cases.append((given, fault("16: not a table file")))
        self.expect_all(Run(VERIFY, expected, given) for given, expected in cases)
        self.expect_all(probed(given) for given, _ in cases)

    def test_any_entry_that_is_wrong(self):
        for pair, version in (((3, 3), 1), ((3, 3), 2), ((4, 3), 2)):
            made = with_a_wrong_entry(pair, version)
            self.expect_all(
                Run(VERIFY, fault(f"14: entry {entry} differs"), file) for file, entry in made
            )


class Bundles(Case):
    """Several files, one after the other."""

    def test_as_many_files_as_a_bundle_may_have(self):
        """And one more. The 65th is counted once it was read: before that it has faults of its
        own. The lines of the files before a fault are printed."""
        files = grid_files()
        low, high = files["3-3"], files["4-3"]
        for given, status, expected in (
            (64 * low, 0, b""),
            (65 * low, 1, b"27: more than 64 tables"),
            (65 * files["3-3c"], 1, b"27: more than 64 tables"),
            ((65 * low)[:-1], 1, b"15: file is too short"),
            (64 * low + b"X", 1, b"15: file is too short"),
            (64 * low + b"X" + low[1:], 1, b"16: not a table file"),
            (b"X" + low, 1, b"16: not a table file"),
            (low + high[:-1], 1, b"15: file is too short"),
            (low + high[:-32] + low[-32:], 1, b"20: digest is wrong"),
        ):
            runs = probed(given), all_verified(given)
            for it in runs:
                self.assertEqual(it.expected[0], status)
                self.assertIn(expected, it.expected[2])
            self.expect_all(runs)

    def test_any_order(self):
        """Up to three pairs, some of them twice. cli.made_up_input has bundles with damage in the
        middle."""
        by_classes = [grid_files()[name_of(pair) + "c"] for pair in GRID_PAIRS]
        bundles = [it for many in (1, 2, 3) for it in product(by_classes, repeat=many)]
        self.expect_all(all_verified(b"".join(it)) for it in bundles)
