"""The archive that `make -C embed dist` makes of this tree, and the one in release/ where that is
of these sources, as whoever unpacks one would try it; and what release/BUILT says of it: the
digests, and the record of a gate."""

import os

from gate import packing
from tests.embed.common import EmbedCase, archive, make, need, out, run
from tests.embed.static_library import core
from tests.lib.case import Case
from tests.lib.chosen import is_from_proofs
from tests.lib.program import MORRIS, ROOT
from tests.lib.steps import missing
from tests.release.clones import write
from tests.release.unpacked import Unpacked

# What `.ci/run` prints, in short.
LOG = """rt: morris_board proved
rt: ok; handles allowed: Threads; done in this run: 5 of the 65 proofs
65 passed, 0 failed
rt ci: 35.9 minutes
13 passed, 0 failed, 0 skipped
./check --all: 4.1 minutes
gate: sources 1 2, 4 processors, 40.2 minutes
"""
TOLD = (
    "65 passed, 0 failed on 4 processors in 40.2 minutes, of which rt ci took 35.9: handles "
    "allowed: Threads, done in this run: 5 of the 65 proofs"
)
# Of a gate that failed, or ran over other sources.
OTHER_LOGS = (
    LOG.replace("rt: ok;", "rt: FAILED: morris_moves;").replace("0 failed\n", "1 failed\n"),
    LOG.partition("gate: ")[0],
    LOG.replace("sources 1 2", "sources 1 3"),
)


class Digests(Case):
    def test_digests_that_are_told_of_the_release(self):
        packed, told = packing.archive_of(ROOT), packing.told(ROOT)
        need(missing("ar"))
        found = packing.stamps(ROOT, packed)
        # (of which sources it is, the launcher says)
        for it in found.keys() - {"sources", "interface"}:
            self.assertEqual(told[it], found[it], it)
        listed = packing.digests({told["archive"]: packing.read(packed)})
        self.assertEqual(packing.read(f"{ROOT}/{packing.SUMS}"), listed)


class Made(Unpacked, EmbedCase):
    """The archive that is made here."""

    def archive(self):
        return archive()

    def test_archive_is_the_same_in_another_folder_zone_and_umask(self):
        env = {**os.environ, "TZ": "Asia/Tokyo", "LC_ALL": "C"}
        again = make("dist", to=f"{self.make_room()}/again", env=env, umask=0o077).split()[-1]
        self.assertTrue(packing.read(archive()) == packing.read(again), "other bytes")
        run(["sha256sum", "-c", "--quiet", "SHA256SUMS"], cwd=out())


class Released(Unpacked, Case):
    """The archive in release/, where it is of these sources."""

    def archive(self):
        return packing.archive_of(ROOT)

    def test_program_and_library_are_those_that_the_gate_builds(self):
        """By the same kit, byte for byte."""
        told = packing.told(ROOT)
        if is_from_proofs() and told["kit"] == packing.kit():
            for name, path in (("program", MORRIS), ("library", core())):
                self.assertEqual(packing.digest(packing.read(path)), told[name], name)


class Gates(Case):
    """What BUILT says of a gate is what its log says, and a log of less is refused."""

    def test_log_of_a_gate(self):
        log = f"{self.make_room()}/log"
        for text, told in ((LOG, TOLD), *((it, None) for it in OTHER_LOGS)):
            with self.subTest(text):
                write(log, text)
                self.assertEqual(packing.gate_of(log, "1 2"), told)


# (what isn't there, or is of other sources, is no test that is left out)
if not packing.told(ROOT):
    del Digests
if packing.told(ROOT).get("sources") != packing.sources(ROOT):
    del Released
