"""Builds crates of the repository from their proofs, each once those below it are built, several
at a time where there are processors and memory for them.

    python3 launcher/proving.py NAME LOG PARENT    builds a program with all that it stands on, for
                                                   the process PARENT, ./morris, which called it

It says on standard error which crate it is at, and about how long all will take; what rt says goes
to the file LOG, and that of a crate that isn't proved stands last there. Where PARENT ends before,
however it ends, it stops rt, and ends too.
"""

import ctypes
import fcntl
import functools
import os
import re
import shutil
import signal
import subprocess
import sys
import tempfile
import time
from pathlib import Path

ROOT = os.path.dirname(os.path.dirname(os.path.abspath(__file__)))
# What the proof of a crate takes with one job, about, and each job more, in bytes.
ONE_JOB = 3_000_000_000
MORE_JOBS = 1_500_000_000
# More jobs are no gain, and how many processors two, three and four jobs keep at work, about.
MOST_JOBS = 4
SPEEDS = {1: 1.0, 2: 1.7, 3: 2.2, 4: 2.6}
# A row of crates is nearly as long as the longest one from this part of it on.
NEARLY = 0.85
# The seconds that the proof of each crate took with one job: made by `gate/proof_time --write`.
SECONDS = f"{ROOT}/launcher/proof_seconds.txt"
# The call, and its number, by which the system sends a process a signal when its parent ends.
LIBC, PR_SET_PDEATHSIG = ctypes.CDLL(None), 1


@functools.cache
def libraries():
    """The repository's crates in the order of crates.txt, each with the libraries that it names
    there, those of the kit too."""
    rows = {}
    with open(f"{ROOT}/crates.txt", encoding="utf-8") as it:
        for line in it:
            name, _, uses = line.partition("#")[0].partition(":")
            if name.split():
                rows[name.split()[0]] = uses.replace(",", " ").split()
    return rows


@functools.cache
def listed():
    """The repository's crates in the order of crates.txt, each with those that it stands on."""
    return {name: [it for it in uses if it in libraries()] for name, uses in libraries().items()}


@functools.cache
def crates_below(name):
    """All crates that a crate stands on, each after those that it stands on itself."""
    rows, found = listed(), []
    for it in rows[name]:
        found += [low for low in [*crates_below(it), it] if low not in found]
    return found


def lines_of(name):
    """How many lines of code a crate has."""
    files = Path(ROOT, "crates", name, "src").rglob("*.rt")
    return sum(it.read_text(encoding="utf-8").count("\n") for it in files)


@functools.cache
def seconds_of(name):
    """About how many seconds the proof of a crate takes with one job."""
    with open(SECONDS, encoding="utf-8") as it:
        rows = dict(line.split() for line in it if not line.startswith("#"))
    return float(rows[name]) if name in rows else 30 + lines_of(name) / 5


def seconds_behind(crates):
    """For each of these crates, how many seconds the longest row of them takes that begins with it
    and goes on from each to one above."""
    behind = {}
    for it in sorted(crates, key=lambda it: -len(crates_below(it))):
        above = [other for other in crates if it in crates_below(other)]
        behind[it] = seconds_of(it) + max((behind[other] for other in above), default=0)
    return behind


def linked(file, to):
    """Gives a file a second name, or copies it where the system can't do that."""
    try:
        os.link(file, to)
    except OSError:
        shutil.copyfile(file, to)


def furnish(crate, to, root=ROOT, built="crates/{0}"):
    """Makes a repository of a crate and those that it stands on in a folder, the latter as they are
    built below `root`, each in its place `built`. Gives the folder of the crate there. In one
    repository rt does nothing for two crates at once that stand on the same one."""
    crates = [*crates_below(crate), crate]
    for it in crates:
        for part in ("src", "specs", "proofs"):
            if os.path.isdir(f"{root}/crates/{it}/{part}"):
                copied(f"{root}/crates/{it}/{part}", f"{to}/crates/{it}/{part}")
    for it in crates[:-1]:
        if os.path.isdir(f"{root}/{built.format(it)}/out/rlib"):
            copied(f"{root}/{built.format(it)}/out/rlib", f"{to}/crates/{it}/out/rlib")
    with open(f"{root}/crates.txt", encoding="utf-8") as rows:
        kept = [it for it in rows if re.split(r"[\s:]", it, maxsplit=1)[0] in crates]
    Path(f"{to}/crates.txt").write_text("".join(kept), encoding="utf-8")
    linked(f"{root}/HANDLES", f"{to}/HANDLES")
    return f"{to}/crates/{crate}"


def copied(folder, to):
    shutil.copytree(folder, to, copy_function=linked)


class Room:
    """A repository of a crate and those that it stands on, in the folder out/ of the crate, in
    which rt proves the crate. What rt kept of it is moved there and back."""

    def __init__(self, crate):
        self.folder = f"{ROOT}/crates/{crate}"
        self.top = f"{self.folder}/out/room"
        self.made = f"{self.top}/crates/{crate}/out"
        os.makedirs(f"{self.folder}/out", exist_ok=True)
        # No other run of rt is at work in the crate meanwhile.
        self.lock = os.open(self.folder, os.O_RDONLY)
        fcntl.flock(self.lock, fcntl.LOCK_EX)
        # (a run that was killed may have left one)
        self.clear()
        self.work = furnish(crate, self.top)
        os.makedirs(self.made, exist_ok=True)
        for name in ("incremental", "rlib"):
            if os.path.isdir(f"{self.folder}/out/{name}"):
                os.rename(f"{self.folder}/out/{name}", f"{self.made}/{name}")

    def clear(self):
        """Moves back what rt kept and made, and removes the rest."""
        for name in os.listdir(self.made) if os.path.isdir(self.made) else ():
            to = f"{self.folder}/out/{name}"
            if os.path.isdir(to):
                shutil.rmtree(to)
            os.replace(f"{self.made}/{name}", to)
        shutil.rmtree(self.top, ignore_errors=True)

    def close(self):
        self.clear()
        os.close(self.lock)


def free_memory():
    """How much memory is free, in bytes."""
    with open("/proc/meminfo", encoding="utf-8") as it:
        return 1024 * int(re.search(r"MemAvailable:\s+(\d+)", it.read())[1])


class Proofs:
    """The crates that are being built, and those that are, as long as it is wanted."""

    def __init__(self, crates, is_wanted):
        self.is_wanted = is_wanted
        self.behind = seconds_behind(crates)
        # First the one for which the longest row of others waits.
        self.left = sorted(crates, key=lambda it: -self.behind[it])
        self.built = set()
        # The process, the file of its output, the number of jobs, the room and the time at which it
        # began, by crate.
        self.running = {}
        self.memory = free_memory()
        self.processors = len(os.sched_getaffinity(0))
        # How many seconds were expected of what has ended, and how many it took.
        self.expected, self.took = 0.0, 0.0

    def ready(self):
        """The crates that can begin, since those below are built."""
        return [it for it in self.left if self.built.issuperset(crates_below(it))]

    def jobs_for(self, crate):
        """How many jobs are wanted for a crate: more than half as many as there are processors
        where all others wait for a row that begins with it, or nearly as long a one, but no more
        than leave as many to each of several such crates."""
        half = self.processors // 2
        longest = max(self.behind[it] for it in [*self.running, *self.left])
        share = self.behind[crate] / longest
        if share < NEARLY:
            return min(MOST_JOBS, half) if share >= 0.6 else 1
        alike = [it for it in {*self.running, *self.ready()} if self.behind[it] >= NEARLY * longest]
        return min(MOST_JOBS, 1 + half, max(1, (self.processors + half) // len(alike)))

    def begin(self):
        """Begins what can, as far as processors and memory go, and gives their names."""
        begun = []
        for crate in self.ready():
            running = [it.jobs for it in self.running.values()]
            room = self.memory - sum(ONE_JOB + (it - 1) * MORE_JOBS for it in running)
            jobs = max(1, min(self.jobs_for(crate), 1 + (room - ONE_JOB) // MORE_JOBS))
            # A proof that others wait for doesn't wait itself for the end of those that share its
            # processors, since it would go on with too few jobs once they have ended.
            most = self.processors + (self.processors // 2 if jobs > 1 else 0)
            if running and (sum(running) >= most or room < ONE_JOB):
                continue
            jobs = min(jobs, max(1, most - sum(running)))
            self.running[crate] = Proof(crate, jobs)
            self.left.remove(crate)
            begun.append(crate)
        return begun

    def ended(self):
        """Waits until one has ended, and gives its name, its status and what rt said."""
        while self.is_wanted():
            for crate, proof in self.running.items():
                if proof.process.poll() is not None:
                    del self.running[crate]
                    self.expected += seconds_of(crate) / SPEEDS[proof.jobs]
                    self.took += time.monotonic() - proof.began
                    return crate, proof.process.returncode, proof.close()
            time.sleep(0.1)
        sys.exit(1)

    def minutes_left(self):
        """About how many minutes remain: by the longest row of crates, or by all that is to do."""
        now, doing = time.monotonic(), {}
        pace = (self.took + 60) / (self.expected + 60)
        for crate, proof in self.running.items():
            doing[crate] = max(0.0, seconds_of(crate) - (now - proof.began) * SPEEDS[proof.jobs])
        behind = seconds_behind([*self.running, *self.left])
        rows = [behind[it] - seconds_of(it) + doing.get(it, seconds_of(it)) for it in behind]
        much = sum(doing.values()) + sum(map(seconds_of, self.left))
        row = max(rows, default=0) / SPEEDS[min(2, self.processors)]
        return pace * max(row, much / self.processors) / 60

    def stop(self):
        """Stops all runs of rt."""
        for proof in self.running.values():
            proof.process.terminate()
        for proof in self.running.values():
            proof.process.wait()
            proof.close()


def end_with_parent():
    """Has SIGTERM come to this process when its parent ends, however that ends."""
    LIBC.prctl(PR_SET_PDEATHSIG, signal.SIGTERM)


class Proof:
    """A run of rt that builds a crate in a room of its own. It ends with this process, and takes
    what it started with it."""

    def __init__(self, crate, jobs):
        self.room, self.jobs = Room(crate), jobs
        is_program = os.path.isfile(f"{self.room.work}/src/main.rt")
        words = ["rt", "run"] if is_program else ["rt", "lib"]
        words += ["--jobs", str(jobs)]
        words += ["--", "--help"] if is_program else []
        self.said = tempfile.TemporaryFile()
        how = {"stdin": subprocess.DEVNULL, "stdout": self.said, "stderr": self.said}
        self.began = time.monotonic()
        self.process = subprocess.Popen(
            words, cwd=self.room.work, preexec_fn=end_with_parent, **how
        )

    def close(self):
        """Gives what rt said, once it has ended."""
        self.room.close()
        with self.said:
            self.said.seek(0)
            return self.said.read()


def prove(crates, tell, log, is_wanted):
    """Builds these crates, among which are all that they stand on, the lowest first. Tells which it
    is at, writes what rt says to a file, and gives whether all are built. Exits where that isn't
    wanted any more."""
    proofs, number = Proofs(crates, is_wanted), 0
    try:
        while proofs.left or proofs.running:
            for crate in proofs.begin():
                number += 1
                left = f", about {proofs.minutes_left():.0f} minutes left"
                tell(f"proving crate {number} of {len(crates)}: {crate}{left}")
            crate, status, said = proofs.ended()
            log.write(said)
            log.flush()
            if status:
                tell(f"{crate} is not proved")
                return False
            proofs.built.add(crate)
        return True
    finally:
        proofs.stop()


def main():
    name, log, parent = sys.argv[1:]
    signals = []
    for it in (signal.SIGTERM, signal.SIGHUP):
        # (nohup has a process ignore the second)
        if it == signal.SIGTERM or signal.getsignal(it) != signal.SIG_IGN:
            signal.signal(it, lambda number, _: signals.append(number))
    end_with_parent()
    # The parent may have ended before that.
    is_wanted = lambda: not signals and os.getppid() == int(parent)
    say = lambda text: print(f"morris: {text}", file=sys.stderr, flush=True)
    with open(log, "wb") as it:
        try:
            return 0 if prove([*crates_below(name), name], say, it, is_wanted) else 1
        except KeyboardInterrupt:
            return 130


if __name__ == "__main__":
    sys.exit(main())
