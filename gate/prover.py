"""What gate/every_edit has of the kit beside its commands: the functions by which `rt` tries an
edit itself, and what the prover says of goals and answers, by its wording. Both are as the kits in
KITS have them; with another kit nothing is tried."""

import functools
import importlib.machinery
import importlib.util
import os
import re
import shutil
import subprocess
import sys

from launcher.proving import ROOT

KITS = ("rattle-kit-13b logic dac8208d650f15bf", "rattle-kit-13f logic dac8208d650f15bf")
ONE_JOB = ["--jobs", "1"]
# What the prover says of an answer in a proof that is refused, of a goal that has none, and of a
# function, after its goals.
ANSWER = re.compile(
    r"(?:\./)?(proofs/(\S+?)(?:/\w+)?\.antt):\d+:\d+: error: (?:`([^`]*)`: )?(.*)"
)
GOAL = re.compile(
    r"note: src/\S+: (?:it is not proved .*|`search` found no proof) \(`([^`]*)`\)(.*)"
)
FUNCTION = re.compile(r"fn (\S+): (?:.*`search` did not prove ([^;]*))?")
# What it says of an answer that waits for another, of one that names what isn't there, and of one
# whose goal has another name now; of numbers at which an answer fails, and of a goal that is false.
WAITED = re.compile(r"(was|were) not (admitted|checked)")
LOST = re.compile(r"has no field|is not in scope|has no `|is not a field")
LOST_GOAL = re.compile(r"`goal\.\S+`: module `.*` has no `")
FAILS = "the goal does not follow from what it read. All of that holds, and the goal fails, at"
FALSE = "allow values at which this goal is false"


def kind_of(goal):
    """The clause that a goal is of, or what kind of goal it is otherwise."""
    return goal.rpartition("-clause-")[2] if "-clause-" in goal else goal.partition("-")[0]


def is_proof_of(path, function):
    """Whether the proof of this path is the function's. (Functions that call one another have one
    proof, whose name has a plus.)"""
    is_last = path[-1] == function[-1] or path[-1].startswith("+")
    return is_last and path[:-1] == function[: len(path) - 1]


def left_open(said):
    """What the prover left open: the goals, each with the path of its function, and the answers of
    another type than their goals, each with that path and its file. Where an answer doesn't fit,
    its goal isn't one of those. Nor is a goal with no answer where an answer to one of the same
    clause stands under the name of a goal that isn't there any more, unless it is known to be
    false."""
    goals, unfit, lost, here = [], [], [], []
    # (what goes on below a line stands further right)
    for line in re.sub(r"\n {2,}", " ", said).splitlines():
        if answer := ANSWER.match(line):
            file, path, name, why = answer.groups(default="")
            names = path.split("/")
            if LOST_GOAL.search(why):
                lost.append((names, kind_of(name)))
            if FAILS in why:
                goals.append((names, name))
            elif not WAITED.search(why) and not LOST.search(why):
                unfit.append((names, name, file))
        elif goal := GOAL.match(line):
            here.append((goal[1], FALSE in goal[2]))
        elif function := FUNCTION.match(line):
            names = function[1].split("::")[1:]
            here += [(it, False) for it in re.findall("`([^`]*)`", function[2] or "")]
            kinds = [kind for path, kind in lost if is_proof_of(path, names)]
            goals += [(names, it) for it, is_false in here if is_false or kind_of(it) not in kinds]
            here = []
    return goals, unfit


def without_answers(texts, folder, answers):
    """These texts of files, without these answers in proofs, and without the names of places that
    nothing else there uses, which may be gone with them."""
    texts = dict(texts)
    for name, file in answers:
        if file not in texts:
            with open(f"{folder}/{file}", encoding="utf-8") as it:
                texts[file] = it.read()
        # (with what stands further right below it, also behind an empty line)
        declared = rf"(?ms)^(pub )?{re.escape(name)} : .*?(?=\n\n\S|\Z)"
        text = re.sub(declared, "", texts[file], count=1)
        uses = re.compile(r"(?m)^(use \S+\.Goals\.)\{(.*)\}\n")
        rest = set(re.findall(r"[\w-]+", uses.sub("", text)))
        used = lambda names, rest=rest: [it for it in names.split(", ") if it in rest]
        shown = lambda it: f"{it[1]}{{{', '.join(used(it[2]))}}}\n" if used(it[2]) else ""
        texts[file] = uses.sub(shown, text)
    return texts


def functions_of_rt():
    """The functions of rt. Ends where its kit is none of those that are known."""
    path = shutil.which("rt") or sys.exit("the command rt of the kit isn't on the PATH")
    kit = subprocess.run([path, "version"], stdout=subprocess.PIPE, text=True, check=True).stdout
    if kit.strip() not in KITS:
        sys.exit(f"edits are tried with the kits {' and '.join(KITS)}, and not with {kit.strip()}")
    loader = importlib.machinery.SourceFileLoader("rt", os.path.realpath(path))
    rt = importlib.util.module_from_spec(importlib.util.spec_from_loader("rt", loader))
    loader.exec_module(rt)
    # Its first call sets how signals are handled, which the main thread alone may.
    rt.rtlib.guarded()
    return rt


class Prover:
    """The prover of the kit, and the crates as rt knows them."""

    def __init__(self):
        self.rt = functions_of_rt()
        self.crates = {it.name: it for it in self.rt.rtlib.crates_below(ROOT)}

    # (it reads all sources below a crate, and nothing changes meanwhile)
    @functools.cache
    def stamp(self, crate):
        """A checksum of the kit, of a crate and of those that it stands on."""
        return self.crates[crate].stamp()

    def check(self, crate, edit, kept, without=()):
        """Checks a crate with this text of an edit, or as it is, without these answers. Gives the
        status, or None where the prover wasn't reached or couldn't read a text, and what was
        said."""
        crate = self.crates[crate]
        texts, why = self.rt.edited(edit, crate.folder) if edit else ({}, None)
        if why:
            return None, why
        given = without_answers(texts, crate.folder, without)
        ran = self.rt.checked(crate, given, ONE_JOB, kept)
        lines = ran.stdout.rstrip("\n").split("\n")
        is_judged = lines[-1].startswith(("logic=proved", "logic=not-proved"))
        is_judged &= not any(self.rt.unread(it, texts) for it in lines)
        is_judged &= not self.rt.rtlib.STALE.search(ran.stdout)
        return (ran.returncode if is_judged else None), ran.stdout
