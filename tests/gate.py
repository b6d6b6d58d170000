#!/usr/bin/env python3
"""Runs the tests that each change must pass: CONTRIBUTING.md says how, in "The gate".

Usage: tests/gate.py [--anew] [--after "CRATE.."] [COMMAND..]

Side by side: `rt ci` over a copy of the tree without the must-fail edits; of each crate that is proved the edits that are due; and
COMMAND, once the programs, the library for C and these crates of tests are proved. `rt ci` is run as the kit has it, but that its
libraries keep their checked proofs, the order is that of tools/build.py, and what an earlier run proved is taken where all that it
depends on is the same, without --anew. What is made comes to crates/*/out. Ends with status 1 unless all pass.
"""

import argparse
import contextlib
import glob
import hashlib
import os
import re
import shutil
import subprocess
import sys

import edits
from edits import ROOT, build, rt, rtlib

COPY, LOG = os.path.join(ROOT, "build", "gate"), os.path.join(ROOT, "build", "gate.log")
KEPT = os.path.join(os.environ.get("XDG_CACHE_HOME") or os.path.expanduser("~/.cache"), "langtag-gate")
MOST_KEPT = 15_000_000_000
# The library for C is for each processor of x86-64.
PROCESSOR = ["--cpu", "x86-64"]


def copied():
    """Copies the tree, without what git knows, what was built, and the edits."""
    shutil.rmtree(COPY, ignore_errors=True)
    shutil.copytree(ROOT, COPY, symlinks=True, ignore=shutil.ignore_patterns(".git", "build", "dist", "out", "must-fail"))
    # (rt takes a folder for the top of a repository where it has a .git)
    os.mkdir(os.path.join(COPY, ".git"))


def linked(was, to, parts):
    """Puts files and folders to another place: folders by links where that can be, since rt writes into no file of them."""
    os.makedirs(to, exist_ok=True)
    for source, made in ((os.path.join(was, it), os.path.join(to, it)) for it in parts):
        if os.path.exists(source):
            subprocess.run(["rm", "-rf", made], check=True)
            if not os.path.isdir(source) or subprocess.run(["cp", "-al", source, made], stderr=subprocess.DEVNULL).returncode:
                subprocess.run(["cp", "-a", source, made], check=True)


def listing(crate, prove):
    """How a program or a library for C is proved: its check lists the contracts that it assumes, in out/NAME.axioms as well."""
    def run(command):
        status = prove([*command, "--list-axioms"])
        crate.out.seek(0)
        with open(os.path.join(crate.folder, "out", crate.name + ".axioms"), "w", encoding="utf-8") as it:
            it.write(crate.out.read())
        return status

    return run


def compiled(crate):
    """Compiles a library for C of what was checked, as rt compiles a program, to out/libNAME.a."""
    words = crate.words([*PROCESSOR, "--jobs", "1"], keeps=False)
    for flag in ("--logic-built", "--jobs"):
        at = words.index(flag)
        words = [*words[:at], *words[at + 2 :]]
    words += ["--crate-checked", "out/checked", "--toolchain", rtlib.KIT + "/toolchain", "--backend", "llvm"]
    return crate.call(rtlib.RATTLE, "build", *words, "-o", "out/lib%s.a" % crate.name)


def called(words):
    """Runs a command in the repository."""
    # (make gives its recipes an open list of jobs, which is not meant for this command)
    free = {name: value for name, value in os.environ.items() if not name.startswith("MAKE")}
    return subprocess.run(words, cwd=ROOT, env=free, stdin=subprocess.DEVNULL)


class Kept:
    """What proofs made, by sums of all that they depend on."""

    def __init__(self, crates, anew):
        sums = []
        scripts = [os.path.join(ROOT, it) for it in ("HANDLES", "tests/gate.py", "tools/build.py")]
        for path in [*sorted(glob.glob(rtlib.KIT + "/bin/*")), *sorted(glob.glob(rtlib.KIT + "/WHAT*")), *scripts]:
            with open(path, "rb") as it:
                sums.append(hashlib.sha256(it.read()).hexdigest())
        of = lambda crate, kind: hashlib.sha256(repr([sums, crate.stamp(), crate.name, kind]).encode()).hexdigest()
        self.places = {(it.name, kind): os.path.join(KEPT, of(it, kind)) for it in crates for kind in ("proof", "tests")}
        there = {it for it, place in self.places.items() if os.path.isdir(place) and not anew}
        # What is taken: with it all libraries below, over which it was proved.
        self.taken = {(it.name, kind) for it in crates for kind in ("proof", "tests")
                      if {(it.name, kind), *((below.name, "proof") for below in it.below())} <= there}

    def ci(self, prove):
        """How rt proves a crate or its tests: by `prove`, or by what an earlier run made."""
        def run(crate, flags, tests):
            key, out, status = (crate.name, "tests" if tests else "proof"), os.path.join(crate.folder, "out"), 0
            place, own = self.places[key], os.path.join(ROOT, "crates", crate.name, "out")
            made = [crate.name + it for it in ("", ".o", ".by-rattle", ".axioms")]
            made = [crate.name + "_tests"] if tests else ["rlib", "lib%s.a" % crate.name, *made]
            if not tests and not crate.makes_rlib():
                crate.prove = listing(crate, crate.prove)
            if key in self.taken:
                os.utime(place)
                linked(place, out, [*made, "checked"])
            elif crate.is_static and not tests:
                status = crate.prove(["check", *crate.words([*flags, *PROCESSOR], keeps=False), "-o", "out/checked"]) or compiled(crate)
            else:
                crate.cuts_libraries = False
                status = prove(crate, flags, tests)
            if status:
                return status
            if key not in self.taken:
                room = "%s.%d" % (place, os.getpid())
                linked(out, room, [*made, "checked"])
                shutil.rmtree(place, ignore_errors=True)
                os.rename(room, place)
            linked(out, own, made)
            return 0

        return run

    def clean(self):
        """Takes away what was not used for longest, beyond the most."""
        used = 0
        for it in sorted(os.scandir(KEPT), key=lambda it: -it.stat().st_mtime):
            used += int(subprocess.run(["du", "-sb", it.path], capture_output=True, text=True).stdout.split()[0])
            if used > MOST_KEPT:
                shutil.rmtree(it.path)


class Gate:
    """A run of `rt ci` over the copy, with the edits and the command beside."""

    def __init__(self, words):
        self.words, self.crates, self.is_well = words, rtlib.crates_below(COPY + "/crates"), False
        self.kept = Kept(self.crates, words.anew)
        missing = [it for it in self.crates if (it.name, "proof") not in self.kept.taken]
        build.stop_without_room(rt, missing)
        self.ledger = edits.Ledger(self.crates, folder_of=lambda it: os.path.join(ROOT, "crates", it.name))
        self.due = self.ledger.due(words.anew, draws=True)
        print("%d crates, %d of them proved by earlier runs; %d edits to judge, all of %s among them, which is drawn" % (
            len(self.crates), len(self.crates) - len(missing), sum(map(len, self.due.values())), self.ledger.drawn or "none"), flush=True)

    def in_lanes(self, tasks):
        """Runs rt's tasks, with the edits that are due in place of its own, and the command."""
        tasks = {it: (task[0], 0 if it in self.kept.taken else task[1], *task[2:]) for it, task in tasks.items()}
        tasks.update({(name, "edits"): self.ledger.crates[name].task([(name, "proof")], due) for name, due in self.due.items()})
        waits = [(it.name, "proof") for it in self.crates if not it.makes_rlib()] + [(it, "tests") for it in self.words.after]
        run = lambda given, jobs: not self.words.command or not called(self.words.command).returncode
        # (they take all processors, so what takes one comes before them)
        tasks["the scripts", "scripts"] = waits, 1500 * bool(self.words.command), 0, run
        found = build.Lanes(rt, tasks).run()
        self.is_well = all(found.values())
        return {**found, **{(name, "edits"): ([], [], []) for name in self.due}}

    def run(self):
        os.chdir(COPY)
        rt.Crate.ci, rt.in_lanes = self.kept.ci(rt.Crate.ci), self.in_lanes
        with open(LOG, "w", encoding="utf-8") as log, contextlib.redirect_stdout(log):
            status = rt.main(["ci"])
        said = re.split(r"(?m)^(?=== )", edits.text_of(LOG).rstrip())
        last = said.pop()
        print("".join(it for it in said if it.endswith("NOT PROVED\n")) + (last if status else last.rpartition("\n")[2]), flush=True)
        self.kept.clean()
        return int(self.ledger.close() > 0 or status > 0 or not self.is_well)


def main():
    words = argparse.ArgumentParser(usage=__doc__)
    words.add_argument("--anew", action="store_true")
    words.add_argument("--after", type=str.split, default=[])
    words.add_argument("command", nargs=argparse.REMAINDER)
    words = words.parse_args()
    if subprocess.run([os.path.join(ROOT, "tests", "packages.sh")]).returncode:
        return 1
    rtlib.guarded()
    try:
        os.makedirs(KEPT, mode=0o700, exist_ok=True)
        copied()
        return Gate(words).run()
    except OSError as fault:
        sys.exit("The gate can't go on: %s. It writes to %s and to build/." % (fault, KEPT))
    finally:
        os.chdir(ROOT)
        shutil.rmtree(COPY, ignore_errors=True)


if __name__ == "__main__":
    sys.exit(main())
