#!/usr/bin/env python3
"""Proves libraries and those below them, side by side where they do not need each other, and then runs a command of rt in the crates.

Usage: tools/build.py CRATE.. [-- WORD..]

For example, `tools/build.py langtag -- run -- --help` proves what is below langtag, and then does what `rt run -- --help` does. A
library is proved as `rt lib` proves it, and only where it or one below it has changed. Ends with status 1 if one is not proved.

A line for each task that has ended, and one each half minute, say how far it is: `[ 7/26] lt_registry: proving, 3 min, about 22 left`.
"""

import functools
import importlib.machinery
import importlib.util
import os
import re
import shutil
import subprocess
import sys
import tempfile
import time
from concurrent.futures import FIRST_COMPLETED, ThreadPoolExecutor, wait

ROOT = os.path.dirname(os.path.dirname(os.path.abspath(__file__)))
# What is said of a task of each kind: while it runs, and when it has ended well.
DOING = {"proof": ("proving", "proved"), "tests": ("proving its tests", "its tests are proved"),
         "edits": ("judging its edits", "its edits are judged"), "scripts": ("running", "ended")}
# The seconds of a task, and for a line of code; the most between two lines of progress; the bytes of the disk that a line's proof takes.
A_TASK, A_LINE, HALF_MINUTE, ON_DISK = 20, 0.2, 30, 300_000


def loaded(path, name):
    """A file of Python, as a module."""
    loader = importlib.machinery.SourceFileLoader(name, path)
    made = importlib.util.module_from_spec(importlib.util.spec_from_loader(name, loader))
    loader.exec_module(made)
    return made


def command():
    """The kit's command rt, as a module, where it is the kit that README.md names."""
    sys.dont_write_bytecode = True
    path = shutil.which("rt")
    with open(os.path.join(ROOT, "README.md"), encoding="utf-8") as it:
        wanted = re.search(r"`(logic \w+)`", it.read())[1]
    if not path:
        sys.exit(f"There is no command rt on the path: install a Rattle kit of {wanted}, and add its bin/ to PATH.")
    rt = loaded(os.path.realpath(path), "rt")
    with open(os.path.join(rt.KIT, "KIT-ID"), encoding="utf-8") as it:
        found = it.read().strip()
    if not found.endswith(wanted):
        sys.exit(f"The kit here is {found}, and README.md names {wanted}: the proofs are for that one.")
    # (rt sums up a crate once for each way that leads to it, which in a long chain are many)
    rt.rtlib.Crate.stamp = functools.cache(rt.rtlib.Crate.stamp)
    return rt


def stop_without_room(rt, crates):
    """Stops where the memory or the disk is too small for the proofs of these crates."""
    memory, disk = max(map(rt.need, crates), default=0) / 2, ON_DISK * sum(it.count(rb"\n") for it in crates)
    for what, need, free in (("memory", memory, rt.free()), ("the disk of " + ROOT, disk, shutil.disk_usage(ROOT).free)):
        if need > free:
            sys.exit(f"The proofs take {need / 1e9:.1f} GB of {what}, and {free / 1e9:.1f} are free: make room, or take a larger machine.")


class Lanes:
    """Tasks that run side by side: one a processor, as many as memory holds, each once those that it waits for have ended, and
    first those with the longest chain of others behind them."""

    def __init__(self, rt, tasks):
        """tasks: by a name and a kind, what it waits for, lines (of 0 nothing is said), memory, and a call that gets others' and its jobs."""
        self.tasks, self.said = tasks, time.time()
        self.lanes, self.memory = int(os.environ.get("RT_JOBS") or rt.processors()), 0.85 * rt.free()
        self.guess = {key: task[1] and A_TASK + A_LINE * task[1] for key, task in tasks.items()}
        self.behind = self.chains(self.guess)
        # What runs, with when it began, its memory and its jobs; what those gave that have ended, and their seconds beside the guess.
        self.running, self.given, self.took, self.guessed = {}, {}, 60, 60

    def chains(self, seconds):
        """Of each task the longest sum of seconds of it and of those that wait for it, one after another."""
        chain = dict(seconds)
        for key in reversed([*self.tasks]):
            for below in self.tasks[key][0]:
                chain[below] = max(chain[below], seconds[below] + chain[key])
        return chain

    def left(self):
        """The minutes that are left."""
        seconds = {key: 0 if key in self.given else it * self.took / self.guessed for key, it in self.guess.items()}
        for key, (began, _, _) in self.running.items():
            seconds[key] = max(seconds[key] - (time.time() - began), seconds[key] / 20)
        return max(sum(seconds.values()) / self.lanes, *self.chains(seconds).values()) / 60 + 0.5

    def say(self, key, words, seconds):
        counted = [it for it, guess in self.guess.items() if guess]
        number, passed = sum(it in self.given for it in counted), f"{seconds:.0f} s" if seconds < 100 else f"{seconds / 60:.0f} min"
        left = f", about {self.left():.0f} left" if number < len(counted) else ""
        if key in counted:
            print(f"[{number:2}/{len(counted)}] {key[0]}: {words}, {passed}{left}", file=sys.__stdout__, flush=True)
            self.said = time.time()

    def begin(self, pool):
        """Begins what can begin now."""
        known = {*self.running, *self.given}
        ready = [key for key, (waits, *_) in self.tasks.items() if key not in known and all(it in self.given for it in waits)]
        for key in sorted(ready, key=lambda it: -self.behind[it]):
            idle = self.lanes - sum(jobs for _, _, jobs in self.running.values())
            needs, room = self.tasks[key][2], self.memory - sum(it for _, it, _ in self.running.values())
            if not self.running or idle > 0 and needs <= room:
                # A second job takes up to twice the processors, so only the longest chain gets one, and only where nothing else can run but
                # edits, for which nothing waits.
                others = [it for it in ready if it != key and it[1] != "edits"]
                is_longest = not others and all(self.behind[it] <= self.behind[key] for it in self.running)
                jobs = 2 if is_longest and idle > 1 and 1.6 * needs <= room else 1
                self.running[key] = time.time(), needs * (1 + 0.6 * (jobs - 1)), jobs
                call = self.tasks[key][3] if all(self.given[it] for it in self.tasks[key][0]) else lambda given, jobs: None
                yield pool.submit(call, self.given, jobs), key

    def run(self):
        """Runs all, and returns what each gave."""
        futures = {}
        with ThreadPoolExecutor(self.lanes) as pool:
            while len(self.given) < len(self.tasks):
                futures.update(self.begin(pool))
                done = wait(futures, max(self.said + HALF_MINUTE - time.time(), 0), FIRST_COMPLETED).done
                for it in done:
                    key = futures.pop(it)
                    seconds = time.time() - self.running.pop(key)[0]
                    self.given[key] = it.result()
                    self.took, self.guessed = self.took + seconds, self.guessed + self.guess[key]
                    failed = "left, since what it needs failed" if self.given[key] is None else "FAILED"
                    self.say(key, DOING[key[1]][1] if self.given[key] else failed, seconds)
                if not done and self.running:
                    key = max(self.running, key=lambda it: self.behind[it])
                    self.say(key, DOING[key[1]][0], time.time() - self.running[key][0])
        return self.given


def build(library, jobs):
    """Builds one library, and returns whether it is proved."""
    with tempfile.TemporaryFile("w+", errors="replace") as library.out:
        status = library.build_rlib(["--jobs", str(jobs)], anew=False)
        library.out.seek(0)
        print(library.out.read() if status else "", end="")
    return not status


def run(crate, words, held):
    """Runs a command of rt in a crate, whose libraries are all built, and returns whether it ended well."""
    while held:
        os.close(held.pop())
    ran = subprocess.run(["rt", *words], cwd=crate.folder, stdout=subprocess.PIPE, stderr=subprocess.STDOUT, text=True, errors="replace")
    print(ran.stdout if ran.returncode else "", end="")
    return not ran.returncode


def main():
    cut = sys.argv.index("--") if "--" in sys.argv else len(sys.argv)
    names, words, rt = sys.argv[1:cut], sys.argv[cut + 1 :], command()
    rt.rtlib.guarded()
    crates = {it.name: it for it in rt.rtlib.crates_below(ROOT + "/crates")}
    if not names or [it for it in names if it not in crates]:
        sys.exit(__doc__)
    libraries = {it.name: it for name in names for it in [*crates[name].below(), crates[name]] if it.makes_rlib()}
    held = rt.rtlib.lock([*libraries.values()])
    missing = [it for it in libraries.values() if not it.is_built()]
    stop_without_room(rt, missing)
    tasks = {}
    for it in missing:
        rt.rtlib.stop_on_links(it.folder)
        waits = [(below.name, "proof") for below in it.below() if below in missing]
        tasks[it.name, "proof"] = waits, it.count(rb"\n"), rt.need(it), lambda given, jobs, it=it: build(it, jobs)
    waits = [*tasks]
    for it in (crates[name] for name in names if words):
        kind = "scripts" if (it.name, "proof") in tasks else "proof"
        tasks[it.name, kind] = waits, it.count(rb"\n") + 1000, rt.need(it), lambda given, jobs, it=it: run(it, words, held)
    return int(not all(Lanes(rt, tasks).run().values()))


if __name__ == "__main__":
    sys.exit(main())
