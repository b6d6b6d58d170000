#!/usr/bin/env python3
"""Runs a command that proves crates, and prints what each crate took.

Usage: gate_times.py COMMAND..

Looks at the processes below the command twice a second. A process that works for a crate names it after
`--crate-name`; it works for the tests if it has the word `--test`, for edits if it runs in a copy of the
crate that was made for them, and else for the proof. Prints a table in minutes of one processor, with the
clock's minutes from a kind's first process to its last. What the command prints goes to standard error.
Ends with the status of the command.
"""

import os
import resource
import subprocess
import sys
import time
from pathlib import Path

KINDS = ["proof", "tests", "edits"]
TICKS = os.sysconf("SC_CLK_TCK")


def processes():
    """Each process with its parent, when it began, and the seconds of it and of its children that have ended."""
    found = {}
    for pid in filter(str.isdigit, os.listdir("/proc")):
        try:
            fields = Path("/proc", pid, "stat").read_text().rpartition(")")[2].split()
        except OSError:
            continue
        found[int(pid)] = int(fields[1]), fields[19], sum(map(int, fields[11:15])) / TICKS
    return found


def task(pid):
    """The crate and the kind of work of a process that names a crate, or None."""
    try:
        words = Path("/proc", str(pid), "cmdline").read_bytes().decode(errors="replace").split("\0")
        folder = os.readlink("/proc/%d/cwd" % pid)
    except OSError:
        return None
    if "--crate-name" not in words[:-1]:
        return None
    is_edit = os.path.basename(folder).startswith("rt-edit")
    kind = "edits" if is_edit else "tests" if "--test" in words else "proof"
    return words[words.index("--crate-name") + 1], kind


def look(root, seconds, clock):
    """Looks once at the processes below the root, and keeps the seconds of each task's topmost ones."""
    found = processes()
    below = {}
    for pid, (parent, _, _) in found.items():
        below.setdefault(parent, []).append(pid)

    def total(pid):
        return found[pid][2] + sum(map(total, below.get(pid, [])))

    todo, now = below.get(root, [])[:], time.monotonic()
    while todo:
        pid = todo.pop()
        named = task(pid)
        if not named:
            todo += below.get(pid, [])
            continue
        key = named, pid, found[pid][1]
        seconds[key] = max(total(pid), seconds.get(key, 0))
        clock[named] = clock.get(named, (now, now))[0], now


def table(seconds, clock):
    """The lines of the table."""
    def of(crate, kind):
        used = sum(it for (named, _, _), it in seconds.items() if named == (crate, kind))
        first, last = clock.get((crate, kind), (0, 0))
        return used / 60, (last - first) / 60

    crates = list(dict.fromkeys(crate for crate, _ in clock))
    rows = [(crate, [of(crate, kind) for kind in KINDS]) for crate in crates]
    sums = [[sum(row[i][j] for _, row in rows) for j in range(2)] for i in range(len(KINDS))]
    yield "%-20s" % "crate" + "".join("%10s clock" % kind for kind in KINDS)
    for crate, row in [*rows, ("all", sums)]:
        yield "%-20s" % crate + "".join("%10.1f %5.1f" % (used, passed) for used, passed in row)


def main():
    began, seconds, clock = time.monotonic(), {}, {}
    command = subprocess.Popen(sys.argv[1:], stdout=sys.stderr)
    while command.poll() is None:
        look(os.getpid(), seconds, clock)
        time.sleep(0.5)
    passed = time.monotonic() - began
    used = resource.getrusage(resource.RUSAGE_CHILDREN)
    for line in table(seconds, clock):
        print(line)
    print("%.1f minutes of the clock, %.1f of processors, on %d processors" % (
        passed / 60, (used.ru_utime + used.ru_stime) / 60, len(os.sched_getaffinity(0))))
    sys.exit(command.returncode)


if __name__ == "__main__":
    main()
