#!/usr/bin/env python3
"""Runs `canon` over lists of tags and prints what a tag takes of each, and what a start takes.

Usage: measure.py PROGRAM REGISTRY LIST..

For each list: tags a second, the instructions and the mispredicted branches of a tag, those of the start taken off, and
the most stack in bytes. These three are counted by valgrind, where it is installed: no other work on the machine moves
them. The most memory is that of the last list.
"""

import os
import shutil
import subprocess
import sys
import tempfile
import time
from pathlib import Path

STARTS = 10
RUNS = 5
COLUMNS = "%-12s %10s %14s %14s %16s %8s"


def begin(program, registry, tags):
    """Starts a run, whose answers are thrown away."""
    child = os.fork()
    if child == 0:
        os.dup2(os.open(tags, os.O_RDONLY), 0)
        os.dup2(os.open(os.devnull, os.O_WRONLY), 1)
        try:
            os.execv(program, [program, "canon", registry])
        finally:
            os._exit(127)
    return child


def judge(code):
    """Ends with a message where a run failed. Status 1 says that some tags were refused."""
    if code not in (0, 1):
        sys.exit("measure.py: `canon` ended with status %d" % code)


def seconds(program, registry, tags):
    """How long a run takes."""
    start = time.perf_counter()
    _, status = os.waitpid(begin(program, registry, tags), 0)
    judge(os.waitstatus_to_exitcode(status))
    return time.perf_counter() - start


def most_memory(program, registry, tags):
    """The most megabytes that a run held, as Linux tells while it goes on."""
    child, held, ended = begin(program, registry, tags), 0, 0
    while not ended:
        with open("/proc/%d/status" % child, encoding="ascii") as file:
            for line in file:
                if line.startswith("VmHWM:"):
                    held = int(line.split()[1])
        ended, status = os.waitpid(child, os.WNOHANG)
        time.sleep(0.0005)
    judge(os.waitstatus_to_exitcode(status))
    return held / 1024


def profile(program, registry, tags, *flags):
    """The lines that a tool of valgrind writes of a run."""
    with tempfile.TemporaryDirectory() as folder:
        file = Path(folder, "profile")
        words = ["valgrind", *(flag % file if "%s" in flag else flag for flag in flags), program, "canon", registry]
        with open(tags, "rb") as lines:
            judge(subprocess.run(words, stdin=lines, stdout=subprocess.DEVNULL, stderr=subprocess.DEVNULL).returncode)
        return file.read_text().splitlines()


def counts(program, registry, tags):
    """The instructions and the mispredicted branches of a run, or nothing without valgrind."""
    if not shutil.which("valgrind"):
        return None
    lines = profile(program, registry, tags, "--tool=callgrind", "--branch-sim=yes", "--callgrind-out-file=%s")
    found = dict(line.split(": ", 1) for line in lines if line.startswith(("events", "totals")))
    events = dict(zip(found["events"].split(), map(int, found["totals"].split())))
    return events["Ir"], events["Bcm"] + events["Bim"]


def most_stack(program, registry, tags):
    """The most bytes of stack of a run, or a hyphen without valgrind."""
    if not shutil.which("valgrind"):
        return "-"
    lines = profile(program, registry, tags, "--tool=massif", "--heap=no", "--stacks=yes", "--massif-out-file=%s")
    return max(int(line.split("=")[1]) for line in lines if line.startswith("mem_stacks_B"))


def print_list(program, registry, tags, start, start_counts):
    """A line of the table."""
    with open(tags, "rb") as file:
        lines = sum(1 for _ in file)
    whole = min(seconds(program, registry, tags) for _ in range(RUNS))
    shares = ["-", "-"]
    if start_counts:
        shares = ["%.1f" % ((whole - start) / lines) for whole, start in
                  zip(counts(program, registry, tags), start_counts)]
    print(COLUMNS % (Path(tags).stem, lines, "%.0f" % (lines / max(whole - start, 1e-9)), *shares,
                     most_stack(program, registry, tags)))


def main():
    program, registry, *lists = sys.argv[1:]
    start = min(seconds(program, registry, os.devnull) for _ in range(STARTS))
    start_counts = counts(program, registry, os.devnull)
    print(COLUMNS % ("list", "tags", "tags a second", "instructions", "mispredictions", "stack"))
    for tags in lists:
        print_list(program, registry, tags, start, start_counts)
    counted = ", %.1f million instructions, %.0f thousand mispredictions" % (start_counts[0] / 1e6, start_counts[1] / 1e3) if start_counts else ""
    print("start: %.1f ms%s" % (start * 1000, counted))
    print("largest memory: %.1f MB" % most_memory(program, registry, lists[-1]))


if __name__ == "__main__":
    main()
