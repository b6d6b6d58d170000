#!/usr/bin/env python3
"""Runs programs that answer each line of their input by a line, and prints how many lines a second each answers.

Usage: compare.py TAGS COMMAND..

The programs take turns, so that a noisy minute falls on all of them. Of each one's rounds it gives the best and the median,
less those of its rounds without a line. The last column is the first program's median as a multiple of this one's.
"""

import statistics
import subprocess
import sys
import time
from pathlib import Path

ROUNDS = 15
COLUMNS = "%-16s %14s %14s %10s %12s"


def seconds(command, tags):
    """How long a run takes. A program may end with status 1 where it refused a line."""
    with open(tags, "rb") as lines:
        start = time.perf_counter()
        status = subprocess.run(command, stdin=lines, stdout=subprocess.DEVNULL).returncode
        taken = time.perf_counter() - start
    if status not in (0, 1):
        sys.exit("compare.py: %s ended with status %d" % (command[0], status))
    return taken


def main():
    tags, *commands = sys.argv[1:]
    commands = [command.split() for command in commands]
    with open(tags, "rb") as lines:
        count = sum(1 for _ in lines)
    runs = [[(seconds(command, tags), seconds(command, "/dev/null")) for command in commands] for _ in range(ROUNDS)]
    print(COLUMNS % ("program", "tags a second", "median", "start ms", "langtag is"))
    first = None
    for command, rounds in zip(commands, zip(*runs)):
        wholes, starts = zip(*rounds)
        best, middle = (count / max(of(wholes) - of(starts), 1e-9) for of in (min, statistics.median))
        first = first or middle
        name = Path(command[0]).name
        print(COLUMNS % (name, "%.0f" % best, "%.0f" % middle, "%.1f" % (min(starts) * 1000), "%.2f x" % (first / middle)))


if __name__ == "__main__":
    main()
