#!/usr/bin/env python3
"""Makes the tags of a file canonical on the workers of Dask's distributed scheduler.

Usage: canon.py [--workers N] [--scheduler ADDRESS] PROGRAM REGISTRY TAGS

TAGS is parted at ends of lines into a bag; a worker reads its part and runs `PROGRAM canon REGISTRY` over it. The answers
are printed in the order of the lines. Without an address it starts a scheduler and N workers (4, if none is named), each a
process of its own. On other machines all three paths have to lead to the same files. Status 1 of the program, that a tag
was refused, is no failure.
"""

import argparse
import os
import subprocess
import sys

import dask.bag

from local import client

SIZE = 1_000_000


def parts_of(path):
    """The parts of a file, each from a byte to another, where lines end."""
    ends = [0]
    with open(path, "rb") as file:
        while file.seek(ends[-1] + SIZE) and file.readline():
            ends.append(file.tell())
        ends.append(file.seek(0, os.SEEK_END))
    return list(zip(ends, ends[1:]))


def canon(program, registry, path, part):
    """What the program answers to the lines of a part."""
    with open(path, "rb") as file:
        file.seek(part[0])
        lines = file.read(part[1] - part[0])
    run = subprocess.run([program, "canon", registry], input=lines, stdout=subprocess.PIPE)
    if run.returncode not in (0, 1):
        raise RuntimeError("%s ended with status %d" % (program, run.returncode))
    return run.stdout


def main():
    words = argparse.ArgumentParser(description=__doc__.splitlines()[0])
    words.add_argument("--workers", type=int, default=4)
    words.add_argument("--scheduler")
    words.add_argument("program")
    words.add_argument("registry")
    words.add_argument("tags")
    asked = words.parse_args()
    with client(asked.scheduler, asked.workers) as asking:
        parts = parts_of(asked.tags)
        bag = dask.bag.from_sequence(parts, npartitions=len(parts))
        made = bag.map(lambda part: canon(asked.program, asked.registry, asked.tags, part))
        for answers in made.compute(scheduler=asking.get):
            sys.stdout.buffer.write(answers)


if __name__ == "__main__":
    main()
