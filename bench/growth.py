#!/usr/bin/env python3
"""Refuses each growth of memory in turn: in the tests of each crate that are meant for it, and in the program by tests/runs.py.

Usage: growth.py [--turn | NAME..]

A NAME is a crate of tests, or `langtag` for the program; without one, all are run. `rt test` in a crate's folder leaves its tests
there, and `make` builds the program; `make growth` does both first. --turn prints the crate whose turn it is, by the sum of the
commit.

A run refuses the growth of one number and no other, for each number from 1 on until a run met no refusal.
A test of a module `growths` has to pass in each. A test `.._in_order` prints where memory ran out: over the
runs these numbers may never fall, and each from 1 to the last has to be among them. A test `.._without_growth` marks where calls
begin that take no memory, and each growth after that is refused: it has to pass and to meet none.
Prints the number of refusals in each, and ends with status 1 where one is not as it has to be.
"""

import itertools
import os
import re
import subprocess
import sys
import tempfile
from pathlib import Path

ROOT = Path(__file__).resolve().parent.parent
CRATES = ["lt_registry_tests", "lt_canon_tests", "lt_answers_tests"]
SECONDS = 60
NONE = "_without_growth"
ORDER = "_in_order"
RAN_OUT = re.compile(rb"ran out at (\d+) of (\d+)")

# Counts the growths of a process and refuses the one of the number that the environment names. One of 64
# GiB is a mark: it and each after it are refused. A byte for each goes to the descriptor that is named.
REFUSER = r"""
#include <stdlib.h>
#include <unistd.h>

extern void *__libc_malloc(size_t), *__libc_calloc(size_t, size_t), *__libc_realloc(void *, size_t);
static const size_t mark = (size_t)1 << 36;
static long number, count;
static int told;

__attribute__((constructor)) static void start(void) {
    told = atoi(getenv("REFUSED_TOLD"));
    number = atol(getenv("REFUSED_GROWTH"));
    count = 0; /* those of the loader are no growths of the program */
}

static int refused(size_t size) {
    static int is_marked = 0;
    int is_mark = size >= mark;
    is_marked |= is_mark;
    if (++count != number && !is_marked) return 0;
    return write(told, is_mark ? "m" : "r", 1) == 1;
}

void *malloc(size_t size) { return refused(size) ? NULL : __libc_malloc(size); }
void *calloc(size_t items, size_t size) { return refused(size) ? NULL : __libc_calloc(items, size); }
void *realloc(void *old, size_t size) { return refused(size) ? NULL : __libc_realloc(old, size); }
"""

def build_refuser(folder):
    """The library that refuses a growth, built in a folder."""
    library = Path(folder, "refuser.so")
    words = [os.environ.get("CC", "cc"), "-O2", "-fPIC", "-shared", "-x", "c", "-o", library, "-"]
    subprocess.run(words, input=REFUSER, text=True, check=True)
    return library


def run(library, words, number):
    """The status, output and errors of a run that refuses the growth of this number, and what it met."""
    reading, writing = os.pipe()
    names = {"LD_PRELOAD": str(library), "REFUSED_GROWTH": str(number), "REFUSED_TOLD": str(writing)}
    try:
        done = subprocess.run(words, stdin=subprocess.DEVNULL, capture_output=True, timeout=SECONDS,
                              pass_fds=[writing], env={**os.environ, **names})
    finally:
        os.close(writing)
    with open(reading, "rb") as told:
        return (done.returncode, done.stdout, done.stderr), told.read()


def stop(words, answer, why):
    status, output, errors = answer
    sys.exit("growth.py: %s: %s\nstatus %d\n%s%s" % (
        " ".join(map(str, words)), why, status, output.decode(), errors.decode()))


def try_each(library, words, is_right):
    """How many runs met a refusal. `is_right` has to be true of each answer, and of the last, which met none."""
    for count, number in enumerate(itertools.count(1)):
        answer, met = run(library, words, number)
        if not is_right(answer):
            stop(words, answer, "growth %d was refused" % number)
        if not met:
            return count


def tests_of(crate):
    """The names of a crate's tests that are meant for this, each with the words that run it."""
    binary = ROOT / "crates" / crate / "out" / (crate + "_tests")
    if not binary.exists():
        sys.exit("growth.py: `rt test` in the folder of %s makes its tests" % crate)
    listed = subprocess.run([binary, "--list"], capture_output=True, check=True, text=True).stdout
    names = [line.removesuffix(": test") for line in listed.splitlines()]
    return [(name, [binary, name]) for name in names if "growths::" in name] or sys.exit(
        "growth.py: %s has no such tests" % crate)


def are_in_order(places):
    """Whether the numbers never fall, and each from 1 to the last is among them."""
    numbers = [at for at, _ in places]
    last = max((of for _, of in places), default=1)
    return numbers == sorted(numbers) and set(numbers) == set(range(1, last + 1))


def judge_test(library, name, words):
    """How many growths of a test were refused one by one."""
    if name.endswith(NONE):
        answer, met = run(library, words, 0)
        if answer[0] != 0 or met != b"m":
            stop(words, answer, "a growth was refused after the mark")
        return 0
    places = []

    def is_right(answer):
        places.extend((int(at), int(last)) for at, last in RAN_OUT.findall(answer[1]))
        return answer[0] == 0

    refused = try_each(library, words, is_right)
    if name.endswith(ORDER) and not are_in_order(places):
        sys.exit("growth.py: %s: memory ran out at %s" % (name, places))
    return refused or sys.exit("growth.py: %s of %s met no growth" % (name, words[0].name))


def turn():
    """The crate of tests whose turn it is."""
    commit = subprocess.run(["git", "rev-parse", "HEAD"], cwd=ROOT, capture_output=True, text=True).stdout
    return CRATES[int(commit or "0", 16) % len(CRATES)]


def main():
    if sys.argv[1:] == ["--turn"]:
        return print(turn())
    with tempfile.TemporaryDirectory() as folder:
        library = build_refuser(folder)
        for crate in sys.argv[1:] or [*CRATES, "langtag"]:
            if crate != "langtag":
                for name, words in tests_of(crate):
                    print("%s %s: %d" % (crate, name, judge_test(library, name, words)), flush=True)
                continue
            subprocess.run([ROOT / "tests" / "runs.py", "--growths"], check=True)


if __name__ == "__main__":
    main()
