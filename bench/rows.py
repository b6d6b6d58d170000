#!/usr/bin/env python3
"""Runs `tsv` and `csv` over rows of five columns, the third a tag, and `canon` over the tags alone.

Usage: rows.py PROGRAM REGISTRY [ROWS]

Prints a line for each command: the instructions of a row by callgrind, over 200,000 rows; the least processor time of
five runs over ROWS rows (2,000,000), without the system's, and how many times that of `canon` it is; and how many times
the same with a terminal as standard error takes. The lists:

- `tags`: the tags of `mixed` (make_tags.py), one a line;
- `refused`: the same, and each fourth is refused;
- `plain`: rows without quotes; `tsv` has the same with tabs;
- `title`: the second field is in quotes, with a comma in it;
- `quoted`: each field is in quotes.
"""

import os
import re
import resource
import subprocess
import sys
import tempfile
from pathlib import Path

BENCH = Path(__file__).resolve().parent
COUNTED = 200000
RUNS = 5
REFUSED = ["English", "xx-yy", "eng", "en_US", "uk-UK", "deutsch", "e", "en-x"]


def lists(folder, registry, rows):
    """The names of the lists, with the command of each; both sizes of each are made."""
    made = subprocess.run([sys.executable, BENCH / "make_tags.py", registry, "mixed", str(COUNTED)], stdout=subprocess.PIPE, check=True)
    tags = made.stdout.decode().splitlines()
    forms = {
        "tags": ("canon", lambda n, tag: tag),
        "refused": ("canon", lambda n, tag: tag if n % 4 else REFUSED[n // 4 % len(REFUSED)]),
        "tabs": ("tsv", lambda n, tag: f"{n}\tThe title of volume {n % 977}\t{tag}\t{1900 + n % 125}\tshelf {n % 4096}"),
        "plain": ("csv", lambda n, tag: f"{n},The title of volume {n % 977},{tag},{1900 + n % 125},shelf {n % 4096}"),
        "title": ("csv", lambda n, tag: f'{n},"The title, volume {n % 977}",{tag},{1900 + n % 125},shelf {n % 4096}'),
        "quoted": ("csv", lambda n, tag: f'"{n}","The title, volume {n % 977}","{tag}","{1900 + n % 125}","shelf {n % 4096}"'),
    }
    for name, (command, row) in forms.items():
        text = "".join(row(n + 1, tag) + "\n" for n, tag in enumerate(tags)).encode()
        Path(folder, name).write_bytes(text)
        with open(Path(folder, name + ".long"), "wb") as file:
            for _ in range(rows // COUNTED):
                file.write(text)
        yield name, command


def words(program, command, registry):
    return [program, command, registry] + ([] if command == "canon" else ["3"])


def run(arguments, rows, errors=subprocess.DEVNULL):
    """Runs a command over rows; status 1 says that some were refused."""
    with open(rows, "rb") as file:
        code = subprocess.run(arguments, stdin=file, stdout=subprocess.DEVNULL, stderr=errors, check=False).returncode
    if code not in (0, 1):
        sys.exit("rows.py: %s ended with status %d" % (arguments, code))


def seconds(arguments, rows, terminal):
    """The time of a run whose standard error is a terminal of its own, or none."""
    own, theirs = os.openpty()
    before = resource.getrusage(resource.RUSAGE_CHILDREN).ru_utime
    run(arguments, rows, theirs if terminal else subprocess.DEVNULL)
    took = resource.getrusage(resource.RUSAGE_CHILDREN).ru_utime - before
    os.close(theirs)
    os.close(own)
    return took


def least_seconds(arguments, rows):
    """The least time of some runs without a terminal, and of as many with one, by turns."""
    took = [[seconds(arguments, rows, terminal) for terminal in (False, True)] for _ in range(RUNS)]
    return [min(column) for column in zip(*took)]


def instructions(arguments, rows):
    with tempfile.TemporaryDirectory() as folder:
        out = Path(folder, "profile")
        run(["valgrind", "--tool=callgrind", f"--callgrind-out-file={out}", *arguments], rows)
        return int(re.search(r"^(?:totals|summary): (\d+)", out.read_text(), re.MULTILINE).group(1))


def main():
    program, registry = sys.argv[1:3]
    rows = int(sys.argv[3]) if len(sys.argv) > 3 else 2000000
    with tempfile.TemporaryDirectory() as folder:
        least = None
        print("%-8s %-6s %14s %10s %10s %14s" % ("list", "by", "instructions", "seconds", "of canon", "at a terminal"))
        for name, command in lists(folder, registry, rows):
            arguments = words(program, command, registry)
            start = instructions(arguments, os.devnull)
            counted = (instructions(arguments, Path(folder, name)) - start) / COUNTED
            took, told = least_seconds(arguments, Path(folder, name + ".long"))
            least = least or took
            print("%-8s %-6s %14.1f %10.3f %10.2f %14.2f" % (name, command, counted, took, took / least, told / took), flush=True)


if __name__ == "__main__":
    main()
