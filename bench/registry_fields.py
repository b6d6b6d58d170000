#!/usr/bin/env python3
"""Prints a registry in IANA's format without its Comments and the dates at which records were added.

Usage: bench/registry_fields.py FILE > examples/iana-DATE.txt

All other fields are kept, in the order of FILE, each with the lines that continue it, and every line between records. So
`langtag` reads the same entries of both files, under the same numbers, and shows the same of them but for the Comments.
"""

import sys

LEFT_OUT = {"comments", "added"}


def kept_lines(lines):
    """The lines but for those of the fields that are left out, and those that continue one of these."""
    keeps = True
    for line in lines:
        if line.rstrip("\r\n") == "%%":
            keeps = True
            yield line
        elif line[:1] in (" ", "\t"):
            if keeps:
                yield line
        else:
            keeps = line.partition(":")[0].strip().lower() not in LEFT_OUT
            if keeps:
                yield line


def main(words):
    if len(words) != 1:
        print("usage: bench/registry_fields.py FILE", file=sys.stderr)
        return 3
    with open(words[0], encoding="utf-8", newline="") as file:
        sys.stdout.writelines(kept_lines(file))
    return 0


if __name__ == "__main__":
    sys.exit(main(sys.argv[1:]))
