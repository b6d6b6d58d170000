#!/usr/bin/env python3
"""Compares the contracts of C functions that docs/PROVED.md says are assumed with those that the checker counts.

Usage: tests/trusted.py [--print]

The check of a program or of a static library lists each C function whose contract it rests on, and tests/gate.py keeps the list
in out/NAME.axioms. The table of docs/PROVED.md, "What is trusted", has a row for each of the two: its name, the number, and the
names. With --print the rows are printed as they have to be. Ends with 1 if the table has others.
"""

import re
import sys
from pathlib import Path

ROOT = Path(__file__).resolve().parent.parent
CRATES = ["langtag", "bcp47_c"]
REACHED = re.compile(r"^\s*(?:fn )?([\w:]+)\b.*\breached$", re.M)


def row_of(crate):
    """The crate's row, by what the checker says of it."""
    said = (ROOT / "crates" / crate / "out" / f"{crate}.axioms").read_text(encoding="utf-8")
    last = re.search(r"^logic=proved .*?\baxioms=(\d+)\b", said, re.M)
    if not last:
        raise SystemExit(f"{crate}: {said.strip()[-300:]}")
    names = sorted(set(REACHED.findall(said)))
    if len(names) != int(last[1]):
        raise SystemExit(f"{crate}: {last[1]} are counted, and {len(names)} are listed: {', '.join(names)}")
    groups = {}
    for name in names:
        library, _, function = name.rpartition("::")
        groups.setdefault(library, []).append(f"`{function}`")
    listed = "; ".join(f"of `{library}` {', '.join(functions)}" for library, functions in groups.items())
    return f"| `{crate}` | {last[1]} | {listed} |"


def main():
    rows = [row_of(crate) for crate in CRATES]
    if sys.argv[1:] == ["--print"]:
        print("\n".join(rows))
        return 0
    lines = (ROOT / "docs" / "PROVED.md").read_text(encoding="utf-8").splitlines()
    missing = [row for row in rows if row not in map(str.strip, lines)]
    for row in missing:
        print(f"docs/PROVED.md doesn't have: {row}")
    print(f"{len(rows)} rows of assumed contracts, {len(missing)} differ")
    return 1 if missing else 0


if __name__ == "__main__":
    sys.exit(main())
