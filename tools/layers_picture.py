#!/usr/bin/env python3
"""Draws the crates in their layers, as crates.txt has them.

Usage: tools/layers_picture.py            prints the picture
       tools/layers_picture.py --write    puts it into CONTRIBUTING.md, between its two marks
       tools/layers_picture.py --check    says whether it stands there

In crates.txt a line `## TITLE` begins a layer, and a comment above a crate says what it is. The picture has a line for
each crate: its name, what it is, and the crates of the repository over which it stands, without those that others of them
stand over. It ends with 1 where the picture in CONTRIBUTING.md is another one, where a crate has no comment, or where a
crate stands above one that uses it.
"""

import sys
from pathlib import Path

ROOT = Path(__file__).resolve().parent.parent
PAGE = ROOT / "CONTRIBUTING.md"
BEGIN, END = "<!-- begin of the picture -->\n", "<!-- end of the picture -->\n"


def read(text):
    """The layers as (title, crates), a crate as (name, what it is, libraries that it uses)."""
    layers, comment = [], ""
    for line in text.splitlines():
        if line.startswith("## "):
            layers.append((line[3:], []))
            comment = ""
        elif line.startswith("# "):
            comment = line[2:]
        elif ":" in line:
            head, uses = line.split(":")
            if not layers:
                sys.exit(f"crates.txt: {head} stands in no layer")
            if not comment:
                sys.exit(f"crates.txt: {head} has no comment")
            layers[-1][1].append((head.split()[0], comment, uses.split()))
            comment = ""
    return layers


def below(crates):
    """For each crate the crates of the repository that it uses, by others too."""
    found = {}
    for name, _, uses in crates:
        own = [use for use in uses if use in {crate[0] for crate in crates}]
        for use in own:
            if use not in found:
                sys.exit(f"crates.txt: {name} stands below {use}, which it uses")
        found[name] = set(own).union(*(found[use] for use in own))
    return found


def picture(layers):
    """The lines of the picture."""
    crates = [crate for _, own in layers for crate in own]
    under = below(crates)
    lines = []
    for title, own in reversed(layers):
        lines.append(title)
        for name, comment, uses in reversed(own):
            mine = [use for use in uses if use in under]
            direct = [use for use in mine if not any(use in under[other] for other in mine)]
            over = " <- " + ", ".join(direct) if direct else ""
            lines.append(f"  {name:18}{comment}{over}")
        lines.append("")
    return "\n".join(lines[:-1]) + "\n"


def main(words):
    drawn = picture(read((ROOT / "crates.txt").read_text(encoding="utf-8")))
    if not words:
        print(drawn, end="")
        return 0
    page = PAGE.read_text(encoding="utf-8")
    before, rest = page.split(BEGIN)
    after = rest.split(END)[1]
    wanted = before + BEGIN + "\n```text\n" + drawn + "```\n\n" + END + after
    if words == ["--write"]:
        PAGE.write_text(wanted, encoding="utf-8")
        return 0
    if words == ["--check"]:
        if page != wanted:
            print("CONTRIBUTING.md has another picture than crates.txt: tools/layers_picture.py --write")
        return int(page != wanted)
    print(__doc__, file=sys.stderr)
    return 3


if __name__ == "__main__":
    sys.exit(main(sys.argv[1:]))
