#!/usr/bin/python3
"""Asks the libraries that docs/MATCHING.md names for the answers that its table shows, and prints each cell that is otherwise.
Ends with status 1 if there is one.

Usage: bench/peers/serving.py [REGISTRY]     the example's registry

It needs the package of bindings/python, as `pip install` or PYTHONPATH gives it. Packages of Debian for the others:
python3-werkzeug python3-icu golang-go golang-golang-x-text-dev openjdk-17-jdk-headless. A library that is not installed is left out.
"""

import os
import re
import subprocess
import sys
import tempfile
from pathlib import Path

HERE = Path(__file__).resolve().parent
ROOT = HERE.parents[1]


def langtag(questions):
    """The answers of the package for Python."""
    import bcp47

    registry = bcp47.Registry.from_file(sys.argv[1] if len(sys.argv) > 1 else ROOT / "examples/iana-2025-05-15.txt")
    return [registry.available(tags.split()).best(header, "-") for header, tags in questions]


def piped(command, questions, **more):
    """The answers of a program that reads a line for each question."""
    text = "".join(f"{header}\t{tags}\n" for header, tags in questions)
    return subprocess.run(command, input=text, stdout=subprocess.PIPE, text=True, check=True, **more).stdout.split()


def java(questions):
    return piped(["java", HERE / "Serving.java"], questions)


def go(questions):
    listed = subprocess.run(["dpkg", "-L", "golang-golang-x-text-dev"], stdout=subprocess.PIPE, text=True, check=True).stdout
    path, name = re.search(r"^(.*)/src/(.*/x/text)/language/language\.go$", listed, re.M).groups()
    with tempfile.TemporaryDirectory() as folder:
        source = Path(folder) / "serving.go"
        source.write_text((HERE / "serving.go").read_text().replace("TEXT/", f"{name}/"))
        return piped(["go", "run", source], questions, env={**os.environ, "GOPATH": path, "GO111MODULE": "off", "GOCACHE": folder})


def werkzeug(questions):
    from werkzeug.datastructures import LanguageAccept
    from werkzeug.http import parse_accept_header

    return [parse_accept_header(header, LanguageAccept).best_match(tags.split(), "-") for header, tags in questions]


def icu(questions):
    import icu

    for header, tags in questions:
        matcher = icu.LocaleMatcher.Builder().setDefaultLocale(icu.Locale("zxx")).setSupportedLocales([icu.Locale.forLanguageTag(it) for it in tags.split()])
        yield matcher.build().getBestMatchForListString(header).toLanguageTag().replace("zxx", "-")


PEERS = {"`langtag`": langtag, "Java": java, "Go": go, "werkzeug": werkzeug, "ICU": icu}


def main():
    heads, rows = [], []
    for line in (ROOT / "docs/MATCHING.md").read_text(encoding="utf-8").split("\n"):
        cells = [it.strip().replace("`", "") if heads else it.strip() for it in line.strip("|").split("|")] if line.startswith("|") else []
        if not heads and all(it in cells for it in PEERS):
            heads = cells
        elif heads and not cells:
            break
        elif heads and not cells[0].startswith("-"):
            rows.append(cells)
    wrong, questions = 0, [(row[0], row[1].replace(",", "")) for row in rows]
    for name, call in PEERS.items():
        try:
            answers = list(call(questions))
        except (ImportError, OSError, subprocess.CalledProcessError) as error:
            print(f"without {name}: {error}")
            continue
        for row, answer in zip(rows, answers, strict=True):
            shown = row[heads.index(name)].replace("–", "-")
            wrong += shown != answer
            if shown != answer:
                print(f"{row[0]} over {row[1]}: {name} gives {answer}, and the page shows {shown}")
    print(f"{len(rows)} rows, {wrong} cells are otherwise")
    return 1 if wrong or not rows else 0


if __name__ == "__main__":
    sys.exit(main())
