#!/usr/bin/env python3
"""Compares the codes of three letters that lt_terminal and the package for Python know with tools/iso639-2.tsv; with --write it
writes them anew.
With the path of iso_639-2.json of Debian's iso-codes, also the table with that file."""
import json
import pathlib
import sys
import textwrap

TOP = pathlib.Path(__file__).resolve().parent.parent
TABLE = TOP / "tools/iso639-2.tsv"
CODES = TOP / "crates/lt_terminal/src/codes.rt"
OF_PYTHON = TOP / "bindings/python/bcp47/codes.py"
# Codes that ISO 639-2 withdrew in 2008 and that library catalogues still have.
WITHDRAWN = [("mol", "ro"), ("scc", "sr"), ("scr", "hr")]


def rows():
    lines = TABLE.read_text().splitlines()
    return [tuple(line.split("\t")) for line in lines if not line.startswith("#")]


def source(path):
    """The pairs of the file of Debian's package."""
    pairs = []
    for language in json.loads(pathlib.Path(path).read_text())["639-2"]:
        if "alpha_2" in language:
            names = {language["alpha_3"], language.get("bibliographic", language["alpha_3"])}
            pairs += [(name, language["alpha_2"]) for name in names]
    return sorted(pairs)


def code(messages):
    lines = "".join(f'    "{message}",\n' for message in messages)
    return f"""//! The codes of three letters of ISO 639-2 that BCP 47 does not register. tools/language_codes.py writes this file.

/// What is said of each: the code, and that of two letters that BCP 47 has for the language.
pub(crate) static CODES: [&str; {len(messages)}] = [
{lines}];
"""


def code_of_python(pairs):
    lines = textwrap.fill(" ".join(f"{three}={two}" for three, two in pairs), 120)
    return f'''# SPDX-License-Identifier: MIT OR Apache-2.0
"""The codes of three letters of ISO 639-2 that BCP 47 does not register, each with what it registers for the language.
tools/language_codes.py writes this file."""

CODES = dict(it.split("=") for it in """
{lines}
""".split())
'''


def main():
    words = sys.argv[1:]
    if words and words[0] != "--write":
        if source(words[0]) != rows():
            sys.exit(f"{TABLE.name} and {words[0]} differ")
        return
    pairs = sorted(rows() + WITHDRAWN)
    messages = [f"{three}: BCP 47 writes {two}." for three, two in pairs]
    for path, content in ((CODES, code(messages)), (OF_PYTHON, code_of_python(pairs))):
        if words:
            path.write_text(content)
        elif path.read_text() != content:
            sys.exit(f"{path.relative_to(TOP)} and {TABLE.name} differ")
    print(f"{len(messages)} codes of three letters")


main()
