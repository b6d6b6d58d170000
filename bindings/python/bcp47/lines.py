# SPDX-License-Identifier: MIT OR Apache-2.0
"""The commands of the package that answer tags: lists, tables, and tags that are shown."""
from __future__ import annotations

import csv
from typing import BinaryIO, List, TextIO, Tuple

from . import RefusedTag, Registry, Row, Tag
from .report import place_of, rows_of

# Each byte that is no ASCII as one that is no part of a tag either, so that each line is a text.
_ASCII = bytes(range(128)) + b"?" * 128
_KEPT = ["langtag", "langtag_fault"]


def answer_lines(registry: Registry, file: BinaryIO, output: TextIO) -> bool:
    """Answers each line by its canonical tag, or by why it has none, as `langtag canon`. Gives whether all have one."""
    all_good = True
    for line in file:
        text = line.removesuffix(b"\n").removesuffix(b"\r").translate(_ASCII).decode()
        tag, why = _answer(registry, text)
        output.write(tag + "\n" if tag else f"! {why}\n")
        all_good = all_good and bool(tag)
    return all_good


def rewrite_table(registry: Registry, file: BinaryIO, output: TextIO, word: str, delimiter: str, keep: bool) -> bool:
    """Writes a table with the tags of a column made canonical, and with why others are not. Gives whether all have a canonical tag.
    The column is named or numbered by a word. With keep, rows stay, and get two fields more."""
    writer = csv.writer(output, delimiter=delimiter, lineterminator="\n")
    rows = rows_of(file, delimiter)
    heading: List[str] = next(rows, [])
    place = place_of(heading, word)
    writer.writerow(heading + _KEPT[not keep:])
    all_good = True
    for row in rows:
        tag, why = _answer(registry, row[place]) if place < len(row) else ("", "NoColumn")
        if keep:
            row.append(tag)
        elif tag:
            row[place] = tag
        writer.writerow([*row, why])
        all_good = all_good and not why
    return all_good


def _answer(registry: Registry, text: str) -> Tuple[str, str]:
    """The canonical tag of a text, and why it has none; one of the two is empty."""
    (tag,), (why,) = registry.canonical_columns([text])
    return tag or "", why or ""


def show_tag(registry: Registry, text: str, output: TextIO) -> bool:
    """Prints what `langtag show` prints of a tag. Gives whether it is not refused."""
    lines: List[str] = []
    try:
        lines += [str(Tag(text)), *_row_lines(registry.show(text))]
        explanation = registry.explain(text)
        lines += [f"{step.kind} {step.place} {step.number} {step.tag}" for step in explanation.steps]
        last = f"= {explanation.canonical}"
    except RefusedTag as refused:
        last = f"! {refused}"
    print(*(lines or [_printable(text)]), last, "", sep="\n", file=output)
    return last[0] == "="


def _row_lines(rows: List[Row]) -> List[str]:
    """The lines of the parts of a tag."""
    kinds, texts = (max(len(getattr(row, name)) for row in rows) for name in ("kind", "text"))
    lines = []
    for row in rows:
        listed = {"Record": f"record {row.record}", "Unregistered": "not registered"}.get(row.listing, "")
        lines.append(f"{row.place:<5}{row.kind:<{kinds + 2}}{row.text:<{texts + 2}}{listed}".rstrip())
        lines += [f"     {name:<17}{_printable(body)}" for name, body in row.fields]
    return lines


def _printable(text: str) -> str:
    """A text for a terminal, with a space for each control character."""
    return "".join(it if it.isprintable() else " " for it in text)
