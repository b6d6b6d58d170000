# SPDX-License-Identifier: MIT OR Apache-2.0
"""A page in HTML about the language tags of a catalogue: one file without scripts, which loads nothing."""
from __future__ import annotations

import codecs
import csv
import itertools
import time
from typing import BinaryIO, Dict, Iterator, List, Tuple

from . import Registry, __version__
from .advice import Advice
from .pages import LONGEST, Group, Tables, Text, answers_of, cell, document, escaped, facts_of, shown


class NoColumn(Exception):
    """Why a word names no column."""


class BadTable(Exception):
    """Why a text is no table."""


def place_of(names: List[str], word: str) -> int:
    """The place of the column, from 0, that a word names or numbers."""
    found = [place for place, name in enumerate(names) if name == word]
    found = found or [place for place in range(len(names)) if word == str(place + 1)]
    if len(found) != 1:
        listed = ", ".join(f"{number} {name!r}" for number, name in enumerate(names, 1))
        raise NoColumn(f"{len(found)} columns are named {word!r}: give a name that is there once, or a number, of: {listed}")
    return found[0]


def rows_of(file: BinaryIO, delimiter: str) -> Iterator[List[str]]:
    """The rows of CSV, the heading first. An empty line has one field, which is empty. Raises BadTable."""
    csv.field_size_limit(1 << 24)
    first = file.readline()
    if not first:
        return
    lines = itertools.chain([first.removeprefix(codecs.BOM_UTF8)], file)
    reader = csv.reader(map(bytes.decode, lines), delimiter=delimiter, strict=True)
    begin = 1
    try:
        for row in reader:
            yield row or [""]
            begin = reader.line_num + 1
    except csv.Error as error:
        why = str(error).partition(" - ")[0]
        raise BadTable(f"line {reader.line_num}, in the record that begins in line {begin}: {why}") from None
    except UnicodeDecodeError:
        raise BadTable(f"line {reader.line_num + 1} is not UTF-8: write the file in UTF-8") from None


def _read(file: BinaryIO, word: str, delimiter: str) -> Tuple[str, Dict[Text, int], Dict[Text, int]]:
    """The name of the column that a word names, of CSV with a heading, how many rows have each text, and the first row that has it.
    None is the text of a row without one."""
    rows: Dict[Text, int] = {}
    firsts: Dict[Text, int] = {}
    read_rows = rows_of(file, delimiter)
    names: List[str] = next(read_rows, [])
    place = place_of(names, word)
    for number, fields in enumerate(read_rows, 2):
        text = fields[place] if place < len(fields) else None
        if text in rows:
            rows[text] += 1
        else:
            rows[text], firsts[text] = 1, number
    return names[place], rows, firsts


def page_of(registry: Registry, file: BinaryIO, name: str, word: str, delimiter: str, most: int) -> str:
    """The page about a column, by its name or else its number from 1, of CSV in UTF-8 in a file with a name. Raises NoColumn, BadTable."""
    column, rows, firsts = _read(file, word, delimiter)
    tables = Tables(rows, firsts, answers_of(registry, rows), most)
    tags = tables.answers.tags
    all_rows = sum(rows.values())

    def share(tag: Group) -> str:
        return (f'<tr><th scope="row" class="text">{shown(tag.answer)}</th>{cell(tag.rows)}<td class="share">'
                f'{tag.rows / all_rows:.1%}<div style="width: {tag.rows / tags[0].rows:.1%}"></div></td></tr>')

    return document(
        f"Language tags of the column {escaped(column[:LONGEST])}",
        f"<h1>Language tags of the column {shown(column)}</h1>\n" + tables.verdict() + tables.refused(Advice(registry).of) + tables.faults()
        + tables.summary("What became of the rows below the heading")
        + tables.section("The most frequent tags", "Canonical tags by the rows that have them, with a bar for each",
                         ["Canonical tag", "#Rows", "Of all rows"], tags, share)
        + tables.became_one()
        + tables.joined("Other tags that changed", "Canonical tags that one other text became",
                        [tag for tag in tags if len(tag.texts) == 1 and tag.texts[0] != tag.answer])
        + facts_of(registry)
        + f"<h2>About this page</h2>\n<p>It was made on {time.strftime('%Y-%m-%d')} of {shown(name)} by bcp47 {__version__}. "
        "Rows have the numbers that a spreadsheet shows: 1 is the heading. Where no field has a "
        f"line break, they are the lines of the file. Each table keeps {tables.most:,} at most.</p>\n")
