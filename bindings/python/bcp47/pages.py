# SPDX-License-Identifier: MIT OR Apache-2.0
"""What a report is made of: its style, which langtag.html has too, texts that are shown as text, and tables of what became of many texts."""
from __future__ import annotations

import html
import operator
import re
from typing import Callable, Dict, List, NamedTuple, Optional, Sequence, TypeVar

from . import Fault, Registry

LONGEST = 200
HELPS = {fault.value: fault.help for fault in Fault}
HELPS["NoColumn"] = "The row has too few fields: name another column, or mend the row."
STYLE = """
:root {--ink: #1a1a1a; --page: #fff; --line: #999; --bar: #2b6cb0}
@media screen {:root {color-scheme: light dark}}
@media screen and (prefers-color-scheme: dark) {:root {--ink: #e8e8e8; --page: #161616; --line: #777; --bar: #6ea8e0}}
body {background: var(--page); color: var(--ink); font: 1rem/1.5 system-ui, sans-serif; margin: 2rem auto; max-width: 60rem;
  padding: 0 1rem}
h1, h2, h3 {line-height: 1.2; margin: 1.5rem 0 .5rem; break-after: avoid}
h2 {margin-top: 2rem}
h1, h3, dd {overflow-wrap: anywhere}
dl {display: grid; grid-template-columns: max-content 1fr; gap: 0 1rem}
dt {grid-column: 1}
dd {grid-column: 2; margin: 0}
.wide {overflow-x: auto}
table {border-collapse: collapse; width: 100%}
caption {max-width: calc(100vw - 2rem); padding: .5rem 0; text-align: left}
th, td {border-top: 1px solid var(--line); padding: .3rem 1rem .3rem 0; text-align: left; vertical-align: top}
th:last-child, td:last-child {padding-right: 0}
tr {break-inside: avoid}
bdi {border: 1px dotted var(--line); font-family: ui-monospace, monospace; overflow-wrap: anywhere; white-space: break-spaces}
.text {min-width: 8rem}
.number {font-variant-numeric: tabular-nums; text-align: right}
td.number {white-space: nowrap}
.sentence {min-width: 16rem}
.share {width: 50%}
.share div {border-top: .8rem solid var(--bar); min-width: 1px}
:focus-visible {outline: 3px solid var(--bar); outline-offset: 2px}
@media screen and (max-width: 60rem) {.wide {background:
  linear-gradient(to left, var(--page) 50%, transparent) right / 2rem calc(100% + 1px) no-repeat local,
  linear-gradient(to left, var(--line), transparent) right / .5rem 100% no-repeat}}
@media (max-width: 30rem) {th, td {padding-right: .6rem} .text {min-width: 5rem}}
@media print {body {margin: 0; max-width: none} .wide {overflow: visible}}
"""
_NUMBER = ' class="number"'
Text = Optional[str]
One = TypeVar("One")


class Group(NamedTuple):
    """Texts with one answer, which is a canonical tag or the name of a fault, in the order of their first rows."""

    answer: str
    rows: int
    texts: List[Text]


class Answers(NamedTuple):
    """What became of texts: the canonical tag of each, or why there is none, as "BadByte 1", and groups by tags and by faults."""

    canonical: Dict[Text, str]
    why: Dict[Text, str]
    tags: List[Group]
    faults: List[Group]


def _grouped(answers: Dict[Text, str], rows: Dict[Text, int]) -> List[Group]:
    """The groups of texts, those with the most rows first, and of equal ones that with the first row."""
    groups: Dict[str, List[Text]] = {}
    for text, answer in answers.items():
        groups.setdefault(answer, []).append(text)
    found = [Group(answer, sum(rows[text] for text in texts), texts) for answer, texts in groups.items()]
    return sorted(found, key=operator.attrgetter("rows"), reverse=True)


def answers_of(registry: Registry, rows: Dict[Text, int]) -> Answers:
    """What becomes of each text, by a registry."""
    texts = list(rows)
    tags, whys = registry.canonical_columns(texts)
    canonical = {text: tag for text, tag in zip(texts, tags) if tag is not None}
    why = {text: why or "NoColumn" for text, why in zip(texts, whys) if text not in canonical}
    return Answers(canonical, why, _grouped(canonical, rows), _grouped({text: it.split()[0] for text, it in why.items()}, rows))


def escaped(text: str) -> str:
    """A text for HTML: what can't be printed is a backslash and a number."""
    return html.escape("".join(it if it.isprintable() else ascii(it)[1:-1] for it in text))


def breaking(name: str) -> str:
    """A name such as BadByte, which can be broken between its words."""
    return re.sub("(?<=[a-z])(?=[A-Z])", "<wbr/>", name)


def shown(text: Text) -> str:
    """A text that was given, which is of no language. What is longer than most texts is cut."""
    if not text:
        return "<i>empty</i>"
    more = f" … ({len(text):,} characters)" if len(text) > LONGEST else ""
    return f'<bdi lang="" translate="no">{escaped(text[:LONGEST])}</bdi>{more}'


def cell(number: int, words: str = "") -> str:
    """A cell with how many there are."""
    return f"<td{_NUMBER}{words}>{number:,}</td>"


def numbered(number: int) -> str:
    """A cell with the number that a row has."""
    return f"<td{_NUMBER}>{number}</td>"


def table(caption: str, heads: Sequence[str], bodies: Sequence[str]) -> str:
    """A table; a head that begins with # is above numbers."""
    marked = "".join(f'<th scope="col"{_NUMBER}>{it[1:]}</th>' if it[0] == "#" else f'<th scope="col">{it}</th>' for it in heads)
    return (f'<div class="wide" role="region" aria-label="{caption}" tabindex="0">\n<table>\n<caption>{caption}</caption>\n'
            f"<thead><tr>{marked}</tr></thead>\n" + "\n".join(bodies) + "\n</table>\n</div>\n")


def document(title: str, body: str) -> str:
    """A page, which is well-formed as XML too. What is loaded, or runs, is none of it."""
    return ('<!DOCTYPE html>\n<html lang="en">\n<head>\n<meta charset="utf-8"/>\n'
            """<meta http-equiv="Content-Security-Policy" content="default-src 'none'; style-src 'unsafe-inline'"/>\n"""
            f'<meta name="viewport" content="width=device-width, initial-scale=1"/>\n<title>{title}</title>\n'
            f"<style>{STYLE}</style>\n</head>\n<body>\n<main>\n{body}</main>\n</body>\n</html>\n")


def facts_of(registry: Registry) -> str:
    """Which registry it is."""
    info = registry.info
    return (f"<h2>Registry</h2>\n<dl><dt>File-Date</dt><dd>{info.file_date or 'none'}</dd><dt>Entries</dt><dd>{info.entries:,}</dd>"
            f"<dt>SHA-256</dt><dd>{info.sha256}</dd></dl>\n")


class Tables(NamedTuple):
    """Tables about what became of the texts of rows."""

    rows: Dict[Text, int]  # how many have each text; None is the text of a row without one
    firsts: Dict[Text, int]  # the number of the first that has it
    answers: Answers
    most: int  # rows of a table that are kept

    def section(self, title: str, caption: str, heads: List[str], those: List[One], body: Callable[[One], str]) -> str:
        """A heading and a table with a body for each of the first, with how many more there are."""
        if not those:
            return f"<h2>{title}</h2>\n<p>There are none.</p>\n"
        more = f"<p>{len(those) - self.most:,} more are not shown.</p>\n" if len(those) > self.most else ""
        return f"<h2>{title}</h2>\n{table(caption, heads, [body(one) for one in those[:self.most]])}{more}"

    def verdict(self) -> str:
        """In a sentence, how many rows changed and how many are refused."""
        of_all, of_tags = sum(self.rows.values()), sum(tag.rows for tag in self.answers.tags)
        changed = of_tags - sum(self.rows.get(tag.answer, 0) for tag in self.answers.tags)

        def counted(rows: int) -> str:
            return f"<strong>{rows:,}</strong> ({rows / max(of_all, 1):.1%})"

        return (f"<p>Of {of_all:,} rows, {counted(changed)} changed, and {counted(of_all - of_tags)} need a look, since their "
                "tag is refused.</p>\n")

    def refused(self, advice: Callable[[str], Optional[str]]) -> str:
        """Each text that is refused, with what to write for it by this advice, or else what to do about its fault."""
        def body(text: Text) -> str:
            why = self.answers.why[text]
            written = advice(text) if text else None
            said = shown(written) if written else html.escape(HELPS[why.split()[0]])
            return (f'<tr><th scope="row" class="text">{shown(text)}</th>{cell(self.rows[text])}{numbered(self.firsts[text])}'
                    f'<td>{breaking(why)}</td><td class="sentence">{said}</td></tr>')

        heads = ["Text", "#Rows", "#First row", "Fault, and the subtag", "What to write"]
        texts = sorted(self.answers.why, key=lambda text: -self.rows[text])
        return self.section("Refused texts", "Rows that need a look, by their text", heads, texts, body)

    def summary(self, caption: str) -> str:
        """What became of the rows. A tag stays where it is canonical."""
        rows, tags = self.rows, self.answers.tags
        stays = [tag.answer for tag in tags if tag.answer in rows]
        of_stays, of_tags, of_all = sum(rows[text] for text in stays), sum(tag.rows for tag in tags), sum(rows.values())
        before, distinct = sum(len(tag.texts) for tag in tags), len(rows) - (None in rows)
        kinds = [("The tag stays", of_stays, len(stays)), ("The tag is made canonical", of_tags - of_stays, before - len(stays)),
                 ("The tag is refused", of_all - of_tags, distinct - before), ("All rows read", of_all, distinct)]
        bodies = [f'<tr><th scope="row">{name}</th>{cell(count)}{cell(texts)}</tr>' for name, count, texts in kinds]
        return ("<h2>Rows</h2>\n" + table(caption, ["Rows", "#How many", "#Distinct texts"], bodies)
                + f"<p>Distinct tags that are not refused: {before:,} before, {len(tags):,} after.</p>\n")

    def faults(self) -> str:
        """Each fault with the first text that has it."""
        def body(fault: Group) -> str:
            first = fault.texts[0]
            return (f'<tr><th scope="row">{breaking(fault.answer)}</th>{cell(fault.rows)}{numbered(self.firsts[first])}'
                    f'<td class="text">{shown(first)}</td><td class="sentence">{html.escape(HELPS[fault.answer])}</td></tr>')

        heads = ["Fault", "#Rows", "#First row", "Example", "What to do"]
        return self.section("Faults", "Rows that are refused, by the fault", heads, self.answers.faults, body)

    def joined(self, title: str, caption: str, tags: List[Group]) -> str:
        """Canonical tags, each with the texts that became it."""
        heads = ["Canonical tag", "#Rows", "Text before", "#Its rows"]
        return self.section(title, caption, heads, tags, self._joined)

    def became_one(self) -> str:
        """The canonical tags that several texts became."""
        return self.joined("Tags that became one", "Canonical tags that two or more texts became",
                           [tag for tag in self.answers.tags if len(tag.texts) > 1])

    def _joined(self, tag: Group) -> str:
        """A canonical tag with the texts that became it, each in a row."""
        texts = sorted(tag.texts, key=lambda text: -self.rows[text])
        cells = [f'<td class="text">{shown(text)}</td>{cell(self.rows[text])}' for text in texts[:self.most]]
        if len(texts) > self.most:
            rest = texts[self.most:]
            cells.append(f"<td>{len(rest):,} more</td>{cell(sum(self.rows[text] for text in rest))}")
        span = f' rowspan="{len(cells)}"'
        head = f'<th scope="rowgroup" class="text"{span}>{shown(tag.answer)}</th>{cell(tag.rows, span)}'
        return f"<tbody><tr>{head}" + "</tr>\n<tr>".join(cells) + "</tr></tbody>"
