"""What the verdict on a must-fail edit depends on, as a sum: tests/edits.judged keeps verdicts by it.

The sum is over the kit's logic, the edit, its function as it stands, and what these name in the crate and those below it: heads of
functions with their clauses, types with what their traits promise, constants, traits, definitions of specs/; and what each of those
names in turn. An edit outside of all bodies depends on the whole source of its crate. Comments, layout, imports, other bodies, lemmas
and proof files are left out: by none of them can a body be proved that breaks its contract. Only the doc comments of a type with
`derive(Error)` count, since the macro takes them as tokens. Of a name all meanings count.
"""

import collections
import hashlib
import json
import os
import re
import subprocess

# Raised where verdicts come to mean something else, so that all edits are judged again; what stands before names of items, of definitions.
MEANING = "1"
ITEMS = ("struct", "enum", "const", "static", "type", "trait", "macro_rules")
MARKS = ("unfoldable", "pub", "abbrev", "opaque", "record", "data")
WORD = re.compile(r"[\w'-]+")


def digest(*parts):
    return hashlib.sha256("\0".join(parts).encode()).hexdigest()[:16]


def written(rows):
    return " ".join(row[4] for row in rows)


def parts_of(name):
    """The words of a definition's name or of a path: `◌∷◌` is written as `∷`."""
    return [it for it in re.split("[.◌]", name) if it]


def names_in(rows, owner=""):
    """The names in tokens: of types and definitions, and of calls as `f()`, `.f()` and `Type::f()`."""
    found, last = set(), ["", "", ""]
    for *_, kind, text in rows:
        if kind == "Antt":
            found.update(parts_of(text))
        elif WORD.fullmatch(text):
            found |= {text, text + "()"}
            if last[2] == "." or last[1:] == [":", ":"]:
                # (of a type parameter it may be any method of the name)
                of = "" if last[2] == "." or len(last[0]) < 2 else owner if last[0] == "Self" else last[0]
                found.add("%s::%s()" % (of, text) if of else ".%s()" % text)
        last = [*last[1:], text]
    return found


def source_of(rtlib, bodies, crate):
    """A crate's functions, as rt plant reads them, and the tokens of its files, by one call of rattle."""
    files = sorted(os.path.relpath(it, crate.folder) for it in rtlib.files_of(crate.folder) if re.search(r"\.rt$|/specs/.*\.antt$", it))
    words = [rtlib.RATTLE, "fmt", "--tokens", *(os.path.join(crate.folder, it) for it in files)]
    said = subprocess.run(words, capture_output=True, encoding="utf-8", check=True).stdout
    rows, texts, source = {}, {}, bodies.Source(crate.folder)
    for file, part in zip(files, re.split(r"(?m)^file \d+\n", said)[1:]):
        found = (line.split(" ", 4) for line in part.split("\n") if line)
        rows[file] = [(int(line), int(first), int(end), kind, json.loads(text)) for line, first, end, kind, text in found]
        with open(os.path.join(crate.folder, file), "rb") as it:
            texts[file] = it.read()
    source.rows, source.texts, source.tokens = rows, texts, lambda file: (rows[file], texts[file])
    source.read("src/main.rt" if crate.is_program else "src/lib.rt")
    return source


class Facts:
    """What a crate states: by each name the items of that name, as their text and the names in it."""

    def __init__(self, source):
        self.source, self.items = source, collections.defaultdict(list)
        for file, rows in source.rows.items():
            functions = [it for it in source.functions if it.file == file]
            for it in functions:
                owners = [it.owner, *it.block.trait[:1]] if it.block else []
                keys = ["%s::%s()" % (of, it.name) for of in owners] + [".%s()" % it.name] if it.block else [it.name + "()"]
                # (what a type does by a trait may be called without a name, as by ==)
                keys += [it.owner] if it.in_trait and not it.block.is_trait else []
                self.add(keys, [row for row in rows if it.first <= row[1] < it.opens], it.owner)
            self.read(file, [row for row in rows if not any(it.first <= row[1] < it.end for it in functions)])

    def add(self, keys, rows, owner=""):
        for it in keys:
            self.items[it].append((written(rows), names_in(rows, owner)))

    def read(self, file, rows):
        """Takes the items of a file that are no functions: each from a token that begins a line to the next one."""
        chunks, text, definition = [[]], self.source.texts[file], []
        for row in rows:
            begins = (row[1] == 0 or text[row[1] - 1 : row[1]] == b"\n") and row[4] not in "})]"
            # (an attribute stands before its item)
            if begins and not (chunks[-1] and chunks[-1][0][4] == "#" and chunks[-1][-1][4] == "]"):
                chunks.append([])
            chunks[-1].append(row)
        for rows in filter(None, chunks):
            words = [row[4] for row in rows]
            for name, _, other in filter(lambda it: it[1] == "as", zip(words, words[1:], words[2:])):
                self.items[other].append(("", {*parts_of(name)[-1:]}))
            if "use" in words[:4] or "mod" in words[:4] or words[:2] == ["#", "!"]:
                continue
            if file.endswith(".rt"):
                definition = keys_of_item(words)
            elif words[0] in MARKS or ":" in words[: [*words, "="].index("=")]:
                # (a signature; what follows without one are its equations)
                makes = {a for a, b in zip(words, words[1:]) if b == ":"} if "data" in words[:3] else set()
                definition = [*parts_of(next((it for it in words if it not in MARKS), "")), *makes]
            self.add(definition, rows)


def keys_of_item(words):
    """The names of a type, constant or trait, or of the type that an impl is of."""
    head = words[: next((at for at, it in enumerate(words) if it in ("{", ";")), len(words))]
    if "impl" in head[:3]:
        return [it for it in head[head.index("for") + 1 if "for" in head else 0 :] if it[:1].isupper() and len(it) > 1]
    return [b for a, b in zip(head, head[1:]) if a in ITEMS][:1] or ["(any)"]


def around(facts):
    """What can be named in a crate: the items of it and of those below."""
    items = collections.defaultdict(list)
    for name, found in (it for fact in facts for it in fact.items.items()):
        items[name] += found
    return {name: [(text, named & items.keys()) for text, named in found] for name, found in items.items()}


def reached(items, names):
    """The texts of all items to which these names lead."""
    texts, done, todo = set(), set(), {"(any)", *names} & items.keys()
    while todo:
        done.add(name := todo.pop())
        for text, named in items[name]:
            texts.add(text)
            todo |= named - done
    return texts


def sum_of(logic, source, items, edit):
    """The sum of what the verdict on an edit depends on. items: what can be named in its crate."""
    parts, names = [], set()
    changes = [line for line in edit.text.split("\n") if line.startswith(("file:", "old:", "new:"))]
    for line in changes:
        words = WORD.findall(line[4:])
        names |= {form % it for it in words for form in ("%s", "%s()")}
        names |= {".%s()" % it for it in re.findall(r"[.>:](\w+)", line[4:])} | {it + "()" for it in re.findall(r"\w+::\w+", line[4:])}
    for it in edit.functions:
        rows = [row for row in source.rows[it.file] if it.first <= row[1] < it.end]
        parts.append(written(rows))
        names |= names_in(rows, it.owner) | {"%s::%s()" % (of, it.name) for of in (it.block.trait[:1] if it.block else [])}
    for file in sorted(source.rows) if edit.is_of_others else []:
        if file.endswith(".rt"):
            parts.append(written(source.rows[file]))
            names |= names_in(source.rows[file])
    return digest(MEANING, logic, *changes, *parts, *sorted(reached(items, names)))
