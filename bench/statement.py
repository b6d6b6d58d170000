#!/usr/bin/env python3
"""Counts the statement: every definition that the clauses of the headline reach, and so all that has to be believed.

Usage: bench/statement.py [--most N] [--list] [--docs] [--text] [--root FOLDER]

It starts at the clauses of the table of docs/PROVED.md (HEADLINE below) and follows each name: definitions in crates/*/specs/**/*.antt, and
in crates/*/src the enums, structs, views (`impl Model`) and traits that they speak of. Of a type with a view the view counts,
and not the private fields, nor an invariant on these alone; what a variant of an enum holds is followed only if a definition looks at it. What std defines is not
counted. A line counts unless it is blank, a comment, a `use`, an attribute or a closing bracket alone.

It prints each file with the lines reached, and their sum, and how many tokens they have, so that lines that are joined gain
nothing. With --list it prints each definition too. It ends with 1 if a
definition is reached that is in an inner file (specs/inner/), or if the sum is above N (700); with --docs also if README.md
doesn't give the sum, docs/READING.md doesn't name a definition, or its table of notation doesn't have a name of std that a
definition uses.

With --text it prints one page in place of that: each definition with its file and its comment, in the order in which
docs/READING.md names them, under its headings.
"""

import argparse
import re
import sys
from pathlib import Path

ROOT = Path(__file__).resolve().parent.parent

# A public call and its clauses. The table of docs/PROVED.md names the same.
HEADLINE = [
    ("new", ["value", "passes", "rejects"], "Checked"),
    ("canonical", ["ok", "repeats"]),
    ("canonical_text", ["written", "repeats"]),
    ("canonical_forms", ["canonical", "twice", "text_twice", "equal_texts"]),
]

TOKENS = re.compile(r"[\w.']+|[^\w\s]")
SEPARATORS = re.compile(r"[\s(){}\[\],;]+")


def is_counted(line):
    text = line.strip()
    if not text or text.startswith(("--", "//", "use ", "ghost use ", "#[", "#![")):
        return False
    return re.search(r"\w", text) is not None


def without_private_invariant(model):
    """A view without an invariant over fields that it doesn't show, which is of the type's own code alone."""
    view = re.search(r"ghost view = \{(.*)\};", model.text())
    invariant = re.search(r"ghost invariant = \{(.*)\};", model.text())
    fields = [set(re.findall(r"(?<![\w.])[a-z]\.(\w+)", match.group(1))) for match in (view, invariant) if match]
    if len(fields) == 2 and fields[1] - fields[0]:
        model.lines = [line for line in model.lines if "ghost invariant" not in line]
    return model


def is_enum(item):
    return re.match(r"\s*(pub(\(\w+\))? )?enum ", item.lines[0]) is not None


def is_looked_at(variant, text):
    """Whether an equation takes what the variant holds and uses it."""
    for match in re.finditer(r"\(\w+\." + variant + r" ([^()]+)\)(.*(?:\n .*)*)", text):
        rest = match.group(2)
        if any(re.search(r"(?<!\w)" + re.escape(name) + r"(?!\w)", rest) for name in match.group(1).split()):
            return True
    return False


def tokens(text):
    """The names of a text, each with its path: `kinds.Language` gives ("kinds", "Language")."""
    for word in SEPARATORS.split(text):
        word = word.strip("⊎×→¬↔")
        if not word:
            continue
        if word.startswith("λ"):
            word = word[1:]
        parts = word.split(".")
        if parts[0]:
            yield parts


class Item:
    """A definition: its file, its lines, and the text whose names are followed."""

    def __init__(self, path, name, line):
        self.path, self.name, self.first = path, name, line
        self.lines = []
        self.bound = set()

    def text(self):
        """The lines without comments and imports."""
        comment = "--" if self.path.suffix == ".antt" else "//"
        return "\n".join(line.split(comment)[0] for line in self.lines if not line.strip().startswith("ghost use "))

    def count(self):
        return sum(1 for line in self.lines if is_counted(line))

    def tokens(self):
        """How many names, numbers and signs the lines that count have."""
        return sum(len(TOKENS.findall(line)) for line in self.text().splitlines() if is_counted(line))


class Spec:
    """A file of definitions."""

    HEAD = re.compile(r"^(?:(abbrev|unfoldable) )?(?:pub )?(?:(record|data) )?(\S+)")

    def __init__(self, path):
        self.path = path
        self.imports, self.modules = {}, {}
        self.items, self.owners = {}, {}
        item = None
        for number, line in enumerate(path.read_text(encoding="utf-8").splitlines(), 1):
            if not line.strip() or line.startswith("--"):
                continue
            if line.startswith("use "):
                read_use(line, self.imports, self.modules)
            elif line.startswith("pub mod ") or line.startswith("mod "):
                continue
            elif line[0] != " ":
                kind, shape, name = self.HEAD.match(line).groups()
                if kind or shape or line.startswith("pub "):
                    item = self.items.setdefault(name, Item(path, name, number))
                    item.shape = shape or "def"
                item.lines.append(line)
            else:
                item.lines.append(line)
        for item in self.items.values():
            self.bind(item)

    def bind(self, item):
        """Names that the definition binds itself, and the constructors of a `data`."""
        text = item.text()
        for names in re.findall(r"[({]([^(){}:]+) :", text):
            item.bound.update(names.split())
        for names in re.findall(r"λ ([^.]+)\.", text):
            item.bound.update(re.sub(r"[()]", " ", names.split(":")[0]).split())
        if item.shape == "record":
            item.bound.update(re.findall(r"^\s+pub (\S+) :", text, re.M))
        if item.shape == "data":
            for name in re.findall(r"^\s+(\S+) :", text, re.M):
                self.owners[name] = item
                item.bound.add(name)
        if item.shape == "def":
            for line in item.lines:
                if line.startswith(item.name + " ") and "=" in line:
                    for word in tokens(line.partition("=")[0]):
                        if len(word) == 1 and word[0][0].islower() and word[0] not in self.imports:
                            item.bound.add(word[0])


def read_use(line, imports, modules):
    """`use M.{a, b}` and `use M as n`."""
    text = re.sub(r"^(ghost )?use ", "", line.strip()).rstrip(";").strip()
    braces = re.match(r"(\S+)\.\{(.*)\}$", text)
    if braces:
        for name in braces.group(2).split(","):
            name, _, alias = name.strip().partition(" as ")
            imports[alias or name] = (braces.group(1), name)
        return
    alias = re.match(r"(\S+) as (\S+)$", text)
    if alias:
        modules[alias.group(2)] = alias.group(1)
        return
    modules[text.rpartition(".")[2]] = text


class Source:
    """A file of a crate's sources: its types, traits, views and functions."""

    HEAD = re.compile(r"^(\s*)(?:pub(?:\([a-z]+\))? )?(enum|struct|trait|impl|fn) ?(.*)$")

    def __init__(self, path, crate):
        self.path, self.crate = path, crate
        self.imports, self.modules, self.uses = {}, {}, {}
        self.types, self.models, self.traits, self.functions = {}, {}, {}, {}
        lines = path.read_text(encoding="utf-8").splitlines()
        text = "\n".join(lines)
        for group in re.findall(r"^use ([^;]+);", text, re.M):
            self.read_rust_use(re.sub(r"\s+", " ", group))
        for line in lines:
            if line.strip().startswith("ghost use "):
                read_use(line, self.imports, self.modules)
        self.read_items(lines)

    def read_rust_use(self, group):
        braces = re.match(r"(\S+)::\{(.*)\}$", group)
        names = braces.group(2).split(",") if braces else [group.rpartition("::")[2]]
        path = braces.group(1) if braces else group.rpartition("::")[0]
        crate = path.split("::")[0]
        for name in names:
            name = name.strip().rpartition("::")[2]
            if name:
                self.uses[name] = self.crate if crate in ("crate", "super", "self") else crate

    def read_items(self, lines):
        at, owner, owner_end = 0, None, -1
        while at < len(lines):
            head = self.HEAD.match(lines[at])
            if not head or lines[at].strip().startswith("//"):
                at += 1
                continue
            indent, kind, rest = head.groups()
            if kind == "fn":
                end = self.end_of_contract(lines, at)
            else:
                end = self.end_of_block(lines, at, len(indent))
            name = re.match(r"\w*", rest).group()
            item = Item(self.path, name, at + 1)
            item.lines = lines[at:end + 1]
            if kind in ("enum", "struct"):
                self.types[name] = item
                at = end + 1
            elif kind == "trait":
                self.traits[name] = item
                at = end + 1
            elif kind == "impl":
                model = re.search(r"Model for (\w+)", rest)
                if model:
                    item.name = model.group(1)
                    self.models[model.group(1)] = item
                    at = end + 1
                else:
                    target = re.search(r"(?:for )?(\w+)(?:<[^{]*>)? \{", rest)
                    owner, owner_end = (target.group(1) if target else None), end
                    at += 1
            else:
                item.owner = owner if at <= owner_end else None
                self.functions.setdefault(name, []).append(item)
                at = end + 1

    @staticmethod
    def end_of_block(lines, at, indent):
        if lines[at].rstrip().endswith((";", "{}", "}")):
            return at
        for end in range(at + 1, len(lines)):
            if lines[end].startswith(" " * indent + "}"):
                return end
        return len(lines) - 1

    @staticmethod
    def end_of_contract(lines, at):
        indent = len(lines[at]) - len(lines[at].lstrip())
        for end in range(at, len(lines)):
            line = lines[end]
            if line.startswith(" " * indent + "{") or line.rstrip().endswith(";"):
                return end if line.rstrip().endswith(";") else end - 1
            if line.rstrip().endswith("{") and end == at:
                return end
        return len(lines) - 1


class Tree:
    def __init__(self, root=ROOT):
        self.specs, self.sources = {}, {}
        for crate in sorted(path for path in (root / "crates").iterdir() if path.is_dir()):
            for path in sorted((crate / "specs").rglob("*.antt")):
                module = ".".join(path.relative_to(crate).with_suffix("").parts)
                self.specs[f"Rattle.{crate.name}.{module}"] = Spec(path)
            self.sources[crate.name] = [Source(path, crate.name) for path in sorted((crate / "src").rglob("*.rt"))]
        self.reached = {}
        self.queue = []

    def reach(self, item, scope):
        if item is not None and id(item) not in self.reached:
            self.reached[id(item)] = item
            self.queue.append((item, scope))

    def follow(self):
        """Follows each name; at last what the variants of enums hold, which further definitions may look at."""
        enums = []
        while self.queue:
            while self.queue:
                item, scope = self.queue.pop()
                if is_enum(item):
                    enums.append((item, scope))
                else:
                    self.follow_text(item.text(), scope, item)
            for item, scope in enums:
                self.follow_payloads(item, scope)

    def follow_payloads(self, item, scope):
        text = "\n".join(other.text() for other in self.reached.values() if other.path.suffix == ".antt")
        for line in item.lines:
            variant = re.match(r"\s+(\w+)\((.*)\),", line)
            if variant and is_looked_at(variant.group(1), text):
                self.follow_text(variant.group(2), scope, item)

    def follow_text(self, text, scope, item):
        for parts in tokens(text):
            name = parts[0]
            if isinstance(scope, Spec):
                self.follow_spec_name(parts, scope, item)
            else:
                self.follow_source_name(parts, scope)
        if isinstance(scope, Source):
            for name in set(re.findall(r"\b[A-Z]\w*", without_error(text))):
                self.follow_type(name, scope)

    def follow_spec_name(self, parts, spec, item):
        name = parts[0]
        if name in item.bound:
            return
        if name in spec.modules:
            self.reach_path(spec.modules[name], parts[1] if len(parts) > 1 else None)
        elif name in spec.items:
            self.reach(spec.items[name], spec)
        elif name in spec.owners:
            self.reach(spec.owners[name], spec)
        elif name in spec.imports:
            self.reach_path(*spec.imports[name])

    def follow_source_name(self, parts, source):
        name = parts[0]
        if name in source.modules:
            self.reach_path(source.modules[name], parts[1] if len(parts) > 1 else None)
        elif name in source.imports:
            self.reach_path(*source.imports[name])

    def follow_type(self, name, source):
        crate = source.uses.get(name, source.crate)
        self.reach_type(crate, name)

    def reach_type(self, crate, name):
        sources = self.sources.get(crate, [])
        models = [source for source in sources if name in source.models]
        for source in models:
            self.reach(without_private_invariant(source.models[name]), source)
            self.reach_fields(source.models[name], source.types.get(name), source)
        for source in sources:
            if name in source.types and not models:
                self.reach(source.types[name], source)
            if name in source.traits:
                self.reach(source.traits[name], source)

    def reach_fields(self, model, fields, source):
        """The types of the fields that a view shows, which have views of their own."""
        view = re.search(r"ghost view = (.*)", model.text())
        for line in fields.lines if fields and view else []:
            field = re.match(r"\s+(?:pub )?(\w+): (.*),", line)
            if field and f".{field.group(1)}" in view.group(1):
                for name in re.findall(r"\b[A-Z]\w*", field.group(2)):
                    if name not in (item.name for item in self.reached.values() if item.path.suffix == ".rt"):
                        self.follow_type(name, source)

    def reach_path(self, module, name):
        """What an import names: a definition, a constructor, or a type that a source declares."""
        declared = re.match(r"Rattle\.(\w+)\.specs\.declared\.(.*)$", module)
        if declared:
            crate, path = declared.groups()
            parts = [part for part in path.split(".") if part != "TheVariants"]
            self.reach_type(crate, parts[-1])
            return
        spec = self.specs.get(module)
        if spec is None or name is None:
            return
        self.reach(spec.items.get(name) or spec.owners.get(name), spec)

    def clauses(self, call, names, owner=None):
        """The clauses of a public function, as items."""
        for sources in self.sources.values():
            for source in sources:
                for item in source.functions.get(call, []):
                    if item.owner == owner and re.match(r"\s*pub fn", item.lines[0]):
                        self.reach(chosen(item, names), source)
                        return
        raise SystemExit(f"no public function {call}")


def without_error(text):
    """The text without the error type of a function's result, which counts only where a clause looks at the error."""
    if re.search(r"ensures .*\bIfErr\b", text):
        return text
    return re.sub(r"-> Result<(.*), [^,]*>$", r"-> \1", text, flags=re.M)


def chosen(item, names):
    """A function with those of its clauses alone that are named."""
    kept, found, keeps = [], set(), True
    for line in item.lines:
        clause = re.match(r"\s*(requires|ensures)\*? ?(\w*)", line)
        if clause:
            keeps = clause.group(1) == "requires" or clause.group(2) in names
            if clause.group(1) == "ensures":
                found.add(clause.group(2))
        if keeps:
            kept.append(line)
    missing = [name for name in names if name not in found]
    if missing:
        raise SystemExit(f"{item.path}: {item.name} has no clause {', '.join(missing)}")
    item.lines = kept
    return item


def statement(root, headline):
    """All that the clauses of the headline reach."""
    tree = Tree(root)
    for entry in headline:
        tree.clauses(entry[0], entry[1], *entry[2:])
    tree.follow()
    return tree


def main(arguments=None, headline=HEADLINE):
    parser = argparse.ArgumentParser(description="Counts the statement: all that has to be believed.")
    parser.add_argument("--most", type=int, default=700, help="the most lines allowed")
    parser.add_argument("--list", action="store_true", help="print each definition")
    parser.add_argument("--docs", action="store_true", help="compare with README.md and docs/READING.md")
    parser.add_argument("--text", action="store_true", help="print the definitions as one page")
    parser.add_argument("--root", type=Path, default=ROOT, help="the repository")
    words = parser.parse_args(arguments)
    root = words.root

    tree = statement(root, headline)
    items = list(tree.reached.values())
    if words.text:
        print_text(root, items)
        return 0

    files = {}
    for item in items:
        files.setdefault(item.path, []).append(item)
    total, failed = 0, False
    tokens_of_all = sum(item.tokens() for item in items)
    for path in sorted(files):
        items = sorted(files[path], key=lambda item: item.first)
        count = sum(item.count() for item in items)
        total += count
        name = path.relative_to(root)
        inner = "inner" in path.parts
        failed = failed or inner
        print(f"{count:5} {name}" + ("  INNER" if inner else ""))
        if words.list:
            for item in items:
                print(f"      {item.count():3} {item.name} ({item.first})")
    print(f"{total} lines, {tokens_of_all:,} tokens, of {len(tree.reached)} definitions in {len(files)} files")
    if total > words.most:
        print(f"more than {words.most}")
        failed = True
    if words.docs:
        failed = not agrees_with_docs(root, total, tree) or failed
    return 1 if failed else 0


def agrees_with_docs(root, total, tree):
    """Whether README gives the sum, and READING.md names each definition, and each name of std that they use."""
    agrees = f"{total:,} lines" in (root / "README.md").read_text(encoding="utf-8")
    if not agrees:
        print("README.md gives another number")
    reading = Reading(root)
    items = [item for item in tree.reached.values() if item.path.suffix == ".antt"]
    missing = sorted({item.name for item in items if item.name not in reading.places})
    if missing:
        print(f"docs/READING.md doesn't name {', '.join(missing)}")
    unknown = sorted(name for name in std_names(tree) if not reading.explains(name))
    if unknown:
        print(f"docs/READING.md, 'Notation', doesn't have {', '.join(unknown)}")
    return agrees and not missing and not unknown


def std_names(tree):
    """The names of std that the definitions use, an operator as `◌≡◌`."""
    scopes = {spec.path: spec for spec in tree.specs.values()}
    for sources in tree.sources.values():
        scopes.update((source.path, source) for source in sources)
    found = set()
    for item in tree.reached.values():
        scope = scopes[item.path]
        used = {word for parts in tokens(item.text()) for word in (*parts, ".".join(parts))}
        used.update(re.sub(r"[(){},;]", " ", item.text()).split())
        for name, (module, _) in scope.imports.items():
            if module.startswith("Rattle.std.") and all(part in used for part in name.split("◌") if part):
                found.add(name)
    return found


class Reading:
    """docs/READING.md: its headings, and where it names what."""

    NAMES = re.compile(r"[\w◌]+")

    def __init__(self, root):
        text = (root / "docs/READING.md").read_text(encoding="utf-8")
        legend, _, rest = text.partition("\n## 1.")
        self.legend = {part for span in re.findall(r"`([^`]+)`", legend) for part in re.split(r"[\s(){};,]+", span)}
        self.headings, self.places = [], {}
        for number, section in enumerate(re.split(r"^## ", "\n## 1." + rest, flags=re.M)[1:]):
            self.headings.append(section.partition("\n")[0])
            for match in re.finditer(r"`([^`]+)`", section):
                for name in self.NAMES.findall(match.group(1)):
                    self.places.setdefault(name, (number, match.start()))

    def explains(self, name):
        return all(part in self.legend for part in name.split("◌") if part)


def comment_above(item, lines):
    """The comment right above a definition; of a doc comment the first paragraph."""
    mark = "--" if item.path.suffix == ".antt" else "//"
    first = item.first - 1
    while first > 0 and lines[first - 1].strip().startswith((mark, "#[")):
        first -= 1
    comment = [line for line in lines[first:item.first - 1] if line.strip().startswith(mark)]
    ends = [at for at, line in enumerate(comment) if line.strip() == "///"]
    return comment[:ends[0]] if ends else comment


def print_text(root, items):
    """Each definition with its file and its comment, in the order of READING.md."""
    reading = Reading(root)
    last = (len(reading.headings) - 1, sys.maxsize)
    order = sorted(items, key=lambda item: (reading.places.get(item.name, last), str(item.path), item.first))
    total = sum(item.count() for item in items)
    print(f"# The statement: {total} lines of {len(items)} definitions\n")
    print("In the order of docs/READING.md, which explains them.")
    heading, path = None, None
    for item in order:
        number = reading.places.get(item.name, last)[0]
        if number != heading:
            heading, path = number, None
            print(f"\n## {reading.headings[number]}")
        if item.path != path:
            path = item.path
            print(f"\n`{path.relative_to(root)}`")
        lines = path.read_text(encoding="utf-8").splitlines()
        print()
        shown = [line for line in item.lines if line.strip() and not line.strip().startswith(("#[", "ghost use "))]
        for line in comment_above(item, lines) + shown:
            print(f"    {line}")


if __name__ == "__main__":
    sys.exit(main())
