#!/usr/bin/env python3
"""Runs the commands of two programs over the same made texts, and compares what they write to both outputs byte for byte, and how they
end.

Usage: same.py PROGRAM OTHER [REGISTRY [LINES]]

`canon` answers 5,000,000 lines unless a number is given, each other command that reads lines answers 20,000 in each of its ways, and
those that take tags 300 texts; `check` and `upgrade` judge 300 changed registries. All go by a registry of IANA's size unless one is
named.

The lines are tags of each kind in any case, such tags with bytes changed, dropped or doubled, lines of each length, lines that came
before, and lines that differ from those in one byte. A run of `canon` takes 250,000 of them, through a pipe, in pieces of any size. The
same come each time. Prints a line for each command, and ends with status 1 at the first line that the programs answer in two ways.
"""

import contextlib
import itertools
import random
import subprocess
import sys
import tempfile
from pathlib import Path

from make_tags import Tags, read_registry

BENCH = Path(__file__).resolve().parent
SAMPLE = BENCH.parent / "examples" / "sample-registry.txt"
LINES = 5000000
RUN = 250000
FEW = 20000
TEXTS = 300
# Bytes beside those of letters and digits, and some that no tag has.
ODD = b"@[`{/:-_ \r\t\0\x7f\x80\xc3\xff.aZ09xut"
LENGTHS = [*range(1, 70), 127, 128, 129, 1022, 1023, 1024, 1025, 1026, 1027, 1030, 3000]
CODES = b"chi|zho|zh|Chinese|chinois\nger|deu|de|German|allemand\nfre|fra|fr|French|fran\xc3\xa7ais\ngem|||Germanic|germaniques\n"
CODED = [b"ger", b"DEU", b"chi-yue", b"fre-CH", b"gem", b"Fra-x-a"]
TITLES = [b"title", b'"a title"', b'"one, two; three"', b'"two\nlines"', b'the "title"', b""]
RANGES = ["zh", "de-CH", "en-US", "yue", "ar"]


class Lines:
    def __init__(self, registry):
        self.tags = Tags(*read_registry(registry))
        self.mixed = self.tags.mixed()
        self.random = random.Random(20260103)
        self.before = [b"en"] * 5000

    def tag(self):
        return next(self.mixed).encode()

    def joined(self):
        """Parts of some tags one after another."""
        parts = [part for _ in range(self.random.randint(2, 4)) for part in self.tag().split(b"-")]
        return b"-".join(parts[self.random.randrange(3):])

    def changed(self, line):
        """A line in which a byte is another, is dropped, or comes twice."""
        place, kind = self.random.randrange(len(line) + 1), self.random.random()
        byte = bytes([self.random.choice(ODD) if kind < 0.7 else self.random.randrange(256)])
        if self.random.random() < 0.6:
            return line[:place] + byte + line[place + 1:]
        return line[:place] + line[place + 1:] if kind < 0.5 else line[:place] + byte + line[place:]

    def long(self):
        """A line of a length at which something may turn."""
        length = self.random.choice(LENGTHS)
        parts = b"-".join(self.tag() for _ in range(length // 4 + 1))
        return parts[:length]

    def line(self):
        make = self.random.choices(
            [self.tag, self.joined, lambda: self.changed(self.tag()), lambda: self.changed(self.joined()), self.long,
             lambda: self.random.choice(self.before), lambda: self.changed(self.random.choice(self.before)),
             lambda: self.random.choice(self.before).swapcase(), lambda: self.tag() + b"\r"],
            [30, 12, 16, 6, 2, 20, 6, 4, 4])[0]
        line = make().replace(b"\n", b"-")
        self.before[self.random.randrange(len(self.before))] = line
        return line

    def text(self, count):
        return b"".join(self.line() + b"\n" for _ in range(count))

    def word(self):
        """A line that can be a word of a command."""
        return self.line().replace(b"\0", b"-")

    def coded(self):
        """A line, of which some begin with a code of three letters."""
        return self.random.choice(CODED) + b"-" * self.random.randrange(2) + self.line() if self.random.random() < 0.1 else self.line()

    def rows(self, between, has_quotes):
        """A heading and rows of three fields, the second a tag; some have but one."""
        made = [between.join([b"id", b"tag", b"title"])]
        for number in range(1, FEW):
            tag, title = self.coded(), self.random.choice(TITLES)
            if has_quotes and (tag[:1] == b'"' or self.random.random() < 0.3):
                tag = b'"' + tag.replace(b'"', b'""') + b'"'
            fields = [b"%d" % number, tag, title if has_quotes else title.replace(b"\n", b" ")]
            made.append(between.join(fields[:1] if self.random.random() < 0.02 else fields))
        return b"\n".join(made)

    def registry(self):
        """The sample registry with a byte changed, or a line dropped, doubled or exchanged with the next."""
        content = SAMPLE.read_bytes()
        if self.random.random() < 0.4:
            return self.changed(content)
        lines = content.splitlines(keepends=True)
        place = self.random.randrange(len(lines) - 1)
        first, second = lines[place:place + 2]
        lines[place:place + 2] = self.random.choice([[second], [first, first, second], [second, first]])
        return b"".join(lines)


class Pair:
    """Two programs, and a folder for what they write."""

    def __init__(self, programs, folder):
        self.programs, self.folder, self.runs = programs, folder, 0

    def answers(self, program, words, pieces):
        """What a program writes to its output and of errors, and its status."""
        with open(Path(self.folder, "answers"), "w+b") as kept, open(Path(self.folder, "told"), "w+b") as told:
            run = subprocess.Popen([program, *words], stdin=subprocess.PIPE, stdout=kept, stderr=told)
            # (what is refused at once reads nothing)
            with contextlib.suppress(BrokenPipeError), run.stdin as file:
                for piece in pieces:
                    file.write(piece)
                    file.flush()
            status = run.wait()
            kept.seek(0)
            told.seek(0)
            return kept.read(), told.read(), status

    def alike(self, words, text=b""):
        """Ends at the first line that the programs answer in two ways to these words and this input, which comes in pieces of any size.
        Returns what they write."""
        pieces = list(cut(text, random.Random(self.runs)))
        ours, theirs = (self.answers(program, words, pieces) for program in self.programs)
        self.runs += 1
        if ours != theirs:
            stop(words, text, ours, theirs)
        return ours[0]


def cut(text, generator):
    """The text in pieces of any size."""
    place = 0
    while place < len(text):
        size = generator.choice([1, 30, 1000, 65536, 100000])
        yield text[place:place + size]
        place += size


def stop(words, text, ours, theirs):
    """Ends with the first line in which two answers differ, and the line of the input that has its number."""
    command = " ".join(repr(word) if isinstance(word, bytes) else str(word) for word in words)
    for our_text, their_text in zip(ours[:2], theirs[:2]):
        lines = itertools.zip_longest(our_text.split(b"\n"), their_text.split(b"\n"))
        for number, (our, their) in enumerate(lines):
            if our != their:
                read = b"".join(text.split(b"\n")[number:number + 1])
                sys.exit("same.py: %s: line %d, %r: %r and %r" % (command, number + 1, read, our, their))
    sys.exit("same.py: %s: status %d and %d" % (command, ours[2], theirs[2]))


def compare_lines(pair, lines, registry, table):
    """The commands that read lines."""
    text, coded = lines.text(FEW), b"\n".join(lines.coded() for _ in range(FEW))
    tabs, commas, semicolons = lines.rows(b"\t", False), lines.rows(b",", True), lines.rows(b";", True)
    runs = [(["canon", "--summary", registry], text), (["json", registry], text), (["codes", table, registry], coded),
            (["tsv", registry, "2"], tabs), (["tsv", "--heading", "--keep", registry, "tag"], tabs),
            (["tsv", "--codes", table, "--summary", registry, "2"], tabs),
            (["csv", registry, "2"], commas), (["csv", "--keep", registry, "tag"], commas), (["csv", registry, "tag"], commas + b'\n1,"de'),
            (["csv", "--delimiter", ";", "--codes", table, registry, "tag"], semicolons)]
    runs += [(["match", *scheme, registry, *RANGES, "*-CH"], text) for scheme in ([], ["--extended"], ["--lookup"])]
    for words, read in runs:
        if not pair.alike(words, read):
            sys.exit("same.py: %s writes nothing" % words)
    print("same: %d lines in each of %d runs of commands over lines" % (FEW, len(runs)), flush=True)
    for _ in range(TEXTS):
        ranges, few = [lines.word() for _ in range(lines.random.randint(1, 3))], lines.text(30)
        for scheme in ([], ["--extended"], ["--lookup"]):
            pair.alike(["match", *scheme, "--", registry, *ranges], few)
    print("same: match over %d short lists, each in three ways" % TEXTS, flush=True)


def compare_texts(pair, lines, registry):
    """The commands that take tags."""
    for _ in range(TEXTS):
        text, other = lines.word(), lines.word()
        pair.alike(["classify", "--", text])
        for words in (["extlang"], ["show"], ["show", "--json"]):
            pair.alike([*words, "--", registry, text])
        pair.alike(["equal", "--", registry, text, lines.random.choice([other, text.swapcase()])])
        told = pair.alike(["explain", "--", registry, text])
        for read in (told, lines.changed(told)):
            pair.alike(["verify", "--", registry, text], read)
    print("same: classify, extlang, equal, explain, verify and show of %d texts" % TEXTS, flush=True)


def compare_registries(pair, lines, registry, folder):
    """The commands that judge registries."""
    changed = Path(folder, "changed")
    pair.alike(["check", registry])
    pair.alike(["upgrade", registry, registry])
    for _ in range(TEXTS):
        changed.write_bytes(lines.registry())
        pair.alike(["check", changed])
        pair.alike(["upgrade", SAMPLE, changed])
    print("same: check and upgrade of %d registries" % TEXTS, flush=True)


def main():
    program, other, *words = sys.argv[1:]
    count = int(words[1]) if len(words) > 1 else LINES
    with tempfile.TemporaryDirectory() as folder:
        registry = words[0] if words else Path(folder, "registry")
        if not words:
            with open(registry, "wb") as file:
                subprocess.run([sys.executable, BENCH / "make_registry.py"], stdout=file, check=True)
        table = Path(folder, "table")
        table.write_bytes(CODES)
        pair, lines = Pair((program, other), folder), Lines(registry)
        for done in range(0, count, RUN):
            pair.alike(["canon", registry], lines.text(min(RUN, count - done)))
        print("same: %d lines of canon" % count, flush=True)
        compare_lines(pair, lines, registry, table)
        compare_texts(pair, lines, registry)
        compare_registries(pair, lines, registry, folder)


if __name__ == "__main__":
    main()
