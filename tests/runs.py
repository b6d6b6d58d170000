#!/usr/bin/env python3
"""Runs the built program as the files of rows tell, and compares what it writes and its statuses with what is owed.

Usage: tests/runs.py [--growths] [PROGRAM [FILE..]]

PROGRAM is build/langtag and the FILEs are tests/rows/*.txt where none is named. A run is a block of lines that an empty line ends:

    # a line of comment
    $ canon sample              the words after the program's name
    < zh-yue\\r                  a line of the input: > of the output, 2> of the errors, t> of what a terminal is told after these
    > yue
    [1]                         the status where it is not 0

What a terminal is told has a run with a terminal as the errors and one without; the line `summary` adds a run of both with
--summary. `>* TEXT` is owed as a part of the output, `2>* TEXT` as the beginning of the errors, and `usage` is that of a message and
status 3. Several lines of words are runs of each. Rows below them have a run each: `TEXT => OUTPUT [STATUS]`, where TEXT stands for `@` in the
words or the faults, or is a line of the input, and then all rows have one run more. `first TEXT => OUTPUT` goes before each. The status
of a row is 1 where its output is `different` or begins with `! `.

    pieces DEVICE N..           reads or writes at most N bytes in a call, in a run for each N; a DEVICE is input, output, errors, first or second
    fails DEVICE K, K..L        call K of a device fails, in a run for each; `none DEVICE K`: it moves no byte; `fails open K`: no memory
    front                       a beginning of the output is enough; where none is owed, of what a run without faults writes
    closed N                    descriptor N is closed
    endless TEXT                the input is TEXT again and again
    memory N                    kilobytes of address space
    growths                     with --growths each growth of memory is refused, in a run for each: the program ends as it does else,
                                or says OutOfMemory after a beginning of its output, with status 4; `growths doubled`: 1, 2, 4, 8 ..

A block can make a file in the folder of the runs of its file of rows: `file NAME [FROM]`, with the bytes of an earlier file or one of the
repository, then `| LINE` for each line, `replace OLD => NEW` for what stands there once, or `each OLD => NEW`. `count N..M LINE` is a
line for each number from N to M, which stands in it in letters for `@`, 27 as `aach`, and the next one for `@@`.

In a text \\n, \\r, \\t, \\\\ and \\xHH are bytes, \\_ is a blank, \\- nothing, \\c at the end of a line leaves out its line feed, and \\{N*TEXT}
is TEXT N times. The last line counts; the status is 1 if a run failed.
"""

import concurrent.futures
import contextlib
import dataclasses
import itertools
import os
import pty
import re
import subprocess
import sys
import tempfile
import threading
import typing
from pathlib import Path

ROOT = Path(__file__).resolve().parent.parent
SECONDS = 300
ESCAPE = re.compile(rb"\\(x[0-9A-Fa-f]{2}|.)")
BYTES = {b"n": b"\n", b"r": b"\r", b"t": b"\t", b"_": b" ", b"-": b"", b"c": b"", b"\\": b"\\"}
ROW = re.compile(r"(.*?) =>(?: (.*?))?(?: \[(\d)\])?")


def value(text):
    """The bytes that a text stands for."""
    first, *rest = re.split(r"\\\{(\d+)\*([^}]*)\}", text)
    return plain(first) + b"".join(plain(part) * int(times) + plain(then) for times, part, then in zip(rest[::3], rest[1::3], rest[2::3]))


def plain(text):
    return ESCAPE.sub(lambda it: BYTES.get(it[1]) if it[1] in BYTES else bytes([int(it[1][1:], 16)]), text.encode())


def line(text):
    """The bytes of a line."""
    return value(text) + b"\n" * (not text.endswith("\\c"))


def counted(text, number):
    """A text with a number and the next one in letters."""
    one, other = ("".join(chr(ord("a") + int(digit)) for digit in f"{it:04}") for it in (number, number + 1))
    return text.replace("@@", other).replace("@", one)


def words_of(text):
    return [value(it) for it in text.split(" ")] if text else []


class Case(typing.NamedTuple):
    """What a run is given, and what is owed."""

    words: list
    given: bytes
    output: bytes
    said: bytes
    status: int
    faults: list


# What is owed of the errors and the status where the words name no command: the errors begin so.
USAGE = b"error: ", 3


@dataclasses.dataclass
class Block:
    where: str
    words: list = dataclasses.field(default_factory=list)
    given: bytes = b""
    owed: dict = dataclasses.field(default_factory=lambda: {">": b"", "2>": b"", "t>": b""})
    parts: dict = dataclasses.field(default_factory=dict)
    status: int = 0
    rows: list = dataclasses.field(default_factory=list)
    first: tuple = (b"", b"")
    faults: list = dataclasses.field(default_factory=list)
    marks: dict = dataclasses.field(default_factory=dict)

    def takes(self, word, rest, text):
        """Takes a line of the block."""
        if word == "$":
            self.words.append(rest)
        elif word == "<":
            self.given += line(rest)
        elif word in self.owed:
            self.owed[word] += line(rest)
        elif word in (">*", "2>*"):
            self.parts[word[:-1]] = value(rest)
        elif word == "usage":
            self.parts["2>"], self.status = USAGE
        elif re.fullmatch(r"\[\d\]", text):
            self.status = int(text[1])
        elif word in ("pieces", "fails", "none"):
            self.faults.append([word, *rest.split()])
        elif word in ("front", "closed", "endless", "memory", "growths", "summary", "terminal"):
            self.marks[word] = rest
        elif word == "first":
            self.first = tuple(line(it or "\\c") for it in ROW.fullmatch(rest).groups()[:2])
        elif found := ROW.fullmatch(text):
            self.rows.append(found.groups())
        else:
            sys.exit(f"{self.where}: what is {text}?")

    def cases(self):
        """Each run, without its pieces and its terminal."""
        is_named = any("@" in it for it in [*(words.split() for words in self.words), *self.faults])
        for words in self.words:
            if not self.rows:
                yield Case(words_of(words), self.given, self.owed[">"], self.owed["2>"], self.status, self.faults)
                continue
            cases = [self.case(words, *row, is_named) for row in self.rows]
            yield from cases
            if not is_named and not any(text.endswith("\\c") for text, _, _ in self.rows):
                rest = [[it.removeprefix(own) for own, it in zip(self.first, case[1:3])] for case in cases]
                given, output = (own + b"".join(them) for own, them in zip(self.first, zip(*rest)))
                yield cases[0]._replace(given=given, output=output, status=max(it.status for it in cases))

    def case(self, words, text, output, status, is_named):
        """The run of a row."""
        said, output = self.owed["2>"], line(output or "\\c")
        status = int(status or output.startswith(b"! ") or output == b"different\n")
        if output == b"usage\n":
            output, said, status = b"", *USAGE
        if not is_named:
            return Case(words_of(words), self.first[0] + line(text), self.first[1] + output, said, status, self.faults)
        put = lambda those: [part for it in those for part in (text.split(" ") if it == "@" else [it])]
        return Case([*map(value, put(words.split()))], self.given, output, said, status, [*map(put, self.faults)])

    def ways(self):
        """Words that are added, and whether the errors are a terminal."""
        if not self.owed["t>"] and not {"summary", "terminal"} & {*self.marks}:
            return [([], False)]
        return [([], False), ([], True)] + [([b"--summary"], it) for it in (False, True) if "summary" in self.marks]


def faults_of(faults):
    """Each value of FAULTS by lines of faults."""
    lists = []
    for word, device, *numbers in faults:
        low, _, high = numbers[0].partition("..")
        numbers = range(int(low), int(high) + 1) if high else numbers
        how = {"pieces": {}, "fails": {"how": -1}, "none": {"how": 0}}[word]
        lists.append([(device, how | {"most" if word == "pieces" else "fails": it}) for it in numbers])
    for chosen in itertools.product(*lists):
        devices = {}
        for device, how in chosen:
            devices.setdefault(device, {"most": 0, "fails": 0, "how": -1}).update(how)
        yield " ".join(f"{device}:{it['most']}:{it['fails']}:{it['how']}" for device, it in devices.items())


class Folder:
    """The files of a file of rows, and the runs over them."""

    def __init__(self, stack, program, library):
        self.program, self.library = program, library
        self.path = Path(stack.enter_context(tempfile.TemporaryDirectory()))

    def make(self, name, origin):
        if (self.path / name).exists():
            sys.exit(f"{name}: it is there already")
        old = self.path / origin if origin else os.devnull
        if not os.path.exists(old):
            old = ROOT / origin
        (self.path / name).write_bytes(Path(old).read_bytes())

    def change(self, name, word, rest):
        path = self.path / name
        data = path.read_bytes()
        if word == "|":
            path.write_bytes(data + line(rest))
        elif word == "count":
            numbers, _, text = rest.partition(" ")
            low, high = map(int, numbers.split(".."))
            path.write_bytes(data + b"".join(line(counted(text, it)) for it in range(low, high + 1)))
        else:
            old, new, _ = ROW.fullmatch(rest).groups()
            old, new = value(old), value(new or "")
            if data.count(old) != 1 and (word == "replace" or old not in data):
                sys.exit(f"{name}: {rest}: it stands there {data.count(old)} times")
            path.write_bytes(data.replace(old, new))

    def run(self, marks, words, given, at_terminal, faults, passed=()):
        """The output, the errors and the status of a run."""
        words = [self.program, *words]
        if "memory" in marks or "closed" in marks:
            limit, closed = f"ulimit -v {marks.get('memory', 'unlimited')}", f"{marks['closed']}>&-" if "closed" in marks else ""
            words = ["sh", "-c", f'{limit}; exec "$0" "$@" {closed}', *words]
        names = {"LD_PRELOAD": self.library, "FAULTS": faults} if faults else {}
        own, theirs = pty.openpty() if at_terminal else os.pipe()
        said = []

        def listens():
            with contextlib.suppress(OSError):
                while more := os.read(own, 65536):
                    said.append(more)

        def feeds(to):
            chunk = value(marks["endless"]) * 4096
            with contextlib.suppress(BrokenPipeError), open(to, "wb", buffering=0) as pipe:
                while True:
                    pipe.write(chunk)

        if "endless" in marks:
            taken, to = os.pipe()
        else:
            with tempfile.TemporaryFile() as file:
                file.write(given)
                file.seek(0)
                taken = os.dup(file.fileno())
        ran = subprocess.Popen(words, stdin=taken, stdout=subprocess.PIPE, stderr=theirs, cwd=self.path, pass_fds=passed,
                               env={**os.environ, **names})
        os.close(taken)
        os.close(theirs)
        threads = [threading.Thread(target=listens)]
        if "endless" in marks:
            threads.append(threading.Thread(target=feeds, args=[to]))
        for it in threads:
            it.start()
        try:
            output, status = ran.communicate(timeout=SECONDS)[0], ran.returncode
        except subprocess.TimeoutExpired:
            ran.kill()
            output, status = ran.communicate()[0], "none in time"
        for it in threads:
            it.join()
        os.close(own)
        return output, b"".join(said).replace(b"\r\n", b"\n"), status

    def grows(self, marks, case):
        """Refuses each growth of memory of a run in turn, and yields what is wrong, or None."""
        owed = self.run(marks, case.words, case.given, False, "")
        numbers = (2**it for it in itertools.count()) if marks["growths"] == "doubled" else itertools.count(1)
        for number in numbers:
            reading, writing = os.pipe()
            got = self.run(marks, case.words, case.given, False, f"growth:{writing}:{number}:-1", [writing])
            os.close(writing)
            with open(reading, "rb") as told:
                met = told.read()
            is_cut = met and owed[0].startswith(got[0]) and got[1:] == (b"! OutOfMemory\n", 4)
            yield None if got == owed or is_cut else f"failed: {shown(case.words)}: growth {number} was refused: {shown(got)}"
            if not met:
                return

    def judge(self, block, case, at_terminal):
        """What is wrong with a run, or None."""
        got = self.run(block.marks, case.words, case.given, at_terminal, case.faults)
        output, parts = case.output, {"2>": USAGE[0]} | block.parts if case.said == USAGE[0] else block.parts
        if "front" in block.marks and not output:
            output = self.run(block.marks, case.words, case.given, at_terminal, "")[0]
        is_output = output.startswith(got[0]) if "front" in block.marks else got[0] == output
        is_output = parts[">"] in got[0] if ">" in parts else is_output
        is_said = got[1].startswith(parts["2>"]) if "2>" in parts else got[1] == case.said
        if is_output and is_said and got[2] == case.status:
            return None
        owed = output, case.said, case.status
        return f"failed: {block.where}: {shown(case.words)} {case.faults} < {shown([case.given])}\n  owed {shown(owed)}\n  got  {shown(got)}"


def shown(values):
    """Values in a line, without the middle of a long one."""
    return " ".join(f"{it[:200]!r} .. {it[-200:]!r}" if isinstance(it, bytes) and len(it) > 400 else repr(it) for it in values)


def runs_of(path, folder, growths):
    """The runs of a file of rows, each a call that gives what is wrong with each."""
    name, block = None, None
    for number, text in enumerate([*path.read_text(encoding="utf-8").split("\n"), ""], 1):
        word, _, rest = text.partition(" ")
        if text.startswith("#"):
            continue
        if not text:
            if block and not block.words:
                sys.exit(f"{block.where}: there are no words")
            if block:
                yield from made(folder, block, growths)
            name = block = None
        elif word == "file":
            name, _, origin = rest.partition(" ")
            folder.make(name, origin)
        elif name and word in ("|", "count", "replace", "each"):
            folder.change(name, word, rest)
        else:
            block = block or Block(f"{path.name}:{number}")
            block.takes(word, rest, text)


def made(folder, block, growths):
    """The runs of a block."""
    for case in block.cases():
        if growths:
            if "growths" in block.marks:
                yield lambda case=case: [*folder.grows(block.marks, case)]
            continue
        for (more, at_terminal), faults in itertools.product(block.ways(), faults_of(case.faults)):
            told = block.owed["t>"] if more or at_terminal else b""
            one = case._replace(words=case.words + more, said=case.said + told, faults=faults)
            yield lambda one=one, at_terminal=at_terminal: [folder.judge(block, one, at_terminal)]


def main():
    words = sys.argv[1:]
    growths = words[:1] == ["--growths"]
    program = os.path.abspath(words[growths] if words[growths:] else ROOT / "build" / "langtag")
    paths = [Path(it) for it in words[growths + 1 :]] or sorted((ROOT / "tests" / "rows").glob("*.txt"))
    passed, failed = 0, 0
    with contextlib.ExitStack() as stack, concurrent.futures.ThreadPoolExecutor(4) as pool:
        library = str(Path(stack.enter_context(tempfile.TemporaryDirectory()), "faults.so"))
        subprocess.run([os.environ.get("CC", "cc"), "-O1", "-shared", "-fPIC", "-o", library, ROOT / "tests" / "faults.c"], check=True)
        for path in paths:
            folder = Folder(stack, program, library)
            for wrong in itertools.chain.from_iterable(pool.map(lambda it: it(), runs_of(path, folder, growths))):
                passed, failed = passed + (not wrong), failed + bool(wrong)
                if wrong:
                    print(wrong, flush=True)
    print(f"{passed} passed, {failed} failed")
    return 1 if failed or not passed else 0


if __name__ == "__main__":
    sys.exit(main())
