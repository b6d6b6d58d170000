#!/usr/bin/env python3
"""Compares the records that `langtag csv` reads with those of Python's csv and of sqlite3: on every text of up to 6 bytes of
a quote, a comma, a carriage return, a line feed and `iw`, and on 20,000 files that are made by chance, by a fixed seed. Then the
same of texts of up to 5 bytes and of 5,000 files with semicolons for commas, and commas for semicolons.

With `--keep` each record stays byte for byte, and Python's csv reads it so before the two fields that are added.

The definition stands here once more (`cut`). Its records are compared with those of the two readers, and the bytes that the
program writes with those that are owed for its records. Each difference of the readers is of one of these classes:

- a carriage return outside of quotes that ends no record: `BadReturn` here, a byte of its field in sqlite3, the end of a
  record or an error in Python's csv;
- a text that ends within quotes: `! BadCsv` here, a record there;
- an empty line: a record of one empty field here, none in Python's csv;
- sqlite3 alone: text after a closing quote is within quotes there, and a last comma or carriage return is not read as one.

Argument: the program (build/langtag, if there is none). The last line counts; the status is 1 if anything differs.
"""
import codecs
import csv
import functools
import io
import itertools
import json
import os
import random
import subprocess
import sys
import tempfile

HERE = os.path.dirname(os.path.abspath(__file__))
PROGRAM = os.path.abspath(sys.argv[1] if len(sys.argv) > 1 else os.path.join(HERE, "../build/langtag"))
SAMPLE = os.path.join(HERE, "../examples/sample-registry.txt")
QUOTE, RETURN, FEED = b'"\r\n'
# no text that is compared has this record
MARK = [b"=", b"=", b"="]
SWAP = bytes.maketrans(b",;", b";,")
delimiter = b","
COLUMN = 2
csv.field_size_limit(1 << 30)
failures = 0
compared = 0


def fail(kind, text, wanted, found):
    """Tells a difference that is of no class."""
    global failures
    failures += 1
    if failures <= 10:
        print(f"failed: {kind}: {repr(text)[:200]}\n  wanted {repr(wanted)[:200]}\n  found  {repr(found)[:200]}")


# ---- the definition

@functools.cache
def cut(data):
    """The records of a text, each as its fields and whether it has a carriage return outside of quotes before its end;
    and the record that it ends within the quotes of, if it does, with the line in which that begins."""
    records, fields, place, begin, first = [], [], "fresh", 0, 0
    bare = False
    for at, byte in enumerate(data):
        if place == "quoted":
            place = "fresh" if byte == QUOTE else "quoted"
        elif byte == FEED:
            records.append((fields + [data[begin:at]], bare))
            fields, place, begin, first, bare = [], "fresh", at + 1, at + 1, False
        elif byte == delimiter[0]:
            fields.append(data[begin:at])
            place, begin = "fresh", at + 1
        elif byte == QUOTE and place == "fresh":
            place = "quoted"
        else:
            bare = bare or byte == RETURN and data[at + 1:at + 2] not in (b"\n", b"")
            place = "plain"
    if place == "quoted":
        return records, data[:first].count(b"\n") + 1
    if first < len(data):
        records.append((fields + [data[begin:]], bare))
    return records, None


def ended(record):
    """The fields of a record without what ends it, and that."""
    fields, _ = record
    if fields[-1].endswith(b"\r"):
        return fields[:-1] + [fields[-1][:-1]], b"\r\n"
    return [*fields], b"\n"


@functools.cache
def value(field):
    """What a field says: without the quotes around text, and with one of two that stand for one."""
    if not field.startswith(b'"'):
        return field
    end = 1
    while field[end:end + 1] != b'"' or field[end + 1:end + 2] == b'"':
        end += 2 if field[end:end + 1] == b'"' else 1
    return field[1:end].replace(b'""', b'"') + field[end + 1:]


# ---- what is owed

answers = {}


def learn(texts):
    """Asks the program what it says of texts, those with the end of a line as words."""
    new = sorted({text for text in texts if text not in answers})
    lines = [text for text in new if b"\n" not in text and not text.endswith(b"\r")]
    done = subprocess.run([PROGRAM, "canon", SAMPLE], input=b"".join(text + b"\n" for text in lines), capture_output=True)
    answers.update(zip(lines, done.stdout.split(b"\n")))
    words = [text for text in new if text not in answers]
    for begin in range(0, len(words), 1000):
        done = subprocess.run([PROGRAM, "show", "--json", SAMPLE, "--", *words[begin:begin + 1000]], capture_output=True)
        for text, line in zip(words[begin:begin + 1000], done.stdout.splitlines(), strict=True):
            said = json.loads(line)
            assert said["tag"] is None, text
            answers[text] = b"! " + said["fault"].encode()


def text_of(field):
    """What stands around the text of a field, and the text."""
    if len(field) > 1 and field.startswith(b'"') and field.endswith(b'"'):
        return b'"', field[1:-1]
    return b"", field


def owed(record, keep=False):
    """The answer that is owed for a record, which is kept or not."""
    fields, end = ended(record)
    row = delimiter.join(fields)
    empty = [b""] if keep else []
    if record[1]:
        return delimiter.join([row, *empty, b"BadReturn"]) + end
    if len(fields) < COLUMN:
        return delimiter.join([row, *empty, b"NoColumn"]) + end
    quotes, text = text_of(fields[COLUMN - 1])
    answer = answers[text]
    if answer.startswith(b"! "):
        return delimiter.join([row, *empty, answer[2:]]) + end
    if keep:
        return delimiter.join([row, answer, b""]) + end
    fields[COLUMN - 1:COLUMN] = [quotes + answer + quotes]
    return delimiter.join(fields) + delimiter + end


def learn_records(records):
    """Asks the program what it says of the texts of these records."""
    found = (ended(record)[0] for record in records)
    learn(text_of(fields[COLUMN - 1])[1] for fields in found if len(fields) >= COLUMN)


@functools.cache
def run(data, keep=False):
    """What the program makes of these bytes: its status, its output and its errors."""
    words = ["--keep"] if keep else []
    words += [] if delimiter == b"," else ["--delimiter", delimiter]
    done = subprocess.run([PROGRAM, "csv", SAMPLE, str(COLUMN), *words], input=data, capture_output=True)
    return done.returncode, done.stdout, done.stderr


def compare_together(kind, texts):
    """Compares what the program makes of texts, in one run: a text that ends within quotes gets one more, and each is
    followed by a record that none of them has."""
    whole = []
    for text in texts:
        text = text + b'"' if cut(text)[1] else text
        # a carriage return at the end of a text is at the end of its last record
        whole.append(text if text.endswith(b"\n") or not text else text + b"\n")
    all_records = [cut(text)[0] for text in whole]
    learn_records(record for records in all_records for record in records)
    learn([b"="])
    heading, mark = delimiter.join([b"h", b"h"]), owed((MARK, False))
    status, output, errors = run(heading + b"\n" + b"".join(text + delimiter.join(MARK) + b"\n" for text in whole))
    wanted = [b"".join(map(owed, records)) for records in all_records]
    if output == heading + delimiter + b"langtag_fault\n" + b"".join(text + mark for text in wanted) and not errors:
        return
    parts = output.split(b"\n", 1)[1].split(mark)
    for text, want, part in zip(whole, wanted, parts):
        if part != want:
            fail(kind, text, want, part)
    if len(parts) != len(whole) + 1 or status not in (0, 1) or errors:
        fail(kind, b"", len(whole) + 1, (len(parts), status, errors))


def compare_alone(kind, text, keep=False):
    """Compares what the program makes of a file: its first record is the heading, it may end within quotes, and a byte
    order mark before it is kept and no part of it."""
    records, opened = cut(text)
    names = [b"langtag", b"langtag_fault"] if keep else [b"langtag_fault"]
    learn_records(records[1:])
    wanted = b""
    refused = False
    for number, record in enumerate(records):
        if number or record[1]:
            answer = owed(record, keep)
        else:
            fields, end = ended(record)
            answer = delimiter.join([*fields, *names]) + end
        refused = refused or record[1] or number > 0 and not answer.rstrip(b"\r\n").endswith(delimiter)
        wanted += answer
    errors = b"! BadCsv line %d\n" % opened if opened else b""
    for mark in b"", codecs.BOM_UTF8:
        found = run(mark + text, keep)
        if found != (4 if opened else int(refused), mark + wanted, errors):
            fail(kind, mark + text, (mark + wanted, errors), found)


# ---- the other readers

def compare_kept(kind, text):
    """Compares the fields that Python's csv reads of a text with those that it reads of it once they are kept."""
    global compared
    records, opened = cut(text)
    if opened or any(bare for _, bare in records):
        return
    read = [list(csv.reader(io.StringIO(data.decode("latin-1"), newline=""), delimiter=delimiter.decode())) for data in (text, run(text, True)[1])]
    compared += 1
    # an empty line has one field, which is empty, once others follow it
    if [fields or [""] for fields in read[0]] != [fields[:-2] for fields in read[1]]:
        fail(kind + ", kept, Python's csv", text, *read)


def compare_python(kind, text):
    """Compares the records of a text with those of Python's csv."""
    global compared
    records, opened = cut(text)
    if any(bare for _, bare in records) or (opened and is_bare_open(text)):
        return
    lines = [line + "\n" for line in text.decode("latin-1").split("\n")]
    lines[-1] = lines[-1][:-1]
    found = list(csv.reader((line for line in lines if line), delimiter=delimiter.decode()))
    wanted = [[value(field).decode("latin-1") for field in ended(record)[0]] for record in records]
    wanted = [[] if fields == [""] and ended(records[n])[0] == [b""] else fields for n, fields in enumerate(wanted)]
    if opened:
        found = found[:-1]
    compared += 1
    if found != wanted:
        fail(kind + ", Python's csv", text, wanted, found)


def is_bare_open(text):
    """Whether the record that a text ends within the quotes of has a carriage return outside of quotes."""
    records, _ = cut(text + b'"')
    return records[-1][1]


def has_rest(record):
    """Whether text comes after a quote that closes."""
    return any(field.startswith(b'"') and b'"' + value(field).replace(b'"', b'""') + b'"' != field for field in ended(record)[0])


def compare_sqlite(kind, texts, folder):
    """Compares the records of texts with those of sqlite3, all of them in one run of its shell."""
    global compared
    wanted, script = [], ["create table t(a, b, c, d, e, f, g, h, i, j);"]
    for text in texts:
        records, opened = cut(text)
        if opened or not text or any(bare or has_rest((fields, bare)) for fields, bare in records) or text[-1:] in (delimiter, b"\r"):
            continue
        if any(len(ended(record)[0]) > 10 for record in records) or b"\0" in text:
            continue
        name = os.path.join(folder, f"{len(wanted)}.csv")
        with open(name, "wb") as file:
            file.write(text)
        rows = [[value(field) for field in ended(record)[0]] for record in records]
        wanted.append((text, b"".join(b"\x1f".join(row + [b""] * (10 - len(row))) + b"\x1e\n" for row in rows)))
        script += [".mode csv", f'.separator "{delimiter.decode()}" "\\n"', f".import {name} t", ".mode list", '.separator "\\037" "\\036\\n"']
        script += ["select * from t;", "select '=';", "delete from t;"]
    done = subprocess.run(["sqlite3", ":memory:"], input="\n".join(script).encode(), capture_output=True)
    parts = done.stdout.split(b"=\x1e\n")
    for (text, want), part in zip(wanted, parts):
        compared += 1
        if part != want:
            fail(kind + ", sqlite3", text, want, part)
    if len(parts) != len(wanted) + 1:
        fail(kind + ", sqlite3", b"", len(wanted) + 1, len(parts))


# ---- texts

def short_texts(longest):
    """Every text of so many letters, of which `iw` is one."""
    for length in range(longest + 1):
        for letters in itertools.product([b'"', b",", b"\r", b"\n", b"iw"], repeat=length):
            yield b"".join(letters)


WORDS = [b"iw", b"zh-yue", b"en_US", b"de", b"I-KLINGON", b"", b'12" LP', b"a,b", b"two\nlines", b'say ""', b"cr\rhere", b" x", b";"]


def made_file(chance):
    """A file of some records: as Python's csv writes them, or with quotes where they should not be; with some bytes
    changed, and at times with a mark before it."""
    end = chance.choice([b"\n", b"\r\n"])
    data = bytearray()
    for _ in range(chance.randrange(1, 7)):
        fields = []
        for _ in range(chance.randrange(1, 5)):
            word = chance.choice(WORDS)
            needs = any(byte in word for byte in b'",\r\n')
            if chance.random() < (0.85 if needs else 0.2):
                word = b'"' + word.replace(b'"', b'""') + b'"'
            fields.append(word)
        data += b",".join(fields) + end
    for _ in range(chance.choice([0, 0, 0, 1, 2])):
        data[chance.randrange(len(data))] = chance.choice(b'",\r\n;ai')
    return bytes(data)


def compare_all(kind, short, made):
    """Compares short texts, and files that were made."""
    compare_together(f"short texts{kind}", short)
    compare_together(f"made files{kind}", made)
    for text in short[:781]:
        compare_alone(f"short texts alone{kind}", text)
    for text in made[:500]:
        compare_alone(f"made files alone{kind}", text)
    for text in [*short[:156], *made[:500]]:
        compare_alone(f"kept{kind}", text, True)
        compare_kept(f"kept{kind}", text)
    for text in short:
        compare_python(f"short texts{kind}", text)
    for text in made:
        compare_python(f"made files{kind}", text)
    with tempfile.TemporaryDirectory() as folder:
        compare_sqlite(f"short texts{kind}", short, folder)
        compare_sqlite(f"made files{kind}", made, folder)


def main():
    """Compares all of them."""
    global delimiter
    short = list(short_texts(6))
    chance = random.Random(4180)
    made = [made_file(chance) for _ in range(20000)]
    compare_all("", short, made)
    delimiter = b";"
    for it in (cut, run):
        it.cache_clear()
    swapped = [text.translate(SWAP) for text in short_texts(5)], [text.translate(SWAP) for text in made[:5000]]
    compare_all(", semicolons", *swapped)
    texts, files = len(short) + len(swapped[0]), len(made) + len(swapped[1])
    print(f"{texts} short texts and {files} made files, {compared} compared with other readers, {failures} failed")
    return 1 if failures else 0


if __name__ == "__main__":
    sys.exit(main())
