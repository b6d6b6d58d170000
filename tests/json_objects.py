#!/usr/bin/env python3
"""Compares the objects that `langtag json` prints with values that were written by hand, and those of 20,000 made lines with
what `langtag canon` prints and with the lines themselves.

Usage: json_objects.py PROGRAM REGISTRY. Prints how many objects were compared, or the first that differs, with status 1.
"""

import json
import random
import subprocess
import sys

MEMBERS = ["input", "bytes", "canonical", "fault", "place", "variant", "class", "language", "extlangs", "script", "region",
           "variants", "extensions", "private"]
LISTS = ["extlangs", "variants", "extensions", "private"]
U = {"singleton": "u", "attributes": ["attr"], "keywords": [{"key": "co", "types": ["trad"]}, {"key": "ka", "types": []}]}
T = {"singleton": "t", "source": "he-latn-gb", "fields": [{"separator": "m0", "values": ["true", "foo"]}]}
# Lines and their members that are neither null nor empty.
ROWS = [
    (b"zh-cmn-hans-gb", {"canonical": "cmn-Hans-GB", "class": "langtag", "language": "zh", "extlangs": ["cmn"],
                         "script": "Hans", "region": "GB"}),
    (b"ja-latn-HEPBURN\r", {"input": "ja-latn-HEPBURN", "canonical": "ja-Latn-hepburn", "class": "langtag", "language": "ja",
                            "script": "Latn", "variants": ["hepburn"]}),
    (b"en-u-attr-CO-trad-ka", {"canonical": "en-u-attr-co-trad-ka", "class": "langtag", "language": "en", "extensions": [U]}),
    (b"de-t-HE-latn-gb-m0-true-foo", {"canonical": "de-t-he-latn-gb-m0-true-foo", "class": "langtag", "language": "de",
                                      "extensions": [T]}),
    (b"de-a-bc-x-GB-q", {"canonical": "de-a-bc-x-gb-q", "class": "langtag", "language": "de",
                         "extensions": [{"singleton": "a", "subtags": ["bc"]}], "private": ["gb", "q"]}),
    (b"X-whatever", {"canonical": "x-whatever", "class": "privateuse", "private": ["whatever"]}),
    (b"I-klingon", {"canonical": "tlh", "class": "grandfathered"}),
    (b"de-t-m0-xx", {"fault": "BadTransform", "place": 2, "class": "langtag", "language": "de",
                     "extensions": [{"singleton": "t", "subtags": ["m0", "xx"]}]}),
    (b"ja-heploc-alalc97", {"fault": "ReplacementRepeats", "variant": "alalc97", "class": "langtag", "language": "ja",
                            "variants": ["heploc", "alalc97"]}),
    (b"", {"fault": "EmptySubtag", "place": 1}),
    ("\u00e9 \"\\\t\x00\x1f\x7f\u2028\U0001f600".encode(), {"fault": "BadByte", "place": 1}),
    (b"en-\xff\xc3", {"input": None, "bytes": "656e2dffc3", "fault": "BadByte", "place": 2}),
    (b"a" * 2000, {"fault": "TooLong", "place": 0}),
]
PIECES = ["zh", "DE", "en", "ja", "sgn", "fr", "cmn", "yue", "Hans", "latn", "GB", "dd", "150", "1996", "hepburn", "heploc", "arevela",
          "u", "t", "a", "1", "x", "co", "trad", "ka", "attr", "m0", "true", "k0", "aaaaaaaaa", "", "a_b", "\u00e9", "\"", "\\", "\t"]


def run(program, command, registry, lines):
    """What a command prints of these lines, line by line, and its status."""
    done = subprocess.run([program, command, registry], input=b"".join(line + b"\n" for line in lines), capture_output=True)
    if done.stderr or not done.stdout.endswith(b"\n"):
        sys.exit("json_objects.py: %s: %r" % (command, done.stderr))
    return done.stdout.split(b"\n")[:-1], done.returncode


def wanted(line, members):
    """The members of a line's object that was written by hand."""
    whole = {name: [] if name in LISTS else None for name in MEMBERS}
    if "input" not in members:
        whole["input"] = line.decode()
    return whole | members


def made(random):
    """A line of pieces that are tags more often than not."""
    line = "-".join(random.choice(PIECES) for _ in range(random.randint(1, 7))).encode()
    if random.random() < 0.05:
        place = random.randint(0, len(line))
        line = line[:place] + bytes([random.choice([0, 127, 128, 195, 255])]) + line[place:]
    return line


def parts_of(found):
    """The subtags that the parts of an object spell."""
    extensions = [[extension["singleton"]] + extension.get("subtags", []) + extension.get("attributes", [])
                  + [it for keyword in extension.get("keywords", []) for it in [keyword["key"]] + keyword["types"]]
                  + (extension.get("source") or "").split("-") * bool(extension.get("source"))
                  + [it for field in extension.get("fields", []) for it in [field["separator"]] + field["values"]]
                  for extension in found["extensions"]]
    one = [found[name] for name in ("language", "script", "region")]
    core = one[:1] + found["extlangs"] + one[1:] + found["variants"]
    private = ["x"] * bool(found["private"]) + found["private"]
    return [it for it in core + [it for extension in extensions for it in extension] + private if it]


def answer_of(found):
    """The line that `canon` prints of what an object says."""
    if found["fault"] is None:
        return found["canonical"].encode()
    told = found["place"] if found["variant"] is None else found["variant"]
    return ("! %s %s" % (found["fault"], told)).encode()


def check(line, text, answer):
    """The first thing that is wrong with the object of a line, of which `canon` prints this."""
    members = json.loads(text, object_pairs_hook=list)
    if [name for name, _ in members] != MEMBERS:
        return "the names"
    found = json.loads(text)
    try:
        told = found["input"] == line.decode() and found["bytes"] is None
    except UnicodeDecodeError:
        told = found["input"] is None and found["bytes"] == line.hex()
    if not told:
        return "the text"
    if answer_of(found) != answer or (found["canonical"] is None) == (found["fault"] is None):
        return "the answer"
    if found["class"] in ("langtag", "privateuse") and "-".join(parts_of(found)).lower() != line.decode().lower():
        return "the parts"
    if found["class"] is None and (parts_of(found) or found["fault"] is None):
        return "parts of no tag"
    return None


def main():
    program, registry = sys.argv[1:]
    texts, status = run(program, "json", registry, [line for line, _ in ROWS])
    for (line, members), text in zip(ROWS, texts, strict=True):
        if json.loads(text) != wanted(line, members):
            sys.exit("json_objects.py: %r: %s" % (line, text.decode()))
    if status != 1:
        sys.exit("json_objects.py: the status is %d" % status)
    lines = [made(random.Random(number)) for number in range(20000)]
    texts, status = run(program, "json", registry, lines)
    answers, other = run(program, "canon", registry, lines)
    for line, text, answer in zip(lines, texts, answers, strict=True):
        wrong = check(line, text, answer)
        if wrong:
            sys.exit("json_objects.py: %s: %r: %s: %s" % (wrong, line, text.decode(), answer.decode()))
    if status != other:
        sys.exit("json_objects.py: the status is %d, and of canon %d" % (status, other))
    classes = [json.loads(text)["class"] for text in texts]
    print("%d objects, %d of tags" % (len(ROWS) + len(lines), sum(it is not None for it in classes)))


if __name__ == "__main__":
    main()
