#!/usr/bin/env python3
"""Compares `langtag codes`, and `tsv` and `csv` with `--codes`, with the facts of Debian's package iso-codes: for each code of
ISO 639-2, bibliographic and terminologic, in lower and upper case, alone and with subtags after it, the answer is that of `canon`
to the code of two letters, or where there is none to the terminologic code; and codes of two letters, those of ISO 639-3 alone and
texts that are no codes are answered as by `canon`.

Argument: the program (build/langtag, if there is none). The last line counts; the status is 1 if anything differs.
"""
import json
import os
import subprocess
import sys
import tempfile

HERE = os.path.dirname(os.path.abspath(__file__))
PROGRAM = os.path.abspath(sys.argv[1] if len(sys.argv) > 1 else os.path.join(HERE, "../build/langtag"))
REGISTRY = os.path.join(HERE, "../examples/iana-2025-05-15.txt")
FACTS = "/usr/share/iso-codes/json/iso_639-%d.json"
ENDS = ["", "-Latn", "-x-ger", "-t-iw-t0-und", "-"]
OTHERS = ["", "-", "e", "en", "de-AT", "german", "x-ger", "i-klingon", "zh-yue", "en_US", "g3r", "gér", "-ger", "qaa", "qtz-ger"]


def run(words, lines):
    """What the program answers to lines."""
    done = subprocess.run([PROGRAM, *words], input="".join(line + "\n" for line in lines).encode(), capture_output=True, check=False)
    if done.stderr or done.returncode > 1:
        sys.exit(f"{words}: status {done.returncode}: {done.stderr.decode()}")
    return done.stdout.decode().split("\n")[:-1]


def main():
    if not os.path.exists(FACTS % 2):
        sys.exit("iso-codes is not here: tests/packages.sh installs it")
    rows, facts = [], {}
    for entry in json.load(open(FACTS % 2, encoding="utf-8"))["639-2"]:
        code, two, other = entry["alpha_3"], entry.get("alpha_2", ""), entry.get("bibliographic")
        rows.append(f"{other or code}|{code if other else ''}|{two}|{entry['name']}|")
        if len(code) == 3:
            facts.update({c: two or code for c in (code, other) if c})
    more = [entry["alpha_3"] for entry in json.load(open(FACTS % 3, encoding="utf-8"))["639-3"]]
    others = OTHERS + sorted(set(facts.values())) + [code for code in more if code not in facts]
    pairs = [(case(code) + end, registered + end) for code, registered in facts.items() for case in (str.lower, str.upper) for end in ENDS]
    pairs += [(text, text) for text in others]
    texts, wanted = [text for text, _ in pairs], run(["canon", REGISTRY], [other for _, other in pairs])
    unknown = [text for text, line in zip(texts, wanted) if line.startswith("! UnknownLanguage") and text.lower() in facts]
    with tempfile.TemporaryDirectory() as folder:
        failures = len(unknown)
        for name, ending in (("lf", "\n"), ("crlf", "\r\n")):
            table = os.path.join(folder, name)
            with open(table, "w", encoding="utf-8", newline="") as file:
                file.write(ending.join(rows))
            got = run(["codes", table, REGISTRY], texts)
            failures += sum(a != b for a, b in zip(got, wanted)) + abs(len(got) - len(wanted))
            for words, between in ((["tsv", REGISTRY, "2"], "\t"), (["csv", REGISTRY, "2"], ",")):
                lines = ["id" + between + "tag"] * (between == ",") + [f"1{between}{text}" for text in texts]
                got = run([*words, "--codes", table], lines)[between == ",":]
                owed = [f"1{between}{text}{between}{line[2:]}" if line.startswith("! ") else f"1{between}{line}{between}"
                        for text, line in zip(texts, wanted)]
                failures += sum(a != b for a, b in zip(got, owed)) + abs(len(got) - len(owed))
    print(f"{len(rows)} rows, {len(facts)} codes, {len(texts)} texts, {failures} failed")
    return failures > 0


if __name__ == "__main__":
    sys.exit(main())
