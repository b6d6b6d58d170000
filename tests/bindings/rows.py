#!/usr/bin/env python3
"""Prints tags of the records of a registry, or what `langtag show --json` says of them. Arguments: `tags` and a registry; or `rows`, the
program, a registry and a file of tags: of each tag its line has the array of rows as it is printed, or `! ` and the fault where it is
none."""
import json
import subprocess
import sys


def tags(path):
    """A tag or two of each record: alone, and within another."""
    for record in open(path, encoding="utf-8").read().split("%%\n"):
        fields = dict(line.split(": ", 1) for line in reversed(record.splitlines()) if ": " in line and line[0] != " ")
        kind, name = fields.get("Type"), fields.get("Subtag") or fields.get("Tag")
        if not kind:
            continue
        name = name.split("..")[0]
        prefix = fields.get("Prefix", "und")
        yield {"language": name, "grandfathered": name, "redundant": name}.get(kind, f"{prefix}-{name}")
        yield {"language": f"EN-T-{name}-m0-names", "redundant": f"{name}-x-a", "script": f"de-{name}-DE"}.get(kind, f"zh-{name.upper()}")


def rows(program, registry, path):
    """The rows that the program prints, in batches."""
    all_of_them = open(path).read().splitlines()
    for begin in range(0, len(all_of_them), 1000):
        said = subprocess.run([program, "show", "--json", registry, "--", *all_of_them[begin:begin + 1000]], stdout=subprocess.PIPE, check=False)
        lines = said.stdout.decode().splitlines()
        assert len(lines) == len(all_of_them[begin:begin + 1000]), said
        for line in lines:
            at = line.index('"rows":') + len('"rows":')
            _, end = json.JSONDecoder().raw_decode(line, at)
            whole = json.loads(line)
            yield line[at:end] if whole["tag"] is not None else "! " + whole["fault"]


if sys.argv[1] == "tags":
    print("\n".join(tags(sys.argv[2])))
else:
    print("\n".join(rows(*sys.argv[2:])))
