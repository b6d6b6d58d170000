"""Answers each line of a file as `langtag canon` does, by a call for all of them, which answers as a call for each. Arguments:
registry, lines; and `explain`, to answer as that command does, or `show`, with the rows that this prints by `--json`."""
import json
import sys

import bcp47


def explained(tag):
    """The lines that `langtag explain` prints, of an explanation that holds."""
    try:
        explanation = registry.explain(tag)
    except bcp47.RefusedTag as refused:
        return f"! {refused}"
    registry.verify(tag, explanation.steps, explanation.canonical)
    lines = [f"{step.kind} {step.place} {step.number} {step.tag}" for step in explanation.steps]
    return "\n".join([*lines, f"= {explanation.canonical}"])


def shown(tag):
    """The rows of a tag as the program prints them, which are those that are given."""
    try:
        rows = registry.show(tag)
    except bcp47.RefusedTag as refused:
        return f"! {refused}"
    told = [{**row._asdict(), "fields": [{"name": name, "body": body} for name, body in row.fields]} for row in rows]
    return json.dumps(told, ensure_ascii=False, separators=(",", ":"))


def canonical(tag):
    """The line of one tag."""
    try:
        return registry.canonical(tag)
    except bcp47.RefusedTag as refused:
        return f"! {refused}"


registry = bcp47.Registry.from_file(sys.argv[1])
tags = open(sys.argv[2]).read().split("\n")[:-1]
if sys.argv[3:] == ["explain"]:
    answers = map(explained, tags)
elif sys.argv[3:] == ["show"]:
    answers = map(shown, tags)
else:
    answers = [answer if isinstance(answer, str) else f"! {answer}" for answer in registry.canonical_many(tags)]
    if answers != [canonical(tag) for tag in tags]:
        sys.exit("a call for each tag answers otherwise")
for answer in answers:
    print(answer)
