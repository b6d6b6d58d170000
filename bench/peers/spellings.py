#!/usr/bin/env python3
"""Compares matching with its definition: a range matches a tag if RFC 4647 matches some spelling of the range with some spelling of the
tag, as they are written. Prints the pairs of canonical tags that differ. Ends with status 1 where a pair differs that no variant with a
language value explains.

Usage: bench/peers/spellings.py [REGISTRY]     the example's registry

The spellings are all valid tags of at most three of the subtags below, their extlang forms, and the whole tags that are registered with a
value or have only these subtags. It needs the package of bindings/python, as `pip install` or PYTHONPATH gives it.
"""

import itertools
import sys
from pathlib import Path

import bcp47

SUBTAGS = """ar arb ary arz art cmn de fr gan gsg fsl he hy hyw iw jbo min nan nb nn no sfb sgn ase vgt yue zh
    Hant Latn BE BU DD DE FR HK MM TW 1996 arevmda heploc alalc97""".split()
HERE = Path(__file__).resolve().parent


def spellings(registry):
    """The valid tags that are not refused, and of each the canonical tag."""
    whole = [it["Tag"] for it in map(dict, registry.records())
             if "Tag" in it and ("Preferred-Value" in it or {*it["Tag"].split("-")} <= {*SUBTAGS})]
    made = ["-".join(it) for count in (1, 2, 3) for it in itertools.permutations(SUBTAGS, count)]
    found = {}
    for text in dict.fromkeys([*made, *whole]):
        if registry.is_valid(text):
            try:
                found[text] = found[registry.extlang(text)] = registry.canonical(text)
            except bcp47.RefusedTag:
                pass
    return found


def by_definition(found, is_kept=lambda text: True):
    """The pairs of canonical tags of which a spelling of the first begins a spelling of the second."""
    first = {}
    for text, end in found.items():
        if is_kept(text):
            first[text.lower()] = end
    return {(first[front], end) for text, end in first.items() for front in fronts(text) if front in first}


def fronts(text):
    """A text, cut at its hyphens."""
    pieces = text.split("-")
    return ["-".join(pieces[:count]) for count in range(1, len(pieces) + 1)]


def main():
    registry = bcp47.Registry.from_file(sys.argv[1] if sys.argv[1:] else HERE / "../../examples/iana-2025-05-15.txt")
    found = spellings(registry)
    ends = sorted({*found.values()})
    answered = {(range_, tag) for range_ in ends for tag in ends if registry.matches(range_, tag, "basic")}
    defined = by_definition(found)
    plain = by_definition(found, lambda text: "VariantLanguage" not in {it.kind for it in registry.explain(text).steps})
    lost, more = defined - answered, answered - defined
    print(f"{len(found)} spellings of {len(ends)} tags, {len(defined)} pairs match by the definition, {len(answered)} are answered;")
    print(f"{len(lost)} pairs are lost, {len(lost & plain)} of them not only by a variant with a language value:")
    print("\n".join(f"    {range_} does not find {tag}" for range_, tag in sorted(lost)))
    print(f"{len(more)} pairs are answered that no two of these spellings give:")
    print("\n".join(f"    {range_} finds {tag}" for range_, tag in sorted(more)))
    sys.exit(bool(lost & plain or more))


if __name__ == "__main__":
    main()
