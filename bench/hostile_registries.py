#!/usr/bin/env python3
"""Hostile registries, each by a count: at 100,000 less one a registry has the most records that there may be, or some 10
MB. Each is as dear as it can be for something that `check` or `upgrade` does: for how lines are read, for a condition,
or for how a look-up is made. The same come out each time. `hostile.py` measures the program on them.

Usage: hostile_registries.py TITLE COUNT
"""

import random
import sys

LETTERS = "abcdefghijklmnopqrstuvwxyz"
# So many variants of 4 characters after a language of 3 make a tag of 1,023 bytes.
MOST_VARIANTS = 204


def name(number, length):
    """A name of so many letters for a number below 26 to that power, in the order of the numbers."""
    letters = []
    for _ in range(length):
        number, rest = divmod(number, 26)
        letters.append(LETTERS[rest])
    return "".join(reversed(letters))


def short_variant(number):
    """A variant of 4 characters for a number below 175,760."""
    return str(number // 26 ** 3) + name(number % 26 ** 3, 3)


def record(kind, subtag, value="", prefixes=()):
    label = "Tag" if kind in ("grandfathered", "redundant") else "Subtag"
    lines = ["Type: " + kind, label + ": " + subtag, "Added: 2009-07-29"]
    if value:
        lines += ["Deprecated: 2009-07-29", "Preferred-Value: " + value]
    return "\n".join(lines + ["Prefix: " + prefix for prefix in prefixes])


def mixed(count):
    order = list(range(count))
    random.Random(20260103).shuffle(order)
    return order


def chain(order, kind="language", length=5):
    """Subtags of a kind, each the value of the one before it; the last has none."""
    names = [name(number, length) for number in range(len(order))]
    records = [record(kind, one, other) for one, other in zip(names, names[1:])]
    records.append(record(kind, names[-1]))
    return [records[place] for place in order]


def cycle(order):
    """A chain that comes back to its last but one."""
    count = len(order)
    records = chain(range(count - 1)) + [record("language", name(count - 1, 5), name(count - 2, 5))]
    records[count - 2] = record("language", name(count - 2, 5), name(count - 1, 5))
    return [records[place] for place in order]


def then_cycle(order):
    """A chain that ends, and after it two languages that are each other's value."""
    return chain(order) + [record("language", "yyyya", "yyyyb"), record("language", "yyyyb", "yyyya")]


def chains_of_each_kind(count):
    """Chains of languages, of scripts and of variants, and the longest of regions."""
    regions = [name(n, 2).upper() for n in range(26 ** 2)] + [str(n).zfill(3) for n in range(1000)]
    regions = regions[:max(2, min(len(regions), count // 4))]
    records = [record("region", one, other) for one, other in zip(regions, regions[1:])] + [record("region", regions[-1])]
    third = (count - len(records)) // 3
    return records + chain(mixed(third)) + chain(mixed(third), "script", 4) + chain(mixed(third), "variant", 8)


def languages(count):
    return [record("language", name(number, 5)) for number in range(count)]


def duplicates(count):
    return [record("language", "aaaaa")] * count


def last_duplicate(count):
    """Languages, of which the last has the name of the first."""
    return languages(count - 1) + [record("language", name(0, 5))]


def ranges(count):
    """Ranges of which none holds another's ends."""
    return [record("language", name(2 * n, 5) + ".." + name(2 * n + 1, 5)) for n in range(count)]


def nested_ranges(count):
    """Ranges each of which holds the next."""
    return [record("language", name(n, 5) + ".." + name(26 ** 5 - 1 - n, 5)) for n in range(count)]


def overlapping_ranges(count):
    """Ranges each of which begins within the one before it and ends after it."""
    return [record("language", name(2 * n, 5) + ".." + name(2 * n + 3, 5)) for n in range(count)]


def mixed_ranges(count):
    """Ranges with any two ends, in any order."""
    choose = random.Random(20260103)
    records = []
    for _ in range(count):
        first, last = sorted(choose.randrange(26 ** 5) for _ in range(2))
        records.append(record("language", name(first, 5) + ".." + name(last, 5)))
    return records


def duplicate_ranges(count):
    return [record("language", "aaaaa..zzzzz")] * count


def ranges_and_values(count):
    """Ranges, and as many languages with values of which none but the last range holds any."""
    half = count // 2
    records = [record("language", name(2 * n, 5) + ".." + name(2 * n + 1, 5)) for n in range(half)]
    records.append(record("language", "zzzya..zzzyb"))
    return records + [record("language", name(n, 5), "zzzya") for n in range(10 ** 6, 10 ** 6 + count - half - 1)]


def redundant(count, value=""):
    """Redundant tags of languages with a region, beside their languages."""
    half = count // 2
    records = [record("language", name(n, 5)) for n in range(half)] + [record("region", "AA")]
    return records + [record("redundant", name(n, 5) + "-AA", value) for n in range(count - half - 1)]


def duplicate_tags(count):
    head = [record("language", "aaaaa"), record("region", "AA")]
    return head + [record("redundant", "aaaaa-AA")] * (count - 2)


def grandfathered(count):
    return [record("grandfathered", "i-klingon")] * count


def one_language(count):
    """Redundant tags of one language with a variant each, beside the variants."""
    half = (count - 1) // 2
    variants = [record("variant", name(n, 8)) for n in range(half)]
    tags = [record("redundant", "de-" + name(n, 8)) for n in range(count - 1 - half)]
    return [record("language", "de")] + variants + tags


def wholes_of_a_chain(count):
    """A chain of languages, and redundant tags whose values all begin it."""
    third = count // 3
    heads = [record("language", name(n, 6)) for n in range(third)] + [record("region", "AA")]
    tags = [record("redundant", name(n, 6) + "-AA", name(0, 5)) for n in range(third)]
    return chain(range(count - 2 * third - 1)) + heads + tags


def turns_of_a_chain(count):
    """A chain of languages, and redundant tags whose values all have a variant that turns into its first."""
    third = count // 3
    heads = [record("language", name(n, 6)) for n in range(third)] + [record("region", "AA")]
    heads += [record("language", "de"), record("language", "aa", name(0, 5)), record("variant", "rozaj", "aa", ["de"])]
    tags = [record("redundant", name(n, 6) + "-AA", "de-rozaj") for n in range(third)]
    return chain(range(count - 2 * third - 4)) + heads + tags


def whole_chain(count):
    """Redundant tags, each the value of the one before it."""
    half = count // 2
    records = [record("language", name(n, 5)) for n in range(half)] + [record("region", "AA")]
    left = count - half - 1
    names = [name(n, 5) + "-AA" for n in range(left)]
    records += [record("redundant", one, other) for one, other in zip(names, names[1:])]
    return records + [record("redundant", names[-1])]


def extlangs(count):
    """The 17,576 extlangs that there can be, each with its language, and languages beside them."""
    most = min(26 ** 3, count // 2)
    names = [name(n, 3) for n in range(most)]
    records = [record("language", one) for one in names]
    records += [record("extlang", one, one, ["aaa"]) for one in names]
    return records + [record("language", name(n, 5)) for n in range(count - len(records))]


def extlangs_of_a_chain(count):
    """Extlangs whose replacements all begin one chain."""
    most = min(26 ** 3, count // 4)
    length = count - 2 * most - 1
    names = [name(n, 3) for n in range(most)]
    records = [record("language", one, name(0, 5)) for one in names]
    records += [record("extlang", one, one, ["zz"]) for one in names]
    return records + [record("language", "zz")] + chain(range(length))


def variants(count):
    """Variants with a Prefix each."""
    return [record("language", "de")] + [record("variant", name(n, 8), "", ["de"]) for n in range(count - 1)]


def variants_to_languages(count):
    """Variants with a language as value and a Prefix each."""
    head = [record("language", "de"), record("language", "fr")]
    return head + [record("variant", name(n, 5), "fr", ["de"]) for n in range(count - 2)]


# Languages by a range, so that a search by ranges follows that by names.
BY_RANGE = [record("language", "aaaaa..zzzzz"), record("language", "fr")]


def prefixes(count, order):
    """A variant with a language value and seven Prefixes for each record that there might be."""
    return BY_RANGE + [record("variant", "rozaj", "fr", [name(n, 5) for n in order(7 * count)])]


def equal_prefixes(count):
    """A variant with a language value and very many equal Prefixes."""
    return [record("language", "de"), record("language", "fr"), record("variant", "rozaj", "fr", ["de"] * (9 * count))]


def prefixes_of_variants(count):
    """Variants with a language value and 100 Prefixes each."""
    return BY_RANGE + [
        record("variant", name(n, 8), "fr", [name(100 * n + m, 5) for m in range(100)]) for n in range(count // 15)
    ]


def languages_of_many(count):
    """Languages that are each a Prefix of 300 variants with a language value, and as many records as there may be."""
    listed = [name(n, 3) for n in range(count // 54)]
    turned = [record("variant", name(n, 8), "fr", listed) for n in range(300)]
    head = [record("language", "aaa..zzz"), record("language", "fr")] + turned
    return head + ["Type: variant\nSubtag: " + name(n, 5) for n in range(count - 310)]


def long_prefixes(count):
    """Variants with a Prefix that fills its line."""
    tail = "".join("-" + short_variant(n) for n in range(13000))
    return [record("variant", name(n, 8), "", ["de" + tail]) for n in range(count // 650)]


def prefixes_and_tags(count):
    """A variant with a language value and thirty Prefixes for each redundant tag with that variant, of which none has a
    language among them."""
    tags = count // 6
    names = [record("language", name(n, 4)) for n in range(tags)] + BY_RANGE
    listed = [name(n, 5) for n in range(5 * count)]
    return names + [record("variant", "rozaj", "fr", listed)] + [
        record("redundant", name(n, 4) + "-rozaj", name(n, 4)) for n in range(tags)
    ]


def in_turn(others, past=False, idle=0, apart=0, spread=0, alike=0):
    """Languages, and as many variants as a tag may have: each has the language before it as Prefix, the next as value,
    and so many Prefixes besides; or all the languages after it too, so that a language is a Prefix of each variant that
    turned before. And so many variants that no tag has, with all the languages as Prefixes. After each of the former
    come so many variants that are not replaced, and after each of the latter so many; and at last so many that begin
    as those that turn do."""
    beside = [name(n, 4) for n in range(others)]
    languages = [name(n, 3) for n in range(MOST_VARIANTS + 1)]
    heads = [record("language", one) for one in languages] + BY_RANGE
    heads += [record("language", "aaaa..zzzz"), record("region", "AA")]
    for n in range(MOST_VARIANTS):
        heads.append(record("variant", short_variant(n), languages[n + 1], languages[n:-1 if past else n + 1] + beside))
        heads += [record("variant", name(n * apart + m, 7)) for m in range(apart)]
    for n in range(idle):
        heads.append(record("variant", name(n, 8), "aaa", languages[:-1]))
        heads += [record("variant", name(n * spread + m, 6)) for m in range(spread)]
    return heads + [record("variant", "0a" + name(n, 6)) for n in range(alike)]


def turning(first=0):
    """A tag whose variants turn in turn, the last of those that are left each time."""
    return name(first, 3) + "".join("-" + short_variant(n) for n in reversed(range(first, MOST_VARIANTS)))


def turning_from_the_first():
    """The same, the first of those that are left each time."""
    return name(0, 3) + "".join("-" + short_variant(n) for n in range(MOST_VARIANTS))


def turns_in_values(count, heads, value=turning()):
    """Redundant tags whose values have all those variants."""
    left = max(1, (100 * count - sum(4 + len(one) for one in heads)) // 1120)
    return heads + [record("redundant", name(n, 4) + "-AA", value) for n in range(left)]


def turns_among_strangers(count):
    """Half as many variants that turn in turn, after as many that stay and stand 65,536 records before them."""
    half = MOST_VARIANTS // 2
    languages = [name(n, 3) for n in range(half + 1)]
    stay = [record("variant", short_variant(half + n)) for n in range(half)]
    turn = [record("variant", short_variant(n), languages[n + 1], [languages[n]]) for n in range(half)]
    between = min(65536, 2 * count // 3) - half
    heads = [record("language", one) for one in languages] + BY_RANGE
    heads += [record("language", "aaaa..zzzz"), record("region", "AA")] + stay
    heads += [record("variant", name(n, 5)) for n in range(between)] + turn
    value = languages[0] + "".join("-" + short_variant(half + n) for n in range(half))
    return turns_in_values(count, heads, value + "".join("-" + short_variant(n) for n in reversed(range(half))))


def turns_in_both(count):
    """Redundant tags with those variants, whose values have them too: all but one."""
    beside = [name(n, 8) for n in range(count // 22)]
    heads = in_turn(0) + [record("variant", one) for one in beside]
    first, second = turning(2), turning(3)
    return heads + [record("redundant", first + "-" + one, second + "-" + one) for one in beside]


def registered_variants():
    return [record("language", "aaa"), record("language", "aaaa..zzzz"), record("region", "AA")] + [
        record("variant", short_variant(n)) for n in range(2000)
    ]


def long_values(count):
    """Redundant tags whose values have as many variants as a tag may have, and none is replaced."""
    records = registered_variants()
    tail = "aaa" + "".join("-" + short_variant(n) for n in range(MOST_VARIANTS))
    return records + [record("redundant", name(n, 4) + "-AA", tail) for n in range(count // 11)]


def long_tags(count):
    """Redundant tags of the greatest length, which differ in their last subtags alone, with those as values."""
    records = registered_variants()
    tail = "aaa" + "".join("-" + short_variant(n) for n in range(MOST_VARIANTS - 2))
    last = [f"-{short_variant(300 + n // 1000)}-{short_variant(400 + n % 1000)}" for n in range(count // 11)]
    return records + [record("redundant", tail + one, "aaa" + one) for one in last]


def long_tags_alone(count):
    """Redundant tags of the greatest length without values, in falling order."""
    tail = "aaa" + "".join("-" + short_variant(n) for n in range(MOST_VARIANTS - 1))
    return [record("redundant", tail + "-" + short_variant(300 + n)) for n in reversed(range(count // 11))]


def chains_in_values(count):
    """Chains of variants, and redundant tags whose values have the first of each."""
    length = count // 4 // MOST_VARIANTS
    records = registered_variants()[:3]
    for n in range(MOST_VARIANTS):
        names = [short_variant(n)] + [name(n * length + m, 8) for m in range(length)]
        records += [record("variant", one, other) for one, other in zip(names, names[1:])] + [record("variant", names[-1])]
    tail = "aaa" + "".join("-" + short_variant(n) for n in range(MOST_VARIANTS))
    return records + [record("redundant", name(n, 4) + "-AA", tail) for n in range(count // 15)]


def fields(count):
    """A record with very many fields that nothing reads."""
    return ["Type: language\nSubtag: de\n" + "\n".join(["a:"] * (33 * count))]


def unread_prefixes(count):
    """A language with very many Prefixes, which no language has."""
    return ["Type: language\nSubtag: de\n" + "\n".join(["Prefix:a"] * (11 * count))]


def folded(count):
    """Records with a field of very many lines."""
    text = "Type: language\nSubtag: {}\nComments: a" + "\n b" * 1000
    return [text.format(name(n, 5)) for n in range(count // 30)]


def folded_field(count):
    """A field of very many lines."""
    return ["Type: language\nSubtag: de\nComments: a" + "\n b" * (33 * count)]


def folded_subtag(count):
    """A Subtag that begins after very many lines of one space and a full stop."""
    return ["Type: language\nSubtag: a" + "\n ." * (33 * count)]


def blank_lines(count):
    return ["Type: language\nSubtag: de" + "\n" * (100 * count)]


def separators(count):
    return ["Type: language\nSubtag: de" + "\n%%" * (33 * count)]


def long_lines(count):
    """Comments that fill their lines, with letters of two bytes."""
    line = "Comments: " + "\u00e9" * 32763
    return ["Type: language\nSubtag: de" + ("\n" + line) * (count // 655)]


REGISTRIES = {
    "blank-lines": blank_lines,
    "separators": separators,
    "long-lines": long_lines,
    "fields": fields,
    "unread-prefixes": unread_prefixes,
    "folded-lines": folded,
    "folded-field": folded_field,
    "folded-subtag": folded_subtag,
    "languages": languages,
    "duplicates": duplicates,
    "last-duplicate": last_duplicate,
    "ranges": ranges,
    "nested-ranges": nested_ranges,
    "overlapping-ranges": overlapping_ranges,
    "mixed-ranges": mixed_ranges,
    "duplicate-ranges": duplicate_ranges,
    "ranges-and-values": ranges_and_values,
    "chain-rising": lambda count: chain(range(count)),
    "chain-falling": lambda count: chain(range(count - 1, -1, -1)),
    "chain-mixed": lambda count: chain(mixed(count)),
    "script-chain": lambda count: chain(range(count), "script", 4),
    "variant-chain": lambda count: chain(range(count), "variant", 8),
    "chains-of-each-kind": chains_of_each_kind,
    "cycle-rising": lambda count: cycle(range(count)),
    "cycle-falling": lambda count: cycle(range(count - 1, -1, -1)),
    "cycle-mixed": lambda count: cycle(mixed(count)),
    "chain-rising-then-cycle": lambda count: then_cycle(range(count - 2)),
    "chain-falling-then-cycle": lambda count: then_cycle(range(count - 3, -1, -1)),
    "chain-mixed-then-cycle": lambda count: then_cycle(mixed(count - 2)),
    "extlangs": extlangs,
    "extlangs-of-a-chain": extlangs_of_a_chain,
    "variants": variants,
    "variants-to-languages": variants_to_languages,
    "prefixes-rising": lambda count: prefixes(count, range),
    "prefixes-falling": lambda count: prefixes(count, lambda most: reversed(range(most))),
    "prefixes-mixed": lambda count: prefixes(count, mixed),
    "equal-prefixes": equal_prefixes,
    "prefixes-of-variants": prefixes_of_variants,
    "languages-of-many": languages_of_many,
    "long-prefixes": long_prefixes,
    "prefixes-and-tags": prefixes_and_tags,
    "grandfathered": grandfathered,
    "redundant": redundant,
    "redundant-values": lambda count: redundant(count, "aaaaa"),
    "duplicate-tags": duplicate_tags,
    "one-language": one_language,
    "whole-chain": whole_chain,
    "wholes-of-a-chain": wholes_of_a_chain,
    "turns-of-a-chain": turns_of_a_chain,
    "long-tags-alone": long_tags_alone,
    "long-tags": long_tags,
    "long-values": long_values,
    "chains-in-values": chains_in_values,
    "turns-in-values": lambda count: turns_in_values(count, in_turn(0)),
    "turns-in-values-100": lambda count: turns_in_values(count, in_turn(count // 1000)),
    "turns-in-values-1000": lambda count: turns_in_values(count, in_turn(count // 100)),
    "turns-in-values-3700": lambda count: turns_in_values(count, in_turn(37 * count // 1000)),
    "turns-after-others": lambda count: turns_in_values(count, in_turn(0, past=True)),
    "turns-beside-3": lambda count: turns_in_values(count, in_turn(0, idle=3)),
    "turns-beside-100": lambda count: turns_in_values(count, in_turn(0, idle=count // 1000)),
    "turns-beside-60": lambda count: turns_in_values(count, in_turn(0, idle=count // 1600, alike=count // 4)),
    "turns-beside-1000": lambda count: turns_in_values(count, in_turn(0, idle=count // 100)),
    "turns-apart": lambda count: turns_in_values(count, in_turn(0, idle=count // 100, apart=64)),
    "turns-beside-spread": lambda count: turns_in_values(count, in_turn(0, idle=count // 200, spread=63)),
    "turns-among-alike": lambda count: turns_in_values(count, in_turn(0, alike=count // 5)),
    "turns-among-strangers": turns_among_strangers,
    "turns-from-the-first": lambda count: turns_in_values(count, in_turn(0), turning_from_the_first()),
    "turns-in-both": turns_in_both,
}


def text_of(title, count):
    """The registry of a title by a count."""
    return "File-Date: 2026-01-01\n" + "".join("%%\n" + one + "\n" for one in REGISTRIES[title](count))


if __name__ == "__main__":
    sys.stdout.buffer.write(text_of(sys.argv[1], int(sys.argv[2])).encode())
