#!/usr/bin/env python3
"""Compares filtering and lookup (RFC 4647) with those of java.util.Locale, and counts the answers that differ by why they do, as
docs/DECISIONS.md says. Ends with status 1 where one differs and none of these is why.

Usage: bench/peers/matching.py [REGISTRY [CASES [SEED]]]     the example's registry, 100,000 and 1

It needs the package of bindings/python, as `pip install` or PYTHONPATH gives it, and a JDK.
"""

import collections
import functools
import itertools
import random
import subprocess
import sys
import tempfile
from pathlib import Path

import bcp47

HERE = Path(__file__).resolve().parent
LANGUAGES = "ar cmn de en es fr he hy id in iw ja ji no nb sgn sh sr sr tlh und yi yue zh zh zh xx".split()
EXTLANGS = {"zh": "cmn yue gan min".split(), "ar": "arb aao".split(), "sgn": "ase bfi".split()}
SCRIPTS = "Latn Hant Hans Cyrl Deva".split()
REGIONS = "DE CH HK TW CN US GB DD BU MM 419 YU".split()
VARIANTS = "1901 1996 arevela heploc rozaj valencia".split()
ENDS = "u-co-phonebk u-nu-latn-ca-buddhist u-kn-true t-iw-m0-names a-bbb x-own a-bbb-x-own x-a-de u-attr".split()
WHOLE = "i-klingon art-lojban zh-min-nan en-GB-oed sgn-DE sgn-DD zh-guoyu i-default x-own x-own-use de_DE".split()
RANGES = "* *-CH de-*-DE de-* zh-* *-Hant *-*-TW iw-* zh-yue-* sgn-*-x * 1996-de".split()
SCHEMES = ("basic", "extended", "lookup")


def made_tag(dice):
    """A tag, in the case of letters that it may have anywhere."""
    if dice.random() < 0.1:
        tag = dice.choice(WHOLE)
    else:
        language = dice.choice(LANGUAGES)
        parts = [language]
        for odds, choices in ((0.5, EXTLANGS.get(language, ())), (0.3, SCRIPTS), (0.5, REGIONS), (0.15, VARIANTS), (0.2, ENDS)):
            if choices and dice.random() < odds:
                parts.append(dice.choice(choices))
        tag = "-".join(parts)
    return dice.choice((str, str, str.upper, str.lower))(tag)


def made_range(dice, tags):
    """A range: one of its own, a front of a tag, or a tag with a `*` in it."""
    if dice.random() < 0.15:
        return dice.choice(RANGES)
    pieces = (dice.choice(tags) if dice.random() < 0.7 else made_tag(dice)).split("-")
    if dice.random() < 0.4:
        pieces = pieces[:dice.randint(1, len(pieces))]
    if dice.random() < 0.25:
        pieces[dice.randrange(len(pieces))] = "*"
    return "-".join(pieces)


def made_case(dice):
    """A scheme, ranges by priority, and tags of which no two are one but for the case of letters."""
    tags = list({tag.lower(): tag for tag in (made_tag(dice) for _ in range(dice.randint(1, 8)))}.values())
    return dice.choice(SCHEMES), [made_range(dice, tags) for _ in range(dice.randint(1, 3))], tags


class Answers:
    """The answers of a registry."""

    def __init__(self, registry):
        self.registry, self.whole = registry, collections.defaultdict(list)
        for tag in (it["Tag"] for it in map(dict, registry.records()) if "Tag" in it):
            if self.extlang(tag) not in (None, tag):
                self.whole[self.extlang(tag)].append(tag)

    @functools.cache
    def extlang(self, text):
        """The text of a tag's extlang form, or None where it is refused."""
        try:
            return self.registry.extlang(text)
        except bcp47.RefusedTag:
            return None

    def spellings(self, text):
        """The texts of a tag's spellings: its extlang form, and the whole tags that are registered with the same form."""
        return [self.extlang(text), *self.whole[self.extlang(text)]]

    @functools.cache
    def is_range(self, text):
        """Whether a text is a language range that is not refused."""
        try:
            self.registry.matches(text, "en")
        except bcp47.RefusedTag:
            return False
        return True

    def to(self, case):
        """The tags that are found."""
        scheme, ranges, tags = case
        found = [(it, [tag for tag in tags if self.registry.matches(it, tag, scheme)]) for it in ranges]
        if scheme != "lookup":
            return once([tag for _, those in found for tag in those])
        # what a range finds are fronts of it, first of its extlang form: the longest text has the most subtags
        return [max(those, key=lambda tag: (str(self.extlang(it)).startswith(self.extlang(tag)), len(self.extlang(tag))))
                for it, those in found if those][:1]


def java(cases, folder):
    """The answers of Java: lists of tags, or None where a range is refused."""
    lines = "".join(f"{scheme}\t{' '.join(ranges)}\t{' '.join(tags)}\n" for scheme, ranges, tags in cases)
    said = subprocess.run(["java", "-XX:TieredStopAtLevel=1", "-XX:+UseSerialGC", "-cp", folder, "Matching"], input=lines, stdout=subprocess.PIPE, text=True, check=True)
    answers = said.stdout.split("\n")[:-1]
    assert len(answers) == len(cases)
    return [None if answer == "!" else answer.split() for answer in answers]


def once(tags):
    """Tags without those that come again."""
    return list(dict.fromkeys(tags))


def without_stars(range_):
    """A range as RFC 4647 maps it for lookup: `*` alone, or without a `*` (3.2)."""
    return "*" if range_.startswith("*") else "-".join(piece for piece in range_.split("-") if piece != "*")


def without_last_stars(range_):
    """A range without a `*` that ends it: it matches what the range matches (RFC 4647, 3.3.2)."""
    while range_.endswith("-*"):
        range_ = range_[:-2]
    return range_


def matched(range_, mend, answers):
    """The range by which a text matches, as Java would have to be asked: of a valid tag its extlang form, else the range with its first
    subtag in this form, if it alone is a valid tag."""
    if answers.extlang(range_):
        return answers.extlang(range_)
    first, *others = mend(range_).split("-")
    return "-".join([answers.extlang(first) or first, *others])


def mended(case, answers, forms):
    """The case as Java would have to be asked: without a `*` that Java takes otherwise; from 1 on by extlang forms; from 2 on in each
    spelling."""
    scheme, ranges, tags = case
    mend = {"basic": str, "extended": without_last_stars, "lookup": without_stars}[scheme]
    if not forms:
        return scheme, [mend(it) for it in ranges], tags
    if forms == 1:
        return scheme, [matched(it, mend, answers) for it in ranges], [answers.extlang(it) for it in tags]
    spelled = [answers.spellings(it) if answers.extlang(it) else [matched(it, mend, answers)] for it in ranges]
    return scheme, once(itertools.chain(*spelled)), once(itertools.chain(*map(answers.spellings, tags)))


def is_in_order(case, found, said, tags):
    """Whether Java says what is found, but, for a range that is `*`, in the order of the tags and not by priority."""
    has_star = any(without_stars(it) == "*" if case[0] == "basic" else it == "*" for it in case[1])
    return has_star and case[0] != "lookup" and said == [tag for tag in tags if tag in found]


def why(case, found, answers, one, two, three, four):
    """Why Java answers otherwise, by its answers to the case, to the case without the stars, and to that by extlang forms and in each
    spelling."""
    if found == one:
        return "the same"
    if found == two:
        return "a `*` in lookup" if case[0] == "lookup" else "a `*` at the end of a range"
    if is_in_order(case, found, two, case[2]):
        return "the order at a `*`"
    forms = once(map(answers.extlang, found))
    tags = once(map(answers.extlang, case[2]))
    if three is not None and (forms == once(three) or is_in_order(case, forms, once(three), tags)):
        return "extlang forms"
    four = four and once(map(answers.extlang, four))
    if four is not None and (forms == four or is_in_order(case, forms, four, tags)):
        return "whole tags"
    return None


def main():
    words = sys.argv[1:] + [None] * 3
    registry = bcp47.Registry.from_file(words[0] or HERE / "../../examples/iana-2025-05-15.txt")
    dice, answers = random.Random(int(words[2] or 1)), Answers(registry)
    cases = [made_case(dice) for _ in range(int(words[1] or 100_000))]
    # Refused tags and ranges are told apart first: what is left is asked for.
    kept = [(scheme, [it for it in ranges if answers.is_range(it)], [it for it in tags if answers.extlang(it) is not None])
            for scheme, ranges, tags in cases]
    refused = [before != after for before, after in zip(cases, kept)]
    asked = [case for case in kept if case[1] and case[2]]
    ours = [answers.to(case) for case in asked]
    with tempfile.TemporaryDirectory() as folder:
        subprocess.run(["javac", "-d", folder, HERE / "Matching.java"], check=True)
        said = iter(java(cases + asked + [mended(case, answers, it) for it in range(3) for case in asked], folder))
    of_cases, *others = (list(itertools.islice(said, len(it))) for it in (cases, asked, asked, asked, asked))
    counts, unknown = collections.Counter(), []
    for case, found, *said in zip(asked, ours, *others):
        reason = why(case, found, answers, *said)
        counts[reason] += 1
        if not reason:
            unknown.append((case, found, *said))
    print(f"{len(cases)} cases, of which {sum(refused)} have a tag or a range that is refused, which Java takes in "
          f"{sum(1 for case, is_so, said in zip(cases, refused, of_cases) if is_so and said is not None)};")
    print(f"{len(asked)} without these:")
    for name, count in counts.most_common():
        print(f"{count:8} {name or 'not known why'}")
    for it in unknown[:20]:
        print(*it, sep="\n    ")
    sys.exit(bool(unknown))


if __name__ == "__main__":
    main()
