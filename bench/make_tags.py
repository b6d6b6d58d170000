#!/usr/bin/env python3
"""Prints a list of tags by the subtags of a registry, one a line.

Usage: make_tags.py REGISTRY LIST [COUNT]

LIST is one of these:

- `mixed`: a fifth are a language alone, half a language and a region, a seventh have a script too, 8 % have a `u` or
  `t` extension and 3 % private use; the rest are extlangs, variants, whole tags, and some that are refused.
- `catalogue`: some 400 distinct tags of `mixed`, by Zipf's law, as catalogues of libraries and logs have.
- `distinct`: tags of `mixed`, none of them twice. The kinds of which there are few tags run out, so a third has a `u` or
  `t` extension.
- `new`: the kinds of `mixed` in the same shares, by any of the registry's subtags, and no line twice: 20,000 tags.

200,000 tags come, where nothing else is said, unless a COUNT is given, and the same each time.
"""

import itertools
import random
import sys

COMMON = ["en", "de", "fr", "es", "it", "pt", "ru", "ja", "zh", "ar", "nl", "pl", "sv", "da", "fi", "cs", "tr", "ko"]
COMMON_REGIONS = ["US", "GB", "DE", "FR", "ES", "IT", "BR", "PT", "RU", "JP", "CN", "TW", "CH", "AT", "CA", "419"]
COMMON_SCRIPTS = ["Latn", "Cyrl", "Arab", "Hans", "Hant", "Deva"]

KEYWORDS = ["ca-gregory", "ca-buddhist", "nu-latn", "nu-arab", "co-phonebk", "hc-h23", "kn-true", "kn", "cu-eur"]
FIELDS = ["m0-names", "m0-bgn", "k0-qwerty", "i0-pinyin", "d0-fwidth", "h0-hybrid"]
PRIVATE = ["x-own", "x-abc-1", "x-catalogue-7", "x-lc"]
REFUSED = ["", "en_US", "en-", "en-a", "e", "abcdefghi", "en-x", "de-1901-1901", "xx-yy-zz", "en--GB", "qaa-abcdefghij",
           "en-a-aaa-a-bbb", "en-Latn-Cyrl", "unknown language", "zh-min-x-a"]


def read_registry(path):
    """The names of each type, and the Prefixes of a name."""
    names, prefixes = {}, {}
    with open(path, encoding="utf-8") as file:
        for block in file.read().split("%%\n"):
            fields = [line.split(": ", 1) for line in block.splitlines() if ": " in line]
            record = dict(fields)
            name = record.get("Subtag") or record.get("Tag")
            if name and ".." not in name:
                names.setdefault(record["Type"], []).append(name)
                prefixes[record["Type"], name] = [body for label, body in fields if label == "Prefix"]
    return names, prefixes


# How many distinct tags the list `catalogue` has.
CATALOGUE = 400


class Tags:
    def __init__(self, names, prefixes):
        self.random = random.Random(20260102)
        self.names, self.prefixes = names, prefixes

    def pick(self, items):
        return items[self.random.randrange(len(items))]

    def language(self):
        return self.pick(COMMON if self.random.random() < 0.9 else self.names["language"])

    def region(self):
        return self.pick(COMMON_REGIONS if self.random.random() < 0.95 else self.names["region"])

    def script(self):
        return self.pick(COMMON_SCRIPTS if self.random.random() < 0.9 else self.names["script"])

    def extlang(self):
        name = self.pick(self.names["extlang"])
        return self.prefixes["extlang", name][0] + "-" + name

    def variant(self):
        name = self.pick(self.names["variant"])
        prefixes = self.prefixes["variant", name]
        return (self.pick(prefixes) if prefixes else self.language()) + "-" + name

    def unicode(self):
        return self.core() + "-u-" + "-".join(self.random.sample(KEYWORDS, self.random.randint(1, 3)))

    def transform(self):
        return self.core() + "-t-" + self.core() + "-" + "-".join(self.random.sample(FIELDS, self.random.randint(1, 2)))

    def private(self):
        return self.pick([self.language() + "-", self.core() + "-", ""]) + self.pick(PRIVATE)

    def with_region(self):
        return self.language() + "-" + self.region()

    def with_script(self):
        return self.language() + "-" + self.script()

    def with_both(self):
        return self.with_script() + "-" + self.region()

    def core(self):
        return self.random.choices([self.language, self.with_region, self.with_script, self.with_both], [6, 9, 3, 2])[0]()

    def kinds(self):
        """Each kind of tag with its share."""
        return (
            (20, self.language),
            (50, self.with_region),
            (14, self.with_both),
            (6, self.unicode),
            (2, self.transform),
            (3, self.private),
            (1, self.with_script),
            (1, self.variant),
            (1, self.extlang),
            (0.5, lambda: self.pick(self.names["grandfathered"])),
            (0.5, lambda: self.pick(self.names["redundant"])),
            (1, lambda: self.pick(REFUSED)),
        )

    def kind(self):
        """What makes a tag of one of the kinds."""
        kinds = self.kinds()
        return self.random.choices([make for _, make in kinds], [share for share, _ in kinds])[0]

    def tag(self):
        return self.kind()()

    def mixed(self):
        """Tags as catalogues spell them: mostly well, at times in one case."""
        while True:
            tag, kind = self.tag(), self.random.random()
            yield tag.lower() if kind < 0.05 else tag.upper() if kind < 0.08 else tag

    def distinct(self):
        """Tags of which none comes twice."""
        seen = set()
        for tag in self.mixed():
            if tag not in seen:
                seen.add(tag)
                yield tag

    def catalogue(self):
        """A few tags, the first the most and the one of rank n an n-th of that."""
        tags = list(itertools.islice(self.distinct(), CATALOGUE))
        shares = list(itertools.accumulate(1 / (rank + 1) for rank in range(CATALOGUE)))
        while True:
            yield self.random.choices(tags, cum_weights=shares)[0]


# How many tags are tried before a kind is taken to have run out.
TRIES = 200


class NewTags(Tags):
    """Tags by any subtag of the registry: the common ones don't come more often."""

    def language(self):
        return self.pick(self.names["language"])

    def region(self):
        return self.pick(self.names["region"])

    def script(self):
        return self.pick(self.names["script"])

    def cased(self, tag):
        """The tag as it is, or in random case."""
        if self.random.random() < 0.92:
            return tag
        return "".join(self.pick([letter.lower(), letter.upper()]) for letter in tag)

    def new(self):
        """Tags of each kind in its share, as long as it has more, and none of them twice."""
        seen = set()
        while True:
            make = self.kind()
            for tag in (self.cased(make()) for _ in range(TRIES)):
                if tag not in seen:
                    seen.add(tag)
                    yield tag
                    break


def main():
    names = read_registry(sys.argv[1])
    tags = Tags(*names)
    lists = {"mixed": tags.mixed, "catalogue": tags.catalogue, "distinct": tags.distinct, "new": NewTags(*names).new}
    usual = 20000 if sys.argv[2] == "new" else 200000
    count = int(sys.argv[3]) if len(sys.argv) > 3 else usual
    sys.stdout.writelines(tag + "\n" for tag in itertools.islice(lists[sys.argv[2]](), count))


if __name__ == "__main__":
    main()
