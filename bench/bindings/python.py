"""Calls a second of the package and of PyICU over valid and refused tags, and of the tag that is served beside werkzeug's, in turns: the
best round of each. Arguments: registry, tags."""
import sys
import time

import icu
from werkzeug.datastructures import LanguageAccept
from werkzeug.http import parse_accept_header

import bcp47

ROUNDS = 5
registry = bcp47.Registry.from_file(sys.argv[1])
with open(sys.argv[2]) as file:
    TAGS = file.read().split("\n")[:-1]
VALID = [tag for tag in TAGS if registry.is_valid(tag)]
REFUSED = [tag for tag in TAGS if not registry.is_valid(tag)] * 20
OFFERED = "ar de en en-GB es fr he ja pt-BR ru zh-Hans zh-Hant".split()
HEADERS = ["de-CH, de;q=0.8, en;q=0.5", "pt-BR, pt;q=0.9, en;q=0.8", "zh-TW, zh-Hant;q=0.9, en;q=0.1", "nl, fr-CA;q=0.7, fr;q=0.3"] * 5000
available = registry.available(OFFERED)


def pyicu(tag):
    return icu.Locale.createCanonical(icu.Locale.forLanguageTag(tag).getName()).toLanguageTag()


def each(ask):
    """Asks of each, and passes over what is raised."""
    def asked(those):
        for one in those:
            try:
                ask(one)
            except (bcp47.RefusedTag, icu.ICUError):
                pass
    return asked


CALLS = (
    ("canonical, valid tags", each(registry.canonical), VALID), ("canonical_many, valid tags", registry.canonical_many, VALID),
    ("canonical, refused tags", each(registry.canonical), REFUSED), ("canonical_many, refused tags", registry.canonical_many, REFUSED),
    ("canonical_columns, refused tags", registry.canonical_columns, REFUSED), ("is_valid, refused tags", each(registry.is_valid), REFUSED),
    ("Tag and its region, valid tags", each(lambda tag: bcp47.Tag(tag).region), VALID),
    ("PyICU, valid tags", each(pyicu), VALID), ("PyICU, refused tags", each(pyicu), REFUSED[:20000]),
    ("best, headers of three ranges over twelve tags", each(available.best), HEADERS),
    ("werkzeug, the same", each(lambda header: parse_accept_header(header, LanguageAccept).best_match(OFFERED)), HEADERS),
)


def seconds(ask, those):
    begun = time.process_time()
    ask(those)
    return time.process_time() - begun


best = {name: float("inf") for name, _, _ in CALLS}
for _ in range(ROUNDS):
    for name, ask, those in CALLS:
        best[name] = min(best[name], seconds(ask, those))
for name, _, those in CALLS:
    print(f"Python, {name}: {len(those) / best[name] / 1e6:.2f} million a second")
