#!/usr/bin/env python3
"""Prints a registry of the size and the shape of IANA's: 9,275 records, some 730 kB.

The common subtags are real ones, the others made up. The same file comes out each time.
"""

import random
import sys

RECORDS = 9275
EXTLANGS = 250
SCRIPTS = 220
REGIONS = 300
VARIANTS = 110
OLD_LANGUAGES = 60

LETTERS = "abcdefghijklmnopqrstuvwxyz"

TWO_LETTERS = """
aa ab ae af ak am an ar as av ay az ba be bg bh bi bm bn bo br bs ca ce ch co cr cs cu cv cy da de dv dz ee el en eo
es et eu fa ff fi fj fo fr fy ga gd gl gn gu gv ha he hi ho hr ht hu hy hz ia id ie ig ii ik io is it iu ja jv ka kg
ki kj kk kl km kn ko kr ks ku kv kw ky la lb lg li ln lo lt lu lv mg mh mi mk ml mn mr ms mt my na nb nd ne ng nl nn
no nr nv ny oc oj om or os pa pi pl ps pt qu rm rn ro ru rw sa sc sd se sg si sk sl sm sn so sq sr ss st su sv sw ta
te tg th ti tk tl tn to tr ts tt tw ty ug uk ur uz ve vi vo wa wo xh yi yo za zh zu
""".split()

OLD_TWO_LETTERS = [("in", "id"), ("iw", "he"), ("ji", "yi"), ("jw", "jv"), ("mo", "ro")]

THREE_LETTERS = """
ami ase bfi bnn bzs cmn csn dse dsl fsl gan gsg gss hak hsn hyw ise isg jbo jsl kok mfs min nan ncs nsi psr pwn sfb
sfs sgg sgn ssp swl tao tay tlh tsu vgt wuu yue
""".split()

PREFIXES = ["ar", "kok", "lv", "ms", "sgn", "sw", "uz", "zh"]
REAL_EXTLANGS = [("cmn", "zh"), ("gan", "zh"), ("hak", "zh"), ("hsn", "zh"), ("min", "ms"), ("nan", "zh"),
                 ("wuu", "zh"), ("yue", "zh")]

REAL_SCRIPTS = """
Arab Armn Beng Bopo Brai Cans Cher Cyrl Deva Ethi Geor Goth Grek Gujr Guru Hang Hani Hans Hant Hebr Hira Jpan Kana
Khmr Knda Kore Laoo Latn Mlym Mong Mymr Orya Sinh Sund Syrc Taml Telu Tfng Thaa Thai Tibt Yiii Zsym Zxxx Zyyy Zzzz
""".split()

OLD_REGIONS = [("BU", "MM"), ("DD", "DE"), ("FX", "FR"), ("TP", "TL"), ("YD", "YE"), ("ZR", "CD")]
REAL_REGIONS = """
AD AE AF AG AI AL AM AO AR AT AU AZ BA BB BD BE BF BG BH BI BJ BN BO BR BS BT BW BY BZ CA CD CF CG CH CI CL CM CN CO
CR CU CV CY CZ DE DJ DK DM DO DZ EC EE EG ER ES ET FI FJ FM FR GA GB GD GE GH GM GN GQ GR GT GW GY HK HN HR HT HU ID
IE IL IN IQ IR IS IT JM JO JP KE KG KH KI KM KN KP KR KW KZ LA LB LC LI LK LR LS LT LU LV LY MA MC MD ME MG MH MK ML
MM MN MO MR MT MU MV MW MX MY MZ NA NE NG NI NL NO NP NR NZ OM PA PE PG PH PK PL PT PW PY QA RO RS RU RW SA SB SC SD
SE SG SI SK SL SM SN SO SR ST SV SY SZ TD TG TH TJ TL TM TN TO TR TT TV TW TZ UA UG US UY UZ VA VC VE VN VU WS YE ZA
ZM ZW
""".split()

# name, value, prefixes
REAL_VARIANTS = [
    ("1606nict", "", ["frm"]), ("1694acad", "", ["fr"]), ("1901", "", ["de"]), ("1959acad", "", ["be"]),
    ("1994", "", ["sl-rozaj", "sl-rozaj-biske"]), ("1996", "", ["de"]), ("alalc97", "", []),
    ("arevela", "hy", ["hy"]), ("arevmda", "hyw", ["hy"]), ("biske", "", ["sl-rozaj"]), ("boont", "", ["en"]),
    ("fonipa", "", []), ("fonupa", "", []), ("hepburn", "", ["ja-Latn"]),
    ("heploc", "alalc97", ["ja-Latn-hepburn"]), ("nedis", "", ["sl"]), ("oxendict", "", ["en"]),
    ("pinyin", "", ["zh-Latn", "bo-Latn"]), ("rozaj", "", ["sl"]), ("scotland", "", ["en"]),
    ("scouse", "", ["en"]), ("simple", "", []), ("tarask", "", ["be"]), ("valencia", "", ["ca"]),
    ("wadegile", "", ["zh-Latn"]),
]

GRANDFATHERED = [
    ("art-lojban", "jbo"), ("cel-gaulish", ""), ("en-GB-oed", "en-GB-oxendict"), ("i-ami", "ami"), ("i-bnn", "bnn"),
    ("i-default", ""), ("i-enochian", ""), ("i-hak", "hak"), ("i-klingon", "tlh"), ("i-lux", "lb"), ("i-mingo", ""),
    ("i-navajo", "nv"), ("i-pwn", "pwn"), ("i-tao", "tao"), ("i-tay", "tay"), ("i-tsu", "tsu"), ("no-bok", "nb"),
    ("no-nyn", "nn"), ("sgn-BE-FR", "sfb"), ("sgn-BE-NL", "vgt"), ("sgn-CH-DE", "sgg"), ("zh-guoyu", "cmn"),
    ("zh-hakka", "hak"), ("zh-min", ""), ("zh-min-nan", "nan"), ("zh-xiang", "hsn"),
]

REDUNDANT = [
    (tag, "") for tag in """
az-Arab az-Cyrl az-Latn be-Latn bs-Cyrl bs-Latn de-1901 de-1996 de-AT-1901 de-AT-1996 de-CH-1901 de-CH-1996
de-DE-1901 de-DE-1996 en-boont en-scouse es-419 iu-Cans iu-Latn mn-Cyrl mn-Mong sl-nedis sl-rozaj sr-Cyrl sr-Latn
tg-Arab tg-Cyrl uz-Cyrl uz-Latn yi-Latn zh-Hans zh-Hans-CN zh-Hans-HK zh-Hans-MO zh-Hans-SG zh-Hans-TW zh-Hant
zh-Hant-CN zh-Hant-HK zh-Hant-MO zh-Hant-SG zh-Hant-TW
""".split()
] + [
    ("sgn-BR", "bzs"), ("sgn-CO", "csn"), ("sgn-DE", "gsg"), ("sgn-DK", "dsl"), ("sgn-ES", "ssp"), ("sgn-FR", "fsl"),
    ("sgn-GB", "bfi"), ("sgn-GR", "gss"), ("sgn-IE", "isg"), ("sgn-IT", "ise"), ("sgn-JP", "jsl"), ("sgn-MX", "mfs"),
    ("sgn-NI", "ncs"), ("sgn-NL", "dse"), ("sgn-NO", "nsi"), ("sgn-PT", "psr"), ("sgn-SE", "swl"), ("sgn-US", "ase"),
    ("sgn-ZA", "sfs"), ("zh-cmn", "cmn"), ("zh-cmn-Hans", "cmn-Hans"), ("zh-cmn-Hant", "cmn-Hant"), ("zh-gan", "gan"),
    ("zh-wuu", "wuu"), ("zh-yue", "yue"),
]


class Registry:
    """Collects the records, and makes up what the real ones would hold besides their names."""

    def __init__(self):
        self.random = random.Random(20260101)
        self.records = []

    def word(self):
        """A made-up name of a language, a script or a place."""
        syllables = self.random.randint(2, 4)
        text = "".join(self.random.choice("bdfgklmnprstvwz") + self.random.choice("aeiou") for _ in range(syllables))
        return text.capitalize()

    def description(self):
        return " ".join(self.word() for _ in range(self.random.choice([1, 2, 2, 2, 3])))

    def date(self):
        return "%d-%02d-%02d" % (self.random.choice([2005, 2009, 2012]), self.random.randint(1, 12), self.random.randint(1, 28))

    def add(self, kind, name, value="", prefixes=(), notes=()):
        label = "Tag" if kind in ("grandfathered", "redundant") else "Subtag"
        lines = ["Type: " + kind, label + ": " + name, "Description: " + self.description(), "Added: " + self.date()]
        if value:
            lines += ["Deprecated: " + self.date(), "Preferred-Value: " + value]
        lines += ["Prefix: " + prefix for prefix in prefixes]
        lines += notes
        self.records.append("\n".join(lines))

    def made_up(self, length, taken, spell):
        """A name of so many letters that is not taken yet."""
        while True:
            name = spell("".join(self.random.choice(LETTERS) for _ in range(length)))
            if name not in taken:
                taken.add(name)
                return name


def add_languages(registry, count):
    private = {"q" + b + c for b in LETTERS[:20] for c in LETTERS}
    taken = {old for old, _ in OLD_TWO_LETTERS}.union(TWO_LETTERS, THREE_LETTERS, ["frm"], private)
    for name in TWO_LETTERS:
        registry.add("language", name, notes=["Suppress-Script: Latn"] if name in ("de", "en", "fr", "es") else ())
    for old, name in OLD_TWO_LETTERS:
        registry.add("language", old, name)
    names = THREE_LETTERS + ["frm"]
    left = count - len(TWO_LETTERS) - len(OLD_TWO_LETTERS) - 1
    while len(names) < left:
        names.append(registry.made_up(3, taken, str))
    old = set(names[-OLD_LANGUAGES:])
    final = names[len(THREE_LETTERS) + 1:-OLD_LANGUAGES]
    for name in sorted(names):
        if name in old:
            registry.add("language", name, registry.random.choice(final))
        elif registry.random.random() < 0.05:
            registry.add("language", name, notes=["Macrolanguage: " + registry.random.choice(PREFIXES)])
        else:
            registry.add("language", name)
    registry.add("language", "qaa..qtz", notes=["Scope: private-use"])
    return final


def add_extlangs(registry, languages):
    real = {name for name, _ in REAL_EXTLANGS}
    others = [name for name in languages if name not in real and name not in ("bok", "nyn")]
    made_up = [(name, registry.random.choice(PREFIXES)) for name in registry.random.sample(others, EXTLANGS - len(real))]
    for name, prefix in sorted(REAL_EXTLANGS + made_up):
        registry.add("extlang", name, name, [prefix], ["Macrolanguage: " + prefix])


def add_scripts(registry):
    taken = set(REAL_SCRIPTS)
    names = list(REAL_SCRIPTS)
    while len(names) < SCRIPTS - 1:
        name = registry.made_up(4, taken, str.capitalize)
        if not name.startswith("Qa"):
            names.append(name)
    for name in sorted(names):
        registry.add("script", name)
    registry.add("script", "Qaaa..Qabx", notes=["Scope: private-use"])


def add_regions(registry):
    for old, name in OLD_REGIONS:
        registry.add("region", old, name)
    for name in REAL_REGIONS:
        registry.add("region", name)
    registry.add("region", "419")
    registry.add("region", "XA..XZ", notes=["Scope: private-use"])
    left = REGIONS - len(OLD_REGIONS) - len(REAL_REGIONS) - 2
    for number in range(left):
        registry.add("region", "%03d" % (1 + 4 * number))


def add_variants(registry):
    taken = {name for name, _, _ in REAL_VARIANTS} | {"lojban", "gaulish", "guoyu", "hakka", "xiang"}
    for name, value, prefixes in REAL_VARIANTS:
        registry.add("variant", name, value, prefixes)
    for _ in range(VARIANTS - len(REAL_VARIANTS)):
        name = registry.made_up(registry.random.randint(5, 8), taken, str)
        registry.add("variant", name, prefixes=[registry.random.choice(TWO_LETTERS)])


def main():
    registry = Registry()
    fixed = EXTLANGS + SCRIPTS + REGIONS + VARIANTS + len(GRANDFATHERED) + len(REDUNDANT)
    languages = add_languages(registry, RECORDS - fixed)
    add_extlangs(registry, languages)
    add_scripts(registry)
    add_regions(registry)
    add_variants(registry)
    for tag, value in GRANDFATHERED:
        registry.add("grandfathered", tag, value)
    for tag, value in REDUNDANT:
        registry.add("redundant", tag, value)
    sys.stdout.write("File-Date: 2026-01-01\n")
    for record in registry.records:
        sys.stdout.write("%%\n" + record + "\n")


if __name__ == "__main__":
    main()
