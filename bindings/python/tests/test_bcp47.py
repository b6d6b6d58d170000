"""Tests of the package, and of docs/PYTHON.md's example. Arguments: the sample registry, IANA's registry."""
import gc
import sys
import threading
import unittest
from pathlib import Path

import bcp47

SAMPLE, IANA = sys.argv[1:3]
DESCRIBED = b"""File-Date: 2000-01-01
%%
Type: language
Subtag: zh
Description: Chinese
Added: 2005-10-16
Scope: macrolanguage
%%
Type: extlang
Subtag: yue
Description: Yue
  Chinese
description: "Cantonese" \xe7\xb2\xb5
Preferred-Value: yue
Prefix: zh
%%
Type: language
Subtag: yue
%%
Type: redundant
Tag: zh-Hant
Description: traditional
"""


class Examples(unittest.TestCase):
    def test_of_the_page(self):
        with bcp47.Registry.from_file(SAMPLE) as registry:
            self.assertEqual(registry.canonical("zh-yue"), "yue")
            self.assertTrue(registry.equivalent("zh-yue", "YUE"))
            self.assertEqual(registry.canonical_many(["I-KLINGON", "iw"]), ["tlh", "he"])
            with self.assertRaises(bcp47.RefusedTag) as raised:
                registry.canonical("en_US")
            self.assertEqual((str(raised.exception), raised.exception.fault, raised.exception.place), ("BadByte 1", "BadByte", 1))
            explanation = registry.explain("sgn-dd")
            self.assertEqual(explanation,
                             ((bcp47.Step("Region", 2, 27, "sgn-DE"), bcp47.Step("Whole", 1, 44, "gsg")), "gsg"))
            self.assertIsNone(registry.verify("sgn-dd", explanation.steps))


class Calls(unittest.TestCase):
    def setUp(self):
        self.registry = bcp47.Registry.from_file(SAMPLE)

    def tearDown(self):
        self.registry.close()

    def test_others(self):
        self.assertEqual(self.registry.extlang("yue"), "zh-yue")
        self.assertIsNone(self.registry.validate("zh-yue"))
        self.assertFalse(self.registry.equivalent("zh-yue", "zh"))
        self.assertEqual(self.registry.explain("en"), ((), "en"))
        self.assertRaises(bcp47.RefusedTag, self.registry.validate, "xx")
        self.assertRaises(bcp47.RefusedTag, self.registry.equivalent, "en", "xx")
        self.assertRaises(bcp47.RefusedTag, self.registry.explain, "")

    def judged(self, tag, steps, last=None):
        """What is raised for steps."""
        with self.assertRaises(bcp47.RefusedTrace) as raised:
            self.registry.verify(tag, steps, last)
        return str(raised.exception), raised.exception.status, raised.exception.place

    def test_verify(self):
        first, second = steps = self.registry.explain("sgn-dd").steps
        self.assertIsNone(self.registry.verify("sgn-dd", steps, "GSG"))
        self.assertIsNone(self.registry.verify(bcp47.Tag("sgn-dd"), [first]))
        self.assertIsNone(self.registry.verify("en", []))
        self.assertIsNone(self.registry.verify("en", [], bcp47.Tag("EN")))
        for wrong in (second._replace(number=43), second._replace(place=2), second._replace(kind="Region"),
                      second._replace(kind="whole"), second._replace(place=2**32 + 1), second._replace(number=44.0),
                      second._replace(place=-1)):
            self.assertEqual(self.judged("sgn-dd", (first, wrong)), ("NoSuchStep 2", "NoSuchStep", 2))
        self.assertEqual(self.judged("sgn-dd", (second,)), ("NoSuchStep 1", "NoSuchStep", 1))
        self.assertEqual(self.judged("sgn-dd", (first, second, second)), ("NoSuchStep 3", "NoSuchStep", 3))
        self.assertEqual(self.judged("sgn-dd", (first,), "gsg"), ("WrongEnd", "WrongEnd", 0))
        self.assertEqual(self.judged("sgn-dd", (first, second._replace(tag="sgn"))), ("WrongEnd", "WrongEnd", 0))
        self.assertEqual(self.judged("en", [], "de"), ("WrongEnd", "WrongEnd", 0))
        for tag, last in (("xx", "gsg"), ("sgn-dd", "gsg-")):
            with self.assertRaises(bcp47.RefusedTag) as raised:
                self.registry.verify(tag, steps, last)
            self.assertEqual(raised.exception.tag, tag if tag == "xx" else last)
        with self.assertRaises(bcp47.RefusedTrace) as ended:
            self.registry.verify("sgn-dd", [first], "gsg")
        self.assertIn("mend the last tag", ended.exception.help)
        self.assertRaises(TypeError, self.registry.verify, "sgn-dd", self.registry.explain("sgn-dd"))
        self.assertRaises(TypeError, self.registry.verify, "sgn-dd", None)
        self.assertRaises(TypeError, self.registry.verify, b"sgn-dd", steps)

    def test_long_explanations(self):
        tag = "en-u-" + "-".join(f"z{n:02}" for n in range(60, 0, -1))
        explanation = self.registry.explain(tag)
        self.assertEqual(len(explanation.steps), 60 * 59 // 2)
        self.assertIsNone(self.registry.verify(tag, explanation.steps, explanation.canonical))
        self.assertEqual(explanation.canonical, self.registry.canonical(tag))

    def test_the_longest_text_has_room(self):
        records = "Type: language\nSubtag: aa\n"
        for n in range(204):
            records += f"%%\nType: variant\nSubtag: 1{n:03}\nPreferred-Value: value{n:03}\n%%\nType: variant\nSubtag: value{n:03}\n"
        tag, canonical = ("-".join(["aa", *(f"{front}{n:03}" for n in range(204))]) for front in ("1", "value"))
        self.assertEqual((len(tag), len(canonical)), (1022, 1838))
        with bcp47.Registry.from_bytes(records.encode()) as registry:
            self.assertEqual(registry.canonical(tag), canonical)
            self.assertEqual(registry.canonical_many([tag] * 40), [canonical] * 40)

    def test_tags(self):
        tag = bcp47.Tag("ZH-yue-hANT-hk")
        self.assertEqual((str(tag), tag.kind, repr(tag)), ("zh-yue-Hant-HK", "langtag", "Tag('zh-yue-Hant-HK')"))
        self.assertEqual(tag, bcp47.Tag("zh-yue-hant-hk"))
        self.assertEqual(hash(tag), hash(bcp47.Tag("zh-yue-hant-hk")))
        self.assertNotEqual(tag, bcp47.Tag("yue"))
        self.assertNotEqual(tag, "zh-yue-Hant-HK")
        self.assertEqual(bcp47.Tag("X-own").kind, "privateuse")
        self.assertEqual(bcp47.Tag("i-klingon").kind, "grandfathered")
        self.assertEqual(self.registry.canonical(bcp47.Tag("iw")), "he")
        self.assertRaises(bcp47.RefusedTag, bcp47.Tag, "e")

    def test_parents(self):
        # the example of RFC 4647, 3.4
        chain = [bcp47.Tag("zh-Hant-CN-x-private1-private2")]
        while chain[-1] is not None:
            chain.append(chain[-1].parent)
        self.assertEqual(list(map(str, chain[1:-1])), ["zh-Hant-CN-x-private1", "zh-Hant-CN", "zh-Hant", "zh"])
        self.assertRaises(bcp47.RefusedTag, bcp47._bcp47.parent, "en_US")
        self.assertRaises(TypeError, bcp47._bcp47.parent, 7)

    def test_records(self):
        registry = bcp47.Registry.from_bytes(DESCRIBED)
        self.assertEqual(registry.record(1), (("File-Date", "2000-01-01"),))
        self.assertEqual(dict(registry.record(3))["description"], '"Cantonese" \u7cb5')
        self.assertEqual([dict(record).get("Type") for record in registry.records()], [None, "language", "extlang", "language", "redundant"])
        self.assertEqual([registry.record(number) for number in (6, 0, -1, 2**32 + 1, 2**80, -(2**80))], 6 * [()])
        self.assertRaises(TypeError, registry.record, "1")
        registry.close()
        self.assertRaises(ValueError, registry.record, 1)

    def test_show(self):
        with bcp47.Registry.from_bytes(DESCRIBED) as registry:
            chinese = bcp47.Row(1, "Language", "zh", "Record", 2, (("Description", "Chinese"), ("Scope", "macrolanguage")))
            yue = bcp47.Row(2, "Extlang", "yue", "Record", 3, (("Description", "Yue Chinese"), ("description", '"Cantonese" 粵'),
                                                             ("Preferred-Value", "yue"), ("Prefix", "zh")))
            self.assertEqual(registry.show("ZH-YUE"), [chinese, yue])
            self.assertEqual((yue.bodies("description"), yue.bodies("Scope")), (("Yue Chinese", '"Cantonese" 粵'), ()))
            self.assertEqual(registry.show(bcp47.Tag("zh-hant-x-own")),
                             [chinese, (2, "Script", "Hant", "Unregistered", None, ()),
                              (3, "PrivateUseSingleton", "x", "Unlisted", None, ()), (4, "PrivateUse", "own", "Unlisted", None, ())])
            self.assertEqual(registry.show("zh-HANT")[0], (1, "Whole", "zh-Hant", "Record", 5, (("Description", "traditional"),)))
            with self.assertRaises(bcp47.RefusedTag) as raised:
                registry.show("en_US")
            self.assertEqual((raised.exception.tag, str(raised.exception)), ("en_US", "BadByte 1"))
            self.assertEqual(len(registry.show("x" + "-a" * 500)), 501)
            self.assertRaises(TypeError, registry.show, b"zh")
            self.assertRaises(bcp47.RefusedTag, registry.show, "zh-\udc80")

    def test_many(self):
        answers = self.registry.canonical_many(["zh-yue", "en_US", bcp47.Tag("iw"), ""])
        self.assertEqual([str(answer) for answer in answers], ["yue", "BadByte 1", "he", "EmptySubtag 1"])
        self.assertEqual(self.registry.canonical_many([]), [])

    def test_long_texts(self):
        private = "x-" + "-".join(["abcdefgh"] * 113)
        self.assertEqual(self.registry.canonical("en-" + private), "en-" + private)
        with self.assertRaises(bcp47.RefusedTag) as raised:
            self.registry.canonical("a" * 100000)
        self.assertEqual(str(raised.exception), "TooLong 0")

    def test_wrong_words(self):
        for wrong in (1, b"en", ["en"]):
            self.assertRaises(TypeError, self.registry.canonical, wrong)
            self.assertRaises(TypeError, self.registry.canonical_many, [wrong])
            self.assertRaises(TypeError, bcp47.Tag, wrong)
        self.assertRaises(TypeError, self.registry.canonical, None)
        self.assertRaises(TypeError, bcp47.Tag, None)
        for wrong in ("en-\udc80", "en-\u00e9"):
            self.assertRaisesRegex(bcp47.RefusedTag, "BadByte 2", self.registry.canonical, wrong)
        self.assertRaises(bcp47.RefusedTag, self.registry.canonical, "en\0")
        self.assertRaises(TypeError, self.registry.upgrade_check, "registry")
        self.assertRaises(TypeError, bcp47.Registry)

    def test_closed(self):
        with self.registry as registry:
            pass
        registry.close()
        for call in (registry.canonical, registry.extlang, registry.validate, registry.explain, registry.show):
            self.assertRaises(ValueError, call, "en")
        self.assertRaises(ValueError, registry.canonical_many, ["en"])
        self.assertRaises(ValueError, registry.verify, "en", [])
        self.assertRaises(ValueError, registry.equivalent, "en", "en")
        self.assertRaises(ValueError, registry.matches, "en", "en")
        self.assertRaises(ValueError, registry.__enter__)

    def test_refused_registries(self):
        for text, line in (
            (b"no registry\n", "jar BadLine line 1"),
            (b"%%\nType: language\nSubtag: en\n%%\nType: tongue\nSubtag: fr\n", "record 2 UnknownType"),
            (b"\xff", "jar NotUtf8 line 1"),
        ):
            with self.assertRaises(bcp47.RefusedRegistry) as raised:
                bcp47.Registry.from_bytes(text)
            self.assertEqual(str(raised.exception), line)
        self.assertRaises(TypeError, bcp47.Registry.from_bytes, "text")
        self.assertRaises(OSError, bcp47.Registry.from_file, "/no/such/file")
        gc.collect()

    def test_upgrades(self):
        self.assertIsNone(self.registry.upgrade_check(self.registry))
        self.assertIsNone(self.registry.upgrade_check(bcp47.Registry.from_file(SAMPLE)))
        with self.assertRaises(bcp47.RefusedUpgrade) as raised:
            self.registry.upgrade_check(bcp47.Registry.from_bytes(b"File-Date: 2000-01-01\n%%\nType: language\nSubtag: en\n"))
        self.assertEqual((str(raised.exception), raised.exception.fault, raised.exception.status), ("U1 2", "U1", "NoUpgrade"))

    def test_threads(self):
        wrong = []

        def ask():
            for _ in range(2000):
                if self.registry.canonical("zh-yue") != "yue":
                    wrong.append(1)

        threads = [threading.Thread(target=ask) for _ in range(8)]
        for thread in threads:
            thread.start()
        for thread in threads:
            thread.join()
        self.assertEqual(wrong, [])

    def test_matches(self):
        self.assertTrue(self.registry.matches("zh-yue", "yue-GB"))
        self.assertTrue(self.registry.matches(bcp47.Tag("zh-yue"), bcp47.Tag("yue-GB"), scheme="basic"))
        self.assertTrue(self.registry.matches("zh", "yue-GB"))
        self.assertFalse(self.registry.matches("yue", "zh-GB"))
        self.assertTrue(self.registry.matches("de-DE", "de-Latn-DE"))
        self.assertFalse(self.registry.matches("de-DE", "de-Latn-DE", "basic"))
        self.assertTrue(self.registry.matches("de-Latn-DE", "de", "lookup"))
        repeats = "ja-Latn-hepburn-alalc97-heploc"
        for range, tag, refused, line, variant in (
            ("1996-de", "en_US", "1996-de", "BadFirst 0", None),
            ("en_US", "en", "en_US", "BadByte 0", None),
            ("xx-*", "xx", "xx", "UnknownLanguage 1", None),
            (repeats, "e", repeats, "ReplacementRepeats alalc97", "alalc97"),
            ("*", repeats, repeats, "ReplacementRepeats alalc97", "alalc97"),
        ):
            with self.assertRaises(bcp47.RefusedTag) as raised:
                self.registry.matches(range, tag)
            self.assertEqual((raised.exception.tag, str(raised.exception), raised.exception.variant), (refused, line, variant))
        for wrong in ("", "Basic", None, 1):
            self.assertRaises(ValueError, self.registry.matches, "en", "en", wrong)
        for wrong in (1, b"en", None):
            self.assertRaises(TypeError, self.registry.matches, wrong, "en")
            self.assertRaises(TypeError, self.registry.matches, "en", wrong)

    def test_the_tag_that_is_served(self):
        tags = ["en-GB", bcp47.Tag("zh-yue"), "de"]
        available = self.registry.available(iter(tags))
        self.assertEqual(available.best("de-CH, de;q=0.8, en;q=0.5"), "de")
        self.assertIs(available.best("YUE-HK"), tags[1])
        self.assertEqual([available.best(accept) for accept in ("en", "*", None, "fr", "de;q=0", "")], ["en-GB"] * 3 + [None] * 3)
        self.assertEqual((available.best("fr", "none"), available.best("fr", default=7)), ("none", 7))
        self.assertEqual((available.filter("de, en;q=0.5"), available.filter("fr"), available.filter(None)), (["de", "en-GB"], [], tags))
        for call in (available.best, available.filter):
            with self.assertRaises(bcp47.RefusedTag) as raised:
                call("en, de;q=2")
            refused = raised.exception
            self.assertEqual((refused.status, refused.fault, refused.place, refused.tag), ("BadHeader", "BadWeight", 2, "en, de;q=2"))
            self.assertRaises(TypeError, call, 7)
        for call in (available.best, available.filter):
            with self.assertRaises(bcp47.RefusedTag) as raised:
                call("en, ja-heploc-alalc97")
            self.assertEqual((raised.exception.status, raised.exception.variant), ("ReplacementRepeats", None))
        none = self.registry.available([])
        self.assertEqual((none.best("de"), none.filter("*")), (None, []))
        with self.assertRaises(bcp47.RefusedTag) as raised:
            self.registry.available(["en", "e_n"])
        self.assertEqual(raised.exception.tag, "e_n")
        for wrong in ("en", bcp47.Tag("en"), b"en", None, [7]):
            self.assertRaises(TypeError, self.registry.available, wrong)
        own = bcp47.Registry.from_file(SAMPLE)
        kept = own.available(["de", "en"])
        own.close()
        self.assertEqual(kept.best("en"), "en")
        self.assertRaises(ValueError, own.available, ["de"])

    def test_tags_with_other_parts(self):
        tag = bcp47.Tag("zh-yue-TW-x-a")
        self.assertEqual(str(tag.replace(script="HANT", region="hk")), "zh-yue-Hant-HK-x-a")
        self.assertEqual(str(tag.replace(region=None, private=(), language="de")), "de")
        made = bcp47.Tag.from_parts("sl", variants=["rozaj", "biske"], extensions={"u": ("co", "phonebk"), "t": "it"}, private=["own"])
        self.assertEqual(str(made), "sl-rozaj-biske-u-co-phonebk-t-it-x-own")
        self.assertEqual(made.replace(extensions=made.extensions, variants=made.variants, private=made.private), made)
        self.assertEqual(str(bcp47.Tag.from_parts("art", variants=["lojban"], private="own")), "art-lojban-x-own")
        self.assertEqual(str(bcp47.Tag("de-gaulish").replace(language="cel", region="FR")), "cel-FR-gaulish")
        self.assertEqual(str(bcp47.Tag("art-lojban-x-own").replace(private=None, region="US")), "art-US-lojban")
        for call, refused in ((lambda: tag.replace(script="Latin"), "Latin"), (lambda: bcp47.Tag("x-own").replace(script="Latn"), "x-own")):
            with self.assertRaises(bcp47.RefusedTag) as raised:
                call()
            self.assertEqual(raised.exception.tag, refused)
        self.assertRaises(TypeError, tag.replace, scripts="Latn")

    def test_tags_of_posix(self):
        for name, wanted in (("sr_RS.UTF-8@latin", "sr-Latn-RS"), ("C", "en-US-u-va-posix"), ("de_AT", "de-AT")):
            self.assertEqual(str(bcp47.Tag.from_posix(name)), wanted)
        with self.assertRaisesRegex(bcp47.RefusedTag, "BadByte 0"):
            bcp47.Tag.from_posix("en_US@klingon")

    def test_examples_of_rfc_4647(self):
        with bcp47.Registry.from_file(IANA) as registry:
            self.assertTrue(registry.matches("zh-yue", "yue-HK"))
            def filtered(range, tags, scheme):
                return [tag for tag in tags if registry.matches(range, tag, scheme)]

            # 3.3.1
            self.assertEqual(filtered("de-de", ["de-DE-1996", "de-Deva", "de-Latn-DE"], "basic"), ["de-DE-1996"])
            self.assertEqual(filtered("de-ch", ["de-CH-1996", "de-CH", "de-DE", "de"], "basic"), ["de-CH-1996", "de-CH"])
            # 3.3.2
            found = ["de-DE", "de-de", "de-Latn-DE", "de-Latf-DE", "de-DE-x-goethe", "de-Latn-DE-1996", "de-Deva-DE"]
            for range in ("de-*-DE", "de-DE"):
                self.assertEqual(filtered(range, [*found, "de", "de-x-DE", "de-Deva"], "extended"), found)
            # 3.4
            tags = ["zh", "zh-Hant", "zh-Hant-CN", "zh-Hant-CN-x-private1", "zh-Hant-CN-x-private1-private2"]
            while tags:
                self.assertEqual(registry.available(tags).best("zh-Hant-CN-x-private1-private2"), tags.pop())
            self.assertEqual(registry.available(["fr", "zh", "ja"]).best("fr-FR, zh-Hant"), "fr")
            self.assertEqual(registry.available(["fr", "zh", "ja"]).best("de-CH, zh-Hant", "ja-JP"), "zh")

    def test_iana(self):
        with bcp47.Registry.from_bytes(Path(IANA).read_bytes()) as registry:
            self.assertEqual(registry.canonical("cmn-Hans"), "cmn-Hans")


if __name__ == "__main__":
    unittest.main(argv=sys.argv[:1])
