"""The tag that is served to a reader: headers of browsers by docs/PYTHON.md's middleware, and werkzeug's best_match beside it, each
difference with its reason. Arguments: IANA's registry, and the file of the page's program."""
import runpy
import sys
import threading
import unittest
from wsgiref.util import setup_testing_defaults
from wsgiref.validate import validator

from werkzeug.datastructures import LanguageAccept
from werkzeug.http import parse_accept_header

import bcp47

REGISTRY, PROGRAM = sys.argv[1:3]
registry = bcp47.Registry.from_file(REGISTRY)

# What browsers send, as they are set up in a country, and the tag of en, de and zh-Hant that is served.
BROWSERS = (
    ("Chrome, Germany", "de-DE,de;q=0.9,en-US;q=0.8,en;q=0.7", "de"),
    ("Firefox, Switzerland", "de-CH,de;q=0.8,en-US;q=0.5,en;q=0.3", "de"),
    ("Safari, Taiwan", "zh-TW,zh-Hant;q=0.9", "zh-Hant"),
    ("Edge, United Kingdom", "en-GB,en;q=0.9,en-US;q=0.8,de;q=0.7", "en"),
    ("Chrome on a telephone, Brazil", "pt-BR,pt;q=0.9,en-US;q=0.8,en;q=0.7", "en"),
)

# A header, tags, what werkzeug serves, what is served here, and why they differ. The first rows are of werkzeug's own tests.
ALIKE = ""
UNDERSCORE = "an underscore is refused"
BESIDE_WERKZEUG = (
    ("en-us", "en", "en", "en", ALIKE),
    ("en", "en-US", "en-US", "en-US", ALIKE),
    ("en", "en_US", "en_US", "BadByte 1", UNDERSCORE),
    ("en-GB", "en-US", None, None, ALIKE),
    ("de_AT, de;q=0.9, en-US;q=0.8", "de en", "de", "BadByte 1", UNDERSCORE),
    ("de-AT, de;q=0.9", "en", None, None, ALIKE),
    ("de-AT;q=0.9, en-US", "en", "en", "en", ALIKE),
    ("en-GB", "en-US en", "en", "en", ALIKE),
    ("aus", "aus-EN", "aus-EN", "UnknownRegion 2", "a tag that is not valid is refused"),
    ("iw", "he en", None, "he", "equivalent tags"),
    ("i-klingon", "tlh en", None, "tlh", "equivalent tags"),
    ("zh-yue-HK", "yue en", None, "yue", "equivalent tags"),
    ("yue-HK", "zh en", None, "zh", "extlang forms"),
    ("zh", "yue en", None, "yue", "extlang forms"),
    ("no", "nb en", None, "nb", "equivalent tags"),
    ("nb", "no en", None, "no", "equivalent tags"),
    ("nb", "no nb-NO", "nb-NO", "nb-NO", ALIKE),
    ("pt-BR, en;q=0.9", "pt en", "en", "pt", "the greatest weight decides, also where its range is shortened"),
    ("en, de", "de en", "de", "en", "of equal weights the first of the header decides, and not the first tag"),
    ("zh-Hant-TW", "zh-Hans zh", "zh", "zh", ALIKE),
    ("de-CH-1996", "de-CH de", "de", "de-CH", "a range is shortened by one subtag at a time"),
    ("de", "de-CH de-AT", "de-CH", "de-CH", ALIKE),
    ("en;q=0, *", "en de", "de", "de", ALIKE),
    ("*", "en de", "en", "en", ALIKE),
    ("fr, *;q=0.5", "en de", "en", "en", ALIKE),
    ("de;q=2", "de", "de", "BadWeight 1", "a header that is none is refused"),
    ("sr-Latn-RS", "sr sr-Cyrl", "sr", "sr", ALIKE),
)


def served(header, tags):
    """What is served, or why that can't be told."""
    try:
        return registry.available(tags).best(header)
    except bcp47.RefusedTag as refused:
        return str(refused)


class Serving(unittest.TestCase):
    def test_browsers(self):
        localized = runpy.run_path(PROGRAM)["localized"]

        def application(environ, start_response):
            start_response("200 OK", [("Content-Type", "text/plain; charset=utf-8")])
            return [environ["language"].encode()]

        def asked(header):
            environ, told = {"QUERY_STRING": ""}, {}
            setup_testing_defaults(environ)
            if header is not None:
                environ["HTTP_ACCEPT_LANGUAGE"] = header
            body = validator(localized(application))(environ, lambda status, headers: told.update(headers))
            text = b"".join(body).decode()
            body.close()
            self.assertEqual((told["Content-Language"], told["Vary"]), (text, "Accept-Language"))
            return text

        wanted = [(name, tag) for name, _, tag in BROWSERS]
        self.assertEqual([(name, asked(header)) for name, header, _ in BROWSERS], wanted)
        # no header, an empty one, and one that is none
        self.assertEqual([asked(header) for header in (None, "", "de;q=2", "\xff", "de" * 5000)], ["en"] * 5)
        answers = []
        threads = [threading.Thread(target=lambda: answers.extend(asked(header) for _ in range(50) for _, header, _ in BROWSERS)) for _ in range(8)]
        for thread in threads:
            thread.start()
        for thread in threads:
            thread.join()
        self.assertEqual((len(answers), {*answers}), (2000, {tag for _, _, tag in BROWSERS}))

    def test_beside_werkzeug(self):
        for header, tags, theirs, ours, why in BESIDE_WERKZEUG:
            with self.subTest(header=header, tags=tags):
                said = parse_accept_header(header, LanguageAccept).best_match(tags.split())
                self.assertEqual((said, served(header, tags.split())), (theirs, ours))
                self.assertEqual(theirs == ours, why == ALIKE)


if __name__ == "__main__":
    unittest.main(argv=sys.argv[:1])
