"""What users of Python do by habit: copies, pools of processes, forks, signals, threads, columns. Arguments: the sample registry,
and names of tests, if not all are wanted."""
import array
import concurrent.futures
import copy
import decimal
import enum
import gc
import importlib
import inspect
import math
import mmap
import multiprocessing
import os
import pickle
import signal
import struct
import sys
import threading
import time
import traceback
import unittest
import warnings
import weakref

import bcp47

interpreters = importlib.import_module("_xxsubinterpreters" if sys.version_info < (3, 13) else "_interpreters")

SAMPLE = sys.argv[1]
registry = bcp47.Registry.from_file(SAMPLE)


def ask(tag):
    return registry.canonical(tag)


def ask_many(tags):
    return bcp47.Registry.from_file(SAMPLE).canonical_many(tags)


def wait_for(child):
    """The status of a child process that ends within 20 seconds."""
    for _ in range(2000):
        done, status = os.waitpid(child, os.WNOHANG)
        if done:
            return os.waitstatus_to_exitcode(status)
        time.sleep(0.01)
    os.kill(child, signal.SIGKILL)
    os.waitpid(child, 0)
    return "it hangs"


class Copies(unittest.TestCase):
    def test_a_registry_is_not_copied(self):
        for copies in (copy.copy, copy.deepcopy, pickle.dumps):
            with self.assertRaisesRegex(TypeError, "open it in each process"):
                copies(registry)
        self.assertEqual(registry.canonical("zh-yue"), "yue")

    def test_each_exception_is_copied(self):
        raised = []
        for call in (lambda: registry.canonical("en_US"), lambda: bcp47.Registry.from_bytes(b"\xff"),
                     lambda: registry.upgrade_check(bcp47.Registry.from_bytes(b"File-Date: 2000-01-01\n%%\nType: language\nSubtag: en\n")),
                     lambda: registry.verify("sgn-dd", [bcp47.Step("Whole", 1, 44, "gsg")])):
            with self.assertRaises(bcp47.Refused) as caught:
                call()
            raised.append(caught.exception)
        raised[0].row = 7
        for one in raised:
            for other in (pickle.loads(pickle.dumps(one)), copy.copy(one), copy.deepcopy(one)):
                self.assertEqual((type(other), other.args, vars(other), str(other)), (type(one), one.args, vars(one), str(one)))
        self.assertEqual([type(one).__name__ for one in raised],
                         ["RefusedTag", "RefusedRegistry", "RefusedUpgrade", "RefusedTrace"])

    def test_tags(self):
        tag = bcp47.Tag("zh-hant")
        self.assertEqual(pickle.loads(pickle.dumps(tag)), tag)
        self.assertEqual(copy.deepcopy([tag]), [tag])
        for change in (lambda: setattr(tag, "kind", "x"), lambda: setattr(tag, "new", 1), lambda: delattr(tag, "kind")):
            self.assertRaises(AttributeError, change)
        tags = sorted(map(bcp47.Tag, ["yue", "EN", "de-at"]))
        self.assertEqual([str(tag) for tag in tags], ["de-AT", "en", "yue"])
        self.assertTrue(bcp47.Tag("de") < bcp47.Tag("en") and bcp47.Tag("en") >= bcp47.Tag("EN"))
        with self.assertRaises(TypeError):
            bcp47.Tag("de") < "en"
        self.assertEqual((f"{tag:>8}|", f"{tag!s}", "%-8s|" % tag), (" zh-Hant|", "zh-Hant", "zh-Hant |"))

    def test_tags_of_a_class_of_its_own(self):
        class Mine(bcp47.Tag):
            def __reduce__(self):
                return super().__reduce__()

        tag = Mine("en-us")
        for other in (copy.copy(tag), copy.deepcopy(tag), tag.replace(script=None), tag.parent.replace(region="US"),
                      Mine.from_parts("en", region="US"), Mine.from_posix("en_US")):
            self.assertEqual((type(other), other), (Mine, tag))

    def test_tags_that_are_served(self):
        available = registry.available(["de", bcp47.Tag("en")])
        self.assertEqual(repr(available), "<bcp47.Available of 'de', Tag('en')>")
        for copies in (copy.deepcopy, pickle.dumps):
            with self.assertRaisesRegex(TypeError, "<bcp47.Available of .* open it in each process"):
                copies(available)

    def test_enums_of_texts(self):
        class Language(str, enum.Enum):
            GERMAN = "de"
            HEBREW = "iw"

        available = registry.available(Language)
        self.assertIs(available.best("he"), Language.HEBREW)
        self.assertEqual(registry.canonical_many([*Language]), ["de", "he"])


# Python's warning that a fork beside threads may hang is what is tested.
warnings.filterwarnings("ignore", category=DeprecationWarning, message=".*fork")


class Parts(unittest.TestCase):
    """By the examples of RFC 5646, RFC 6067 and RFC 6497."""

    def test_of_a_langtag(self):
        tag = bcp47.Tag("zh-YUE-hant-hk-1994-a-bbb-u-ATTR-co-phonebk-ca-buddhist-foo-x-own")
        self.assertEqual((tag.language, tag.extlangs, tag.script, tag.region, tag.variants),
                         ("zh", ("yue",), "Hant", "HK", ("1994",)))
        self.assertEqual(tag.extensions, {"a": ("bbb",), "u": ("attr", "co", "phonebk", "ca", "buddhist", "foo")})
        self.assertEqual((tag.attributes, tag.keywords), (("attr",), {"co": ("phonebk",), "ca": ("buddhist", "foo")}))
        self.assertEqual((tag.private, tag.kind), (("own",), "langtag"))
        self.assertEqual("-".join(part.text for part in tag.parts), str(tag))
        self.assertEqual(tag.parts[2], bcp47.Part("Script", "Hant"))

    def test_of_others(self):
        tag = bcp47.Tag("und-t-und-cyrl-m0-ungegn")
        self.assertEqual((tag.script, tag.extensions), (None, {"t": ("und", "cyrl", "m0", "ungegn")}))
        self.assertEqual([part.kind for part in tag.parts],
                         ["Language", "Singleton", "SourceLanguage", "SourceScript", "Separator", "Value"])
        tag = bcp47.Tag("x-own-use")
        self.assertEqual((tag.language, tag.private, tag.keywords), (None, ("own", "use"), {}))
        tag = bcp47.Tag("i-klingon")
        self.assertEqual((tag.language, tag.parts), (None, (("Grandfathered", "i-klingon"),)))
        self.assertEqual(bcp47.Tag("en-u-co-co-aaa").keywords, {"co": ()})
        for wrong in ("e", "en_US"):
            self.assertRaises(bcp47.RefusedTag, bcp47.Tag, wrong)
        self.assertRaises(TypeError, bcp47.Tag, 7)
        self.assertIs(tag.parts, tag.parts)
        for name in ("regions", "_text", "__wrapped__"):
            self.assertFalse(hasattr(tag, name))
        with self.assertRaisesRegex(AttributeError, "'Tag' object has no attribute 'regions'"):
            tag.regions
        tag = bcp47.Tag("en-US")
        self.assertEqual(tag.region, "US")
        for name in bcp47.Tag.__slots__:
            # which calls no __getattr__
            object.__getattribute__(tag, name)

    def test_parts_of_a_wrong_type(self):
        tag = bcp47.Tag("en-US")
        for parts, why in (({"region": 7}, "region: expected str or an iterable of str, not int"), ({"region": b"GB"}, "region: .* not bytes"),
                           ({"variants": ["1996", 7]}, "variants: .* not int"), ({"extensions": {"u": 7}}, "extensions: .* not int"),
                           ({"regoin": "GB"}, "no part of a tag is named 'regoin': language, script, region, ")):
            self.assertRaisesRegex(TypeError, why, tag.replace, **parts)
            self.assertRaisesRegex(TypeError, why, bcp47.Tag.from_parts, "en", **parts)
        self.assertRaisesRegex(TypeError, "language: .* not int", bcp47.Tag.from_parts, 7)
        self.assertEqual(tag.replace(language=bcp47.Tag("de"), extensions={"u": iter(["co", "phonebk"])}), bcp47.Tag("de-US-u-co-phonebk"))
        self.assertFalse(hasattr(bcp47.Tag.__new__(bcp47.Tag), "text"))

    def test_in_a_pattern_and_by_a_weak_reference(self):
        tag = bcp47.Tag("en-us")
        if sys.version_info >= (3, 10):
            told = {}
            exec("match tag:\n    case bcp47.Tag('en-US'): found = True", {"tag": tag, "bcp47": bcp47}, told)
            self.assertEqual(told, {"found": True})
        for it in (tag, bcp47.Registry.from_file(SAMPLE), registry.available([])):
            self.assertIs(weakref.ref(it)(), it)


class Refusals(unittest.TestCase):
    def test_what_a_log_has(self):
        with self.assertRaises(bcp47.RefusedTag) as caught:
            registry.canonical("en_US")
        help = caught.exception.help
        self.assertEqual(caught.exception.__notes__, [f"'en_US': {help}"])
        if sys.version_info >= (3, 11):
            caught.exception.add_note("row 7")
            self.assertEqual(traceback.format_exception_only(caught.exception), ["bcp47.RefusedTag: BadByte 1\n", f"'en_US': {help}\n", "row 7\n"])
        with self.assertRaises(bcp47.RefusedRegistry) as caught:
            bcp47.Registry.from_bytes(b"")
        self.assertEqual((str(caught.exception), caught.exception.status), ("NoEntries", "NoEntries"))
        self.assertEqual(caught.exception.__notes__, [caught.exception.help])

    def test_one_that_a_test_makes(self):
        """A mock that raises one makes it of nothing or of a line."""
        for made, line in ((bcp47.RefusedTag(), ""), (bcp47.RefusedTag("BadByte 1"), ": BadByte 1"), (bcp47.RefusedRegistry("jar"), ": jar")):
            self.assertEqual(traceback.format_exception_only(type(made), made)[0], f"bcp47.{type(made).__name__}{line}\n")
            self.assertEqual(pickle.loads(pickle.dumps(made)).args, made.args)

    def test_arguments_by_their_names(self):
        self.assertEqual((registry.canonical(tag="iw"), registry.extlang(tag="yue"), registry.is_valid(tag="xx")), ("he", "zh-yue", False))
        self.assertIsNone(registry.validate(tag="en"))
        self.assertTrue(registry.equivalent(first="iw", second="he") and registry.equivalent("iw", second="he"))
        for call, names in ((registry.canonical, "(tag)"), (registry.extlang, "(tag)"), (registry.validate, "(tag)"), (registry.is_valid, "(tag)"),
                            (registry.equivalent, "(first, second)")):
            self.assertEqual(str(inspect.signature(call)), names)
            for wrong in ({}, {"text": "en"}, {"tag": "en", "other": "en"}):
                self.assertRaises(TypeError, call, **wrong)
            self.assertRaises(TypeError, call, *["en"] * 3)
        self.assertRaises(TypeError, registry.canonical, "en", tag="en")

    def test_faults_are_names_that_are_known(self):
        with self.assertRaises(bcp47.RefusedTag) as caught:
            registry.canonical("en_US")
        fault = caught.exception.fault
        self.assertIs(fault, bcp47.Fault.BadByte)
        self.assertEqual((fault, str(fault), f"{fault:>8}", fault.help), ("BadByte", "BadByte", " BadByte", caught.exception.help))
        self.assertIs(pickle.loads(pickle.dumps(fault)), fault)
        self.assertTrue(all(it.name == it and it.help.endswith(".") for it in bcp47.Fault))
        self.assertLess(50, len(bcp47.Fault))

    def test_in_a_list_they_have_no_trace(self):
        one, other = registry.canonical_many(["en_US", "de_DE"])
        self.assertEqual((one.__traceback__, one.tag, other.tag, one.args[:5]), (None, "en_US", "de_DE", other.args[:5]))
        self.assertEqual(one.args[:4], ("BadByte 1", "NotATag", "BadByte", 1))
        for tag in (bcp47.Tag("xx"), type("Text", (str,), {})("xx")):
            self.assertEqual([(type(it.tag), it.tag) for it in registry.canonical_many([tag])], [(str, "xx")])

    def refused_header(self, place):
        with self.assertRaises(bcp47.RefusedTag) as raised:
            registry.available([]).best("de," * (place - 1) + "de;q=2")
        return raised.exception

    def test_they_are_cheap(self):
        """Refusals in a list share what they say, and take no longer than a few answers."""
        def seconds(tags):
            begun = time.process_time()
            registry.canonical_many(tags)
            return time.process_time() - begun

        refused, answered = (min(seconds([tag] * 50_000) for _ in range(3)) for tag in ("en_US", "zh-yue"))
        self.assertLess(refused, 20 * answered)
        one, other = registry.canonical_many(["en_US", "de_DE"])
        self.assertTrue(all(mine is others for mine, others in zip(one.args[:5], other.args)))
        # a long header's are not kept for ever
        one, other = (self.refused_header(150) for _ in range(2))
        self.assertEqual((one.args, one.place), (other.args, 150))
        self.assertIsNot(one.args[0], other.args[0])
        # no code of Python makes one
        self.assertEqual((bcp47.RefusedTag.__new__, bcp47.RefusedTag.__init__), (ValueError.__new__, ValueError.__init__))

    def test_none_is_made_where_none_is_given(self):
        def made(*told):
            raise ZeroDivisionError

        others = (bcp47.RefusedRegistry, bcp47.RefusedUpgrade, bcp47.RefusedTrace, bcp47.Tag, bcp47._bcp47.Registry, {})
        bcp47._bcp47.setup((made, *others))
        try:
            self.assertRaises(ZeroDivisionError, registry.canonical, "en_US")
            self.assertEqual((registry.is_valid("en_US"), registry.canonical_columns(["en_US"])), (False, ([None], ["BadByte 1"])))
        finally:
            bcp47._bcp47.setup((bcp47.RefusedTag, *others))

    def test_what_only_says_that_it_is_a_registry(self):
        class Proxy:
            __slots__ = ("one", "other")
            __class__ = property(lambda self: bcp47.Registry)

        proxy = Proxy()
        proxy.one = proxy.other = registry
        self.assertIsInstance(proxy, bcp47.Registry)
        for wrong in (proxy, None, bcp47.Registry):
            self.assertRaises(TypeError, registry.upgrade_check, wrong)
        self.assertIs(proxy.other, registry)
        for kind in (int, proxy, bcp47.Tag):
            self.assertRaises(TypeError, vars(bcp47._bcp47.Registry)["_open"].__get__, None, kind)
        self.assertRaises(TypeError, bcp47.Registry._open, "")
        self.assertRaises(TypeError, bcp47._bcp47.setup, (1,))

    def test_a_registry_of_a_class_of_its_own(self):
        class Mine(bcp47.Registry):
            def __init__(self, path):
                raise AssertionError("it is made by no path")

        with Mine.from_file(SAMPLE) as mine, Mine.from_bytes(b"Type: language\nSubtag: en\n") as other:
            self.assertEqual((type(mine), type(other), mine.canonical("iw")), (Mine, Mine, "he"))
            mine.upgrade_check(registry)

    def test_a_registry_of_what_holds_bytes(self):
        with open(SAMPLE, "rb") as file, mmap.mmap(file.fileno(), 0, access=mmap.ACCESS_READ) as mapped:
            for content in (mapped, array.array("B", mapped[:]), bytearray(mapped), memoryview(mapped[:])):
                self.assertEqual(bcp47.Registry.from_bytes(content).canonical("iw"), "he")
        for wrong in (SAMPLE, 7, None, [65]):
            self.assertRaisesRegex(TypeError, "bytes-like object is required, not '" + type(wrong).__name__, bcp47.Registry.from_bytes, wrong)


class Processes(unittest.TestCase):
    def test_pools(self):
        for method in ("fork", "spawn"):
            with multiprocessing.get_context(method).Pool(2) as pool:
                with self.assertRaises(bcp47.RefusedTag) as raised:
                    pool.map_async(ask, ["en", "en_US"]).get(60)
                self.assertEqual(raised.exception.place, 1)
                self.assertEqual(pool.map_async(ask, ["iw", "zh-yue"]).get(60), ["he", "yue"])

    def test_executors(self):
        with concurrent.futures.ProcessPoolExecutor(2) as pool:
            self.assertIsInstance(pool.submit(ask, "en_US").exception(60), bcp47.RefusedTag)
            answers = pool.submit(ask_many, ["iw", "en_US"]).result(60)
            self.assertEqual([str(answer) for answer in answers], ["he", "BadByte 1"])

    def test_forks_in_the_midst_of_calls(self):
        is_to_end = threading.Event()

        def busy():
            while not is_to_end.is_set():
                registry.canonical_many(["zh-yue", "en-t-iw-t0-und"] * 2000)

        threads = [threading.Thread(target=busy) for _ in range(4)]
        for thread in threads:
            thread.start()
        statuses = []
        for _ in range(30):
            child = os.fork()
            if not child:
                os._exit(0 if registry.canonical("zh-yue") == "yue" and registry.canonical_many(["iw"]) == ["he"] else 1)
            statuses.append(wait_for(child))
        is_to_end.set()
        for thread in threads:
            thread.join()
        self.assertEqual(statuses, [0] * 30)


class Interpreters(unittest.TestCase):
    """From 3.12 on they have a lock of their own."""

    def test_another_has_a_package_of_its_own(self):
        other = interpreters.create()
        lines = f"import sys; sys.path[:] = {sys.path!r}; import bcp47; r = bcp47.Registry.from_file({SAMPLE!r}); "
        self.assertIsNone(interpreters.run_string(other, lines + "assert not r.is_valid('xx') and r.canonical(bcp47.Tag('iw')) == 'he'"))
        self.assertFalse(registry.is_valid("xx"))
        self.assertEqual(registry.canonical(bcp47.Tag("iw")), "he")
        interpreters.destroy(other)
        self.assertEqual(str(registry.canonical_many(["e_n", "iw"])[0]), "BadByte 1")


class Signals(unittest.TestCase):
    def ask_beside(self, handler, seconds, call):
        """Calls again and again, while a handler runs each millisecond."""
        before = signal.signal(signal.SIGALRM, handler)
        signal.setitimer(signal.ITIMER_REAL, 0.001, 0.001)
        wrong, count, end = 0, 0, time.monotonic() + seconds
        try:
            while time.monotonic() < end:
                wrong, count = wrong + call(), count + 1
        finally:
            signal.setitimer(signal.ITIMER_REAL, 0)
            signal.signal(signal.SIGALRM, before)
        self.assertEqual(wrong, 0)
        self.assertGreater(count, 10)

    def test_handlers_that_ask(self):
        answers = []
        self.ask_beside(lambda *_: answers.append(registry.canonical("iw")), 1.5,
                        lambda: registry.canonical("zh-yue") != "yue")
        self.assertGreater(len(answers), 100)
        self.assertEqual({*answers}, {"he"})
        tags = ["zh-yue", "en_US"] * 500
        self.ask_beside(lambda *_: registry.canonical_many(["iw", "x"]), 1,
                        lambda: [str(it) for it in registry.canonical_many(tags)] != ["yue", "BadByte 1"] * 500)

    def test_handlers_that_close(self):
        for _ in range(20):
            own = bcp47.Registry.from_file(SAMPLE)
            before = signal.signal(signal.SIGALRM, lambda *_: own.close())
            signal.setitimer(signal.ITIMER_REAL, 0.002)
            try:
                with self.assertRaisesRegex(ValueError, "the registry is closed"):
                    while True:
                        own.explain("en-u-" + "-".join(f"z{n:02}" for n in range(30, 0, -1)))
            finally:
                signal.signal(signal.SIGALRM, before)

    def test_handlers_run_within_a_long_column(self):
        own, tags = bcp47.Registry.from_file(SAMPLE), ["zh-yue"] * 3_000_000
        before = signal.signal(signal.SIGALRM, lambda *_: own.close())
        signal.setitimer(signal.ITIMER_REAL, 0.01)
        try:
            with self.assertRaisesRegex(ValueError, "the registry is closed"):
                own.canonical_many(tags)
        finally:
            signal.signal(signal.SIGALRM, before)


class Threads(unittest.TestCase):
    def test_a_registry_is_closed_in_the_midst_of_calls(self):
        tags = ["zh-yue", "en_US"] * 20000
        for _ in range(10):
            own = bcp47.Registry.from_file(SAMPLE)
            with concurrent.futures.ThreadPoolExecutor(4) as pool:
                calls = [pool.submit(own.canonical_many, tags) for _ in range(4)]
                time.sleep(0.003)
                own.close()
                for call in calls:
                    try:
                        self.assertEqual(len(call.result(60)), len(tags))
                    except ValueError as error:
                        self.assertEqual(str(error), "the registry is closed")
            self.assertTrue(own.closed)

    def test_a_list_is_made_while_a_tag_closes_the_registry(self):
        own = bcp47.Registry.from_file(SAMPLE)
        tag = type("Closing", (bcp47.Tag,), {"__str__": lambda self: own.close() or "en"})("en")
        self.assertRaisesRegex(ValueError, "^the registry is closed$", own.available, [tag])

    def test_a_registry_is_closed_while_a_tag_tells_its_text(self):
        """As a handler or another thread may do while code of Python runs."""
        for call in (lambda: own.canonical(tag), lambda: own.is_valid(tag), lambda: own.equivalent("en", tag), lambda: own.matches("en", tag),
                     lambda: own.explain(tag), lambda: own.show(tag), lambda: own.verify("en", [], tag), lambda: own.canonical_many(["en", tag])):
            own = bcp47.Registry.from_file(SAMPLE)
            tag = type("Closing", (bcp47.Tag,), {"__str__": lambda self: own.close() or "en"})("en")
            self.assertRaisesRegex(ValueError, "^the registry is closed$", call)

    def test_the_first_call_that_shows_a_tag_is_made_by_many(self):
        for _ in range(20):
            own = bcp47.Registry.from_file(SAMPLE)
            with concurrent.futures.ThreadPoolExecutor(8) as pool:
                answers = [pool.submit(own.show, "zh-yue") for _ in range(40)]
                time.sleep(0.001)
                own.close()
                for answer in answers:
                    try:
                        self.assertEqual([row.text for row in answer.result(60)], ["zh", "yue"])
                    except ValueError as error:
                        self.assertEqual(str(error), "the registry is closed")

    def test_columns_of_many_threads(self):
        with concurrent.futures.ThreadPoolExecutor(4) as pool:
            calls = [(tag, pool.submit(registry.canonical_many, [tag] * 100_000)) for tag in ("iw", "zh-yue", "I-KLINGON", "DE")]
            for tag, call in calls:
                self.assertEqual({*call.result(60)}, {registry.canonical(tag)})

    def test_other_threads_go_on(self):
        """A thread runs while another one's call is under way."""
        turns = []
        tags = ["zh-yue"] * 1_000_000
        thread = threading.Thread(target=lambda: registry.canonical_many(tags))
        thread.start()
        while thread.is_alive():
            turns.append(time.monotonic())
            time.sleep(0.001)
        self.assertGreater(len(turns), 5)

    def test_what_is_under_way_is_answered(self):
        def ask(own):
            told = set()
            try:
                while True:
                    told.update(map(str, own.canonical_many(["zh-yue"] * 2000)))
            except ValueError:
                return told

        for _ in range(20):
            own = bcp47.Registry.from_file(SAMPLE)
            with concurrent.futures.ThreadPoolExecutor(4) as pool:
                calls = [pool.submit(ask, own) for _ in range(4)]
                time.sleep(0.003)
                own.close()
                for call in calls:
                    self.assertLessEqual(call.result(60), {"yue"})

    def test_what_the_collector_shows_is_whole(self):
        thread = threading.Thread(target=registry.canonical_columns, args=(["iw", "e_n"] * 200_000,))
        thread.start()
        while thread.is_alive():
            for one in gc.get_objects():
                if type(one) is list and len(one) == 400_000:
                    list(one)
        thread.join()


class Columns(unittest.TestCase):
    def test_missing_values(self):
        tags = ["zh-yue", None, math.nan, "en_US", bcp47.Tag("iw")]
        self.assertEqual([it if it is None else str(it) for it in registry.canonical_many(tags)],
                         ["yue", None, None, "BadByte 1", "he"])
        self.assertEqual(registry.canonical_many([None], missing="?"), ["?"])
        self.assertEqual(registry.canonical_columns(tags), (["yue", None, None, None, "he"], [None, None, None, "BadByte 1", None]))
        self.assertEqual(registry.canonical_columns(["en_US"], missing=""), ([""], ["BadByte 1"]))
        for call in (registry.equivalent, lambda one, other: registry.verify(one, [], other)):
            self.assertRaises(TypeError, call, "en", 7)
            self.assertRaises(TypeError, call, 7, "en")
        self.assertEqual(registry.canonical_columns(iter([])), ([], []))
        NAType = type("NAType", (), {"__ne__": lambda self, other: self, "__bool__": lambda self: [][self]})
        self.assertEqual(registry.canonical_many([NAType(), decimal.Decimal("nan")]), [None, None])
        self.assertRaises(TypeError, registry.canonical_many, [type("Other", (NAType,), {})()])
        self.assertRaises(ZeroDivisionError, registry.canonical_many, [type("Wrong", (), {"__ne__": lambda self, other: 1 // 0})()])
        for wrong in (1, b"en", 1.5, ["en"], type("NAType", (), {})()):
            self.assertRaises(TypeError, registry.canonical_many, [wrong])
        for wrong in ("zh-yue", b"zh", bcp47.Tag("zh"), 7, None):
            self.assertRaises(TypeError, registry.canonical_many, wrong)

    def test_the_place_of_a_value_that_is_no_tag(self):
        for call in (registry.canonical_many, registry.canonical_columns, registry.available):
            for wrong in (7, b"en", ["en"]):
                with self.assertRaisesRegex(TypeError, f"^item 2: expected str or Tag, not {type(wrong).__name__}$"):
                    call(iter(["en", "de", wrong, "en"]))
        with self.assertRaisesRegex(TypeError, "^item 5000: expected str or Tag, not int$"):
            registry.canonical_many(["en", None] * 2500 + [7])
        for call in (registry.canonical, registry.is_valid, bcp47.Tag, bcp47.Tag.from_posix, registry.available([]).best):
            with self.assertRaisesRegex(TypeError, "^expected str or Tag, not int$"):
                call(7)

    def test_lone_surrogates(self):
        """Each is refused in its place, as other characters outside of ASCII are."""
        available = registry.available(["en"])
        calls = (registry.canonical, registry.extlang, registry.validate, registry.explain, registry.show, bcp47.Tag, bcp47.Tag.from_posix,
                 lambda text: registry.equivalent(text, "en"), lambda text: registry.equivalent("en", text), lambda text: registry.verify(text, []),
                 lambda text: registry.verify("en", [], text), lambda text: registry.matches(text, "en"), lambda text: registry.matches("en", text),
                 lambda text: registry.available(["en", text]), available.best, available.filter,
                 lambda text: bcp47.Tag("en").replace(region=text), lambda text: bcp47.Tag(type("Text", (str,), {})(text)))
        for text in ("en-\udcff", "\ud800", "en-GB-a\udc80\udc80", "en-\ud83d\ude00"):
            for call in calls:
                told = []
                for one in (text, text.encode(errors="replace").decode().replace("?", "\u00e9")):
                    with self.assertRaises(bcp47.RefusedTag) as caught:
                        call(one)
                    self.assertEqual(caught.exception.tag, one)
                    told.append(caught.exception.args[:5])
                self.assertEqual((told[0], told[0][2]), (told[1], "BadByte"))
            self.assertFalse(registry.is_valid(text))
            tags = ["iw", text, None, text] * 2000
            self.assertEqual([getattr(it, "tag", it) for it in registry.canonical_many(tags)], ["he", text, None, text] * 2000)
            fault = f"BadByte {1 + text.count('-')}"
            self.assertEqual(registry.canonical_columns(tags), (["he", None, None, None] * 2000, [None, fault, None, fault] * 2000))

    def test_long_columns(self):
        """More than one part, and texts that outgrow the first buffer."""
        long = "en-x-" + "-".join(["abcdefgh"] * 100)
        tags = ["iw", long, "en_US", None] * 5000
        self.assertEqual([it if it is None else str(it) for it in registry.canonical_many(tags)],
                         ["he", long, "BadByte 1", None] * 5000)

    def test_answers_that_are_the_same(self):
        """Of a str that is canonical the answer is that str; one of a class of its own, or a Tag, is not answered."""
        class Text(str):
            pass

        tag = "".join(["en-", "GB"])
        self.assertIs(registry.canonical(tag), tag)
        self.assertIs(registry.canonical_many([tag])[0], tag)
        for other in (Text(tag), bcp47.Tag(tag)):
            for answer in (registry.canonical(other), registry.canonical_many([other])[0]):
                self.assertEqual((type(answer), answer), (str, tag))
        answer = registry.canonical("EN-gb")
        self.assertEqual(answer, tag)

    def test_pandas(self):
        try:
            import pandas
        except ImportError:
            self.skipTest("there is no pandas")
        import numpy

        self.assertEqual(registry.canonical_many([numpy.float32("nan"), numpy.datetime64("NaT"), pandas.NA, pandas.NaT]), [None] * 4)
        frame = pandas.DataFrame({"tag": ["zh-yue", None, pandas.NA, pandas.NaT, "en_US"] * 200_000})
        frame["canonical"], frame["fault"] = registry.canonical_columns(frame["tag"])
        self.assertEqual(frame["canonical"][:5].tolist(), ["yue", None, None, None, None])
        self.assertEqual(frame["fault"].value_counts().to_dict(), {"BadByte 1": 200_000})
        self.assertEqual(frame.sort_values("canonical")["canonical"].iloc[0], "yue")


class Memory(unittest.TestCase):
    def test_nothing_is_lost(self):
        def held():
            with open("/proc/self/statm") as file:
                return int(file.read().split()[1]) * os.sysconf("SC_PAGE_SIZE")

        tags = ["zh-yue", "en_US", None, bcp47.Tag("iw")] * 250

        def ask_all():
            registry.canonical_many(tags)
            registry.canonical_columns(tags)
            for tag in ("zh-yue", "en_US", "sgn-dd"):
                for call in (registry.canonical, registry.extlang, registry.validate, registry.explain, registry.show, bcp47.Tag):
                    try:
                        call(tag)
                    except bcp47.RefusedTag:
                        pass
            registry.equivalent("zh-yue", "YUE")
            registry.verify("sgn-dd", registry.explain("sgn-dd").steps)
            registry.upgrade_check(registry)
            registry.info
            for wrong in (7, "\udc80"):
                for call in (registry.canonical, lambda it: registry.canonical_many([it, bcp47.Tag("iw"), it]),
                             lambda it: registry.available(["en", it])):
                    try:
                        call(wrong)
                    except (TypeError, bcp47.RefusedTag):
                        pass

        for _ in range(20):
            ask_all()
            bcp47.Registry.from_file(SAMPLE).show("en")
        before = held()
        for _ in range(200):
            ask_all()
            bcp47.Registry.from_file(SAMPLE).show("en")
        self.assertLess(held() - before, 2 << 20)


class Growths(unittest.TestCase):
    def test_each_is_refused_in_turn(self):
        """An answer is the one that is wanted, or there is a MemoryError: by Python's own means of testing. A generator without
        memory ends some Pythons by itself, so that no call that makes one is here."""
        try:
            from _testcapi import remove_mem_hooks, set_nomemory
        except ImportError:
            self.skipTest("this Python has no _testcapi")
        tag, available = bcp47.Tag("zh-yue"), registry.available(["de"])
        steps = struct.pack("BII", 4, 2, 27) + struct.pack("BII", 7, 1, 44)
        calls = [
            (lambda: registry.canonical("zh-yue"), "yue"), (lambda: registry.extlang("yue"), "zh-yue"),
            (lambda: registry.canonical(tag), "yue"), (lambda: registry.is_valid("en_US"), False),
            (lambda: str(bcp47.Tag("EN-us")), "en-US"), (lambda: bcp47._bcp47.read("YUE-hk"), ("yue-HK", b"\1\4")),
            (lambda: registry.equivalent("zh-yue", tag), True), (lambda: registry.explain("sgn-dd"), registry.explain("sgn-dd")),
            (lambda: bcp47._bcp47.parent("zh-TW"), "zh"), (lambda: bcp47._bcp47.posix("de_AT"), "de-AT"),
            (lambda: bcp47._bcp47.replaced("de", 4, "AT"), "de-AT"), (lambda: available.filter("de, en"), ["de"]),
            (lambda: available.best("en, de"), "de"), (lambda: registry.available(["de"]).best("de"), "de"),
            (lambda: registry.record(2), registry.record(2)),
            (lambda: registry.matches("zh-yue", "yue-GB"), True), (lambda: registry.matches(tag, "en", "basic"), False),
            (lambda: registry._verify_steps("sgn-dd", steps, "gsg"), None), (lambda: registry.upgrade_check(registry), None),
            (lambda: registry.info.entries, registry.info.entries),
            (lambda: registry.canonical_many(["iw", None, tag]), ["he", None, "yue"]),
            (lambda: registry.canonical_columns(["e_n", "iw"]), ([None, "he"], ["BadByte 1", None])),
            (lambda: registry._given("x-a", -1), registry._given("x-a", -1)),
            (lambda: bcp47.Registry.from_bytes(b"Type: language\nSubtag: en").info.entries, 1), (lambda: tag.region, None),
            (lambda: str(registry.canonical_many(["e_n", "xx"])[1]), "UnknownLanguage 1"),
        ]
        refused = 0
        for place, (call, wanted) in enumerate(calls):
            for number in range(80):
                set_nomemory(number, number + 1)
                try:
                    answer = call()
                    remove_mem_hooks()
                    self.assertEqual((place, number, answer), (place, number, wanted))
                except MemoryError:
                    remove_mem_hooks()
                    refused += 1
        self.assertGreater(refused, 40)


class Facts(unittest.TestCase):
    def test_info(self):
        import hashlib
        with open(SAMPLE, "rb") as file:
            content = file.read()
        info = registry.info
        self.assertEqual(info.sha256, hashlib.sha256(content).hexdigest())
        self.assertEqual(info.entries, content.count(b"%%"))
        self.assertEqual(f"File-Date: {info.file_date}\n", content.decode().splitlines(True)[0])
        self.assertIn(str(info.file_date), repr(registry))
        undated = bcp47.Registry.from_bytes(b"Type: language\nSubtag: en")
        self.assertEqual((undated.info.entries, undated.info.file_date), (1, None))
        for day in ("2025-02-30", "0000-00-00", "2025-05-151"):
            other = bcp47.Registry.from_bytes(f"File-Date: {day}\n%%\nType: language\nSubtag: en\n".encode())
            self.assertEqual((other.info.file_date, repr(other)), (None, "<bcp47.Registry of None, 1 entries>"))
        undated.close()
        self.assertRaises(ValueError, lambda: undated.info)
        self.assertIn("closed", repr(undated))

    def test_replacements_that_repeat(self):
        records = ("Type: language\nSubtag: ja", "Type: variant\nSubtag: alalc97", "Type: variant\nSubtag: heploc\nPreferred-Value: alalc97")
        own = bcp47.Registry.from_bytes("\n%%\n".join(("File-Date: 2000-01-01",) + records).encode() + b"\n")
        for call in (own.canonical, own.extlang, own.explain, lambda tag: own.equivalent("ja", tag)):
            with self.assertRaises(bcp47.RefusedTag) as raised:
                call("ja-heploc-alalc97")
            self.assertEqual((str(raised.exception), raised.exception.variant), ("ReplacementRepeats alalc97", "alalc97"))
        self.assertEqual(own.canonical_columns(["ja-alalc97-heploc"]), ([None], ["ReplacementRepeats alalc97"]))
        self.assertEqual(own.canonical("ja-heploc"), "ja-alalc97")

    def test_steps_that_are_none(self):
        for wrong in ([(1, 2)], b"1234567890123"):
            with self.assertRaises(TypeError):
                registry._verify_steps("en", wrong, "en")

    def test_validity_and_faults(self):
        self.assertTrue(registry.is_valid("zh-yue"))
        self.assertFalse(registry.is_valid("xx"))
        with self.assertRaises(bcp47.RefusedTag) as raised:
            registry.equivalent("en", "e_n")
        self.assertEqual(raised.exception.tag, "e_n")
        self.assertIn("hyphen", raised.exception.help)
        with self.assertRaises(bcp47.RefusedTag) as raised:
            registry.explain("en-u-" + "-".join(f"z{n:02}" for n in range(60, 0, -1)), most=100)
        self.assertEqual(raised.exception.status, "TooManySteps")
        with self.assertRaises(bcp47.RefusedTag) as raised:
            registry.explain("en-u-" + "-".join(f"{chr(122 - n // 26)}{chr(122 - n % 26)}" for n in range(210)))
        self.assertEqual(raised.exception.status, "TooManySteps")
        for few in (1, 0, -1, -2**70):
            with self.assertRaisesRegex(bcp47.RefusedTag, "^TooManySteps$"):
                registry.explain("sgn-dd", few)
        self.assertEqual(registry.explain("sgn-dd", sys.maxsize), registry.explain("sgn-dd", 2))
        self.assertRaises(OverflowError, registry.explain, "sgn-dd", sys.maxsize + 1)
        for wrong in ("2", None, 2.0):
            self.assertRaises(TypeError, registry.explain, "sgn-dd", wrong)
        self.assertEqual(bcp47.__version__.count("."), 2)
        self.assertEqual({*bcp47.__all__} - {*dir(bcp47)}, set())


if __name__ == "__main__":
    unittest.main(argv=[sys.argv[0], *sys.argv[2:]])
