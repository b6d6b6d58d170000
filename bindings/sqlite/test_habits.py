"""What users of SQLite do by habit, and what must not corrupt an index. Arguments: the folder of bcp47_sqlite.so, the sample
registry, the shared library for C."""
import ctypes
import hashlib
import os
import re
import shutil
import sqlite3
import subprocess
import sys
import tempfile
import threading
import unittest

FOLDER, SAMPLE, LIBRARY = sys.argv[1:4]
EXTENSION = os.path.join(FOLDER, "bcp47_sqlite")
with open(SAMPLE, "rb") as file:
    CONTENT = file.read()
DIGEST = hashlib.sha256(CONTENT).hexdigest()
LOADED = re.escape(f'it is 2024-01-01 ({DIGEST[:8]}) from "{SAMPLE}". Ask by this name, or load the other registry in another connection')


def opened(path=":memory:", load=True, extension=EXTENSION, **how):
    connection = sqlite3.connect(path, **how)
    connection.enable_load_extension(True)
    connection.load_extension(extension)
    if load:
        connection.execute("SELECT bcp47_load(?)", (SAMPLE,))
    return connection


def value(connection, *query):
    return connection.execute(*query).fetchone()[0]


def memory():
    with open("/proc/self/statm") as file:
        return int(file.read().split()[1]) * os.sysconf("SC_PAGE_SIZE")


class Habits(unittest.TestCase):
    def setUp(self):
        self.folder = tempfile.mkdtemp()

    def tearDown(self):
        shutil.rmtree(self.folder)

    def test_an_index_has_what_one_registry_says(self):
        """A program starts again with a newer registry, by which another tag is the canonical one."""
        older = CONTENT.replace(b"Subtag: iw\nPreferred-Value: he\n", b"Subtag: iw\n").replace(b"2024-01-01", b"2023-12-31")
        self.assertEqual(len(older), len(CONTENT) - 20)
        path = os.path.join(self.folder, "books.db")
        first = opened(path, load=False)
        first.execute("SELECT bcp47_load(?)", (older,))
        first.execute("CREATE TABLE books (tag TEXT)")
        first.execute("INSERT INTO books VALUES ('iw')")
        for what in ("bcp47_canonical(tag)", "bcp47_fault(tag)", "bcp47_equivalent(tag, 'he')", "bcp47_match('he', tag)", "bcp47_show(tag)",
                     "bcp47_explain(tag)", "bcp47_best('he', tag)"):
            for statement in (f"CREATE INDEX by_any ON books ({what})", f"CREATE INDEX some ON books (tag) WHERE {what} IS NULL",
                              f"CREATE TABLE other (tag TEXT, it TEXT AS ({what}))"):
                with self.assertRaisesRegex(sqlite3.OperationalError, "non-deterministic functions prohibited", msg=statement):
                    first.execute(statement)
        first.execute("CREATE UNIQUE INDEX by_2023 ON books (bcp47_canonical(tag, '2023-12-31'))")
        first.execute(f"CREATE TABLE others (tag TEXT COLLATE BCP47_20231231 UNIQUE, same TEXT COLLATE BCP47_{hashlib.sha256(older).hexdigest()[:8]})")
        first.execute("INSERT INTO others VALUES ('iw', 'iw')")
        first.commit()
        first.close()
        second = opened(path)
        for query in ("SELECT * FROM others WHERE tag = 'he'", "INSERT INTO others VALUES ('he', 'he')", "SELECT * FROM others ORDER BY same"):
            with self.assertRaisesRegex(sqlite3.OperationalError, "no such collation sequence: BCP47_"):
                second.execute(query)
        for query in ("INSERT INTO books VALUES ('he')", "SELECT bcp47_canonical(tag, '2023-12-31') FROM books NOT INDEXED"):
            with self.assertRaisesRegex(sqlite3.OperationalError, "has another name than '2023-12-31': " + LOADED):
                second.execute(query).fetchall()
        self.assertEqual(value(second, "SELECT tag FROM books WHERE bcp47_canonical(tag, '2023-12-31') = 'iw'"), "iw")
        self.assertEqual(value(second, "SELECT count(*) FROM books WHERE bcp47_canonical(tag) = 'he'"), 1)
        second.execute("DROP INDEX by_2023")
        second.execute("CREATE UNIQUE INDEX by_2024 ON books (tag COLLATE BCP47_20240101)")
        second.execute(f"CREATE INDEX by_digest ON books (tag COLLATE BCP47_{DIGEST[:8]}, bcp47_equivalent(tag, 'he', '{DIGEST}'))")
        with self.assertRaises(sqlite3.IntegrityError):
            second.execute("INSERT INTO books VALUES ('he')")
        self.assertEqual(value(second, "SELECT count(*) FROM books WHERE tag = 'he' COLLATE BCP47_20240101"), 1)
        self.assertEqual(value(second, "PRAGMA integrity_check(books)"), "ok")

    def test_an_order_is_of_a_registry(self):
        connection = opened(load=False)
        for order in ("BCP47", "BCP47_20240101", f"BCP47_{DIGEST[:8]}"):
            with self.assertRaisesRegex(sqlite3.OperationalError, "no such collation sequence: BCP47"):
                connection.execute(f"SELECT 'a' < 'b' COLLATE {order}")
        connection.execute("SELECT bcp47_load(?)", (SAMPLE,))
        for order in ("BCP47", "BCP47_20240101", f"bcp47_{DIGEST[:8]}"):
            self.assertEqual(connection.execute(f"SELECT column1 FROM (VALUES ('yue'), ('iw'), ('e_n'), ('HE')) ORDER BY column1 COLLATE {order}")
                             .fetchall(), [("iw",), ("HE",), ("yue",), ("e_n",)])
        undated = opened(load=False)
        undated.execute("SELECT bcp47_load(?)", (CONTENT.replace(b"File-Date: 2024-01-01", b"File-Date: May"),))
        self.assertEqual({row[1] for row in undated.execute("PRAGMA collation_list") if row[1].startswith("BCP47")},
                         {"BCP47", "BCP47_" + value(undated, "SELECT bcp47_registry()").split(" ")[-1][:8]})

    def test_a_connection_keeps_its_registry(self):
        connection = opened()
        other = CONTENT.replace(b"File-Date: 2024-01-01", b"File-Date: 2024-01-02")
        self.assertNotEqual(other, CONTENT)
        path = os.path.join(self.folder, "2024-01-02.txt")
        with open(path, "wb") as file:
            file.write(other)
        for source, said in ((other, "a blob"), (path, f'"{path}"')):
            with self.assertRaisesRegex(sqlite3.OperationalError, re.escape(
                    f'another registry is loaded, 2024-01-01 ({DIGEST[:8]}) from "{SAMPLE}": open another connection to load '
                    f"2024-01-02 ({hashlib.sha256(other).hexdigest()[:8]}) from {said}")):
                connection.execute("SELECT bcp47_load(?)", (source,))
        self.assertEqual(value(connection, "SELECT bcp47_load(?)", (CONTENT,)), 1)
        self.assertIn("2024-01-01", value(connection, "SELECT bcp47_registry()"))

    def test_the_extension_is_loaded_again(self):
        connection = opened()
        connection.execute("SELECT load_extension(?)", (EXTENSION,)).fetchone()
        connection.load_extension(EXTENSION)
        self.assertEqual(value(connection, "SELECT bcp47_canonical('iw')"), "he")
        self.assertEqual(value(connection, "SELECT bcp47_load(?)", (SAMPLE,)), 1)
        self.assertEqual(value(connection, "SELECT 'zh-yue' = 'yue' COLLATE BCP47"), 1)

    def test_the_registry_is_named(self):
        connection = opened(load=False)
        self.assertIsNone(value(connection, "SELECT bcp47_registry()"))
        connection.execute("SELECT bcp47_load(?)", (SAMPLE,))
        self.assertEqual(value(connection, "SELECT bcp47_registry()"), f"2024-01-01 {CONTENT.count(b'%%')} {DIGEST}")
        for name in ("2024-01-01", DIGEST, DIGEST[:8].upper()):
            self.assertEqual(value(connection, "SELECT bcp47_canonical('iw', ?)", (name,)), "he")
            self.assertEqual(value(connection, "SELECT json_extract(bcp47_show('iw', ?), '$[0].record')", (name,)), 9)
            self.assertEqual(connection.execute("SELECT bcp47_fault('e_n', ?1), bcp47_equivalent('iw', 'he', ?1), bcp47_match('zh-yue', 'yue-GB', ?1), "
                                                "bcp47_explain('en', ?1)", (name,)).fetchone(), ("BadByte 1", 1, 1, "= en"))
        for name in ("2024-01-02", DIGEST[:7], "", None, DIGEST + "0", "2024-01-0", "0" * 8, 20240101, b"2024", "2024-01-01\0", DIGEST[:8] + "\0"):
            said = "NULL" if name is None else "'%s'" % (name.decode() if isinstance(name, bytes) else str(name).rstrip("\0"))
            for call in ("canonical('iw', ?)", "show('iw', ?)", "fault('iw', ?)", "explain('iw', ?)", "equivalent('iw', 'he', ?)", "match('iw', 'he', ?)"):
                with self.assertRaisesRegex(sqlite3.OperationalError, f"has another name than {said}: {LOADED}", msg=call):
                    connection.execute(f"SELECT bcp47_{call}", (name,))

    def test_what_is_loaded(self):
        connection = opened(load=False)
        for wrong in (7, 1.5, None):
            with self.assertRaisesRegex(sqlite3.OperationalError, "bcp47_load takes a path or a blob"):
                connection.execute("SELECT bcp47_load(?)", (wrong,))
        before = memory()
        long = os.path.join(self.folder, "long")
        with open(long, "wb") as file:
            file.truncate((64 << 20) + 1)
        for path, why in (("/dev/zero", "it is no file"), ("/no/such/file", "No such file or directory"), (self.folder, "it is no file"),
                          (long, "it is too long"), ("", "No such file or directory")):
            with self.assertRaisesRegex(sqlite3.OperationalError, f"the registry in \"{path}\" can't be read: {why}"):
                connection.execute("SELECT bcp47_load(?)", (path,))
        self.assertLess(memory() - before, 10 << 20)
        with self.assertRaisesRegex(sqlite3.OperationalError, "bcp47: the registry in a blob is refused: jar NotUtf8 line 1"):
            connection.execute("SELECT bcp47_load(x'ff')")
        empty, pipe = os.path.join(self.folder, "empty"), os.path.join(self.folder, "pipe")
        open(empty, "w").close()
        for nothing, said in ((empty, f'"{empty}"'), (b"", "a blob"), (b"File-Date: 2024-01-01\n", "a blob")):
            with self.assertRaisesRegex(sqlite3.OperationalError, f"bcp47: the registry in {said} is refused: NoEntries"):
                connection.execute("SELECT bcp47_load(?)", (nothing,))
        os.mkfifo(pipe)
        with self.assertRaisesRegex(sqlite3.OperationalError, f"the registry in \"{pipe}\" can't be read: it is no file"):
            connection.execute("SELECT bcp47_load(?)", (pipe,))
        with self.assertRaisesRegex(sqlite3.OperationalError, "no registry is loaded"):
            connection.execute("SELECT bcp47_canonical('en')")
        with self.assertRaisesRegex(sqlite3.OperationalError, "unsafe use of bcp47_load"):
            connection.executescript("CREATE VIEW v AS SELECT bcp47_load('x'); SELECT * FROM v")

    def test_connections_share_a_registry(self):
        connections = [opened(load=False) for _ in range(100)]
        connections[0].execute("SELECT bcp47_load(?)", (SAMPLE,))
        large = CONTENT + b"".join(b"%%%%\nType: language\nSubtag: x%c%c\nDescription: %s\n" % (a, b, b"d" * 100)
                                   for a in range(97, 123) for b in range(97, 123))
        before = memory()
        for connection in connections[1:]:
            connection.execute("SELECT bcp47_load(?)", (large,))
        self.assertLess(memory() - before, 20 << 20)
        for connection in connections:
            self.assertEqual(value(connection, "SELECT bcp47_canonical('iw')"), "he")
            connection.close()

    def test_threads(self):
        path, wrong = os.path.join(self.folder, "books.db"), []
        first = opened(path)
        first.execute("CREATE TABLE books (tag TEXT)")
        first.executemany("INSERT INTO books VALUES (?)", [("zh-yue",), ("iw",), ("en-u-kn-true",)] * 200)
        first.commit()

        def ask():
            for _ in range(5):
                connection = opened(path)
                rows = connection.execute("SELECT bcp47_canonical(tag), count(*) FROM books GROUP BY 1 ORDER BY 1").fetchall()
                if rows != [("en-u-kn", 200), ("he", 200), ("yue", 200)]:
                    wrong.append(rows)
                connection.close()

        threads = [threading.Thread(target=ask) for _ in range(8)]
        for thread in threads:
            thread.start()
        for thread in threads:
            thread.join()
        self.assertEqual(wrong, [])

    def test_long_explanations(self):
        connection = opened()
        hostile = "en-u-" + "-".join(f"{a}{n:02}" for a in "zyxwv" for n in range(65, -1, -1))
        self.assertTrue(value(connection, "SELECT bcp47_explain(?)", (hostile[:300],)).split("\n")[-1].startswith("= en-u-"))
        with self.assertRaisesRegex(sqlite3.OperationalError, "bcp47: the explanation has more than 20000 steps"):
            connection.execute("SELECT bcp47_explain(?)", (hostile[:1020],))

    def test_any_name_of_the_file(self):
        for name in ("libbcp47.so", "mod_bcp47.so", "a1.so"):
            path = os.path.join(self.folder, name)
            shutil.copy(EXTENSION + ".so", path)
            self.assertEqual(value(opened(extension=path[:-3]), "SELECT bcp47_canonical('iw')"), "he")

    def test_another_library_in_the_process(self):
        """A host that has a libbcp47 of its own is not asked, and nothing but the entry is shown."""
        ctypes.CDLL(LIBRARY, ctypes.RTLD_GLOBAL)
        self.assertEqual(value(opened(), "SELECT bcp47_canonical('I-KLINGON')"), "tlh")
        shown = subprocess.run(["nm", "-D", "--defined-only", EXTENSION + ".so"], check=True, text=True, stdout=subprocess.PIPE).stdout
        self.assertEqual(re.findall(r" [A-Z] (\S+)", shown), ["sqlite3_extension_init"])

    def test_parts(self):
        connection = opened(load=False)
        self.assertEqual(connection.execute(
            "SELECT bcp47_part(?1, 'language'), bcp47_part(?1, 'Extlang'), bcp47_part(?1, 'SCRIPT'), bcp47_part(?1, 'region'), "
            "bcp47_part(?1, 'variant'), bcp47_part(?1, 'key'), bcp47_part(?1, 'privateuse')",
            ("ZH-yue-hant-hk-1994-nedis-u-co-trad-x-own-use",)).fetchone(),
            ("zh", "yue", "Hant", "HK", "1994-nedis", "co", "own-use"))
        self.assertEqual(connection.execute(
            "SELECT bcp47_part('en', 'region'), bcp47_part('en_US', 'region'), bcp47_part(NULL, 'region'), bcp47_part('en', NULL), "
            "bcp47_part('I-KLINGON', 'grandfathered')").fetchone(), (None, None, None, None, "i-klingon"))
        self.assertEqual(value(connection, "SELECT bcp47_part(?, 'PrivateUse')", ("x-" + "-".join(["a"] * 511),)), "-".join(["a"] * 511))
        for kind in ("regions", "", "region ", "region\0", "7"):
            with self.assertRaisesRegex(sqlite3.OperationalError, 'there is no kind of part "%s"' % kind.rstrip("\0")):
                connection.execute("SELECT bcp47_part('en', ?)", (kind,))

    def test_readers_are_served(self):
        connection = opened()
        connection.execute("CREATE TABLE books (tag TEXT)")
        connection.executemany("INSERT INTO books VALUES (?)", [("en",), ("zh-yue",), ("de-DE",), ("he",)])
        for accept, best in (("de, en;q=0.8", "de-DE"), ("iw-XA;q=0.5, EN-gb;q=0.3", "he"), ("zh;q=0.2, yue;q=0.1", "zh-yue"), ("en;q=0, *", "zh-yue"),
                             ("gan, fr", None), ("", None), ("e_n", None), (None, None)):
            self.assertEqual(value(connection, "SELECT bcp47_best(?, group_concat(tag, ' , ')) FROM books", (accept,)), best, accept)
        self.assertEqual(connection.execute("SELECT bcp47_best('de', ' en, de '), bcp47_best('de', 'en,de,e_n'), bcp47_best('de', ''), bcp47_best('de', NULL), "
                                            "bcp47_best('iw', 'he', '2024-01-01')").fetchone(), ("de", None, None, None, "he"))
        with self.assertRaisesRegex(sqlite3.OperationalError, "has another name than '2024-01-02': " + LOADED):
            connection.execute("SELECT bcp47_best('de', 'de', '2024-01-02')")

    def test_parts_are_replaced(self):
        connection = opened(load=False)
        self.assertEqual(connection.execute("SELECT bcp47_with('de-CH', 'region', 'AT'), bcp47_with('ZH-tw', 'Script', 'hant'), bcp47_with('de-CH', 'region', ''), "
                                            "bcp47_with('de', 'region', 'A_'), bcp47_with('de', 'region', NULL)").fetchone(),
                         ("de-AT", "zh-Hant-TW", "de", None, None))
        for kind, said in (("regions", 'there is no kind of part "regions"'), ("key", '"key" can\'t be replaced: language, script, region, ')):
            with self.assertRaisesRegex(sqlite3.OperationalError, said):
                connection.execute("SELECT bcp47_with('en', ?, 'AT')", (kind,))

    def test_a_check_names_its_registry(self):
        """SQLite has no flag that refuses a function in a CHECK and not in a view. With the name, no other registry judges a row."""
        path = os.path.join(self.folder, "books.db")
        first = opened(path)
        first.execute("CREATE TABLE books (tag TEXT CHECK (bcp47_fault(tag, '2024-01-01') IS NULL))")
        first.execute("CREATE TABLE any (tag TEXT CHECK (bcp47_fault(tag) IS NULL))")
        first.execute("CREATE VIEW canonical AS SELECT bcp47_canonical(tag) AS tag FROM books")
        for table in ("books", "any"):
            first.execute(f"INSERT INTO {table} VALUES ('iw')")
            with self.assertRaisesRegex(sqlite3.IntegrityError, "CHECK constraint failed"):
                first.execute(f"INSERT INTO {table} VALUES ('en_US')")
        self.assertEqual(value(first, "SELECT tag FROM canonical"), "he")
        first.commit()
        first.close()
        second = opened(path, load=False)
        second.execute("SELECT bcp47_load(?)", (b"File-Date: 2025-01-01\n%%\nType: language\nSubtag: de\n",))
        with self.assertRaisesRegex(sqlite3.OperationalError, "has another name than '2024-01-01': it is 2025-01-01"):
            second.execute("INSERT INTO books VALUES ('de')")
        second.execute("INSERT INTO any VALUES ('de')")
        with self.assertRaisesRegex(sqlite3.IntegrityError, "CHECK constraint failed"):
            second.execute("UPDATE any SET tag = 'iw' WHERE tag = 'iw'")

    def test_a_database_in_utf16(self):
        path = os.path.join(self.folder, "wide.db")
        connection = sqlite3.connect(path)
        connection.execute("PRAGMA encoding = 'UTF-16'")
        connection.execute("CREATE TABLE books (tag TEXT)")
        connection.executemany("INSERT INTO books VALUES (?)", [("zh-yue",), ("iw",), ("日本語",), ("HE",)])
        connection.commit()
        connection.close()
        connection = opened(path)
        connection.execute("CREATE INDEX by_tag ON books (tag COLLATE BCP47_20240101)")
        self.assertEqual(connection.execute("SELECT bcp47_canonical(tag), bcp47_fault(tag, '2024-01-01') FROM books ORDER BY tag COLLATE BCP47, rowid").fetchall(),
                         [("he", None), ("he", None), ("yue", None), (None, "BadByte 1")])
        self.assertEqual(value(connection, "SELECT group_concat(tag) FROM (SELECT DISTINCT tag COLLATE BCP47 AS tag FROM books)"), "zh-yue,iw,日本語")
        self.assertEqual(value(connection, "PRAGMA integrity_check"), "ok")

    def test_other_types_and_nothing(self):
        connection = opened()
        self.assertEqual(connection.execute(
            "SELECT bcp47_canonical(NULL), bcp47_canonical(1), bcp47_fault(x'ff'), bcp47_fault(''), bcp47_equivalent('en', 'e_n')"
        ).fetchone(), (None, None, "BadByte 1", "EmptySubtag 1", None))
        self.assertEqual(value(connection, "SELECT bcp47_fault(?)", ("a" * 100000,)), "TooLong 0")
        self.assertEqual(connection.execute("SELECT bcp47_fault(x''), bcp47_canonical(x'6977'), bcp47_fault('en' || char(0)), bcp47_best('', 'en'), "
                                            "bcp47_best(coalesce(NULL, '*'), 'en'), bcp47_part(x'', 'language'), bcp47_with('de', 'script', x'4c61746e')"
                                            ).fetchone(), ("EmptySubtag 1", "he", "BadByte 1", None, "en", None, "de-Latn"))
        self.assertEqual(connection.execute("SELECT json_object('is', json(bcp47_show('en'))) -> '$.is[0].text', typeof(bcp47_equivalent('iw', 'he'))").fetchone(),
                         ('"en"', "integer"))


if __name__ == "__main__":
    unittest.main(argv=sys.argv[:1])
