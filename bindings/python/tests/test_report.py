"""The report about a catalogue, by python3 -m bcp47 report, and the commands canon, csv and show. What is wanted was counted by hand.
Arguments: the sample registry, IANA's registry."""
import os
import subprocess
import sys
import tempfile
import unittest
from pathlib import Path
from xml.etree import ElementTree

from command import COMMAND

SAMPLE, IANA = sys.argv[1:3]
CATALOGUE = """\
id,tag,title
1,zh-yue,one
2,de,"two, and
more"
3,YUE,three
4,yue,four
5,en_US,five
6,DE,six
7,,seven
8,zh-yue,eight
9
10,iw,ten

12,x y,twelve
13,de,thirteen
14,ja-heploc-alalc97,fourteen
15,en_US,fifteen
16,he,sixteen
17,I-KLINGON,seventeen
18,en-GB,eighteen
"""
FREQUENT = "Canonical tags by the rows that have them, with a bar for each"
JOINED = "Canonical tags that two or more texts became"
ALONE = "Canonical tags that one other text became"
FAULTS = "Rows that are refused, by the fault"
REFUSED = "Rows that need a look, by their text"
TOP = "What became of the rows below the heading"


def ran(content, *words, **how):
    """How the command ended, by this input."""
    how = {"stdout": subprocess.PIPE, "input": content if isinstance(content, bytes) else content.encode(), **how}
    return subprocess.run([*COMMAND, *words], stderr=subprocess.PIPE, **how)


class Page:
    """The parts of a report, which is well-formed as XML, too."""

    def __init__(self, content, column, *options, registry=SAMPLE):
        done = ran(content, "report", *options, "--", registry, column)
        assert (done.returncode, done.stderr) == (0, b""), done.stderr
        self.text = done.stdout.decode()
        self.root = ElementTree.fromstring(self.text)
        self.paragraphs = ["".join(it.itertext()) for it in self.root.iter("p")]
        self.headings = ["".join(it.itertext()) for level in ("h1", "h2") for it in self.root.iter(level)]
        self.tables = {}
        for table in self.root.iter("table"):
            rows = [["".join(cell.itertext()) for cell in row] for row in table.iter("tr")]
            self.tables[table.find("caption").text] = rows


class Reports(unittest.TestCase):
    def failed(self, status, content, *words, **how):
        """What the command says at its end with a status."""
        done = ran(content, *words, **how)
        self.assertEqual((done.returncode, done.stdout or b""), (status, b""), done.stderr)
        return done.stderr.decode().splitlines()[-1].partition("error: ")[2]

    def refused(self, content, *words, status=3):
        return self.failed(status, content, "report", SAMPLE, *words)

    def test_numbers(self):
        page = Page(CATALOGUE, "tag")
        # yue, de twice, he, en-GB; zh-yue twice, YUE, DE, iw, I-KLINGON; en_US twice, an empty one, x y, one that repeats, and two rows
        # without the column, whose text is none
        self.assertEqual(page.tables[TOP], [["Rows", "How many", "Distinct texts"], ["The tag stays", "5", "4"],
                                            ["The tag is made canonical", "6", "5"], ["The tag is refused", "7", "4"], ["All rows read", "18", "13"]])
        self.assertIn("Distinct tags that are not refused: 9 before, 5 after.", page.paragraphs)
        self.assertEqual(page.paragraphs[0], "Of 18 rows, 6 (33.3%) changed, and 7 (38.9%) need a look, since their tag is refused.")
        self.assertEqual([row[:4] for row in page.tables[REFUSED][1:]], [
            ["en_US", "2", "6", "BadByte 1"], ["empty", "2", "10", "NoColumn"], ["empty", "1", "8", "EmptySubtag 1"],
            ["x y", "1", "13", "BadByte 1"], ["ja-heploc-alalc97", "1", "15", "ReplacementRepeats alalc97"]])
        self.assertEqual(page.tables[FREQUENT][1:], [["yue", "4", "22.2%"], ["de", "3", "16.7%"], ["he", "2", "11.1%"],
                                                     ["tlh", "1", "5.6%"], ["en-GB", "1", "5.6%"]])
        self.assertEqual([it.get("style") for it in page.root.iter("div") if it.get("style")],
                         ["width: 100.0%", "width: 75.0%", "width: 50.0%", "width: 25.0%", "width: 25.0%"])
        self.assertEqual(page.tables[JOINED][1:], [["yue", "4", "zh-yue", "2"], ["YUE", "1"], ["yue", "1"], ["de", "3", "de", "2"],
                                                   ["DE", "1"], ["he", "2", "iw", "1"], ["he", "1"]])
        self.assertEqual(page.tables[ALONE][1:], [["tlh", "1", "I-KLINGON", "1"]])
        faults = [row[:4] for row in page.tables[FAULTS][1:]]
        self.assertEqual(faults, [["BadByte", "3", "6", "en_US"], ["NoColumn", "2", "10", "empty"], ["EmptySubtag", "1", "8", "empty"],
                                  ["ReplacementRepeats", "1", "15", "ja-heploc-alalc97"]])
        helps = [row[4] for row in page.tables[FAULTS][1:]]
        self.assertIn("write zh-Hant for zh_Hant", helps[0])
        self.assertEqual(helps[1], "The row has too few fields: name another column, or mend the row.")
        self.assertIn("remove one of the variants", helps[3])

    def test_the_registry(self):
        import hashlib
        content = Path(SAMPLE).read_bytes()
        wanted = ["2024-01-01", str(content.count(b"%%")), hashlib.sha256(content).hexdigest()]
        self.assertEqual([it.text for it in Page(CATALOGUE, "tag").root.iter("dd")], wanted)

    def test_what_to_write(self):
        """Each proposal is a canonical tag by IANA's registry."""
        texts = ["eng", "GER-at", "German", " portuguese ", "en_US.UTF-8", "zh_Hant_TW", "'de'", '"de"', "en-uk", "en--US", "scr", "eng-UK",
                 "Klingonn", "de-DE-DE", "de@euro"]
        page = Page("tag\n" + "".join('"%s"\n' % it.replace('"', '""') for it in texts), "tag", registry=IANA)
        written = {row[0]: row[4] for row in page.tables[REFUSED][1:]}
        wanted = ["en", "de-AT", "de", "pt", "en-US", "zh-Hant-TW", None, "de", "en-GB", "en-US", "hr", "en-GB", None, None, "de"]
        self.assertEqual({it: written[it] if it in dict(zip(texts, wanted)) and dict(zip(texts, wanted))[it] else None for it in texts},
                         dict(zip(texts, wanted)))
        self.assertIn("get a newer registry", written["Klingonn"])

    def test_the_file(self):
        with tempfile.TemporaryDirectory() as folder:
            path, made = Path(folder) / "books & more.csv", Path(folder) / "report.html"
            path.write_text(CATALOGUE)
            self.assertEqual(ran("", "report", SAMPLE, "tag", path, "-o", made).stdout, b"")
            text = made.read_text()
        self.assertRegex(text, "It was made on [0-9]{4}-[0-9]{2}-[0-9]{2} of <bdi[^>]*>books &amp; more.csv</bdi> by bcp47 [0-9.]+[.] ")
        self.assertIn(">the standard input</bdi> by bcp47 ", Page(CATALOGUE, "tag").text)

    def test_a_registry_without_a_date(self):
        with tempfile.TemporaryDirectory() as folder:
            path = Path(folder) / "registry.txt"
            path.write_text("Type: language\nSubtag: aa\n")
            page = Page("tag\naa\n", "tag", registry=path)
        self.assertEqual(next(page.root.iter("dd")).text, "none")

    def test_what_a_reader_finds(self):
        page = Page(CATALOGUE, "tag")
        self.assertEqual(page.headings, ["Language tags of the column tag", "Refused texts", "Faults", "Rows", "The most frequent tags",
                                         "Tags that became one", "Other tags that changed", "Registry", "About this page"])
        self.assertEqual(list(page.tables), [REFUSED, FAULTS, TOP, FREQUENT, JOINED, ALONE])
        self.assertEqual((page.root.get("lang"), next(page.root.iter("title")).text), ("en", page.headings[0]))
        for table in page.root.iter("table"):
            self.assertEqual({cell.get("scope") for row in table.find("thead") for cell in row}, {"col"})
            self.assertTrue({cell.get("scope") for cell in table.iter("th")} <= {"col", "row", "rowgroup"})
        self.assertEqual([(it.get("tabindex"), it.get("aria-label")) for it in page.root.iter("div") if it.get("role") == "region"],
                         [("0", caption) for caption in page.tables])
        for word in ("http:", "https:", "<script", "src=", "href=", "@import", "url("):
            self.assertNotIn(word, page.text)

    def test_long_tables_are_cut(self):
        page = Page(CATALOGUE, "tag", "--most", "1")
        self.assertEqual([it for it in page.paragraphs if "more" in it], ["4 more are not shown.", "3 more are not shown.", "4 more are not shown.", "2 more are not shown."])
        self.assertEqual(page.tables[FREQUENT][1:], [["yue", "4", "22.2%"]])
        self.assertEqual(page.tables[JOINED][1:], [["yue", "4", "zh-yue", "2"], ["2 more", "2"]])
        self.assertIn("Each table keeps 1 at most.", page.paragraphs[-1])
        self.assertNotIn("more are", Page(CATALOGUE, "tag", "--most", "5").text)

    def test_of_nothing(self):
        for content in ("tag", "tag\n", "\ufefftag\r\n"):
            page = Page(content, "tag")
            self.assertEqual([row[1:] for row in page.tables[TOP][1:]], [["0", "0"]] * 4)
            self.assertEqual(page.paragraphs.count("There are none."), 5)
            self.assertTrue(page.paragraphs[0].startswith("Of 0 rows, 0 (0.0%) changed, and 0 (0.0%) need"))

    def test_escapes(self):
        name, tag = """<b>"tag"</b> & '""", "<script>alert(1)</script>&amp;\"'"
        rows = [name, tag, "a\0b\x1b\u202ec", "\u05d0 ", "é" * 201]
        quoted = "".join('"%s"\n' % row.replace('"', '""') for row in rows if "\0" not in row or sys.version_info >= (3, 11))
        page = Page(quoted, "1")
        self.assertEqual(page.headings[0], "Language tags of the column " + name)
        self.assertEqual(next(page.root.iter("title")).text, page.headings[0])
        self.assertEqual(page.tables[FAULTS][1][3], tag)
        self.assertNotIn("<script", page.text)
        for row, wanted in ((rows[2].replace("\0", ""), "ab\\x1b\\u202ec"), (rows[3], rows[3]), ("é" * 200, "é" * 200),
                            (rows[4], "é" * 200 + " … (201 characters)")):
            page = Page(f'tag\n"{row}"\n', "tag")
            self.assertEqual(page.tables[FAULTS][1][3], wanted)

    def test_columns(self):
        named = Page(CATALOGUE, "tag").text
        self.assertEqual(Page(CATALOGUE, "2").text, named)
        # an empty line has one field; a name goes before a number
        self.assertEqual(Page("tag\n\n", "tag").tables[FAULTS][1][:4], ["EmptySubtag", "1", "2", "empty"])
        self.assertEqual(Page("2,tag\nde,en\n", "2").tables[FREQUENT][1][0], "de")
        self.assertEqual(Page("tag,tag\nde,en\n", "2").tables[FREQUENT][1][0], "en")
        of = ": give a name that is there once, or a number, of: "
        for word in ("Tag", "0", "4", "-1", "02", "9" * 5000, ""):
            self.assertEqual(self.refused(CATALOGUE, "--", word), f"0 columns are named {word!r}{of}1 'id', 2 'tag', 3 'title'")
        self.assertEqual(self.refused("tag,id, tag,tag\n", "tag"), f"2 columns are named 'tag'{of}1 'tag', 2 'id', 3 ' tag', 4 'tag'")
        self.assertEqual(self.refused("", "tag"), f"0 columns are named 'tag'{of}")
        self.assertEqual(self.refused("t\x1bg\n", b"t\xffg"), f"0 columns are named 't\\udcffg'{of}1 't\\x1bg'")

    def test_bytes(self):
        named = Page(CATALOGUE, "tag").text
        self.assertEqual(Page(b"\xef\xbb\xbf" + CATALOGUE.encode(), "tag").text, named)
        self.assertEqual(Page(CATALOGUE.replace("\n", "\r\n"), "tag").text, named)
        self.assertEqual(Page(b'\xef\xbb\xbf"tag"\nde\n', "tag").tables[FREQUENT][1][0], "de")
        for content, line in ((b"tag\nde\n\xe4\n", 3), (b'tag\n"a\nb\xff"\n', 3), ("tag\n".encode("utf-16"), 1), (b"t\xe4g\n", 1)):
            self.assertEqual(self.refused(content, "tag", status=4), f"line {line} is not UTF-8: write the file in UTF-8")

    def test_faults_of_csv(self):
        for content, wanted in (
                ('tag\nde\n"a\nb\n', "line 4, in the record that begins in line 3: unexpected end of data"),
                ('tag\n"a\nb"c\n', "line 3, in the record that begins in line 2: ',' expected after '\"'"),
                ("tag\nde\rde\n", "line 2, in the record that begins in line 2: new-line character seen in unquoted field"),
                ('"tag\n', "line 1, in the record that begins in line 1: unexpected end of data"),
                ("tag\n" + "a" * ((1 << 24) + 1), "line 2, in the record that begins in line 2: field larger than field limit (16777216)")):
            self.assertEqual(self.refused(content, "tag", status=4), wanted)
        self.assertEqual(Page("tag\n" + "a" * (1 << 24), "tag").tables[FAULTS][1][0], "TooLong")
        self.assertEqual(Page('tag,size\nde,12" LP\n', "tag").tables[FREQUENT][1][0], "de")

    def test_large_numbers(self):
        page = Page("tag\n" + "de\n" * 1999 + "\n" * 1000, "tag")
        self.assertEqual((page.tables[FREQUENT][1], page.tables[FAULTS][1][:3]), (["de", "1,999", "66.7%"], ["EmptySubtag", "1,000", "2001"]))

    def test_delimiters(self):
        for delimiter, word in (("\t", "tab"), ("\t", "\t"), (";", ";"), ("|", "|"), (" ", " ")):
            page = Page(f'id{delimiter}tag\n"a{delimiter},b"{delimiter}de\n', "tag", "--delimiter", word)
            self.assertEqual(page.tables[FREQUENT][1][0], "de")
        for word in ("", '"', "\n", "\r", ";;", "ä", "Tab"):
            self.assertEqual(self.refused(CATALOGUE, "tag", "--delimiter", word), "argument --delimiter: it is one byte of ASCII but no "
                             "quote, carriage return or line feed, or the word tab")

    def test_words(self):
        for word in ("0", "-1", "x", "10000", "1.5", "٣"):
            self.assertEqual(self.refused(CATALOGUE, "tag", "--most=" + word), "argument --most: it is a number from 1 to 9999")
        self.assertIn("Each table keeps 9,999 at most.", Page(CATALOGUE, "tag", "--most", "9999").text)
        self.assertIn("required: COMMAND", self.failed(3, ""))
        self.assertIn("invalid choice: 'chart'", self.failed(3, "", "chart"))
        self.assertIn("required: COLUMN", self.failed(3, "", "report", SAMPLE))

    def test_files(self):
        self.assertIn("No such file or directory: '/no/such/file'", self.failed(4, CATALOGUE, "report", "/no/such/file", "tag"))
        self.assertIn("No such file or directory: '/no/such/file'", self.failed(4, "", "report", SAMPLE, "tag", "/no/such/file"))
        self.assertRegex(self.failed(2, CATALOGUE, "report", __file__, "tag"), "^" + __file__ + ": jar BadLine line 1: Neither a field, ")
        self.assertIn("Is a directory", self.failed(4, CATALOGUE, "report", os.path.dirname(__file__) or ".", "tag"))
        with open("/dev/full", "wb") as full:
            self.assertIn("No space left on device", self.failed(4, CATALOGUE, "report", SAMPLE, "tag", stdout=full))
        self.assertIn("Bad file descriptor", self.failed(4, "", "report", SAMPLE, "tag", preexec_fn=lambda: os.close(0)))


class Commands(unittest.TestCase):
    """The commands for lists, tables and tags print what the program prints."""

    def said(self, content, *words, status=0):
        done = ran(content, *words)
        self.assertEqual((done.returncode, done.stderr), (status, b""))
        return done.stdout.decode()

    def test_canon(self):
        self.assertEqual(self.said(b"zh-yue\nen_US\r\n\xff\n\nI-KLINGON\r\nja-heploc-alalc97", "canon", SAMPLE, status=1),
                         "yue\n! BadByte 1\n! BadByte 1\n! EmptySubtag 1\ntlh\n! ReplacementRepeats alalc97\n")
        self.assertEqual(self.said("iw\n", "canon", SAMPLE), "he\n")
        self.assertEqual(self.said("", "canon", SAMPLE), "")

    def test_canon_answers_before_it_reads_on(self):
        with subprocess.Popen([*COMMAND, "canon", SAMPLE], stdin=subprocess.PIPE, stdout=subprocess.PIPE) as running:
            for text in (b"iw\n", b"zh-yue\n"):
                running.stdin.write(text)
                running.stdin.flush()
                self.assertEqual(running.stdout.readline(), {b"iw\n": b"he\n", b"zh-yue\n": b"yue\n"}[text])
            running.stdin.close()
        self.assertEqual(running.returncode, 0)

    def test_csv(self):
        table = 'id,tag\n1,"iw"\n2,en_US\n3\n\n"4,5",de\n'
        self.assertEqual(self.said(table, "csv", SAMPLE, "tag", status=1),
                         'id,tag,langtag_fault\n1,he,\n2,en_US,BadByte 1\n3,NoColumn\n,NoColumn\n"4,5",de,\n')
        self.assertEqual(self.said(table, "csv", SAMPLE, "2", "--keep", status=1),
                         'id,tag,langtag,langtag_fault\n1,iw,he,\n2,en_US,,BadByte 1\n3,,NoColumn\n,,NoColumn\n"4,5",de,de,\n')
        self.assertEqual(self.said("a;tag\n1;iw\n", "csv", SAMPLE, "tag", "--delimiter", ";"), "a;tag;langtag_fault\n1;he;\n")

    def test_show(self):
        self.assertEqual(self.said("", "show", SAMPLE, "ZH-yue", "zh-hans-x-a"),
                         "zh-yue\n1    Language  zh   record 17\n2    Extlang   yue  record 23\n     Preferred-Value  yue\n"
                         "     Prefix           zh\nExtlang 2 23 yue\n= yue\n\n"
                         "zh-Hans-x-a\n1    Language             zh    record 17\n2    Script               Hans  record 24\n"
                         "3    PrivateUseSingleton  x\n4    PrivateUse           a\n= zh-Hans-x-a\n\n")
        self.assertEqual(self.said("", "show", SAMPLE, "de-foobar", "en\x1bUS", status=1),
                         "de-foobar\n1    Language  de      record 2\n2    Variant   foobar  not registered\n! UnknownVariant 2\n\n"
                         "en US\n! BadByte 1\n\n")
        self.assertEqual(self.said("", "show", SAMPLE, b"de-\xff", status=1), "de- \n! BadByte 2\n\n")

    def test_it_is_imported_by_tools(self):
        with tempfile.TemporaryDirectory() as folder:
            path = Path(folder) / "tool.py"
            path.write_text("import bcp47.__main__\nprint(callable(bcp47.__main__.main))\n")
            self.assertEqual(subprocess.run([*COMMAND[:-2], path], stdout=subprocess.PIPE).stdout, b"True\n")

    def test_faults_are_shown_by_their_names(self):
        with tempfile.TemporaryDirectory() as folder:
            path = Path(folder) / "tool.py"
            path.write_text("import bcp47\nprint(bcp47.Fault.BadByte, f'{bcp47.Fault.BadByte:>9}')\n")
            self.assertEqual(subprocess.run([*COMMAND[:-2], path], stdout=subprocess.PIPE).stdout, b"BadByte   BadByte\n")

    def test_version(self):
        self.assertRegex(self.said("", "--version"), r"^bcp47 [0-9]+\.[0-9]+\.[0-9]+\n$")

    def test_a_reader_that_goes_away(self):
        with subprocess.Popen([*COMMAND, "canon", SAMPLE], stdin=subprocess.PIPE, stdout=subprocess.PIPE, stderr=subprocess.PIPE) as running:
            running.stdout.close()
            running.stdin.write(b"de\n")
            running.stdin.close()
            self.assertEqual(running.stderr.read(), b"")
        self.assertEqual(running.returncode, 4)


if __name__ == "__main__":
    unittest.main(argv=sys.argv[:1])
