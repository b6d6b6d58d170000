#!/usr/bin/python3
"""Tests langtag.html in headless Chromium and Firefox of Debian as a person uses it, with its answers beside the program's.

Usage: page.py langtag.html PROGRAM REGISTRY [FOLDER], from the repository; pictures at three widths in two colour schemes go to FOLDER.
ROWS=1000000 in the environment makes the CSV file that long; else it has 200,000 rows.
"""
import json
import os
import random
import shutil
import subprocess
import sys
import tempfile
import time
from pathlib import Path

from browsers import CLOSE, CONTRAST, Chromium, Firefox, wait

PAGE, PROGRAM, REGISTRY = (Path(it).resolve() for it in sys.argv[1:4])
PICTURES = Path(sys.argv[4]) if len(sys.argv) > 4 else None
BIG = int(os.environ.get("ROWS", "200000"))


def program(*words, given=b""):
    """What the program prints."""
    return subprocess.run([PROGRAM, *words], input=given, capture_output=True, check=False).stdout


def mixed(count: int) -> bytes:
    """So many tags, right and wrong ones, one in each line."""
    return subprocess.run([sys.executable, "bench/make_tags.py", REGISTRY, "mixed", str(count)], capture_output=True, check=True).stdout


def text_of(browser, name: str) -> str:
    return browser.run(f"return document.getElementById('{name}').textContent")


def looked_at(browser, tag: str) -> str:
    """What the page says of a tag."""
    browser.run(f"document.getElementById('tag-said').textContent = ''; const it = document.getElementById('tag'); it.value = {json.dumps(tag)};"
                "it.form.requestSubmit()")
    return wait(browser, "document.getElementById('tag-said').textContent")


def saved(folder: Path, name: str) -> bytes:
    """What the browser saved."""
    path = folder / name
    for _ in range(300):
        if path.exists() and path.stat().st_size and not list(folder.glob("*.part")) and not list(folder.glob("*.crdownload")):
            return path.read_bytes()
        time.sleep(0.1)
    raise AssertionError(f"nothing was saved: {list(folder.iterdir())}")


CLICK = "document.querySelector('#list-more a.save').click()"
READ = "document.querySelector('#list-more a.save') && document.getElementById('progress').hidden && document.getElementById('list-said').textContent"


def by_one_tag(browser) -> None:
    """What is said of single tags, beside the program."""
    for tag in ("zh-yue", "I-KLINGON", "en-us", "sgn-dd", "x-own", "zh-yue-HK-u-nu-latn-x-a", "ja-latn-hepburn-heploc", "en-a-b2-a1"):
        answer = program("canon", REGISTRY, given=tag.encode() + b"\n").decode().strip()
        said = looked_at(browser, tag)
        if answer.startswith("!"):
            assert answer.split()[1] in said, (tag, answer, said)
        else:
            assert "is a valid" in said and (said.endswith(f"Its canonical form is {answer}.") or answer == tag), (tag, answer, said)
        steps = program("explain", REGISTRY, tag).decode().splitlines()[:-1]
        shown = wait(browser, "[...document.querySelectorAll('#tag-more ol')].map((it) => it.children.length)")
        assert answer.startswith("!") or (shown[1] if len(shown) > 1 else 0) == len(steps), (tag, steps, shown)
    more = (looked_at(browser, "zh-yue-HK"), text_of(browser, "tag-more"))[1]
    for words in ("Yue Chinese", "Cantonese", "record 8,520", "macrolanguage", "Hong Kong", "The tag is now yue-HK", "Macrolanguage"):
        assert words in more, (words, more)
    for text, fault, mark, instead in (
            ("en_US", "BadByte at subtag 1", "_", "en-US"), ("eng", "UnknownLanguage at subtag 1", "eng", "en"), ("en-UK", "UnknownRegion", "UK", "en-GB"),
            ("English", "UnknownLanguage", "English", "en"), ("en-US-Latn", "Misplaced", "Latn", "en-Latn-US"), ("en--US", "EmptySubtag", "nothing", "en-US"),
            ("en-a", "Unfinished", "nothing", "en"), ("ger", "UnknownLanguage", "ger", "de"), ("<b>&", "BadByte", "<", None), ("zxq9-x", "BadLanguage", "zxq9", None),
            ("de_DE.UTF-8", "BadByte", "_", "de-DE"), ("Portuguese", "LongSubtag", "Portuguese", "pt"), ("", "EmptySubtag", None, None),
            ("a" * 2000, "TooLong", None, None), ("de-heploc-alalc97", "ReplacementRepeats of alalc97", None, None)):
        said = looked_at(browser, text)
        assert fault in said, (text, said)
        assert program("canon", REGISTRY, given=text.encode() + b"\n").decode().split()[1] == fault.split()[0], text
        if mark:
            assert browser.run("return document.querySelector('#tag-said mark').textContent") == mark, (text, mark)
        wanted = f"Write {instead} instead" if instead else None
        assert browser.run("return document.querySelector('#tag-more button')?.textContent ?? null") == wanted, (text, wanted)
    looked_at(browser, "eng")
    browser.run("document.querySelector('#tag-more button').click()")
    wait(browser, "document.getElementById('tag-said').textContent === 'en is a valid language tag, and it is its own canonical form.'")
    assert browser.run("return document.activeElement.id") == "tag"


def by_keys(browser) -> None:
    """Each control is reached in its order by Tab, has a name, and works by keys."""
    browser.go(PAGE.as_uri())
    wait(browser, "document.getElementById('tag-said')?.textContent")
    order = []
    for _ in range(16):
        browser.press("Tab")
        order.append(browser.run("return document.activeElement.id || document.activeElement.textContent"))
        seen = browser.run("const {outlineStyle, outlineWidth} = getComputedStyle(document.activeElement); return [outlineStyle, outlineWidth]")
        assert seen == ["solid", "3px"], (order, seen)
        if order[-1] == "jar":
            break
    assert order == ["One tag", "A list or a file", "Do two tags mean the same?", "The registry", "tag", "Look at the tag", "tags", "Look at the list", "file", "first",
                     "second", "Compare the two", "jar"], order
    browser.run("document.getElementById('tag').select()")
    for key in "iw":
        browser.press(key)
    browser.press("Enter")
    wait(browser, "document.getElementById('tag-said').textContent === 'iw is a valid language tag. Its canonical form is he.'")
    unnamed = browser.run("""return [...document.querySelectorAll('input, textarea, select, progress, button, a, [role=region], section')].filter((it) =>
        !(it.labels?.length || it.textContent.trim() || it.getAttribute('aria-label') || document.getElementById(it.getAttribute('aria-labelledby')))).map((it) => it.outerHTML)""")
    assert unnamed == [], unnamed
    # WCAG 2.2, 2.5.8 and 1.3.1: nothing to press is small, and no heading skips a level
    small = browser.run("""return [...document.querySelectorAll('input, textarea, select, button, a')].filter((it) => it.offsetParent)
        .filter((it) => Math.min(it.getBoundingClientRect().width, it.getBoundingClientRect().height) < 24).map((it) => it.outerHTML)""")
    assert small == [], small
    levels = browser.run("return [...document.querySelectorAll('h1, h2, h3, h4')].map((it) => Number(it.tagName[1]))")
    assert levels[0] == 1 and all(b - a <= 1 for a, b in zip(levels, levels[1:])), levels
    twice = browser.run("const all = [...document.querySelectorAll('[id]')].map((it) => it.id); return all.filter((it, i) => all.indexOf(it) !== i)")
    assert twice == [], twice


def by_lists(browser, folder: Path) -> None:
    """A list that is pasted, CSV that is dropped or chosen, and what is saved, which is what the program writes."""
    tags = mixed(3000) + "iw\nhe\nen_US\n\neng\neng\nDeutsch\u00e9\nen-US\r\n".encode()
    browser.run(f"document.getElementById('tags').value = {json.dumps(tags.decode())}; document.getElementById('list-form').requestSubmit()")
    said = wait(browser, READ)
    # a field for text has line feeds alone
    given = tags.replace(b"\r\n", b"\n")
    wanted = program("canon", REGISTRY, given=given)
    refused = sum(it.startswith(b"!") for it in wanted.splitlines())
    assert said.startswith("3,008 lines: ") and said.endswith(f"{refused:,} are refused."), said
    browser.run(CLICK)
    assert saved(folder, "tags-canonical.txt") == wanted
    table = browser.run("return [...document.querySelectorAll('#list-more table')].map((it) => it.innerText)")
    assert any("eng\ten\t2\t3,005\tUnknownLanguage 1" in it for it in table), table[2][:500]
    rows = b'\xef\xbb\xbfid;"the ""tag""";lang\r\n1;"a;b\nc";"zh-yue"\r\n2;x;en_US\n3;\xe9\xff;iw\n4\n\n5;"";he\n6;x\ry;de\n7;12" LP;i-klingon\n8;z;en-UK'
    browser.run("const kept = new DataTransfer(); kept.items.add(new File([Uint8Array.from("
                f"{list(rows)})], 'books.csv')); document.body.dispatchEvent(new DragEvent('drop', {{dataTransfer: kept, bubbles: true, cancelable: true}}))")
    wait(browser, f"/^9 rows/.test({READ})")
    assert browser.run("return document.getElementById('where').selectedOptions[0].textContent") == "Column 3: lang"
    browser.run(CLICK)
    assert saved(folder, "books-canonical.csv") == program("csv", "--delimiter", ";", REGISTRY, "3", given=rows)
    browser.run("document.getElementById('list-said').textContent = ''; const where = document.getElementById('where'); where.value = 1; where.dispatchEvent(new Event('change'))")
    wait(browser, f"/^9 rows: 0 stay/.test({READ})")
    (folder / "books-canonical.csv").unlink()
    browser.run(CLICK)
    assert saved(folder, "books-canonical.csv") == program("csv", "--delimiter", ";", REGISTRY, "2", given=rows)
    (folder / "single.csv").write_bytes(b"lang\niw\n")
    browser.file("#file", folder / "single.csv")
    wait(browser, f"/^1 row: 0 stay as they are, 1 change/.test({READ})")
    browser.run(CLICK)
    assert saved(folder, "single-canonical.csv") == program("csv", REGISTRY, "lang", given=b"lang\niw\n")
    for name, content, why in (("quotes.csv", b"id,tag\n1,\"x", "ends within quotes"), ("utf-16.csv", "id,tag\n1,de".encode("utf-16"), "is in UTF-16")):
        (folder / name).write_bytes(content)
        browser.file("#file", folder / name)
        wait(browser, f"document.getElementById('list-said').textContent.includes({json.dumps(why)})")


def by_chance(browser) -> None:
    """What is saved of texts that are made by chance, of all that CSV is made of, beside the program: csv and canon."""
    chance = random.Random(7)
    pieces = ['"', '"', '""', ",", ",", "\n", "\n", "\r\n", "\r", "iw", "zh-yue", "en_US", " ", "\u00e9", "x", '"iw"', ",iw,", ',"zh-yue"', "\n1,iw"]
    given = [(("" if i % 3 else "id,tag,more\n") + "".join(chance.choices(pieces, k=1 + i % 30))).encode() for i in range(150)]
    given = [(it, i % 4 - 1) for i, it in enumerate([b"i\rd,tag\n1,iw\n", *given])]
    browser.run("const it = document.createElement('script'); it.textContent = 'window.asks = ask'; document.body.append(it)")
    got = browser.run(f"""const all = []; for (const [bytes, column] of {json.dumps([(list(text), column) for text, column in given])})
        all.push(await window.asks('many', Uint8Array.from(bytes), {{begin: 0, delimiter: 44}}, column).then(async (it) => [...new Uint8Array(await it.result.arrayBuffer())], (it) => it.message));
        return all""")
    same = 0
    for (text, column), answer in zip(given, got):
        words = ["canon", REGISTRY] if column < 0 else ["csv", REGISTRY, str(column + 1)]
        ran = subprocess.run([PROGRAM, *words], input=text, capture_output=True, check=False)
        if ran.returncode > 1:  # a heading without the column, or an end within quotes
            assert ran.returncode == 3 or "within quotes" in answer, (text, column, answer)
        else:
            assert bytes(answer) == ran.stdout, (text, column, bytes(answer), ran.stdout)
            same += 1
    assert same > 100, same


def by_many(browser, folder: Path, big: Path):
    """Many rows: the page answers meanwhile. Gives seconds and the longest time for which it stood still."""
    browser.run("window.gaps = []; let last = performance.now(); setInterval(() => { const now = performance.now(); gaps.push(now - last); last = now; }, 10)")
    begun = time.monotonic()
    browser.file("#file", big)
    wait(browser, "!document.getElementById('progress').hidden")
    meanwhile = looked_at(browser, "iw")
    assert meanwhile == "iw is a valid language tag. Its canonical form is he.", meanwhile
    wait(browser, f"/^{BIG:,} rows/.test({READ})", 240)
    seconds = time.monotonic() - begun
    still = browser.run("return Math.max(...gaps)") / 1000
    browser.run(CLICK)
    given = big.read_bytes()
    assert saved(folder, "big-canonical.csv") == program("csv", REGISTRY, "tag", given=given)
    (folder / "big-canonical.csv").unlink()
    assert still < 5, still
    return seconds, still


def by_two(browser) -> None:
    """Whether two tags are one."""
    for first, second, wanted in (("zh-cmn-Hans", "cmn-hans", "Yes, they mean the same: both are cmn-Hans."), ("en-GB", "en-US", "No, they are different: en-GB and en-US."),
                                  ("eng", "de", "The first tag, eng, is refused. UnknownLanguage at subtag 1"), ("de", "en_US", "The second tag, en_US, is refused. BadByte")):
        browser.run("document.getElementById('equal-said').textContent = '';"
                    + "".join(f"document.getElementById('{key}').value = {json.dumps(it)};" for key, it in (("first", first), ("second", second)))
                    + "document.getElementById('equal-form').requestSubmit()")
        said = wait(browser, "document.getElementById('equal-said').textContent")
        assert said.startswith(wanted), (wanted, said)


def by_registry(browser, folder: Path) -> None:
    """Another registry, and what is none."""
    assert text_of(browser, "jar-said") == "The registry of 2025-05-15 answers, with 9,274 entries."
    (folder / "none.txt").write_text("File-Date: 2025-05-15\n%%\nType: language\n")
    browser.file("#jar", folder / "none.txt")
    wait(browser, "/that was here stays/.test(document.getElementById('jar-said').textContent)")
    assert program("check", folder / "none.txt").decode().split()[-1] in text_of(browser, "jar-said")
    browser.file("#jar", Path("examples/sample-registry.txt").resolve())
    wait(browser, "!/9,274|stays/.test(document.getElementById('jar-said').textContent)")
    assert "UnknownLanguage" in looked_at(browser, "fr")
    browser.file("#jar", REGISTRY)
    wait(browser, "/9,274/.test(document.getElementById('jar-said').textContent)")
    assert "is a valid language tag" in looked_at(browser, "fr")


def pictures(browser, name: str) -> None:
    """Pictures, and that nothing is wider than the page."""
    looked_at(browser, "en-US-Hans")
    tags = "zh-yue\nyue\niw\nhe\nHE\nen_US\neng\neng\nGerman\nen-UK\nde-DE\n"
    browser.run(f"document.getElementById('tags').value = {json.dumps(tags)}; document.getElementById('list-form').requestSubmit()")
    wait(browser, f"/^11 lines/.test({READ})")
    for width in (360, 800, 1280):
        for dark in (False, True):
            browser.look(width, dark)
            time.sleep(0.1)
            wide = browser.run("return [innerWidth, document.documentElement.scrollWidth]")
            assert wide[0] == width and wide[1] <= width, wide
            bad = browser.run(f"return [...{CONTRAST}, ...{CLOSE}]")
            assert bad == [], (width, dark, bad)
            if PICTURES:
                (PICTURES / f"{name}-{width}-{'dark' if dark else 'light'}.png").write_bytes(browser.picture())


def main() -> None:
    with tempfile.TemporaryDirectory(ignore_cleanup_errors=True) as made:
        big = Path(made) / "big.csv"
        tags = mixed(BIG).decode().splitlines()
        big.write_text("id,title,tag\n" + "".join(f'{i},"A title, {i}",{it}\n' for i, it in enumerate(tags)))
        for kind in (Chromium, Firefox):
            name = kind.__name__.lower()
            if not shutil.which(kind.PROGRAM):
                print(f"page: skipped {name}, which apt-get install {kind.PROGRAM} installs")
                continue
            folder = Path(made) / name
            folder.mkdir()
            browser = kind(folder)
            try:
                by_keys(browser)
                by_one_tag(browser)
                by_lists(browser, folder)
                by_chance(browser)
                seconds, still = by_many(browser, folder, big)
                by_two(browser)
                by_registry(browser, folder)
                pictures(browser, name)
                messages = browser.messages()
                assert messages == [], messages
            finally:
                browser.end()
            print(f"page: {name} passed; {BIG:,} rows took {seconds:.1f} s, and the page stood still for {still:.2f} s at most")


main()
