#!/usr/bin/env python3
"""Goes through the commands of pages to the letter, and compares what they print with what the pages show; so too each command
of the program's help. Then through their links, in the repository and where the program is installed, and through sentences:
on a page none has 40 words or more.

Usage: tests/pages.py [--write] [PAGE..]

A command is a line, indented by four spaces, that begins with `$ `; lines that begin with `> ` continue it, and the indented
lines below are what it prints, on both outputs. In the manual it stands between .nf and .fi. The commands are run one
after another in a fresh folder that has what git has and build/langtag. The program is installed from there, below another
folder: its langtag is on the path, its registry is registry.txt, and a path below /usr/local is one below that folder. `make`
does nothing, since all is built. Empty lines are not compared. --write puts what was printed into the pages.

Without a PAGE it goes through all of them, and through the help. Prints `N passed, M failed`, and ends with status 1 unless all pass.
"""

import os
import re
import shutil
import subprocess
import sys
import tempfile
from pathlib import Path

ROOT = Path(__file__).resolve().parent.parent
PAGES = ["README.md", "docs/GUIDE.md", "docs/FAQ.md", "docs/MATCHING.md", "docs/INSTALL.md", "docs/updates.md", "docs/PROVED.md", "docs/tags.md",
         "docs/validity.md", "docs/steps.md", "docs/conditions.md", "docs/record-jar.md", "docs/DECISIONS.md", "docs/langtag.1",
         "docs/BINDINGS.md", "docs/C.md", "docs/PYTHON.md", "docs/RUST.md", "docs/NODE.md", "docs/JAVA.md", "docs/GO.md", "docs/WASM.md",
         "docs/LIBRARY.md", "docs/READING.md", "docs/SCALE.md", "docs/SPEED.md"]
# Its commands need the library, and tests/bindings.sh runs them.
OF_THE_LIBRARY = ["docs/C.md"]
INDENT = "    "
MOST_WORDS = 39


def blocks(lines, is_manual):
    """The commands of a page: each with the first and last line of what is printed below it, and its text."""
    indent, at, inside = "" if is_manual else INDENT, 0, not is_manual
    while at < len(lines):
        if is_manual and lines[at] in (".nf", ".fi"):
            inside = lines[at] == ".nf"
        if inside and lines[at].startswith(indent + "$ "):
            words, at = [lines[at][len(indent) + 2 :]], at + 1
            while at < len(lines) and lines[at].startswith(indent + "> "):
                words, at = [*words, lines[at][len(indent) + 2 :]], at + 1
            first = at
            while at < len(lines) and ends_not(lines[at], indent, is_manual):
                at += 1
            yield first, at, "\n".join(words)
        else:
            at += 1


def ends_not(line, indent, is_manual):
    """Whether a line is of what a command prints."""
    return not line.startswith(indent + "$ ") and (not line.startswith(".") if is_manual else line.startswith(indent))


def roff(text):
    """A text of a program as the manual's source has it."""
    text = text.replace("\\", "\\e").replace("-", "\\-")
    return re.sub(r"^([.'])", r"\\&\1", text, flags=re.M)


def plain(text):
    """What the manual's source shows."""
    return text.replace("\\&", "").replace("\\-", "-").replace("\\e", "\\")


def run(command, folder):
    """What a command prints in a prepared folder."""
    path = f"{folder}/bin:{folder}/tree/usr/local/bin:{os.environ['PATH']}"
    ran = subprocess.run(["bash", "-c", command.replace("/usr/local/", f"{folder}/tree/usr/local/")], cwd=folder / "repository",
                         stdin=subprocess.DEVNULL, stdout=subprocess.PIPE, stderr=subprocess.STDOUT,
                         env={**os.environ, "PATH": path, "LC_ALL": "C.UTF-8"}, timeout=120)
    return ran.stdout.decode(errors="replace")


def prepare(folder):
    """Copies what git has, and installs the program from there."""
    copy = folder / "repository"
    for it in (copy / "build", folder / "bin"):
        it.mkdir(parents=True)
    files = subprocess.run(["git", "ls-files", "-z"], cwd=ROOT, check=True, stdout=subprocess.PIPE).stdout
    subprocess.run(f"tar -c --null -T - | tar -x -C '{copy}'", shell=True, cwd=ROOT, input=files, check=True)
    shutil.copy2(ROOT / "build" / "langtag", copy / "build")
    (folder / "bin" / "make").write_text("#!/bin/sh\n")
    (folder / "bin" / "make").chmod(0o755)
    place = {**os.environ, "DESTDIR": str(folder / "tree"), "PREFIX": "/usr/local", "LIBDIR": "/usr/local/lib"}
    subprocess.run(["packaging/install.sh", "install", "program"], cwd=copy, env=place, check=True)
    shutil.copy2(folder / "tree/usr/local/share/langtag/registry.txt", copy)


def anchors(text):
    """The names by which a page's headings are linked to."""
    heads = re.findall(r"^#+ (.*)$", re.sub(r"^```.*?^```", "", text, flags=re.M | re.S), flags=re.M)
    return {re.sub(r"[^\w\- ]", "", re.sub(r"\]\([^)]*\)", "", it)).strip().lower().replace(" ", "-") for it in heads}


def lost_links(top):
    """The links of the pages below a folder that lead nowhere."""
    for page in sorted(top.rglob("*.md")):
        for target in re.findall(r"\]\(([^)\s]+)\)", page.read_text(encoding="utf-8")):
            name, _, anchor = target.partition("#")
            to = page.parent / name if name else page
            if "://" not in target and (not to.exists() or anchor and anchor not in anchors(to.read_text(encoding="utf-8"))):
                yield f"{page.relative_to(top)}: {target} leads nowhere"


def sentences(lines, is_manual):
    """The sentences of a page, of its paragraphs, list items and cells, without code."""
    text, is_code = [], False
    for line in lines:
        if line in (".nf", ".fi") or line.startswith("```"):
            is_code = not is_code
        if is_manual and re.match(r"\.([BI]|[BIR]{2}) ", line):
            text.append(line.split(" ", 1)[1].replace('"', ""))
        elif is_code or line.startswith((".", "#", "```") if is_manual else (INDENT, "#", "```")):
            text.append("")
        else:
            line = re.sub(r"^ *([-*]|\d+\.) ", "\n\n", line)
            text.append(line.replace("|", "\n\n") if line.lstrip().startswith("|") else line)
    # a row of names counts as one word
    for paragraph in re.split(r"\n\s*\n", re.sub(r"(`[^`\n]+`,\s)+", "", "\n".join(text))):
        yield from re.split(r"(?<=[.?!])[)\"'*]* ", " ".join(re.sub(r"\]\([^)]*\)", "]", paragraph).split()))


def compare(page, lines, folder):
    """Runs the commands of a page. Gives how many printed what is shown, how many did not, and the lines as they would be right."""
    is_manual = page.endswith(".1")
    indent = "" if is_manual else INDENT
    passed, found = 0, []
    for first, last, command in blocks(lines, is_manual):
        printed = run(plain(command) if is_manual else command, folder)
        told = [indent + it for it in (roff(printed) if is_manual else printed).split("\n") if it]
        shown = lines[first:last]
        passed += told == shown
        if told != shown:
            print(f"{page}:{first + 1}: $ {command}\n  shown:   {shown}\n  printed: {told}")
        found.append((first, last, told))
    right = lines[:]
    for first, last, told in reversed(found):
        right[first:last] = told
    return passed, len(found) - passed, right


def helps(folder):
    """The help of the program and of each command, by name. Each has an example."""
    whole = run("langtag --help", folder)
    for name in ["", *re.findall(r"^  ([a-z]+) ", re.search(r"^Commands:\n(.*?)\n\n", whole, re.M | re.S)[1], re.M)]:
        if name != "help":
            yield f"langtag help {name}".strip(), run(f"langtag help {name}", folder).split("\n")


def main():
    write = sys.argv[1:2] == ["--write"]
    pages = sys.argv[1 + write :] or [it for it in PAGES if (ROOT / it).exists()]
    passed = failed = 0
    with tempfile.TemporaryDirectory() as folder:
        prepare(Path(folder))
        for top in ("repository", "tree"):
            lost = [*lost_links(Path(folder) / top)]
            passed, failed = passed + (not lost), failed + len(lost)
            print("".join(f"{top}: {it}\n" for it in lost), end="")
        for page in pages:
            lines = (ROOT / page).read_text(encoding="utf-8").split("\n")
            long = [it for it in sentences(lines, page.endswith(".1")) if len(it.split()) > MOST_WORDS]
            print("".join(f"{page}: {len(it.split())} words: {it}\n" for it in long), end="")
            right, wrong, lines = (0, 0, lines) if page in OF_THE_LIBRARY else compare(page, lines, Path(folder))
            passed, failed = passed + right + (not long), failed + wrong + len(long)
            if write:
                (ROOT / page).write_text("\n".join(lines), encoding="utf-8")
        for name, lines in helps(Path(folder)) if not sys.argv[1:] else []:
            right, wrong, _ = compare(name, lines, Path(folder))
            passed, failed = passed + right, failed + wrong + (right + wrong == 0)
            print("" if right + wrong else f"{name}: no example\n", end="")
    print(f"{passed} passed, {failed} failed")
    return 1 if failed or not passed else 0


if __name__ == "__main__":
    sys.exit(main())
