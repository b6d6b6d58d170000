#!/usr/bin/env python3
"""Judges the must-fail edits, wrong bodies that the contracts have to refuse: CONTRIBUTING.md says how, in "The gate".

Usage: tests/edits.py [--anew] [CRATE..]

Judges those edits, of all crates or of these, of which tests/edits.judged has no verdict that holds, with --anew all of them, and
writes there a line for each that is refused: its name, the sum of what the verdict depends on (tests/ledger.py), and the verdict.
Ends with status 1 unless each edit is refused at a clause: no line of `proof`, `name` or `unread` is in a release.
"""

import json
import os
import re
import resource
import shutil
import subprocess
import sys
import tempfile
import time
import types

ROOT = os.path.dirname(os.path.dirname(os.path.abspath(__file__)))
sys.path[:0] = [os.path.join(ROOT, "tools"), os.path.join(ROOT, "tests")]
import build
import ledger

JUDGED = os.path.join(ROOT, "tests", "edits.judged")
HEAD = "# Edits that are refused, by the sum of what the verdict depends on: tests/edits.py writes this file, and `make test` reads it.\n"
# What is said of an edit: a goal of its function fails; the same, where the search gave up; only a written proof of it does not fit;
# only a proof file that names what the edit took away; the prover can't read it, or says nothing of it; it is proved; it cannot be
# applied.
KINDS = CLAUSE, LIMIT, PROOF, NAME, UNREAD, NOT_REFUSED, BAD = "clause", "limit", "proof", "name", "unread", "NOT REFUSED", "BAD EDIT"
GOAL = re.compile(r"note: (?:\./)?(\S+?:\d+):\d+: it is not proved that (.*) \(`([^`]+)`\)(.*)")
ERROR = re.compile(r"(?:\./)?(\S+?):(\d+):\d+: error\S* ?(.*)")
LINE = re.compile(r"([a-z]+) (\S+): ((?:proved|not proved|no proof|could not tell|assumed|not assumed)\b.*)")
# What a proof file says where it names what is no longer there, and where it only rests on what is not proved.
NAMES = re.compile(r"has no field|is not in scope|has no `")
RESTS = re.compile(r"was not admitted|which was rejected, were not checked")
# What is said of a function with a goal for which no answer is written, and what of a goal.
UNPROVED = re.compile(r"expected answers in .*; `search` did not prove `[^`]+`")
GAVE_UP, FALSE = "gave up at one of its limits", "allow values at which this goal is false"
# The goals that speak of a written invariant, and so of the proof.
OF_INVARIANT = re.compile(r"invariant|-(init|preserved)\b")

rt = build.command()
# (what the kit itself keeps is not taken: tests/gate.py would not see it, and the scripts would lack it in crates/*/out)
rt.STORE = ""
rtlib, bodies = rt.rtlib, build.loaded(os.path.join(rt.HERE, "rt-plant-bodies"), "bodies")


def text_of(*path):
    with open(os.path.join(*path), encoding="utf-8") as it:
        return it.read()


class Edit:
    """A must-fail edit, as the lines that it changes, and the functions in which they are."""

    def __init__(self, crate, path, source):
        self.text, self.name = text_of(path), "%s/%s" % (crate.name, os.path.basename(path)[: -len(".edit")])
        texts, self.fault = rt.read_edit(path, crate.folder)
        # is_of_others: what is in a head, or outside of each body, speaks of others too. unfit: the proof files that do not fit.
        self.lines, self.functions, self.is_of_others, self.unfit = {}, [], False, set()
        for file, text in (texts or {}).items():
            was, now = text_of(crate.folder, file).split("\n"), text.split("\n")
            if len(was) != len(now):
                self.fault = "it changes the number of lines"
            for at in (at for at, (a, b) in enumerate(zip(was, now)) if a != b):
                self.lines[file, at] = now[at]
                first = len("\n".join(was[:at]).encode()) + bool(at)
                last = first + len(was[at].encode())
                found = [it for it in source.functions if it.file == file and it.first <= last and first < it.end]
                self.is_of_others = self.is_of_others or not found or last < found[0].opens
                self.functions += [it for it in found if it not in self.functions]
        if not self.fault and not self.lines:
            self.fault = "it changes nothing"

    def symbols(self, told):
        """Those of a check's names that can be of its functions, and of closures in them."""
        # (a module may have the name of a function of another)
        found = "|".join("%s::%s" % (f.owner + "[^:]*" if f.owner else f.file[4:-3].replace("/", "::"), f.name) for f in self.functions)
        return [it for it in told if found and re.search("(^|::)(%s)(::|$)" % re.sub(r"\b(lib|main)::", "", found), it)]

    def clashes(self, other):
        """Whether one check cannot tell the two apart."""
        return any(it.is_of_others or len(it.functions) != 1 for it in (self, other)) or self.functions[0].name == other.functions[0].name


class Said:
    """What a check said: of each function, type and impl whether it is proved, its goals, and the errors in its proof files."""

    def __init__(self, text, crate):
        self.text, self.status, self.goals, self.errors, goals = text, {}, {}, {}, []
        self.lines = text.rstrip("\n").split("\n")
        self.has_verdict = self.lines[-1].startswith(("logic=", "only=")) and not rtlib.STALE.search(text)
        for line in self.lines:
            goal, error, item = GOAL.match(line), ERROR.match(line), LINE.match(line)
            if goal:
                goals.append(goal.groups())
            elif error and not RESTS.search(error[3]):
                folder = os.path.dirname(error[1]).split("/")
                of = "::".join([crate.name, *folder[1:]]) if folder[0] == "proofs" else error[1]
                self.errors.setdefault(of, []).append((error[1], error[3], line))
            elif item:
                symbol = item[2] if item[1] == "fn" else "%s %s" % item.group(1, 2)
                self.status[symbol], self.goals[symbol], goals = item[3], goals, []

    def verdict(self, edit, is_alone, is_second):
        """The kind of the verdict on an edit and why, or None where this check shows nothing of it, or nothing more."""
        # (of a type or a constant any function or lemma may be the one that fails)
        symbols = edit.symbols(self.status) if edit.functions else [*{**self.status, **self.errors}]
        goals, errors = ([it for symbol in symbols for it in said.get(symbol, [])] for said in (self.goals, self.errors))
        words = [it for it in (self.status.get(symbol, "proved") for symbol in symbols) if not it.startswith(("proved", "assumed"))]
        if is_second:
            if symbols and not goals + errors + words:
                return NOT_REFUSED, "it is proved with this edit, without %s" % ", ".join(sorted(edit.unfit))
            # (without its invariants a right body has such goals too)
            is_whole = not any(it.endswith("/Invariants.antt") for it in edit.unfit)
            goals = [it for it in goals if FALSE in it[3] and not OF_INVARIANT.search(it[2]) and is_whole]
            return (CLAUSE, "%s: %s (`%s`)" % goals[0][:3]) if goals else None
        unread = next((it for it in self.lines if rt.unread(it, [])), None) if is_alone else None
        if unread or not symbols:
            return UNREAD, "the prover cannot read the edited text: " + unread if unread else "the check has no line for its function"
        if goals:
            return LIMIT if all(GAVE_UP in it[3] for it in goals) else CLAUSE, "%s: %s (`%s`)" % goals[0][:3]
        edit.unfit = {file for file, _, _ in errors if re.search(r"/(Answers|Invariants|Proof)\.antt$", file)}
        for kind, found in ((PROOF, [it for it in errors if not NAMES.search(it[1])]), (NAME, errors)):
            if found:
                return kind, found[0][2]
        if words and not is_alone:
            return None
        if unproved := [it for it in words if UNPROVED.search(it)]:
            return CLAUSE, unproved[0]
        return NOT_REFUSED, "no clause of its own fails: " + words[0] if words else "it is proved with this edit"


def rounds_of(edits):
    """Lists that hold each edit once, and in each what one check can tell apart."""
    rounds = []
    for it in edits:
        free = [found for found in rounds if not any(it.clashes(other) for other in found)]
        (free or [rounds.append([]) or rounds[-1]])[0].append(it)
    return rounds


def unpack(crate, checked, kept):
    """Writes what a proof has checked to a folder of kept work, where rattle takes what is up to date, and returns its names."""
    build = re.search(r"^rattle-build (\S+)", text_of((crate.deps[0].rlib if crate.is_static else crate.rlib), "format"), re.M)[1]
    folder, names = os.path.join(kept, build.replace("/", "_")), []
    os.makedirs(folder, exist_ok=True)
    with open(os.path.join(checked, "toolchain", "checked.a"), "rb") as archive:
        for name, at, size in map(json.loads, text_of(checked, "toolchain", "checked.json").splitlines()):
            # (a name with a slash is a part of another crate's module)
            if "/" not in name:
                archive.seek(at)
                names.append(name)
                with open(os.path.join(folder, name + ".oantt"), "wb") as it:
                    it.write(archive.read(size))
    return names


class Crate:
    """A crate with its edits, which are in a folder, and what they come to. facts: what it and the crates below state, by their names."""

    def __init__(self, crate, facts, folder):
        self.crate, self.told, source = crate, {}, facts[crate.name].source
        self.edits = [Edit(crate, it, source) for it in sum(rt.edits_of(types.SimpleNamespace(folder=folder)), [])]
        items, logic = ledger.around(facts[it.name] for it in [crate, *crate.below()]), text_of(rtlib.KIT, "KIT-ID").split()[-1]
        self.sums = {it: ledger.sum_of(logic, source, items, it) for it in self.edits if not it.fault}

    def task(self, waits, due):
        """The task of judging these edits, for build.Lanes."""
        return waits, 60 * len(due), 0.7 * rt.need(self.crate), lambda given, jobs: not due or self.judge(due)

    def judge(self, due):
        """Judges these edits over what the proof of the crate has checked: of a static library where `out/checked` has it."""
        self.told = {it: (BAD, it.fault) for it in due if it.fault}
        due, self.known = [it for it in due if not it.fault], set()
        with tempfile.TemporaryDirectory(prefix="rt-edits-") as room:
            self.kept = os.path.join(room, "kept")
            checked = self.crate.rlib if self.crate.makes_rlib() else os.path.join(self.crate.folder, "out", "checked")
            if os.path.isdir(checked) and (self.crate.is_static or self.crate.is_built()):
                names = unpack(self.crate, checked, self.kept)
                found = [re.fullmatch(r"Rattle-%s-proofs\.(.*)\.Proof" % self.crate.name, it) for it in names]
                self.known = {"::".join([self.crate.name, *it[1].split(".")]) for it in found if it}
            elif due and "logic=proved" not in self.check([], set()).text:
                self.told.update({it: (BAD, "the crate is not proved as it stands") for it in due})
                due = []
            self.run(rounds_of(due))
            self.run([[it] for it in due if it not in self.told])
            self.run(rounds_of([it for it in due if self.told[it][0] in (PROOF, NAME) and it.unfit]), is_second=True)
        return self

    def run(self, rounds, is_second=False):
        """Judges the edits of these rounds: the second time without the proof files that did not fit."""
        for tried in rounds:
            said, is_alone = self.check(tried, set().union(*(it.unfit for it in tried)) if is_second else set()), len(tried) == 1
            if said.has_verdict:
                found = {it: said.verdict(it, is_alone, is_second) for it in tried}
                self.told.update({it: why for it, why in found.items() if why})
            elif is_alone and not is_second:
                self.told[tried[0]] = UNREAD, "no verdict: " + " / ".join(said.lines[-3:])

    def check(self, edits, without):
        """What a check of a copy of the crate with these edits, and without these files, says."""
        with tempfile.TemporaryDirectory(prefix="rt-edits-") as room:
            for part in filter(lambda it: os.path.isdir(os.path.join(self.crate.folder, it)), rtlib.PARTS):
                shutil.copytree(os.path.join(self.crate.folder, part), os.path.join(room, part))
            for (file, at), line in (changed for it in edits for changed in it.lines.items()):
                rows = text_of(room, file).split("\n")
                with open(os.path.join(room, file), "w", encoding="utf-8") as it:
                    it.write("\n".join([*rows[:at], line, *rows[at + 1 :]]))
            for file in without:
                os.remove(os.path.join(room, file))
            kept, stages = os.path.join(room, "kept") if edits else self.kept, os.path.join(room, "stages")
            if edits:
                # (rattle replaces such a file, and writes into none)
                subprocess.run(["cp", "-al", self.kept, kept], check=True)
            # (a check looks at the edited functions and those that they call, where these are all that can fail)
            found = [it.symbols(self.known) for it in edits]
            is_some = all(found) and not any(it.is_of_others for it in edits)
            only = [word for it in sorted({*sum(found, [])}) * is_some for word in ("--only", it.split("::", 1)[1])]
            words = [rtlib.RATTLE, "check", *self.crate.words(["--jobs", "1"], keeps=False), "--incremental", kept, "--stage-times", stages]
            with tempfile.TemporaryFile("w+", errors="replace") as out:
                run = subprocess.Popen([*rtlib.guarded(), *words, *only], cwd=room, stdin=subprocess.DEVNULL, stdout=out, stderr=out)
                while run.poll() is None and not (os.path.exists(stages) and "\nstage lines " in text_of(stages)):
                    time.sleep(0.05)
                if run.poll() is None:
                    # (all is judged: it would begin proof files for what it refused, for long; where it can open no file it ends)
                    resource.prlimit(run.pid, resource.RLIMIT_NOFILE, (0, 0))
                run.wait()
                out.seek(0)
                return Said(out.read(), self.crate)


def lines_of(text):
    """The verdicts of a ledger: a sum and a word, by the names of edits."""
    return {it.split()[0]: tuple(it.split()[1:]) for it in text.splitlines() if it and not it.startswith("#")}


class Ledger:
    """What is known of the edits of crates, and what is found now."""

    def __init__(self, crates, names=(), folder_of=lambda it: it.folder):
        crates = [it for it in crates if not names or it.name in names]
        used = {below.name: below for it in crates for below in [it, *it.below()]}
        facts = {name: ledger.Facts(ledger.source_of(rtlib, bodies, it)) for name, it in used.items()}
        self.crates = {it.name: Crate(it, facts, folder_of(it)) for it in crates}
        self.held, self.is_whole = lines_of(text_of(JUDGED)) if os.path.exists(JUDGED) else {}, not names

    def due(self, anew, draws=False):
        """The edits to judge, by crate: those without a line that holds, those whose line is newer than the last landing, where git
        tells that, and those of one crate that the tree draws."""
        git = lambda *words: subprocess.run(["git", "-C", ROOT, *words], capture_output=True, text=True).stdout.strip()
        landed = lines_of(git("show", "origin/HEAD:tests/edits.judged")) if draws else {}
        tree, with_edits = git("rev-parse", "HEAD^{tree}"), [name for name, it in self.crates.items() if it.edits]
        self.drawn = min(with_edits, key=lambda it: ledger.digest(tree, it)) if draws and with_edits else ""
        return {name: [edit for edit in it.edits if anew or name == self.drawn or not self.holds(self.held, it, edit)
                       or landed and not self.holds(landed, it, edit)] for name, it in self.crates.items()}

    def holds(self, lines, crate, edit):
        return lines.get(edit.name, ("",))[0] == crate.sums.get(edit, "-")

    def close(self, is_release=False):
        """Writes the ledger, says what was found, and returns the number of faults. For a release it is one too that no clause is
        told which refuses an edit."""
        said, kinds, allowed = [], [], (CLAUSE, LIMIT) if is_release else (CLAUSE, LIMIT, PROOF, NAME, UNREAD)
        lines = {} if self.is_whole else {name: it for name, it in self.held.items() if name.partition("/")[0] not in self.crates}
        for it, edit in ((it, edit) for it in self.crates.values() for edit in it.edits):
            holds, (kind, why) = self.holds(self.held, it, edit), it.told.get(edit, ("", ""))
            kinds.append(kind := kind or (self.held[edit.name][1] if holds else ""))
            if kind in (CLAUSE, LIMIT, PROOF, NAME, UNREAD):
                lines[edit.name] = it.sums[edit], kind
            if kind not in ("", CLAUSE, LIMIT):
                said.append("%-11s %s: %s%s" % (kind, edit.name, "the line of tests/edits.judged is wrong: " * (holds and kind not in allowed), why[:300]))
        text = HEAD + "".join("%s %s %s\n" % (name, *lines[name]) for name in sorted(lines))
        if not os.path.exists(JUDGED) or text != text_of(JUDGED):
            with open(JUDGED, "w", encoding="utf-8") as it:
                it.write(text)
            said.append("tests/edits.judged has changed: it belongs to the change that is tested.")
        said.append("%d edits: %s" % (len(kinds), ", ".join("%d %s" % (kinds.count(it), it or "not judged") for it in ("", *KINDS))))
        print("\n".join(said), flush=True)
        return sum(it not in ("", *allowed) for it in kinds)


def main():
    anew, names = "--anew" in sys.argv, [it for it in sys.argv[1:] if it != "--anew"]
    rtlib.guarded()
    crates = rtlib.crates_below(ROOT + "/crates")
    if [it for it in names if it not in [it.name for it in crates]]:
        sys.exit(__doc__)
    found = Ledger(crates, names)
    due = {name: it for name, it in found.due(anew).items() if it}
    if due and subprocess.run([os.path.join(ROOT, "tools", "build.py"), *due]).returncode:
        return 1
    build.Lanes(rt, {(name, "edits"): found.crates[name].task([], edits) for name, edits in due.items()}).run()
    return int(found.close(is_release=True) > 0)


if __name__ == "__main__":
    sys.exit(main())
