#!/usr/bin/env python3
"""Tests the judge of edits on wrong bodies of which it is known what each has to come to, and the sums by which verdicts are kept."""

import pathlib
import tempfile
import unittest

import edits

SOURCE = """\
#![tactic(auto)]

ghost use Rattle.std.specs.Prelude.{◌≡◌, ◌≤◌, ◌+◌};
ghost use Rattle.made.specs.Sums.{three_more};

const STEP: u16 = 1;
pub fn next(n: u8) -> u16
    ensures { result ≡ n + 1 }
{ u16::from(n) + 1 }
pub fn after_next(n: u8) -> u16
    ensures { result ≡ n + 2 }
{ next(n) + 1 }
pub fn third(n: u8) -> u16
    ensures { result ≡ three_more n }
{ after_next(n) + 1 }
pub fn fourth(n: u8) -> u16
    ensures { result ≡ n + 4 }
{ after_next(n) + 2 }
pub fn step(n: u8) -> u16
    ensures { result ≡ n + 1 }
{ u16::from(n) + STEP }
"""
SUMS = """\
use Rattle.std.specs.Prelude.{ℕ, ◌+◌}

abbrev pub three_more : ℕ → ℕ
three_more n = n + 3
"""
ANSWERS = """\
use Rattle.std.specs.Prelude.{◌+◌}
use Rattle.std.proofs.Common.{arith, ◌∙◌, ap}
use Rattle.made.proofs.%s.Goals as goal

pub returns : goal.returns
returns c = ap (λ it. it + %d) c.after_next.ensures ∙ omega arith
"""
FILES = {"crates.txt": "made:\n", "crates/made/specs/Lib.antt": "-- Sums.\npub mod Sums\n",
         "crates/made/proofs/third/Answers.antt": ANSWERS % ("third", 1), "crates/made/proofs/fourth/Answers.antt": ANSWERS % ("fourth", 2)}
PLANTED = {
    "adds_two": ("{ u16::from(n) + 1 }", "{ u16::from(n) + 2 }", "clause"),
    "behind_its_callee": ("{ next(n) + 1 }", "{ next(n) + 3 }", "clause"),
    "constant_of_two": ("const STEP: u16 = 1;", "const STEP: u16 = 2;", "clause"),
    "the_other_order": ("{ u16::from(n) + STEP }", "{ STEP + u16::from(n) }", "NOT REFUSED"),
    "says_less": ("    ensures { result ≡ n + 2 }", "    ensures { result ≤ n + 2 }", "NOT REFUSED"),
    "takes_a_name_away": ("{ after_next(n) + 1 }", "{ u16::from(n) + 3 }", "NOT REFUSED"),
    "does_not_fit": ("{ after_next(n) + 2 }", "{ 2 + after_next(n) }", "NOT REFUSED"),
    "does_not_fit_and_is_wrong": ("{ after_next(n) + 2 }", "{ after_next(n) + 3 }", "clause"),
    "is_not_read": ("{ next(n) + 1 }", "{ next(n) + }", "unread"),
}
# What meets every clause, though the proof as it is written does not fit.
PIECE = {"piece_of_one": ("const PIECE: usize = 65536;", "const PIECE: usize = 1;", "proof or NOT REFUSED")}


class Judged(unittest.TestCase):
    def setUp(self):
        self.room = pathlib.Path(self.enterContext(tempfile.TemporaryDirectory()))

    def write(self, files, planted, folder, file="src/lib.rt"):
        plants = {f"{folder}/must-fail/{name}.edit": f"file: {file}\nold: {old}\nnew: {new}\n" for name, (old, new, _) in planted.items()}
        for path, text in {**files, **plants}.items():
            (self.room / path).parent.mkdir(parents=True, exist_ok=True)
            (self.room / path).write_text(text, encoding="utf-8")

    def made(self, source=SOURCE, sums=SUMS):
        self.write({**FILES, "crates/made/src/lib.rt": source, "crates/made/specs/Sums.antt": sums}, PLANTED, "crates/made")
        return edits.Ledger(edits.rtlib.crates_below(str(self.room))).crates["made"]

    def judge(self, crate, planted):
        told = {it.name.partition("/")[2]: why for it, why in crate.judge(crate.edits).told.items()}
        self.assertEqual({name for name, (kind, _) in told.items() if kind in planted[name][2]}, {*planted}, told)

    def test_planted_edits_are_told(self):
        self.judge(self.made(), PLANTED)

    def test_a_written_proof_alone_is_no_clause(self):
        self.write({}, PIECE, ".", "src/pieces.rt")
        stream = [it for it in edits.rtlib.crates_below(edits.ROOT + "/crates") if it.name == "lt_stream"]
        self.judge(edits.Ledger(stream, folder_of=lambda it: str(self.room)).crates["lt_stream"], PIECE)

    def test_sums(self):
        def changed(old, new, of=SOURCE):
            now = self.made(**{"source" if of is SOURCE else "sums": of.replace(old, new)}).sums
            return {it.name.partition("/")[2] for it, sum in now.items() if was[it.name] != sum}

        was = {it.name: sum for it, sum in self.made().sums.items()}
        # comments and layout; another body; a clause of what is called; a definition. Edits of no body depend on the whole crate.
        alone = {"constant_of_two", "says_less"}
        self.assertEqual(changed("pub fn next(n: u8)", "// What comes next.\npub fn next( n:  u8 )"), set())
        self.assertEqual(changed("{ u16::from(n) + STEP }", "{ STEP + u16::from(n) }"), alone)
        self.assertEqual(changed("result ≡ n + 2 }", "result ≡ 2 + n }"),
                         {*PLANTED} - {"adds_two", "the_other_order", "says_less"})
        self.assertEqual(changed("three_more n = n + 3", "three_more n = 3 + n", of=SUMS), {*alone, "takes_a_name_away"})


if __name__ == "__main__":
    unittest.main()
