#!/usr/bin/env python3
"""Tests bench/statement.py on a small repository of its own, which it changes in one place at a time.

Usage: tests/statement.py
"""

import contextlib
import io
import sys
import tempfile
import unittest
from pathlib import Path

sys.path.insert(0, str(Path(__file__).resolve().parent.parent / "bench"))
import statement

HEADLINE = [("answer", ["ok"])]

FILES = {
    "crates/low/specs/Shapes.antt": """\
-- The forms.
use Rattle.std.specs.Prelude.{◌≡◌, List, ℕ, length}

-- a short list
abbrev pub IsShort : List ℕ → Type 0
IsShort s = length s ≡ 3

-- nothing reaches this
abbrev pub IsLong : List ℕ → Type 0
IsLong s = length s ≡ 9
""",
    "crates/high/specs/Answers.antt": """\
-- The answers.
use Rattle.low.specs.Shapes.{IsShort}
use Rattle.std.specs.Prelude.{List, ℕ}

-- a right answer
-- to anything
pub record IsRight (s : List ℕ) : Type 0 where
  pub short : IsShort s

-- the refusal is owed
abbrev pub IsOwed : List ℕ → Type 0
IsOwed s = IsShort s
""",
    "crates/high/src/lib.rt": """\
//! Answers.
ghost use Rattle.std.specs.Prelude.{IfOk, IfErr};
ghost use Rattle.high.specs.Answers.{IsRight, IsOwed};

/// Why there is none.
pub enum Refusal {
    /// Memory ran out.
    OutOfMemory,
}

/// The answer.
///
/// It takes no memory.
pub fn answer(text: &[u8]) -> Result<Vec<u8>, Refusal>
    ensures ok { IfOk result (λ r. IsRight r.items) }
    ensures refusal { IfErr result (λ r. IsOwed text.now) }
{
    todo()
}
""",
    "docs/READING.md": """\
# The statement

| `f x`, `a ≡ b`, `length xs`, `IfOk r P`, `List T`, `ℕ` | all of std |

## 1. What is answered

`IsRight` is the answer.

## 2. The forms

And `IsShort` is short.
""",
    "README.md": "What must be believed is 6 lines.\n",
}


class Statement(unittest.TestCase):
    def setUp(self):
        self.folder = tempfile.TemporaryDirectory()
        self.root = Path(self.folder.name)
        for name, text in FILES.items():
            path = self.root / name
            path.parent.mkdir(parents=True, exist_ok=True)
            path.write_text(text, encoding="utf-8")

    def tearDown(self):
        self.folder.cleanup()

    def replace(self, name, old, new):
        path = self.root / name
        text = path.read_text(encoding="utf-8")
        self.assertIn(old, text)
        path.write_text(text.replace(old, new), encoding="utf-8")

    def run_it(self, *words, headline=None):
        printed = io.StringIO()
        with contextlib.redirect_stdout(printed):
            status = statement.main(["--root", str(self.root), *words], headline or HEADLINE)
        return status, printed.getvalue()

    def test_counts_what_is_reached_and_no_more(self):
        status, printed = self.run_it("--list", "--docs")
        self.assertEqual(status, 0, printed)
        self.assertTrue(printed.endswith("6 lines, 68 tokens, of 3 definitions in 3 files\n"), printed)
        self.assertIn("IsShort", printed)
        for name in ("IsLong", "IsOwed", "Refusal"):
            self.assertNotIn(name, printed)

    def test_an_error_counts_where_a_clause_looks_at_it(self):
        _, printed = self.run_it("--list", headline=[("answer", ["ok", "refusal"])])
        self.assertIn("Refusal", printed)
        self.assertIn("IsOwed", printed)

    def test_a_clause_that_is_not_there_is_told(self):
        with self.assertRaises(SystemExit) as told:
            self.run_it(headline=[("answer", ["ok", "kept"])])
        self.assertIn("has no clause kept", str(told.exception))

    def test_more_lines_than_allowed(self):
        self.assertEqual(self.run_it("--most", "6")[0], 0)
        status, printed = self.run_it("--most", "5")
        self.assertEqual((status, printed.endswith("more than 5\n")), (1, True))

    def test_an_inner_file_is_refused(self):
        inner = self.root / "crates/low/specs/inner/Shapes.antt"
        inner.parent.mkdir()
        (self.root / "crates/low/specs/Shapes.antt").rename(inner)
        self.replace("crates/high/specs/Answers.antt", "low.specs.Shapes", "low.specs.inner.Shapes")
        status, printed = self.run_it()
        self.assertEqual(status, 1)
        self.assertIn("INNER", printed)

    def test_docs_that_fall_behind(self):
        for name, old, new, told in [
            ("README.md", "6 lines", "5 lines", "another number"),
            ("docs/READING.md", "`IsShort`", "it", "doesn't name IsShort"),
            ("docs/READING.md", "`length xs`", "length", "doesn't have length"),
            ("docs/READING.md", "`a ≡ b`", "equal", "doesn't have ◌≡◌"),
        ]:
            self.replace(name, old, new)
            status, printed = self.run_it("--docs")
            self.assertEqual(status, 1, told)
            self.assertIn(told, printed)
            self.replace(name, new, old)
        self.assertEqual(self.run_it("--docs")[0], 0)

    def test_the_page_is_in_the_order_of_reading(self):
        status, page = self.run_it("--text")
        self.assertEqual(status, 0)
        parts = ["6 lines of 3 definitions", "## 1. What is answered", "`crates/high/specs/Answers.antt`", "-- a right answer",
                 "-- to anything", "pub record IsRight", "## 2. The forms", "-- a short list", "abbrev pub IsShort"]
        places = [page.index(part) for part in parts]
        self.assertEqual(places, sorted(places))
        self.assertIn("ensures ok {", page)
        for part in ("ensures refusal", "It takes no memory", "IsLong"):
            self.assertNotIn(part, page)


if __name__ == "__main__":
    unittest.main()
