"""tools/believe: a page that parts from the definitions that `run` cites is named, and written anew."""
import unittest

from base import ROOT, Case, write

TOP = """ghost use Rattle.one.specs.Words.{Says, Wants};
pub fn run(words: &[u64]) -> u64
    ensures promised { Says result }
    ensures more { Wants words.now result }
{
    0
}
"""
WORDS = """-- What words say: a number. More of it.
use Rattle.two.specs.Numbers.{Small}

-- it says a small number
abbrev pub Says : ℕ → Type 0
Says n = Small n

-- the words want
-- something
pub record Wants (words : List ℕ) (n : ℕ) : Type 0 where
  pub small : Says n

-- nobody cites this
abbrev pub Unused : Type 0
Unused = ⊥
"""
NUMBERS = """-- Numbers.
-- a number is small
abbrev pub Small : ℕ → Type 0
Small n = n ≤ 9
"""
PAGE = "# Page\n\n<!-- files of promised -->\n<!-- end -->\n\nMore.\n\n<!-- files of the rest -->\n<!-- end -->\n"


class Believe(Case):
    def setUp(self):
        super().setUp()
        write(f"{self.folder}/crates/one/src/top.rt", TOP)
        write(f"{self.folder}/crates/one/specs/Words.antt", WORDS)
        write(f"{self.folder}/crates/two/specs/Numbers.antt", NUMBERS)
        write(f"{self.folder}/docs/BELIEVE.md", PAGE)

    def said(self, *flags):
        return self.call(f"{ROOT}/tools/believe", *flags, self.folder)

    def page(self):
        with open(f"{self.folder}/docs/BELIEVE.md", encoding="utf-8") as it:
            return it.read()

    def test_the_tables_are_written_and_hold_then(self):
        self.assertEqual(self.said("--write")[0], 0)
        self.assertIn("| `crates/one/specs/Words.antt` | What words say: a number | 1 | 3 |", self.page())
        self.assertIn("| `crates/two/specs/Numbers.antt` | Numbers | 1 | 4 |", self.page())
        self.assertIn("2 definitions in 2 files, 7 lines with their comments.", self.page())
        # a file stands behind those that it uses
        self.assertLess(self.page().index("two/specs/Numbers.antt"), self.page().index("one/specs/Words.antt"))
        # what the promise cites isn't told again, and what nobody cites never
        self.assertIn("| `crates/one/specs/Words.antt` | What words say: a number | 1 | 4 |", self.page())
        self.assertIn("1 definitions in 1 files, 4 lines with their comments.", self.page())
        self.assertEqual(self.said(), (0, "promised: 2 definitions in 2 files, 7 lines\nthe rest: 1 definitions in 1 files, 4 lines\n", ""))

    def test_the_order_of_the_rows_is_the_page_s(self):
        rows = "| `crates/two/specs/Numbers.antt` | | | |\n| `crates/one/specs/Words.antt` | | | |\n"
        write(f"{self.folder}/docs/BELIEVE.md", PAGE.replace("promised -->\n", f"promised -->\n{rows}", 1))
        self.said("--write")
        self.assertLess(self.page().index("two/specs"), self.page().index("one/specs"))

    def test_a_definition_that_comes_is_missed(self):
        self.said("--write")
        write(f"{self.folder}/crates/two/specs/Numbers.antt", NUMBERS.replace("Small n = n ≤ 9", "Small n = n ≤ most\n\nabbrev pub most : ℕ\nmost = 9"))
        status, out, _ = self.said()
        self.assertEqual(status, 1)
        self.assertIn("docs/BELIEVE.md is out of date: promised", out)
        self.assertIn("+ | `crates/two/specs/Numbers.antt` | Numbers | 2 | 6 |", out)

    def test_the_page_as_it_stands(self):
        status, out, _ = self.call(f"{ROOT}/tools/believe")
        self.assertEqual(status, 0, out)


if __name__ == "__main__":
    unittest.main()
