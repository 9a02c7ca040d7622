"""tools/claims: a row that parts from its contract, or a contract from its row, is named."""
import unittest

from base import ROOT, Case, write

HEAD = "| What holds | Crate | File | Function | Clauses |\n|---|---|---|---|---|\n"
CODE = """/// Adds.
pub fn add(a: u64) -> u64
    // ensures gone { nothing }
    ensures sum { result }
    ensures { result }
{
    let f = |x| ensures inner { x } { x };
    f(a)
}
"""


class Claims(Case):
    def said(self, row, code=CODE):
        write(f"{self.folder}/crates.txt", "# comment: no crate\none: \n")
        write(f"{self.folder}/crates/one/src/lib.rt", code)
        write(f"{self.folder}/docs/CLAIMS.md", f"# Page\n\n{HEAD}{row}\n\nText.\n")
        return self.call(f"{ROOT}/tools/claims", self.folder)

    def test_a_row_that_holds(self):
        self.assertEqual(self.said("| It adds \\| sums | `one` | `src/lib.rt` | `add` | `sum`, `-` |"), (0, "1 rows of claims, 0 faults\n", ""))

    def test_what_is_gone(self):
        for row, want in (
            ("| It adds | `two` | `src/lib.rt` | `add` | `sum`, `-` |", "crates.txt has no crate two"),
            ("| It adds | `one` | `src/main.rt` | `add` | `sum`, `-` |", "there is no file src/main.rt in crates/one"),
            ("| It adds | `one` | `src/lib.rt` | `plus` | `sum`, `-` |", "there is no function plus in crates/one/src/lib.rt"),
            ("| It adds | `one` | `src/lib.rt` | `add` | `sum`, `-`, `gone` |", "has no clause gone"),
            ("| It adds | `one` | `src/lib.rt` | `add` | `sum`, `-`, `inner` |", "has no clause inner"),
            ("| It adds | `one` | `src/lib.rt` | `add` | `sum` |", "no row tells the clause - of add in crates/one/src/lib.rt"),
            ("| It adds | `one` | `src/lib.rt` | `add` |", "4 cells, not 5"),
            ("", "there is no row"),
        ):
            status, out, _ = self.said(row)
            self.assertEqual(status, 1, row)
            self.assertIn(want, out)

    def test_the_page_as_it_stands(self):
        status, out, _ = self.call(f"{ROOT}/tools/claims")
        self.assertEqual(status, 0, out)


if __name__ == "__main__":
    unittest.main()
