"""The sizes of formulas and the conflicts of the examples are what tools/tests/stored/costs.txt has, on every machine."""
import os, shutil, unittest

from base import ROOT, Case, program, read, write


class Costs(Case):
    def test_what_the_examples_cost(self):
        status, out, err = self.call(f"{ROOT}/tools/costs", EPSAT_TESTED=program())
        self.assertEqual((status, err), (0, ""), out)
        self.assertGreater(out.count("\n"), 20)

    def test_a_row_that_changed_is_seen(self):
        """A copy of the tool over a table in which one row has another number, and one has gone."""
        for it in ("tools/costs", "examples/README.md", "examples/talks.eprime", "examples/roster.eprime", "examples/roster.param"):
            os.makedirs(os.path.dirname(f"{self.folder}/{it}"), exist_ok=True)
            shutil.copy(f"{ROOT}/{it}", f"{self.folder}/{it}")
        rows = read(f"{ROOT}/tools/tests/stored/costs.txt").split("\n")
        talks = next(it for it in rows if it.startswith("talks "))
        kept = [it.replace(" 183 ", " 182 ") for it in rows if not it.startswith("roster ")]
        write(f"{self.folder}/tools/tests/stored/costs.txt", "\n".join(kept))
        status, out, _ = self.call(f"{self.folder}/tools/costs", "talks", "roster", EPSAT_TESTED=program())
        self.assertEqual(status, 1)
        self.assertIn(f"{talks}, was 36 88 182 0\n", out)
        self.assertIn("was not there", out)
        self.assertEqual(self.call(f"{self.folder}/tools/costs", "--write", "talks", "roster", EPSAT_TESTED=program())[0], 0)
        self.assertEqual(self.call(f"{self.folder}/tools/costs", "talks", "roster", EPSAT_TESTED=program())[0], 0)


if __name__ == "__main__":
    unittest.main()
