"""Explanations of examples/infeasible: the stored ones and what the program says now are judged by other tasks alone."""
import os, re, unittest

from base import ROOT, Case, program, read
from explanations import judge

FOLDER = f"{ROOT}/examples/infeasible"
MODELS = sorted(it[:-7] for it in os.listdir(FOLDER) if it.endswith(".eprime"))


class Infeasible(Case):
    def test_there_are_six(self):
        self.assertEqual(len(MODELS), 6)
        page = read(f"{FOLDER}/README.md")
        for it in MODELS:
            self.assertIn(f"`{it}`", page)

    def test_stored_explanations_are_right(self):
        for it in MODELS:
            judge(self, read(f"{FOLDER}/{it}.eprime"), f"{FOLDER}/{it}.param", read(f"{FOLDER}/{it}.explained"))

    def test_explanations_are_right(self):
        for it in MODELS:
            params = f"{FOLDER}/{it}.param"
            status, out, _ = self.call(program(), "--task", "explain", "--in-eprime", f"{FOLDER}/{it}.eprime", "--in-param", params)
            self.assertEqual(status, 0)
            judge(self, read(f"{FOLDER}/{it}.eprime"), params, out)

    def test_explanations_of_single_clauses_are_right(self):
        for it in MODELS:
            params = f"{FOLDER}/{it}.param"
            _, text, _ = self.call(f"{ROOT}/tools/singles", f"{FOLDER}/{it}.eprime", params, "--table", "table")
            status, out, _ = self.call(program(), "--task", "explain", "--in-eprime", self.file("single.eprime", text), "--in-param", params)
            self.assertEqual(status, 0)
            judge(self, text, params, out)
            status, told, _ = self.call(f"{ROOT}/tools/singles", "--told", "table", given=out.encode())
            self.assertEqual((status, told.count("\n")), (0, len(re.findall(r"(?m)^\$ without ", out))))


if __name__ == "__main__":
    unittest.main()
