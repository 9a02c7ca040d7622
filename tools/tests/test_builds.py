"""That a program can be built without proof, as tools/build says it stands on the toolchain. Tried with tools/tests/run --builds alone."""
import os, subprocess, unittest

from base import ROOT, Case, program
import command, measuring


@unittest.skipUnless(os.environ.get("EPSAT_BUILDS"), "takes two minutes")
class Builds(Case):
    def test_a_program_without_proof_answers_as_the_other(self):
        built = subprocess.run([f"{ROOT}/tools/build", "--unproved"], stdout=subprocess.PIPE, check=True).stdout.decode().strip()
        self.assertIn("/unproved-", built)
        words = ["--in-eprime", f"{ROOT}/examples/shifts.eprime", "--in-param", f"{ROOT}/examples/shifts.param"]
        found = self.call(built, *words)
        self.assertIn("$ optimum 2", found[1])
        self.assertEqual(found, self.call(program(), *words))

    def test_clauses_are_measured_as_the_limits_measure_them(self):
        path = subprocess.run([f"{ROOT}/tools/build", "--measures"], stdout=subprocess.PIPE, check=True).stdout.decode().strip()
        self.assertIn("/measures-", path)
        model = """language ESSENCE' 1.0
given n : int(1..9)
letting D be domain int(1..n)
find x, y : int(0..9)
find M : matrix indexed by [D, D] of bool
such that x > 2, forAll i, j : D . M[i, j] \\/ (x + y > i), true
such that x * y = 6, toInt(10 / x > 2) = y, forAll i, j, k : int(1..200) . i + j + k > x
minimising x + 2 ** 40
"""
        self.file("m.eprime", model)
        self.file("m.param", "letting n be 3\n")
        found = measuring.measured(path, command.Command(["--in-eprime", f"{self.folder}/m.eprime", "--in-param", f"{self.folder}/m.param"]), None)
        self.assertEqual(sorted(found), list(range(7)))
        self.assertEqual((found[0], found[3], found[6]), ("L5", (1, 0), "L4"))
        # The limits are met where the program meets them: with as many cells of one value each as go with a clause, and with one more.
        for number, clause in ((1, "x > 2"), (2, "forAll i, j : D . M[i, j] \\/ (x + y > i)"), (4, "x * y = 6"), (5, "toInt(10 / x > 2) = y")):
            for left, said in ((5_000_000 - found[number][0] - 11, 7), (5_000_000 - found[number][0] - 10, 4)):
                self.file("padded", f"{model[: model.index('such that')]}find pad : matrix indexed by [int(1..{left})] of int(1)\nsuch that {clause}\n")
                words = ["--task", "verify", "--in-eprime", "padded", "--in-param", "m.param", "--in-solution", "/dev/null"]
                self.assertEqual(self.call(program(), *words)[0], said, clause)
            for left, said in ((20_000_000 - found[number][1] - 38, 7), (20_000_000 - found[number][1] - 37, 4)):
                self.file("padded", f"{model[: model.index('such that')]}find pad : int(1..{left})\nsuch that {clause}\n")
                self.assertEqual(self.call(program(), *words)[0], said, clause)
        status, out, err = self.call(f"{ROOT}/tools/heaviest", "m.eprime", "m.param")
        self.assertEqual((status, err), (0, ""))
        self.assertIn("  line 7 of the model, more than 5,000,000 nodes, some 56,000,001: forAll i, j, k : int(1..200) . i + j + k > x\n", out)
        self.assertIn("  line 5 of the model: `M` has 9 cells with 2 values each\n", out)


if __name__ == "__main__":
    unittest.main()
