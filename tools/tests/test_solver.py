"""Another solver: what it finds is judged, and what it doesn't find is proved."""
import os, shutil, unittest

from base import ROOT, Case, program, read

WITH = os.path.join(ROOT, "tools/with-solver")
PIGEONS = """language ESSENCE' 1.0
find hole : matrix indexed by [int(1..6)] of int(1..5)
find lazy : bool
such that forAll i : int(1..5) . forAll j : int(i + 1..6) . hole[i] != hole[j]
"""
# Asks a stored answer, and writes a stored proof where it is asked for one.
STUB = """#!/bin/sh
case "$1" in
    --help) [ -n "$PROOF" ] && echo "  --lrat  write a proof"; exit 0 ;;
    --lrat) cp "$PROOF" "$4" ;;
esac
cat "$SAYS"
grep -q "s SATISFIABLE" "$SAYS" && exit 10
grep -q "s UNSATISFIABLE" "$SAYS" && exit 20
exit 0
"""


class Solver(Case):
    def setUp(self):
        super().setUp()
        self.stub = self.file("stub", STUB, True)
        self.model = self.file("pigeons.eprime", PIGEONS)
        self.env.update(SAYS=self.file("says", "s UNSATISFIABLE\n"), PROOF="")

    def with_solver(self, *words, **env):
        status, out, err = self.call(WITH, *words, **env)
        self.assertEqual(self.left(), [])
        return status, out, err

    def test_solvers_of_debian(self):
        for name in ("cadical", "minisat", "picosat"):
            if not shutil.which(name):
                continue
            shifts = [f"{ROOT}/examples/shifts.eprime", f"{ROOT}/examples/shifts.param"]
            status, out, _ = self.with_solver(name, *shifts)
            self.assertEqual((status, out.split("\n")[1]), (0, "$ optimum 2"), name)
            self.file("s", out)
            judged = self.call(program(), "--task", "verify", "--in-eprime", shifts[0], "--in-param", shifts[1], "--in-solution", "s")
            self.assertEqual(judged[:2], (0, "$ solution objective 2\n"))
            words = [f"{ROOT}/examples/sudoku.eprime", f"{ROOT}/examples/sudoku.param"]
            self.assertEqual(self.with_solver(name, *words)[:2], self.call(program(), "--in-eprime", words[0], "--in-param", words[1])[:2])
            self.assertEqual(self.with_solver(name, self.model)[:2], (0, "language ESSENCE' 1.0\n$ no solution\n"))

    def test_a_proof_of_the_solver_is_checked(self):
        self.call(program(), "--in-eprime", self.model, "--out-log", "log")
        status, out, err = self.with_solver(self.stub, self.model, "--keep", "kept", PROOF=f"{self.folder}/log")
        self.assertEqual((status, out), (0, "language ESSENCE' 1.0\n$ no solution\n"))
        self.assertIn("the program verified a proof of it", err)
        judged = self.call(program(), "--task", "check", "--in-cnf", "kept/formula.cnf", "--in-log", "kept/proof.lrat")
        self.assertEqual(judged[:2], (0, "$ verified\n"))
        self.file("wrong", "1000 1 0 1 0\n")
        status, out, err = self.with_solver(self.stub, self.model, PROOF=f"{self.folder}/wrong")
        self.assertEqual((status, out), (0, "language ESSENCE' 1.0\n$ no solution\n"))
        self.assertIn("the program refuses the proof: $ bad step 1", err)
        self.assertIn("the program proved it", err)

    def test_what_nobody_proved_is_only_claimed(self):
        status, out, err = self.with_solver(self.stub, self.model, "--conflicts", "2")
        self.assertEqual((status, out), (1, "language ESSENCE' 1.0\n$ claimed no solution\n"))
        self.assertIn("nobody has proved it", err)

    def test_what_is_no_solution_is_refused(self):
        self.file("says", "s SATISFIABLE\nv " + " ".join(map(str, range(1, 40))) + " 0\n")
        status, out, err = self.with_solver(self.stub, self.model)
        self.assertEqual((status, out), (1, ""))
        self.assertIn("is refused", err)
        self.file("says", "c nothing\n")
        status, out, err = self.with_solver(self.stub, self.model)
        self.assertEqual((status, out), (1, ""))
        self.assertIn("gave no answer", err)

    def test_a_solver_that_is_wrong_about_an_optimum_is_found_out(self):
        status, out, err = self.with_solver(self.stub, f"{ROOT}/examples/shifts.eprime", f"{ROOT}/examples/shifts.param")
        self.assertEqual((status, out), (1, ""))
        self.assertIn("the solver is wrong", err)

    def test_refusals_and_words(self):
        self.file("bad.eprime", "language ESSENCE' 1.0\nfind x : y\n")
        self.assertEqual(self.with_solver(self.stub, "bad.eprime")[:2], (3, "fault F3 model 2:10 y\n"))
        for words in ([], [self.stub], ["no_such_solver", self.model], [self.stub, self.model, "--conflicts", "none"], [self.stub, self.model, "--keep"]):
            status, out, err = self.with_solver(*words)
            self.assertEqual((status, out), (2, ""), words)
            self.assertEqual(err.count("\n"), 1)

    def test_truth_values_matrices_and_maxima_come_back(self):
        model = self.file("m.eprime", """language ESSENCE' 1.0
given n : int(1..9)
find b : matrix indexed by [int(0..1), int(2, 4..5)] of bool
find x : int(-3..n)
find none : matrix indexed by [int(1..0)] of bool
such that sum(flatten(b)) = 3, x % 2 = 0, b[0, 2] = b[1, 5]
$ the greatest
maximising x * 2 $ and a comment
""")
        params = self.file("p", "letting n be 7\n")
        for name in ("cadical", "minisat", "picosat"):
            if shutil.which(name):
                status, out, _ = self.with_solver(name, model, params)
                self.assertEqual((status, out.split("\n")[1]), (0, "$ optimum 12"))
                self.assertIn("\nletting x be 6\nletting none be [; int(1..0)]\n", out)
                self.assertIn("; int(2, 4..5)]; int(0..1)]\n", out)


if __name__ == "__main__":
    unittest.main()
