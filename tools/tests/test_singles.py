"""Clauses taken apart: the solutions stay, and each clause is told where it is from."""
import os, sys

from base import ROOT, Case, program, read

sys.path.insert(0, os.path.join(ROOT, "tools/parts"))
import singles  # noqa: E402

SINGLES = os.path.join(ROOT, "tools/singles")
MODEL = """language ESSENCE' 1.0
given n : int(1..5)
given wants : matrix indexed by [int(1..n)] of bool
letting Day be domain int(1..n)
find x : matrix indexed by [Day] of int(0..2)
find b : bool
such that
  forAll i : Day . (wants[i] -> x[i] > 0) /\\ x[i] + i != 4, $ a comment
  and([x[i] != x[i - 1] | i : Day, i > 1]),
  forAll i, j : int(-1..0) . x[1] > i + j
such that (b /\\ x[n] = 1) \\/ x[1] = 2, n > 0, forAll k : bool . k -> (b \\/ x[1] / x[2] > 0), forAll i : int(2..1) . x[i] = 0
"""
PARAMETERS = "letting n be 3\nletting wants be [true, false, true]\n"


class Singles(Case):
    def setUp(self):
        super().setUp()
        self.file("m", MODEL)
        self.file("p", PARAMETERS)

    def made(self, *words):
        status, out, err = self.call(SINGLES, *words)
        self.assertEqual((status, err), (0, ""))
        return out

    def answer(self, model, *words):
        return self.call(program(), "--in-eprime", model, *words)[:2]

    def test_each_clause_says_one_thing_and_has_its_place(self):
        text, found = singles.singles(MODEL, PARAMETERS)
        self.assertEqual(
            [(it.text, f"{it.clause} {it.line}:{it.column} {singles.named(it)}".strip()) for it in found],
            [
                ("x[1] > 0", "1 8:3 i = 1"), ("x[1] + 1 != 4", "1 8:3 i = 1"), ("x[2] + 2 != 4", "1 8:3 i = 2"), ("x[3] > 0", "1 8:3 i = 3"),
                ("x[3] + 3 != 4", "1 8:3 i = 3"), ("x[2] != x[2 - 1]", "2 9:3 i = 2"), ("x[3] != x[3 - 1]", "2 9:3 i = 3"),
                ("x[1] > (-1) + (-1)", "3 10:3 i = -1, j = -1"), ("x[1] > (-1) + 0", "3 10:3 i = -1, j = 0"),
                ("x[1] > 0 + (-1)", "3 10:3 i = 0, j = -1"), ("x[1] > 0 + 0", "3 10:3 i = 0, j = 0"),
                ("(b /\\ x[n] = 1) \\/ x[1] = 2", "4 11:11"), ("false -> (b \\/ x[1] / x[2] > 0)", "6 11:47 k = false"), ("b \\/ x[1] / x[2] > 0", "6 11:47 k = true"),
            ],
        )
        self.assertTrue(text.startswith(MODEL[: MODEL.index("such that")]))

    def test_the_solutions_stay_in_both_modes(self):
        self.file("s", self.made("m", "p"))
        for mode in ("relational", "strict"):
            words = ("--in-param", "p", "--task", "enumerate", "--solutions", "all", "--undefined", mode)
            lists = [self.answer(it, *words) for it in ("m", "s")]
            self.assertEqual(sorted(lists[0][1].split("$ solution")[1:]), sorted(lists[1][1].split("$ solution")[1:]))
            self.assertEqual(lists[0][0], 0)

    def test_the_optimum_of_examples_stays(self):
        for name in ("week", "roster", "knapsack"):
            model, params = (os.path.join(ROOT, f"examples/{name}.{it}") for it in ("eprime", "param"))
            self.file("s", self.made(model, params))
            first, second = (self.answer(it, "--in-param", params) for it in (model, "s"))
            self.assertEqual((first[0], first[1].splitlines()[1]), (second[0], second[1].splitlines()[1]))

    def test_switches_tell_what_was_given_up(self):
        self.file("m", "language ESSENCE' 1.0\nfind x : matrix indexed by [int(1..3)] of int(1..2)\nsuch that\n  allDiff(x),\n  forAll i : int(1..3) . x[i] >= i\nminimising x[1]\n")
        self.file("s", self.made("m", "--switches", "--table", "t"))
        status, out = self.answer("s")
        self.assertEqual((status, out.splitlines()[1]), (0, "$ optimum 2"))
        status, said, _ = self.call(SINGLES, "--told", "t", given=out.encode())
        self.assertEqual((status, said), (0, "4:3\n5:3: i = 3\n"))
        self.assertEqual(read(f"{self.folder}/t"), "1\t1\t4:3\t\n2\t2\t5:3\ti = 1\n3\t2\t5:3\ti = 2\n4\t2\t5:3\ti = 3\n")

    def test_clauses_that_an_explanation_names_are_told(self):
        self.file("m", "language ESSENCE' 1.0\nfind x : matrix indexed by [int(1..3)] of int(1..2)\nsuch that\n  forAll i : int(1..3) . x[i] > i - 2,\n  x[1] + x[2] > 1\n")
        self.file("s", self.made("m", "--table", "t"))
        answer = self.call(program(), "--task", "explain", "--in-eprime", "s")[1]
        self.assertEqual(answer.splitlines()[1], "$ solution")
        self.assertEqual(self.call(SINGLES, "--told", "t", given=answer.encode())[0], 5)
        self.file("m", "language ESSENCE' 1.0\nfind x : matrix indexed by [int(1..3)] of int(1..2)\nsuch that\n  forAll i : int(1..3) . x[i] > i - 1,\n  x[1] + x[2] > 1\n")
        self.file("s", self.made("m", "--table", "t"))
        answer = self.call(program(), "--task", "explain", "--in-eprime", "s")[1]
        self.assertEqual(self.call(SINGLES, "--told", "t", given=answer.encode()), (0, "4:3: i = 3\n", ""))
        told = lambda text: self.call(SINGLES, "--told", "t", given=b"language ESSENCE' 1.0\n" + text)
        self.assertEqual(told(b"$ explanation 2\n$ without 1\nletting x be 1\n$ without 4\nletting x be 2\n"), (0, "4:3: i = 1\n5:3\n", ""))
        self.assertEqual(told(b"$ explanation 0\n"), (0, "", "singles: no clause is named\n"))
        self.assertEqual(told(b"$ explanation 1\n$ without 9\n"), (5, "", "singles: t has no line for clause 9: it is another model's\n"))
        self.file("many", "".join(f"{it}\t1\t4:3\ti = {it}\n" for it in range(1, 11)))
        without = "".join(f"$ without {it}\nletting x be 1\n" for it in range(1, 10))
        told = self.call(SINGLES, "--told", "many", given=f"$ explanation 9\n{without}".encode())
        self.assertEqual(told, (0, "".join(f"4:3: i = {it}\n" for it in range(1, 10)), "singles: of the 10 clauses at 4:3 9 are named\n"))

    def test_what_cannot_be_done_is_said(self):
        self.assertEqual(self.call(SINGLES)[0], 2)
        self.assertEqual(self.call(SINGLES, "none")[0], 5)
        self.assertEqual(self.call(SINGLES, "m", "p", "--table", "none/t")[0], 5)
        self.file("m", "find x : int(0..1)\nsuch that forAll i, j : int(1..320) . x < i + j\n")
        self.assertEqual(self.call(SINGLES, "m")[0], 4)
        self.assertEqual(self.call(SINGLES, "--told", "m", given=b"letting x be 1\n")[0], 5)
