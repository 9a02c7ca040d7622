"""Cubes solved apart: what is divided stays the same formula, and the joined log is a proof of it."""
import os, shutil

from base import ROOT, Case, program, read

CUBES = os.path.join(ROOT, "tools/cubes")
PIGEONS = """language ESSENCE' 1.0
find hole : matrix indexed by [int(1..5)] of int(1..4)
such that forAll i : int(1..4) . forAll j : int(i + 1..5) . hole[i] != hole[j]
"""
# A solver that searches without learning, and writes what it showed as LRAT.
SOLVER = """#!/usr/bin/env python3
import sys

with open(sys.argv[1]) as it:
    lines = [line.split() for line in it if line[0] not in "cp"]
clauses = {n + 1: [int(word) for word in line[:-1]] for n, line in enumerate(lines)}
out = open(sys.argv[2], "w")


def shown(clause, hints):
    clauses[len(clauses) + 1] = clause
    out.write(" ".join(map(str, [len(clauses), *clause, 0, *hints, 0])) + "\\n")
    return len(clauses)


def refuted(decided):
    trues, hints, more = list(decided), [], True
    while more:
        more = False
        for number, clause in clauses.items():
            free = [it for it in clause if -it not in trues]
            if len(free) < 2 and not any(it in trues for it in free):
                hints.append(number)
                if not free:
                    return shown([-it for it in decided], hints)
                trues.append(free[0])
                more = True
    left = [it for clause in clauses.values() for it in clause if it not in trues and -it not in trues and not any(it in trues for it in clause)]
    if not left:
        sys.exit(10)
    ends = [refuted([*decided, it]) for it in (left[0], -left[0])]
    return shown([-it for it in decided], ends)


refuted([])
sys.exit(20)
"""


def text_of(count, clauses):
    return f"p cnf {count} {len(clauses)}\n" + "".join(" ".join(map(str, [*it, 0])) + "\n" for it in clauses)


def clauses_in(text):
    return [[int(word) for word in line.split()[:-1]] for line in text.splitlines() if line[0] not in "cp"]


SQUARE = text_of(2, [[1, 2], [-1, 2], [1, -2], [-1, -2]])


class Cubes(Case):
    def setUp(self):
        super().setUp()
        self.solver = self.file("solver", SOLVER, True)

    def split(self, formula, count):
        status, _, err = self.call(CUBES, "split", formula, str(count), "parts")
        self.assertEqual(status, 0, err)
        return sorted(os.listdir(f"{self.folder}/parts"), key=lambda it: int(it.split(".")[0]))

    def join(self, formula, count):
        status, out, err = self.call(CUBES, "join", formula, str(count), "parts")
        self.assertEqual((status, err), (0, ""))
        return self.file("log", out)

    def checked(self, formula):
        return self.call(program(), "--task", "check", "--in-cnf", formula, "--in-log", "log")[:2]

    def test_each_cube_is_the_formula_with_its_literals(self):
        clauses = [[5, -2], [2, 7], [-5, 7, 9]]
        self.file("f", "c cell x 1 5\n" + text_of(9, clauses))
        self.assertEqual(self.split("f", 2), ["0.cnf", "1.cnf", "2.cnf", "3.cnf"])
        for cube, units in enumerate(([[-2], [-5]], [[2], [-5]], [[-2], [5]], [[2], [5]])):
            text = read(f"{self.folder}/parts/{cube}.cnf")
            self.assertEqual((clauses_in(text), text.split("\n")[0]), (clauses + units, "p cnf 9 5"))
        self.assertEqual(len(self.split("f", 6)), 16)

    def test_cubes_solved_side_by_side_prove_the_formula(self):
        self.assertEqual(self.call(program(), "--in-eprime", self.file("m", PIGEONS), "--conflicts", "1", "--out-cnf", "f")[0], 1)
        one = "./solver parts/{}.cnf parts/{}.lrat || [ $? = 20 ]"
        for *schedule, count in (("xargs", "-P", "4", "-I", "{}", "sh", "-c", 0), ("xargs", "-P", "4", "-I", "{}", "sh", "-c", 3), ("parallel", "-j", "4", 3)):
            if not shutil.which(schedule[0]):
                continue
            shutil.rmtree(f"{self.folder}/parts", True)
            names = [it.split(".")[0] for it in self.split("f", count)]
            self.assertEqual(len(names), 2**count)
            self.assertEqual(self.call(*schedule, one, given="".join(f"{it}\n" for it in names).encode(), HOME=self.folder)[0], 0)
            self.join("f", count)
            self.assertEqual(self.checked("f"), (0, "$ verified\n"), count)

    def test_the_joined_log_of_four_clauses(self):
        self.file("f", SQUARE)
        for cube in self.split("f", 1):
            self.assertEqual(self.call(self.solver, f"parts/{cube}", f"parts/{cube[:-4]}.lrat")[0], 20)
        self.assertEqual(read(self.join("f", 1)), "5 1 0 1 3 0\n6 -1 0 2 4 0\n7 0 5 6 0\n")
        self.assertEqual(self.checked("f"), (0, "$ verified\n"))

    def test_a_log_that_shows_nothing_is_refused(self):
        self.file("f", SQUARE)
        self.split("f", 1)
        for text, says in (
            ("", "doesn't end with the empty clause"), ("6 2 0 1 0\n", "doesn't end with the empty clause"), ("6 0 9 0\n", "names a clause that isn't there"),
            ("6 0 -1 0\n", "isn't by unit propagation"),
        ):
            self.file("parts/0.lrat", text)
            self.file("parts/1.lrat", text)
            status, _, err = self.call(CUBES, "join", "f", "1", "parts")
            self.assertEqual((status, says in err), (1, True), text)
        # Nobody has to believe the script: a log of other hints is refused by the check.
        self.file("parts/0.lrat", "6 0 1 0\n")
        self.file("parts/1.lrat", "6 0 2 0\n")
        self.join("f", 1)
        self.assertEqual(self.checked("f")[0], 7)

    def test_how_much_of_the_search_the_hardest_cube_has(self):
        self.file("f", SQUARE)
        # The conflicts that a solver puts out, or the seconds of one that puts out none.
        counting = self.file("counting", "#!/bin/sh\necho 'c conflicts' $(grep -c -v p $1)\nexit 20\n", True)
        status, out, err = self.call(CUBES, "shares", "f", "1", "parts", counting)
        self.assertEqual((status, out, err), (0, "the formula: 4 conflicts, 1.00\nthe hardest cube: 5 conflicts, 1.25\nall 2 cubes: 10 conflicts, 2.50\n", ""))
        status, out, err = self.call(CUBES, "shares", "f", "1", "parts", self.solver, "{}", "log")
        self.assertEqual((status, [line.split()[-2] for line in out.splitlines()], err), (0, ["seconds,"] * 3, ""))
        self.file("f", text_of(2, [[1, 2]]))
        status, _, err = self.call(CUBES, "shares", "f", "1", "parts", self.solver, "{}", "log")
        self.assertEqual((status, "ends with status 10" in err), (1, True), err)

    def test_words_that_are_none_are_refused(self):
        self.file("f", text_of(1, [[1]]))
        self.file("g", "p cnf one\n")
        for words in ((), ("split", "f", "1"), ("shares", "f", "1", "parts"), ("split", "f", "1", "parts", "more"), ("split", "f", "17", "parts"), ("solve", "f", "1", "parts"), ("split", "g", "1", "parts"), ("split", "none", "1", "parts")):
            self.assertEqual(self.call(CUBES, *words)[0], 1, words)
