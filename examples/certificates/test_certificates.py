#!/usr/bin/env python3
"""Tests the tools beside it, on proofs, formulas and a list whose answers are known: python3 test_certificates.py"""
import os, subprocess, sys, tempfile

from check_list import judged
from check_lrat import Malformed, verdict
from count_models import solutions
from trim_log import trimmed

ALL = "p cnf 2 4\n1 2 0\n1 -2 0\n-1 2 0\n-1 -2 0\n"

PROOFS = [
    (ALL, "5 1 0 1 2 0\n6 0 5 3 4 0\n", "verified"),
    (ALL, "c a comment\n5 1 0 1 2 0\n\n5 d 1 2 0\n6 0 5 3 4 0\n", "verified"),
    ("p cnf 1 1\n0\n", "", "verified"),
    (ALL, "5 1 0 1 2 0\n", "no empty clause"),
    (ALL, "5 1 0 1 0\n6 0 5 3 4 0\n", "refused at line 1, step 1"),  # the hints end before a falsified clause
    (ALL, "5 1 0 3 1 2 0\n6 0 5 3 4 0\n", "refused at line 1, step 1"),  # the first hint is true already
    (ALL, "5 1 0 1 6 0\n6 0 5 3 4 0\n", "refused at line 1, step 1"),  # a hint names no line yet
    (ALL, "4 1 0 1 2 0\n", "refused at line 1, step 1"),  # an id that the formula has
    (ALL, "5 1 0 1 2 0\n5 d 3 0\n6 0 5 3 4 0\n", "refused at line 3, step 3"),  # a hint names a clause that was deleted
    (ALL, "c one\n\n5 1 0 1 0\n", "refused at line 3, step 1"),
    ("p cnf 1 1\n1 0\n", "", "no empty clause"),
    ("p cnf 1 2\nc x\r1 0\r-1 0\n", "", None),  # a line ends with the byte 10 alone, so the clauses are missing
    ("p cnf 1 1\n+1 0\n", "", None),
    ("p cnf 1 2\n1 0\n", "", None),
    ("p cnf 1 1\n1\n", "", None),
    (ALL, "5 1 0 1 2\n", None),
    ("p cnf 2 2\n1 2 0\n-1 2 0\n", "3 2 0 1 2 0\n4 0 3 1 0\n", "refused at line 2, step 2"),  # the formula has a model
]

FORMULAS = [  # a formula, how many solutions all but the last K clauses have, and how many all
    ("c cell a 0 -1\nc cell a 1 1\nc cell b 0 -2\nc cell b 1 2\nc added 0\np cnf 2 0\n", 4, 4),
    ("c cell a 0 -1\nc cell a 1 1\nc cell b 0 -2\nc cell b 1 2\nc added 1\np cnf 2 2\n1 0\n-2 0\n", 2, 1),
    ("c cell x 1 -1\nc cell x 2 3\nc cell x 3 2\nc added 0\np cnf 3 4\n1 -2 0\n-1 2 3 0\n1 -3 0\n-2 -3 0\n", 3, 3),
    ("c cell x 7 1\nc added 1\np cnf 1 2\n1 0\n-1 0\n", 1, 0),
    ("c cell x 0 -1\nc cell x 1 1\nc added 0\np cnf 3 2\n1 2 3 0\n-1 -2 0\n", 2, 2),  # two helping variables
]

# A formula of x, 1 to 3, and b, where two solutions were listed, and texts of lists with what is said of them.
LISTED = "c cell x 1 1\nc cell x 2 2\nc cell x 3 -1\nc cell b 0 -3\nc cell b 1 3\nc added 2\np cnf 3 3\n1 2 3 0\n-1 3 0\n-2 -3 0\n"
LISTS = [
    ("$ solution 1\nletting x be 1\nletting b be false\n$ solution 2\nletting x be 2\nletting b be true\n$ complete\n", "2 solutions, each forbidden by its clause"),
    ("$ solution 1\nletting x be 1\nletting b be false\n$ complete\n", "[2] clauses were added, and 1 solutions are printed"),
    ("$ solution 1\nletting x be 1\nletting b be false\n$ solution 2\nletting x be 2\nletting b be false\n", "the clause that was added for solution 2 forbids something else"),
]


def held(what, found, want):
    """Ends the tests where something isn't as it is known; no `assert`, which `python3 -O` leaves out."""
    if found != want: sys.exit(f"{what!r}: {found!r}, and not {want!r}")


def verdict_or_none(formula, proof):
    try: return verdict(formula, proof)
    except Malformed: return None


for formula, proof, want in PROOFS: held(proof, verdict_or_none(formula, proof), want)
for text, of_instance, left in FORMULAS: held(text, (len(solutions(text)), len(solutions(text, left=True))), (of_instance, left))
for text, want in LISTS: held(text, judged(LISTED, text), want)
longer = "5 1 0 1 2 0\n6 2 0 1 3 0\n7 0 5 3 4 0\n"
held(longer, trimmed(longer), "5 1 0 1 2 0\n7 0 5 3 4 0\n")
held(longer, verdict(ALL, trimmed(longer)), "verified")
with tempfile.TemporaryDirectory() as folder:
    # The checker says the same where Python leaves out asserts.
    for name, text in (("f", "p cnf 1 1\n1 0\n"), ("p", "")): open(f"{folder}/{name}", "w").write(text)
    words = [sys.executable, "-O", os.path.join(os.path.dirname(os.path.abspath(__file__)), "check_lrat.py"), f"{folder}/f", f"{folder}/p"]
    ran = subprocess.run(words, stdout=subprocess.PIPE, check=False)
    held(words, (ran.returncode, ran.stdout), (1, b"no empty clause\n"))
print(f"{len(PROOFS)} proofs, {len(FORMULAS)} formulas and {len(LISTS)} lists: as expected")
