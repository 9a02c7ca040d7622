#!/usr/bin/env python3
"""count_models.py FORMULA [--left]: the solutions that a formula of the program stands for, read off its own lines.

They are what the assignments of the variables 1 to V that satisfy all but the last K clauses decode to by the lines of cells; with
--left what those that satisfy all clauses decode to: what is still left to be found. Only for small formulas: it tries assignments."""
import re, sys


def read(text):
    """V, the clauses, the notes (cell, value, literal) in order, and K."""
    lines = text.split("\n")
    notes = [(c, int(v), int(lit)) for c, v, lit in (m.groups() for m in (re.fullmatch(r"c cell (\S+) (-?\d+) (-?\d+)", x) for x in lines) if m)]
    added = [int(m[1]) for m in (re.fullmatch(r"c added (\d+)", x) for x in lines) if m]
    words = [w for x in lines if not x.startswith("c") for w in x.split()]
    clauses = " ".join(words[4:]).split(" ")
    out, now = [], []
    for w in clauses if words[4:] else []:
        if int(w): now.append(int(w))
        else: out.append(now); now = []
    if words[:2] != ["p", "cnf"] or len(out) != int(words[3]) or now: sys.exit("the formula isn't in the format")
    return int(words[2]), out, notes, added[-1] if added else 0


def reduced(clauses, lit):
    """The clauses once a literal is true, or None where one is falsified."""
    left = [[x for x in c if x != -lit] for c in clauses if lit not in c]
    return None if [] in left else left


def assignments(clauses, order, true=()):
    """Each assignment of the variables of `order`, as true literals, that extends to all clauses; of the others one is tried."""
    if clauses is None or [] in clauses: return
    unit = next((c[0] for c in clauses if len(c) == 1), None)
    if unit is not None:
        yield from assignments(reduced(clauses, unit), order, true + (unit,))
        return
    free = next((v for v in order if v not in true and -v not in true), None)
    if free is not None:
        for lit in (free, -free): yield from assignments(reduced(clauses, lit), order, true + (lit,))
    elif not clauses: yield true
    else:
        lit = clauses[0][0]
        one = next(assignments(reduced(clauses, lit), (), true + (lit,)), None) or next(assignments(reduced(clauses, -lit), (), true + (-lit,)), None)
        if one is not None: yield one


def solutions(text, left=False):
    """What the assignments decode to: each solution once, as (cell, value) in the order of the lines."""
    most, clauses, notes, added = read(text)
    if any(abs(lit) > most for _, _, lit in notes): sys.exit("a note is over the header's number")
    wanted = clauses if left else clauses[:len(clauses) - added]
    order, found = sorted({abs(lit) for _, _, lit in notes}), []
    for true in assignments(wanted, order):
        told = tuple((cell, value) for cell, value, lit in notes if lit in true)
        if not len(told) == len({cell for cell, _, _ in notes}) == len({cell for cell, _ in told}): sys.exit("the clauses allow a cell without one value")
        if told not in found: found.append(told)
    return found


if __name__ == "__main__":
    if len(sys.argv) < 2: sys.exit(__doc__)
    found = solutions(open(sys.argv[1], newline="\n").read(), "--left" in sys.argv[2:])
    for one in sorted(found): print(" ".join(f"{cell}={value}" for cell, value in one))
    print(f"{len(found)} solutions")
