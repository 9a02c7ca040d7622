#!/usr/bin/env python3
"""check_lrat.py FORMULA PROOF: a strict checker of LRAT proofs without RAT steps. It shares nothing with the program.

Each hint has to name a live clause that is unit under what is known, and the last one a clause that is falsified.
Prints `verified` (status 0), or which line of the proof it refuses (as `line 3, step 2`: the line of the text, and the number that --task check
gives it, comments and blank lines left out), or that no empty clause was shown (status 1), or what isn't in the format (status 2)."""
import re, sys


class Malformed(Exception):
    """Why a text isn't in its format."""


def number(word):
    """A number of either format."""
    if not re.fullmatch("-?[0-9]{1,18}", word): raise Malformed(f"{word!r} is no number")
    return int(word)


def formula(text):
    """The clauses of a DIMACS text, by their ids."""
    words = [w for line in text.split("\n") if not line.startswith("c") for w in line.split()]
    if words[:2] != ["p", "cnf"] or len(words) < 4: raise Malformed("the formula has no header")
    most, count, numbers, clauses = number(words[2]), number(words[3]), [number(w) for w in words[4:]], [[]]
    for n in numbers:
        if abs(n) > most: raise Malformed(f"the variable {abs(n)} is over the header's")
        if n: clauses[-1].append(n)
        else: clauses.append([])
    if clauses[-1] or len(clauses) - 1 != count: raise Malformed("the formula hasn't as many clauses as its header says")
    return {i + 1: frozenset(c) for i, c in enumerate(clauses[:-1])}


def shows(clause, hints, live):
    """Whether the hints show the clause: each is unit but for the last, which is falsified."""
    true = {-lit for lit in clause}
    for place, hint in enumerate(hints):
        if hint not in live: return False
        left = [lit for lit in live[hint] if -lit not in true]
        if not left: return place == len(hints) - 1
        if len(left) > 1 or left[0] in true: return False
        true.add(left[0])
    return False


def verdict(formula_text, proof_text):
    live = formula(formula_text)
    last, empty, count = len(live), frozenset() in live.values(), 0
    for place, line in enumerate(proof_text.split("\n"), 1):
        words = line.split()
        if not words or line.startswith("c"): continue
        count += 1
        step, rest = number(words[0]), [number(w) for w in words[1:] if w != "d"]
        if words[1:2] == ["d"] and rest[-1:] == [0]:
            for i in rest[:-1]: live.pop(i, None)
            continue
        if "d" in words or rest.count(0) != 2 or rest[-1] != 0: raise Malformed(f"line {place} of the proof is no step")
        cut = rest.index(0)
        clause, hints = frozenset(rest[:cut]), rest[cut + 1:-1]
        if step <= last or not shows(clause, hints, live): return f"refused at line {place}, step {count}"
        live[step], last, empty = clause, step, empty or not clause
    return "verified" if empty else "no empty clause"


if __name__ == "__main__":
    if len(sys.argv) != 3: sys.exit(__doc__)
    try:
        # Bytes, since a line ends with the byte 10 alone.
        said = verdict(*(open(name, "rb").read().decode("latin-1") for name in sys.argv[1:]))
    except (Malformed, OSError) as it:
        print(f"not in the format: {it}" if isinstance(it, Malformed) else it)
        sys.exit(2)
    print(said)
    sys.exit(said != "verified")
