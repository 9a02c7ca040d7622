#!/usr/bin/env python3
"""check_list.py FORMULA LIST: whether the clauses that were added to the formula of a list forbid just the solutions that the list prints.

LIST is what `--task enumerate` put out. There have to be as many added clauses (`c added K`) as solutions, and the k-th the negation of what the
lines of cells say of solution k. Prints how many there are (status 0), or what doesn't fit (status 1)."""
import re, sys


def values(text):
    """The cells of each solution of a list, in the order of the text, as numbers."""
    blocks = []
    for line in text.split("\n"):
        if re.fullmatch(r"\$ solution \d+", line): blocks.append({})
        told = re.fullmatch(r"letting (\w+) be (.*)", line)
        if told and blocks:
            scalars = [{"true": 1, "false": 0}.get(w, w) for w in re.findall(r"-?\d+|true|false", re.sub(r"; int\([^)]*\)", "", told[2]))]
            blocks[-1][told[1]] = [int(w) for w in scalars]
    return blocks


def judged(formula, text):
    """What is said of a formula and a list."""
    lines = formula.split("\n")
    notes = [(m[1], int(m[2]), int(m[3])) for m in (re.fullmatch(r"c cell (\S+) (-?\d+) (-?\d+)", x) for x in lines) if m]
    added = [int(m[1]) for m in (re.fullmatch(r"c added (\d+)", x) for x in lines) if m]
    numbers = [int(w) for x in lines if not x.startswith("c") for w in x.split()[4 * x.startswith("p"):]]
    clauses = [{int(w) for w in c.split()} for c in re.split(r"(?<![-\d])0(?!\d)", " ".join(map(str, numbers)))[:-1]]
    blocks = values(text)
    if len(added) != 1 or added[0] != len(blocks): return f"{added or 'no'} clauses were added, and {len(blocks)} solutions are printed"
    for number, (block, clause) in enumerate(zip(blocks, clauses[len(clauses) - len(blocks):]), 1):
        cells = list(dict.fromkeys(cell for cell, _, _ in notes))
        told = [it for name in dict.fromkeys(cell.partition("[")[0] for cell in cells) for it in block.get(name, [])]
        if len(told) != len(cells): return f"solution {number} has {len(told)} values, and there are {len(cells)} cells"
        wanted = {-lit for cell, value, lit in notes if value == told[cells.index(cell)]}
        if clause != wanted: return f"the clause that was added for solution {number} forbids something else"
    return f"{len(blocks)} solutions, each forbidden by its clause"


if __name__ == "__main__":
    if len(sys.argv) != 3: sys.exit(__doc__)
    said = judged(*(open(name, newline="\n").read() for name in sys.argv[1:]))
    print(said)
    sys.exit(not said.endswith("its clause"))
