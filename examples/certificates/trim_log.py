#!/usr/bin/env python3
"""trim_log.py PROOF: the lines of a proof that its first empty clause needs, without the others. What is left shows the same.

A proof whose empty clause nothing shows is put out as it is. Hints name ids, so ids stay as they are."""
import sys


def trimmed(text):
    steps, order = {}, []
    for line in text.split("\n"):
        words = line.split()
        if not words or line.startswith("c") or words[1:2] == ["d"]: continue
        step, rest = int(words[0]), [int(w) for w in words[1:]]
        cut = rest.index(0)
        steps[step] = (line, rest[cut + 1:-1])
        order.append(step)
        if cut == 0: break
    else:
        return text
    needed, open_ids = set(), [order[-1]]
    while open_ids:
        one = open_ids.pop()
        if one in steps and one not in needed:
            needed.add(one)
            open_ids += steps[one][1]
    return "".join(steps[i][0] + "\n" for i in order if i in needed)


if __name__ == "__main__":
    if len(sys.argv) != 2: sys.exit(__doc__)
    sys.stdout.write(trimmed(open(sys.argv[1], newline="\n").read()))
