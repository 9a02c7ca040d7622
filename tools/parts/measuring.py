"""The parts of an instance that are largest: measured by a program over the measuring crate (measures.rattle) where it is built, else estimated from the texts."""
import os, re, subprocess, sys

import children, grammar

ROOT = os.path.dirname(os.path.dirname(os.path.dirname(os.path.realpath(__file__))))
# The limits of size and of weight, and how many seconds measuring may take; what is measured by then counts.
SIZE, WEIGHT, SECONDS = 5_000_000, 20_000_000, 30
# How many parts are told.
COUNT = 10


def program():
    """The program that measures clauses, or None where it isn't built for the sources as they stand."""
    released, build = os.path.join(ROOT, "program/measures"), os.path.join(ROOT, "tools/build")
    if os.access(released, os.X_OK) or not os.path.exists(build):
        return released if os.access(released, os.X_OK) else None
    ran = subprocess.run([sys.executable, "-IS", build, "--find-measures"], stdout=subprocess.PIPE, stderr=subprocess.DEVNULL, check=False)
    return ran.stdout.decode().strip() if ran.returncode == 0 else None


def measured(path, command, seconds=SECONDS):
    """What the program says of each clause, by its number, and of the objective, by 0: a size and a weight, or the limit that the clause passes by itself."""
    words = [command.values.get("undefined", "relational"), command.values["in-eprime"]]
    words += [command.values["in-param"]] if "in-param" in command.values else []
    try:
        text = subprocess.run([path, *words], stdin=subprocess.DEVNULL, stdout=subprocess.PIPE, stderr=subprocess.DEVNULL, timeout=seconds, preexec_fn=children.bound(), check=False).stdout
    except subprocess.TimeoutExpired as it:
        text = it.stdout or b""
    except OSError:
        text = b""
    made = {}
    for line in text.decode("ascii", "replace").split("\n"):
        found = re.fullmatch(r"(?:clause ([0-9]+)|objective) (?:([0-9]+) ([0-9]+)|(L[456]))", line)
        if found:
            made[int(found[1] or 0)] = found[4] or (int(found[2]), int(found[3]))
    return made


class Part:
    """A clause, the objective, or a statement that is evaluated before the search: what was measured of it, and an estimate of its nodes."""

    def __init__(self, node, said, guess):
        self.node, self.said, self.guess = node, said, guess or 0

    def rank(self, kind):
        """What puts parts in order: whether one passes the limit that is asked of by itself, and how large it is."""
        return self.said == kind, self.said[kind == "L6"] if isinstance(self.said, tuple) else self.guess

    def told(self):
        """How large the part is, in words."""
        if isinstance(self.said, tuple):
            return f"{self.said[0]:,} nodes, weight {self.said[1]:,}"
        if self.said == "L4":
            return f"more than {SIZE:,} nodes" + (f", some {self.guess:,}" if self.guess > SIZE else "")
        if self.said:
            return "numbers beyond 2^40" if self.said == "L5" else f"weight more than {WEIGHT:,}"
        return f"some {self.guess:,} nodes"


def parts(instance, found):
    """The parts of an instance; where any was measured the clauses and the objective alone."""
    made, number = [], 0
    for it in instance.model:
        for node in it.parts if it.kind in ("such", "objective", "where", "letting") else ():
            number += it.kind == "such"
            said = found.get(number if it.kind == "such" else 0) if it.kind in ("such", "objective") else None
            if said or not found or it.kind in ("such", "objective"):
                made.append(Part(node, said, grammar.nodes_of(instance, node)))
    return made


def largest(every, kind, least):
    """The parts that are largest by a limit, in order, without those that are small beside the others; of L5 those alone that pass it."""
    if kind == "L5":
        return [it for it in every if it.said == kind][:COUNT]
    ordered = sorted(every, key=lambda it: it.rank(kind), reverse=True)[:COUNT]
    most = max((it.rank(kind)[1] for it in ordered), default=0)
    return [it for it in ordered if it.said == kind or it.rank(kind)[1] > max(least, most // 200)]


def shortly(text, node):
    """What a part says, of a long one its beginning."""
    said = grammar.spelled(text, node)
    return said if len(said) <= 90 else said[:86] + " .."


def told(text, instance, found, kind, least=0):
    """Lines on the largest parts of an instance, for a limit; none on parts that aren't larger than so much."""
    every = parts(instance, found)
    made = []
    for it in largest(every, kind, least):
        made.append(f"line {it.node.first.line} of the model, {it.told()}: {shortly(text, it.node)}")
    sizes = [it.said for it in every]
    if len(sizes) > 1 and all(isinstance(it, tuple) for it in sizes):
        made.append(f"all {len(sizes):,} parts together have {sum(it[0] for it in sizes):,} nodes and weigh {sum(it[1] for it in sizes):,}")
    return made
