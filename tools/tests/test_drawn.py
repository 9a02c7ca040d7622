"""Drawn texts: they are of all forms, the same each time, and legal; what ends badly is told."""
import os, re, sys

from base import ROOT, Case, program, read

sys.path.insert(0, os.path.join(ROOT, "tools/parts"))
import drawing  # noqa: E402

DRAWN = os.path.join(ROOT, "tools/drawn")
FORMS = """number, truth, decision, parameter, parameter matrix, letting, letting matrix, quantified name, domain name, bool, ranges, set_domain, group_domain, group, minus, bars, chain, times, quotient, remainder, power,
min of two, max of two, toInt, factorial, sum, sum over several, forAll, forAll over several, exists, exists over several, sum of matrix, product of matrix, min of matrix, max of matrix, and of matrix, or of matrix,
read, read by decision, slice, flatten, list, list over, empty list, comprehension, comprehension over, comprehension with conditions, negation, /\\, \\/, ->, <->, =, !=, <, <=, >, >=, <lex, <=lex, >lex, >=lex,
in domain, toSet, allDiff, gcc, atleast, atmost, table"""
STATEMENTS = (
    r"^given \w+ : bool$", r"^given \w+ : int$", r"^given \w+ : int\(\S+\.\.\)", r"^given .* matrix indexed by", r"^letting \w+ (be|=) [^d]", r"^letting \w+ : ", r"^letting \w+ (be|=) domain int", r"^letting \w+ (be|=) domain matrix",
    r"^find .* : bool", r"^find .* : int\(", r"^find \w+, ", r"matrix indexed by \[[^\]]*, [^\]]*\] of", r"^where ", r"^such that .", r"^minimi[sz]ing ", r"^maximi[sz]ing ", r"^branching on \[", r"^heuristic ", r"^such that$",
)
# A program that measures nothing, a clause of three nodes that weighs four.
MEASURES = "#!/bin/sh\necho clause 1 3 4\n"


class Drawn(Case):
    def drawn(self, *words, **env):
        """Runs the tool over small texts, measured by what stands in for the program that measures."""
        env = {"EPSAT_MEASURES": self.file("measures", MEASURES, True), "EPSAT_TESTED": program(), **env}
        status, out, err = self.call(DRAWN, "--room", "200", *words, **env)
        self.assertEqual((self.left(), err), ([], ""))
        return status, out

    def test_the_same_number_gives_the_same_text(self):
        for seed in range(20):
            self.assertEqual(drawing.drawn(seed), drawing.drawn(seed))
        self.assertNotEqual(drawing.drawn(1).model, drawing.drawn(2).model)
        status, out = self.drawn("--text", "7")
        self.assertEqual(status, 0)
        text = drawing.drawn(7, 200)
        self.assertTrue(out.startswith(f"$ --undefined {text.mode}\n{text.model}"), out)
        status, out = self.drawn("--text", "7", "--shape", "alone")
        self.assertIn(drawing.drawn(7, 200, "alone").model, out)
        self.assertEqual({drawing.drawn(7, 200, it).shape for it in drawing.SHAPES}, set(drawing.SHAPES))

    def test_all_forms_occur(self):
        texts = [drawing.drawn(seed) for seed in range(300)]
        found = set().union(*(it.forms for it in texts))
        self.assertEqual(set(re.split(r",\s+", FORMS)) - found, set())
        all_of = "".join(it.model for it in texts)
        self.assertEqual([it for it in STATEMENTS if not re.search("(?m)" + it, all_of)], [])
        self.assertEqual({it.mode for it in texts}, {"relational", "strict"})
        self.assertGreater(max(it.values for it in texts), 5_000)

    def test_texts_are_legal(self):
        legal = 0
        for seed in range(40):
            text = drawing.drawn(seed, 300)
            words = ["--in-eprime", self.file("m", text.model), "--undefined", text.mode]
            if text.params:
                words += ["--in-param", self.file("p", text.params)]
            status, out, _ = self.call(program(), "--task", "verify", "--in-solution", "/dev/null", *words)
            self.assertIn(status, (0, 3, 4, 7), f"{seed}: {out}")
            legal += status in (0, 7)
        self.assertGreaterEqual(legal, 38)

    def test_runs_are_told(self):
        status, out = self.drawn("6", "--first", "3", "--table", "t")
        self.assertEqual(status, 0, out)
        self.assertRegex(out, r"^6 texts: \d+ ")
        self.assertRegex(out, r"(?m)^literals: \d runs, median \S+ a unit, greatest \S+, \d over 20$")
        self.assertTrue(out.endswith("\n6 texts, 0 bad\n"))
        self.assertEqual(len(read(f"{self.folder}/t").splitlines()), 6)
        self.assertEqual(self.drawn("--report", "t"), (0, out))

    def test_what_ends_badly_is_told(self):
        for text, said in (("echo memory; exit 6", "memory"), ("kill -SEGV $$", "signal 11"), ("exit 9", "ended 9")):
            status, out = self.drawn("1", EPSAT_TESTED=self.file("bad", f"#!/bin/sh\n{text}\n", True))
            self.assertEqual(status, 1)
            self.assertRegex(out, rf"(?m)^BAD seed 0, room 200, .*: {said}, $")

    def test_a_wrong_answer_is_found(self):
        wrong = self.file("wrong", "#!/bin/sh\ncase \"$*\" in *--task*) exec \"$REAL\" \"$@\" ;; esac\necho 'p cnf 0 0' >f\necho '$ no solution'\n", True)
        status, out = self.drawn("30", EPSAT_TESTED=wrong, REAL=program())
        self.assertEqual(status, 1)
        self.assertRegex(out, r"(?m)^BAD seed .*: no solution, WRONG: assignment \d is a solution, \$ solution")
