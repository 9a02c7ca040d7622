"""Faults that teach: what is said at each of many mistakes, and --lint."""
import os, re, unittest

from base import ROOT, Case, program, read
import command, grammar, hints, measuring, tokens

HEAD = """language ESSENCE' 1.0
letting n be 3
given q : int(1..3)
find x, y, z : int(1..5)
find b, c : bool
find M : matrix indexed by [int(1..n)] of int(1..5)
"""
# What is written below the head, the fault with its place, and a part of the first thing that is said of it.
MISTAKES = [line.split(" ## ") for line in r"""
such that x == y ## F2 7:14 ## equality is `=`, once
such that x == ## F2 7:14 ## equality is `=`, once
such that x // y = 1 ## F2 7:14 ## division is `/`
such that forall(i in 1..n) (M[i] > 1) ## F2 7:17 ## is spelled `forAll`
such that Exists i : int(1..n) . M[i] > 1 ## F2 7:18 ## it is spelled `exists`
such that forAll (i : int(1..n)) . M[i] > 1 ## F2 7:18 ## no bracket behind `forAll`
such that forAll i in int(1..n) . M[i] > 1 ## F2 7:20 ## behind a colon: `forAll i
such that forAll i, j in int(1..n) . M[i] > 1 ## F2 7:23 ## behind a colon: `forAll i
such that (sum(i in 1..n)(M[i])) = 5 ## F2 7:21 ## a sum is written
such that forAll i < j : int(1..n) . M[i] > 1 ## F2 7:20 ## the condition stands behind the domain
such that forAll i : 1..n . M[i] > 1 ## F2 7:22 ## a range is a domain in brackets
such that forAll i : int(1..n), j : int(1..n) . M[i] > 1 ## F2 7:31 ## one domain for each: `forAll i
such that forAll i : int(1..n) (M[i] > 1) ## F2 7:32 ## a point stands between
such that forAll i : bool b ## F2 7:27 ## a point stands between
such that sum([M[i] | i in 1..n]) > 3 ## F2 7:25 ## a generator is written `i : int(1..n)`
such that sum([s | s <- M]) > 3 ## F2 7:22 ## a generator is written `s
such that sum([M[i] | i : int(1..n) where i > 1]) > 3 ## F2 7:37 ## stands behind a comma
such that x > 1 <- b ## F2 7:17 ## write `b -> a`
such that x > 1; y > 2 ## F2 7:16 ## statements aren't ended by `;`
such that x => y ## F2 7:14 ## "implies" is `->`
such that x <> y ## F2 7:14 ## "differs from" is `!=`
such that x ! = y ## F2 7:13 ## "differs from" is `!=`
such that M[1] ! = y ## F2 7:16 ## "differs from" is `!=`
such that b || c ## F2 7:13 ## "or" is `\/`
such that [1] ++ [2] = M ## F2 7:16 ## no `++`
such that x * * 2 = 4 ## F2 7:15 ## a power is `x ** 2`
such that x > 1 % a comment ## F2 7:21 ## a comment begins with `$`
% a comment ## F2 7:1 ## a comment begins with `$`
such that % a comment ## F2 7:11 ## a comment begins with `$`
such that b xor c ## F2 7:13 ## no `xor`
such that not b ## F2 7:15 ## no `not`
such that x mod 2 = 0 ## F2 7:13 ## no `mod`
such that x div 2 = 0 ## F2 7:13 ## no `div`
such that b and c ## F2 7:13 ## "and" is `/\`
such that b or c ## F2 7:13 ## "or" is `\/`
such that b implies c ## F2 7:13 ## "implies" is `->`
such that if b then c else b endif ## F2 7:14 ## no `if`
such that b then c ## F2 7:13 ## no `if .. then .. else`
such that x in [1, 2] ## F2 7:16 ## `x in int(1, 2)`
such that x in 1..3 ## F2 7:16 ## `x in int(1..3)`
such that alldifferent(M) ## F2 7:23 ## `allDiff(x)`
such that alldifferent_except(M, 0) ## F2 7:30 ## x[i] != x[j]
such that negativetable([x], [[1]]) ## F2 7:24 ## `!table(x, T)`
such that cumulative([x], [1], [1], 2) ## F2 7:21 ## no `cumulative`
such that element(M, x, y) ## F2 7:18 ## `x[i] = y`
such that abs(x - y) > 1 ## F2 7:14 ## `|x - y|`
such that pow(x, 2) = 4 ## F2 7:14 ## `x ** 2`
such that sqrt(x) = 2 ## F2 7:15 ## whole numbers alone
such that length(M) = 3 ## F2 7:17 ## no `length`
such that count(M, 2) = 1 ## F2 7:16 ## counting is
such that bool2int(b) = 1 ## F2 7:19 ## `toInt(b)`
such that implies(b, c) ## F2 7:18 ## `a -> b`
such that lex_less(M, M) ## F2 7:19 ## `x <lex y`
such that concat(M, M) = M ## F2 7:17 ## no `concat`
such that circuit(M) ## F2 7:18 ## no `circuit` here
such that max(x, y, z) = 3 ## F2 7:19 ## `max([x, y, z])`
such that allDiff(x, y) ## F2 7:20 ## `allDiff([x, y])`
such that flatten(1, M) = M ## F2 7:20 ## takes the matrix alone
such that and(b, c) ## F2 7:16 ## `and([x, y])`
such that b -> (x = 1, y = 2) ## F2 7:22 ## join two by `/\`
such that 0 < x < 5 ## F2 7:17 ## no chain
such that x = y = z ## F2 7:17 ## no chain
such that x = 1.5 ## F2 7:16 ## whole numbers alone
branching on [M[1], x] ## F2 7:16 ## names alone
such that M[1..2] = M ## F2 7:14 ## no slices by ranges
find w : int 1..5 ## F2 7:14 ## a range stands in brackets
find w : int[1..5] ## F2 7:13 ## round brackets
find w : 1..5 ## F2 7:10 ## `int(1..5)`
find w : array [1..3] of int(1..2) ## F2 7:16 ## `matrix indexed by
find w : matrix [int(1..3)] of int(1..2) ## F2 7:17 ## `matrix indexed by
find w : matrix indexed by int(1..3) of int(1..2) ## F2 7:28 ## square brackets
find w : matrix indexed by [1..3] of int(1..2) ## F2 7:29 ## `int(1..3)`
find w : matrix indexed by [int(1..3)] int(1..2) ## F2 7:40 ## `of` stands
find max : int(1..3) ## F2 7:6 ## `max` is a word of the language
given sum : int(1..3) ## F2 7:7 ## `sum` is a word of the language
letting min be 3 ## F2 7:9 ## `min` is a word of the language
such that min = 3 ## F2 7:15 ## `min` is a word of the language
find w = 3 ## F2 7:8 ## `letting w be ..`
find w int(1..2) ## F2 7:8 ## a colon stands
letting k := 3 ## F2 7:12 ## `letting k = ..`
letting k : 3 ## F2 7:13 ## behind `be` or `=`
letting k, l be 3 ## F2 7:10 ## one `letting` for each
letting k be int(1..3) ## F2 7:14 ## `letting k be domain
letting K be domain 1..3 ## F2 7:21 ## `int(1..3)`
given k : 3 ## F2 7:11 ## a value stands in the parameter file
given k ## F2 8:1 ## `given k : int(1..9)`
minimise x ## F2 7:1 ## `minimising`
minimising x maximising y ## F2 7:14 ## one objective
minimising x, y ## F2 7:13 ## one objective
constraint x > 1 ## F2 7:1 ## a word of MiniZinc
int: k = 3 ## F2 7:1 ## looks like MiniZinc
such that x > 1, , y > 1 ## F2 7:18 ## two commas
such that x > 1) ## F2 7:16 ## closes none
such that x > 1] ## F2 7:16 ## closes none
such that x > 1, language ESSENCE' 1.0 ## F2 7:18 ## stands once
such that x > 1 . ## F2 7:17 ## no point stands here
such that forAll i : int(1..n) . such that b ## F2 7:34 ## has to be an expression
such that M(1) > 2 ## F2 7:12 ## `M` is no function here
such that (x > 1 ## F2 8:1 ## the bracket `(` in line 7, column 11, isn't closed
such that sum([M[1 = 2 find w : bool ## F2 7:24 ## the bracket `[` in line 7, column 17, isn't closed
such that x > ## F2 8:1 ## ends too soon
such that x > 1 y > 1 ## F2 7:17 ## missing before `y`
such that x in {1, 2} ## F1 7:16 ## no braces
such that x = "a" ## F1 7:15 ## no strings
such that x = 'a' ## F1 7:15 ## quotes aren't used
such that b && c ## F1 7:13 ## `/\`
such that x ^ 2 = 4 ## F1 7:13 ## `x ** 2`
such that x ≤ 3 ## F1 7:13 ## `<=`
such that ∀ i : int(1..n) . b ## F1 7:11 ## `forAll`
such that x − 1 > 2 ## F1 7:13 ## a dash
such that x × 2 = 4 ## F1 7:13 ## `*`
such that x ÷ 2 = 1 ## F1 7:13 ## `/`
such that b ? x : y ## F1 7:13 ## no `? :`
# a comment ## F1 7:1 ## begins with `$`
find größe : int(1..3) ## F1 7:8 ## letters of names
such that b = True ## F3 7:15 True ## `true` and `false`
such that m[1] = 2 ## F3 7:11 m ## did you mean `M`?
such that later = 2 find later : int(1..2) ## F3 7:11 later ## is declared in line 7, below
such that forAll i : int(1..n) . sum j : int(1..n) . M[j] >= i ## F5 7:11 ## put brackets, `(sum .. . M[j]) >= i`
such that (forAll i : int(1..n) . M[i] > 1) /\ x = i ## F3 7:52 i ## only known in its body
find x : bool ## F4 7:6 x ## declared in line 4 already
such that x in M ## F5 7:16 ## `toSet(..)`
such that x -> b ## F5 7:11 ## `x` is an integer
such that M < y ## F5 7:11 ## `M` is a matrix of integers, `y` an integer: an entry is read
such that M = M ## F5 7:11 ## compared entry by entry
such that sum i : int(1..n) . M[i] = 5 ## F5 7:11 ## `(sum .. . M[i]) = 5`
such that x ## F5 7:11 ## true or false, and this is an integer
such that x[1] > 2 ## F5 7:11 ## only a matrix is read
such that M[1, 2] = 3 ## F5 7:11 ## here are 2 indices
such that [1, [2]] = M ## F5 7:11 ## the parts of a list are alike
such that and(M) ## F5 7:11 ## `and` takes truth values
minimising M ## F5 7:12 ## the objective has to be an integer
where x > 1 ## F6 7:7 ## parameters alone
letting k be x + 1 ## F6 7:14 ## worked out before the search
such that table([y], [[x]]) ## F6 7:24 ## `exists r : D
such that 2 ** x = 4 ## F6 7:16 ## read it from a list
such that forAll i : int(1..x) . b ## F6 7:29 ## the widest domain
such that sum([1 | i : int(1..n), x = i]) = 1 ## F6 7:35 ## count truth values
letting k : int = 3 ## F7 7:13 ## both ends
find w : int ## F7 7:10 ## needs both ends
where q > 2 ## F11 1 ## line 7 of the model: q > 2
""".strip().split("\n")]
# Whole models, and parameter files.
MODELS = [
    ("", "F2 model 1:1", "the model is empty"),
    ("$ nothing\n", "F2 model 2:1", "the model is empty"),
    ("\ufefflanguage ESSENCE' 1.0\n", "F1 model 1:1", "byte order mark"),
    ("letting q be 2\n", "F2 model 1:1", "a parameter file, for --in-param"),
    ("find x : int(1..2)\n", "F2 model 1:1", "a model begins with the line"),
    ("language ESSENCE’ 1.0\n", "F1 model 1:17", "the plain one"),
    ("language Essence 1.3\n", "F2 model 1:10", "reads Essence Prime"),
    ("language ESSENCE' one\n", "F2 model 1:19", "the language line is"),
    ("language ESSENCE' 1.b.a\n", "F2 model 1:21", "the language line is"),
    ("int: n = 3;\n", "F2 model 1:1", "looks like MiniZinc"),
    ("n = 3;\n", "F2 model 1:1", "data of MiniZinc"),
    ("% sack\nint: n = 3;\nset of int: S = {1, 2};\n", "F1 model 3:17", "looks like MiniZinc"),
    ("int: n = 3;\nset of int: S = {1, 2};\n", "F1 model 2:17", "looks like MiniZinc"),
]
PARAMS = [
    ("given n : int(1..3)\n", "F2 params 1:1", "looks like a model"),
    ("language ESSENCE' 1.0\nletting q be 2\nfind x : int(1..2)\n", "F2 params 3:1", "is this the model?"),
    ("letting p be 2\n", "F8 q", "did you mean `q`?"),
    ("letting q be 7\n", "F9 q", "`q`: it is 7, and the domain is int(1..3)"),
]


class Hints(Case):
    def said(self, model, params="letting q be 2\n", *words):
        """The program's line, and what is said of it."""
        asked = ["--in-eprime", self.file("m", model), "--in-param", self.file("p", params), *words]
        status, out, _ = self.call(program(), *asked)
        made = []
        hints.explain(out.encode(), status, command.Command(asked), made.append)
        return out.split("\n"), [it[len("epsat: ") :] for it in made if it.startswith("epsat: ")], made

    def test_each_mistake_gets_its_hint(self):
        for text, fault, hint in MISTAKES:
            out, said, _ = self.said(HEAD + text + "\n")
            self.assertEqual(out[0].replace("model ", ""), f"fault {fault}", text)
            self.assertIn(hint, said[1] if fault == "F11 1" and hint not in said[0] else said[0], text)
            self.assertGreater(len(said), 2, text)

    def test_whole_texts(self):
        for text, fault, hint in MODELS:
            out, said, _ = self.said(text)
            self.assertEqual(out[0], f"fault {fault}", text)
            self.assertIn(hint, said[0], text)
        for text, fault, hint in PARAMS:
            out, said, _ = self.said(HEAD, text)
            self.assertEqual(out[0], f"fault {fault}", text)
            self.assertIn(hint, " ".join(said), text)
        status, out, _ = self.call(program(), "--task", "verify", "--in-eprime", self.file("m", HEAD.replace("given", "$")), "--in-solution", self.file("s", "find x : bool\n"))
        self.assertEqual((status, out), (3, "fault F2 solution 1:1\n"))

    def test_each_row_of_the_table_is_seen(self):
        """Rows that no mistake of this file comes to say nothing that was tried."""
        used = set()
        every = list(hints.rows())
        for row in every:
            self.assertEqual(len(row), 5, row)
            re.compile(row[2]), re.compile(row[3])
        plain = hints.of_table

        def noted(fault, file, before, behind):
            for number, row in enumerate(every):
                hints.rows = lambda row=row: [row]
                if plain(fault, file, before, behind) is not None:
                    used.add(number)
                    break
            hints.rows = lambda: every
            return plain(fault, file, before, behind)

        rows, hints.of_table = hints.rows, noted
        try:
            for text, _, _ in MISTAKES:
                self.said(HEAD + text + "\n")
            for text, _, _ in MODELS:
                self.said(text)
            for text, _, _ in PARAMS:
                self.said(HEAD, text)
        finally:
            hints.of_table, hints.rows = plain, rows
        unseen = [row[2:4] for number, row in enumerate(every) if number not in used and row[1] != "solution"]
        self.assertEqual(unseen, [])

    def test_a_fault_of_a_parameter_shows_both_lines(self):
        model = "language ESSENCE' 1.0\ngiven n : int(1..9)\ngiven cost : matrix indexed by [int(1..n), int(1..2)] of int(0..99)\nfind x : bool\n"
        out, said, _ = self.said(model, "letting n be 2\nletting cost be [[1, 2], [3, 300]]\n")
        self.assertEqual(out[0], "fault F9 cost")
        self.assertEqual(said[:3], ["line 3 of the model: given cost : matrix indexed by [int(1..n), int(1..2)] of int(0..99)",
                                    "line 2 of the parameters: letting cost be [[1, 2], [3, 300]]", "`cost`: its entry [2, 2] is 300, and the domain is int(0..99)"])
        said = self.said(model, "letting n be 3\nletting cost be [[1, 2], [3, 4]]\n")[1]
        self.assertIn("`cost`: it has 2 parts, and 3 are wanted: int(1..3)", said)
        said = self.said(model.replace("int(0..99)", "bool"), "letting n be 1\nletting cost be [[0, true]]\n")[1]
        self.assertIn("`cost`: its entry [1, 1] is 0, and a truth value is wanted: `true` or `false`", said)
        said = self.said(model, "letting n be 1\nletting kost be [[0, 1]]\n")[1]
        self.assertIn("the parameters have `kost`, for which the model doesn't ask: did you mean `cost`?", said)

    def test_the_clause_that_is_violated_is_shown(self):
        model = "language ESSENCE' 1.0\nfind x, y : int(1..5)\nfind s : matrix indexed by [int(1..2)] of int(0..1)\nsuch that x > 1, forAll i : int(1..2) .\n  s[i] < y\nsuch that x + y = 4\n"
        for text, line, hint in (("letting x be 2\nletting y be 1\nletting s be [0, 1]\n", "$ violated 2", "line 4 of the model: forAll i : int(1..2) . s[i] < y epsat: it doesn't hold where i = 2: s[i] < y"),
                                 ("letting x be 2\nletting y be 3\nletting s be [0, 1]\n", "$ violated 3", "line 6 of the model: x + y = 4"),
                                 ("letting x be 7\nletting y be 3\nletting s be [0, 1]\n", "$ wrong shape x", "`x`: it is 7, and the domain is int(1..5)"),
                                 ("letting x be 1\nletting y be 3\nletting s be [0]\n", "$ wrong shape s", "`s`: it has 1 parts, and 2 are wanted: int(1..2)"),
                                 ("letting x be 1\nletting y be 3\n", "$ wrong shape s", "the solution text has no `letting s be ..`"),
                                 ("letting x be 1\nletting y be 3\nletting s be [0, 1]\nletting t be 1\n", "$ wrong shape t", "no decision variable `t`")):
            asked = ["--task", "verify", "--in-eprime", self.file("m", model), "--in-solution", self.file("s", text)]
            status, out, _ = self.call(program(), *asked)
            self.assertEqual((status, out), (7, line + "\n"))
            made = []
            hints.explain(out.encode(), status, command.Command(asked), made.append)
            self.assertIn(hint, " ".join(made))

    def test_reads_outside_are_shown_below_no_solution(self):
        model = HEAD + "such that forAll i : int(1..n) . M[i] != M[i + 1]\n"
        out, said, made = self.said(model)
        self.assertEqual(out[1], "$ no solution")
        self.assertEqual(made[0], "     7 | such that forAll i : int(1..n) . M[i] != M[i + 1]")
        self.assertEqual(made[1], "       |                                          ^")
        self.assertEqual(said[0], "the index of `M[i + 1]` is 4 where i = 3, outside of int(1..3): it has no value, and what compares it is false")
        self.assertIn("When an answer surprises", said[-1])
        for guarded in ("forAll i : int(1..n) . (i < n) -> (M[i] > M[i + 1])", "and([M[i] > M[i + 1] | i : int(1..n), i < n])", "forAll i : int(1..n - 1) . M[i] > M[i + 1]"):
            said = self.said(HEAD + f"such that {guarded}, x > 9\n")[1]
            self.assertEqual(len(said), 2, guarded)
        self.assertEqual(self.said(HEAD + "such that x > 1\n")[1], [])
        self.assertIn("no `find`", self.said("language ESSENCE' 1.0\nletting q be 3\n")[1][0])

    def test_the_command_that_explains_stands_below_no_solution(self):
        said = self.said(HEAD + "such that x > 1, x + y > 11, forAll i : int(1..n) . M[i] + x > 3\n", "letting q be 2\n", "--out-cnf", f"{self.folder}/f")[1]
        asked = f"./epsat --task explain --in-eprime {self.folder}/m --in-param {self.folder}/p"
        self.assertEqual(said[0], f"there is no solution, which is proved. Which clauses can't be kept together: {asked}")
        typed = command.Command(["--task=enumerate", "--solutions", "3", "--in-eprime", "a b", "--data", "t.csv", "--show", "grid", "--conflicts=7"])
        self.assertEqual(typed.explaining(), "./epsat --task explain --in-eprime 'a b' --conflicts=7 --data t.csv")

    def test_clauses_of_an_explanation_have_their_lines(self):
        head, asked = HEAD, ("letting q be 2\n", "--task", "explain")
        said = self.said(head + "such that x > 1,\n  y > 4 /\\ z > 1,\n  forAll i : int(1..n) . M[i] > y\n", *asked)[1]
        self.assertEqual(said[:2], ["clause 2, line 8: y > 4 /\\ z > 1", "clause 3, line 9: forAll i : int(1..n) . M[i] > y"])
        self.assertIn("`tools/singles` takes a clause with `forAll` apart", said[2])
        self.assertEqual(self.said(head + "such that x > 9\n", *asked)[1], ["clause 1, line 7: x > 9"])
        self.assertEqual(self.said(head + "find w : int(2..1)\nsuch that x > 9\n", *asked)[1], ["no values fit the domains: some `find` has none"])
        self.assertEqual(self.said(head + "such that x > 2\n", *asked)[1], [])
        many = ", ".join(f"x != {it}" for it in range(1, 6)) + "".join(f", y + z > {it}" for it in range(9))
        self.assertEqual(len(self.said(head + f"such that {many}\n", *asked)[1]), 5)

    def measured_by(self, program):
        kept, measuring.program = measuring.program, lambda: program
        self.addCleanup(setattr, measuring, "program", kept)

    def test_the_largest_parts_are_estimated_at_a_limit(self):
        self.measured_by(None)
        out, said, _ = self.said(HEAD + "such that x > 1,\n  forAll i, j, k : int(1..200) . i + j + k > x\n")
        self.assertEqual((out[0], said[0]), ("limit L4", "line 8 of the model, some 56,000,001 nodes: forAll i, j, k : int(1..200) . i + j + k > x"))
        self.assertIn("`tools/heaviest MODEL PARAMETERS` measures", said[1])
        out, said, _ = self.said(HEAD + "find wide : matrix indexed by [int(1..20)] of int(0..100000000)\n")
        self.assertEqual((out[0], said[0]), ("limit L6", "line 7 of the model: `wide` has 20 cells with 100,000,001 values each"))
        out, said, _ = self.said(HEAD + "find many : matrix indexed by [int(1..3000), int(1..3000)] of bool\n")
        self.assertEqual((out[0], said[0]), ("limit L4", "line 7 of the model: `many` has 9,000,000 cells with 2 values each"))
        self.assertIn("q is 2", self.said(HEAD + "where q > 2\n")[1])
        out, said, _ = self.said(HEAD + "find v, w : int(1..9000)\nsuch that v * w = 7\n")
        self.assertEqual(out[0], "limit L6")
        self.assertIn("`tools/heaviest MODEL PARAMETERS` tells which statement is the heaviest", said[0])

    def test_the_largest_parts_are_measured_where_that_can_be_done(self):
        self.measured_by(self.file("measures", "#!/bin/sh\necho \"$@\" >>asked\nprintf 'clause 1 4 6\\nclause 2 L4\\nclause 3 4000000 9000000\\nobjective 3 7\\n'\n", True))
        model = HEAD + "such that x > 1,\n  forAll i, j, k : int(1..200) . i + j + k > x\nsuch that y > 1\nminimising z\n"
        self.addCleanup(os.chdir, os.getcwd())
        os.chdir(self.folder)
        said = self.said(model, "letting q be 2\n", "--undefined", "strict")[1]
        self.assertEqual(said[:2], ["line 8 of the model, more than 5,000,000 nodes, some 56,000,001: forAll i, j, k : int(1..200) . i + j + k > x",
                                    "line 9 of the model, 4,000,000 nodes, weight 9,000,000: y > 1"])
        self.assertEqual(len(said), 4)
        self.assertEqual(read("asked"), f"strict {self.folder}/m {self.folder}/p\n")
        asked = command.Command(["--in-eprime", "m", "--in-param", "p"])
        place, said = hints.largest_at("L4", asked)
        self.assertEqual((place.line, place.column, said), (8, 3, "more than 5,000,000 nodes, some 56,000,001: forAll i, j, k : int(1..200) . i + j + k > x"))
        self.measured_by(self.file("heavy", "#!/bin/sh\nprintf 'clause 1 4 6\\nclause 2 300 70\\nclause 3 3 9000000\\nobjective 3 7\\n'\n", True))
        place, said = hints.largest_at("L6", asked)
        self.assertEqual((place.line, place.column, said), (9, 11, "3 nodes, weight 9,000,000: y > 1"))
        self.assertIsNone(hints.largest_at("L5", asked))
        instance = grammar.Instance(model, "letting q be 2\n")
        told = measuring.told(model, instance, {1: (4, 6), 2: (10, 30), 3: (3, 900), 0: "L5"}, "L6")
        self.assertEqual(told, ["line 9 of the model, 3 nodes, weight 900: y > 1", "line 8 of the model, 10 nodes, weight 30: forAll i, j, k : int(1..200) . i + j + k > x",
                                "line 7 of the model, 4 nodes, weight 6: x > 1"])
        self.assertEqual(measuring.told(model, instance, {1: (4, 6), 2: (10, 30), 3: (3, 900), 0: "L5"}, "L5"), ["line 10 of the model, numbers beyond 2^40: z"])
        self.assertEqual(measuring.told(model, instance, {1: (4, 6), 2: (10, 30), 3: "L6", 0: (1, 5)}, "L6")[0], "line 9 of the model, weight more than 20,000,000: y > 1")
        self.assertEqual(measuring.told(model, instance, {1: (4, 6), 2: (10, 30), 3: (3, 900), 0: (1, 5)}, "L4")[-1], "all 4 parts together have 18 nodes and weigh 941")
        many = HEAD + "such that " + ",\n".join(f"x + y > {it}" for it in range(20)) + "\n"
        told = measuring.told(many, grammar.Instance(many, None), {it + 1: (100 + it, 0) for it in range(20)}, "L4")
        self.assertEqual((len(told), told[0]), (11, "line 26 of the model, 119 nodes, weight 0: x + y > 19"))

    def test_missing_files_are_named(self):
        self.file("model.eprime", HEAD)
        made = []
        hints.explain(b"device read modle.eprime\n", 5, command.Command(["--in-eprime", "modle.eprime"]), made.append)
        here = os.getcwd()
        try:
            os.chdir(self.folder)
            hints.explain(b"device read modle.eprime\n", 5, command.Command(["--in-eprime", "modle.eprime"]), made.append)
        finally:
            os.chdir(here)
        self.assertIn("did you mean model.eprime?", " ".join(made))

    def test_long_lines_and_odd_bytes_are_shown_in_part(self):
        line = "such that " + " /\\ ".join(["x > 1"] * 200)
        shown = hints.shown_line(line + "\r\n", 1, 900)
        self.assertLess(len(shown[0]), 140)
        self.assertEqual(shown[0][len(shown[1]) - 1], line[899])
        self.assertEqual(hints.shown_line("a\tb\x00\r", 1, 3), ["     1 | a b?", "       |   ^"])
        self.assertEqual(hints.shown_line("größe x".encode().decode("latin-1"), 1, 9), ["     1 | größe x", "       |       ^"])

    def test_deep_and_large_texts_are_looked_at_too(self):
        deep = HEAD + "such that " + "(" * 240 + "x" + ")" * 240 + "\n"
        out, said, _ = self.said(deep)
        self.assertEqual((out[0], said[0]), ("fault F5 model 7:11", "a clause has to be true or false, and this is an integer"))
        large = HEAD + "such that " + ",\n".join(["x > 1"] * 100_000) + ",\nx == y\n"
        out, said, _ = self.said(large)
        self.assertEqual((out[0], said[0]), ("fault F2 model 100007:4", "equality is `=`, once"))

    def test_each_model_among_the_examples_is_read_whole(self):
        for name in sorted(os.listdir(f"{ROOT}/examples")):
            if name.endswith(".eprime"):
                text = tokens.text_in(f"{ROOT}/examples/{name}")
                reader = grammar.Reader(text)
                found = reader.statements()
                self.assertEqual(reader.at, len(reader.tokens), name)
                self.assertEqual(grammar.type_faults(text, found), [], name)

    def test_lint(self):
        self.file("m.eprime", HEAD + "letting spare be 3\nfind lost : bool\nsuch that b <- c, M[n + 1] = 3, x + y + z > 4\n")
        self.file("p.param", "letting k be 1\nletting q be 1 + k\nletting other be 4\n")
        status, out, err = self.call(f"{ROOT}/epsat", "--lint", "--in-eprime", "m.eprime", "--in-param", "p.param")
        self.assertEqual((status, err), (0, ""))
        self.assertEqual(sorted(out.strip().split("\n")), [
            "m.eprime:3:7: warning: the parameter `q` is read nowhere",
            "m.eprime:7:9: warning: the letting `spare` is read nowhere",
            "m.eprime:8:6: warning: the decision variable `lost` is read nowhere: nothing is said of it",
            "m.eprime:9:13: warning: `a <- b` is read as `a < -b`",
            "m.eprime:9:19: warning: `M[n + 1]` is read at 4, outside of int(1..3): it has no value there, and what compares it is false",
            "p.param:3:9: warning: no `given` of the model asks for `other`",
        ])
        self.file("bad.eprime", HEAD + "such that x == y\n")
        self.assertEqual(self.call(f"{ROOT}/epsat", "--in-eprime", "bad.eprime", "--lint")[:2], (3, "bad.eprime:7:14: fault F2: equality is `=`, once\n"))
        self.file("wide.eprime", HEAD + "find wide : matrix indexed by [int(1..20)] of int(0..100000000)\n")
        self.assertEqual(self.call(f"{ROOT}/epsat", "--in-eprime", "wide.eprime", "--in-param", "p.param", "--lint")[:2], (4, "wide.eprime:7:6: limit L6: `wide` has 20 cells with 100,000,001 values each\n"))
        self.file("heavy.eprime", HEAD.replace("1..5", "1..9000") + "such that x > 1,\n  y * z = 7\n")
        status, out, _ = self.call(f"{ROOT}/epsat", "--in-eprime", "heavy.eprime", "--in-param", "p.param", "--lint")
        self.assertEqual(status, 4)
        self.assertRegex(out, r"^heavy\.eprime:(8:3: limit L6: weight more than 20,000,000: y \* z = 7|\d+:\d+: limit L6: some \d+ nodes: .*)\n$")
        self.file("q.param", "letting q be 9\n")
        self.assertEqual(self.call(f"{ROOT}/epsat", "--in-eprime", "m.eprime", "--lint", "--in-param=q.param")[:2], (3, "q.param:1:9: fault F9: `q`: it is 9, and the domain is int(1..3)\n"))
        self.assertEqual(self.call(f"{ROOT}/epsat", "--lint", "--in-eprime", "m.eprime")[0], 0)
        self.assertEqual(self.call(f"{ROOT}/epsat", "--lint", "--in-eprime", "none.eprime")[0], 5)
        for name in sorted(os.listdir(f"{ROOT}/examples")):
            if name.endswith(".eprime"):
                given = f"{ROOT}/examples/{name[:-6]}param"
                words = ["--lint", "--in-eprime", f"{ROOT}/examples/{name}"] + (["--in-param", given] if os.path.exists(given) else [])
                self.assertEqual(self.call(f"{ROOT}/epsat", *words), (0, "", ""), name)
        self.assertEqual(self.left(), [])


if __name__ == "__main__":
    unittest.main()
