"""Reading answers and giving data: the forms of --show, the tables of --data, and the call from Python."""
import csv, importlib.util, io, json, os, re, subprocess, sys, unittest, unittest.mock
from html.parser import HTMLParser

from base import ROOT, Case, is_alive, program, read, until
from answers import Answer, Matrix, value_of
import command, data, showing

ANSWER = """language ESSENCE' 1.0
$ optimum 2
letting n be -3
letting b be true
letting row be [4, 10, 0; int(0, 2..3)]
letting off be [[true, false; int(1..2)], [false, true; int(1..2)]; int(5..6)]
letting bits be [[1, 0; int(1..2)], [0, 0; int(1..2)]; int(1..2)]
letting deep be [[[1, 2; int(1..2)]; int(1)], [[3, 4; int(1..2)]; int(1)]; int(1..2)]
letting none be [; int(1..0)]
"""
LIST = "language ESSENCE' 1.0\n$ solution 1\nletting x be 1\n$ solution 2\nletting x be 2\n$ complete\n"
GRID = """optimum 2
n = -3
b = true

row
 |  0  2  3
-+---------
 |  4 10  0

off (rows Side, columns Day)
  | 1 2
--+----
5 | x .
6 | . x

bits
  | 1 2
--+----
1 | 1 .
2 | . .

deep[1]
  | 1 2
--+----
1 | 1 2

deep[2]
  | 1 2
--+----
1 | 3 4

none
 |
-+
 |
"""


class Show(Case):
    def shown(self, text, form, model=None):
        words = ["--in-eprime", model] if model else []
        return showing.shown(text.encode(), form, command.Command(words)).decode()

    def test_values_are_read_with_their_indices(self):
        it = value_of("[[1, 2; int(1..2)], [-3, 4; int(1..2)]; int(0, 7)]")
        self.assertEqual((it.plain(), it.dimensions()), ([[1, 2], [-3, 4]], [[0, 7], [1, 2]]))
        self.assertEqual((value_of("true"), value_of("-12"), value_of("[; int(1..0)]").plain()), (True, -12, []))
        self.assertEqual(Answer(LIST).blocks, [{"x": 1}, {"x": 2}])

    def test_a_grid_has_rows_and_columns(self):
        model = self.file("m", "language ESSENCE' 1.0\nfind off : matrix indexed by [Side, Day] of bool\n")
        self.assertEqual(re.sub(" +$", "", self.shown(ANSWER, "grid", model), flags=re.M), GRID)
        self.assertEqual(self.shown(LIST, "grid"), "complete\n\nsolution 1\nx = 1\n\nsolution 2\nx = 2\n")
        self.assertEqual(self.shown("language ESSENCE' 1.0\n$ no solution\n", "grid"), "no solution\n")

    def test_csv_is_read_again(self):
        rows = list(csv.reader(io.StringIO(self.shown(ANSWER, "csv"))))
        for it in (["n", "-3"], ["b", "true"], ["row", "0", "2", "3"], ["", "4", "10", "0"], ["off", "1", "2"], ["5", "true", "false"], ["deep[2]", "1", "2"]):
            self.assertIn(it, rows)
        self.assertEqual(self.shown(LIST.replace("be 1", "be [1; int(1)]"), "csv"), "solution,1\nx,1\n,1\n\nsolution,2\nx,2\n")

    def test_json_has_values_and_indices(self):
        it = json.loads(self.shown(ANSWER, "json"))
        self.assertEqual((it["status"], it["objective"]), ("optimum", 2))
        self.assertEqual(it["values"], {"n": -3, "b": True, "row": [4, 10, 0], "off": [[True, False], [False, True]], "bits": [[1, 0], [0, 0]], "deep": [[[1, 2]], [[3, 4]]], "none": []})
        self.assertEqual(it["indices"]["row"], [[0, 2, 3]])
        self.assertEqual(json.loads(self.shown(LIST, "json")), {"status": "complete", "solutions": [{"x": 1}, {"x": 2}], "indices": {}})
        unknown = "language ESSENCE' 1.0\n$ unknown 30 conflicts\n$ incumbent 4\nletting x be 4\n"
        self.assertEqual(json.loads(self.shown(unknown, "json")), {"status": "unknown", "conflicts": 30, "objective": 4, "values": {"x": 4}, "indices": {}})
        self.assertEqual(json.loads(self.shown("language ESSENCE' 1.0\n$ no solution\n", "json")), {"status": "no solution"})

    def test_a_page_is_whole(self):
        text = self.shown(ANSWER, "html", self.file("a&b.eprime", "find off : matrix indexed by [Side, Day] of bool\n"))
        open_tags, rows = [], []

        class Reader(HTMLParser):
            def handle_starttag(self, tag, attrs):
                if tag not in ("meta",):
                    open_tags.append(tag)
                if tag == "tr":
                    rows.append(0)

            def handle_endtag(self, tag):
                assert open_tags.pop() == tag, tag

            def handle_data(self, _):
                pass

        Reader().feed(text)
        self.assertEqual(open_tags, [])
        self.assertIn("<title>a&amp;b</title>", text)
        self.assertIn("Side / Day", text)
        self.assertIn("no solution is better", text)
        self.assertNotIn("http", text)
        self.assertNotIn("<b>A solution</b>", self.shown(LIST, "html"))

    def test_an_explanation_is_shown(self):
        text = "language ESSENCE' 1.0\n$ explanation 2\n$ without 1\nletting x be 2\n$ without 3\nletting x be 1\n"
        self.assertEqual(self.shown(text, "grid"), "explanation 2\n\nwithout clause 1\nx = 2\n\nwithout clause 3\nx = 1\n")
        self.assertEqual(self.shown(text, "csv"), "without,1\nx,2\n\nwithout,3\nx,1\n")
        self.assertEqual(json.loads(self.shown(text, "json")), {"status": "explanation", "clauses": [1, 3], "without": [{"x": 2}, {"x": 1}], "indices": {}})
        self.assertIn("<b>2 clauses</b> have no solution together", self.shown(text, "html"))
        self.assertIn("<h1>Without clause 3</h1>", self.shown(text, "html"))
        none = "language ESSENCE' 1.0\n$ explanation 0\n"
        self.assertEqual(self.shown(none, "grid"), "explanation 0\n")
        self.assertEqual(json.loads(self.shown(none, "json")), {"status": "explanation", "clauses": []})

    def test_a_refusal_passes(self):
        for form in command.FORMS:
            self.assertEqual(self.shown("fault F3 model 1:1 x\n", form), "fault F3 model 1:1 x\n")

    def test_the_launcher_shows(self):
        words = ["--in-eprime", f"{ROOT}/examples/sudoku.eprime", "--in-param", f"{ROOT}/examples/sudoku.param"]
        plain = self.call(program(), *words)
        for form in command.FORMS:
            status, out, err = self.call(f"{ROOT}/epsat", *words, "--show", form)
            self.assertEqual((status, err), (0, ""))
            self.assertEqual(out, self.shown(plain[1], form, words[1]))
            ran = subprocess.run([f"{ROOT}/tools/show", form, words[1]], input=plain[1].encode(), stdout=subprocess.PIPE, check=True)
            self.assertEqual(ran.stdout.decode(), out)

    def test_long_lists_stand_upright_side_by_side(self):
        model = self.file("m", "language ESSENCE' 1.0\nletting Lecture be domain int(1..21)\nfind at, room : matrix indexed by [Lecture] of int(0..99)\nfind other : matrix indexed by [int(1..2)] of bool\n")
        at, room = [it * 3 for it in range(1, 22)], [it % 2 for it in range(1, 22)]
        text = f"language ESSENCE' 1.0\n$ solution\nletting at be {at}\nletting room be {room}\nletting other be [true, false; int(1..2)]\n".replace("]\nletting room", "; int(1..21)]\nletting room").replace("]\nletting other", "; int(1..21)]\nletting other")
        asked = command.Command(["--in-eprime", model])
        lines = showing.shown(text.encode(), "grid", asked).decode().split("\n")
        self.assertEqual(lines[2:6], ["Lecture | at | room", "--------+----+-----", "      1 |  3 |    1", "      2 |  6 |    ."])
        self.assertEqual(lines[24:28], ["     21 | 63 |    1", "", "other", "  | 1 2"][:1] + ["", "other", " | 1 2"])
        page = showing.shown(text.encode(), "html", asked).decode()
        self.assertIn('<h2>at, room</h2>\n<table><thead><tr><th class="corner">Lecture</th><th>at</th><th>room</th></tr></thead>', page)
        self.assertIn('<tr><th class="side">21</th><td>63</td><td>1</td></tr>', page)

    def test_words_for_indices_and_values(self):
        model = self.file("m", "language ESSENCE' 1.0\nletting Side be domain int(5..6)\nletting Day be domain int(1..2)\nfind off : matrix indexed by [Side, Day] of bool\nfind late : int(1..3)\nfind helper : matrix indexed by [Day] of int(0..3)\n")
        text = b"language ESSENCE' 1.0\n$ solution\nletting off be [[true, false; int(1..2)], [false, true; int(1..2)]; int(5..6)]\nletting late be 3\nletting helper be [3, 0; int(1..2)]\n"
        names = self.file("n.json", '{"Side": ["left", "ri<ght"], "Day": {"2": "Tue"}, "off": {"true": "off"}, "late": {"3": "three"}, "helper": null}')
        asked = lambda form: command.Command(["--in-eprime", model, "--show", form, "--names", names])
        self.assertEqual(asked("grid").faults, [])
        self.assertEqual(showing.shown(text, "grid", asked("grid")).decode(), """solution

off (rows Side, columns Day)
       |   1 Tue
-------+--------
  left | off   .
ri<ght |   . off
late = three
""")
        page = showing.shown(text, "html", asked("html")).decode()
        for it in ('<th class="side">ri&lt;ght</th>', "<th>Tue</th>", "off</td>", "<dt>late</dt><dd>three</dd>"):
            self.assertIn(it, page)
        self.assertNotIn("helper", page)
        self.assertIn("--names goes with", asked("json").faults[0])
        for wrong in ("{", "[1]", '{"Day": 3}'):
            self.file("n.json", wrong)
            with self.assertRaises(showing.Fault):
                showing.shown(text, "grid", asked("grid"))
        self.file("n.json", "{")
        words = ["--in-eprime", f"{ROOT}/examples/talks.eprime", "--show", "grid"]
        status, out, err = self.call(f"{ROOT}/epsat", *words, "--names", names)
        self.assertEqual((status, out.split("\n")[0]), (0, "language ESSENCE' 1.0"))
        self.assertIn("it is no JSON", err)
        words = ["--in-eprime", f"{ROOT}/examples/shifts.eprime", "--in-param", f"{ROOT}/examples/shifts.param", "--show", "grid", "--names", f"{ROOT}/examples/shifts.names.json"]
        status, out, err = self.call(f"{ROOT}/epsat", *words)
        self.assertEqual((status, err), (0, ""))
        self.assertIn(" Dan |", out)


class Data(Case):
    MODEL = """language ESSENCE' 1.0
given n, m : int(1..9)
given need, cost : matrix indexed by [int(1..n)] of int(0..99)
given off : matrix indexed by [int(1..n), int(1..m)] of bool
given grid : matrix indexed by [int(1..n), int(1..m)] of int
given cube : matrix indexed by [int(1..n)] of matrix indexed by [int(1..n), int(1..m)] of int
"""

    def made(self, *files, given=None):
        model = self.file("m", self.MODEL)
        notes = []
        text = data.parameters(model, given, [os.path.join(self.folder, it) if "=" not in it else it for it in files], notes.append)
        return text.replace("language ESSENCE' 1.0\n", "", 1), notes

    def fault(self, *files):
        with self.assertRaises(data.Fault) as it:
            self.made(*files)
        return str(it.exception).replace(f"{self.folder}/", "")

    def test_json(self):
        self.file("a.json", '{"n": 2, "off": [[0, 1], [true, false]], "cube": [[[1]]], "need": []}')
        self.assertEqual(self.made("a.json")[0], "letting n be 2\nletting off be [[false, true], [true, false]]\nletting cube be [[[1]]]\nletting need be []\n")
        self.file("b.json", '{"n": 2, "names": 7, "m": 1.5}')
        self.assertEqual(self.fault("b.json"), "b.json: m: 1.5 is no whole number, truth value or list of these")
        self.file("c.json", '{"n": 2, "extra": 1}')
        self.assertIn("no `given extra`", self.made("c.json")[1][0])
        self.file("d.json", '{"need": [1, null]}')
        self.assertEqual(self.fault("d.json"), "d.json: need[2]: has no value")
        self.file("e.json", "{")
        self.assertIn("e.json is no JSON", self.fault("e.json"))
        self.file("f.json", "[1, 2]")
        self.assertIn("--data NAME=", self.fault("f.json"))
        self.assertEqual(self.made(f"need={self.folder}/f.json")[0], "letting need be [1, 2]\n")
        self.assertIn("has a value already", self.fault("a.json", "c.json"))
        given = self.file("p", "letting n be 1 $ one\nletting m be\n  2\n")
        text, notes = self.made("c.json", given=given)
        self.assertEqual(text, "               $ one\nletting m be\n  2\nletting n be 2\n")
        self.assertIn("its `n` is taken", notes[0])

    def test_csv(self):
        for text, wanted in (
            ("1,2\n3,4\n", "[[1, 2], [3, 4]]"),
            ("\ufeffgrid;1;2\r\n1;1;2\r\n2;3;4\r\n", "[[1, 2], [3, 4]]"),
            (",mon,tue\nann,1,2\nben,3,4\n", "[[1, 2], [3, 4]]"),
            ("mon,tue\n1,2\n3,-4\n\n", "[[1, 2], [3, -4]]"),
        ):
            self.file("grid.csv", text)
            self.assertEqual(self.made("grid.csv")[0], f"letting grid be {wanted}\n", text)
        for text, wanted in (("x,\n,x\n", "[[true, false], [false, true]]"), ("0,1\ntrue,no\n", "[[false, true], [true, false]]"), (",a,b\nann,x,.\n", "[[true, false]]")):
            self.file("off.csv", text)
            self.assertEqual(self.made("off.csv")[0], f"letting off be {wanted}\n", text)
        for text in ("1,2,3\n", "1\n2\n3\n", "need,1,2,3\n,1,2,3\n", "need\n1\n2\n3\n"):
            self.file("need.csv", text)
            self.assertEqual(self.made("need.csv")[0], "letting need be [1, 2, 3]\n", text)
        for text in ("day,wanted\n1,4\n2,5\n", "day,wanted\nmon,4\ntue,5\n"):
            self.file("need.csv", text)
            self.assertEqual(self.made("need.csv"), ("letting need be [4, 5]\n", []), text)
        self.file("grid.csv", "day,early,late\n1,2,3\n2,3,4\n")
        text, notes = self.made("grid.csv")
        self.assertEqual(text, "letting grid be [[1, 2, 3], [2, 3, 4]]\n")
        self.assertIn("head it by `grid` or by nothing", notes[0])
        for head in ("grid", ""):
            self.file("grid.csv", f"{head},early,late\n1,2,3\n2,3,4\n")
            self.assertEqual(self.made("grid.csv"), ("letting grid be [[2, 3], [3, 4]]\n", []))
        self.file("things.csv", "name,need,cost\nrope,1,10\ntent,2,20\n")
        self.assertEqual(self.made("things.csv")[0], "letting need be [1, 2]\nletting cost be [10, 20]\n")
        self.file("n.csv", "7\n")
        self.assertEqual(self.made("n.csv")[0], "letting n be 7\n")

    def test_answers_are_read_back(self):
        answer = "language ESSENCE' 1.0\n$ optimum 4\nletting need be [4, 5; int(1..2)]\nletting grid be [[1, 2; int(1..2)], [3, 4; int(1..2)]; int(0..1)]\nletting late be true\nletting worst be 7\n"
        self.file("old.solution", answer)
        self.file("old.json", showing.shown(answer.encode(), "json").decode())
        self.file("old.csv", showing.shown(answer.encode(), "csv").decode())
        old = lambda word: word.replace("old", f"{self.folder}/old")
        for kind in ("solution", "json", "csv"):
            self.assertEqual(self.made(f"old.{kind}")[0], "letting need be [4, 5]\nletting grid be [[1, 2], [3, 4]]\n")
            self.assertEqual(self.made(old(f"cost=need:old.{kind}"), old(f"m=worst:old.{kind}"))[0], "letting cost be [4, 5]\nletting m be 7\n")
            self.assertEqual(self.made(old(f"need=old.{kind}"))[0], "letting need be [4, 5]\n")
            self.assertIn(f"it has no `gird`; it has `need`, `grid`, `late`, `worst`, of which n=OTHER:old.{kind} takes one", self.fault(old(f"n=gird:old.{kind}")))
        self.file("old.csv", showing.shown(answer.replace("letting need be [4, 5; int(1..2)]\n", "").replace("letting late be true\nletting worst be 7\n", "").encode(), "csv").decode())
        self.assertEqual(self.made(old("grid=old.csv"))[0], "letting grid be [[1, 2], [3, 4]]\n")
        self.file("old.solution", "language ESSENCE' 1.0\n$ solution\nletting x be 3\n")
        self.assertEqual(self.made(old("n=old.solution"))[0], "letting n be 3\n")
        self.assertIn("it has `x`, and the model asks for", self.fault("old.solution"))
        self.file("old.solution", "language ESSENCE' 1.0\n$ no solution\n")
        self.assertIn("it has 0 solutions", self.fault("old.solution"))

    def test_a_first_column_that_counts_is_labels_where_the_width_tells_it(self):
        given = self.file("p", "letting n be 2\nletting m be 2\n")
        self.file("grid.csv", "day,early,late\n1,2,3\n2,3,4\n")
        self.assertIn("letting grid be [[2, 3], [3, 4]]\n", self.made("grid.csv", given=given)[0])
        self.file("off.csv", "day,early,late\n1,x,\n2,,x\n")
        self.assertIn("letting off be [[true, false], [false, true]]\n", self.made("off.csv", given=given)[0])

    def test_faults_of_tables_have_places(self):
        self.file("grid.csv", "1,2\n3,x\n")
        self.assertEqual(self.fault("grid.csv"), "grid.csv, row 2, column 2: `x` is no whole number")
        self.file("grid.csv", "1,2\n3\n")
        self.assertEqual(self.fault("grid.csv"), "grid.csv, row 2: it has 1 cells, and the first row has 2")
        self.file("need.csv", "1,2\n3,4\n")
        self.assertIn("wants one row or one column", self.fault("need.csv"))
        self.file("cube.csv", "1\n")
        self.assertIn("JSON", self.fault("cube.csv"))
        self.file("gird.csv", "1\n")
        self.assertIn("no `given gird`", self.fault("gird.csv"))
        self.assertIn("can't be read", self.fault("missing.csv"))
        self.file("grid.csv", "")
        self.assertEqual(self.fault("grid.csv"), "grid.csv is empty")

    def test_the_launcher_takes_tables(self):
        given = self.file("p", "letting nurses be 3\nletting days be 5\nletting most be 4\nletting need be [2, 1, 2, 2, 1]\n")
        with open(given, "a", encoding="utf-8") as it:
            it.write("$ größe\n")
        self.file("off.csv", "off,1,2,3,4,5\nAnn,1,0,0,0,1\nBen,0,0,1,0,0\nCleo,0,1,0,1,0\n")
        words = ["--in-eprime", f"{ROOT}/examples/roster.eprime"]
        plain = self.call(program(), *words, "--in-param", f"{ROOT}/examples/roster.param")
        self.assertEqual(self.call(f"{ROOT}/epsat", *words, "--in-param", given, "--data", "off.csv"), plain)
        self.file("names", '{"Nurse": ["Ann", "Ben", "Cleo"]}')
        out = self.call(f"{ROOT}/epsat", *words, "--in-param", given, "--data", "off.csv", "--show", "grid", "--names", "names")[1]
        self.assertIn("\nCleo | ", out)
        status, out, err = self.call(f"{ROOT}/epsat", *words, "--data", "nothing.csv")
        self.assertEqual((status, out), (5, ""))
        self.assertIn("nothing.csv can't be read", err)
        self.file("off.csv", "off,1,2,3,4,5\nAnn,1,0,0,0,1\nBen,0,0,1,0,0\n")
        status, out, err = self.call(f"{ROOT}/epsat", *words, "--in-param", given, "--data", "off.csv", EPSAT_EXPLAIN="1")
        self.assertEqual((status, out), (3, "fault F9 off\n"))
        self.assertIn("epsat: its value comes from the table off.csv\nepsat: `off`: it has 2 parts, and 3 are wanted", err)
        self.assertEqual(self.left(), [])

    def test_faults_of_values_have_places_in_their_tables(self):
        given = self.file("p", "letting nurses be 3\nletting days be 5\nletting most be 4\nletting need be [2, 1, 2, 2, 1]\n")
        words = [f"{ROOT}/epsat", "--in-eprime", f"{ROOT}/examples/roster.eprime", "--in-param", given]
        said = lambda *files: self.call(*words, *(f"--data={it}" for it in files), EPSAT_EXPLAIN="1")
        self.file("need.csv", "day,need\n\nmon,2\ntue,9\nwed,1\nthu,1\nfri,1\n")
        self.file("off.csv", "off,1,2,3,4,5\nAnn,1,0,0,0,1\nBen,0,0,1,0\nCleo,0,1,0,1,0\n")
        self.assertIn("need.csv, row 4, column 2\nepsat: `need`: its entry [2] is 9", said("need.csv")[2])
        self.file("n.json", '{"most": 3,\n "need": [2, 2,\n   2, 9, 1], "nurses": 3, "of": [true]}')
        status, out, err = said("n.json")
        self.assertEqual((status, out), (3, "fault F9 need\n"))
        self.assertIn("n.json, line 3, column 7\nepsat: `need`: its entry [4] is 9", err)
        self.file("n.json", '[2, 2, 2, 9, 1]')
        self.assertIn("n.json, line 1, column 11\n", said("need=n.json")[2])
        self.file("n.json", '{"most": 3, "of": [true]}')
        status, out, err = said("n.json")
        self.assertEqual((status, out), (3, "fault F8 off\n"))
        self.assertIn("n.json, line 1, column 19 has `of`, for which the model doesn't ask: did you mean `off`?", err)
        self.file("n.json", '{"most": 3}')
        self.assertIn("no table has it: n.json\n", said("n.json")[2])
        self.assertEqual(said("off.csv")[0], 3)
        self.file("n.json", '{"most": 99}')
        self.assertIn("n.json, line 1, column 10\n", said("n.json")[2])
        for path in (self.folder, "missing.json", "missing.csv"):
            self.assertEqual(said(path)[:2], (5, ""))
        with open(f"{self.folder}/bytes.csv", "wb") as it:
            it.write(b"\xff\xfe1\n")
        self.assertEqual(said("bytes.csv")[:2], (3, ""))

    def test_it_is_called_from_python(self):
        status, out, err = self.call(sys.executable, f"{ROOT}/examples/call.py")
        self.assertEqual((status, err), (0, ""))
        self.assertEqual(out.count("nurse "), 3)
        self.assertIn("with three on day 3: no solution\n", out)
        self.assertIn("that nothing is said of: input, status 3, fault F9 need\n", out)
        self.assertIn("half a nurse: input, status 3, no line\n", out)
        self.assertIn("nurses: 2.5 is no whole number", out)

    def test_a_call_from_python_tells_kinds_of_refusals_apart(self):
        spec = importlib.util.spec_from_file_location("call", f"{ROOT}/examples/call.py")
        call = importlib.util.module_from_spec(spec)
        spec.loader.exec_module(call)
        self.addCleanup(os.environ.update, {"TMPDIR": os.environ.get("TMPDIR", "/tmp")})
        os.environ["TMPDIR"] = self.room
        for does, kind, status, line in (
            ("echo fault usage; exit 2", "words", 2, "fault usage"), ("echo fault F9 need; exit 3", "input", 3, "fault F9 need"), ("echo limit L6; exit 4", "too large", 4, "limit L6"),
            ("echo device read m; exit 5", "device", 5, "device read m"), ("echo memory; exit 6", "memory", 6, "memory"), ("exit 124", "time", 124, ""), ("exit 127", "start", 127, ""),
            # What the system's own loader ends with, and a program that is killed.
            ("exit 1", "start", 1, ""), ("kill -SEGV $$", "ended", -11, ""),
        ):
            call.EPSAT = self.file("epsat", f"#!/bin/sh\necho epsat: why >&2\n{does}\n", True)
            with self.assertRaises(call.Refused) as it:
                call.solve("m", {"n": 1}, "--conflicts=3")
            self.assertEqual((it.exception.kind, it.exception.status, it.exception.line, it.exception.reason), (kind, status, line, "why"))
        call.EPSAT = self.file("epsat", '#!/bin/sh\necho "$@" >>asked\necho "$EPSAT_EXPLAIN" >>asked\necho \'{"status": "unknown", "conflicts": 3}\'\nexit 1\n', True)
        self.addCleanup(os.chdir, os.getcwd())
        os.chdir(self.folder)
        self.assertEqual(call.solve("m", {"n": 1}, "--conflicts=3", seconds=7), {"status": "unknown", "conflicts": 3})
        self.assertRegex(read("asked"), r"^--in-eprime=m --data=\S+\.json --show=json --time-limit=7 --conflicts=3\n1\n$")
        # One that hears neither its time limit nor TERM.
        call.EPSAT = self.file("epsat", "#!/bin/sh\ntrap '' TERM\nsleep 1000 &\necho $! >pid\nwhile :; do sleep 0.1; done\n", True)
        with unittest.mock.patch.object(call, "GRACE", 0.5), self.assertRaises(call.Refused) as it:
            call.solve("m", {"n": 1}, seconds=0.1)
        self.assertEqual((it.exception.kind, it.exception.status), ("ended", -9))
        until("the end of what it started", lambda: not is_alive(int(read("pid"))))
        self.assertEqual(self.left(), [])


if __name__ == "__main__":
    unittest.main()
