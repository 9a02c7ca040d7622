"""Words: what passes through unchanged, what is said of words that are no command, and of --help."""
import os, re, subprocess, unittest

from base import ROOT, Case, program, read
from command import Command


class Usage(Case):
    def said_of(self, *words):
        return Command(words).usage()

    def test_the_nearest_option_is_named(self):
        for word, near in (("conflict", "conflicts"), ("in-eprim", "in-eprime"), ("model", "in-eprime"), ("timelimit", "time-limit"),
                           ("timeout", "time-limit"), ("out-solutions", "out-solution"), ("json", "show"), ("in_param", "in-param"), ("verison", "version")):
            self.assertEqual(self.said_of(f"--{word}", "x"), f"there is no option --{word}: did you mean --{near}?")
        self.assertIn("none that is near", self.said_of("--quux=1"))

    def test_each_way_to_be_no_command_is_told(self):
        for words, part in (
            ([], "no words were given"),
            (["m.eprime"], "write `--in-eprime m.eprime`"),
            (["--in-eprime", "m", "p.param"], "write `--in-param p.param`"),
            (["x"], "`x` stands without an option"),
            (["-h"], "--help"),
            (["--in-eprime", "m", "--help"], "--help stands alone"),
            (["--in-eprime"], "no value"),
            (["--in-eprime", "--in-param", "p"], "no value"),
            (["--in-eprime="], "empty"),
            (["--in-eprime", "m", "--in-eprime", "m"], "twice"),
            (["--in-param", "p"], "needs --in-eprime"),
            (["--task", "enumerate", "--in-eprime", "m"], "needs --solutions"),
            (["--task", "verfy", "--in-eprime", "m"], "did you mean verify"),
            (["--in-eprime", "m", "--solutions", "3"], "it goes with enumerate"),
            (["--in-eprime", "m", "--conflicts", "0"], "from 1 to 1,000,000,000"),
            (["--in-eprime", "m", "--conflicts", "1e3"], "from 1 to"),
            (["--in-eprime", "m", "--undefined", "lax"], "relational or strict"),
        ):
            self.assertIn(part, self.said_of(*words) or "nothing", words)
            # The program says so too.
            self.assertEqual(self.call(program(), *words)[:2], (2, "fault usage\n"), words)

    def test_nothing_is_wrong_with_a_command(self):
        for words in (["--in-eprime", "m"], ["--task=check", "--in-cnf", "a", "--in-log=-b"], ["--task", "generate", "--number", "0"],
                      ["--task", "enumerate", "--solutions", "all", "--in-eprime", "m"]):
            self.assertIsNone(self.said_of(*words))
            self.assertNotEqual(self.call(program(), *words)[:2], (2, "fault usage\n"), words)

    def test_own_words_are_taken_out_and_others_stay(self):
        it = Command(["--in-eprime", "m", "--time-limit", "3", "--stats", "--in-param=--show", "--show=csv", "--data", "a", "--data=b"])
        self.assertEqual(it.words, ["--in-eprime", "m", "--in-param=--show"])
        self.assertEqual(it.own, {"time-limit": 3.0, "stats": True, "show": "csv", "data": ["a", "b"]})
        for words in (["--time-limit", "-1"], ["--time-limit", "soon"], ["--time-limit"], ["--show", "xml"], ["--show", "csv", "--show", "csv"]):
            self.assertEqual(len(Command(words).faults), 1, words)

    def test_without_own_words_all_is_the_program_s(self):
        epsat = os.path.join(ROOT, "epsat")
        examples = os.path.join(ROOT, "examples")
        for words in (["--in-eprime", f"{examples}/talks.eprime"], ["--in-eprime", f"{examples}/rounds.eprime", "--in-param", f"{examples}/rounds.param"],
                      ["--in-eprime", f"{examples}/shifts.eprime", "--in-param", f"{examples}/shifts.param", "--conflicts", "300"],
                      ["--task", "check", "--in-cnf", f"{examples}/pigeons.cnf", "--in-log", f"{examples}/pigeons.cnf"], ["--in-eprime", "missing"], [], ["-h"], ["-"],
                      ["--in-eprime", f"{examples}/talks.eprime", "--help"]):
            plain = self.call(program(), *words)
            self.assertEqual(self.call(epsat, *words), plain)
            explained = self.call(epsat, *words, EPSAT_EXPLAIN="1")
            self.assertEqual(explained[:2], plain[:2])
            self.assertEqual(bool(explained[2]), plain[0] > 1 or "no solution" in plain[1], explained)
        self.assertEqual(self.left(), [])

    def test_the_help_names_each_option(self):
        from command import ALONE, OPTIONS, WITH_VALUE, WITHOUT

        text = read(os.path.join(ROOT, "docs/HELP.txt"))
        for it in (*OPTIONS, *WITH_VALUE, *WITHOUT, *ALONE):
            self.assertIn(f"--{it}", text)

    def test_the_options_are_those_of_the_program(self):
        from command import OPTIONS

        with open(os.path.join(ROOT, "crates/ep_words/src/options.rt"), encoding="utf-8") as it:
            text = it.read()
        listed = text[text.index("const OPTIONS") :].split("[")[2].split("]")[0]
        self.assertEqual(sorted(it.strip().strip('"') for it in listed.split(",") if it.strip()), OPTIONS)

    def test_the_reserved_words_are_those_of_the_program(self):
        from tokens import RESERVED

        with open(os.path.join(ROOT, "crates/ep_base/src/reserved.rt"), encoding="utf-8") as it:
            found = set(re.findall(r'\bb"([A-Za-z\']+)"', it.read()))
        self.assertEqual(found - {"ESSENCE'"}, set(RESERVED))

    def test_the_manual_page_is_read_without_a_warning(self):
        page = subprocess.run([os.path.join(ROOT, "tools/manual"), "1"], stdout=subprocess.PIPE, check=True).stdout.decode()
        for it in (".SH NAME\nepsat \\- ", ".B \\-\\-time\\-limit SECONDS", ".B 124"):
            self.assertIn(it, page)


if __name__ == "__main__":
    unittest.main()
