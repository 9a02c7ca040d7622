"""Files that are made of others, or that say again what others say: editors' words, completion, the manual page."""
import json, os, re, subprocess, unittest

from base import ROOT, Case, read
from command import ALONE, OPTIONS, WITH_VALUE, WITHOUT
import showing
from tokens import RESERVED


class Pages(Case):
    def test_editors_know_the_words_of_the_language(self):
        text = read(f"{ROOT}/docs/LANGUAGE.md")
        said = " ".join(text[text.index("These words are reserved") :].split("`")[1].split())
        self.assertEqual(set(said.split()), RESERVED)
        grammar = json.loads(read(f"{ROOT}/editors/eprime.tmLanguage.json"))
        found = [re.fullmatch(r"\\b\(([\w|]+)\)\\b", it.get("match", "")) for it in grammar["repository"].values()]
        self.assertEqual(sorted(word for it in found if it for word in it[1].split("|")), sorted(RESERVED))
        self.assertEqual([it["include"][1:] for it in grammar["patterns"]], list(grammar["repository"]))
        vim = re.findall(r"(?m)^syntax keyword \w+ (.+)$", read(f"{ROOT}/editors/vim/syntax/eprime.vim"))
        self.assertEqual(sorted(word for it in vim for word in it.split()), sorted(RESERVED))

    def test_completion_has_each_word(self):
        for shell in ("bash", "zsh"):
            status, out, _ = self.call(f"{ROOT}/tools/completion", shell)
            self.assertEqual(status, 0)
            for word in (*OPTIONS, *WITH_VALUE, *WITHOUT, *ALONE):
                self.assertIn(f"--{word}", out)
        self.assertNotEqual(self.call(f"{ROOT}/tools/completion", "fish")[0], 0)

    def test_bash_completes(self):
        source = f"source <({ROOT}/tools/completion bash); "
        for words, want in ((["--show", ""], "grid csv json html"), (["--task", "ver"], "verify"), (["--in-e"], "--in-eprime"), (["--conflicts", ""], "")):
            call = f"{source}COMP_WORDS=(./epsat {' '.join(repr(it) for it in words)}); COMP_CWORD={len(words)}; _epsat; echo \"${{COMPREPLY[*]}}\""
            self.assertEqual(self.call("bash", "-c", call)[1], f"{want}\n")

    def test_the_manual_page_is_that_of_the_help(self):
        made = subprocess.run([f"{ROOT}/tools/manual"], stdout=subprocess.PIPE, check=True).stdout.decode()
        self.assertEqual(made, read(f"{ROOT}/docs/epsat.1"), "tools/manual >docs/epsat.1 makes it anew")

    def test_pages_name_files_that_are_there(self):
        for page in ["README.md", "CONTRIBUTING.md", "CHANGELOG.md", *(f"docs/{it}" for it in os.listdir(f"{ROOT}/docs") if it.endswith(".md")), "examples/README.md", "editors/README.md"]:
            for name in re.findall(r"`((?:docs|examples|tools|editors|crates|\.ci)/[\w./-]*[\w])`", read(f"{ROOT}/{page}")):
                self.assertTrue(os.path.exists(f"{ROOT}/{name}") or name.startswith("tools/out"), f"{page} names {name}")

    def test_what_is_said_to_stay_is_what_there_is(self):
        stays = read(f"{ROOT}/docs/FORMATS.md").partition("## What stays\n")[2].partition("\n## ")[0]
        said = next(it for it in stays.split("\n") if it.startswith("- **JSON**"))
        made = {}
        for text in ("$ optimum 1\nletting x be [1; int(1..1)]", "$ unknown 3 conflicts\n$ incumbent 1\nletting x be 1", "$ solution 1\nletting x be 1\n$ complete", "$ explanation 1\n$ without 1\nletting x be 1"):
            made.update(json.loads(showing.shown(f"language ESSENCE' 1.0\n{text}\n".encode(), "json")))
        self.assertEqual(set(re.findall("`([a-z]+)`", said)), set(made))

    def test_pages_have_the_same_statuses(self):
        table = read(f"{ROOT}/README.md").partition("| Status | What was put out |")[2].partition("\n\n")[0]
        statuses = {int(it) for row in re.findall(r"(?m)^\| ([0-9, ]+) \|", table) for it in row.split(", ")}
        self.assertEqual(statuses, {*range(8), 124, 127, 129, 130, 143})
        help_of = read(f"{ROOT}/docs/HELP.txt").partition("WHAT ENDS IT")[2]
        self.assertEqual({int(it) for it in re.findall(r"(?:^|  )([0-9]+)  [a-z]", help_of, re.M)}, statuses - {129, 130, 143})

    def test_the_readme_is_short(self):
        self.assertLessEqual(read(f"{ROOT}/README.md").count("\n"), 160)


if __name__ == "__main__":
    unittest.main()
