"""The answers of examples/README.md, and those that pages show: `$ ` lines as they stand, and each solution that the program finds is judged by --task verify."""
import re, unittest

from base import ROOT, Case, program, read
from explanations import judge, judge_clauses

PAGES = ("README.md", "docs/TUTORIAL.md", "docs/INFEASIBLE.md", "docs/RECIPES.md", "examples/README.md")


def blocks(page):
    return re.findall(r"(?ms)^```\n(.*?)^```", read(f"{ROOT}/{page}"))


class Examples(Case):
    def test_the_gallery(self):
        status, out, err = self.call(f"{ROOT}/tools/examples", EPSAT_TESTED=program())
        self.assertEqual(status, 0, out + err)

    def judged(self, words, want, page):
        """Runs a model, holds its line against the one that a page shows, and judges what was found."""
        answer = f"{self.folder}/found.solution"
        status, out, _ = self.call(program(), *words, "--out-solution", answer)
        self.assertEqual((status, out.split("\n")[1]), (1 if want.startswith("$ unknown") else 0, want), page)
        found = re.search(r"(?m)^\$ (solution|optimum|incumbent)(?: (-?\d+))?$", out)
        if found:
            said = f"$ solution objective {found[2]}\n" if found[2] else "$ solution\n"
            self.assertEqual(self.call(program(), "--task", "verify", *words, "--in-solution", answer)[:2], (0, said))

    def test_what_pages_show(self):
        """A text with `find` is a model, one with lettings alone parameters, and one with a line `$ ..` behind the first the answer to the last of both."""
        shown = 0
        for page in ("docs/TUTORIAL.md", "docs/INFEASIBLE.md"):
            model = params = ""
            for text, added in re.findall(r"(?ms)^```\n(.*?)^```|^With `(letting [^`]+)` added", read(f"{ROOT}/{page}")):
                lines = text.split("\n")
                if added:
                    params += f"{added}\n"
                elif lines[0] != "language ESSENCE' 1.0":
                    continue
                elif lines[1].startswith("$ explanation "):
                    continue
                elif lines[1].startswith("$ "):
                    words = ["--in-eprime", self.file("m.eprime", model)]
                    if re.search(r"(?m)^given", model):
                        words += ["--in-param", self.file("m.param", params)]
                    self.judged(words, lines[1], page)
                    shown += 1
                elif re.search(r"(?m)^find", text):
                    model = text
                else:
                    params = text
        self.assertEqual(shown, 9)

    def test_commands_that_pages_show(self):
        """Each command of a block runs in a copy of nothing but the folder of the repository, and ends as a command that answers."""
        count = 0
        for page in PAGES:
            for text in blocks(page):
                for line in text.split("\n"):
                    if line.startswith("./epsat --") and "MODEL" not in line and not line.startswith("./epsat --prove"):
                        words = [f"{ROOT}/{it}" if it.startswith("examples/") else it for it in line.split()[1:] if not it.startswith("--show")]
                        words = [it for it in words if it not in ("grid",)]
                        if any(it.startswith(("roster.", "all.", "next.", "single.", "plan.")) for it in words):
                            continue
                        status, out, _ = self.call(f"{ROOT}/epsat" if "--data" in words else program(), *words)
                        self.assertEqual(status, 0, f"{page}: {line}: {out[:200]}")
                        count += 1
        self.assertGreaterEqual(count, 9)

    def test_what_the_page_gives_up(self):
        texts = re.findall(r"(?ms)^```\n(.*?)^```", read(f"{ROOT}/docs/INFEASIBLE.md"))
        self.file("plan.eprime", texts[0].replace("forAll d : Day . shift[n, d] = 2", "forAll d : int(1..days - 1) . shift[n, d] = 2"))
        self.file("week.param", texts[1])
        at = next(at for at, it in enumerate(texts) if "--switches" in it)
        making, asking = (it.replace("./epsat", program()).replace("tools/singles", f"{ROOT}/tools/singles") for it in texts[at].splitlines())
        self.assertEqual(self.call("sh", "-c", f"{making}; {asking}")[:2], (0, texts[at + 1]))
        with open(f"{self.folder}/single.eprime", "a", encoding="utf-8") as it:
            it.write(texts[at + 2])
        # One clause of the second kind has to go then; which one is the program's choice.
        status, out, _ = self.call("sh", "-c", asking)
        self.assertEqual(status, 0)
        self.assertRegex(out, r"^16:3: n = \d, d = \d\n$")

    def test_what_the_page_explains(self):
        """What the page shows, and what is said now, are judged: which clauses are named is the program's choice."""
        texts = re.findall(r"(?ms)^```\n(.*?)^```", read(f"{ROOT}/docs/INFEASIBLE.md"))
        plan = texts[0].replace("forAll d : Day . shift[n, d] = 2", "forAll d : int(1..days - 1) . shift[n, d] = 2")
        self.file("plan.eprime", plan)
        params = self.file("week.param", texts[1])
        at = next(at for at, it in enumerate(texts) if it.startswith("./epsat --task explain"))
        for answer in (self.call(program(), *texts[at].split()[1:])[1], texts[at + 1]):
            judge(self, plan, params, answer)
        at = next(at for at, it in enumerate(texts) if it.startswith("tools/singles") and "--switches" not in it)
        making, asking = (it.replace("./epsat", program()).replace("tools/singles", f"{ROOT}/tools/singles") for it in texts[at].splitlines())
        status, out, _ = self.call("sh", "-c", f"{making}; {asking}")
        self.assertEqual(status, 0)
        rows = [it.split("\t") for it in read(f"{self.folder}/table").splitlines()]
        told = [f"{row[2]}: {row[3]}" for row in rows]
        for lines in (out, texts[at + 1]):
            judge_clauses(self, read(f"{self.folder}/single.eprime"), params, [told.index(it) + 1 for it in lines.splitlines()])


if __name__ == "__main__":
    unittest.main()
