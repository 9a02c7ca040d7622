"""docs/MIGRATING.md: what it says is accepted is, and what it says is refused is refused with that fault."""
import re, unittest

from base import ROOT, Case, program, read

STATEMENT = re.compile(r"(given|find|letting|where|minimising|maximising|branching)\b")
CODE = re.compile(r"`((?:[^`\\]|\\.)+)`")


def rows(text, head):
    """The rows of the table below a heading of columns, as cells."""
    at = text.index(head)
    for line in text[at:].split("\n")[2:]:
        if not line.startswith("|"):
            return
        yield [it.strip() for it in re.split(r"(?<!\\)\|", line)[1:-1]]


class Migrating(Case):
    def setUp(self):
        super().setUp()
        self.page = read(f"{ROOT}/docs/MIGRATING.md")
        self.prelude = re.search(r"```\n(language.*?)```", self.page, re.S)[1]

    def said_of(self, form):
        form = form.replace("\\|", "|")
        text = form if STATEMENT.match(form) else f"such that {form}"
        model = self.file("m.eprime", f"{self.prelude}{text}\n")
        return self.call(program(), "--in-eprime", model, "--conflicts", "1000")[1].split("\n")[0]

    def test_the_whole_model_has_its_optimum(self):
        whole = self.page[self.page.index("## A whole model") :]
        texts = re.findall(r"```\n(language.*?)```", whole, re.S)
        model, params = self.file("w.eprime", texts[0]), self.file("w.param", texts[1])
        said = self.call(program(), "--in-eprime", model, "--in-param", params)
        self.assertEqual((said[0], said[1].split("\n")[1]), (0, "$ optimum 13"))

    def test_what_is_said_to_be_accepted(self):
        forms = [it for cells in rows(self.page, "| MiniZinc | Here |") for it in CODE.findall(cells[1])]
        forms += [it for cells in rows(self.page, "| A model says |") for it in CODE.findall(cells[2]) if re.search(r"\W", it)]
        forms += [it for cells in rows(self.page, "| You write | It means |") for it in CODE.findall(cells[0]) if it != "int(5..1)"]
        self.assertGreater(len(forms), 90)
        for form in forms:
            if form.startswith(("--", "$")) or form in ("find", "letting", "grid", "csv", "json", "html"):
                continue
            said = self.said_of(form)
            self.assertTrue(said.startswith("language") or said.startswith("fault F8 "), f"{form}: {said}")

    def test_what_is_said_to_be_refused(self):
        for cells in rows(self.page, "| A model says |"):
            said = self.said_of(CODE.search(cells[0])[1])
            self.assertTrue(said.startswith(f"fault {cells[1]} "), f"{cells[0]}: {said}")


if __name__ == "__main__":
    unittest.main()
