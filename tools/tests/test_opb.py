"""tools/opb: pseudo-Boolean problems with the statuses and `o` lines of their competitions."""
import os

from base import ROOT, Case

OPB = os.path.join(ROOT, "tools/opb")
# A problem whose cheapest solution has x1 alone.
CHEAP = "* #variable= 2 #constraint= 1\nmin: +1 x1 +2 x2 ;\n+1 x1 +1 x2 >= 1 ;\n"
# Four pigeons in three holes.
PIGEONS = "".join(f"+1 x{3 * p + 1} +1 x{3 * p + 2} +1 x{3 * p + 3} >= 1 ;\n" for p in range(4)) + "".join(
    " ".join(f"-1 x{3 * p + h}" for p in range(4)) + " >= -1 ;\n" for h in (1, 2, 3)
)


class Opb(Case):
    def told(self, text, *words):
        return self.call(OPB, self.file("p.opb", text), *words)

    def test_each_status(self):
        for text, status, out, err in (
            (CHEAP, 30, "s OPTIMUM FOUND\nv x1 -x2\n", "o 1\n"),
            ("+2 ~x7 >= 2;", 10, "s SATISFIABLE\nv -x7\n", ""),
            (PIGEONS, 20, "s UNSATISFIABLE\n", ""),
            ("+1 x1 > 1 ;\n", 3, "fault F14 1\n", ""),
            ("+10000000 x1 +10000000 x2 >= 1 ;\n", 4, "limit L6\n", ""),
        ):
            self.assertEqual(self.told(text), (status, out, err), text)

    def test_a_budget(self):
        self.assertEqual(self.told(PIGEONS, "--conflicts", "1"), (0, "s UNKNOWN\n", ""))

    def test_words(self):
        for words in ([], ["a", "b"], ["a", "--conflicts", "0"], ["--help"]):
            status, out, err = self.call(OPB, *words)
            self.assertEqual((status, out), (2, ""))
            self.assertIn("opb FILE", err)
