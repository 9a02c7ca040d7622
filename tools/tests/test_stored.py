"""Files that an earlier version wrote are read by this one as what they were (tools/tests/stored)."""
import json, os, sys, unittest

from base import ROOT, Case, program, read

STORED = f"{ROOT}/tools/tests/stored"
# The answers that are solutions of an example: the model, whether it has parameters, and the judgement.
JUDGED = (("optimum", "shifts", True, "$ solution objective 2"), ("unknown", "shifts", True, "$ solution objective 3"), ("solution", "talks", False, "$ solution"))


class Stored(Case):
    def test_answers_are_judged_as_they_were(self):
        for name, model, has_params, want in JUDGED:
            words = ["--in-eprime", f"{ROOT}/examples/{model}.eprime", "--in-solution", f"{STORED}/{name}.solution"]
            words += ["--in-param", f"{ROOT}/examples/{model}.param"] if has_params else []
            self.assertEqual(self.call(program(), "--task", "verify", *words)[:2], (0, f"{want}\n"), name)

    def test_answers_are_shown_as_they_were(self):
        for name in os.listdir(STORED):
            if name.endswith(".solution"):
                shown = self.call(f"{ROOT}/tools/show", "json", given=read(f"{STORED}/{name}").encode())
                want = json.loads(read(f"{STORED}/{name[:-9]}.json"))
                self.assertEqual(want, {it: json.loads(shown[1])[it] for it in want}, name)

    def test_the_tools_for_checkers(self):
        """examples/certificates tests itself; its tools take the stored files."""
        folder = f"{ROOT}/examples/certificates"
        status, out, err = self.call(sys.executable, "-B", f"{folder}/test_certificates.py")
        self.assertEqual((status, err), (0, ""), out)
        for name in ("list", "none", "optimum"):
            words = [f"{STORED}/{name}.cnf", f"{STORED}/{name}.lrat"]
            self.assertEqual(self.call(sys.executable, "-B", f"{folder}/check_lrat.py", *words)[:2], (0, "verified\n"))
        self.assertEqual(self.call(sys.executable, "-B", f"{folder}/check_list.py", f"{STORED}/list.cnf", f"{STORED}/list.solution")[0], 0)

    def test_proofs_are_checked_as_they_were(self):
        for name in os.listdir(STORED):
            if name.endswith(".cnf"):
                words = ["--in-cnf", f"{STORED}/{name}", "--in-log", f"{STORED}/{name[:-4]}.lrat"]
                self.assertEqual(self.call(program(), "--task", "check", *words)[:2], (0, "$ verified\n"), name)


if __name__ == "__main__":
    unittest.main()
