"""Refused memory: each request of a run is refused once, and what ends otherwise than it may is told."""
import os, unittest

from base import ROOT, Case, program

REFUSE = os.path.join(ROOT, "tools/refuse_memory")


class Refuse(Case):
    def refuse(self, *words, **env):
        status, out, err = self.call(REFUSE, *words, **env)
        self.assertEqual((self.left(), err), ([], ""))
        return status, out

    def test_each_request_of_a_check(self):
        status, out = self.refuse("check", EPSAT_TESTED=program())
        told, last = out.splitlines()
        self.assertEqual(status, 0, out)
        self.assertRegex(told, r"^check: [1-9]\d* requests: 0 answered, [1-9]\d* said `memory`, \d+ said nothing, 0 said a part$")
        self.assertRegex(last, r"^[1-9]\d* requests refused in turn, 0 wrong$")

    def test_a_check_by_two_goes_on_where_no_thread_can_be_started(self):
        status, out = self.refuse("check_by_two", EPSAT_TESTED=program())
        self.assertEqual(status, 0, out)
        self.assertRegex(out.splitlines()[0], r"^check_by_two: [1-9]\d* requests: [1-9]\d* answered, [1-9]\d* said `memory`, \d+ said nothing, 0 said a part$")

    def test_another_answer(self):
        other = self.file("other", "#!/bin/sh\necho '$ no solution'\n", True)
        self.assertEqual(self.refuse("verify", EPSAT_TESTED=other)[0], 1)

    def test_another_end(self):
        other = self.file("other", '#!/bin/sh\n"$REAL" "$@" || echo more\n', True)
        status, out = self.refuse("check", EPSAT_TESTED=other, REAL=program())
        self.assertEqual(status, 1)
        self.assertRegex(out, r"check: WRONG at request [1-9]\d*: status 0, b'memory\\nmore\\n'\n")

    def test_no_such_run(self):
        status, _, err = self.call(REFUSE, "none")
        self.assertEqual(status, 2)
        self.assertIn("there is no run none", err)
