"""Limits of the system: what the launcher does about stack and sizes of files."""
import os, resource, unittest

from base import ROOT, Case

EPSAT = os.path.join(ROOT, "epsat")
# How many bytes of stack the system allows.
MOST = resource.getrlimit(resource.RLIMIT_STACK)[1]
# A model that takes more than a megabyte of stack.
NAMES = "language ESSENCE' 1.0\nfind x : int(1..2)\nsuch that (forAll {} : int(1..1) . x = 2)\n".format(",".join(["a"] * 2000))


class Limits(Case):
    def limited(self, limit, *words, **env):
        """Runs the launcher under a limit that the shell sets."""
        return self.call("bash", "-c", f'ulimit {limit}; exec "$0" "$@"', EPSAT, *words, **env)

    def test_a_file_that_may_not_grow_is_a_device_that_fails(self):
        self.file("m", "language ESSENCE' 1.0\nfind x : int(1..200)\n")
        for more in ({}, {"EPSAT_EXPLAIN": "1"}):
            status, out, _ = self.limited("-f 1", "--in-eprime", "m", "--out-cnf", "c", **more)
            self.assertEqual((status, out), (5, "device write c\n"))

    def test_what_memory_does_not_hold_is_told(self):
        # Each of the ten million numbers has a line of its own in a formula.
        self.file("m", "language ESSENCE' 1.0\nfind m : matrix indexed by [int(1..10000)] of int(1..1000)\n")
        status, out, _ = self.limited("-v 100000", "--in-eprime", "m")
        self.assertEqual((status, out), (6, "memory\n"))

    @unittest.skipUnless(MOST == resource.RLIM_INFINITY or MOST >= 1 << 28, "the system gives no more stack")
    def test_a_small_stack_is_made_larger(self):
        self.file("m", NAMES)
        for more in ({}, {"EPSAT_EXPLAIN": "1"}):
            status, out, _ = self.limited("-S -s 512", "--in-eprime", "m", **more)
            self.assertEqual((status, out), (0, "language ESSENCE' 1.0\n$ solution\nletting x be 2\n"))
