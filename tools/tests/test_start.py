"""Starting: what builds the program, when, and what is left behind."""
import os, re, shutil, signal, subprocess, unittest

from base import ROOT, Repository, is_alive, read, until, write


class Start(Repository):
    def pids_gone(self):
        for pid in read(f"{self.fake}/pids").split():
            until(f"the end of process {pid}", lambda pid=pid: not is_alive(pid))

    def test_a_first_call_builds_without_proof_and_says_so_once(self):
        status, out, err = self.call(self.epsat, "--in-eprime", "m")
        self.assertEqual((status, out), (0, "unproved --in-eprime m\n"))
        self.assertIn("built without checking the proofs on this machine; `./epsat --prove` checks them, ", err)
        self.assertEqual(self.call(self.epsat, "--in-eprime", "m"), (0, "unproved --in-eprime m\n", ""))
        self.assertEqual(len(self.calls("clang")), 1)
        self.assertEqual(self.left(), [])
        self.pids_gone()

    def test_a_link_to_it_and_another_folder_work(self):
        os.symlink(self.epsat, f"{self.folder}/link")
        self.assertEqual(self.call(f"{self.folder}/link", "a")[:2], (0, "unproved a\n"))
        self.assertEqual(self.call("../epsat", "b", folder=f"{self.top}/docs"), (0, "unproved b\n", ""))
        self.assertEqual(sorted(os.listdir(self.folder)), ["kit", "link", "room", "top"])

    def test_only_what_the_program_stands_on_makes_it_out_of_date(self):
        self.call(self.epsat)
        write(f"{self.top}/crates/apart/src/lib.rt", "changed\n")
        write(f"{self.top}/crates/two/specs/Lib.antt", "changed, which no code is made of\n")
        write(f"{self.top}/crates.txt", "# other words\none:\ntwo: one\napart: one two\nep_cli: two\n")
        write(f"{self.top}/README.md", "changed\n")
        write(f"{self.top}/crates/one/src/lib.rt", "fn one() {}\n")
        self.assertEqual(self.call(self.epsat, "a"), (0, "unproved a\n", ""))
        self.assertEqual(len(self.calls("clang")), 1)
        write(f"{self.top}/crates/one/src/lib.rt", "fn one() { changed }\n")
        self.assertEqual(self.call(self.epsat, "a")[:2], (0, "unproved a\n"))
        self.assertEqual(len(self.calls("clang")), 2)
        write(f"{self.top}/crates/one/src/lib.rt", "fn one() {}\n")
        self.assertEqual(self.call(self.epsat, "a"), (0, "unproved a\n", ""))
        self.assertEqual(len(self.calls("clang")), 2)
        os.remove(f"{self.top}/crates/one/src/lib.rt")
        self.call(self.epsat, "a")
        self.assertEqual(len(self.calls("clang")), 3)

    def test_time_stamps_in_the_future_do_no_harm(self):
        os.utime(f"{self.top}/crates/one/src/lib.rt", (4e9, 4e9))
        self.assertEqual(self.call(self.epsat, "a")[:2], (0, "unproved a\n"))
        self.assertEqual(self.call(self.epsat, "a"), (0, "unproved a\n", ""))
        self.assertEqual(len(self.calls("clang")), 1)

    def test_two_first_calls_build_once(self):
        write(f"{self.fake}/waits", "")
        jobs = [subprocess.Popen([self.epsat, "a"], stdout=subprocess.PIPE, stderr=subprocess.PIPE, env=self.env, text=True) for _ in "12"]
        until("the compiler", lambda: self.calls("clang"))
        said = []
        waits = lambda: [it for it in os.listdir("/proc") if it.isdigit() and it in map(str, (job.pid for job in jobs))]
        until("both", lambda: len(waits()) == 2)
        os.remove(f"{self.fake}/waits")
        for job in jobs:
            out, err = job.communicate(timeout=300)
            said.append(err)
            self.assertEqual((job.returncode, out), (0, "unproved a\n"))
        self.assertEqual(len(self.calls("clang")), 1)

    def test_nothing_is_left_after_ctrl_c_or_term(self):
        for number in (signal.SIGINT, signal.SIGTERM):
            write(f"{self.fake}/waits", "")
            write(f"{self.fake}/calls", "")
            job = self.start(self.epsat, "a")
            until("the compiler", lambda: self.calls("clang"))
            if number == signal.SIGINT:
                os.killpg(job.pid, number)
            else:
                os.kill(job.pid, number)
            self.assertEqual(job.wait(300), 128 + number)
            self.pids_gone()
            self.assertEqual(self.left(), [])
            self.assertEqual(os.listdir(f"{self.top}/tools/out"), ["lock"])
            self.assertEqual(self.put(), "")
        os.remove(f"{self.fake}/waits")
        self.assertEqual(self.call(self.epsat, "a")[:2], (0, "unproved a\n"))

    def test_without_a_toolchain_one_line_says_what_to_do(self):
        os.remove(f"{self.fake}/bin/rt")
        tools = f"{self.folder}/bin"
        os.mkdir(tools)
        for it in ("bash", "python3", "readlink", "find", "env", "git"):
            if shutil.which(it):
                os.symlink(shutil.which(it), f"{tools}/{it}")
        status, out, err = self.call(self.epsat, "a", PATH=tools)
        self.assertEqual((status, out), (127, ""))
        self.assertEqual(err.count("\n"), 1, err)
        self.assertIn("no command `rt`", err)
        self.assertIn("release", err)

    def test_what_cannot_start_has_a_status_that_no_answer_has(self):
        tools = f"{self.folder}/bin"
        os.mkdir(tools)
        for it in ("bash", "readlink", "find", "env"):
            os.symlink(shutil.which(it), f"{tools}/{it}")
        self.assertEqual(self.call(self.epsat, "a", PATH=tools), (127, "", "epsat: python3 isn't here, and the program isn't built without it\n"))
        self.call(self.epsat, "a")
        self.assertEqual(self.call(self.epsat, "a", PATH=tools), (0, "unproved a\n", ""))
        for own in ("--show=json", "--stats", "--lint", "--data=a", "--time-limit=3"):
            self.assertEqual(self.call(self.epsat, own, PATH=tools), (127, "", f"epsat: {own.partition('=')[0]} needs python3, which isn't here\n"))
        # A program that the system doesn't start.
        bad = self.file("bad", "\x7fELF no program", True)
        for more in ([], ["--stats"]):
            status, out, err = self.call(self.epsat, "a", *more, EPSAT_BUILT=bad)
            self.assertEqual((status, out), (127, ""))
            self.assertIn("Exec format error" if more else "cannot execute", err)
            self.assertNotIn("Traceback", err)
        shutil.rmtree(f"{self.top}/tools/out")
        self.file("top/tools/out", "in the way")
        status, out, err = self.call(self.epsat, "a")
        self.assertEqual((status, out, err.count("\n")), (127, "", 1), err)

    def test_sources_that_are_refused_are_told(self):
        write(f"{self.fake}/refuses", "")
        status, out, err = self.call(self.epsat, "a")
        self.assertEqual((status, out), (127, ""))
        self.assertIn("error: the sources are bad", err)
        self.assertEqual(self.left(), [])

    def test_sources_that_change_while_it_is_built_are_told(self):
        write(f"{self.fake}/waits", "")
        job = self.start(self.epsat, "a")
        until("the compiler", lambda: self.calls("clang"))
        write(f"{self.top}/crates/one/src/lib.rt", "fn one() { changed }\n")
        os.remove(f"{self.fake}/waits")
        self.assertEqual(job.wait(300), 127)
        self.assertIn("the sources changed while the program was built", self.said())
        self.assertEqual((self.put(), self.left(), os.listdir(f"{self.top}/tools/out")), ("", [], ["lock"]))

    def test_what_measures_clauses_is_built_once_and_again_where_its_sources_change(self):
        build = f"{self.top}/tools/build"
        self.assertIn("crates.txt has no line for ep_base", self.call(build, "--measures")[2])
        for it in re.search('MEASURED_BY = "([^"]+)"', read(build))[1].split():
            write(f"{self.top}/crates/{it}/src/lib.rt", f"fn {it}() {{}}\n")
            write(f"{self.top}/crates.txt", read(f"{self.top}/crates.txt") + f"{it}:\n")
        self.assertEqual(self.call(build, "--find-measures"), (1, "", ""))
        status, path, err = self.call(build, "--measures")
        self.assertEqual((status, self.left()), (0, []))
        self.assertIn("built now, once", err)
        self.assertEqual(self.calls("try")[0].split(" ")[0].split("/")[-3:], ["top", "crates", "epsat_measures"])
        self.assertEqual(self.call(build, "--measures"), (0, path, ""))
        self.assertEqual(self.call(build, "--find-measures"), (0, path, ""))
        write(f"{self.top}/tools/parts/measures.rattle", "another")
        self.assertEqual(self.call(build, "--find-measures"), (1, "", ""))

    def test_prove_proves_each_crate_below_before_those_above(self):
        status, out, err = self.call(self.epsat, "--prove")
        self.assertEqual((status, out), (0, ""))
        self.assertEqual([os.path.basename(it.split(" ")[0]) for it in self.calls("lib")], ["one", "two"])
        for it in ("proving 3 crates", "1 of 3 crates proved (one)", "2 of 3 crates proved (two)"):
            self.assertIn(it, err)
        self.assertIn("proved on this machine", self.call(self.epsat, "--version")[1])
        self.assertEqual(self.call(self.epsat, "a"), (0, "proved a\n", ""))
        write(f"{self.top}/crates/two/specs/Lib.antt", "another definition\n")
        self.assertEqual(self.call(self.epsat, "a")[:2], (0, "unproved a\n"))
        self.assertIn("built without checking", self.call(self.epsat, "--version")[1])
        self.assertEqual(self.left(), [])

    def test_prove_shows_what_is_refused(self):
        write(f"{self.fake}/refuses", "")
        status, out, err = self.call(self.epsat, "--prove")
        self.assertEqual((status, out), (1, ""))
        self.assertIn("fn f: not proved", err)
        self.assertIn("one isn't proved", err)
        self.assertEqual(self.left(), [])

    def test_a_program_that_rt_left_is_taken_while_nothing_is_newer(self):
        self.call(self.epsat, "a")
        left = write(f"{self.top}/crates/ep_cli/out/ep_cli", '#!/bin/sh\necho gate "$@"\n', True)
        self.assertEqual(self.call(self.epsat, "a"), (0, "gate a\n", ""))
        shutil.rmtree(os.path.dirname(left))
        self.assertEqual(self.call(self.epsat, "a"), (0, "gate a\n", ""))

    def test_version_and_help_stand_alone_and_build_nothing(self):
        status, out, err = self.call(self.epsat, "--version")
        self.assertEqual((status, err), (0, ""))
        self.assertIn("not built", out)
        status, out, err = self.call(self.epsat, "--help")
        self.assertEqual((status, out, err), (0, read(f"{ROOT}/docs/HELP.txt"), ""))
        self.assertEqual(read(f"{self.fake}/calls"), "")
        self.call(self.epsat)
        self.assertEqual(self.call(self.epsat, "--version")[1].split("\n")[1:3], ["toolchain a kit for tests", "built without checking the proofs on this machine"])


class Release(Repository):
    def git(self, *words):
        subprocess.run(["git", "-c", "user.name=t", "-c", "user.email=t@t", *words], cwd=self.top, stdout=subprocess.DEVNULL, env=self.env, check=True)

    @unittest.skipUnless(shutil.which("git"), "there is no git here")
    def test_a_release_starts_where_there_is_no_toolchain(self):
        release = f"{self.top}/tools/release"
        self.assertIn("LICENSE", self.call(release)[2])
        for it in re.search('MEASURED_BY = "([^"]+)"', read(f"{self.top}/tools/build"))[1].split():
            write(f"{self.top}/crates/{it}/src/lib.rt", f"fn {it}() {{}}\n")
            write(f"{self.top}/crates.txt", read(f"{self.top}/crates.txt") + f"{it}:\n")
        write(f"{self.fake}/toolchain/bin/clang", '#!/bin/sh\nfor it; do last="$it"; done\ncp /bin/true "$last"\n', True)
        self.assertIn("/measures-", self.call(f"{self.top}/tools/build", "--measures")[1])
        write(f"{self.top}/LICENSE", "do what you like\n")
        write(f"{self.top}/README.md", "read\n")
        write(f"{self.top}/examples/a.eprime", "a model\n")
        write(f"{self.top}/.gitignore", "out/\n")
        self.git("init", "-q")
        self.assertIn("aren't committed", self.call(release)[2])
        self.git("add", ".")
        self.git("commit", "-q", "-m", "all")
        self.assertIn("no proved program", self.call(release)[2])
        write(f"{self.top}/crates/ep_cli/out/ep_cli", "x", True)
        shutil.copy("/bin/true", f"{self.top}/crates/ep_cli/out/ep_cli")
        os.utime(f"{self.top}/crates/ep_cli/out/ep_cli")
        status, out, err = self.call(release, "a/new/folder")
        self.assertEqual((status, err), (0, ""))
        self.assertTrue(os.path.isfile(os.path.join(self.folder, out.strip())))
        status, out, err = self.call(release)
        self.assertEqual((status, err), (0, ""))
        made = os.path.join(self.folder, out.strip())
        with open(made, "rb") as it:
            first = it.read()
        self.call(release)
        with open(made, "rb") as it:
            self.assertEqual(it.read(), first)
        subprocess.run(["tar", "xzf", made], cwd=self.folder, check=True)
        top = made[: -len(".tar.gz")]
        os.remove(f"{self.fake}/bin/rt")
        self.assertEqual(self.call(f"{top}/epsat", "--version")[1].split("\n")[2], "proved where this release was made")
        self.assertEqual(self.call(f"{top}/epsat", "--in-eprime", "m"), (0, "", ""))
        self.assertEqual(self.call(f"{top}/epsat", "--help")[0], 0)
        self.assertIn("proved where it was made", self.call(f"{top}/epsat", "--prove")[2])
        for it in ("LICENSE", "epsat.1", "examples/a.eprime", "docs/HELP.txt", "tools/watch", "tools/heaviest", "program/measures"):
            self.assertTrue(os.path.isfile(f"{top}/{it}"), it)


if __name__ == "__main__":
    unittest.main()
