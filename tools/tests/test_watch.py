"""Watching: what ends a run, which answer is put out then, and what becomes of the files for output. The program is one that does what it is told."""
import errno, importlib.machinery, importlib.util, os, pty, resource, shutil, signal, subprocess, sys, unittest, unittest.mock

from base import HANGS, ROOT, Case, is_alive, program, read, until

WATCH = os.path.join(ROOT, "tools/watch")
# Finds 9 within 500 conflicts, 7 within more, and ends with the optimum 7 from as many as ENDS on; without ENDS it then goes on for ever.
STUB = """#!/bin/sh
n=1000000
for word; do
    case "$before" in --conflicts) n="$word" ;; --out-cnf) cnf="$word" ;; --out-solution) solution="$word" ;; --in-eprime) model="$word" ;; esac
    case "$word" in --conflicts=*) n="${word#*=}" ;; --out-cnf=*) cnf="${word#*=}" ;; --out-solution=*) solution="${word#*=}" ;; --in-eprime=*) model="${word#*=}" ;; esac
    before="$word"
done
echo "$n" >>"$SEEN"
[ -n "$READS" ] && cat "$model" >>"$SEEN"
note="\\$ unknown $n conflicts"
best=7
status=1
if [ "$n" -ge "${ENDS:-$n}" ] && [ -n "$ENDS" ]; then
    note="\\$ optimum 7" status=0
elif [ "$n" -gt "${GOES:-2000}" ]; then
    exec sleep 1000
elif [ "$n" -le 500 ]; then
    best=9
fi
text="language ESSENCE' 1.0
$note
$([ "$status" -eq 1 ] && echo "\\$ incumbent $best")
letting x be $best"
[ -n "$cnf" ] && echo "c within $n" >"$cnf"
[ -n "$solution" ] && printf '%s\\n' "$text" >"$solution"
printf '%s\\n' "$text"
exit "$status"
"""
UNKNOWN = "language ESSENCE' 1.0\n$ unknown {} conflicts\n$ incumbent {}\nletting x be {}\n"
OPTIMUM = "language ESSENCE' 1.0\n$ optimum 7\n\nletting x be 7\n"


def loaded():
    """The script as a module."""
    spec = importlib.util.spec_from_loader("watch", importlib.machinery.SourceFileLoader("watch", WATCH))
    watch, before = importlib.util.module_from_spec(spec), sys.excepthook
    spec.loader.exec_module(watch)
    sys.excepthook = before
    return watch


class Watch(Case):
    def setUp(self):
        super().setUp()
        self.stub = self.file("stub", STUB, True)
        self.env["SEEN"] = os.path.join(self.folder, "seen")
        self.file("m", "a model\n")

    def seen(self):
        return read(self.env["SEEN"]).split() if os.path.exists(self.env["SEEN"]) else []

    def watch(self, *words, **how):
        return self.call(WATCH, self.stub, "--in-eprime", "m", *words, **how)

    def clean(self):
        self.assertEqual(self.left(), [])
        self.assertEqual([it for it in os.listdir(self.folder) if it.startswith(".")], [])

    def test_ctrl_c_and_term_put_out_the_last_finished_answer(self):
        for number in (signal.SIGINT, signal.SIGTERM):
            job = self.start(WATCH, self.stub, "--in-eprime", "m", "--time-limit", "100000", "--out-solution", "s", "--out-cnf=c")
            until("the second answer", lambda: "objective 7" in self.said())
            # Budgets grow by four where a run was short: the last that ends is 2,000, or 1,000 where the second was slow.
            (os.killpg if number == signal.SIGINT else os.kill)(job.pid, number)
            self.assertEqual(job.wait(HANGS), 1)
            spent = self.put().split()[5]
            self.assertIn(spent, ("1000", "2000"))
            self.assertEqual(self.put(), UNKNOWN.format(spent, 7, 7))
            self.assertEqual(read(f"{self.folder}/s"), self.put())
            self.assertEqual(read(f"{self.folder}/c"), f"c within {spent}\n")
            self.assertIn("objective 9, within 500 conflicts", self.said())
            self.assertIn("stopped after", self.said())
            self.clean()

    def test_without_a_finished_answer_nothing_is_put_out(self):
        for number in (signal.SIGINT, signal.SIGTERM):
            job = self.start(WATCH, self.stub, "--in-eprime", "m", "--time-limit", "100000", "--out-solution", "s", GOES="1")
            until("a run", self.seen)
            (os.killpg if number == signal.SIGINT else os.kill)(job.pid, number)
            self.assertEqual(job.wait(HANGS), 128 + number)
            self.assertEqual(self.put(), "")
            self.assertFalse(os.path.exists(f"{self.folder}/s"))
            self.clean()
            os.remove(self.env["SEEN"])
        status, out, err = self.watch("--time-limit", "0.01", GOES="1")
        self.assertEqual((status, out), (124, ""))
        self.assertIn("no answer was finished", err)
        self.clean()

    def test_a_signal_ends_what_waits_for_its_input_or_its_reader(self):
        for number in (signal.SIGINT, signal.SIGTERM):
            os.mkfifo(f"{self.folder}/pipe")
            job = self.start(WATCH, self.stub, "--in-eprime", "pipe", "--time-limit", "100000")
            with open(f"{self.folder}/pipe", "wb"):
                (os.killpg if number == signal.SIGINT else os.kill)(job.pid, number)
                self.assertEqual(job.wait(HANGS), 128 + number)
            os.remove(f"{self.folder}/pipe")
            self.clean()

    def test_at_the_time_limit_the_last_finished_answer_is_put_out(self):
        # How far it comes by then isn't said: where not even the first budget is finished, nothing is put out.
        status, out, err = self.watch("--time-limit", "2")
        self.assertEqual((status, out == ""), (1, False) if out else (124, True))
        self.assertIn("the time is over after", err)
        self.clean()

    def test_what_the_program_ends_with_in_time_is_put_out(self):
        self.assertEqual(self.watch("--time-limit", "100000", "--out-solution", "s", ENDS="2000")[:2], (0, OPTIMUM))
        self.assertEqual(read(f"{self.folder}/s"), OPTIMUM)
        self.clean()

    def test_no_budget_is_greater_than_the_user_s(self):
        status, out, _ = self.watch("--time-limit", "100000", "--conflicts", "1700")
        self.assertEqual((status, out), (1, UNKNOWN.format(1700, 7, 7)))
        self.assertLessEqual(max(map(int, self.seen())), 1700)
        os.remove(self.env["SEEN"])
        status, out, _ = self.watch("--time-limit", "100000", "--conflicts", "300")
        self.assertEqual((status, out), (1, UNKNOWN.format(300, 9, 9)))
        self.assertEqual(self.seen(), ["300"])

    def test_on_one_processor_one_run_goes_at_a_time(self):
        words = [WATCH, self.stub, "--in-eprime", "m", "--time-limit", "100000"]
        one = lambda: os.sched_setaffinity(0, [min(os.sched_getaffinity(0))])
        for more, status, ends in ((["--conflicts", "1700"], 1, ""), ([], 0, "3000")):
            ran = subprocess.run([*words, *more], stdout=subprocess.PIPE, stderr=subprocess.PIPE, cwd=self.folder, env={**self.env, "ENDS": ends}, preexec_fn=one, check=False)
            self.assertEqual(ran.returncode, status)
            self.assertEqual(self.seen()[0], "500")
            self.assertEqual(ran.stdout.decode(), OPTIMUM if ends else UNKNOWN.format(1700, 7, 7))
            os.remove(self.env["SEEN"])

    def test_whether_files_can_be_written_is_asked_first(self):
        self.file("taken", "as it was")
        for words, part in ((["--out-solution", "nowhere/s"], "no folder nowhere"), (["--out-cnf", "."], "it is a folder"), (["--out-log=m"], "the file of --in-eprime")):
            status, out, err = self.watch("--stats", "--out-solution" if "--out-solution" not in words else "--out-cnf", "taken", *words)
            self.assertEqual((status, out), (5, ""))
            self.assertIn(part, err)
            self.assertEqual(self.seen(), [])
        self.assertEqual((read(f"{self.folder}/taken"), read(f"{self.folder}/m")), ("as it was", "a model\n"))
        self.clean()

    def test_files_keep_their_rights_and_links_their_aims(self):
        os.chmod(self.file("aim", "as it was"), 0o640)
        os.symlink("aim", f"{self.folder}/link")
        self.assertEqual(self.watch("--show", "json", "--out-solution", "link", ENDS="1")[0], 0)
        self.assertTrue(os.path.islink(f"{self.folder}/link"))
        self.assertEqual((read(f"{self.folder}/aim"), os.stat(f"{self.folder}/aim").st_mode & 0o777), (OPTIMUM, 0o640))
        self.assertEqual(self.watch("--show", "json", "--out-solution", "/dev/null", ENDS="1")[0], 0)
        self.clean()

    def test_what_can_be_read_once_is_read_once(self):
        words = [WATCH, self.stub, "--in-eprime", "/dev/stdin", "--time-limit", "100000", "--conflicts", "1700"]
        env, one = {**self.env, "READS": "1"}, lambda: os.sched_setaffinity(0, [min(os.sched_getaffinity(0))])
        ran = subprocess.run(words, input=b"word\n", stdout=subprocess.PIPE, stderr=subprocess.PIPE, cwd=self.folder, env=env, preexec_fn=one, check=False)
        self.assertEqual(ran.returncode, 1)
        self.assertEqual(self.seen()[::2][0], "500")
        self.assertGreater(self.seen().count("word"), 1)
        self.assertEqual(self.seen().count("word"), len(self.seen()) / 2)
        self.clean()

    def test_other_ends_of_the_program_pass(self):
        ends = self.file("ends", "#!/bin/sh\necho fault F3 model 1:1 x\nexit 3\n", True)
        for words in (["--stats"], ["--time-limit", "100000"], ["--show", "csv"]):
            self.assertEqual(self.call(WATCH, ends, "--in-eprime", "m", *words)[:2], (3, "fault F3 model 1:1 x\n"))
        killed = self.file("killed", "#!/bin/sh\nkill -SEGV $$\n", True)
        self.assertEqual(self.call(WATCH, killed, "--in-eprime", "m", "--stats")[:2], (139, ""))
        self.clean()

    def test_what_goes_wrong_behind_the_program_s_end_changes_nothing(self):
        ends = self.file("ends", "#!/bin/sh\necho memory\nexit 6\n", True)
        tools = f"{self.folder}/tools"
        shutil.copytree(f"{ROOT}/tools", tools, ignore=shutil.ignore_patterns("out", "tests", "__pycache__"))
        words = [f"{tools}/watch", ends, "--in-eprime", "m", "--stats"]
        self.assertEqual(self.call(*words)[:2], (6, "memory\n"))
        for fault in ("raise MemoryError", "raise RecursionError", "1 / 0", "def explain"):
            with open(f"{tools}/parts/hints.py", "w", encoding="utf-8") as it:
                it.write(f"{fault}\n")
            status, out, err = self.call(*words, EPSAT_EXPLAIN="1")
            self.assertEqual((status, out), (6, "memory\n"))
            self.assertNotIn("Traceback", err)
        # An answer that can't be brought into its form isn't put out in another one.
        for fault, status, out in (("raise MemoryError", 6, "memory\n"), ("1 / 0", 127, "")):
            with open(f"{tools}/parts/showing.py", "w", encoding="utf-8") as it:
                it.write(f"{fault}\n")
            found = self.call(f"{tools}/watch", self.stub, "--in-eprime", "m", "--show", "json", "--out-solution", "s", ENDS="1")
            self.assertEqual(found[:2], (status, out))
            self.assertNotIn("Traceback", found[2])
            self.assertFalse(os.path.exists(f"{self.folder}/s"))
        self.clean()

    def test_little_memory_is_no_answer(self):
        ends = self.file("ends", "#!/bin/sh\necho memory\nexit 6\n", True)
        # Python itself wants some 13 MB; with less nothing of this is reached.
        for megabytes in (16, 18, 20, 24, 30):
            bound = lambda most=megabytes << 20: resource.setrlimit(resource.RLIMIT_AS, (most, most))
            words = [sys.executable, "-IS", WATCH, ends, "--in-eprime", "m", "--show", "json"]
            ran = subprocess.run(words, stdout=subprocess.PIPE, stderr=subprocess.PIPE, cwd=self.folder, env={**self.env, "EPSAT_EXPLAIN": "1"}, preexec_fn=bound, check=False)
            self.assertIn((ran.returncode, ran.stdout), ((6, b"memory\n"), (127, b"")))
            self.assertNotIn(b"Traceback", ran.stderr)

    def test_nothing_goes_on_where_the_launcher_is_killed(self):
        runs = self.file("runs", '#!/bin/sh\necho $$ >>"$SEEN"\nexec sleep 1000\n', True)
        for words, count in ((["--time-limit", "100000"], min(2, len(os.sched_getaffinity(0)))), (["--show", "json"], 1), (["--lint"], 1)):
            job = self.start(WATCH, runs, "--in-eprime", "m", *words)
            until("the runs", lambda count=count: len(self.seen()) == count)
            job.kill()
            self.assertEqual(job.wait(HANGS), -signal.SIGKILL)
            for it in self.seen():
                until(f"the end of {it}", lambda it=it: not is_alive(it))
            os.remove(self.env["SEEN"])

    def test_a_write_that_fails_leaves_what_stood_there(self):
        fails = self.file("fails", """#!/bin/sh
for word; do case "$word" in --out-cnf=*) cnf="${word#*=}" ;; esac; done
echo "a part" >"$cnf"
echo "device write $cnf"
exit 5
""", True)
        for words in (["--show", "json"], ["--stats"], ["--time-limit", "100000"]):
            self.assertEqual(self.call(WATCH, fails, "--in-eprime", "m", "--out-cnf=c", *words)[:2], (5, "device write c\n"))
            self.assertFalse(os.path.exists(f"{self.folder}/c"))
            self.file("c", "good\n")
            self.assertEqual(self.call(WATCH, fails, "--in-eprime", "m", "--out-cnf=c", *words)[:2], (5, "device write c\n"))
            self.assertEqual(read(f"{self.folder}/c"), "good\n")
            os.remove(f"{self.folder}/c")
            self.clean()

    def test_a_run_that_ends_just_before_it_is_ended_is_waited_for(self):
        watch = loaded()
        run = watch.Run(self.file("ends", "#!/bin/sh\nexit 3\n", True), watch.words_of.Command(["--in-eprime", "m"]), self.room)
        os.waitid(os.P_PID, run.job.pid, os.WEXITED | os.WNOWAIT)
        with unittest.mock.patch.object(run, "is_over", return_value=False):
            run.end()
        self.assertIsNotNone(run.usage)

    def test_what_is_copied_over_a_file_has_room_first(self):
        watch = loaded()
        part, to = self.file("part", "new\n"), self.file("to", "an older text\n")
        os.link(to, f"{self.folder}/same")
        refused = OSError(errno.ENOSPC, "No space left on device")
        with unittest.mock.patch("os.posix_fallocate", side_effect=refused), self.assertRaises(OSError):
            watch.copy_over(part, to)
        self.assertEqual(read(to), "an older text\n")
        watch.copy_over(part, to)
        self.assertEqual((read(to), read(f"{self.folder}/same")), ("new\n", "new\n"))
        watch.copy_over(part, "/dev/null")

    def test_standard_error_that_is_closed_changes_nothing(self):
        words = f"'{WATCH}' '{self.stub}' --in-eprime m --stats --time-limit 100000 2>&-"
        self.assertEqual(self.call("sh", "-c", words, ENDS="1")[:2], (0, OPTIMUM))

    def test_no_run_outlives_a_command_that_is_killed_and_the_next_one_tidies(self):
        self.file("stub", STUB.replace('echo "$n" >>"$SEEN"', 'echo "$$" >>"$SEEN"').replace('printf \'%s\\n\' "$text" >"$solution"', 'echo part >"$solution"').replace("    exec sleep 1000", '    echo part >"$solution"; exec sleep 1000'), True)
        job = self.start(WATCH, self.stub, "--in-eprime", "m", "--time-limit", "100000", "--out-solution", "s", GOES="1")
        until("both runs, and what they write", lambda: len(self.seen()) >= 2 and len([it for it in os.listdir(self.folder) if it.startswith(".s.")]) >= 2)
        job.kill()
        for pid in self.seen():
            until(f"the end of {pid}", lambda pid=pid: not is_alive(pid))
        job.wait(HANGS)
        self.assertEqual(len(self.left()), 1)
        os.remove(self.env["SEEN"])
        self.file("stub", STUB, True)
        self.assertEqual(self.watch("--time-limit", "100000", "--out-solution", "s", ENDS="2000")[:2], (0, OPTIMUM))
        self.clean()

    @unittest.skipUnless(os.path.exists("/dev/full"), "there is no /dev/full here")
    def test_output_that_is_refused_is_status_5(self):
        with open("/dev/full", "wb") as full:
            ran = subprocess.run([WATCH, self.stub, "--in-eprime", "m"], stdout=full, stderr=subprocess.PIPE, cwd=self.folder, env={**self.env, "ENDS": "1", "EPSAT_EXPLAIN": "1"}, check=False)
        self.assertEqual(ran.returncode, 5)
        self.assertIn(b"can't be put out", ran.stderr)
        self.clean()

    def terminal(self, *words, **env):
        """Runs a command whose standard error is a terminal: its status, output, and what the terminal got."""
        try:
            mine, its = pty.openpty()
        except OSError:
            self.skipTest("there are no terminals here")
        with open(os.path.join(self.folder, "out"), "wb") as out:
            job = subprocess.Popen(words, stdin=subprocess.DEVNULL, stdout=out, stderr=its, cwd=self.folder, env={**self.env, **env})
        os.close(its)
        got = b""
        while True:
            try:
                part = os.read(mine, 4096)
            except OSError:
                break
            if not part:
                break
            got += part
        os.close(mine)
        return job.wait(HANGS), self.put(), got.decode()

    def test_at_a_terminal_a_refusal_is_explained(self):
        self.file("bad", "language ESSENCE' 1.0\nfind x : int(1..3)\nsuch that x = y\n")
        epsat = os.path.join(ROOT, "epsat")
        status, out, got = self.terminal(epsat, "--in-eprime", "bad")
        self.assertEqual((status, out), (3, "fault F3 model 3:15 y\n"))
        self.assertIn("     3 | such that x = y\r\n       |               ^\r\n", got)
        self.assertIn("isn't declared above", got)
        ran = subprocess.run(f"cat bad | {epsat} --in-eprime /dev/stdin", shell=True, cwd=self.folder, env={**self.env, "EPSAT_EXPLAIN": "1"}, stdout=subprocess.PIPE, stderr=subprocess.PIPE, check=False)
        self.assertEqual(ran.stdout, b"fault F3 model 3:15 y\n")
        self.assertIn(b"     3 | such that x = y", ran.stderr)

    def test_stats_count_what_the_files_hold(self):
        words = ["--in-eprime", f"{ROOT}/examples/shifts.eprime", "--in-param", f"{ROOT}/examples/shifts.param", "--conflicts", "300"]
        self.call(program(), *words, "--out-cnf", "c", "--out-log", "l")
        header = next(it for it in read(f"{self.folder}/c").split("\n") if it.startswith("p cnf")).split()
        status, out, err = self.call(f"{ROOT}/epsat", *words, "--stats")
        self.assertEqual((status, out), self.call(program(), *words)[:2])
        self.assertIn(f"cells 42, variables {header[2]}, clauses {header[3]}, conflicts 300\n", err)
        self.assertIn("memory", err)
        self.assertEqual(self.call(f"{ROOT}/epsat", *words, "--stats", "--out-cnf", "d", "--out-log", "k")[:2], (status, out))
        for one, other in ("cd", "lk"):
            self.assertEqual(read(f"{self.folder}/{one}"), read(f"{self.folder}/{other}"))
        self.clean()

    def test_other_tasks_have_a_time_limit_too(self):
        knapsack = f"{ROOT}/examples/knapsack"
        for words in (["--task", "verify", "--in-eprime", f"{knapsack}.eprime", "--in-param", f"{knapsack}.param", "--in-solution", f"{knapsack}.solution"],
                      ["--task", "check", "--in-cnf", f"{ROOT}/examples/pigeons.cnf", "--in-log", f"{ROOT}/examples/pigeons.cnf"], ["--task", "generate", "--number", "5"]):
            plain = self.call(program(), *words)
            for more in (["--time-limit", "100000"], ["--stats"], ["--show", "json"]):
                self.assertEqual(self.call(f"{ROOT}/epsat", *words, *more)[:2], plain[:2], words + more)

    def test_a_list_is_cut_too(self):
        words = ["--task", "enumerate", "--solutions", "all", "--in-eprime", f"{ROOT}/examples/garden.eprime", "--in-param", f"{ROOT}/examples/garden.param"]
        self.assertEqual(self.call(f"{ROOT}/epsat", *words, "--time-limit", "100000")[:2], self.call(program(), *words)[:2])


if __name__ == "__main__":
    unittest.main()
