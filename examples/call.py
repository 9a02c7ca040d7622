#!/usr/bin/env python3
"""Calls epsat from Python: `solve` gives the values of a model's decision variables for parameters that are Python values.

Run it at the top of the repository (python3 examples/call.py): it plans who of three nurses works on which day, has it planned again with one day
changed, and shows what refusals look like. Nothing else is needed; copy `solve` and what stands above it into a program of yours.
"""
import json, os, signal, subprocess, sys, tempfile

EPSAT = os.path.join(os.path.dirname(os.path.dirname(os.path.abspath(__file__))), "epsat")
# How many seconds later than asked a run may end by itself, and then at TERM.
GRACE = 10
# What came in place of an answer, by status, and so whose it is to see to: the caller's, the data's, the model's, the machine's.
KINDS = {2: "words", 3: "input", 4: "too large", 5: "device", 6: "memory", 124: "time", 127: "start"}


class Refused(Exception):
    """There is no answer: `kind` as above or "ended" for all else, the program's `status` (below 0: the signal that ended it), its `line` as "fault F9 need", and `reason`, what it
    said on standard error: words for people, which no program should read."""

    def __init__(self, status, line, reason):
        # Without a line these say nothing of an answer: a system that doesn't start a program ends so, too.
        self.kind = "start" if status in (0, 1, 126) and not line else KINDS.get(status, "ended")
        self.status, self.line, self.reason = status, line, reason
        super().__init__(": ".join(it for it in (self.kind, line, reason.replace("\n", "; ")) if it))


def solve(model, parameters, *words, seconds=60):
    """An answer: "status", and where there is a solution "values" by name, and "objective" where the model has one. Raises Refused.

    The parameters are numbers, truth values and lists of these, by name. After so many seconds the best answer that was finished by then is given. More words of the
    command line may follow, as "--conflicts=10000"; take none of them, and no name of a file, from somebody whom you don't trust.
    """
    with tempfile.NamedTemporaryFile("w", suffix=".json") as data:
        json.dump(parameters, data)
        data.flush()
        own = [f"--in-eprime={model}", f"--data={data.name}", "--show=json", f"--time-limit={seconds}"]
        job = subprocess.Popen(
            [EPSAT, *own, *words], stdin=subprocess.DEVNULL, stdout=subprocess.PIPE, stderr=subprocess.PIPE, env={**os.environ, "EPSAT_EXPLAIN": "1"}, start_new_session=True
        )
        try:
            out, said = told(job, seconds)
        finally:
            send(job, signal.SIGKILL)
    if job.returncode not in (0, 1) or not out:
        lines = [it.removeprefix("epsat: ") for it in said.decode(errors="replace").split("\n")]
        raise Refused(job.returncode, out.decode(errors="replace").strip(), "\n".join(it for it in lines if it))
    return json.loads(out)


def told(job, seconds):
    """What a run puts out and says. One that doesn't end in time by itself is asked to (TERM), which gives what was found, and then ended (KILL)."""
    for more, number in ((seconds + GRACE, signal.SIGTERM), (GRACE, signal.SIGKILL)):
        try:
            return job.communicate(timeout=more)
        except subprocess.TimeoutExpired:
            send(job, number)
    return job.communicate()


def send(job, number):
    """Sends a signal to all that a run started, as long as it goes on."""
    if job.poll() is None:
        os.killpg(job.pid, number)


if __name__ == "__main__":
    model = os.path.join(os.path.dirname(os.path.abspath(__file__)), "roster.eprime")
    asked = {"nurses": 3, "days": 5, "most": 4, "need": [2, 2, 2, 2, 1], "off": [[0, 0, 0, 0, 0], [0, 0, 0, 0, 0], [0, 0, 1, 0, 0]]}
    answer = solve(model, asked)
    for nurse, row in enumerate(answer["values"]["works"], 1):
        print(f"nurse {nurse} works on", ", ".join(f"day {day}" for day, works in enumerate(row, 1) if works))
    asked["need"][2] = 3
    print("with three on day 3:", solve(model, asked)["status"])
    for what, changed in (("a sixth day that nothing is said of", {"days": 6}), ("half a nurse", {"nurses": 2.5})):
        try:
            solve(model, {**asked, **changed})
        except Refused as it:
            print(f"with {what}: {it.kind}, status {it.status}, {it.line or 'no line'}")
            print("  ", it.reason.replace("\n", "\n   "))
    sys.exit(0)
