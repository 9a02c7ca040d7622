"""The words of a command line: which option has which value, and which words are the launcher's own."""
import difflib, shlex

# The options of the program, with the tasks that take them, and those that each task needs.
TASKS = {
    "solve": ("in-eprime", ["in-param", "conflicts", "cubes", "out-solution", "out-cnf", "out-log", "undefined"]),
    "enumerate": ("in-eprime solutions", ["in-param", "conflicts", "out-solution", "out-cnf", "out-log", "undefined"]),
    "explain": ("in-eprime", ["in-param", "conflicts", "undefined"]),
    "opb": ("in-opb", ["conflicts"]),
    "verify": ("in-eprime in-solution", ["in-param", "undefined"]),
    "check": ("in-cnf in-log", ["workers"]),
    "generate": ("number", ["conflicts", "out-eprime", "out-param"]),
}
OPTIONS = sorted({"task", *(it for needs, may in TASKS.values() for it in (*needs.split(), *may))})
# The launcher's own words: those with a value, those without, and those that stand alone.
WITH_VALUE, WITHOUT = ("time-limit", "show", "names", "data"), ("stats", "lint")
ALONE = ("help", "version", "prove")
FORMS = ("grid", "csv", "json", "html")
# The outputs, in the order in which the program writes them.
OUTPUTS = ("out-cnf", "out-log", "out-solution", "out-eprime", "out-param")
INPUTS = {"model": "in-eprime", "params": "in-param", "solution": "in-solution", "cnf": "in-cnf", "log": "in-log", "opb": "in-opb"}
# The solver's budget where no word says one.
CONFLICTS = 1_000_000


class Command:
    """The words for the program, read as options; `own` has those of the launcher."""

    def __init__(self, words):
        # The words as they were typed, whatever becomes of files for the time of a run.
        self.typed = list(words)
        self.own, self.faults = {"data": []}, []
        # Where the values of tables come from, by their names.
        self.tables = {}
        self.words = self.taken(list(words))
        self.values = {}
        self.places = {}
        at = 0
        while at < len(self.words):
            word = self.words[at]
            name, equals, value = word[2:].partition("=")
            if word.startswith("--") and equals:
                self.values.setdefault(name, value)
                self.places.setdefault(name, (at, True))
            elif word.startswith("--") and at + 1 < len(self.words) and not self.words[at + 1].startswith("-"):
                at += 1
                self.values.setdefault(name, self.words[at])
                self.places.setdefault(name, (at, False))
            at += 1

    def taken(self, words):
        """Takes the launcher's own words out."""
        left, at = [], 0
        while at < len(words):
            word = words[at]
            name, equals, value = word[2:].partition("=") if word.startswith("--") else ("", "", "")
            at += 1
            if name in WITHOUT and not equals:
                self.own[name] = True
            elif name in WITH_VALUE:
                if not equals:
                    if at == len(words):
                        self.faults.append(f"--{name} has no value")
                        continue
                    value, at = words[at], at + 1
                if name == "data":
                    self.own["data"].append(value)
                elif name in self.own:
                    self.faults.append(f"--{name} stands twice")
                else:
                    self.own[name] = value
            else:
                left.append(word)
        self.check_own()
        return left

    def check_own(self):
        """Says what is wrong with the values of the launcher's own words."""
        if "time-limit" in self.own:
            try:
                self.own["time-limit"] = float(self.own["time-limit"])
                if not 0 < self.own["time-limit"] < 1e8:
                    raise ValueError
            except ValueError:
                self.faults.append("--time-limit takes a number of seconds above 0, as 30 or 0.5")
        if "names" in self.own and self.own.get("show") not in ("grid", "html"):
            self.faults.append("--names goes with --show grid and --show html")
        if self.own.get("show", "grid") not in FORMS:
            near = difflib.get_close_matches(self.own["show"], FORMS, 1)
            self.faults.append("--show takes grid, csv, json or html" + (f": did you mean {near[0]}?" if near else ""))

    @property
    def task(self):
        return self.values.get("task", "solve")

    @property
    def budget(self):
        """How many conflicts the solver may meet, or None where the task has no budget or the number is none."""
        if "conflicts" not in TASKS.get(self.task, ("", ()))[1]:
            return None
        text = self.values.get("conflicts", str(CONFLICTS))
        return int(text) if text.isdigit() and text.isascii() and 0 < int(text) <= 1_000_000_000 else None

    def with_values(self, **new):
        """The words with other values of options, by names with _ for -."""
        words = list(self.words)
        for name, value in new.items():
            name = name.replace("_", "-")
            if name in self.places:
                at, is_joined = self.places[name]
                words[at] = f"--{name}={value}" if is_joined or value.startswith("-") else value
            else:
                words.append(f"--{name}={value}")
        return words

    def without(self, *names):
        """The words without some options."""
        gone = set()
        for name in names:
            if name in self.places:
                at, is_joined = self.places[name]
                gone |= {at} if is_joined else {at - 1, at}
        return [it for at, it in enumerate(self.words) if at not in gone]

    def explaining(self):
        """The command that explains why there is no solution."""
        typed = Command(self.typed)
        words = typed.without("task", "solutions", "out-solution", "out-cnf", "out-log")
        return shlex.join(["./epsat", "--task", "explain", *words, *(it for path in typed.own["data"] for it in ("--data", path))])

    def usage(self):
        """What is wrong with words that are no command, or None where that isn't seen."""
        if not self.words:
            return "no words were given: say which model is to be solved, `./epsat --in-eprime MODEL --in-param PARAMETERS`"
        seen, at = set(), 0
        while at < len(self.words):
            word = self.words[at]
            if word in ("-h", "-?", "help", "-help"):
                return f"{word} is no option: --help, as the only word, says what there is"
            if word.startswith("--") and word[2:] in ALONE:
                return f"{word} stands alone, without other words"
            if not word.startswith("--"):
                if word.endswith((".eprime", ".essence")):
                    return f"`{word}` stands without an option: write `--in-eprime {word}`"
                if word.endswith(".param"):
                    return f"`{word}` stands without an option: write `--in-param {word}`"
                return f"`{word}` stands without an option before it"
            name, equals, value = word[2:].partition("=")
            if name not in OPTIONS:
                return f"there is no option --{name}{nearest(name)}"
            if name in seen:
                return f"--{name} stands twice"
            seen.add(name)
            if not equals:
                at += 1
                if at == len(self.words):
                    return f"--{name} has no value behind it"
                if self.words[at].startswith("-"):
                    return f"--{name} has no value behind it; a value that begins with - is written --{name}={self.words[at]}"
                value = self.words[at]
            if value == "":
                return f"the value of --{name} is empty"
            at += 1
        return self.misfit()

    def misfit(self):
        """What is wrong with options that are all there."""
        if self.task not in TASKS:
            near = difflib.get_close_matches(self.task, TASKS, 1)
            return f"there is no task {self.task}" + (f": did you mean {near[0]}?" if near else f": there are {', '.join(TASKS)}")
        needs, may = TASKS[self.task]
        for name in needs.split():
            if name not in self.values:
                return f"the task {self.task} needs --{name}"
        for name in self.values:
            if name not in (*needs.split(), *may, "task"):
                fits = [it for it, (one, other) in TASKS.items() if name in (*one.split(), *other)]
                return f"the task {self.task} takes no --{name}; it goes with {' and '.join(fits)}"
        numbers = {"conflicts": (1, 10**9), "solutions": (1, 10**6), "number": (0, 10**9), "workers": (1, 64)}
        for name, (low, high) in numbers.items():
            value = self.values.get(name, str(low))
            if name == "solutions" and value == "all":
                continue
            if not (value.isdigit() and value.isascii() and low <= int(value) <= high):
                also = ", or all" if name == "solutions" else ""
                return f"--{name} takes a number from {low:,} to {high:,}{also}, without commas"
        if self.values.get("undefined", "strict") not in ("relational", "strict"):
            return "--undefined takes relational or strict"
        return None


def nearest(name):
    """Which option a name may have been meant for."""
    short = {"model": "in-eprime", "param": "in-param", "params": "in-param", "timeout": "time-limit", "time": "time-limit",
             "solution": "in-solution", "all": "solutions", "cnf": "out-cnf", "log": "out-log", "proof": "out-log", "output": "out-solution",
             "format": "show", "json": "show", "csv": "show", "html": "show", "verbose": "stats", "statistics": "stats", "seconds": "time-limit"}
    every = [*OPTIONS, *WITH_VALUE, *WITHOUT, *ALONE]
    near = difflib.get_close_matches(name.lower().replace("_", "-"), every, 1, 0.6)
    near = near or ([short[name.lower()]] if name.lower() in short else [])
    return f": did you mean --{near[0]}?" if near else ", and none that is near; `./epsat --help` lists them"
