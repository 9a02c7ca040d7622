"""The definitions of all crates (crates/*/specs), and which of them a contract cites, directly or through others.

What a word means goes by `use` lines, by names in bodies, and by aliases (`alias.name`), so what is found is at least what is cited.
"""
import os, re

WORD = re.compile(r"[^\s(){}\[\];:,]+")
MODS = re.compile(r"^((?:pub|abbrev|unfoldable|data|record|mutual)(?:\s+|$))*")


def read(path):
    with open(path, encoding="utf-8") as it:
        return it.read()


def uses_of(text, ghost):
    """What names and aliases of a file's use lines mean: name -> (module path, name), alias -> module path."""
    names, aliases = {}, {}
    head = r"^\s*(?:pub )?(?:ghost )?use " if ghost else r"^(?:pub )?use "
    for m in re.finditer(head + r"(Rattle\.[A-Za-z0-9_.+]+?)(?:\.\{([^}]*)\}| as (\S+?))?;?\s*$", text, re.M):
        path, group, alias = m.group(1), m.group(2), m.group(3)
        if group is not None:
            for part in group.split(","):
                part = part.strip()
                if part:
                    a, _, b = part.partition(" as ")
                    names[(b or a).strip()] = (path, a.strip())
        else:
            aliases[alias or path.rsplit(".", 1)[-1]] = path
    return names, aliases


class File:
    """A file of definitions: what its names mean, and the lines of each definition."""

    def __init__(self, crates, crate, path):
        self.crate, self.path = crate, path
        self.module = "Rattle." + crate + "." + path[:-5].replace("/", ".")
        text = read(f"{crates}/{crate}/{path}")
        self.lines = text.count("\n")
        self.heading = self.heading_of(text.split("\n"))
        self.names, self.aliases = uses_of(text, False)
        self.items, self.parts, self.remarks = {}, {}, {}  # name -> its lines; constructor or field or inner name -> item; name -> lines of comment above it
        current, above = None, 0
        for line in text.split("\n"):
            if line.startswith("--") and not line.startswith("-- ----"):
                above += 1
                continue
            if not line.strip() or line.lstrip().startswith("--") or line.startswith(("use ", "pub use ", "mod ", "pub mod ")):
                above = 0
                continue
            if line[0].isspace():
                if current:
                    self.items[current].append(line)
                    inner = re.match(r"^\s+(?:(?:pub|abbrev|unfoldable|data|record) )*([^\s:(){}]+)(?: : | \(|$)", line)
                    if inner:
                        self.parts.setdefault(inner.group(1), current)
                continue
            mods = MODS.match(line).group(0).split()
            rest = line[MODS.match(line).end():]
            first = (WORD.match(rest) or [""])[0]
            if "mutual" in mods:
                current = f"(mutual {len(self.items)})"
                self.items[current], self.remarks[current] = [], above + 1
            elif line.startswith("unfolding "):
                continue
            elif line.startswith("infix"):
                current = None
            elif mods or " : " in line and first not in self.items:
                current = first
                self.items[current], self.remarks[current] = [line], above
            elif first in self.items:
                current = first
                self.items[current].append(line)
            above = 0
        for name in [n for n in self.items if n.startswith("(mutual")]:
            for line in self.items[name]:
                m = re.match(r"^  (?:(?:pub|abbrev|unfoldable|data|record) )+([^\s:(){}]+)", line) or re.match(r"^  ([^\s:(){}]+) : ", line)
                if m:
                    self.parts[m.group(1)] = name

    @staticmethod
    def heading_of(lines):
        """The comment with which a file begins, as one text."""
        taken = []
        for line in lines:
            if not line.startswith("--"):
                break
            taken.append(line[2:].strip())
        return " ".join(taken).split("  ")[0].strip()

    def lines_of(self, item):
        """How many lines a definition has, with the comment above it."""
        return len(self.items[item]) + self.remarks[item]


class Definitions:
    """All definitions of a repository."""

    def __init__(self, root):
        self.crates = f"{root}/crates"
        self.files = {}
        for crate in sorted(os.listdir(self.crates)):
            for at, _, found in os.walk(f"{self.crates}/{crate}/specs"):
                for file in sorted(found):
                    if file.endswith(".antt") and file != "Lib.antt":
                        it = File(self.crates, crate, os.path.relpath(f"{at}/{file}", f"{self.crates}/{crate}"))
                        self.files[it.module] = it
        # a file that passes on others by `pub use` stands for them
        self.passed = {}
        for crate in os.listdir(self.crates):
            lib = f"{self.crates}/{crate}/specs/Lib.antt"
            if os.path.isfile(lib):
                for m in re.finditer(r"^pub use (Rattle\.\S+?\.specs\.(\w+))$", read(lib), re.M):
                    self.passed[f"Rattle.{crate}.specs.{m.group(2)}"] = m.group(1)

    def call_of_run(self):
        """Where the top call stands, as CRATE/src/FILE.rt:FUNCTION."""
        for crate in sorted(os.listdir(self.crates)):
            path = f"{self.crates}/{crate}/src/top.rt"
            if os.path.isfile(path) and re.search(r"^pub fn run\b", read(path), re.M):
                return f"{crate}/src/top.rt:run"
        return None

    def target(self, path):
        seen = set()
        while path in self.passed and path not in self.files and path not in seen:
            seen.add(path)
            path = self.passed[path]
        return self.files.get(path)

    def used_by(self, file):
        """The files, as paths from the root, that a file's use lines name."""
        used = {self.target(path) for path, _ in file.names.values()} | {self.target(path) for path in file.aliases.values()}
        return {f"crates/{it.crate}/{it.path}" for it in used if it}

    def means(self, words, names, aliases, own):
        """What words cite: files, each with a name in it."""
        for word in words:
            for part in {word, word.strip(".")} | ({word.split(".")[0]} if "." in word else set()):
                if part in names:
                    file = self.target(names[part][0])
                    if file:
                        yield file, names[part][1]
                elif own and (part in own.items or part in own.parts):
                    yield own, part
            if "." in word:
                head, _, tail = word.partition(".")
                if head in aliases:
                    file = self.target(aliases[head])
                    if file:
                        yield file, tail.split(".")[0]

    def closure(self, call, clause=None):
        """The definitions that a call's contract cites, or one clause of it: pairs of a module and a definition's name."""
        place, function = call.split(":")
        text = read(f"{self.crates}/{place}")
        names, aliases = uses_of(text, True)
        start = re.search(rf"^\s*(?:pub )?fn {function}\b", text, re.M).start()
        contract = text[start:start + re.search(r"^\s*\{\s*$", text[start:], re.M).start()]
        if clause:
            at = re.search(rf"\bensures {clause} \{{", contract)
            if not at:
                raise SystemExit(f"{function} has no clause {clause}")
            depth, end = 1, at.end()
            while depth:
                depth += {"{": 1, "}": -1}.get(contract[end], 0)
                end += 1
            contract = contract[at.end():end - 1]
        closed, todo = set(), list(self.means(WORD.findall(contract), names, aliases, None))
        while todo:
            file, name = todo.pop()
            item = name if name in file.items else file.parts.get(name)
            if item is None or (file.module, item) in closed:
                continue
            closed.add((file.module, item))
            body = "\n".join(file.items[item])
            # operators in use, as `a followed_by b`, are words too: ◌followed_by◌
            words = WORD.findall(body)
            # a record's own fields, which may have the names of another's
            own = {m.group(1) for m in re.finditer(r"(?m)^\s+pub ([^\s:(){}]+) : ", body)} if not item.startswith("(mutual") else set()
            words = [w for w in words if w not in own or w in file.items]
            words += [n for n in list(file.names) + list(file.items) if "◌" in n and any(p and f" {p} " in f" {body} " for p in [n.replace("◌", " ").strip()])]
            todo += self.means(words, file.names, file.aliases, file)
        return closed
