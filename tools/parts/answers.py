"""Reads what the program puts out (docs/FORMATS.md) into values with the indices of their matrices."""
import re

LETTING = re.compile(r"letting ([A-Za-z_][A-Za-z_0-9]*) be (.*)")
PART = re.compile(r"\[|\]|, |; int\(([^)]*)\)|-?[0-9]+|true|false")


class Matrix:
    """The parts of a matrix, and the indices of its first dimension."""

    def __init__(self, parts, indices):
        self.parts, self.indices = parts, indices

    def dimensions(self):
        """The indices of each dimension."""
        inner = self.parts[0].dimensions() if self.parts and isinstance(self.parts[0], Matrix) else []
        return [self.indices, *inner]

    def plain(self):
        """The parts as lists."""
        return [it.plain() if isinstance(it, Matrix) else it for it in self.parts]


def runs(text):
    """The numbers of the runs of an index domain."""
    numbers = []
    for run in text.split(","):
        low, _, high = run.strip().partition("..")
        if low:
            numbers += range(int(low), int(high or low) + 1)
    return numbers


def value_of(text):
    """A value as the program writes it."""
    stack, done = [], None
    for it in PART.finditer(text):
        word = it.group()
        if word == "[":
            stack.append([[], []])
        elif word.startswith("; "):
            stack[-1][1] = runs(it[1])
        elif word != ", ":
            if word == "]":
                parts, indices = stack.pop()
                value = Matrix(parts, indices)
            else:
                value = {"true": True, "false": False}[word] if word[0] in "tf" else int(word)
            if stack:
                stack[-1][0].append(value)
            else:
                done = value
    return done


class Answer:
    """An answer or a list: `notes` are the lines that begin with `$`, `blocks` the values of each solution."""

    def __init__(self, text):
        self.notes, self.blocks = [], []
        is_open = False
        for line in text.split("\n"):
            if line.startswith("$ "):
                self.notes.append(line[2:])
                is_open = False
            found = LETTING.fullmatch(line)
            if found:
                if not is_open:
                    self.blocks.append({})
                    is_open = True
                self.blocks[-1][found[1]] = value_of(found[2])

    @property
    def heads(self):
        """The notes that stand above values of their own: those of a list, or of an explanation."""
        return [it for it in self.notes if re.fullmatch(r"(solution|without) [0-9]+", it)]

    @property
    def is_list(self):
        """Whether it lists solutions, rather than telling one."""
        return bool(self.heads) or "complete" in self.notes

    def summary(self):
        """What the notes say, as names and values."""
        found = {}
        for it in self.notes:
            word, _, rest = it.partition(" ")
            if word in ("optimum", "incumbent"):
                found.setdefault("status", word)
                found["objective"] = int(rest)
            elif word == "unknown":
                found["status"] = "unknown"
                found["conflicts"] = int(rest.split()[0])
            elif it == "no solution" or it == "complete":
                found["status"] = it
            elif word == "solution":
                found.setdefault("status", "solutions" if rest else "solution")
            elif word == "explanation":
                found.update(status="explanation", clauses=[])
            elif word == "without":
                found["clauses"].append(int(rest))
        return found
