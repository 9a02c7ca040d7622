"""Reads a text of the language into statements and trees, tells their types, and evaluates what stands without decision variables.

For hints alone: what the program says of a text is right, and this only has to find the part that it speaks of. Where this reads a text
otherwise than the program (docs/LANGUAGE.md), a hint is missing or beside the point, and nothing else is wrong.
"""
import itertools, math

import tokens as lexer

FUNCTIONS = "toInt flatten sum product and or min max allDiff factorial table gcc atleast atmost toSet".split()
LEVELS = {"**": 7, "*": 6, "/": 6, "%": 6, "+": 5, "-": 5, "/\\": 3, "\\/": 2, "->": 1, "<->": 1}
COMPARISONS = ("=", "!=", "<", "<=", ">", ">=", "<lex", "<=lex", ">lex", ">=lex", "in")


class Stop(Exception):
    """The text isn't read any further."""


class Node:
    """A node: what it is, its first token, the token that it is named by, its parts, and what else there is."""

    __slots__ = ("kind", "first", "token", "parts", "more", "last")

    def __init__(self, kind, first, token, parts=(), more=None, last=None):
        self.kind, self.first, self.token, self.parts, self.more, self.last = kind, first, token, list(parts), more, last


class Statement:
    """A statement: its word, the names that it declares, and its trees."""

    def __init__(self, kind, token, names=(), domain=None, parts=()):
        self.kind, self.token, self.names, self.domain, self.parts = kind, token, list(names), domain, list(parts)


class Reader:
    """Reads tokens from left to right."""

    def __init__(self, text):
        self.tokens, self.at = lexer.tokens_of(text), 0
        self.end = lexer.Token("", 0, 0, len(text))

    @property
    def next(self):
        return self.tokens[self.at] if self.at < len(self.tokens) else self.end

    def take(self, *texts):
        it = self.next
        if texts and it.text not in texts or it is self.end:
            raise Stop
        self.at += 1
        return it

    def sees(self, *texts):
        return self.next.text in texts

    def close(self, node):
        node.last = self.tokens[self.at - 1]
        return node

    def several(self, read, end):
        parts = []
        while not self.sees(*end):
            parts.append(read())
            if not self.sees(","):
                break
            self.take(",")
        return parts

    # Statements.

    def statements(self):
        """The statements, as far as they can be read."""
        found = []
        try:
            while self.next is not self.end:
                found.append(self.statement())
        except (Stop, RecursionError):
            pass
        return [it for it in found if it]

    def statement(self):
        it = self.take()
        if it.text == "language":
            self.take(), self.take(), self.take("."), self.take()
            return None
        if it.text in ("given", "find"):
            made = Statement(it.text, it)
            made.parts = self.several(self.group, lexer.STARTS)
            return made
        if it.text == "letting":
            name, domain = self.take(), None
            if self.sees(":"):
                self.take(":")
                domain = self.domain()
            self.take("be", "=")
            if self.sees("domain"):
                self.take()
                return Statement("domain", it, [name], self.domain())
            return Statement("letting", it, [name], domain, [self.expression()])
        if it.text in ("such", "where"):
            if it.text == "such":
                self.take("that")
            return Statement(it.text, it, parts=self.several(self.expression, [*lexer.STARTS, ""]))
        if it.text in ("minimising", "minimizing", "maximising", "maximizing"):
            return Statement("objective", it, parts=[self.expression()])
        if it.text == "branching":
            self.take("on"), self.take("[")
            while not self.sees("]"):
                self.take()
            self.take()
            return None
        if it.text == "heuristic":
            self.take()
            return None
        raise Stop

    def group(self):
        """Names with one domain."""
        names = [self.take()]
        while self.sees(","):
            self.take()
            names.append(self.take())
        self.take(":")
        return Statement("group", names[0], names, self.domain())

    # Domains.

    def domain(self):
        left = self.domain_part()
        while self.sees("union", "intersect", "-"):
            sign = self.take()
            left = self.close(Node("domains", left.first, sign, [left, self.domain_part()]))
        return left

    def domain_part(self):
        it = self.next
        if it.text == "matrix":
            self.take(), self.take("indexed"), self.take("by"), self.take("[")
            indices = self.several(self.domain, ["]"])
            self.take("]"), self.take("of")
            return self.close(Node("matrix", it, it, [*indices, self.domain()]))
        if it.text == "(":
            self.take()
            inside = self.domain()
            self.take(")")
            return inside
        self.take()
        if it.text == "int" and self.sees("("):
            self.take()
            ranges = self.several(self.range, [")"])
            self.take(")")
            return self.close(Node("int", it, it, ranges))
        if it.text in ("int", "bool") or lexer.is_name(it.text):
            return self.close(Node(it.text if it.text in ("int", "bool") else "named", it, it))
        raise Stop

    def range(self):
        first = self.next
        low = None if self.sees("..") else self.expression()
        if not self.sees(".."):
            return Node("range", first, first, [low, low])
        sign = self.take()
        high = None if self.sees(")", ",") else self.expression()
        return Node("range", first, sign, [low, high])

    # Expressions.

    def expression(self, level=1):
        if level == 4:
            return self.comparison()
        if level > 7:
            return self.prefixed()
        left = self.expression(level + 1)
        while LEVELS.get(self.next.text) == level:
            sign = self.take()
            left = self.close(Node("binary", left.first, sign, [left, self.expression(level + 1)]))
        return left

    def comparison(self):
        left = self.expression(5)
        if not self.sees(*COMPARISONS):
            return left
        sign = self.take()
        if sign.text == "in" and not self.sees("toSet"):
            return self.close(Node("within", left.first, sign, [left], self.domain()))
        return self.close(Node("binary", left.first, sign, [left, self.expression(5)]))

    def prefixed(self):
        it = self.next
        if it.text in ("!", "-"):
            self.take()
            return self.close(Node("unary", it, it, [self.prefixed()]))
        if it.text in ("forAll", "exists") or it.text == "sum" and self.tokens[self.at + 1 : self.at + 2] and self.tokens[self.at + 1].text != "(":
            self.take()
            names = [self.take()]
            while self.sees(","):
                self.take()
                names.append(self.take())
            self.take(":")
            domain = self.domain()
            self.take(".")
            return self.close(Node("quantifier", it, it, [self.expression()], (names, domain)))
        return self.read()

    def read(self):
        node = self.atom()
        while self.sees("["):
            sign = self.take()
            indices = self.several(self.index, ["]"])
            self.take("]")
            if node.kind == "read" and not any(one is None for one in node.more):
                node.more += indices
                self.close(node)
            else:
                node = self.close(Node("read", node.first, sign, [node], indices))
        return node

    def index(self):
        if self.sees(".."):
            self.take()
            return None
        return self.expression()

    def atom(self):
        it = self.take()
        if it.text.isdigit():
            return self.close(Node("number", it, it))
        if it.text in ("true", "false"):
            return self.close(Node("truth", it, it))
        if it.text == "(":
            inside = self.expression()
            self.take(")")
            return self.close(Node("brackets", it, it, [inside]))
        if it.text == "|":
            inside = self.expression()
            self.take("|")
            return self.close(Node("bars", it, it, [inside]))
        if it.text == "[":
            return self.list_behind(it)
        if it.text in FUNCTIONS:
            self.take("(")
            parts = self.several(self.expression, [")"])
            self.take(")")
            return self.close(Node("call", it, it, parts))
        if lexer.is_name(it.text):
            return self.close(Node("name", it, it))
        raise Stop

    def list_behind(self, it):
        parts = self.several(self.expression, ["]", ";", "|"])
        generators, conditions, indices = [], [], None
        is_comprehension = self.sees("|")
        if is_comprehension:
            self.take()
            while not self.sees("]", ";"):
                here = self.at
                try:
                    if conditions:
                        raise Stop
                    names = [self.take()]
                    while self.sees(","):
                        self.take()
                        names.append(self.take())
                    self.take(":")
                    generators.append((names, self.domain()))
                except Stop:
                    self.at = here
                    conditions.append(self.expression())
                if not self.sees(","):
                    break
                self.take()
        if self.sees(";"):
            self.take()
            indices = self.domain()
        self.take("]")
        if is_comprehension:
            return self.close(Node("comprehension", it, it, parts, (generators, conditions, indices)))
        return self.close(Node("list", it, it, parts, indices))


def spelled(text, node):
    """How a node stands in its text, on one line."""
    return " ".join(text[node.first.at : node.last.at + len(node.last.text)].split())


# Types: "bool", "int", ("matrix", dimensions, "bool" or "int"), "domain", or None where a part is ill typed.


def said(kind):
    """A type in words."""
    if isinstance(kind, tuple):
        ends = "truth values" if kind[2] == "bool" else "integers"
        return f"a matrix of {ends}" + (f" with {kind[1]} dimensions" if kind[1] > 1 else "")
    return {"bool": "a truth value", "int": "an integer", "domain": "a domain", "empty": "an empty list"}.get(kind, "ill typed itself")


class Typing:
    """Finds the first node whose parts have types that it doesn't take."""

    def __init__(self):
        self.names, self.faults = {}, []

    def fault(self, node, why):
        self.faults.append((node, why))

    def domain(self, node):
        """The type of what a domain has."""
        if node is None:
            return None
        if node.kind == "matrix":
            inner = self.domain(node.parts[-1])
            depth = len(node.parts) - 1
            return ("matrix", depth + inner[1], inner[2]) if isinstance(inner, tuple) else ("matrix", depth, inner or "int")
        if node.kind == "named":
            found = self.names.get(node.token.text)
            if found and found[0] != "domain":
                self.fault(node, f"`{node.token.text}` is no name of a domain: it is {said(found[1])}")
            return found[1] if found else None
        if node.kind == "domains":
            return [self.domain(it) for it in node.parts][0]
        return "bool" if node.kind == "bool" else "int"

    def statements(self, all_of):
        for it in all_of:
            if it.kind in ("given", "find"):
                for group in it.parts:
                    kind = self.domain(group.domain)
                    self.names.update({one.text: ("value", kind) for one in group.names})
            elif it.kind == "domain":
                self.names[it.names[0].text] = ("domain", self.domain(it.domain))
            elif it.kind == "letting":
                kind = self.of(it.parts[0])
                self.names[it.names[0].text] = ("value", self.domain(it.domain) if it.domain else kind)
            elif it.kind in ("such", "where"):
                for one in it.parts:
                    kind = self.of(one)
                    why = counted(one) if kind == "int" else None
                    if why:
                        self.fault(one, why)
                    elif kind not in ("bool", None):
                        self.fault(one, f"a clause has to be true or false, and this is {said(kind)}")
            elif it.kind == "objective":
                kind = self.of(it.parts[0])
                if kind not in ("bool", "int", None):
                    self.fault(it.parts[0], f"the objective has to be an integer, and this is {said(kind)}")

    def of(self, node):
        made = getattr(self, f"of_{node.kind}")(node)
        return made

    def wants(self, node, part, kind, wanted, what):
        """Notes a fault where a part's type isn't one of those that are wanted."""
        if kind is None or kind in wanted or isinstance(kind, tuple) and "matrix" in wanted or kind == "empty" and "matrix" in wanted:
            return True
        wants = "truth values" if wanted == ("bool",) else "integers" if "int" in wanted else "a matrix"
        self.fault(node, f"{what} takes {wants}, and `{SPELL(part)}` is {said(kind)}")
        return False

    def of_number(self, _):
        return "int"

    def of_truth(self, _):
        return "bool"

    def of_name(self, node):
        found = self.names.get(node.token.text)
        if found and found[0] == "domain":
            self.fault(node, f"`{node.token.text}` is the name of a domain, and no value")
            return None
        return found[1] if found else None

    def of_brackets(self, node):
        return self.of(node.parts[0])

    def of_bars(self, node):
        kind = self.of(node.parts[0])
        return "int" if self.wants(node, node.parts[0], kind, ("int", "bool"), "`|..|`") else None

    def of_unary(self, node):
        kind = self.of(node.parts[0])
        wanted = ("bool",) if node.token.text == "!" else ("int", "bool")
        return wanted[0] if self.wants(node, node.parts[0], kind, wanted, f"`{node.token.text}`") else None

    def of_binary(self, node):
        sign = node.token.text
        if sign == "in":
            kind = self.of(node.parts[0])
            inner = [self.of(it) for it in node.parts[1].parts]
            fits = self.wants(node, node.parts[0], kind, ("int", "bool"), "`in`")
            return "bool" if fits and all(self.wants(node, it, one, ("matrix",), "`toSet`") for it, one in zip(node.parts[1].parts, inner)) else None
        kinds = [self.of(it) for it in node.parts]
        if sign in ("/\\", "\\/", "->", "<->"):
            wanted, gives = ("bool",), "bool"
        elif sign.endswith("lex"):
            wanted, gives = ("matrix",), "bool"
        elif sign in COMPARISONS:
            wanted, gives = ("int", "bool"), "bool"
            if any(isinstance(it, tuple) for it in kinds):
                both = all(isinstance(it, tuple) for it in kinds)
                then = "matrices are compared entry by entry, `and([a[i] = b[i] | i : D])`, or by `<=lex`" if both else "an entry is read by an index, `m[i]`"
                self.fault(node, f"`{sign}` compares integers, and `{SPELL(node.parts[0])}` is {said(kinds[0])}, `{SPELL(node.parts[1])}` {said(kinds[1])}: {then}")
                return None
        else:
            wanted, gives = ("int", "bool"), "int"
        fits = [self.wants(node, it, kind, wanted, f"`{sign}`") for it, kind in zip(node.parts, kinds)]
        return gives if all(fits) and None not in kinds else None

    def of_within(self, node):
        kind = self.of(node.parts[0])
        self.domain(node.more)
        return "bool" if self.wants(node, node.parts[0], kind, ("int", "bool"), "`in`") else None

    def scoped(self, names, domain, inside):
        kind = self.domain(domain)
        kept = {it.text: self.names.get(it.text) for it in names}
        self.names.update({it.text: ("value", kind) for it in names})
        made = inside()
        for name, found in kept.items():
            if found is None:
                self.names.pop(name, None)
            else:
                self.names[name] = found
        return made

    def of_quantifier(self, node):
        names, domain = node.more
        body = node.parts[0]
        kind = self.scoped(names, domain, lambda: self.of(body))
        wanted = ("bool",) if node.token.text != "sum" else ("int", "bool")
        why = counted(body) if wanted == ("bool",) and kind == "int" else None
        if why:
            self.fault(node, why)
            return None
        fits = self.wants(node, body, kind, wanted, f"the body of `{node.token.text}`")
        return ("bool" if node.token.text != "sum" else "int") if fits else None

    def of_read(self, node):
        kind = self.of(node.parts[0])
        for it in node.more:
            if it is not None:
                self.wants(node, it, self.of(it), ("int", "bool"), "an index")
        if kind is None:
            return None
        if not isinstance(kind, tuple):
            self.fault(node, f"`{SPELL(node.parts[0])}` is {said(kind)}, and only a matrix is read by an index")
            return None
        if len(node.more) > kind[1]:
            self.fault(node, f"`{SPELL(node.parts[0])}` is {said(kind)}, and here are {len(node.more)} indices")
            return None
        depth = kind[1] - sum(it is not None for it in node.more)
        return ("matrix", depth, kind[2]) if depth else kind[2]

    def of_list(self, node):
        kinds = [self.of(it) for it in node.parts]
        if not kinds:
            return "empty"
        if None in kinds:
            return None
        matrices = [it for it in kinds if isinstance(it, tuple)]
        if matrices and (len(matrices) < len([it for it in kinds if it != "empty"]) or len({it[1] for it in matrices}) > 1):
            one, other = next((a, b) for a in range(len(kinds)) for b in range(len(kinds)) if kinds[a] != kinds[b] and (isinstance(kinds[a], tuple) and (not isinstance(kinds[b], tuple) or kinds[a][1] != kinds[b][1])))
            self.fault(node, f"the parts of a list are alike, and `{SPELL(node.parts[one])}` is {said(kinds[one])}, `{SPELL(node.parts[other])}` {said(kinds[other])}")
            return None
        if matrices:
            return ("matrix", matrices[0][1] + 1, "bool" if all(it[2] == "bool" for it in matrices) else "int")
        return ("matrix", 2, "bool") if "empty" in kinds else ("matrix", 1, "bool" if set(kinds) == {"bool"} else "int")

    def of_comprehension(self, node):
        generators, conditions, _ = node.more

        def level(at):
            if at < len(generators):
                return self.scoped(*generators[at], lambda: level(at + 1))
            for it in conditions:
                self.wants(node, it, self.of(it), ("bool",), "a condition")
            return self.of(node.parts[0])

        kind = level(0)
        if kind is None:
            return None
        return ("matrix", kind[1] + 1, kind[2]) if isinstance(kind, tuple) else ("matrix", 1, kind)

    def of_call(self, node):
        name, kinds = node.token.text, [self.of(it) for it in node.parts]
        if None in kinds:
            return None
        if name in ("min", "max") and len(kinds) == 2:
            wanted = ("int", "bool")
        elif name == "factorial":
            wanted = ("int", "bool")
        elif name == "toInt":
            wanted = ("bool",)
        else:
            wanted = ("matrix",)
        fits = all([self.wants(node, it, kind, wanted, f"`{name}`") for it, kind in zip(node.parts, kinds)])
        if not fits:
            return None
        if name in ("and", "or") and isinstance(kinds[0], tuple) and kinds[0][2] != "bool":
            self.fault(node, f"`{name}` takes truth values, and `{SPELL(node.parts[0])}` is {said(kinds[0])}")
            return None
        if name == "flatten":
            return ("matrix", 1, kinds[0][2] if isinstance(kinds[0], tuple) else "bool")
        return "bool" if name in ("and", "or", "allDiff", "table", "gcc", "atleast", "atmost") else "int"


SPELL = lambda node: "?"


def counted(node):
    """What is said of a sum over comparisons where a truth value is wanted: it was to be compared itself."""
    if node.kind != "quantifier" or node.token.text != "sum":
        return None
    body = node.parts[0]
    if body.kind == "quantifier":
        return counted(body)
    if body.kind != "binary" or body.token.text not in COMPARISONS:
        return None
    left, right = (SPELL(it) for it in body.parts)
    return f"the body of a `sum` reaches to its end, so this adds up comparisons: put brackets, `(sum .. . {left}) {body.token.text} {right}`"


def type_faults(text, statements):
    """The nodes that are ill typed, in the order of the text, each with why."""
    global SPELL
    SPELL = lambda node: (lambda it: it if len(it) <= 60 else it[:56] + " ..")(spelled(text, node))
    typing = Typing()
    typing.statements(statements)
    return typing.faults


# Values: numbers, truth values, and Array for matrices.


class Undefined(Exception):
    """What is asked for has no value."""


class Unknown(Exception):
    """What is asked for depends on a decision variable, or takes too long to find."""


class Array:
    """The parts of a matrix and their indices."""

    def __init__(self, parts, indices=None):
        self.parts, self.indices = parts, indices or range(1, len(parts) + 1)

    def dimensions(self):
        """The indices of each dimension, as far as the first parts tell."""
        inner = self.parts[0].dimensions() if self.parts and isinstance(self.parts[0], Array) else []
        return [list(self.indices), *inner]

    def flat(self):
        for it in self.parts:
            yield from it.flat() if isinstance(it, Array) else (it,)


class Open:
    """A decision variable: a number, or a matrix of which only the indices are known."""

    def __init__(self, dimensions=(), is_bool=False):
        self.dimensions, self.is_bool = list(dimensions), is_bool


class Evaluator:
    """Evaluates trees under names; what takes more than so many steps is unknown."""

    def __init__(self, steps=400_000):
        self.names, self.steps = {}, steps

    def step(self):
        self.steps -= 1
        if self.steps < 0:
            raise Unknown

    def values(self, node):
        """The numbers of a domain, in order."""
        if node.kind == "bool":
            return [0, 1]
        if node.kind == "named":
            found = self.names.get(node.token.text)
            if not isinstance(found, list):
                raise Unknown
            return found
        if node.kind == "domains":
            left, right = (self.values(it) for it in node.parts)
            right = set(right)
            if node.token.text == "union":
                return sorted(set(left) | right)
            return [it for it in left if (it in right) == (node.token.text == "intersect")]
        if node.kind != "int" or not node.parts:
            raise Unknown
        found = set()
        for it in node.parts:
            if None in it.parts:
                raise Unknown
            low, high = (int(self.of(one)) for one in it.parts)
            if high - low > 200_000:
                raise Unknown
            found.update(range(low, high + 1))
        return sorted(found)

    def of(self, node):
        self.step()
        return getattr(self, f"of_{node.kind}")(node)

    def number(self, node):
        made = self.of(node)
        if isinstance(made, (Open, Array)):
            raise Unknown
        return int(made)

    def of_number(self, node):
        return int(node.token.text)

    def of_truth(self, node):
        return node.token.text == "true"

    def of_name(self, node):
        found = self.names.get(node.token.text)
        if found is None or isinstance(found, list):
            raise Unknown
        return found

    def of_brackets(self, node):
        return self.of(node.parts[0])

    def of_bars(self, node):
        return abs(self.number(node.parts[0]))

    def of_unary(self, node):
        value = self.number(node.parts[0])
        return not value if node.token.text == "!" else -value

    def of_binary(self, node):
        sign = node.token.text
        if sign == "in":
            return self.number(node.parts[0]) in [int(it) for it in self.of(node.parts[1].parts[0]).flat()]
        if sign.endswith("lex"):
            raise Unknown
        left, right = (self.number(it) for it in node.parts)
        if sign in ("/", "%") and right == 0 or sign == "**" and right < 0:
            raise Undefined
        if sign == "**" and right > 1000:
            raise Unknown
        return {
            "+": lambda: left + right, "-": lambda: left - right, "*": lambda: left * right, "/": lambda: left // right, "%": lambda: left % right,
            "**": lambda: left**right, "=": lambda: left == right, "!=": lambda: left != right, "<": lambda: left < right, "<=": lambda: left <= right,
            ">": lambda: left > right, ">=": lambda: left >= right, "/\\": lambda: bool(left and right), "\\/": lambda: bool(left or right),
            "->": lambda: bool(not left or right), "<->": lambda: bool(left) == bool(right),
        }[sign]()

    def of_within(self, node):
        return self.number(node.parts[0]) in self.values(node.more)

    def each(self, names, domain):
        """Sets names to each list of values of a domain in turn."""
        kept = {it.text: self.names.get(it.text) for it in names}

        def level(at):
            if at == len(names):
                yield
                return
            for value in self.values(domain):
                self.step()
                self.names[names[at].text] = value
                yield from level(at + 1)

        try:
            yield from level(0)
        finally:
            for name, found in kept.items():
                if found is None:
                    self.names.pop(name, None)
                else:
                    self.names[name] = found

    def of_quantifier(self, node):
        found = [self.number(node.parts[0]) for _ in self.each(*node.more)]
        return {"sum": lambda: sum(found), "forAll": lambda: all(found), "exists": lambda: any(found)}[node.token.text]()

    def of_read(self, node):
        value = self.of(node.parts[0])
        if not isinstance(value, Array):
            raise Unknown
        return self.inside(value, node.more)

    def inside(self, value, indices):
        for at, it in enumerate(indices):
            if it is None:
                return Array([self.inside(one, indices[at + 1 :]) for one in value.parts], value.indices)
            index = self.number(it)
            if index not in value.indices:
                raise Undefined
            value = value.parts[list(value.indices).index(index)]
        return value

    def of_list(self, node):
        parts = [self.of(it) for it in node.parts]
        if any(isinstance(it, Open) for it in parts):
            raise Unknown
        return Array(parts, self.values(node.more) if node.more else None)

    def of_comprehension(self, node):
        generators, conditions, indices = node.more
        found = []

        def level(at):
            if at < len(generators):
                for _ in self.each(*generators[at]):
                    level(at + 1)
            elif all(self.number(it) for it in conditions):
                found.append(self.of(node.parts[0]))

        level(0)
        return Array(found, self.values(indices) if indices else None)

    def of_call(self, node):
        parts = [self.of(it) for it in node.parts]
        if any(isinstance(it, Open) for it in parts):
            raise Unknown
        flat = list(parts[0].flat()) if isinstance(parts[0], Array) else [int(it) for it in parts]
        name = node.token.text
        if name in ("min", "max"):
            if not flat:
                raise Undefined
            return (min if name == "min" else max)(flat)
        if name in ("sum", "product"):
            return sum(flat) if name == "sum" else math.prod(flat)
        if name in ("and", "or"):
            return all(flat) if name == "and" else any(flat)
        if name == "toInt":
            return int(parts[0])
        if name == "factorial":
            if not 0 <= flat[0] <= 50:
                raise Undefined if flat[0] < 0 else Unknown
            return math.factorial(flat[0])
        if name == "flatten":
            return Array(flat)
        if name == "allDiff":
            return len(set(flat)) == len(flat)
        raise Unknown


class Misfit(Exception):
    """Why a value doesn't fit its domain, in words, and which part of it: the positions in its lists, from 0."""

    def __init__(self, why, at=()):
        super().__init__(why)
        self.at = at


def fitted(value, domain, evaluator, where="", at=()):
    """A value as a domain takes it, with the domain's indices; raises Misfit where it doesn't fit."""
    if domain.kind == "matrix":
        dimensions, element = domain.parts[:-1], domain.parts[-1]
        if not dimensions:
            return fitted(value, element, evaluator, where, at)
        indices = evaluator.values(dimensions[0])
        what = f"its entry [{where}]" if where else "it"
        if not isinstance(value, Array):
            raise Misfit(f"{what} is {'no list' if where else 'a single value'}, and a list of {len(indices)} parts is wanted", at)
        if len(value.parts) != len(indices):
            raise Misfit(f"{what} has {len(value.parts)} parts, and {len(indices)} are wanted: {shortly(indices)}", at)
        rest = Node("matrix", domain.first, domain.token, [*dimensions[1:], element]) if dimensions[1:] else element
        inner = zip(value.parts, indices, range(len(indices)))
        return Array([fitted(it, rest, evaluator, f"{where}, {index}" if where else str(index), (*at, number)) for it, index, number in inner], indices)
    what = f"its entry [{where}]" if where else "it"
    if isinstance(value, Array):
        raise Misfit(f"{what} is a list of {len(value.parts)} parts, and a single value is wanted", at)
    if domain.kind == "bool" and not isinstance(value, bool):
        raise Misfit(f"{what} is {value}, and a truth value is wanted: `true` or `false`", at)
    if domain.kind == "int" and any(None in it.parts for it in domain.parts) or domain.kind == "int" and not domain.parts:
        for it in domain.parts:
            low, high = (evaluator.number(one) if one is not None else None for one in it.parts)
            if (low is None or low <= value) and (high is None or value <= high):
                return value
        if domain.parts:
            raise Misfit(f"{what} is {int(value)}, outside of its domain", at)
        return value
    if domain.kind != "bool" and int(value) not in evaluator.values(domain):
        raise Misfit(f"{what} is {int(value)}, and the domain is {shortly(evaluator.values(domain))}", at)
    return value


def shortly(numbers):
    """Numbers as a domain."""
    runs = []
    for it in numbers:
        if runs and it == runs[-1][1] + 1:
            runs[-1][1] = it
        else:
            runs.append([it, it])
    shown = ", ".join(f"{low}..{high}" if low != high else str(low) for low, high in runs[:4])
    return f"int({shown}{', ..' if len(runs) > 4 else ''})"


class Instance:
    """A model with its parameters, as far as their values can be found. `misfits` has why a `given` has no value."""

    def __init__(self, model, params):
        self.text = model
        self.model, self.params = Reader(model).statements(), Reader(params).statements() if params else []
        self.evaluator, self.misfits = Evaluator(), {}
        given = Evaluator()
        for it in self.params:
            try:
                if it.kind == "letting":
                    given.names[it.names[0].text] = given.of(it.parts[0])
                elif it.kind == "domain":
                    given.names[it.names[0].text] = given.values(it.domain)
            except (Undefined, Unknown, IndexError, AttributeError, ValueError):
                pass
        names = self.evaluator.names
        for it in self.model:
            try:
                if it.kind == "given":
                    for group in it.parts:
                        for name in group.names:
                            if name.text in given.names:
                                try:
                                    names[name.text] = fitted(given.names[name.text], group.domain, self.evaluator)
                                except Misfit as why:
                                    self.misfits[name.text] = why
                elif it.kind == "letting":
                    names[it.names[0].text] = self.evaluator.of(it.parts[0])
                elif it.kind == "domain":
                    names[it.names[0].text] = self.evaluator.values(it.domain)
                elif it.kind == "find":
                    for group in it.parts:
                        inner = group.domain.parts if group.domain.kind == "matrix" else [group.domain]
                        opened = Open([self.evaluator.values(one) for one in inner[:-1]], inner[-1].kind == "bool")
                        names.update({one.text: opened for one in group.names})
            except (Undefined, Unknown, IndexError, AttributeError, ValueError):
                pass

    def reads_outside(self, limit=3):
        """Reads whose index is known and lies outside of its matrix: the node, which index, its value, the indices that there are, and the names' values."""
        found = {}
        walker = Walker(self.evaluator, found)
        for it in self.model:
            if it.kind in ("such", "objective"):
                for one in it.parts:
                    try:
                        walker.walk(one)
                    except (Undefined, Unknown, IndexError, AttributeError, ValueError, RecursionError):
                        continue
        return list(itertools.islice(found.values(), limit))


class Walker:
    """Goes through trees under all values of the quantified names, and notes reads that go outside."""

    def __init__(self, evaluator, found):
        self.evaluator, self.found, self.bound = evaluator, found, []

    def known(self, node):
        """Whether a node is true, or None where that isn't known."""
        try:
            return bool(self.evaluator.number(node))
        except (Undefined, Unknown, IndexError, AttributeError, ValueError):
            return None

    def walk(self, node):
        self.evaluator.step()
        if node.kind == "quantifier":
            self.scope([node.more], [], node.parts[0])
            return
        if node.kind == "comprehension":
            self.scope(node.more[0], node.more[1], node.parts[0])
            return
        if node.kind == "binary" and node.token.text in ("->", "/\\", "\\/"):
            left = self.known(node.parts[0])
            if left is not None:
                # What stands behind a premise that is false says nothing.
                if left == (node.token.text != "\\/"):
                    self.walk(node.parts[1])
                return
        if node.kind == "read":
            self.read(node)
            for it in node.more:
                if it is not None:
                    self.walk(it)
        for it in node.parts:
            self.walk(it)

    def scope(self, generators, conditions, body):
        if not generators:
            if all(self.known(it) is not False for it in conditions):
                self.walk(body)
            return
        names, domain = generators[0]
        self.bound += names
        try:
            for _ in self.evaluator.each(names, domain):
                self.scope(generators[1:], conditions, body)
        finally:
            del self.bound[len(self.bound) - len(names) :]

    def read(self, node):
        if node.parts[0].kind != "name" or (node.first.line, node.first.column) in self.found:
            return
        value = self.evaluator.names.get(node.parts[0].token.text)
        dimensions = value.dimensions if isinstance(value, Open) else value.dimensions() if isinstance(value, Array) else []
        for at, (it, indices) in enumerate(zip(node.more, dimensions), 1):
            if it is None:
                continue
            try:
                index = self.evaluator.number(it)
            except (Undefined, Unknown, IndexError, AttributeError, ValueError):
                continue
            if index not in indices:
                here = {one.text: self.evaluator.names.get(one.text) for one in self.bound}
                self.found[(node.first.line, node.first.column)] = (node, at, index, indices, here, getattr(value, "is_bool", False))
                return


def failing(evaluator, node):
    """Where a tree that is false is so: the values of the names of its outer `forAll`, and the part that is false for them."""
    if node.kind == "brackets":
        return failing(evaluator, node.parts[0])
    if node.kind == "quantifier" and node.token.text == "forAll":
        names, domain = node.more
        for _ in evaluator.each(names, domain):
            if not evaluator.number(node.parts[0]):
                here = {it.text: evaluator.names[it.text] for it in names}
                inner, part = failing(evaluator, node.parts[0])
                return {**here, **inner}, part
    if node.kind == "binary" and node.token.text == "/\\":
        for it in node.parts:
            if not evaluator.number(it):
                return failing(evaluator, it)
    return {}, node


class Weigher:
    """Estimates how many nodes a tree has once its quantifiers are written out: of the values of a domain the first, the middle and the last are tried."""

    def __init__(self, evaluator):
        self.evaluator = evaluator

    def nodes(self, node):
        self.evaluator.step()
        if node.kind == "quantifier":
            return 1 + self.scope([node.more], node.parts[0], [])
        if node.kind == "comprehension":
            return 1 + self.scope(node.more[0], node.parts[0], node.more[1])
        more = node.more if node.kind == "read" else []
        return 1 + sum(self.nodes(it) for it in [*node.parts, *(one for one in more if one is not None)] if it.kind != "range")

    def scope(self, generators, body, conditions):
        if not generators:
            return self.nodes(body) + sum(self.nodes(it) for it in conditions)
        names, domain = generators[0]
        if len(names) > 1:
            return self.scope([([it], domain) for it in names] + generators[1:], body, conditions)
        values = self.evaluator.values(domain)
        if not values:
            return 0
        tried = sorted({values[0], values[len(values) // 2], values[-1]})
        found, kept = 0, self.evaluator.names.get(names[0].text)
        for it in tried:
            self.evaluator.names[names[0].text] = it
            found += self.scope(generators[1:], body, conditions)
        self.evaluator.names[names[0].text] = kept
        return round(found / len(tried) * len(values))


def nodes_of(instance, node):
    """An estimate of the nodes of a tree of an instance, or None where there is none."""
    try:
        return Weigher(instance.evaluator).nodes(node)
    except (Undefined, Unknown, IndexError, AttributeError, ValueError):
        return None


def widest(instance, limit=3):
    """The decision variables with the most values in all their cells: how many cells, how many values each, and the name."""
    found = []
    for it in instance.model:
        for group in it.parts if it.kind == "find" else ():
            parts = group.domain.parts if group.domain.kind == "matrix" else [group.domain]
            try:
                cells = math.prod(len(instance.evaluator.values(one)) for one in parts[:-1])
                found += [(cells, wide(instance.evaluator, parts[-1]), name) for name in group.names]
            except (Undefined, Unknown, IndexError, AttributeError, ValueError):
                continue
    return sorted(found, key=lambda it: -it[0] * it[1])[:limit]


def wide(evaluator, domain):
    """How many values a domain has, by its ends."""
    if domain.kind == "int" and domain.parts:
        return sum(max(0, evaluator.number(it.parts[1]) - evaluator.number(it.parts[0]) + 1) for it in domain.parts)
    return len(evaluator.values(domain))
