"""Draws texts of the language by a number: a model, and parameters where it has some.

They are typed by construction, and nearly all are legal: what stands in a domain or a letting holds no decision variable and has a value, and parts are drawn within a room of size and weight, reckoned as the
limits measure them (docs/LANGUAGE.md, "Limits") or above. In constraints anything may lack a value.
"""
import random
from collections import Counter
from dataclasses import dataclass, field

HEAD = "language ESSENCE' 1.0\n"
# The limits of size, of weight and of reach.
SIZE, WEIGHT, FAR = 5_000_000, 20_000_000, 1 << 40
# The most parts that are written out in one list or chain, but where it is the only large thing of a text.
WRITTEN = 12
# What may stand in a place: anything; no decision variable; neither that nor what may lack a value.
ANY, FIXED, SURE = 0, 1, 2
# How tightly the forms bind (docs/LANGUAGE.md, "Expressions"); a quantifier reaches as far right as it can.
ATOM, READ, UNARY, POWER, TIMES, PLUS, COMPARED, AND, OR, ARROW, OPEN = range(1, 12)


@dataclass
class Part:
    """A part of a text: its form, its parts, its type, how tightly it binds, its numbers from low to high, how many of them, and the size and weight that are reckoned for it."""

    form: str
    text: str
    # Bool or Int, and the number of dimensions.
    kind: str = "int"
    dimensions: int = 0
    level: int = ATOM
    parts: tuple = ()
    low: int = 0
    high: int = 1
    spread: int = 2
    is_decided: bool = False
    cost: int = 1
    # Of a matrix how many numbers it has, and of each dimension the numbers of its indices, where they are known.
    count: int = 1
    indices: tuple = ()

    @property
    def width(self):
        """The width, or less where the numbers are few and far from each other: else no such part were small enough."""
        return max(0, min(self.high - self.low + 1, 50 * max(1, self.spread)))


@dataclass
class Domain:
    """A domain: the numbers that it has as runs in order, as far as they are known, else runs that have them."""

    form: str
    text: str
    runs: list
    kind: str = "int"
    parts: tuple = ()
    is_exact: bool = True
    is_low: bool = True
    cost: int = 0
    is_decided: bool = False

    @property
    def count(self):
        return sum(high - low + 1 for low, high in self.runs)

    @property
    def low(self):
        return self.runs[0][0] if self.runs else 0

    @property
    def high(self):
        return self.runs[-1][1] if self.runs else 0

    def at(self, place):
        """The number that stands at a place among its numbers."""
        for low, high in self.runs:
            if place <= high - low:
                return low + place
            place -= high - low + 1
        raise IndexError(place)


def united(runs):
    """Runs in order, without overlaps."""
    made = []
    for low, high in sorted(it for it in runs if it[0] <= it[1]):
        if made and low <= made[-1][1] + 1:
            made[-1] = (made[-1][0], max(high, made[-1][1]))
        else:
            made.append((low, high))
    return made


def common(one, other):
    return united((max(a, c), min(b, d)) for a, b in one for c, d in other)


def without(one, other):
    left = list(one)
    for low, high in other:
        left = [it for a, b in left for it in ((a, min(b, low - 1)), (max(a, high + 1), b)) if it[0] <= it[1]]
    return united(left)


def sum_cost(width, spreads, parts):
    """The weight of a sum."""
    return min(width * spreads, 8 * (width + spreads) + 1024 * parts)


def node(form, pattern, level, kind, parts, reach=(0, 1), weight=0, dimensions=0, spread=None, count=1, indices=()):
    """A part made of parts, whose texts stand in the pattern; it weighs so much where one of them holds a decision variable."""
    is_decided = any(it.is_decided for it in parts)
    return Part(
        form, pattern.format(*(it.text for it in parts)), kind, dimensions, level, tuple(parts), *reach, max(0, reach[1] - reach[0] + 1) if spread is None else spread,
        is_decided, 1 + sum(it.cost for it in parts) + (weight if is_decided else 0), count, indices,
    )


def at(part, level):
    """The part as it may stand where only what binds so tightly stands: in brackets, if need be."""
    if part.level <= level:
        return part
    return node("group", "({})", ATOM, part.kind, [part], (part.low, part.high), 0, part.dimensions, part.spread, part.count, part.indices)


def joined(parts, between=", "):
    """The pattern of so many parts with a text between them."""
    return between.join(["{}"] * len(parts))


@dataclass
class Text:
    """A drawn text, with what was reckoned of it."""

    model: str
    params: str
    mode: str
    shape: str
    forms: Counter
    cells: int
    values: int
    # What is evaluated before the search and isn't counted as size of the instance: the nodes of lettings, domains and conditions.
    evaluated: int
    finds: list
    room: int


@dataclass
class Drawer:
    """One text while it is drawn."""

    random: random.Random
    names: list = field(default_factory=list)
    bound: dict = field(default_factory=dict)
    domains: list = field(default_factory=list)
    points: list = field(default_factory=list)
    # Decision variables, and the quantified names that are open.
    decided: list = field(default_factory=list)
    open_names: list = field(default_factory=list)
    fresh: int = 0

    # Chances and numbers.

    def chance(self, likely):
        return self.random.random() < likely

    def number(self, low, high):
        return self.random.randint(low, max(low, high))

    def upto(self, most):
        """A number from 1 to so many, each order of size as likely as another."""
        return max(1, min(int(most), int(max(1, most) ** self.random.random())))

    def share(self, room, parts):
        """Room for each of some parts: evenly, or most of it for one."""
        if parts < 1:
            return []
        if self.chance(0.5):
            return [room // parts] * parts
        small = room // (4 * parts)
        shares = [small] * parts
        shares[self.number(0, parts - 1)] += room - small * parts
        return shares

    # Names.

    def new_name(self, first="v"):
        self.fresh += 1
        return f"{first}{self.fresh}"

    def declare(self, part, is_public=True):
        """Lets a name be used, as the part that it is."""
        if part.text not in self.bound:
            self.names.append(part.text)
            self.bound[part.text] = []
        self.bound[part.text].append(part)
        if part.is_decided:
            self.decided.append(part)
        if part.form == "quantified name":
            self.open_names.append(part)
        if is_public and part.dimensions == 0 and part.kind == "int" and part.low == part.high and not part.is_decided:
            self.points.append(part)

    def forget(self, name):
        gone = self.bound[name].pop()
        if gone.form == "quantified name":
            self.open_names.remove(gone)
        if not self.bound[name]:
            del self.bound[name]
            self.names.remove(name)

    def known(self, holds, tries=12):
        """A name that is as wanted, or None."""
        for _ in range(min(tries, 2 * len(self.names))):
            found = self.bound[self.random.choice(self.names)][-1]
            if holds(found):
                return found
        return None

    def matrix_name(self, kind, dimensions, ask, room):
        if not ask and self.decided and self.chance(0.7):
            found = self.random.choice(self.decided)
            if found.dimensions and (not dimensions or found.dimensions == dimensions) and kind in (found.kind, "int") and found.count <= room + 4 and self.bound.get(found.text, [None])[-1] is found:
                return found
        return self.known(lambda it: it.dimensions and (not dimensions or it.dimensions == dimensions) and kind in (it.kind, "int") and not (ask and it.is_decided) and it.count <= room + 4)

    # Numbers and leaves.

    def literal(self, value):
        if value < 0:
            return node("minus", "-{}", UNARY, "int", [Part("number", str(-value), low=-value, high=-value, spread=1)], (value, value), spread=1)
        return Part("number", str(value), low=value, high=value, spread=1)

    def told(self, value):
        """A number, said in one of several ways."""
        near = [it for it in self.points if abs(it.low - value) < 1000 and self.bound.get(it.text, [None])[-1] is it]
        if near and self.chance(0.5):
            it = self.random.choice(near)
            if it.low == value:
                return it
            rest = abs(value - it.low)
            return node("chain", "{} + {}" if value > it.low else "{} - {}", PLUS, "int", [it, self.literal(rest)], (value, value), spread=1)
        if value > 3 and self.chance(0.05) and value % 2 == 0:
            return node("times", "{} * {}", TIMES, "int", [self.literal(2), self.literal(value // 2)], (value, value), spread=1)
        return self.literal(value)

    def leaf(self, kind, ask, most=1 << 20):
        if kind == "bool":
            found = self.decision("bool") if not ask and self.chance(0.6) else None
            found = found or (self.known(lambda it: it.kind == "bool" and not it.dimensions and not (ask and it.is_decided)) if self.chance(0.8) else None)
            if found:
                return found
            value = self.number(0, 1)
            return Part("truth", ("false", "true")[value], "bool", low=value, high=value, spread=1)
        if not ask and self.chance(0.75):
            found = self.decision("int", most)
            if found:
                return found
        found = self.known(lambda it: not it.dimensions and it.width <= most and not (ask and it.is_decided) and (it.kind == "int" or self.chance(0.2))) if self.chance(0.75) else None
        if found:
            return found
        return self.told(self.some_number())

    def decision(self, kind, most=1 << 20):
        """A decision variable, or a cell of a matrix of them, at indices that are numbers or quantified names."""
        for _ in range(min(4, len(self.decided))):
            found = self.random.choice(self.decided)
            if self.bound.get(found.text, [None])[-1] is not found or found.kind != kind and (kind == "bool" or self.chance(0.7)) or found.width > most:
                continue
            if not found.dimensions:
                return found
            if found.dimensions <= 6 and all(it.count for it in found.indices):
                places = [self.plain_place(it) for it in found.indices]
                return node("read", "{}[" + joined(places) + "]", READ, found.kind, [found, *places], (found.low, found.high), 0, spread=found.spread)
        return None

    def plain_place(self, indices):
        for it in reversed(self.open_names[-4:]):
            if indices.low <= it.low and it.high <= indices.high and self.chance(0.8):
                return it
        return self.told(indices.at(self.number(0, indices.count - 1)))

    def some_number(self):
        if self.chance(0.02):
            return self.random.choice((-1, 1)) * self.upto(FAR)
        return self.number(-2, 9) if self.chance(0.8) else self.upto(2000)

    # Domains.

    def domain(self, most, is_exact=False, far=0.0):
        """A scalar domain of at most so many numbers; where it has to be exact, its bounds have no quantified names."""
        for _ in range(8):
            draw = self.random.choice((self.matrix_indices, self.matrix_indices, self.named_domain, self.bool_domain, self.span, self.span, self.span, self.pieces, self.set_domain, self.far_domain))
            if draw == self.far_domain and not self.chance(far):
                continue
            made = draw(most, is_exact)
            if made and made.count <= most and (made.count or self.chance(0.1)):
                if self.chance(0.05):
                    made = Domain("group_domain", f"({made.text})", made.runs, made.kind, (made,), made.is_exact, True, made.cost)
                return made
        return self.span(most, True)

    def places(self, most, ask):
        """A domain for a quantified name: often the indices of a matrix."""
        return (self.chance(0.4) and self.matrix_indices(most, ask == SURE)) or self.domain(most, ask == SURE)

    def named_domain(self, most, is_exact):
        fit = [it for it in self.domains if it.count <= most]
        return self.random.choice(fit) if fit else None

    def matrix_indices(self, most, is_exact):
        """The indices of a matrix of decision variables."""
        fit = [it for it in self.decided[-6:] if it.dimensions]
        if is_exact or not fit:
            return None
        it = self.random.choice(self.random.choice(fit).indices)
        return it if it.count <= most else None

    def bool_domain(self, most, is_exact):
        return Domain("bool", "bool", [(0, 1)], "bool") if self.chance(0.4) else None

    def span(self, most, is_exact, low=None):
        """From one number to another, seldom without any between them."""
        if not is_exact and self.chance(0.25):
            made = self.open_span(most)
            if made:
                return made
        low = self.random.choice((1, 1, 0, 2, -1, -3, self.number(-20, 20))) if low is None else low
        high = low - 1 + (max(min(2, most), self.upto(most)) if not self.chance(0.03) else self.number(0, min(1, most)))
        one, other = self.told(low), self.told(high)
        return Domain("ranges", f"int({one.text}..{other.text})", united([(low, high)]), parts=(one, other), cost=one.cost + other.cost)

    def open_span(self, most):
        """From or to a quantified name."""
        it = self.known(lambda it: not it.dimensions and not it.is_decided and it.kind == "int" and 1 < it.width <= most and it.form == "quantified name")
        if not it:
            return None
        if self.chance(0.5):
            end = self.told(it.high + self.number(-1, 2))
            return Domain("ranges", f"int({it.text}..{end.text})", united([(it.low, end.low)]), parts=(it, end), is_exact=False, cost=it.cost + end.cost)
        end = self.told(it.low + self.number(-1, 1))
        return Domain("ranges", f"int({end.text}..{it.text})", united([(end.low, it.high)]), parts=(it, end), is_exact=False, cost=it.cost + end.cost)

    def pieces(self, most, is_exact):
        """Several ranges and numbers, which may overlap."""
        texts, runs, parts = [], [], []
        for _ in range(self.number(1, 4) if self.chance(0.9) else self.upto(300)):
            low = self.number(-3, 9) if self.chance(0.8) else self.number(-1000, 1000)
            high = low + (self.upto(max(1, most // 4)) - 1 if self.chance(0.5) else 0)
            ends = [self.told(low)] + ([self.told(high)] if high > low else [])
            texts.append("..".join(it.text for it in ends))
            runs.append((low, high))
            parts += ends
        return Domain("ranges", f"int({', '.join(texts)})", united(runs), parts=tuple(parts), cost=sum(it.cost for it in parts))

    def far_domain(self, most, is_exact):
        """Few numbers, far from each other."""
        if most < 2:
            return None
        reach = 10 ** self.number(3, 12)
        values = sorted({self.number(-reach if self.chance(0.5) else 0, reach) for _ in range(self.number(2, min(most, 5)))})
        values = [max(-FAR, min(FAR, it)) for it in values]
        parts = tuple(self.literal(it) for it in values)
        return Domain("ranges", f"int({', '.join(it.text for it in parts)})", united((it, it) for it in values), parts=parts, cost=len(parts))

    def set_domain(self, most, is_exact):
        one, other = self.domain(most, is_exact), self.domain(most, is_exact)
        word, does = self.random.choice((("union", lambda a, b: united(a + b)), ("intersect", common), ("-", without)))
        if one.kind != other.kind:
            return None
        right = other.text if other.is_low else f"({other.text})"
        runs = does(one.runs, other.runs) if one.is_exact and other.is_exact else united(one.runs + other.runs)
        return Domain("set_domain", f"{one.text} {word} {right}", runs, one.kind, (one, other), one.is_exact and other.is_exact, False, one.cost + other.cost)

    def index_domain(self, count):
        """A domain of exactly so many numbers."""
        fit = [it for it in self.domains if it.count == count and it.is_exact]
        if fit and self.chance(0.5):
            return self.random.choice(fit)
        if count == 2 and self.chance(0.1):
            return Domain("bool", "bool", [(0, 1)], "bool")
        low = self.random.choice((1, 1, 1, 0, -2, 5))
        if count > 2 and self.chance(0.15):
            parts = (self.told(low), self.told(low + 2), self.told(low + count))
            return Domain("ranges", f"int({parts[0].text}, {parts[1].text}..{parts[2].text})", united([(low, low), (low + 2, low + count)]), parts=parts, cost=3)
        parts = (self.told(low), self.told(low + count - 1))
        return Domain("ranges", f"int({parts[0].text}..{parts[1].text})", united([(low, low + count - 1)]), parts=parts, cost=sum(it.cost for it in parts))

    # Integers.

    def integer(self, room, ask=ANY, most=None):
        most = max(2, room if most is None else most)
        for _ in range(5):
            if room < 4 or room < 400 and self.chance(0.12):
                break
            made = self.random.choice(self.INTEGERS)(self, room, ask, most)
            if made and made.cost <= 2 * room and made.width <= most and -FAR <= made.low and made.high <= FAR and self.is_wanted(made, ask):
                return made
        return self.leaf("int", ask, most)

    def is_wanted(self, made, ask):
        """Whether a part is taken: a small one, where decision variables may stand, most often if it has one."""
        return made.is_decided or ask != ANY or not self.decided or made.cost > 12 or self.chance(0.4)

    def minus(self, room, ask, most):
        it = at(self.integer(room // 2, ask, min(most, room // 2)), UNARY)
        return node("minus", "-{}", UNARY, "int", [it], (-it.high, -it.low), it.spread, spread=it.spread)

    def bars(self, room, ask, most):
        it = self.integer(room // 2, ask, min(most, room // 2))
        ends = (abs(it.low), abs(it.high))
        return node("bars", "|{}|", ATOM, "int", [it], (0 if it.low <= 0 <= it.high else min(ends), max(ends)), it.spread)

    def chain(self, room, ask, most):
        count = self.number(2, 5) if self.chance(0.9) else self.number(2, min(WRITTEN * 4, 2 + room // 4))
        parts, pattern, low, high = [], "", 0, 0
        for share in self.share(room // 2, count):
            part, sign = at(self.integer(share, ask, min(share, most // count)), TIMES), self.chance(0.6) or not parts
            pattern += ("{}" if not parts else " + {}" if sign else " - {}")
            low, high = (low + part.low, high + part.high) if sign else (low - part.high, high - part.low)
            parts.append(part)
        decided = [it for it in parts if it.is_decided]
        return node("chain", pattern, PLUS, "int", parts, (low, high), sum_cost(high - low + 1, sum(it.spread for it in decided), len(decided)))

    def two(self, room, ask, most):
        """Two parts, one of them often a number."""
        left, right = self.share(room // 3, 2)
        one = self.integer(left, ask, most)
        return one, self.told(self.some_number()) if self.chance(0.4) else self.integer(right, ask, most)

    def times(self, room, ask, most):
        one, other = self.two(room, ask, max(2, int(min(most, room) ** 0.5)))
        ends = [a * b for a in (one.low, one.high) for b in (other.low, other.high)]
        spread = None if one.is_decided == other.is_decided else one.spread if one.is_decided else other.spread
        return node("times", "{} * {}", TIMES, "int", [at(one, TIMES), at(other, POWER)], (min(ends), max(ends)), one.spread * other.spread, spread=spread)

    def divisor(self, one, other, ask):
        return other if ask != SURE else self.literal(self.random.choice((1, 2, 3, 7, 10)))

    def quotient(self, room, ask, most):
        one, other = self.two(room, ask, max(2, int(min(most, room) ** 0.5)))
        other, end = self.divisor(one, other, ask), max(abs(one.low), abs(one.high))
        return node("quotient", "{} / {}", TIMES, "int", [at(one, TIMES), at(other, POWER)], (-end, end), one.spread * other.spread)

    def remainder(self, room, ask, most):
        one, other = self.two(room, ask, max(2, int(room ** 0.5)))
        other = self.divisor(one, other, ask)
        end = max(1, abs(other.low), abs(other.high)) - 1
        return node("remainder", "{} % {}", TIMES, "int", [at(one, TIMES), at(other, POWER)], (0 if other.low >= 0 else -end, 0 if other.high <= 0 else end), one.spread * other.spread)

    def power(self, room, ask, most):
        one = at(self.integer(room // 3, ask, max(2, int(min(most, room) ** 0.5))), POWER)
        end = max(abs(one.low), abs(one.high))
        if end <= 1 and self.chance(0.3):
            other = self.literal(self.number(100, 1_000_000))
        elif self.chance(0.1) and ask != SURE:
            other = self.integer(4, FIXED)
            if end > 1 and other.high > 6:
                return None
        else:
            other = self.literal(self.number(0, 4 if end < 1000 else 2))
        least, top = other.low, max(0, other.high)
        top = top if end > 1 else min(top, 2)
        high = end**top
        is_even = least == other.high and other.high % 2 == 0
        reach = (1, 1) if other.high == 0 == least else (0 if one.low >= 0 or is_even else -high, max(1, high))
        return node("power", "{} ** {}", POWER, "int", [one, at(other, UNARY)], reach, one.spread)

    def of_two(self, room, ask, most):
        one, other = self.two(room, ask, max(2, int(min(most, room) ** 0.5)))
        word = self.random.choice(("min", "max"))
        does = min if word == "min" else max
        return node(f"{word} of two", word + "({}, {})", ATOM, "int", [one, other], (does(one.low, other.low), does(one.high, other.high)), one.spread * other.spread)

    def to_int(self, room, ask, most):
        return node("toInt", "toInt({})", ATOM, "int", [self.boolean(room // 2, ask)], (0, 1))

    def truth_as_number(self, room, ask, most):
        it = at(self.boolean(room // 2, ask), UNARY)
        return Part(**{**it.__dict__, "kind": "bool"})

    def factorial(self, room, ask, most):
        it = self.literal(self.number(0, 12)) if ask == SURE or self.chance(0.7) else self.integer(4, FIXED)
        if it.high > 14 or it.width > 1:
            return None
        value = 1
        for factor in range(2, it.high + 1):
            value *= factor
        return node("factorial", "factorial({})", ATOM, "int", [it], (value, value), spread=1)

    def sum_over(self, room, ask, most):
        return self.quantified("sum", room, ask, most)

    def folded(self, room, ask, most):
        word = self.random.choice(("sum", "sum", "product", "min", "max"))
        if word == "product":
            it = self.matrix("int", self.number(1, 2), min(room // 4, 40), ask, 3)
        else:
            it = self.matrix("int", self.number(1, 2), room // 3, ask, max(2, int(room**0.5)))
        if ask == SURE and word in ("min", "max"):
            return None
        count, far = it.count, max(abs(it.low), abs(it.high))
        if word == "sum":
            reach, weight = (min(0, count * it.low), max(0, count * it.high)), sum_cost(count * max(0, it.width - 1) + 1, count * it.spread, count)
        elif word == "product":
            if far > 1 and count > 30:
                return None
            top = far**count if far > 1 else 1
            reach, weight = (-top if it.low < 0 else 0, max(1, top)), count * max(1, top) * it.spread
        else:
            reach, weight = (min(0, it.low), max(0, it.high)), count * it.width * it.spread
        return node(f"{word} of matrix", word + "({})", ATOM, "int", [it], reach, weight)

    def integer_read(self, room, ask, most):
        return self.scalar_read("int", room, ask)

    def group(self, room, ask, most):
        it = self.integer(room - 1, ask, most)
        return node("group", "({})", ATOM, it.kind, [it], (it.low, it.high), spread=it.spread)

    # Booleans.

    def boolean(self, room, ask=ANY):
        for _ in range(5):
            if room < 4 or room < 400 and self.chance(0.08):
                break
            made = self.random.choice(self.BOOLEANS if room < 4000 or self.chance(0.5) else self.LARGE)(self, room, ask)
            if made and made.cost <= 2 * room and self.is_wanted(made, ask):
                return made
        return self.compared(room, ask) if room >= 4 and self.chance(0.6) else self.leaf("bool", ask)

    def compared(self, room, ask):
        left, right = self.share(room // 2, 2)
        one, other = self.integer(left, ask, room // 3), self.integer(right, ask, room // 3) if self.chance(0.6) else None
        if other is None:
            other = self.told(self.number(one.low, one.high) if one.high > one.low and self.chance(0.8) else self.some_number())
        if self.chance(0.2):
            one, other = other, one
        word = self.random.choice(("=", "=", "!=", "!=", "<", "<=", ">", ">="))
        return node(word, "{} " + word + " {}", COMPARED, "bool", [at(one, PLUS), at(other, PLUS)], weight=one.width + other.width)

    def negation(self, room, ask):
        return node("negation", "!{}", UNARY, "bool", [at(self.boolean(room - 3, ask), UNARY)], weight=2)

    def connected(self, room, ask):
        count = self.number(2, 4) if self.chance(0.9) else self.number(2, WRITTEN * 3)
        word, level = self.random.choice((("/\\", AND), ("\\/", OR)))
        parts = [at(self.boolean(it, ask), level - 1) for it in self.share(room - 2, count)]
        return node(word, joined(parts, f" {word} "), level, "bool", parts, weight=count + 1)

    def arrow(self, room, ask):
        word = self.random.choice(("->", "<->"))
        left, right = self.share(room - 4, 2)
        return node(word, "{} " + word + " {}", ARROW, "bool", [at(self.boolean(left, ask), ARROW), at(self.boolean(right, ask), OR)], weight=3)

    def in_order(self, room, ask):
        left, right = self.share(room // 3, 2)
        one, other = self.matrix("int", 1, left, ask), self.matrix("int", 1, right, ask)
        word = self.random.choice(("<lex", "<=lex", ">lex", ">=lex"))
        return node(word, "{} " + word + " {}", COMPARED, "bool", [at(one, PLUS), at(other, PLUS)], weight=one.count * one.width + other.count * other.width)

    def in_domain(self, room, ask):
        it, domain = at(self.integer(room // 2, ask, room // 2), PLUS), self.domain(max(2, room), ask == SURE, 0.1)
        return node("in domain", "{} in {}", COMPARED, "bool", [it, domain], weight=it.width)

    def in_set(self, room, ask):
        it = at(self.integer(room // 4, ask, max(2, room // 20)), PLUS)
        of = self.matrix("int", self.number(1, 2), room // max(4, it.width), ask)
        return node("toSet", "{} in toSet({})", COMPARED, "bool", [it, of], weight=of.count * (it.width + of.width))

    def for_all(self, room, ask):
        return self.quantified("forAll", room, ask)

    def exists(self, room, ask):
        return self.quantified("exists", room, ask)

    def all_or_any(self, room, ask):
        word = self.random.choice(("and", "or"))
        it = self.matrix("bool", self.number(1, 2), room // 2, ask)
        return node(f"{word} of matrix", word + "({})", ATOM, "bool", [it], weight=it.count + 1)

    def all_different(self, room, ask):
        it = self.matrix("int", self.number(1, 2), room // 3, ask, max(2, int(room**0.4)))
        return node("allDiff", "allDiff({})", ATOM, "bool", [it], weight=it.count * it.count * it.width)

    def counted(self, room, ask):
        word = self.random.choice(("gcc", "atleast", "atmost"))
        of = self.matrix("int", self.number(1, 2), int(room**0.6), ask, max(2, int(room**0.4)))
        count = self.number(1, 4) if self.chance(0.95) else 0
        numbers = [self.told(self.number(of.low, of.high) if of.high - of.low < 1000 else self.some_number()) for _ in range(count)]
        values = self.listed(numbers, "int")
        if word == "gcc":
            counts = self.listed([self.integer(room // (4 * max(1, count)), ask, max(2, of.count)) for _ in range(count)], "int")
        else:
            counts = self.listed([self.told(self.number(0, of.count)) for _ in range(count)], "int")
        if ask != SURE and self.chance(0.03):
            counts = self.listed([self.told(1)] * (count + 1), "int")
        parts = [of, values, counts] if word == "gcc" else [of, counts, values]
        return node(word, word + "({}, {}, {})", ATOM, "bool", parts, weight=count * of.count * (of.count + 1) + of.count * of.width + counts.count * counts.width)

    def in_table(self, room, ask):
        """A row among rows, which are written out or come of a comprehension."""
        found = self.matrix_name("int", 2, FIXED, room) if self.chance(0.3) else None
        found = found if found and len(found.indices) == 2 and all(found.indices) else None
        columns = found.indices[1].count if found else self.number(1, 4)
        if not 0 < columns <= WRITTEN:
            return None
        row = self.listed([self.integer(room // (3 * columns), ask, max(2, int(room**0.5))) for _ in range(columns)], "int")
        if found:
            rows = found
        elif self.chance(0.3):
            rows = self.comprehension("int", 2, room // 3, FIXED if ask != SURE else SURE, max(2, room), columns)
        else:
            parts = []
            for _ in range(self.upto(max(1, min(room // (4 * columns), 400)))):
                cells = [self.told(self.number(row.low, row.high) if row.width < 5000 else self.some_number()) for _ in range(columns)]
                parts.append(self.listed(cells, "int"))
            rows = self.listed(parts, "int", 2)
        if ask == SURE and not found:
            return None
        return node("table", "table({}, {})", ATOM, "bool", [row, rows], weight=rows.count + row.count * row.width)

    def truth_read(self, room, ask):
        return self.scalar_read("bool", room, ask)

    def truth_group(self, room, ask):
        return node("group", "({})", ATOM, "bool", [self.boolean(room - 1, ask)])

    def quantified(self, word, room, ask, most=None):
        """A quantifier over one name or several."""
        names = self.number(2, 3) if self.chance(0.25) else 1
        domain = self.places(max(1, int((room / 25) ** (1 / names))), ask)
        # A name that is hidden inside may not be the one that its own domain reads, so as to know its numbers.
        bound = [self.quantified_name(domain) for _ in range(names)]
        for it in bound:
            self.declare(it, False)
        each = domain.count
        inner = max(1, (room - 4) // max(1, each**names))
        body = self.integer(inner, ask, max(2, (most or room) // max(1, each**names))) if word == "sum" else self.boolean(inner, ask)
        for it in reversed(bound):
            self.forget(it.text)
        low, high, spread, cost = body.low, body.high, body.spread, body.cost
        for _ in range(names):
            decided = each if body.is_decided else 0
            if word == "sum":
                low, high = min(0, each * low) if each else 0, max(0, each * high) if each else 0
                weight, spread = sum_cost(high - low + 1, decided * spread, decided), high - low + 1
            else:
                low, high, weight = 0, 1, each + 1
            cost = 1 + domain.cost + each * cost + (weight if body.is_decided else 0)
        text = f"{word} {', '.join(it.text for it in bound)} : {domain.text} . {body.text}"
        form = word if names == 1 else f"{word} over several"
        return Part(form, text, "int" if word == "sum" else "bool", 0, OPEN, (domain, body), low, high, high - low + 1, body.is_decided, cost)

    def quantified_name(self, domain):
        taken = self.random.choice(self.names) if self.names and self.chance(0.04) else None
        name = taken if taken and not any(it.text == taken for it in self.domains) else self.new_name("i")
        return Part("quantified name", name, domain.kind, low=domain.low, high=domain.high, spread=1)

    # Reads.

    def place(self, indices, room, ask):
        """An index into a dimension: most often one that is there."""
        if ask == SURE:
            return self.told(indices.at(self.number(0, indices.count - 1))) if indices and indices.count else None
        low, high = (indices.low, indices.high) if indices else (1, 2)
        within = 0 if self.chance(0.8) else 2
        found = self.known(lambda it: not it.dimensions and low - within <= it.low and it.high <= high + within and not (ask and it.is_decided)) if self.chance(0.6) else None
        if found:
            return found if self.chance(0.9) else node("chain", "{} + {}", PLUS, "int", [found, self.literal(1)], (found.low + 1, found.high + 1))
        if self.chance(0.15):
            return self.integer(room, ask, 2 * max(2, high - low + 1))
        if self.chance(0.05):
            return self.told(self.number(low - 2, high + 2))
        return self.told(indices.at(self.number(0, indices.count - 1)) if indices and indices.count else 1)

    def scalar_read(self, kind, room, ask):
        """A read of a number of a matrix."""
        of = self.matrix_name(kind, 0, ask, room) if self.chance(0.8) or ask == SURE else self.matrix(kind, self.number(1, 2), room // 3, ask)
        if not of or of.kind != kind or not of.dimensions or not of.count:
            return None
        indices = of.indices or (None,) * of.dimensions
        places = [self.place(it, max(1, room // 8), ask) for it in indices]
        if None in places:
            return None
        left = of.count if any(it.is_decided for it in places) else 1
        weight = left * (of.width + sum(it.width for it in places)) if left > 1 else 0
        pattern = "{}[" + joined(places) + "]" if self.chance(0.8) else "{}" + "[{}]" * len(places)
        return node("read by decision" if any(it.is_decided for it in places) else "read", pattern, READ, of.kind, [at(of, READ), *places], (of.low, of.high), weight, spread=of.spread)

    def slice_of(self, kind, dimensions, room, ask, most):
        """A read that leaves some dimensions of a matrix of more."""
        more = dimensions + self.number(0, 2)
        of = self.matrix_name(kind, more, ask, room) if self.chance(0.7) or ask == SURE else self.matrix(kind, more, room // 2, ask, most)
        if not of or of.dimensions != more or of.kind != kind or not of.count:
            return None
        kept = sorted(self.random.sample(range(more), dimensions))
        indices, words, places = of.indices or (None,) * more, [], []
        for number in range(more):
            if number in kept:
                words.append("..")
                continue
            place = self.place(indices[number], 3, max(ask, FIXED))
            if place is None:
                return None
            words.append("{}")
            places.append(place)
        # Dimensions at the end may be left out.
        while len(words) > 1 and words[-1] == ".." and self.chance(0.5):
            words.pop()
        left = [indices[it] for it in kept]
        count = of.count
        for number, it in enumerate(indices):
            if number not in kept:
                count = count // max(1, it.count if it else 1)
        known = tuple(left) if all(left) else ()
        return node("slice", "{}[" + ", ".join(words) + "]", READ, of.kind, [at(of, READ), *places], (of.low, of.high), 0, dimensions, of.spread, max(1, count), known)

    # Matrices.

    def matrix(self, kind, dimensions, room, ask=ANY, most=None):
        """A matrix whose numbers lie in an interval of at most so many."""
        room = max(1, room)
        most = max(2, room if most is None else most)
        for _ in range(5 if room > 5 else 0):
            made = self.random.choice(self.MATRICES)(self, kind, dimensions, room, ask, most)
            if made and made.cost <= 2 * room + 8 and made.width <= most and made.dimensions == dimensions:
                return made
        return (room <= 5 and self.matrix_by_name(kind, dimensions, room, ask, most)) or self.smallest(kind, dimensions, room, ask, most)

    def smallest(self, kind, dimensions, room, ask, most):
        """A list that is written out, with one part in each dimension but the last."""
        made = self.listed([self.scalar(kind, room // 4, ask, most) for _ in range(self.number(1, 2))], kind)
        for number in range(2, dimensions + 1):
            made = self.listed([made], kind, number)
        return made

    def matrix_by_name(self, kind, dimensions, room, ask, most):
        return self.matrix_name(kind, dimensions, ask, room)

    def listed(self, parts, kind, dimensions=1, over=None):
        """A list that is written out."""
        if not parts and not over:
            return Part("empty list", "[]", kind, dimensions, low=0, high=0, spread=0, count=0)
        lows, highs = [it.low for it in parts] or [0], [it.high for it in parts] or [0]
        inner = parts[0].indices if parts and dimensions > 1 and all(it.count == parts[0].count for it in parts) else ()
        rows = over or Domain("unstated", "", united([(1, len(parts))]))
        whole = node(
            "list over" if over else "list", "[" + joined(parts) + ("; {}" if over else "") + "]", ATOM, kind, [*parts, over] if over else parts, (min(lows), max(highs)), 0, dimensions,
            max([it.spread for it in parts] or [0]), sum(it.count for it in parts), (rows, *inner) if dimensions == 1 or inner else (),
        )
        return whole

    def scalar(self, kind, room, ask, most):
        return self.boolean(room, ask) if kind == "bool" else self.integer(room, ask, most)

    def written(self, kind, dimensions, room, ask, most):
        count = self.number(1, 4) if self.chance(0.85) else self.upto(min(WRITTEN * 5, max(1, room // 2)))
        if self.chance(0.03):
            count = 0
        if dimensions == 1:
            parts = [self.scalar(kind, it, ask, most) for it in self.share(room - 1, count)]
        elif self.chance(0.8):
            # Rows of one length.
            columns = self.number(1, 3)
            parts = [self.listed([self.scalar(kind, room // (count * columns), ask, most) for _ in range(columns)], kind) for _ in range(count)]
            for _ in range(dimensions - 2):
                parts = [self.listed([it], kind, 1 + it.dimensions) for it in parts]
        else:
            parts = [self.matrix(kind, dimensions - 1, it, ask, most) for it in self.share(room - 1, count)]
        over = None
        if self.chance(0.25):
            wrong = self.chance(0.05) and ask != SURE
            over = self.index_domain(max(0, count + wrong))
        if dimensions > 1 and not parts:
            return None if self.chance(0.5) else self.listed([], kind, dimensions)
        return self.listed(parts, kind, dimensions, over)

    def comprehension(self, kind, dimensions, room, ask, most, columns=None):
        """A list by generators and conditions; of rows with so many columns, where that is wanted."""
        groups = self.number(1, 2) if self.chance(0.3) else 1
        texts, parts, bound, count, cost = [], [], [], 1, 1
        for _ in range(groups):
            names = 2 if self.chance(0.15) else 1
            domain = self.places(max(1, int((room / 15) ** (1 / (groups * names)))), ask)
            new = [self.quantified_name(domain) for _ in range(names)]
            for it in new:
                cost += count * (1 + domain.cost)
                count *= domain.count
                self.declare(it, False)
            bound += new
            parts.append(domain)
            texts.append(f"{', '.join(it.text for it in new)} : {domain.text}")
        inner = max(1, (room - 3) // max(1, count))
        conditions = [self.boolean(min(inner, 12), max(ask, FIXED)) for _ in range(self.number(1, 2) if self.chance(0.25) else 0)]
        if columns:
            body = self.listed([self.integer(max(1, inner // columns), ask, most) for _ in range(columns)], kind)
        else:
            body = self.scalar(kind, inner, ask, most) if dimensions == 1 else self.matrix(kind, dimensions - 1, inner, ask, most)
        for it in reversed(bound):
            self.forget(it.text)
        # The index domain doesn't see the generators' names.
        over = self.index_domain(count) if not conditions and self.chance(0.2) and (ask != SURE or all(it.is_exact for it in parts)) and count < FAR else None
        text = f"[{body.text} | {', '.join(texts + [it.text for it in conditions])}{'; ' + over.text if over else ''}]"
        cost += count * (body.cost + sum(it.cost for it in conditions)) + (over.cost if over else 0)
        known = () if conditions or not all(it.is_exact for it in parts) else (over or Domain("unstated", "", united([(1, count)])), *body.indices)
        form = "comprehension with conditions" if conditions else "comprehension over" if over else "comprehension"
        return Part(
            form, text, kind, dimensions, ATOM, (*parts, *conditions, body, *([over] if over else [])), min(0, body.low), max(0, body.high), body.spread, body.is_decided, cost, count * body.count,
            known if len(known) == dimensions else (),
        )

    def flattened(self, kind, dimensions, room, ask, most):
        if dimensions != 1:
            return None
        it = self.matrix(kind, self.number(1, 3), room - 1, ask, most)
        return node("flatten", "flatten({})", ATOM, it.kind, [it], (it.low, it.high), 0, 1, it.spread, it.count)

    def matrix_group(self, kind, dimensions, room, ask, most):
        return at(Part(**{**self.matrix(kind, dimensions, room - 1, ask, most).__dict__, "level": OPEN}), ATOM) if self.chance(0.15) else None

    INTEGERS = (minus, bars, chain, chain, times, times, quotient, remainder, power, of_two, to_int, truth_as_number, factorial, sum_over, sum_over, folded, folded, integer_read, integer_read, integer_read, group)
    BOOLEANS = (
        compared, compared, compared, compared, negation, connected, connected, arrow, arrow, in_order, in_domain, in_set, for_all, for_all, for_all, exists, all_or_any, all_different, counted, in_table,
        truth_read, truth_read, truth_group,
    )
    LARGE = (compared, compared, compared, in_order, in_domain, in_set, for_all, for_all, exists, all_or_any, all_different, counted, in_table, truth_read)
    MATRICES = (matrix_by_name, matrix_by_name, matrix_by_name, written, comprehension, comprehension, slice_of, flattened, matrix_group)


# What a text is like, as often as it stands here.
SHAPES = ("plain", "plain", "plain", "cells", "cells", "wide", "wide", "far", "rough", "rough", "data", "one", "one", "alone", "alone", "alone", "many", "deep", "long")


@dataclass
class Find:
    """A decision variable: its name, the domain of its cells, and those of its indices."""

    name: str
    values: Domain
    indices: tuple

    @property
    def cells(self):
        count = 1
        for it in self.indices:
            count *= it.count
        return count


class Drawing(Drawer):
    """A text that is drawn statement by statement."""

    def __init__(self, seed, room=None, shape=None):
        super().__init__(random.Random(seed))
        self.room = room or self.some_room()
        self.mode = "strict" if self.chance(0.3) else "relational"
        self.finds, self.statements, self.lettings, self.roots, self.evaluated = [], [], [], [], 0
        self.matrix_domains = []
        self.shape = shape or self.random.choice(SHAPES)
        self.is_rough = self.shape == "rough"

    def some_room(self):
        """Room for size and weight: most texts are small, one in a hundred is near the limits."""
        likely = self.random.random()
        low, high = (1.5, 3.5) if likely < 0.85 else (3.5, 5) if likely < 0.97 else (5, 6) if likely < 0.99 else (6, 7.2)
        return int(10 ** (low + (high - low) * self.random.random()))

    # In rough texts numbers often lack a value.

    def leaf(self, kind, ask, most=1 << 20):
        if self.is_rough and ask == ANY and self.chance(0.15):
            one = super().leaf("int", ask, most)
            lost = node("quotient", "{} / {}", TIMES, "int", [at(one, TIMES), self.literal(0)], (0, 0), spread=1)
            return lost if kind == "int" else node("=", "{} = {}", COMPARED, "bool", [lost, self.literal(0)])
        return super().leaf(kind, ask, most)

    def written(self, kind, dimensions, room, ask, most):
        if self.is_rough and room > 8 and dimensions > 1 and ask != SURE and self.chance(0.6):
            parts = [self.matrix(kind, dimensions - 1, it, ask, most) for it in self.share(room - 1, self.number(1, 3))]
            return self.listed(parts, kind, dimensions, self.index_domain(len(parts) + 1) if self.chance(0.1) else None)
        return super().written(kind, dimensions, room, ask, most)

    # Statements.

    def state(self, text, *roots, is_evaluated=True):
        self.statements.append(text)
        self.roots += roots
        if is_evaluated:
            self.evaluated += 1 + sum(it.cost for it in roots)

    def shape_domain(self, cells, element):
        """The text and the index domains of a matrix domain with at most so many cells."""
        dimensions = self.random.choice((1, 1, 1, 2, 2, 3))
        indices = []
        for number in range(dimensions):
            most = max(1, int(cells ** (1 / (dimensions - number)))) if number else max(1, self.upto(cells) if dimensions > 1 else cells)
            indices.append(self.index_range(most))
            cells //= max(1, indices[-1].count)
        text = f"matrix indexed by [{', '.join(it.text for it in indices)}] of {element.text}"
        return text, tuple(indices)

    def index_range(self, most):
        """A domain of indices, most often as many as may be."""
        if self.chance(0.5):
            return self.index_domain(most)
        return self.domain(most, True)

    def given(self, room):
        name = self.new_name("n")
        if self.chance(0.6):
            value = self.number(1, 6) if self.chance(0.7) else self.number(-50, 3000)
            is_bool = self.chance(0.15)
            domain = "bool" if is_bool else self.random.choice((f"int({min(1, value)}..{max(9, value)})", "int", f"int({min(0, value)}..)", f"int(..{max(9, value)})", f"(int({value - 1}..) union int({value}))"))
            if is_bool:
                value = self.number(0, 1)
            said = ("false", "true")[value] if is_bool else self.random.choice((str(value), f"({value})", f"{value - 3} + 3", f"sum([{value}])"))
            self.state(f"given {name} : {domain}")
            self.lettings.append(f"letting {name} {self.random.choice(('be', '='))} {said}")
            self.declare(Part("parameter", name, "bool" if is_bool else "int", low=value, high=value, spread=1))
            return
        most = room if self.shape == "data" else min(room, 30)
        kind = "bool" if self.chance(0.25) else "int"
        low, high = (0, 1) if kind == "bool" else (self.number(-5, 1), self.number(2, 9) if self.chance(0.8) else self.number(10, 100_000))
        element = Domain("bool", "bool", [(0, 1)], "bool") if kind == "bool" else Domain("ranges", self.random.choice((f"int({low}..{high})", f"int({low}..)", "int")), [(low, high)])
        text, indices = self.shape_domain(max(1, self.upto(most)), element)
        count = 1
        for it in indices:
            count *= it.count
        self.state(f"given {name} : {text}", *indices)
        self.lettings.append(f"letting {name} be {self.value_text([it.count for it in indices], kind, low, high)}")
        self.evaluated += 2 * count
        self.declare(Part("parameter matrix", name, kind, len(indices), low=low, high=high, spread=1, count=count, indices=indices))

    def value_text(self, counts, kind, low, high):
        """A value with so many parts in each dimension."""
        if not counts:
            value = self.number(low, high)
            return ("false", "true")[value] if kind == "bool" else str(value)
        if len(counts) == 1 and kind == "int" and counts[0] > 3 and self.chance(0.2):
            return f"[{low} + ({self.number(0, 9)} * i) % {high - low + 1} | i : int(1..{counts[0]})]"
        over = f"; int(0..{counts[0] - 1})" if self.chance(0.1) else ""
        return "[" + ", ".join(self.value_text(counts[1:], kind, low, high) for _ in range(counts[0])) + over + "]"

    def letting(self, room):
        choice = self.number(0, 9)
        name = self.new_name("c")
        word = self.random.choice(("be", "="))
        if choice < 3:
            name = self.new_name("D")
            domain = self.domain(max(2, min(room, 10 ** self.number(1, 4))), True)
            self.state(f"letting {name} {word} domain {domain.text}", domain)
            self.domains.append(Domain("domain name", name, domain.runs, domain.kind))
        elif choice < 4:
            name = self.new_name("M")
            element = self.domain(max(2, min(room // 4, 20)), True)
            text, indices = self.shape_domain(max(1, min(20, room // 8)), element)
            self.state(f"letting {name} {word} domain {text}", element, *indices)
            self.matrix_domains.append((name, element, indices))
        elif choice < 7:
            value = self.integer(min(room, 40), SURE, 1 << 30) if self.chance(0.7) else at(self.boolean(min(room, 40), SURE), OPEN)
            over = ""
            if value.kind == "int" and self.chance(0.3):
                over = f" : int({value.low}..{value.high})"
            self.state(f"letting {name}{over} {word} {value.text}", value)
            self.declare(Part("letting", name, value.kind, low=value.low, high=value.high, spread=1))
        else:
            value = self.matrix(self.random.choice(("bool", "int", "int")), self.number(1, 3), min(room, 300 if self.shape != "data" else 1 << 20), SURE, 5000)
            self.state(f"letting {name} {word} {value.text}", value)
            kept = value.indices if len(value.indices) == value.dimensions else ()
            if value.form != "empty list":
                self.declare(Part("letting matrix", name, value.kind, value.dimensions, low=value.low, high=value.high, spread=1, count=value.count, indices=kept))

    def find(self, room):
        """Decision variables with at most so many values in all."""
        names = [self.new_name("x") for _ in range(self.number(1, 3) if self.chance(0.4) else 1)]
        room = max(2, room // len(names))
        if self.matrix_domains and self.chance(0.3):
            domain, element, indices = self.random.choice(self.matrix_domains)
        elif self.chance({"cells": 0.9, "wide": 0.2, "far": 0.2, "one": 0.6}.get(self.shape, 0.5)):
            most = max(2, self.upto(min(room, 12 if self.shape != "wide" else int(room**0.5))))
            element = self.domain(most, True, 0.7 if self.shape == "far" else 0.03)
            domain, indices = self.shape_domain(max(1, room // max(1, element.count) if self.shape == "cells" else self.upto(room // max(1, element.count))), element)
        else:
            most = max(2, int(room ** self.random.choice((0.3, 0.4, 0.5, 0.5, 0.7, 1))) if self.shape == "wide" else self.upto(min(room, 1000)))
            element = self.far_domain(max(2, most), True) if self.shape == "far" and self.chance(0.7) else self.domain(most, True, 0.05)
            domain, indices = element.text, ()
        self.state(f"find {', '.join(names)} : {domain}", element, *indices)
        for name in names:
            it = Find(name, element, indices)
            self.finds.append(it)
            self.declare(Part("decision", name, element.kind, len(indices), low=element.low, high=element.high, spread=element.count, is_decided=True, count=it.cells, indices=indices))

    def where(self, room):
        it = self.integer(min(room, 40), SURE, 1 << 30)
        word, end = self.random.choice((("<=", it.high), (">=", it.low)))
        made = node(word, "{} " + word + " {}", COMPARED, "bool", [at(it, PLUS), self.literal(end)])
        if self.chance(0.4):
            made = node("\\/", "{} \\/ {}", OR, "bool", [at(self.boolean(min(room, 30), SURE), AND), made])
        self.state(f"where {made.text}", made)

    def such_that(self, room, count=1):
        clauses = [self.clause(it) for it in self.share(room, count)]
        self.state("such that " + ", ".join(it.text for it in clauses) + ("," if self.chance(0.1) else ""), *clauses, is_evaluated=False)

    def clause(self, room):
        """A clause, most often with a decision variable; every other one may hold or not, as a decision variable says."""
        made = self.boolean(room)
        for _ in range(6 if self.chance(0.95) else 0):
            if made.is_decided and made.cost >= min(room // 8, 20_000_000) or not self.decided:
                break
            # The larger one that has a decision variable: much room isn't easily filled.
            made = max((made, self.boolean(room)), key=lambda it: (it.is_decided, it.cost))
        if not made.is_decided or self.chance(0.5):
            return made
        switch = self.decision("bool") if self.chance(0.5) else None
        if switch is None or switch.kind != "bool":
            self.find_switch()
            switch = self.decided[-1]
        word, level = self.random.choice((("->", OR), ("<->", OR), ("=", PLUS), ("!=", PLUS), ("\\/", AND)))
        return node(word, "{} " + word + " {}", {"\\/": OR, "=": COMPARED, "!=": COMPARED}.get(word, ARROW), "bool", [at(switch, level), at(made, level)], weight=4)

    def find_switch(self):
        name = self.new_name("b")
        domain = Domain("bool", "bool", [(0, 1)], "bool")
        self.state(f"find {name} : bool", domain)
        self.finds.append(Find(name, domain, ()))
        self.declare(Part("decision", name, "bool", is_decided=True))

    def objective(self, room):
        word, it = self.random.choice(("minimising", "maximising", "minimizing", "maximizing")), self.integer(room)
        self.state(f"{word} {it.text}", it, is_evaluated=False)

    # Shapes that no chance brings about.

    def many_of(self, most):
        """How many parts stand where at most so many may."""
        return max(2, most) if self.chance(0.3) else self.upto(max(2, most))

    def many(self):
        """Many statements, each small."""
        count = self.many_of(min(self.room // 4, 20_000 if self.chance(0.1) else 1000))
        which = self.number(0, 3)
        if which == 0:
            kind = self.domain(min(4, max(2, self.room // (4 * count))), True)
            names = [self.new_name("x") for _ in range(count)]
            self.state(f"find {', '.join(names)} : {kind.text}", kind)
            for name in names:
                self.finds.append(Find(name, kind, ()))
                self.declare(Part("decision", name, kind.kind, low=kind.low, high=kind.high, spread=kind.count, is_decided=True))
            for one, other in zip(names, names[1:]):
                self.state(f"such that {one} {self.random.choice(('<=', '!=', '>='))} {other}" if kind.kind == "int" or self.chance(0.3) else f"such that {one} \\/ {other}", is_evaluated=False)
        elif which == 1:
            last = self.new_name("c")
            self.state(f"letting {last} be 1")
            for _ in range(min(count, 5000)):
                name = self.new_name("c")
                self.state(f"letting {name} be ({last} + {self.number(0, 3)}) % 1000")
                last = name
            self.declare(Part("letting", last, low=0, high=999, spread=1))
            self.find(8)
            self.such_that(60)
        elif which == 2:
            self.find(max(4, self.room // 8))
            for _ in range(min(count, max(1, self.room // 16))):
                self.such_that(8)
        else:
            self.find(max(4, self.room // 8))
            clauses = [self.clause(10) for _ in range(min(count, max(1, self.room // 16)))]
            self.state("such that " + ",\n  ".join(it.text for it in clauses), *clauses, is_evaluated=False)

    def deep(self):
        """A tree near the greatest height, or one with many names, generators or dimensions."""
        self.find(6)
        self.find(6)
        which = self.number(0, 6)
        if which < 3:
            self.nested()
            return
        count = self.many_of(min(2000, self.room // 4))
        names = ", ".join(self.new_name("i") for _ in range(count)) if self.chance(0.5) else ", ".join(["i"] * count)
        inner = self.boolean(8)
        number = self.integer(8)
        if which == 3:
            word = self.random.choice(("forAll", "exists"))
            self.state(f"such that {word} {names} : int(1..1) . {inner.text}", inner, is_evaluated=False)
        elif which == 4:
            self.state(f"such that sum([{number.text} | {names} : int(2..2)]) != 3", number, is_evaluated=False)
        elif which == 5:
            self.state("such that sum([" + number.text + " | " + ", ".join(f"{it} : int(0..0)" for it in names.split(", ")) + "]) != 3", number, is_evaluated=False)
        else:
            name = self.new_name("x")
            self.state(f"find {name} : matrix indexed by [{', '.join(['int(1..1)'] * count)}] of int(0..2)")
            self.finds.append(Find(name, Domain("ranges", "int(0..2)", [(0, 2)]), (Domain("ranges", "int(1..1)", [(1, 1)]),) * count))
            if self.chance(0.6):
                self.state(f"such that {name}[{', '.join(['1'] * count)}] > 0", is_evaluated=False)

    def nested(self):
        """Forms within each other, up to the greatest height."""
        kind, text, height, ceiling, low, high = "bool", at(self.boolean(8), ATOM).text, 12, self.number(40, 250), 0, 1
        while height < ceiling - 8:
            if kind == "bool":
                forms = (
                    ("!({})", 2), ("({})", 1), ("({}) -> true", 2), ("({}) /\\ true", 2), ("false \\/ ({})", 2), ("(forAll i : int(1..1) . {})", 2), ("and([{}])", 2), ("[{}, true][1]", 2), ("(toInt({}) = 1)", 3),
                    ("(exists i, j : int(1..1) . {})", 3),
                )
                form, more = self.random.choice(forms)
                text = form.format(text)
                if not form.startswith(("(", "and", "[")) or form.startswith("({}) "):
                    text, more = f"({text})", more + 1
            elif low < -1000 or high > 1000:
                form, more = "(({}) % 5)", 3
                text, low, high = form.format(text), 0, 4
            else:
                form, more, step = self.random.choice((("(-({}))", 3, -1), ("|{}|", 1, 0), ("({})", 1, 0), ("(({}) + 1)", 3, 1), ("max({}, 0)", 1, 0), ("sum([{}])", 2, 0), ("[{}][1]", 2, 0), ("(sum i : int(1..1) . {})", 2, 0)))
                text = form.format(text)
                low, high = (-high, -low) if step < 0 else (low, high + step)
            height += more
            if kind == "bool" and self.chance(0.1):
                kind, text, low, high, height = "int", f"toInt({text})", 0, 1, height + 1
            elif kind == "int" and self.chance(0.1):
                kind, text, height = "bool", f"({text} > 0)", height + 2
        self.state(f"such that {text if kind == 'bool' else '(' + text + ') >= 0'}", is_evaluated=False)

    def long(self):
        """One list, chain or domain with many parts, written out."""
        self.find(max(6, self.room // 8))
        count, which = self.many_of(min(4000, self.room // 6)), self.number(0, 5)
        each = max(1, self.room // (2 * count))
        if which == 0:
            parts = [at(self.integer(each, ANY, 50), TIMES) for _ in range(count)]
            self.state("such that " + "".join((self.random.choice((" + ", " - ")) if number else "") + it.text for number, it in enumerate(parts)) + f" {self.random.choice(('!=', '=', '<='))} {self.number(0, 9)}", *parts, is_evaluated=False)
        elif which == 1:
            parts, word = [at(self.boolean(each), COMPARED) for _ in range(count)], self.random.choice(("/\\", "\\/"))
            self.state("such that " + f" {word} ".join(it.text for it in parts), *parts, is_evaluated=False)
        elif which == 2:
            parts, word = [self.integer(each, ANY, 30) for _ in range(count)], self.random.choice(("sum", "min", "max", "flatten", "allDiff"))
            end = "" if word == "allDiff" else " <lex [1, 2]" if word == "flatten" else f" != {self.number(0, 9)}"
            self.state(f"such that {word}([{', '.join(it.text for it in parts)}]){end}", *parts, is_evaluated=False)
        elif which == 3:
            it = at(self.integer(each, ANY, 50), PLUS)
            self.state(f"such that {it.text} in int({', '.join(str(self.number(0, 4 * count)) for _ in range(count))})", it, is_evaluated=False)
        elif which == 4:
            columns = self.number(1, 4)
            row = [self.integer(8, ANY, 12) for _ in range(columns)]
            rows = ", ".join("[" + ", ".join(str(self.number(it.low, it.high)) for it in row) + "]" for _ in range(count))
            self.state(f"such that table([{', '.join(it.text for it in row)}], [{rows}])", *row, is_evaluated=False)
        else:
            parts = [str(self.number(0, 9)) for _ in range(count)]
            it = self.integer(8, ANY, 12)
            self.state(f"such that [{', '.join(parts)}][{it.text}] = {self.number(0, 9)}", it, is_evaluated=False)

    # One constraint alone, as large as the room lets it be.

    def cells(self, count, width, is_far=False):
        """Finds a matrix of so many cells with so many values each, or few that are far from each other, and gives its name."""
        name = self.new_name("x")
        low = self.random.choice((0, 0, 1, -2, -(width // 2)))
        element = self.far_domain(5, True) if is_far else Domain("ranges", f"int({low}..{low + width - 1})", [(low, low + width - 1)])
        if not is_far and width > 4 and self.chance(0.2):
            runs = without(element.runs, [(low + 1, low + 1 + width // 4)])
            element = Domain("ranges", f"int({', '.join(f'{a}..{b}' for a, b in runs)})", runs)
        over = Domain("ranges", f"int(1..{count})", [(1, count)])
        self.state(f"find {name} : matrix indexed by [{over.text}] of {element.text}", element)
        self.finds.append(Find(name, element, (over,)))
        return name, element

    def alone(self):
        which = self.random.choice(self.ALONE)
        said = which(self, max(8, self.room))
        if said is None:
            return
        if self.chance(0.4):
            self.find_switch()
            name = self.finds[-1].name
            said = self.random.choice((f"{name} <-> ({said})", f"{name} -> {said}", f"{name} \\/ {said}", f"({said}) -> {name}", f"!({said}) /\\ {name}", f"toInt({said}) < {name}"))
        self.state(f"such that {said}", is_evaluated=False)

    def end(self, low, high):
        """A number to compare with: near an end, in the middle, or outside."""
        return self.random.choice((low, low + self.number(0, max(0, (high - low) // 20)), (low + high) // 2, high - self.number(0, max(0, (high - low) // 20)), high, high + 1))

    def word(self):
        return self.random.choice(("=", "=", "!=", "<=", ">=", "<", ">"))

    def factors(self, count):
        """Coefficients: all alike, small, or far apart."""
        kind = self.number(0, 3)
        return [1 if kind == 0 else self.number(1, 4) if kind == 1 else self.number(1, 100) if kind == 2 else self.random.choice((1, 3, 1000)) for _ in range(count)]

    def alone_sum(self, room):
        count = self.number(2, 4) if self.chance(0.5) else self.upto(min(400, room // 4) + 1) + 1
        factors = self.factors(count)
        width = max(2, int((room / (count * sum(factors))) ** 0.5))
        if self.chance(0.3):
            width = max(2, min(room // 16, max(2, (room - 1024 * count) // (8 * (count + sum(factors))))))
        name, element = self.cells(count, width)
        terms = [f"{factor} * {name}[{at}]" if factor > 1 else f"{name}[{at}]" for at, factor in enumerate(factors, 1)]
        split = self.number(1, count) if self.chance(0.25) else count
        signs = [1 if self.chance(0.85) else -1 for _ in terms]
        left = "".join((" - " if sign < 0 else " + ") + it for sign, it in zip(signs[:split], terms[:split]))[3:]
        ends = [sum(factor * sign * (element.low if (sign > 0) == is_low else element.high) for factor, sign in zip(factors, [1, *signs[1:]])) for is_low in (True, False)]
        right = "".join(" + " + it for it in terms[split:])[3:] or str(self.end(*ends))
        return f"{left} {self.word()} {right}"

    def alone_sparse(self, room):
        """A sum of numbers that have few values, the same two among them."""
        count = self.upto(min(40, room // 20)) + 2
        most = max(2, room // (3 * count * count))
        names = [self.new_name("x") for _ in range(count)]
        for name in names:
            values = sorted({0, self.number(0, most), most})
            domain = Domain("ranges", f"int({', '.join(map(str, values))})", united((it, it) for it in values))
            self.state(f"find {name} : {domain.text}", domain)
            self.finds.append(Find(name, domain, ()))
        return f"{' + '.join(names)} {self.word()} {self.end(0, count * most)}"

    def alone_operation(self, room):
        width = max(2, int((room / 2) ** 0.5))
        word = self.random.choice(("*", "/", "%"))
        if self.chance(0.3):
            return self.wide_by_narrow(room, word)
        name, element = self.cells(3, width)
        right = f"{name}[3]" if self.chance(0.2) else str(self.end(0, element.high**2 if word == "*" else element.high))
        return f"{name}[1] {word} {name}[2] {self.word()} {right}"

    def wide_by_narrow(self, room, word):
        narrow = self.upto(12)
        one, element = self.cells(1, max(2, room // (2 * narrow)))
        other, _ = self.cells(1, narrow)
        return f"{one}[1] {word} {other}[1] {self.word()} {self.end(0, element.high * 2)}"

    def alone_function(self, room):
        name, element = self.cells(2, max(2, room // 6))
        text = self.random.choice(("{} ** 2", "|{}|", "-{}", "7 * {}", "{} ** 3", "max({}, 5)", "min({}, 0)", "{} / 3", "{} % 7", "100 / {}", "1000 % {}", "|{} - 9|", "({})")).format(f"{name}[1]")
        return f"{text} {self.word()} " + (f"{name}[2]" if self.chance(0.3) else str(self.end(0, element.high)))

    def alone_fold(self, room):
        word = self.random.choice(("min", "max", "product", "sum"))
        count = self.number(1, 4) if word == "product" else self.upto(min(1000, room // 4)) + 1
        width = max(2, int(room ** (1 / (count + 1))) if word == "product" else int((room / count) ** 0.5))
        name, element = self.cells(count, width)
        return f"{word}({name}) {self.word()} {self.end(element.low, element.high * (count if word == 'sum' else 1))}"

    def alone_read(self, room):
        """An element of cells, of given numbers, or with an index that reaches far beyond them."""
        kind = self.number(0, 3)
        count = max(1, int((room / 3) ** 0.5)) if kind < 2 else self.number(1, 4)
        index, _ = self.cells(2, max(2, min(4 * count, room // (4 * count)) if kind < 2 else room // (2 * count + 2)))
        if kind % 2:
            items = "[" + ", ".join(str(self.number(0, 40)) for _ in range(min(count, 5000))) + "]"
            return f"{items}[{index}[1]] {self.word()} " + (f"{index}[2]" if self.chance(0.5) else str(self.number(0, 40)))
        name, element = self.cells(min(count, 5000), max(2, min(room // (2 * count), count) if kind < 2 else self.upto(room // (2 * count))))
        if self.chance(0.3):
            columns = max(1, int(count**0.5))
            return f"[[{name}[i * {columns} + j + 1] | j : int(0..{columns - 1})] | i : int(0..{columns - 1})][{index}[1], {index}[2]] {self.word()} {self.end(element.low, element.high)}"
        return f"{name}[{index}[1]] {self.word()} " + (f"{index}[2]" if self.chance(0.4) else str(self.end(element.low, element.high)))

    def alone_different(self, room):
        count = max(2, int(room ** self.random.choice((0.2, 0.33, 0.4))))
        name, _ = self.cells(count, max(2, room // (count * count)))
        return f"allDiff({name})"

    def alone_count(self, room):
        count = max(2, int((room / 4) ** self.random.choice((0.33, 0.5))))
        width = self.upto(max(2, room // count))
        name, element = self.cells(count, width)
        most = max(1, min(width, room // (count * count), 300))
        values = list(range(element.low, element.low + most))
        word = self.random.choice(("gcc", "atleast", "atmost"))
        if word == "gcc" and self.chance(0.4):
            counts, _ = self.cells(most, max(2, min(count + 1, room // most)))
            return f"gcc({name}, {values}, {counts})"
        numbers = [self.end(0, max(1, count // (1 if self.chance(0.3) else most))) for _ in values]
        return f"gcc({name}, {values}, {numbers})" if word == "gcc" else f"{word}({name}, {numbers}, {values})"

    def alone_table(self, room):
        columns = self.number(1, 5)
        rows = min(6000, max(1, room // (2 * columns)))
        name, element = self.cells(columns, max(2, min(room // (2 * columns), self.upto(room))))
        body = ", ".join("[" + ", ".join(str(self.number(element.low, element.high)) for _ in range(columns)) + "]" for _ in range(rows))
        return f"table({name}, [{body}])"

    def alone_order(self, room):
        count = self.upto(room // 4)
        width = max(1, room // (4 * count))
        one, other = self.cells(count, width)[0], self.cells(count + self.number(-1, 1) or 1, width)[0]
        return f"{one} {self.random.choice(('<lex', '<=lex', '>lex', '>=lex'))} {other}"

    def alone_set(self, room):
        count = max(1, int((room / 2) ** self.random.choice((0.2, 0.5))))
        one, other = self.cells(1, max(2, room // (2 * count)))[0], self.cells(count, max(2, room // (2 * count)))[0]
        return f"{one}[1] in toSet({other})"

    def alone_objective(self, room):
        """An objective of few numbers that are far from each other, or of many."""
        is_far = self.chance(0.6)
        name, _ = self.cells(2, max(2, int(room**0.5)), is_far)
        one, other = f"{name}[1]", f"{name}[2]"
        forms = ("{0} * {1}", "{0} / {1}", "{0} % {1}", "max({0}, {1})", "min({0}, -{1})", "-{0}", "|{0}|", "3 * {0}", "{0} + {1}", "{0} - 2 * {1}", "{0} ** 2", "[{0}, {1}][toInt({0} < {1}) + 1]", "max([{0}, 3, {1}])")
        self.state(f"{self.random.choice(('minimising', 'maximising'))} {self.random.choice(forms).format(one, other)}", is_evaluated=False)

    ALONE = (alone_sum, alone_sum, alone_sparse, alone_operation, alone_function, alone_fold, alone_read, alone_read, alone_different, alone_count, alone_table, alone_order, alone_set, alone_objective)

    def usual(self):
        """Parameters and lettings, decision variables, clauses, an objective, mixed as far as names allow."""
        for _ in range(self.number(0, 4)):
            self.random.choice((self.given, self.letting, self.letting))(self.room)
        if self.shape == "data":
            self.given(self.room)
        share = self.room // (2 if self.shape in ("cells", "one") else 4)
        for _ in range(self.number(1, 3)):
            self.find(max(2, share // 2))
        if self.chance(0.4):
            self.where(self.room)
        rest = max(4, self.room - sum(it.cells * it.values.count for it in self.finds))
        # One form alone may take all that there is.
        count = 1 if self.shape == "one" else self.number(1, 4)
        for share in self.share(rest, count):
            if self.chance(0.2):
                self.random.choice((self.letting, self.find))(max(2, self.room // 10))
            self.such_that(max(4, share), self.number(1, 2) if share > 20 else 1)
        if self.chance(0.25):
            self.objective(max(4, self.room // 3))
        if self.chance(0.05):
            scalars = [it.name for it in self.finds][:3]
            self.state(f"branching on [{', '.join(scalars)}]")
        if self.chance(0.05):
            self.state("heuristic sdf")
        if self.chance(0.02):
            self.state("such that")

    def draw(self):
        {"many": self.many, "deep": self.deep, "long": self.long, "alone": self.alone}.get(self.shape, self.usual)()
        forms = Counter()
        left = list(self.roots)
        while left:
            it = left.pop()
            forms[it.form] += 1
            left += it.parts
        model = HEAD + "\n".join(self.statements) + "\n"
        return Text(
            model, HEAD + "\n".join(self.lettings) + "\n" if self.lettings else "", self.mode, self.shape, forms, sum(it.cells for it in self.finds),
            sum(it.cells * it.values.count for it in self.finds), self.evaluated, self.finds, self.room,
        )


def drawn(seed, room=None, shape=None):
    """The text of a number, within a room of size and weight and of a shape where these are given."""
    return Drawing(seed, room, shape).draw()
