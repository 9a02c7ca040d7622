"""Takes the clauses of a model apart: what is asked for all values of a name, or of several parts together, becomes a clause for each.

A solution of the one model is a solution of the other, in both modes of undefinedness: only what holds whatever the decision variables are is left out,
and what can't be taken apart here stays one clause.
"""
import itertools, re
from collections import namedtuple

import grammar, tokens

# A clause of the model that is written: its text, the clause of the first model that it is from, counted from 1, where that stands, and what its names stand for.
Single = namedtuple("Single", "text clause line column values")
# More clauses than this nobody wants to read, and what takes more steps than this stays one clause.
MOST, STEPS = 100_000, 50_000_000


class TooMany(Exception):
    """There are more clauses than anybody wants to read."""


class Splitter:
    """Takes clauses apart under what the parameters say."""

    def __init__(self, instance):
        self.text, self.evaluator = instance.text, instance.evaluator
        self.count = 0

    def spelled(self, node, values):
        """A node's text, with values in place of names."""
        begin, end = node.first.at, node.last.at + len(node.last.text)
        made, at = [], begin
        for it in tokens.tokens_of(self.text[begin:end]):
            value = values.get(it.text)
            if value is not None:
                made += [self.text[at : begin + it.at], value]
                at = begin + it.at + len(it.text)
        text = "".join([*made, self.text[at:end]])
        return " ".join(re.sub(r"\$[^\n]*", "", text).split())

    def holds(self, node):
        """Whether a node is true whatever the decision variables are, and has a value."""
        try:
            return self.evaluator.of(node) is True
        except (grammar.Undefined, grammar.Unknown, IndexError, AttributeError, ValueError, RecursionError):
            return False

    def known(self, node):
        """What a node is whatever the decision variables are, or None."""
        try:
            return bool(self.evaluator.number(node))
        except (grammar.Undefined, grammar.Unknown, IndexError, AttributeError, ValueError, RecursionError):
            return None

    def is_inside(self, node):
        """Whether a read names an entry of its matrix by numbers that are known."""
        matrix = self.evaluator.names.get(node.parts[0].token.text) if node.parts[0].kind == "name" else None
        try:
            indices = [self.evaluator.number(it) for it in node.more if it is not None]
        except (grammar.Undefined, grammar.Unknown, IndexError, AttributeError, ValueError, RecursionError):
            return False
        if len(indices) < len(node.more) or not isinstance(matrix, (grammar.Array, grammar.Open)):
            return False
        dimensions = matrix.dimensions() if isinstance(matrix, grammar.Array) else matrix.dimensions
        return len(dimensions) == len(indices) and all(index in values for index, values in zip(indices, dimensions))

    def has_value(self, node):
        """Whether it is plain that a node has a value whatever the decision variables are."""
        if node.kind == "read":
            return self.is_inside(node)
        plain = ("name", "number", "truth", "brackets", "bars", "unary", "binary")
        return node.kind in plain and node.token.text not in ("/", "%", "**", "in") and all(self.has_value(it) for it in node.parts)

    def parts(self, node, values):
        """The clauses that a node is, each with the values of its names."""
        if node.kind == "brackets":
            return self.parts(node.parts[0], values)
        if node.kind == "binary" and node.token.text == "/\\":
            return [one for it in node.parts for one in self.parts(it, values)]
        if self.holds(node):
            return []
        if node.kind == "binary" and node.token.text == "->":
            condition = self.known(node.parts[0])
            if condition:
                return self.parts(node.parts[1], values)
            if condition is False and self.has_value(node.parts[1]):
                return []
        if node.kind == "quantifier" and node.token.text == "forAll":
            return self.scoped([node.more], [], node.parts[0], values, node)
        inner = node.parts[0] if node.kind == "call" and node.token.text == "and" and len(node.parts) == 1 else None
        if inner is not None and inner.kind == "list" and inner.more is None:
            return [one for it in inner.parts for one in self.parts(it, values)]
        if inner is not None and inner.kind == "comprehension" and inner.more[2] is None:
            return self.scoped(inner.more[0], inner.more[1], inner.parts[0], values, node)
        return self.one(self.spelled(node, values), values)

    def one(self, text, values):
        self.count += 1
        if self.count > MOST:
            raise TooMany
        return [(text, dict(values))]

    def scoped(self, generators, conditions, body, values, whole):
        """The clauses that a body is for all values of names."""
        before = self.count
        try:
            found = []
            for inside in self.each(generators, values):
                known = [self.known(it) for it in conditions]
                if None in known:
                    raise grammar.Unknown
                if all(known):
                    found += self.parts(body, inside)
            return found
        except (grammar.Undefined, grammar.Unknown, IndexError, AttributeError, ValueError):
            self.count = before
            return self.one(self.spelled(whole, values), values)

    def each(self, generators, values):
        if not generators:
            yield values
            return
        (names, domain), later = generators[0], generators[1:]
        is_truth = domain.kind == "bool"
        for _ in self.evaluator.each(names, domain):
            inside = dict(values)
            for it in names:
                value = self.evaluator.names[it.text]
                inside[it.text] = ("true" if value else "false") if is_truth else str(value) if value >= 0 else f"({value})"
            yield from self.each(later, inside)


def free_name(text, wanted):
    """A name that a text doesn't have: this one, or one that begins so."""
    taken = {it.text for it in tokens.tokens_of(text)}
    return next(it for it in (wanted + "_" * more for more in itertools.count()) if it not in taken)


def singles(model, params, switched=False):
    """The model's text with its clauses taken apart, and what each of these is. Where they are switched, each can be given up, and as few are as can be."""
    instance = grammar.Instance(model, params)
    instance.evaluator.steps = STEPS
    switch = free_name(model, "given_up")
    splitter, made, found, at, number = Splitter(instance), [], [], 0, 0
    for it in instance.model:
        if it.kind == "objective" and switched:
            made.append(model[at : it.token.at])
            at = it.parts[-1].last.at + len(it.parts[-1].last.text)
        if it.kind != "such" or not it.parts:
            continue
        here = []
        for node in it.parts:
            number += 1
            here += [Single(text, number, node.first.line, node.first.column, values) for text, values in splitter.parts(node, {})]
        # A statement has a clause: where none is left, one that asks nothing.
        here = here or [Single("true", number, it.token.line, it.token.column, {})]
        texts = [f"{switch}[{at}] \\/ ({one.text})" if switched else one.text for at, one in enumerate(here, len(found) + 1)]
        made += [model[at : it.token.at], "such that\n  ", ",\n  ".join(texts)]
        at = it.parts[-1].last.at + len(it.parts[-1].last.text)
        found += here
    if switched and found:
        first = next(it for it in instance.model if it.kind == "such" and it.parts).token.at
        made[0] = f"{made[0][:first]}find {switch} : matrix indexed by [int(1..{len(found)})] of bool\n{made[0][first:]}"
        made.append(model[at:])
        return "".join(made).rstrip() + f"\nminimising sum({switch})\n", found
    return "".join([*made, model[at:]]), found


def named(it):
    """What the names of a clause stand for."""
    return ", ".join(f"{name} = {value.strip('()')}" for name, value in it.values.items())
