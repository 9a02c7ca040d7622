"""The tokens of a text of the language, each with its place, as docs/LANGUAGE.md tells them ("Tokens"); what is none is passed over."""
import re
from collections import namedtuple

# `text` is what stands there, `line` and `column` count from 1, the column in bytes, and `at` is the offset in the decoded text.
Token = namedtuple("Token", "text line column at")
PATTERN = re.compile(
    r"(?P<blank>[ \t\r\n]+|\$[^\n]*)|(?P<token>ESSENCE'|[A-Za-z_][A-Za-z_0-9]*|[0-9]+"
    r"|(?:<=lex|>=lex|<lex|>lex)(?![A-Za-z_0-9])|<->|->|/\\|\\/|\.\.|\*\*|!=|<=|>=|[()\[\],;:.|+\-*/%!=<>])|(?P<other>.)",
    re.S,
)
RESERVED = set(
    "language given letting where find such that minimising minimizing maximising maximizing branching on heuristic be domain matrix "
    "indexed by of int bool union intersect in toInt toSet flatten forAll exists sum product and or min max allDiff gcc atleast atmost "
    "table factorial true false".split()
)
STARTS = set("language given letting where find such minimising minimizing maximising maximizing branching heuristic".split())


def tokens_of(text):
    """The tokens of a text that was decoded as latin-1, so that a column is a byte."""
    found, line, start = [], 1, 0
    for it in PATTERN.finditer(text):
        part = it.group()
        if it.lastgroup == "token":
            found.append(Token(part, line, it.start() - start + 1, it.start()))
        lines = part.count("\n")
        if lines:
            line += lines
            start = it.start() + part.rindex("\n") + 1
    return found


def text_in(path):
    """A file's text, a character for each byte, or None where it can't be read."""
    try:
        with open(path, "rb") as it:
            return it.read().decode("latin-1")
    except (OSError, TypeError):
        return None


def is_name(text):
    return bool(re.fullmatch(r"[A-Za-z_][A-Za-z_0-9]*", text)) and text not in RESERVED


def closing(tokens, at):
    """Where the bracket that opens at a token closes, or the end."""
    depth = 0
    for here in range(at, len(tokens)):
        depth += (tokens[here].text in ("(", "[")) - (tokens[here].text in (")", "]"))
        if depth == 0:
            return here
    return len(tokens)


def split_at_commas(tokens):
    """The parts of a list of tokens between the commas that stand in no bracket."""
    parts, depth = [[]], 0
    for it in tokens:
        depth += (it.text in ("(", "[")) - (it.text in (")", "]"))
        if it.text == "," and depth == 0:
            parts.append([])
        else:
            parts[-1].append(it)
    return [it for it in parts if it]


def statements(tokens):
    """The statements of a text: lists of tokens, each from its first word on."""
    found, depth = [], 0
    for at, it in enumerate(tokens):
        depth += (it.text in ("(", "[")) - (it.text in (")", "]"))
        begins = it.text in STARTS and not (it.text == "such" and found and found[-1][-1].text == "such")
        if begins and (depth <= 0 or it.text in ("given", "letting", "find", "such", "where")) or not found:
            found.append([])
            depth = 0
        found[-1].append(it)
    return found


Declared = namedtuple("Declared", "kind token indices element line")


def declarations(text):
    """The names that `given`, `find` and `letting` declare, with their index domains and element domain as lists of tokens."""
    found = []
    for it in statements(tokens_of(text)):
        kind = it[0].text
        if kind in ("given", "find"):
            group = []
            for part in split_at_commas(it[1:]):
                colon = next((at for at, one in enumerate(part) if one.text == ":"), None)
                group.append(part[0])
                if colon is not None:
                    indices, element = dimensions(part[colon + 1 :])
                    found += [Declared(kind, one, indices, element, one.line) for one in group if is_name(one.text)]
                    group = []
        elif kind == "letting" and len(it) > 1:
            element = it[4:] if [one.text for one in it[2:4]] == ["be", "domain"] else []
            found.append(Declared("domain" if element else kind, it[1], [], element, it[1].line))
    return found


def dimensions(tokens):
    """The index domains of a domain, and the domain of its entries."""
    indices = []
    while [it.text for it in tokens[:3]] == ["matrix", "indexed", "by"] and len(tokens) > 3:
        end = closing(tokens, 3)
        indices += split_at_commas(tokens[4:end])
        tokens = tokens[end + 2 :]
    return indices, tokens
