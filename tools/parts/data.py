"""Parameters from tables: makes the text of a parameter file of JSON and CSV, as the `given` statements of a model want it."""
import bisect, csv, io, json, os, re

import grammar, tokens
from answers import Answer, Matrix

TRUE, FALSE = {"true", "1", "x", "yes"}, {"false", "0", "", ".", "-", "no"}


class Fault(Exception):
    """What is wrong with a table, in one line."""


class Unreadable(Fault):
    """A file can't be read."""


class Origin:
    """Where a value comes from: a file, and the place of each of its parts, as a function from positions in its lists, from 0, to words or None."""

    def __init__(self, path, place=lambda at: None):
        self.path, self.place = path, place

    def told(self, at=()):
        """The file, with the place of a part where it is known."""
        place = self.place(at)
        return f"{self.path}, {place}" if place else self.path


def parameters(model, given, files, note=lambda _: None, origins=None):
    """The text of a parameter file: what stands in the one that was given, and then a letting for each value of the tables, which counts where both
    have one. `origins` gets the Origin of each name."""
    asked = {}
    text = tokens.text_in(model) if model else None
    for it in tokens.declarations(text) if text else ():
        if it.kind == "given":
            asked[it.token.text] = (len(it.indices), "bool" in [one.text for one in it.element])
    begun = tokens.text_in(given) if given else "language ESSENCE' 1.0\n"
    if begun is None:
        raise Unreadable(f"{given} can't be read")
    has = {it[1].text: it for it in tokens.statements(tokens.tokens_of(begun)) if it[0].text == "letting" and len(it) > 1}
    lines, values = [], {}
    wide = columns_of(text, begun)
    for it in files:
        told, origin = table(it, asked, wide if text is not None else None, note)
        for name, value in told.items():
            if name in values:
                raise Fault(f"{it}: `{name}` has a value already, from another table")
            if name in has:
                note(f"{it}: its `{name}` is taken, and not that of {given}")
                start, end = has[name][0].at, has[name][-1].at + len(has[name][-1].text)
                begun = begun[:start] + "".join(one if one == "\n" else " " for one in begun[start:end]) + begun[end:]
            if origins is not None:
                origins[name] = origin(name)
            if text is not None and name not in asked:
                note(f"{it}: the model has no `given {name}`, so its value isn't used")
                continue
            if not tokens.is_name(name):
                raise Fault(f"{it}: `{name}` is no name of the language")
            values[name] = value
            lines.append(f"letting {name} be {spelled(value, asked.get(name, (0, None))[1], f'{it}: {name}')}\n")
    return begun + ("" if begun.endswith("\n") else "\n") + "".join(lines)


def columns_of(model, params):
    """How many columns the table of each `given` of two dimensions has, where the parameters tell it."""
    found, evaluator = {}, grammar.Instance(model or "", params).evaluator
    for it in grammar.Reader(model or "").statements():
        for group in it.parts if it.kind == "given" else ():
            if group.domain.kind == "matrix" and len(group.domain.parts) == 3:
                try:
                    found.update(dict.fromkeys((one.text for one in group.names), len(evaluator.values(group.domain.parts[1]))))
                except (grammar.Undefined, grammar.Unknown, IndexError, AttributeError, ValueError):
                    pass
    return found


def table(word, asked, wide, note):
    """The values of one word of --data, by names: of FILE, NAME=FILE, or NAME=OTHER:FILE; and the Origin of a name. `wide` has what columns_of found, and is None
    without a model."""
    name, equals, path = word.partition("=")
    if not equals or not tokens.is_name(name):
        name, path = "", word
    other, colon, rest = path.partition(":")
    if not (name and colon and tokens.is_name(other)) or os.path.exists(path):
        other, rest = "", path
    path = rest
    try:
        with open(path, encoding="utf-8-sig", newline="") as it:
            text = it.read()
    except (OSError, UnicodeDecodeError) as it:
        why = getattr(it, "strerror", None)
        raise Unreadable(f"{path} can't be read: {why}") if why else Fault(f"{path} can't be read: it is no text in UTF-8") from None
    values = answer_values(path, text, asked)
    if values is None and path.lower().endswith(".json"):
        return json_values(name, path, text), lambda it: Origin(path, lambda at: json_place(text, at if name else (it, *at)))
    if values is None:
        cells = csv_values(name or os.path.splitext(os.path.basename(path))[0], path, text, asked, wide, note)
        return {it: halves(cell, 0) for it, cell in cells.items()}, lambda it: Origin(path, lambda at: csv_place(halves(cells[it], 1), at))
    return answered(name, other, path, values, asked, wide), lambda it: Origin(path)


def answered(name, other, path, values, asked, wide):
    """The values of an answer that are taken."""
    if not name:
        found = {it: value for it, value in values.items() if it in asked or wide is None}
        if not found:
            raise Fault(f"{path}: it has {names_of(values)}, and the model asks for {names_of(asked)}; NAME=OTHER:FILE takes a value under another name")
        return found
    if (other or name) in values or not other and len(values) == 1:
        return {name: values.get(other or name, next(iter(values.values())))}
    raise Fault(f"{path}: it has no `{other or name}`; it has {names_of(values)}, of which {name}=OTHER:{path} takes one")


def halves(made, which):
    """One half of the pairs of values and places that lists hold."""
    return [halves(it, which) for it in made] if isinstance(made, list) else made[which]


def csv_place(places, at):
    """The row and the column of a cell, or the row of a list of cells."""
    for it in at:
        places = places[it] if isinstance(places, list) and it < len(places) else None
    if isinstance(places, tuple):
        return f"row {places[0]}, column {places[1]}"
    return f"row {places[0][0]}" if at and places and isinstance(places[0], tuple) else None


PIECE = re.compile(r'"(?:[^"\\]|\\.)*"|[\[\]{}:,]|[^\s\[\]{}:,"]+')


def json_place(text, at):
    """The line and the column of a part of a text that is JSON, by names and positions."""
    pieces = PIECE.finditer(text)

    def places(first):
        """Where a value begins, and its parts."""
        parts = {}
        for it in pieces if first.group() in ("[", "{") else ():
            if it.group() in ("]", "}"):
                break
            if it.group() != ",":
                is_named = first.group() == "{" and next(pieces)
                parts[json.loads(it.group()) if is_named else len(parts)] = places(next(pieces) if is_named else it)
        return first.start(), parts

    try:
        begin, parts = places(next(pieces))
        for it in at:
            begin, parts = parts[it]
    except (KeyError, StopIteration, RecursionError):
        return None
    return f"line {text.count(chr(10), 0, begin) + 1}, column {begin - text.rfind(chr(10), 0, begin)}"


def names_of(values):
    return ", ".join(f"`{it}`" for it in values) or "nothing"


def answer_values(path, text, asked):
    """The values of an answer of the program, as it stands or as --show json or csv wrote it, by names; None of any other text."""
    if text.startswith(("language ", "letting ", "$ ")):
        blocks = Answer(text).blocks
        if len(blocks) != 1:
            raise Fault(f"{path}: it has {len(blocks)} solutions, and one is wanted")
        return {name: it.plain() if isinstance(it, Matrix) else it for name, it in blocks[0].items()}
    if path.lower().endswith(".json"):
        try:
            found = json.loads(text)
        except ValueError:
            return None
        is_answer = isinstance(found, dict) and isinstance(found.get("values"), dict) and "status" in found and "values" not in asked
        return found["values"] if is_answer else None
    made = {}
    value = lambda it: it == "true" if it in ("true", "false") else int(it)
    for part in re.split(r"\r?\n[ \t]*\r?\n", text.strip("\r\n")):
        rows = list(csv.reader(io.StringIO(part)))
        if not all(is_value(it) for row in rows for it in row[1:]):
            return None
        single = {}
        while len(rows) > 1 and len(rows[-1]) == 2 and tokens.is_name(rows[-1][0]):
            name, it = rows.pop()
            single[name] = value(it)
        if not rows or not rows[0] or not tokens.is_name(rows[0][0]) or any(len(row) != len(rows[0]) for row in rows):
            return None
        lists = [[value(it) for it in row[1:]] for row in rows[1:]]
        if len(rows) == 1 and len(rows[0]) != 2:
            return None
        made[rows[0][0]] = value(rows[0][1]) if len(rows) == 1 else lists[0] if len(rows) == 2 and rows[1][0] == "" else lists
        made.update(reversed(single.items()))
    # One table alone is read as any other.
    return made if len(made) > 1 and any(isinstance(it, list) for it in made.values()) else None


def json_values(name, path, text):
    try:
        values = json.loads(text)
    except ValueError as it:
        raise Fault(f"{path} is no JSON: {it}") from None
    if name:
        return {name: values}
    if not isinstance(values, dict):
        raise Fault(f"{path}: its value is no object with the parameters' names; for one parameter write --data NAME={path}")
    return values


def spelled(value, is_bool, where):
    """A value as the language writes it: 0 and 1 as truth values where the model wants these, and the other way round."""
    if isinstance(value, bool):
        return ("true" if value else "false") if is_bool or is_bool is None else str(int(value))
    if isinstance(value, int):
        if is_bool and value in (0, 1):
            return "true" if value else "false"
        return str(value)
    if isinstance(value, list):
        return "[" + ", ".join(spelled(it, is_bool, f"{where}[{at}]") for at, it in enumerate(value, 1)) + "]"
    what = "has no value" if value is None else f"{json.dumps(value, ensure_ascii=False)[:40]} is no whole number, truth value or list of these"
    raise Fault(f"{where}: {what}")


def is_value(text):
    return bool(re.fullmatch(r"[+-]?[0-9]{1,18}|true|false", text.strip(), re.I))


def rows_of(text):
    """The rows of a table, without empty ones: by the first line its cells are parted by semicolons, tabs or commas."""
    first = text.partition("\n")[0]
    part = max(";\t,", key=first.count) if any(it in first for it in ";\t,") else ","
    rows = [[cell.strip() for cell in row] for row in csv.reader(io.StringIO(text), delimiter=part)]
    return [(number, row) for number, row in enumerate(rows, 1) if any(row)]


def csv_values(name, path, text, asked, wide_of, note):
    """The matrix of a name; or, where no `given` has it, a list for each column that is headed by a parameter's name. Each cell has its place beside it."""
    rows = rows_of(text)
    if not rows:
        raise Fault(f"{path} is empty")
    head = rows[0][1]
    if name not in asked:
        columns = {it: at for at, it in enumerate(head) if asked.get(it, (0,))[0] == 1}
        if not columns and wide_of is not None:
            names = ", ".join(f"`{it}`" for it in asked) or "none"
            raise Fault(f"{path}: the model has no `given {name}`, and no column is headed by a list that it asks for (it asks for {names}); NAME=FILE names another")
        if columns:
            return {it: [cell(path, row, at, asked[it][1], number) for number, row in rows[1:]] for it, at in columns.items()}
    depth, is_bool = asked.get(name, (2, None))
    has_head = not all(is_value(it) for it in head) and (len(rows) > 1 or head[0] == name) and not (is_bool and all(it.lower() in TRUE | FALSE for it in head))
    body = rows[1:] if has_head else rows
    has_side = has_head and head[0] in (name, "") or any(row[0] and not is_value(row[0]) and not (is_bool and row[0].lower() in TRUE | FALSE) for _, row in body)
    if has_head and tokens.is_name(head[0]) and all(re.fullmatch("[0-9]+", it) for it in head[1:]) and sorted(set(head[1:]), key=int) == head[1:]:
        # Columns that are numbered: rows are numbered, too.
        has_side = has_side or len(head) > 1
    counts = has_head and not has_side and len(head) > 1 and [row[0] for _, row in body] == [str(it) for it in range(1, len(body) + 1)]
    if counts and (depth == 1 and len(head) == 2 or depth == 2 and (wide_of or {}).get(name) == len(head) - 1):
        has_side = True
    elif counts and not is_bool:
        note(f"{path}: its first column, `{head[0]}`, counts 1, 2, 3, .. and is taken as values. If it has labels, head it by `{name}` or by nothing")
    start = 1 if has_side and len(body[0][1]) > 1 else 0
    wide = len(head) if has_head else len(body[0][1])
    for number, row in body:
        if len(row) != wide:
            raise Fault(f"{path}, row {number}: it has {len(row)} cells, and the first row has {wide}")
    made = [[cell(path, row, at, is_bool, number) for at in range(start, len(row))] for number, row in body]
    if depth == 2:
        return {name: made}
    if depth > 2:
        raise Fault(f"{path}: `{name}` has {depth} dimensions, and a table two; write it as JSON")
    flat = made[0] if len(made) == 1 else [it for row in made for it in row] if all(len(row) == 1 for row in made) else None
    if flat is None or depth == 0 and len(flat) != 1:
        wants = "one value" if depth == 0 else "one row or one column"
        raise Fault(f"{path}: `{name}` wants {wants}, and the table has {len(made)} rows of {len(made[0])}")
    return {name: flat if depth else flat[0]}


def cell(path, row, at, is_bool, number):
    """A cell's value, with its row and column."""
    text = row[at].lower() if at < len(row) else ""
    if is_bool and text in TRUE | FALSE:
        return text in TRUE, (number, at + 1)
    if is_value(text):
        return text == "true" if text[-1] in "efr" else int(text), (number, at + 1)
    raise Fault(f"{path}, row {number}, column {at + 1}: `{row[at] if at < len(row) else ''}` is no {'truth value' if is_bool else 'whole number'}")
