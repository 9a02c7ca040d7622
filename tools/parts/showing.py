"""The answer of the program as a grid, CSV, JSON or a page of HTML."""
import csv, html, io, json, os

import tokens
from answers import Answer, Matrix


def shown(text, form, command=None):
    """The bytes of an answer in a form: `command` has the words, of which the model's name and its domains are used."""
    answer = Answer(text.decode("utf-8", "replace"))
    if not text.startswith(b"language ") or not answer.notes:
        return text
    path = command.values.get("in-eprime") if command else None
    axes = axes_of(path)
    answer.names = Names(command.own.get("names") if command else None)
    if form in ("grid", "html"):
        answer.blocks = [{name: value for name, value in block.items() if not answer.names.hides(name)} for block in answer.blocks]
    made = {"grid": grid, "csv": table, "json": tree, "html": page}[form](answer, axes, path)
    return made.encode()


class Fault(Exception):
    """What is wrong with a file of names, in one line."""


class Names:
    """The words for indices and values: an object of JSON that has, by a domain's name, a list of words for its indices in order, or an object of words by
    index; by a decision variable's name an object of words by value, or null where the variable isn't to be shown."""

    def __init__(self, path=None):
        self.words = {}
        if path:
            try:
                with open(path, encoding="utf-8-sig") as it:
                    self.words = json.load(it)
            except (OSError, ValueError) as it:
                raise Fault(f"--names {path}: {getattr(it, 'strerror', None) or f'it is no JSON: {it}'}") from None
            if not isinstance(self.words, dict) or not all(it is None or isinstance(it, (list, dict)) for it in self.words.values()):
                raise Fault(f"--names {path}: an object is wanted, with a list or an object of words for each name")

    def hides(self, name):
        return name in self.words and self.words[name] is None

    def sides(self, axis, indices):
        """The words for the indices of a dimension."""
        found = self.words.get(axis) or {}
        if isinstance(found, list):
            found = {str(index): word for index, word in zip(indices, found)}
        return [str(found.get(str(it), it)) for it in indices]

    def cell(self, name, value, text):
        """The word for a value of a variable, which is written so without."""
        found = self.words.get(name.partition("[")[0])
        key = {True: "true", False: "false"}[value] if isinstance(value, bool) else str(value)
        return str(found[key]) if isinstance(found, dict) and key in found else text


def axes_of(path):
    """The names of the index domains of each decision variable, where they have names."""
    text = tokens.text_in(path) if path else None
    found = {}
    for it in tokens.declarations(text) if text else ():
        if it.kind == "find":
            found[it.token.text] = [one[0].text if len(one) == 1 and tokens.is_name(one[0].text) else "" for one in it.indices]
    return found


def flat(value):
    """The scalars of a value."""
    if isinstance(value, Matrix):
        for it in value.parts:
            yield from flat(it)
    else:
        yield value


def cells_of(value):
    """How the scalars of a value are written: a truth value as x or a dot, 0 in a matrix of 0 and 1 as a dot."""
    scalars = set(map(str, flat(value)))
    is_binary = isinstance(value, Matrix) and scalars <= {"0", "1"}

    def cell(it):
        if isinstance(it, bool):
            return "x" if it else "."
        return "." if is_binary and it == 0 else str(it)

    return cell


def tables_in(name, value, axes):
    """Tables of a value: each has a title, the names of rows and columns, their indices, and rows of scalars."""
    sides = [*axes, "", ""]
    if not isinstance(value, Matrix):
        yield name, "", "", [""], [""], [[value]]
        return
    depth = len(value.dimensions())
    if depth == 1:
        yield name, "", sides[0], [""], value.indices, [value.parts]
    elif depth == 2:
        columns = value.parts[0].indices if value.parts else []
        yield name, sides[0], sides[1], value.indices, columns, [it.parts for it in value.parts]
    else:
        stem = name if name.endswith("]") else f"{name}["
        for index, part in zip(value.indices, value.parts):
            label = f"{stem[:-1]}, {index}]" if name.endswith("]") else f"{stem}{index}]"
            yield from tables_in(label, part, axes[1:])


# Lists with more parts than this stand upright, those over the same indices side by side.
LONG = 20


def upright(block, axes):
    """The lists of a solution that are too long for a row, in groups of those that stand side by side: names, the indices' name, and the indices."""
    groups = {}
    for name, value in block.items():
        if isinstance(value, Matrix) and len(value.dimensions()) == 1 and len(value.indices) > LONG:
            axis = (axes.get(name) or [""])[0]
            groups.setdefault((axis, tuple(value.indices)), []).append(name)
    return [(names, axis, list(indices)) for (axis, indices), names in groups.items()]


def blocks_of(answer):
    """The solutions of an answer, each with what is said above it."""
    heads = answer.heads
    for number, block in enumerate(answer.blocks):
        yield heads[number] if number < len(heads) else "", block


def grid(answer, axes, _path):
    """Tables for a terminal."""
    heads = set(answer.heads)
    lines = [it for it in answer.notes if it not in heads]
    lines = [f"{it}: the best that was found, and there may be better ones" if it.startswith("incumbent ") else it for it in lines]
    for head, block in blocks_of(answer):
        lines += ["", head.replace("without", "without clause")] if head else []
        long = upright(block, axes)
        for names, axis, indices in long:
            cells = {name: cells_of(block[name]) for name in names}
            rows = [[side, *(answer.names.cell(name, it, cells[name](it)) for name, it in zip(names, row))]
                    for side, row in zip(answer.names.sides(axis, indices), zip(*(block[name].parts for name in names)))]
            heads = [axis, *names]
            wide = [max(len(heads[at]), *(len(row[at]) for row in rows)) for at in range(len(heads))]
            lines += ["", " | ".join(f"{it:>{w}}" for it, w in zip(heads, wide)), "-+-".join("-" * w for w in wide)]
            lines += [" | ".join(f"{it:>{w}}" for it, w in zip(row, wide)) for row in rows]
        for name, value in block.items():
            if any(name in names for names, _, _ in long):
                continue
            if not isinstance(value, Matrix):
                text = "true" if value is True else "false" if value is False else str(value)
                lines.append(f"{name} = {answer.names.cell(name, value, text)}")
                continue
            cell = cells_of(value)
            for title, rows_are, columns_are, rows, columns, parts in tables_in(name, value, axes.get(name, [])):
                sides = [f"rows {rows_are}" if rows_are else "", f"columns {columns_are}" if columns_are else ""]
                sides = ", ".join(it for it in sides if it)
                lines += ["", title + (f" ({sides})" if sides else "")]
                text = [[answer.names.cell(name, it, cell(it)) for it in row] for row in parts]
                rows, columns = answer.names.sides(rows_are, rows), answer.names.sides(columns_are, columns)
                wide = [max(len(str(column)), *(len(row[at]) for row in text), 1) if text else len(str(column)) for at, column in enumerate(columns)]
                if len(set(wide)) > 1 and max(wide) <= 3:
                    wide = [max(wide)] * len(wide)
                side = max((len(str(it)) for it in rows), default=0)
                lines.append(" " * side + " |" + "".join(f" {str(it):>{w}}" for it, w in zip(columns, wide)))
                lines.append("-" * side + "-+" + "-" * sum(w + 1 for w in wide))
                for index, row in zip(rows, text):
                    lines.append(f"{index!s:>{side}} |" + "".join(f" {it:>{w}}" for it, w in zip(row, wide)))
    return "\n".join(lines) + "\n"


def scalar(it):
    return {True: "true", False: "false"}[it] if isinstance(it, bool) else it


def table(answer, axes, _path):
    """Rows of CSV: the name and the column's indices first, then each row behind its index; an empty line between two matrices."""
    out = io.StringIO()
    writer = csv.writer(out, lineterminator="\n")
    is_first = True
    for head, block in blocks_of(answer):
        if head:
            out.write("" if is_first else "\n")
            writer.writerow(head.split())
            is_first = True
        for name, value in block.items():
            for title, _, _, rows, columns, parts in tables_in(name, value, []):
                if isinstance(value, Matrix):
                    if not is_first:
                        out.write("\n")
                    writer.writerow([title, *columns])
                    for index, row in zip(rows, parts):
                        writer.writerow([index, *map(scalar, row)])
                else:
                    writer.writerow([title, scalar(value)])
                is_first = False
    return out.getvalue()


def tree(answer, _axes, _path):
    """One object of JSON."""
    made = answer.summary()
    blocks = [{name: it.plain() if isinstance(it, Matrix) else it for name, it in block.items()} for block in answer.blocks]
    if answer.is_list or made.get("status") == "solutions":
        made["without" if made.get("status") == "explanation" else "solutions"] = blocks
    elif blocks:
        made["values"] = blocks[0]
    if answer.blocks:
        made["indices"] = {name: it.dimensions() for name, it in answer.blocks[0].items() if isinstance(it, Matrix)}
    return json.dumps(made, ensure_ascii=False) + "\n"


STYLE = """
:root { --ink: #1d1d1f; --pale: #6b6b70; --line: #d2d2d7; --head: #f5f5f7; }
* { box-sizing: border-box }
body { font: 15px/1.45 system-ui, -apple-system, "Segoe UI", "DejaVu Sans", sans-serif; color: var(--ink); margin: 2.5rem auto; padding: 0 1.5rem; max-width: max-content; background: #fff }
h1 { font-size: 1.5rem; font-weight: 600; margin: 0 }
h1 ~ h1 { font-size: 1.25rem; margin: 3rem 0 0 }
h2 { font-size: 1.05rem; font-weight: 600; margin: 2rem 0 .5rem }
p.note { margin: .25rem 0 1.5rem; color: var(--pale) }
p.note b { color: var(--ink) }
table { border-collapse: collapse; font-variant-numeric: tabular-nums }
th, td { border: 1px solid var(--line); padding: .22rem .5rem; text-align: center; min-width: 2.1rem }
th { background: var(--head); font-weight: 500; color: var(--pale) }
th.side { text-align: right }
th.corner { font-size: .8rem; white-space: nowrap }
td.off { color: #b8b8bd }
dl { display: grid; grid-template-columns: max-content max-content; gap: .15rem 1.25rem; margin: 1rem 0 }
dt { color: var(--pale) } dd { margin: 0; font-variant-numeric: tabular-nums }
tr { break-inside: avoid }
@page { size: landscape; margin: 12mm }
@media print {
  body { margin: 0; padding: 0; font-size: 10px; line-height: 1.25 }
  h1 { font-size: 15px } h1 ~ h1 { font-size: 13px; margin: 1.2rem 0 0 } h2 { font-size: 11px; margin: .6rem 0 .3rem; break-after: avoid } p.note { margin: .1rem 0 .6rem }
  th, td { padding: .1rem .3rem; min-width: 1.6rem }
  thead { display: table-header-group }
  * { print-color-adjust: exact; -webkit-print-color-adjust: exact }
}
"""
# Pale grounds for the values of a matrix that has few different ones; 0 and false stay white.
GROUNDS = ["#dbeafe", "#fde8c8", "#dcfce7", "#fbdce4", "#e9e0fb", "#d6f3f1", "#fef3b8", "#e5e7eb", "#ffd9cc", "#d9ead3", "#cfe2f3", "#f4d9f0"]


def said(answer):
    """The notes in words."""
    words, heads = [], set(answer.heads)
    for it in answer.notes:
        first, _, rest = it.partition(" ")
        if it in heads:
            continue
        if first == "optimum":
            words.append(f"<b>Objective {rest}</b>: no solution is better")
        elif first == "incumbent":
            words.append(f"<b>Objective {rest}</b>: the best that was found")
        elif first == "unknown":
            words.append(f"Not finished: the budget of {int(rest.split()[0]):,} conflicts was spent")
        elif it == "no solution":
            words.append("<b>There is no solution</b>")
        elif it == "explanation 0":
            words.append("<b>No values fit the domains</b>")
        elif it == "explanation 1":
            words.append("<b>One clause</b> has no solution by itself")
        elif first == "explanation":
            words.append(f"<b>{rest} clauses</b> have no solution together. What stands below keeps all of them but one")
        elif it == "complete":
            words.append(f"<b>{len(answer.blocks)}</b> solutions; there are no others")
        elif it == "solution":
            words.append("<b>A solution</b>")
        else:
            words.append(html.escape(it))
    return ". ".join(words) or f"<b>{len(answer.blocks)}</b> solutions"


def page(answer, axes, path):
    """A page that stands by itself, and prints."""
    name = os.path.splitext(os.path.basename(path))[0] if path else "Answer"
    title = html.escape(name)
    out = [f'<!doctype html>\n<html lang="en">\n<meta charset="utf-8">\n<meta name="viewport" content="width=device-width">\n<title>{title}</title>']
    out += [f"<style>{STYLE}</style>", f"<h1>{title}</h1>", f'<p class="note">{said(answer)}.</p>']
    for head, block in blocks_of(answer):
        if head:
            out.append(f"<h1>{html.escape(head.replace('without', 'without clause').capitalize())}</h1>")
        single = {it: value for it, value in block.items() if not isinstance(value, Matrix)}
        if single:
            out.append("<dl>" + "".join(f"<dt>{html.escape(it)}</dt><dd>{html.escape(answer.names.cell(it, value, str(scalar(value))))}</dd>" for it, value in single.items()) + "</dl>")
        long = upright(block, axes)
        for names, axis, indices in long:
            cells = {it: cells_of(block[it]) for it in names}
            out.append(f"<section><h2>{html.escape(', '.join(names))}</h2>\n<table><thead><tr><th class=\"corner\">{html.escape(axis)}</th>{''.join(f'<th>{html.escape(it)}</th>' for it in names)}</tr></thead>\n<tbody>")
            for side, row in zip(answer.names.sides(axis, indices), zip(*(block[it].parts for it in names))):
                marks = "".join(f"<td>{html.escape(answer.names.cell(it, value, cells[it](value)))}</td>" for it, value in zip(names, row))
                out.append(f'<tr><th class="side">{html.escape(side)}</th>{marks}</tr>')
            out.append("</tbody></table></section>")
        for it, value in block.items():
            if isinstance(value, Matrix) and not any(it in names for names, _, _ in long):
                out += html_tables(it, value, axes.get(it, []), answer.names)
    return "\n".join(out) + "\n</html>\n"


def html_tables(name, value, axes, names):
    """The tables of a matrix."""
    cell = cells_of(value)
    scalars = sorted({it for it in flat(value) if it}, key=int)
    grounds = {it: GROUNDS[at] for at, it in enumerate(scalars)} if len(scalars) <= len(GROUNDS) else {}
    for title, rows_are, columns_are, rows, columns, parts in tables_in(name, value, axes):
        corner = " / ".join(html.escape(it) for it in (rows_are, columns_are) if it)
        has_side = rows != [""]
        head = f'<th class="corner">{corner}</th>' if has_side else ""
        if not has_side and corner:
            title = f"{title} by {columns_are}"
        sides = names.sides(rows_are, rows) if has_side else rows
        yield f"<section><h2>{html.escape(title)}</h2>\n<table><thead><tr>{head}{''.join(f'<th>{html.escape(it)}</th>' for it in names.sides(columns_are, columns))}</tr></thead>\n<tbody>"
        for index, row in zip(sides, parts):
            side = f'<th class="side">{html.escape(str(index))}</th>' if has_side else ""
            marks = []
            for it in row:
                ground = f' style="background:{grounds[it]}"' if it in grounds and it else ' class="off"' if cell(it) in (".", "0") else ""
                marks.append(f"<td{ground}>{html.escape(names.cell(name, it, '' if cell(it) == '.' else '✓' if it is True else cell(it)))}</td>")
            yield f"<tr>{side}{''.join(marks)}</tr>"
        yield "</tbody></table></section>"
