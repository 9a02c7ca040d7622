"""Says what a refusal means: its place in the text, the likeliest mistake there (docs/hints.tsv, or found here), and its row of docs/FAULTS.md."""
import difflib, functools, os, re, sys

import grammar, measuring, tokens
from command import INPUTS

ROOT = os.path.dirname(os.path.dirname(os.path.dirname(os.path.realpath(__file__))))
# Texts with more bytes than this aren't read into trees for a hint.
LARGE = 500_000
# How many columns of a line are shown.
WIDTH = 110
# How many clauses of an explanation are shown.
NAMED = 20
PAGE = 'docs/INFEASIBLE.md goes on from there; see "When an answer surprises" at the end of docs/TUTORIAL.md, too'


def explain(text, status, command, say):
    """Says, line by line, what is to be said of what the program put out."""
    line = text[:65536].decode("utf-8", "replace").split("\n")[0]
    sys.setrecursionlimit(8_000)
    if status == 2:
        why = command.usage()
        for it in [why] if why else sentences("fault usage"):
            say(f"epsat: {it}")
        if not command.words:
            say("epsat: `./epsat --help` lists the words; docs/TUTORIAL.md begins with a model of two lines")
    elif status in (3, 4, 5, 6, 7):
        for it in of_refusal(line, command, status):
            say(it)
    elif status == 0 and command.task in ("solve", "enumerate"):
        for it in looked(of_answer, text, command):
            say(it)
    elif status == 0 and command.task == "explain":
        for it in looked(of_explanation, text, command):
            say(it)


def looked(look, *parts):
    """What is found by looking into texts; nothing, where they are nested too deeply for that."""
    try:
        return look(*parts)
    except RecursionError:
        return []


def of_refusal(line, command, status):
    """The lines that are said of a refusal."""
    words = line.split()
    if not words:
        words = ["device"] if status == 5 else ["memory"] if status == 6 else [""]
    kind = " ".join(words[:2]) if words[0] in ("fault", "limit", "device") else words[0]
    made, hints = [], []
    if status == 7:
        return looked(of_judgement, line, command)
    file, place = (words + ["", "", ""])[2:4]
    path = command.values.get(INPUTS.get(file, ""))
    text = tokens.text_in(path) if path else None
    if words[0] == "limit" and len(words) == 2:
        hints = looked(of_limit, words[1], command)
    elif words[0] == "device":
        hints = of_device(line, command)
    elif text is not None and re.fullmatch(r"[0-9]+:[0-9]+", place):
        row, column = map(int, place.split(":"))
        made += shown_line(text, row, column)
        hints = looked(of_place, words[1], file, text, row, column, words[4] if len(words) > 4 else "")
    elif words[0] == "fault" and len(words) == 3:
        hints = looked(of_name, words[1], words[2], command)
    made += [f"epsat: {it}" for it in hints]
    return made + [f"epsat: {it}" for it in sentences(kind)]


def shown_line(text, row, column):
    """A line of a text with a caret below a column, of a long line the part around it."""
    lines = text.split("\n")
    line = lines[row - 1] if row <= len(lines) else ""
    before = line[: column - 1].replace("\t", " ")
    rest = line[column - 1 :].rstrip("\r").replace("\t", " ")
    shown = lambda part: "".join(it if it.isprintable() else "?" for it in part.encode("latin-1", "replace").decode("utf-8", "replace"))
    before, rest = shown(before), shown(rest)
    if len(before) > WIDTH - 30:
        before = ".. " + before[len(before) - (WIDTH - 40) :]
    if len(before) + len(rest) > WIDTH:
        rest = rest[: max(10, WIDTH - len(before) - 3)] + " .."
    return [f"{row:6} | {before}{rest}".rstrip(), f"       | {' ' * len(before)}^"]


def sentences(kind):
    """The two sentences of a row of the page of faults."""
    with open(os.path.join(ROOT, "docs/FAULTS.md"), encoding="utf-8") as it:
        for line in it:
            if re.match(r"\| `" + re.escape(kind) + r"[ `]", line):
                return [part.strip() for part in line.strip().strip("|").split(" | ")[1:]]
    return []


@functools.lru_cache(1)
def rows():
    """The rows of docs/hints.tsv: fault, text, what stands before, what stands behind, what is said."""
    return list(read_rows())


def read_rows():
    with open(os.path.join(ROOT, "docs/hints.tsv"), encoding="utf-8") as it:
        for line in it:
            if line.strip() and not line.startswith("#"):
                yield line.rstrip("\n").split("\t")


def of_table(fault, file, before, behind):
    """What the table of hints says of a place between two texts, or None."""
    for kind, where, one, other, hint in rows():
        if kind != fault or where not in ("*", file):
            continue
        left = re.search(f"(?:{one})$", before) if one else re.search("$", before)
        right = re.match(other, behind) if other else re.match("", behind)
        if left and right:
            groups = [*left.groups(), *right.groups()]
            return re.sub(r"\{([1-9])\}", lambda it: groups[int(it[1]) - 1] if int(it[1]) <= len(groups) else "..", hint)
    return None


def around(text, row, column):
    """The tokens before a place, those of its statement alone, and those from it on, each as one text."""
    all_of = tokens.tokens_of(text)
    at = next((number for number, it in enumerate(all_of) if (it.line, it.column) >= (row, column)), len(all_of))
    start = at
    while start > 0 and at - start < 80:
        start -= 1
        if all_of[start].text in ("given", "letting", "find", "where", "minimising", "maximising", "minimizing", "maximizing", "branching", "such", "language"):
            break
    before = " ".join(it.text for it in all_of[start:at])
    return (f".. {before}" if start else before), " ".join(it.text for it in all_of[at : at + 12])


def of_place(fault, file, text, row, column, name):
    """What is likely behind a fault at a place."""
    hints = []
    if len(text) > 10 * LARGE:
        return hints
    if fault == "F1" and file == "model" and re.match(r"\s*(%.*\s+)*(int|var|par|bool|float|array|set|include|predicate|function|constraint|solve|enum|output)\b", text):
        return ["this looks like MiniZinc, which isn't read here: docs/MIGRATING.md says what each of its forms becomes"]
    if fault in ("F1", "F2", "F6", "F7", "F3"):
        if fault == "F1":
            line = text.split("\n")[row - 1]
            decode = lambda it: it.encode("latin-1").decode("utf-8", "replace")
            hint = of_table(fault, file, decode(line[: column - 1]), decode(line[column - 1 :]))
        else:
            hint = of_table(fault, file, *around(text, row, column))
        lost = unclosed(text, row, column) if fault == "F2" else None
        hints += [lost] if lost else [hint] if hint else []
    if fault == "F3" and not hints:
        hints += of_unknown(text, row, name)
    if fault == "F4":
        first = next((it for it in tokens.declarations(text) if it.token.text == name), None)
        hints += [f"`{name}` is declared in line {first.line} already"] if first and (first.token.line, first.token.column) != (row, column) else []
    if fault == "F5":
        hint = of_table(fault, file, *around(text, row, column))
        trees = grammar.Reader(text).statements() if len(text) <= LARGE else []
        found = [why for node, why in grammar.type_faults(text, trees) if (node.first.line, node.first.column) == (row, column)]
        hints += [hint] if hint else found[:1]
    return hints


def unclosed(text, row, column):
    """Which bracket isn't closed, where a text ends or a statement begins inside of one."""
    before = [it for it in tokens.tokens_of(text) if (it.line, it.column) < (row, column)]
    at = next((it for it in tokens.tokens_of(text) if (it.line, it.column) >= (row, column)), None)
    if at and at.text not in ("such", "find", "letting", "given", "minimising", "maximising", "minimizing", "maximizing", "branching"):
        return None
    start = next((number for number in range(len(before) - 1, -1, -1) if before[number].text in tokens.STARTS), 0)
    opened = []
    for it in before[start:]:
        if it.text in ("(", "["):
            opened.append(it)
        elif it.text in (")", "]") and opened:
            opened.pop()
    return f"the bracket `{opened[-1].text}` in line {opened[-1].line}, column {opened[-1].column}, isn't closed" if opened else None


def measured(command):
    """The texts of an instance, the instance, and what was measured of it where the program that does so is built."""
    model, params = texts(command)
    program = measuring.program() if model else None
    return model, grammar.Instance(model, params) if model else None, measuring.measured(program, command) if program else {}, program


def wide(kind, instance):
    """The decision variables with many values, or of L4 cells: how many, the name, and what is said of it."""
    for cells, values, name in grammar.widest(instance):
        count = cells * (1 if kind == "L4" else values)
        if count > 100_000:
            yield count, name, f"`{name.text}` has {cells:,} cell{'s' * (cells != 1)} with {values:,} values each"


def of_limit(kind, command):
    """What in the instance is largest: measured where the program that does so is built, else estimated."""
    model, instance, found, program = measured(command)
    if not model:
        return []
    made = measuring.told(model, instance, found, kind, 1_000)
    made += [f"line {name.line} of the model: {said}" for _, name, said in wide(kind, instance)]
    if not program and made:
        made.append("numbers of nodes are estimates here: `tools/heaviest MODEL PARAMETERS` measures (it is built first, once, in a minute or two)")
    elif not program:
        made.append("`tools/heaviest MODEL PARAMETERS` tells which statement is the heaviest, and its weight (it is built first, once, in a minute or two)")
    return made


def largest_at(kind, command):
    """The place of what is largest in an instance that passes a limit, a token, and what is said of it; or None."""
    model, instance, found, _ = measured(command)
    if not model:
        return None
    most = {"L4": measuring.SIZE, "L6": measuring.WEIGHT}.get(kind, 0)
    parts = [(it.node.first, f"{it.told()}: {measuring.shortly(model, it.node)}") for it in measuring.largest(measuring.parts(instance, found), kind, 0)]
    names = [(count, name, said) for count, name, said in wide(kind, instance)]
    # A variable that passes the limit by itself is why clauses over it do.
    return next(((name, said) for count, name, said in names if most and count > most), None) or next(iter(parts), None) or next(((name, said) for _, name, said in names), None)


def of_unknown(text, row, name):
    """What a name that isn't declared may have been meant for."""
    names = {it.token.text: it.line for it in tokens.declarations(text)}
    if name in names:
        return [f"`{name}` is declared in line {names[name]}, below this place: move its declaration up"]
    near = difflib.get_close_matches(name, names, 1)
    near = near or [it for it in names if it.lower() == name.lower()]
    if near:
        return [f"did you mean `{near[0]}`?"]
    quantified = re.search(rf"\b(forAll|exists|sum)\s+(\w+\s*,\s*)*{re.escape(name)}\b|[|,]\s*{re.escape(name)}\s*:", text)
    return [f"`{name}` is a name of a quantifier or a comprehension elsewhere, and only known in its body"] if quantified else []


def place_of(text, kinds, name):
    """The line and column at which a name is declared, or None."""
    found = next((it for it in tokens.declarations(text) if it.token.text == name and it.kind in kinds), None)
    return (found.token.line, found.token.column) if found else None


def texts(command):
    """The texts of the model and of the parameters."""
    made = [tokens.text_in(command.values.get(it)) if command.values.get(it) else None for it in ("in-eprime", "in-param")]
    return [it if it is None or len(it) <= LARGE else "" for it in made]


def clauses(text, words):
    """The clauses of `where` or of `such that`, in order, as nodes."""
    return [one for it in grammar.Reader(text).statements() if it.kind in words for one in it.parts]


def clause(text, words, number):
    """Where a clause stands and what it says."""
    found = clauses(text, words)
    if not text or not 1 <= number <= len(found):
        return []
    node = found[number - 1]
    said = grammar.spelled(text, node)
    return [f"line {node.first.line} of the model: {said if len(said) <= 300 else said[:296] + ' ..'}"]


# The faults that name a line alone, with the option of the file that has it.
LINES = {"F12": "in-cnf", "F13": "in-log", "F14": "in-opb"}


def of_name(fault, name, command):
    """What is behind a fault of a parameter or of a `where`."""
    if fault in LINES:
        text = tokens.text_in(command.values.get(LINES[fault]))
        return [f"line {name}: {text.splitlines()[int(name) - 1][:WIDTH]}"] if text and name.isdigit() and int(name) <= len(text.splitlines()) else []
    model, params = texts(command)
    if model is None:
        return []
    if fault == "F11":
        made = clause(model, ("where",), int(name)) if name.isdigit() else []
        known = grammar.Instance(model, params).evaluator.names
        used = dict.fromkeys(re.findall(r"[A-Za-z_]\w*", made[0].split(": ", 1)[1])) if made else {}
        values = [f"{it} is {known[it]}" for it in used if type(known.get(it)) is int]
        return made + ([", ".join(values[:6])] if values else [])
    hints = []
    given = place_of(model, ("given", "letting"), name)
    if given:
        hints.append(f"line {given[0]} of the model: {model.splitlines()[given[0] - 1].strip()[:WIDTH]}")
    if fault == "F8":
        asked = {it.token.text for it in tokens.declarations(model) if it.kind == "given"}
        spare = [it.token.text for it in tokens.declarations(params or "") if it.token.text not in asked]
        near = difflib.get_close_matches(name, spare, 1) or spare[:1]
        others = difflib.get_close_matches(name, [it for it in command.tables if it not in asked], 1)
        if params is None:
            hints.append("the command names no parameter file: --in-param FILE, or --data FILE for a table")
        elif others:
            hints.append(f"{command.tables[others[0]].told()} has `{others[0]}`, for which the model doesn't ask: did you mean `{name}`?")
        elif near:
            hints.append(f"the parameters have `{near[0]}`, for which the model doesn't ask: did you mean `{name}`?")
        elif command.tables:
            hints.append(f"no table has it: {', '.join(dict.fromkeys(it.path for it in command.tables.values()))}")
    if fault == "F9":
        letting = place_of(params or "", ("letting",), name)
        why = grammar.Instance(model, params).misfits.get(name)
        if name in command.tables:
            hints.append(f"its value comes from the table {command.tables[name].told(why.at if why else ())}")
        elif letting:
            hints.append(f"line {letting[0]} of the parameters: {params.splitlines()[letting[0] - 1].strip()[:WIDTH]}")
        hints += [f"`{name}`: {why}"] if why else []
    return hints


def of_device(line, command):
    """Why a file can't be read or written."""
    name = line.split(" ", 2)[2] if line.count(" ") > 1 else ""
    if line.startswith("device read"):
        if os.path.isdir(name):
            return [f"{name} is a folder"]
        if not os.path.exists(name):
            folder = os.path.dirname(name) or "."
            near = difflib.get_close_matches(os.path.basename(name), os.listdir(folder), 1) if os.path.isdir(folder) else []
            return [f"there is no file {name} in {os.getcwd()}" + (f": did you mean {os.path.join(os.path.dirname(name), near[0])}?" if near else "")]
        return [] if os.access(name, os.R_OK) else [f"the rights of {name} don't let it be read"]
    return []


def of_judgement(line, command):
    """What is said below a judgement of verify or of check."""
    words = line.split()
    model, params = texts(command)
    if words[:2] == ["$", "violated"] and model:
        solution = tokens.text_in(command.values.get("in-solution")) or ""
        return [f"epsat: {it}" for it in clause(model, ("such",), int(words[2])) + where_violated(int(words[2]), model, params, solution)]
    if words[:3] == ["$", "wrong", "shape"] and model:
        name, solution = words[3], tokens.text_in(command.values.get("in-solution")) or ""
        return [f"epsat: {it}" for it in misshapen(name, model, params, solution)]
    if words[:3] == ["$", "bad", "step"]:
        text = tokens.text_in(command.values.get("in-log")) or ""
        lines = text.splitlines()
        number = int(words[3])
        return [f"epsat: line {number} of the proof: {lines[number - 1][:WIDTH]}"] if number <= len(lines) else []
    if line == "$ no empty clause":
        return ["epsat: the proof's steps are right, and none of them is the empty clause: it shows nothing. A run whose budget was spent writes such a proof"]
    return []


def where_violated(number, model, params, solution):
    """For which values of its names a clause doesn't hold, and which part of it, where that is found out."""
    evaluator, told = grammar.Instance(model, params).evaluator, values_in(solution)
    try:
        for it in grammar.Reader(model).statements():
            for group in it.parts if it.kind == "find" else ():
                evaluator.names.update({one.text: grammar.fitted(told[one.text], group.domain, evaluator) for one in group.names})
        here, node = grammar.failing(evaluator, clauses(model, ("such",))[number - 1])
    except (grammar.Misfit, grammar.Undefined, grammar.Unknown, LookupError, AttributeError, ValueError):
        return []
    values = ", ".join(f"{name} = {value}" for name, value in here.items())
    return [f"it doesn't hold where {values}: {grammar.spelled(model, node)[:200]}"] if here else []


def values_in(solution):
    """The values of the lettings of a solution text, by names, as far as they are found."""
    value = grammar.Evaluator()
    for it in grammar.Reader(solution).statements():
        try:
            if it.kind == "letting":
                value.names[it.names[0].text] = value.of(it.parts[0])
        except (grammar.Undefined, grammar.Unknown, IndexError, AttributeError, ValueError):
            pass
    return value.names


def misshapen(name, model, params, solution):
    """Why a solution text has no value of the right shape for a name."""
    domain = next((group.domain for it in grammar.Reader(model).statements() if it.kind == "find" for group in it.parts if name in [one.text for one in group.names]), None)
    if domain is None:
        return [f"the model has no decision variable `{name}`, and the solution text has a `letting` of it"]
    made = [f"line {domain.first.line} of the model: {name} : {grammar.spelled(model, domain)}"]
    told = values_in(solution)
    if place_of(solution, ("letting",), name) is None:
        return [*made, f"the solution text has no `letting {name} be ..`"]
    if name in told:
        try:
            grammar.fitted(told[name], domain, grammar.Instance(model, params).evaluator)
        except grammar.Misfit as why:
            made.append(f"`{name}`: {why}")
        except (grammar.Undefined, grammar.Unknown, IndexError, AttributeError, ValueError):
            pass
    return made


def of_answer(text, command):
    """What may surprise in an answer."""
    lines = text[:400].decode("utf-8", "replace").split("\n")
    model, params = texts(command)
    if model is None or len(lines) < 2:
        return []
    if lines[1] == "$ solution" and not any(it.kind == "find" for it in tokens.declarations(model)):
        return ["epsat: the model has no `find`, so there was nothing to choose: is it the parameter file?"]
    if lines[1] != "$ no solution":
        return []
    made = []
    for node, at, index, indices, here, is_bool in grammar.Instance(model, params).reads_outside():
        values = ", ".join(f"{name} = {value}" for name, value in here.items() if isinstance(value, (int, bool)))
        made += shown_line(model, node.first.line, node.first.column)
        where = f"index {at} of" if len(node.more) > 1 else "the index of"
        made.append(
            f"epsat: {where} `{grammar.spelled(model, node)}` is {index}{f' where {values}' if values else ''}, outside of {grammar.shortly(indices)}: "
            + ("this read is false" if is_bool else "it has no value, and what compares it is false")
        )
    return [*made, f"epsat: there is no solution, which is proved. Which clauses can't be kept together: {command.explaining()}", f"epsat: where that surprises: {PAGE}"]


def of_explanation(text, command):
    """Where the clauses stand that an explanation names, and what to do where one of them says too much."""
    model, params = texts(command)
    numbers = [int(it) for it in re.findall(rb"^\$ without ([0-9]+)$", text, re.M)]
    if not model or not re.search(rb"^\$ explanation ", text, re.M):
        return []
    if not numbers:
        return ["epsat: no values fit the domains: some `find` has none"]
    found, made = clauses(model, ("such",)), []
    for it in [it for it in numbers if it <= len(found)][:NAMED]:
        said = grammar.spelled(model, found[it - 1])
        made.append(f"epsat: clause {it}, line {found[it - 1].first.line}: {said if len(said) <= WIDTH else said[: WIDTH - 3] + ' ..'}")
    if len(numbers) > NAMED:
        made.append(f"epsat: and {len(numbers) - NAMED} more")
    if any(found[it - 1].kind == "quantifier" for it in numbers if it <= len(found)):
        made.append("epsat: `tools/singles` takes a clause with `forAll` apart, and then this says for which values (docs/INFEASIBLE.md)")
    return made
