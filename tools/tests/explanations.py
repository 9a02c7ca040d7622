"""How explanations are judged, by other tasks alone."""
import re

from base import program
import grammar


def with_clauses(model, numbers):
    """The text of a model with the clauses of these numbers alone."""
    statements = grammar.Reader(model).statements()
    clauses = [one for it in statements if it.kind == "such" for one in it.parts]
    kept, at = [], 0
    for it in statements:
        if it.kind == "such":
            kept.append(model[at : it.token.at])
            at = it.parts[-1].last.at + len(it.parts[-1].last.text)
    kept.append(model[at:])
    wanted = [model[it.first.at : it.last.at + len(it.last.text)] for it in (clauses[number - 1] for number in numbers)]
    return "".join(kept).rstrip() + ("\nsuch that\n  " + ",\n  ".join(wanted) if wanted else "") + "\n"


def judge_clauses(case, model, params, numbers):
    """Holds clauses against there being a solution of all of them, and none of all but one."""
    for left, want in [(numbers, "$ no solution"), *(([it for it in numbers if it != one], "$ solution") for one in numbers)]:
        words = ["--in-eprime", case.file("some.eprime", with_clauses(model, left)), "--in-param", params]
        status, out, _ = case.call(program(), *words)
        case.assertEqual((status, out.split("\n")[1]), (0, want), left)


def judge(case, model, params, answer):
    """Holds each part of an explanation against the model with the other clauses, and all of them against there being a solution."""
    lines = answer.split("\n")
    case.assertRegex(lines[1], r"^\$ explanation [1-9]")
    parts = re.findall(r"(?m)^\$ without (\d+)\n((?:letting .*\n)*)", answer)
    numbers = [int(it) for it, _ in parts]
    case.assertEqual((len(numbers), numbers), (int(lines[1].split()[2]), sorted(set(numbers))))
    words = ["--in-eprime", case.file("some.eprime", with_clauses(model, numbers)), "--in-param", params]
    case.assertEqual(case.call(program(), *words)[:2], (0, "language ESSENCE' 1.0\n$ no solution\n"))
    for number, lettings in parts:
        case.file("some.eprime", with_clauses(model, [it for it in numbers if it != int(number)]))
        solution = case.file("without.solution", f"language ESSENCE' 1.0\n{lettings}")
        case.assertEqual(case.call(program(), "--task", "verify", *words, "--in-solution", solution)[:2], (0, "$ solution\n"), number)
