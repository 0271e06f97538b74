"""Checks `expand`: what it prints, that it prints the same again, and that the question of a text and of its printed form
have the same report.

It does so for the example models, and for the small texts of scripts/data/expand, which together have each form of expression
at each place. A line `// asks PROPERTY` of a small text is a question to ask, and a line `// given CONSTANTS` its constants.
"""
import tempfile
from pathlib import Path

import model_print
import model_table
from model_text import FUNCTIONS, LEVELS, Wrong

TEXTS = model_table.ROOT / "scripts/data/expand"
WHOLE = model_table.ROOT / "scripts/data/die.pm"  # the text whose prefixes are tried
QUESTIONS = 2  # how many questions are asked of an example model
PLAN = "--plan=40,20"
OPERATORS = [operator for level in LEVELS if level != "!" for operator in level]
FORMS = {"whole", "real", "true", "false", "name", "parentheses", "not", "minus", "if", *FUNCTIONS, *OPERATORS}
PLACES = {"constant", "formula", "low end", "high end", "initial value", "guard", "weight", "right side", "label"}


def texts():
    """The small texts, by name."""
    return sorted(TEXTS.glob("*.pm"))


def questions(path):
    """The words of `check` after the model, for some questions to a model."""
    if path.parent != TEXTS:
        return [[f"--property={example.text}", *example.options] for example in model_table.examples(path)[:QUESTIONS]]
    lines = path.read_text(encoding="utf-8").splitlines()
    given = [f"--const={line[len('// given '):]}" for line in lines if line.startswith("// given ")]
    return [[f"--property={line[len('// asks '):]}", PLAN, *given] for line in lines if line.startswith("// asks ")]


def faults(path, answer):
    """What is wrong with the expansion of a model; `answer` gives the output and the exit status of words."""
    printed, status = answer(["expand", f"--model={path}"])
    if (printed, status) != (model_print.printed(path.read_text(encoding="utf-8")), 0):
        yield f"the printed form isn't the one of model_print.py (exit status {status}):\n{printed}"
        return
    with tempfile.TemporaryDirectory() as folder:
        flat = Path(folder) / "flat.pm"
        flat.write_text(printed, encoding="utf-8")
        again, status = answer(["expand", f"--model={flat}"])
        if (again, status) != (printed, 0):
            yield f"the printed form is printed as something else (exit status {status}):\n{again}"
        for words in questions(path):
            of_text, of_flat = (answer(["check", f"--model={model}", *words]) for model in (path, flat))
            if of_text != of_flat or of_text[1] > 2:
                yield f"{' '.join(words)} has two answers: {of_text} of the text, {of_flat} of its printed form"


def is_model(text):
    """Whether the reader that was written apart accepts a text."""
    try:
        model_print.printed(text)
    except Wrong:
        return False
    return True


def prefix_faults(answer):
    """The prefixes of a text that are answered otherwise than with the model's printed form, or with status 5."""
    text = WHOLE.read_text(encoding="utf-8")
    with tempfile.TemporaryDirectory() as folder:
        part = Path(folder) / "part.pm"
        for length in range(len(text) + 1):
            part.write_text(text[:length], encoding="utf-8")
            printed, status = answer(["expand", f"--model={part}"])
            if status != (0 if is_model(text[:length]) else 5):
                yield f"{WHOLE.relative_to(model_table.ROOT)}: its first {length} bytes have status {status}: {printed}"


# ---- forms and places

def forms(tree):
    """The forms of expression that a tree has."""
    if isinstance(tree, list):
        return set().union(*map(forms, tree))
    if not isinstance(tree, tuple):
        return set()
    own = {"literal": lambda: {"int": "whole", "double": "real", "bool": str(tree[1]).lower()}[tree[2]],
           "operator": lambda: tree[1], "call": lambda: tree[1]}.get(tree[0], lambda: tree[0])()
    return {own} | (set() if tree[0] == "literal" else forms(list(tree[1:])))


def expressions(items):
    """The expressions of a model with their places."""
    yield from (("constant", body) for _, _, body in items["const"])
    yield from (("formula", body) for _, body in items["formula"])
    yield from (("label", body) for _, body in items["label"])
    modules = [module for module in items["module"] if module[0] == "written"]
    for _, bounds, initial in items["global"] + [one for module in modules for one in module[2]]:
        yield from zip(("low end", "high end"), bounds or ())
        yield ("initial value", initial)
    for _, guard, branches in (one for module in modules for one in module[3]):
        yield ("guard", guard)
        for weight, sets in branches:
            yield ("weight", weight)
            yield from (("right side", side) for _, side in sets)


def missing():
    """Pairs of a place and a form of expression that no small text has."""
    found = {(place, form) for path in texts()
             for place, tree in expressions(model_print.Kept(path.read_text(encoding="utf-8")).model()) for form in forms(tree)}
    return sorted({(place, form) for place in PLACES for form in FORMS} - found)
