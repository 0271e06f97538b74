#!/usr/bin/env python3
"""A second opinion on `smc expand`: prints the flat form of models, by a program written apart.

    scripts/model_print.py FILE ..

Formulas are written out in parentheses, renamed modules with their names replaced, as docs/FORMATS.md tells. It proves nothing
and tells no refusals: it stops at the first thing that is wrong with the grammar, and takes it that nothing else is wrong.
"""
import pathlib
import sys
from fractions import Fraction

from model_text import Parser, Wrong


class Kept(Parser):
    """Parses models with parentheses, and with weights that are left out, as they are written."""

    def primary(self):
        if not self.take("("):
            return super().primary()
        tree = self.expression()
        self.need(")")
        return ("parentheses", tree)

    def command(self):
        words = [word for _, word in self.tokens[self.at:]]
        first, second, third = (words + ["->", "", "", ""])[words.index("->") + 1 if "->" in words else 0:][:3]
        is_left_out = first == "(" and third == "'" or first == "true" and second == ";"
        action, guard, branches = super().command()
        return (action, guard, [(None, branches[0][1])] if is_left_out else branches)


# ---- expansion

def replaced(tree, names):
    """A tree with these names replaced by trees."""
    if isinstance(tree, list):
        return [replaced(part, names) for part in tree]
    if not isinstance(tree, tuple):
        return tree
    if tree[0] == "name":
        return names.get(tree[1], tree)
    return (tree[0], *(replaced(part, names) if isinstance(part, (tuple, list)) else part for part in tree[1:]))


def written_out(formulas):
    """The body of each formula in parentheses, with the formulas that it uses written out."""
    bodies, done = dict(formulas), {}

    def body(name):
        if name not in done:
            used = {other: body(other) for other in used_in(bodies[name]) & bodies.keys()}
            done[name] = ("parentheses", replaced(bodies[name], used))
        return done[name]
    return {name: body(name) for name in bodies}


def used_in(tree):
    """The names that a tree uses."""
    if not isinstance(tree, (tuple, list)):
        return set()
    return {tree[1]} if tree[0] == "name" else set().union(*map(used_in, tree))


def variable_with(variable, names, title):
    """A variable with names of its expressions replaced, and with this new name."""
    name, bounds, initial = variable
    return (title(name), bounds and [replaced(end, names) for end in bounds], replaced(initial, names))


def command_with(command, names, title):
    """A command with names of its expressions replaced, and with new names of its action and of what it assigns to."""
    action, guard, branches = command
    return (title(action), replaced(guard, names), [
        (replaced(weight, names), [(title(name), replaced(side, names)) for name, side in sets]) for weight, sets in branches])


def module_with(module, names, title):
    """A module that is written out, with names replaced."""
    kind, name, variables, commands = module
    return (kind, name, [variable_with(one, names, title) for one in variables],
            [command_with(one, names, title) for one in commands])


def copied(source, name, pairs):
    """A module of this name that is another one, with its names replaced all at once."""
    new = dict(pairs)
    _, _, variables, commands = module_with(source, {old: ("name", name) for old, name in pairs}, lambda one: new.get(one, one))
    return ("written", name, variables, commands)


def flat(items):
    """A model's items with formulas and renamed modules written out."""
    names = written_out(items["formula"])

    def same(name):
        return name
    modules = {}
    for module in items["module"]:
        if module[0] == "written":
            modules[module[1]] = module_with(module, names, same)
    return {
        "const": [(name, sort, replaced(body, names)) for name, sort, body in items["const"]],
        "global": [variable_with(one, names, same) for one in items["global"]],
        "formula": [(name, names[name][1]) for name, _ in items["formula"]],
        "module": [modules[module[1]] if module[0] == "written" else copied(modules[module[2]], module[1], module[3])
                   for module in items["module"]],
        "label": [(name, replaced(body, names)) for name, body in items["label"]],
    }


# ---- printing

def decimal(value):
    """A number with as few decimals as are exact, and one at least."""
    digits = next(digits for digits in range(1, 19) if value * 10 ** digits % 1 == 0)
    whole, rest = divmod(int(value * 10 ** digits), 10 ** digits)
    return f"{whole}.{rest:0{digits}}"


def literal(value, sort):
    """The text of a number or of a truth value."""
    return decimal(Fraction(value)) if sort == "double" else str(value).lower()


def shown(tree):
    """The text of an expression."""
    form, *parts = tree
    if form == "literal":
        return literal(*parts)
    if form in ("name", "quoted"):
        return parts[0]
    if form == "parentheses":
        return f"({shown(parts[0])})"
    if form == "call":
        return f"{parts[0]}({', '.join(map(shown, parts[1]))})"
    if form in ("not", "minus"):
        return {"not": "!", "minus": "-"}[form] + shown(parts[0])
    if form == "operator":
        return f"{shown(parts[1])} {parts[0]} {shown(parts[2])}"
    return f"{shown(parts[0])} ? {shown(parts[1])} : {shown(parts[2])}"


def variable(name, bounds, initial):
    """The text of a variable's declaration."""
    sort = f"[{shown(bounds[0])}..{shown(bounds[1])}]" if bounds else "bool"
    return f"{name} : {sort}" + (f" init {shown(initial)};" if initial else ";")


def update(sets):
    """The text of an update."""
    return " & ".join(f"({name}'={shown(side)})" for name, side in sets) or "true"


def command(action, guard, branches):
    """The line of a command."""
    ways = (f"{shown(weight)} : {update(sets)}" if weight else update(sets) for weight, sets in branches)
    return f"[{action or ''}] {shown(guard)} -> {' + '.join(ways)};"


def lines(model):
    """The lines of a flat model."""
    yield "dtmc"
    for name, sort, body in model["const"]:
        yield f"const {sort} {name}" + (f" = {shown(body)};" if body else ";")
    for one in model["global"]:
        yield f"global {variable(*one)}"
    for name, body in model["formula"]:
        yield f"formula {name} = {shown(body)};"
    for _, name, variables, commands in model["module"]:
        yield f"module {name}"
        yield from (f"  {variable(*one)}" for one in variables)
        yield from (f"  {command(*one)}" for one in commands)
        yield "endmodule"
    for name, body in model["label"]:
        yield f"label {name} = {shown(body)};"


def printed(text):
    """The printed form of a model's text."""
    return "".join(line + "\n" for line in lines(flat(Kept(text).model())))


def main():
    for name in sys.argv[1:]:
        sys.stdout.write(printed(pathlib.Path(name).read_text(encoding="utf-8")))


if __name__ == "__main__":
    try:
        main()
    except (Wrong, OSError) as wrong:
        sys.exit(f"model_print: {wrong}")
