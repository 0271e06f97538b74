"""Builds the chain of a parsed model, with exact fractions, for the scripts that check the example models.

Formulas are written out, modules renamed, constants evaluated and the sorts of expressions checked. Trees become functions
of a state.
"""
import itertools
import math
from dataclasses import dataclass
from fractions import Fraction
from typing import Callable, Optional

from model_text import Parser, Wrong


def sort_of(form, word, sorts):
    """The sort of a tree, from its form, its operator or function, and the sorts of its parts."""
    numbers = all(sort != "bool" for sort in sorts)
    truths = all(sort == "bool" for sort in sorts)
    whole = all(sort == "int" for sort in sorts)
    if form == "not" and truths or form == "operator" and word in ("=>", "<=>", "|", "&") and truths:
        return "bool"
    if form == "operator" and (word in ("=", "!=") and (numbers or truths) or word in ("<", "<=", ">", ">=") and numbers):
        return "bool"
    if form == "operator" and word == "/" and numbers:
        return "double"
    if form == "minus" and numbers or form == "operator" and word in ("+", "-", "*") and numbers:
        return "int" if whole else "double"
    if form == "call" and numbers:
        if word in ("floor", "ceil") or word == "mod" and whole:
            return "int"
        if word in ("min", "max") or word == "pow" and sorts[1] == "int":
            return "int" if (whole if word != "pow" else sorts[0] == "int") else "double"
    if form == "if" and sorts[0] == "bool" and (sorts[1] == "bool") == (sorts[2] == "bool"):
        return sorts[1] if sorts[1] == sorts[2] else "double"
    raise Wrong(f"wrong sorts {', '.join(sorts)} in {word or form}")


PYTHON = {"=": "==", "<=>": "==", "|": "or", "&": "and"}
TOOLS = {"Fraction": Fraction, "floor": math.floor, "ceil": math.ceil, "min": min, "max": max}


class Scope:
    """What names stand for, and how trees become functions of a state."""

    def __init__(self, formulas, constants, variables, labels, renaming=()):
        self.formulas, self.constants, self.variables, self.labels = formulas, constants, variables, labels
        self.renaming = dict(renaming)

    def renamed(self, pairs):
        return Scope(self.formulas, self.constants, self.variables, self.labels, pairs)

    def name(self, name):
        return self.renaming.get(name, name)

    def translated(self, tree):
        """Python's spelling of a tree over the state `s`, and its sort."""
        form = tree[0]
        if form == "literal":
            return repr(tree[1]), tree[2]
        if form == "name":
            return self.of_name(tree[1])
        if form == "quoted":
            if tree[1] not in self.labels:
                raise Wrong(f"unknown label {tree[1]}")
            return self.labels[tree[1]], "bool"
        word = tree[1] if form in ("operator", "call") else None
        parts = [self.translated(part) for part in (tree[2] if form == "call" else tree[2:] if word else tree[1:])]
        sort = sort_of(form, word, [part[1] for part in parts])
        return "(" + self.spelling(form, word, [part[0] for part in parts]) + ")", sort

    def of_name(self, name):
        if name in self.formulas:
            return self.translated(self.formulas[name])
        name = self.name(name)
        if name in self.constants:
            value, sort = self.constants[name]
            return repr(value), sort
        if name in self.variables:
            index, sort = self.variables[name]
            return f"s[{index}]", sort
        raise Wrong(f"unknown name {name}")

    @staticmethod
    def spelling(form, word, parts):
        if form == "if":
            return f"{parts[1]} if {parts[0]} else {parts[2]}"
        if form in ("not", "minus"):
            return f"{'not' if form == 'not' else '-'} {parts[0]}"
        if word == "=>":
            return f"not {parts[0]} or {parts[1]}"
        if word == "/":
            return f"Fraction({parts[0]}) / {parts[1]}"
        if word in ("pow", "mod"):
            return f"{parts[0]} {'**' if word == 'pow' else '%'} {parts[1]}"
        if form == "call":
            return f"{word}({', '.join(parts)})"
        return f"{parts[0]} {PYTHON.get(word, word)} {parts[1]}"

    def function(self, tree, *sorts, tools=TOOLS):
        """The tree as a function of a state. Its sort has to be one of these."""
        code, sort = self.translated(tree)
        if sort not in sorts:
            raise Wrong(f"an expression of sort {sort} stands where {' or '.join(sorts)} is needed: {code}")
        return eval(f"lambda s: {code}", tools)  # the code was made above, from a tree

    def value(self, tree, *sorts):
        """The value of a tree in which only constants are named."""
        return Scope(self.formulas, self.constants, {}, {}, self.renaming).function(tree, *sorts)(())


@dataclass
class Variable:
    name: str
    module: Optional[int]  # none for a global
    sort: str
    low: int
    high: int
    initial: int


@dataclass
class Command:
    module: int
    action: Optional[str]
    guard: Callable
    branches: list  # of pairs: the weight, and assignments as pairs of a variable's index and its new value


class Chain:
    """A chain: its variables and commands, and what may happen in each state."""

    def __init__(self, variables, commands, scope):
        self.variables, self.commands, self.scope = variables, commands, scope
        self.initial = tuple(variable.initial for variable in variables)
        self.takers = {}  # for each action, by first appearance, the modules that take part in it
        for command in commands:
            if command.action and command.module not in self.takers.setdefault(command.action, []):
                self.takers[command.action].append(command.module)

    def choices(self, state):
        """The choices of a state, each a tuple of commands: unlabelled commands first, then each action's combinations."""
        enabled = [command for command in self.commands if command.guard(state)]
        found = [(command,) for command in enabled if command.action is None]
        for action, modules in self.takers.items():
            taking = [command for command in enabled if command.action == action]
            found += itertools.product(*([command for command in taking if command.module == module] for module in modules))
        return found

    def weights(self, command, state):
        """The weights of a command's branches, as exact fractions with the sum 1."""
        weights = [Fraction(weight(state)) for weight, _ in command.branches]
        if min(weights) < 0 or sum(weights) != 1:
            raise Wrong(f"the weights {', '.join(map(str, weights))} in state {self.shown(state)}")
        return weights

    def assigned(self, state, assignments):
        """The state after these assignments, all of which read the state before them."""
        new = list(state)
        for index, value in assignments:
            variable, new[index] = self.variables[index], value(state)
            if variable.sort == "int" and not variable.low <= new[index] <= variable.high:
                raise Wrong(f"{variable.name}={new[index]} is outside its range, after state {self.shown(state)}")
        return tuple(new)

    def shown(self, state):
        return " ".join(f"{variable.name}={value}" for variable, value in zip(self.variables, state))


@dataclass
class Property:
    """A property of a chain: the comparison, its bound, and the path formula. Below the horizon `first` has to hold."""
    comparison: str
    bound: Fraction
    kind: str
    first: Callable
    second: Callable
    horizon: int


class Constants:
    """The constants of a model, each evaluated when its value is first asked for."""

    def __init__(self, definitions, formulas, given):
        self.bodies, self.formulas, self.values = {}, formulas, {}
        for name, sort, body in definitions:
            if (body is None) != (name in given):
                raise Wrong(f"constant {name} has {'no value' if body is None else 'two values'}")
            self.bodies[name] = (sort, body or given[name])
        if unknown := set(given) - set(self.bodies):
            raise Wrong(f"unknown constants {', '.join(sorted(unknown))}")

    def __contains__(self, name):
        return name in self.bodies

    def __getitem__(self, name):
        """The value and the sort of a constant."""
        sort, body = self.bodies[name]
        if name not in self.values:
            self.values[name] = None
            fitting = ("int", "double") if sort == "double" else (sort,)
            self.values[name] = Scope(self.formulas, self, {}, {}).value(body, *fitting)
        elif self.values[name] is None:
            raise Wrong(f"constant {name} reaches itself")
        return self.values[name], sort


def written_out(modules):
    """Each module with its variables, its commands and its renaming."""
    written = {module[1]: module for module in modules if module[0] == "written"}
    for module in modules:
        if module[0] == "written":
            yield module[2], module[3], {}
            continue
        _, _, source, pairs = module
        if source not in written:
            raise Wrong(f"no such module {source}")
        if left := {name for name, _, _ in written[source][2]} - {old for old, _ in pairs}:
            raise Wrong(f"variables not renamed: {', '.join(left)}")
        yield written[source][2], written[source][3], dict(pairs)


def variable_of(name, bounds, initial, module, scope):
    """A declared variable. Without an initial value it starts at its least one."""
    if bounds is None:
        return Variable(name, module, "bool", False, True, bool(initial) and scope.value(initial, "bool"))
    low, high = (scope.value(bound, "int") for bound in bounds)
    start = low if initial is None else scope.value(initial, "int")
    if not low <= start <= high:
        raise Wrong(f"variable {name} starts at {start}, outside {low}..{high}")
    return Variable(name, module, "int", low, high, start)


def command_of(command, module, variables, scope):
    """A command of a module, with its names looked up."""
    action, guard, branches = command
    found = []
    for weight, sets in branches:
        assignments = {}
        for name, value in sets:
            index, sort = scope.variables.get(scope.name(name), (None, None))
            if index is None or variables[index].module not in (module, None) or index in assignments:
                raise Wrong(f"a command cannot write {name} here, or writes it twice")
            if action and variables[index].module is None:
                raise Wrong(f"a labelled command writes the global {name}")
            assignments[index] = scope.function(value, sort)
        found.append((scope.function(weight, "int", "double"), list(assignments.items())))
    return Command(module, action and scope.name(action), scope.function(guard, "bool"), found)


def model(text, given):
    """The chain of a model's text and of the values given to its constants."""
    items = Parser(text).model()
    formulas, modules = dict(items["formula"]), list(written_out(items["module"]))
    constants = Constants(items["const"], formulas, given)
    plain = Scope(formulas, constants, {}, {})
    variables = [variable_of(*declared, None, plain) for declared in items["global"]]
    for number, (declared, _, pairs) in enumerate(modules):
        scope = plain.renamed(pairs)
        variables += [variable_of(scope.name(name), bounds, initial, number, scope)
                      for name, bounds, initial in declared]
    names = [*constants.bodies, *formulas, *(variable.name for variable in variables)]
    if doubled := {name for name in names if names.count(name) > 1}:
        raise Wrong(f"declared twice: {', '.join(sorted(doubled))}")
    for name in constants.bodies:
        constants[name]
    known = {variable.name: (index, variable.sort) for index, variable in enumerate(variables)}
    scope = Scope(formulas, constants, known, {})
    commands = [command_of(command, number, variables, scope.renamed(pairs))
                for number, (_, commands, pairs) in enumerate(modules) for command in commands]
    for name, body in items["label"]:
        scope.function(body, "bool")
        scope.labels[name] = scope.translated(body)[0]
    return Chain(variables, commands, scope)


def path_property(text, chain):
    """The property of a text over a chain."""
    comparison, bound, (kind, first, time, second) = Parser(text).property()
    scope = chain.scope
    state_scope = Scope(scope.formulas, scope.constants, scope.variables,
                        {**scope.labels, '"init"': f"(s == {chain.initial!r})", '"deadlock"': "DEADLOCK(s)"})
    horizon = 1 if time is None else scope.value(time[1], "int") - time[0]
    if not 0 <= horizon <= 1_000_000:
        raise Wrong(f"the horizon {horizon}")
    tools = dict(TOOLS, DEADLOCK=lambda state: not chain.choices(state))
    first, second = (state_scope.function(tree, "bool", tools=tools) for tree in (first, second))
    return Property(comparison, Fraction(scope.value(bound, "int", "double")), kind, first, second, horizon)


def given_constants(pairs):
    """The constants of `name=value,name=value`, each as a tree."""
    given = {}
    for pair in filter(None, pairs.split(",")):
        name, value = pair.split("=", 1)
        if name in given:
            raise Wrong(f"constant {name} is given twice")
        given[name] = Parser(value).expression()
    return given
