"""Parses models and properties of docs/LANGUAGE.md, for the scripts that check the example models.

This is a second reader, written apart from the program and proved nowhere: an example is right where both agree. It stops
at the first thing that is wrong. Limits on lengths and on the width of numbers are the program's to check.
"""
import re
from fractions import Fraction

RESERVED = set("""A bool clock const ctmc C double dtmc E endinit endinvariant endmodule endobservables endrewards endsystem
    false filter formula func F global G I init int invariant label max mdp min module nondeterministic observable
    observables of P Pmax Pmin pomdp popta prob probabilistic pta R rate rewards Rmax Rmin S stochastic system true U W
    X""".split())
TOKEN = re.compile(r"""
    (?P<blank>[ \t\n\r\f]+|//[^\n]*)
  | (?P<real>[0-9]*\.[0-9]+(?:[eE][+-]?[0-9]+)?|[0-9]+[eE][+-]?[0-9]+)
  | (?P<whole>[0-9]+)
  | (?P<name>[A-Za-z_][A-Za-z0-9_]*)
  | (?P<quoted>"[A-Za-z_][A-Za-z0-9_]*")
  | (?P<symbol><=>|->|=>|<=|>=|!=|\.\.|[;:,\[\]()'=<>+\-*/&|!?])
    """, re.VERBOSE)
# the operators of two operands, from those that bind least to those that bind most; `!` binds between `&` and `=`
LEVELS = [("=>",), ("<=>",), ("|",), ("&",), "!", ("=", "!="), ("<", "<=", ">", ">="), ("+", "-"), ("*", "/")]
FUNCTIONS = {"min": None, "max": None, "floor": 1, "ceil": 1, "pow": 2, "mod": 2}


class Wrong(Exception):
    """What is wrong with a text, or with a step of its chain."""


def tokens(text):
    """The tokens of a text as pairs of kind and spelling, with an end marker."""
    found, at = [], 0
    while at < len(text):
        match = TOKEN.match(text, at)
        if not match:
            raise Wrong(f"no token begins at {at}: {text[at:at + 20]!r}")
        at, kind, word = match.end(), match.lastgroup, match.group()
        if kind != "blank":
            found.append(("word" if kind == "name" and word in RESERVED else kind, word))
    return found + [("end", "the end")]


class Parser:
    """Parses tokens by the grammar. Trees are tuples that begin with their form."""

    def __init__(self, text):
        self.tokens, self.at = tokens(text), 0

    def next_is(self, *words):
        kind, word = self.tokens[self.at]
        return kind in ("symbol", "word") and word in words

    def take(self, *words):
        """The next token, where it is one of these words; else nothing."""
        if not self.next_is(*words):
            return None
        self.at += 1
        return self.tokens[self.at - 1][1]

    def need(self, *words):
        word = self.take(*words)
        if word is None:
            raise Wrong(f"{self.tokens[self.at][1]!r} stands where {' or '.join(words)} is needed")
        return word

    def spelled(self, kind):
        """The next token, which has to be of this kind."""
        found, word = self.tokens[self.at]
        if found != kind:
            raise Wrong(f"{word!r} stands where a {kind} is needed")
        self.at += 1
        return word

    def expression(self):
        condition = self.chain(0)
        if not self.take("?"):
            return condition
        first = self.chain(0)
        self.need(":")
        return ("if", condition, first, self.expression())

    def chain(self, level):
        if level == len(LEVELS):
            return ("minus", self.chain(level)) if self.take("-") else self.primary()
        if LEVELS[level] == "!":
            return ("not", self.chain(level)) if self.take("!") else self.chain(level + 1)
        tree, arrows = self.chain(level + 1), 0
        while operator := self.take(*LEVELS[level]):
            tree = ("operator", operator, tree, self.chain(level + 1))
            arrows += operator == "=>"
        if arrows > 1:
            raise Wrong("a chain of => needs parentheses")
        return tree

    def primary(self):
        kind, word = self.tokens[self.at]
        if kind == "name" and word in FUNCTIONS and self.tokens[self.at + 1][1] == "(" or self.next_is("min", "max"):
            self.at += 1
            return ("call", word, self.parts(word))
        self.at += 1
        if kind in ("whole", "real"):
            return ("literal", int(word) if kind == "whole" else Fraction(word), "int" if kind == "whole" else "double")
        if word in ("true", "false"):
            return ("literal", word == "true", "bool")
        if kind in ("name", "quoted"):
            return (kind, word)
        if (kind, word) == ("symbol", "("):
            tree = self.expression()
            self.need(")")
            return tree
        raise Wrong(f"{word!r} begins no expression")

    def parts(self, function):
        self.need("(")
        parts = [self.expression()]
        while self.take(","):
            parts.append(self.expression())
        self.need(")")
        if len(parts) != (FUNCTIONS[function] or max(2, len(parts))):
            raise Wrong(f"{function} has {len(parts)} parts")
        return parts

    def variable(self):
        name = self.spelled("name")
        self.need(":")
        bounds = None
        if not self.take("bool"):
            self.need("[")
            low = self.expression()
            self.need("..")
            bounds = (low, self.expression())
            self.need("]")
        initial = self.expression() if self.take("init") else None
        self.need(";")
        return (name, bounds, initial)

    def update(self):
        if self.next_is("true"):
            self.at += 1
            return []
        sets = []
        while True:
            self.need("(")
            name = self.spelled("name")
            self.need("'")
            self.need("=")
            sets.append((name, self.expression()))
            self.need(")")
            if not self.take("&"):
                return sets

    def command(self):
        self.need("[")
        action = None if self.next_is("]") else self.spelled("name")
        self.need("]")
        guard = self.expression()
        self.need("->")
        start = self.at
        try:
            branches = [(("literal", 1, "int"), self.update())]
            self.need(";")
        except Wrong:
            self.at, branches = start, []
            while not branches or self.take("+"):
                weight = self.expression()
                self.need(":")
                branches.append((weight, self.update()))
            self.need(";")
        return (action, guard, branches)

    def module(self):
        name = self.spelled("name")
        if self.take("="):
            source, pairs = self.spelled("name"), []
            self.need("[")
            while not pairs or self.take(","):
                old = self.spelled("name")
                self.need("=")
                pairs.append((old, self.spelled("name")))
            self.need("]")
            self.need("endmodule")
            return ("renamed", name, source, pairs)
        variables, commands = [], []
        while not self.next_is("[", "endmodule"):
            variables.append(self.variable())
        while not self.take("endmodule"):
            commands.append(self.command())
        return ("written", name, variables, commands)

    def model(self):
        """The items of a model by their kind, each list in text order."""
        items = {"const": [], "formula": [], "label": [], "global": [], "module": []}
        self.need("dtmc", "probabilistic")
        while self.tokens[self.at][0] != "end":
            kind = self.need("rewards", *items)
            if kind == "rewards":
                while not self.take("endrewards"):
                    if self.tokens[self.at][0] == "end":
                        raise Wrong("a rewards block has no end")
                    self.at += 1
            elif kind == "global":
                items[kind].append(self.variable())
            elif kind == "module":
                items[kind].append(self.module())
            else:
                items[kind].append(self.definition(kind))
        return items

    def definition(self, kind):
        sort = (self.take("int", "double", "bool") or "int") if kind == "const" else None
        name = self.spelled("quoted" if kind == "label" else "name")
        body = None
        if kind != "const" or self.next_is("="):
            self.need("=")
            body = self.expression()
        self.need(";")
        return (name, sort, body) if kind == "const" else (name, body)

    def time(self):
        strict = self.need("<=", "<") == "<"
        kind, word = self.tokens[self.at]
        if kind in ("whole", "name"):
            self.at += 1
            return (strict, ("literal", int(word), "int") if kind == "whole" else ("name", word))
        self.need("(")
        last = self.expression()
        self.need(")")
        return (strict, last)

    def property(self):
        """Comparison, bound, and the path formula as kind, first, time and second."""
        true = ("literal", True, "bool")
        self.need("P")
        comparison = self.need(">=", ">", "<=", "<")
        bound = self.chain(LEVELS.index(("+", "-")))
        self.need("[")
        if self.take("X"):
            path = ("X", true, None, self.expression())
        elif kind := self.take("F", "G"):
            path = (kind, true, self.time(), self.expression())
        else:
            first = self.expression()
            self.need("U")
            path = ("U", first, self.time(), self.expression())
        self.need("]")
        self.spelled("end")
        return (comparison, bound, path)
