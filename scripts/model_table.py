#!/usr/bin/env python3
"""Prints the exact probability of each example property, from the chain's own states.

    scripts/model_table.py [MODEL.pm ..]

Without names it takes all of models/. A model's properties stand in the file beside it that ends in `.props`, one a line.
The lines `//` above a property tell what it says. One of them may be `// exact: V`, which states its probability V as a
fraction or as the first digits of a decimal followed by `..`; and one `// options: WORDS`, the further options of its command.

The probability is that of the path formula, whichever comparison stands before it. It is computed step by step over all
states that can be reached, which is possible for small chains alone: for larger ones there is `smc`.
"""
import math
import pathlib
import sys
from dataclasses import dataclass
from fractions import Fraction

import model_chain
from model_text import Wrong

ROOT = pathlib.Path(__file__).resolve().parent.parent
MODELS = ROOT / "models"


@dataclass
class Example:
    """A property that stands beside a model: its text, the sentences above it, and its stated probability and options."""
    model: pathlib.Path
    text: str
    says: str
    exact: str
    options: list

    def option(self, name, default):
        """The value of an option, or this default."""
        return dict(option[2:].split("=", 1) for option in self.options).get(name, default)

    def chain(self):
        """The chain of the model, with the constants that the options give."""
        given = model_chain.given_constants(self.option("const", ""))
        try:
            return model_chain.model(self.model.read_text(encoding="utf-8"), given)
        except Wrong as wrong:
            raise Wrong(f"{self.model.name}: {wrong}") from wrong


def models():
    """The example models with properties beside them, by folder."""
    return sorted(path for path in MODELS.glob("*/*.pm") if path.with_suffix(".props").exists())


def examples(model):
    """The examples of a model, in the order of its file of properties."""
    found, says, stated = [], [], {}
    for line in model.with_suffix(".props").read_text(encoding="utf-8").splitlines():
        comment = line[2:].strip()
        if not line.startswith("//"):
            if line.strip():
                options = stated.get("options", "").split()
                found.append(Example(model, line.strip(), " ".join(says), stated.get("exact", ""), options))
            says, stated = [], {}
        elif comment.startswith(("exact: ", "options: ")):
            name, value = comment.split(": ", 1)
            stated[name] = value
        else:
            says.append(comment)
    return found


def successors(chain, state):
    """The states after a state with their probabilities: its choices are equally likely, and without one it stays."""
    choices, after = chain.choices(state), {}
    for choice in choices:
        branches = [(Fraction(1, len(choices)), [])]
        for command in choice:
            weighted = list(zip(chain.weights(command, state), command.branches))
            branches = [(chance * weight, sets + more) for chance, sets in branches for weight, (_, more) in weighted if weight]
        for chance, sets in branches:
            new = chain.assigned(state, sets)
            after[new] = after.get(new, 0) + chance
    return after or {state: Fraction(1)}


def reached(chain, first, second, horizon):
    """The probability of `first U<=horizon second`.

    The masses of the states where it is open yet are whole numbers over one denominator, `scale`.
    """
    masses, scale, settled, known = {chain.initial: 1}, 1, 0, {}
    for step in range(horizon + 1):
        settled += sum(mass for state, mass in masses.items() if second(state))
        open_yet = {state: mass for state, mass in masses.items() if not second(state) and first(state)}
        if step == horizon or not open_yet:
            return Fraction(settled, scale)
        for state in open_yet.keys() - known.keys():
            known[state] = successors(chain, state)
        common = math.lcm(*(chance.denominator for state in open_yet for chance in known[state].values()))
        masses, scale, settled = {}, scale * common, settled * common
        for state, mass in open_yet.items():
            for new, chance in known[state].items():
                masses[new] = masses.get(new, 0) + mass * (chance.numerator * (common // chance.denominator))


def probability(chain, asked):
    """The exact probability of a property's path formula."""
    if asked.kind == "X":
        return sum(chance for state, chance in successors(chain, chain.initial).items() if asked.second(state))
    if asked.kind == "G":
        return 1 - reached(chain, asked.first, lambda state: not asked.second(state), asked.horizon)
    return reached(chain, asked.first, asked.second, asked.horizon)


def decimals(value, digits):
    """The first digits of a probability after the point, with `..` where more follow."""
    shown, rest = divmod(value.numerator * 10 ** digits, value.denominator)
    text = f"{shown // 10 ** digits}.{shown % 10 ** digits:0{digits}}"
    return text + ".." if rest else text.rstrip("0").rstrip(".")


def exact_value(example):
    """The exact probability of an example."""
    chain = example.chain()
    return probability(chain, model_chain.path_property(example.text, chain))


def main():
    for model in [pathlib.Path(name).resolve() for name in sys.argv[1:]] or models():
        asked = examples(model)
        print(model.relative_to(ROOT) if model.is_relative_to(ROOT) else model)
        for example in asked:
            value = exact_value(example)
            fraction = f" = {value}" if len(str(value)) <= 40 else ""
            print(f"  {example.text} {' '.join(example.options)}".rstrip())
            print(f"    {decimals(value, 12)}{fraction}")


if __name__ == "__main__":
    try:
        main()
    except (Wrong, OSError) as wrong:
        sys.exit(f"model_table: {wrong}")
