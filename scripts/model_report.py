#!/usr/bin/env python3
"""A second opinion on `smc check`: draws the same traces and prints the same report, by a program written apart.

    scripts/model_report.py check --model=FILE --property=TEXT [--const=..] [--seed=..] [--plan=n,c]
                            [--delta=..] [--alpha=..] [--beta=..] [--limit=..] [--workers=..]

It is slow, proves nothing and tells no refusals: it stops at the first thing that is wrong. The expected reports of the
example models are written with it, so that they aren't the program's own output.
"""
import itertools
import math
import pathlib
import sys
from fractions import Fraction

import model_chain
from model_text import Wrong

MASK = 0xFFFFFFFF
ROUNDS = [(0, 4, 8, 12), (1, 5, 9, 13), (2, 6, 10, 14), (3, 7, 11, 15),
          (0, 5, 10, 15), (1, 6, 11, 12), (2, 7, 8, 13), (3, 4, 9, 14)]
DEFAULTS = {"const": "", "seed": "1", "plan": "", "delta": "1/100", "alpha": "1/100", "beta": "1/100",
            "limit": "1000000", "workers": "1"}


def block(seed, stream, counter):
    """A block of ChaCha8: sixteen words, for a key that is the seed and zeros."""
    start = [0x61707865, 0x3320646E, 0x79622D32, 0x6B206574, seed & MASK, seed >> 32, 0, 0, 0, 0, 0, 0,
             counter & MASK, counter >> 32, stream & MASK, stream >> 32]
    words = list(start)
    for _ in range(4):
        for a, b, c, d in ROUNDS:
            for x, y, z, turn in ((a, b, d, 16), (c, d, b, 12), (a, b, d, 8), (c, d, b, 7)):
                words[x] = (words[x] + words[y]) & MASK
                word = words[z] ^ words[x]
                words[z] = (word << turn | word >> 32 - turn) & MASK
    return [(word + first) & MASK for word, first in zip(words, start)]


def draws(seed, trace):
    """The draws of a trace, numbers of 64 bits."""
    counter = 0
    while True:
        words = block(seed, trace, counter)
        yield from (low + (high << 32) for low, high in zip(words[::2], words[1::2]))
        counter += 1


def picked(draw, parts):
    return draw * parts >> 64


class Traces:
    """Draws traces of a chain, and remembers what may happen in each state."""

    def __init__(self, chain, asked, seed):
        self.chain, self.asked, self.seed, self.known = chain, asked, seed, {}

    def choices(self, state):
        """The choices of a state, each with its commands' running sums of weights over a common denominator."""
        if state not in self.known:
            self.known[state] = []
            for choice in self.chain.choices(state):
                weights = [self.chain.weights(command, state) for command in choice]
                whole = [math.lcm(*(weight.denominator for weight in some)) for some in weights]
                sums = [[int(end * parts) for end in itertools.accumulate(some)] for some, parts in zip(weights, whole)]
                self.known[state].append(list(zip(choice, sums, whole)))
        return self.known[state]

    def step(self, state, stream):
        """The next state, and the draws that it takes: one for several choices, one for each command of several branches."""
        choices = self.choices(state)
        if not choices:
            return state
        choice = choices[picked(next(stream), len(choices)) if len(choices) > 1 else 0]
        sets = []
        for command, sums, parts in choice:
            place = picked(next(stream), parts) if len(sums) > 1 else 0
            sets += command.branches[next(number for number, end in enumerate(sums) if place < end)][1]
        return self.chain.assigned(state, sets)

    def outcome(self, trace):
        """Whether a trace has the path formula, drawn as far as that is open."""
        asked, state, stream = self.asked, self.chain.initial, draws(self.seed, trace)
        if asked.kind == "X":
            return asked.second(self.step(state, stream))
        wanted = asked.kind != "G"
        for step in range(asked.horizon + 1):
            if asked.second(state) == wanted:
                return wanted
            if not asked.first(state):
                return False
            if step < asked.horizon:
                state = self.step(state, stream)
        return not wanted


class Plan:
    """A single sampling plan: at most n traces, accepted where more than c succeed."""

    def __init__(self, size, acceptance_number):
        self.size, self.acceptance_number = size, acceptance_number
        self.words = f"plan {size},{acceptance_number}"

    def verdict(self, successes, failures):
        if successes > self.acceptance_number:
            return "accepted"
        return "rejected" if failures >= self.size - self.acceptance_number else None


class Wald:
    """Wald's sequential probability ratio test, with whole numbers alone."""

    def __init__(self, theta, delta, alpha, beta):
        above, below = min(Fraction(1), theta + delta), max(Fraction(0), theta - delta)
        self.words = f"wald p0 {above} p1 {below} alpha {alpha} beta {beta}"
        whole, self.error = math.lcm(above.denominator, below.denominator), math.lcm(alpha.denominator, beta.denominator)
        self.above = (int(above * whole), whole - int(above * whole))
        self.below = (int(below * whole), whole - int(below * whole))
        self.alpha, self.beta = int(alpha * self.error), int(beta * self.error)

    def verdict(self, successes, failures):
        likely_below = self.below[0] ** successes * self.below[1] ** failures
        likely_above = self.above[0] ** successes * self.above[1] ** failures
        accept = (likely_below * (self.error - self.alpha), self.beta * likely_above)
        reject = (likely_below * self.alpha, (self.error - self.beta) * likely_above)
        for left, right in (accept, reject):
            if left and right and abs(left - right) << 30 < right:
                raise Wrong("the counts are too near to a boundary for this script")
        if accept[0] <= accept[1]:
            return "accepted"
        return "rejected" if reject[0] >= reject[1] else None


def observed(bits):
    """The lines of the two observers that the program hands in."""
    longest = run = 0
    for bit in bits:
        run = run + 1 if bit else 0
        longest = max(longest, run)
    full = [sum(bits[at:at + 1000]) for at in range(0, len(bits) - 999, 1000)]
    return [f"longest run of true: {longest}",
            f"batches of 1000: {len(full)} full, least {min(full, default=0)}, most {max(full, default=0)}"]


def report(words):
    """The report of a command's words, and its exit status."""
    options = dict(DEFAULTS, **dict(word[2:].split("=", 1) for word in words))
    text = pathlib.Path(options["model"]).read_text(encoding="utf-8")
    chain = model_chain.model(text, model_chain.given_constants(options["const"]))
    asked = model_chain.path_property(options["property"], chain)
    at_most = asked.comparison in ("<=", "<")
    theta = 1 - asked.bound if at_most else asked.bound
    test = (Plan(*map(int, options["plan"].split(","))) if options["plan"]
            else Wald(theta, *(Fraction(options[name]) for name in ("delta", "alpha", "beta"))))
    traces, limit, bits, verdict = Traces(chain, asked, int(options["seed"])), int(options["limit"]), [], None
    while verdict is None:
        bits.append(traces.outcome(len(bits)) != at_most)
        successes, failures = sum(bits), len(bits) - sum(bits)
        verdict = test.verdict(successes, failures) or ("undecided (limit)" if len(bits) == limit else None)
    lines = [f"result: {verdict}", f"samples: {len(bits)}", f"successes: {successes}", f"failures: {failures}",
             f"claim: at {'most' if at_most else 'least'}", f"test: {test.words}", f"limit: {limit}",
             f"seed: {options['seed']}"]
    status = {"accepted": 0, "rejected": 1}.get(verdict, 2)
    return "".join(line + "\n" for line in lines + observed(bits)), status


def main():
    names = {word.split("=", 1)[0] for word in sys.argv[2:]}
    if sys.argv[1:2] != ["check"] or not {"--model", "--property"} <= names:
        sys.exit(__doc__)
    text, status = report(sys.argv[2:])
    sys.stdout.write(text)
    return status


if __name__ == "__main__":
    try:
        sys.exit(main())
    except (Wrong, OSError) as wrong:
        sys.exit(f"model_report: {wrong}")
