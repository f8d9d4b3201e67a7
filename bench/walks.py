#!/usr/bin/env python3
"""Times `bridge simulate` and `bridge show`, beside the same by a plain program in CPython.

    bench/walks.py [--program crates/bridge/out/bridge] [--runs 3]

A walk of 100,000 steps through 10 modules of two commands each, of which every second synchronises with the next, in PRISM and in
the JANI file that `to-jani` makes of it; the state of a model that has 60,000 choices; and a walk of 100,000 steps over a formula that
names the one before it twice, seventeen times over. What is to be reached: at most 10 microseconds a step, 5 a choice, and 300 a step for
the last. The plain program has the same model written out in Python, draws by the same words, and has to come to the same path.
"""

import fractions
import os
import subprocess
import tempfile
import time

from timing import timed, words

STEPS = 100000
CHOICES = 60000
DOUBLED = 100000
SEED = 7
MASK = (1 << 128) - 1


def modules(count):
    """Modules of two commands each: one without action, and one with an action that every second module shares with the next."""
    def module(k):
        return ("module m%d\n  x%d : [0..3] init 0;\n  [] x%d<3 -> 1/2 : (x%d'=x%d+1) + 1/2 : true;\n"
                "  [a%d] x%d=3 -> (x%d'=0);\nendmodule\n") % (k, k, k, k, k, k // 2, k, k)
    return "mdp\n" + "".join(module(k) for k in range(count))


def many_choices(count):
    return "mdp\nmodule m\n  x : [0..9] init 0;\n%sendmodule\n" % ("  [] x=0 -> 1/2 : (x'=1) + 1/2 : true;\n" * count)


def doubling(levels):
    formulas = "".join("formula f%d = f%d + f%d;\n" % (k + 1, k, k) for k in range(levels))
    return "mdp\nformula f0 = x;\n%smodule m\n  x : [0..1] init 0;\n  [] f%d>=0 -> (x'=1-x);\nendmodule\n" % (formulas, levels)


class Pcg64:
    """PCG XSL RR 128/64, its seed filled from a number of 64 bits as the crate rand_core does it."""

    def __init__(self, seed):
        state, filled = seed, b""
        for _ in range(8):
            state = (state * 6364136223846793005 + 11634580027462260723) % (1 << 64)
            word, turn = (((state >> 18) ^ state) >> 27) % (1 << 32), state >> 59
            filled += (((word >> turn) | (word << (32 - turn))) % (1 << 32)).to_bytes(4, "little")
        self.state = int.from_bytes(filled[:16], "little")
        self.step = int.from_bytes(filled[16:], "little") | 1
        self.state = (self.state + self.step) & MASK
        self.turn()

    def turn(self):
        self.state = (self.state * 0x2360ED051FC65DA44385DF649FCCF645 + self.step) & MASK

    def next(self):
        self.turn()
        turn, word = self.state >> 122, (self.state >> 64) ^ (self.state % (1 << 64))
        return ((word >> turn) | (word << (64 - turn))) % (1 << 64)


def plain_choices(state):
    """The choices of `modules` at a state: a label, and branches of a probability and a state."""
    half, one = fractions.Fraction(1, 2), fractions.Fraction(1)
    found = []
    for k, x in enumerate(state):
        if x < 3:
            found.append(("-", [(half, state[:k] + (x + 1,) + state[k + 1:]), (half, state)]))
    for k in range(0, len(state), 2):
        if state[k] == 3 and state[k + 1] == 3:
            found.append(("a%d" % (k // 2), [(one, state[:k] + (0, 0) + state[k + 2:])]))
    return found


def plain_walk(count, steps):
    """The text of the walk, by the plain program, and its processor seconds."""
    start = time.process_time()
    source, state = Pcg64(SEED), (0,) * count
    lines = ["(%s)" % ",".join("x%d" % k for k in range(count)), "(%s)" % ",".join(map(str, state))]
    for _ in range(steps):
        found = plain_choices(state)
        if not found:
            break
        label, branches = found[source.next() % len(found)]
        word, total = source.next(), fractions.Fraction(0)
        for weight, target in branches:
            total += weight
            if word * total.denominator < total.numerator << 64:
                state = target
                break
        lines.append("%s (%s)" % (label, ",".join(map(str, state))))
    text = "".join(line + "\n" for line in lines)
    return text, time.process_time() - start


def written(name, text):
    with open(name, "w") as f:
        f.write(text)


def main():
    program, runs = words("crates/bridge/out/bridge")
    best = lambda command, out=os.devnull: min(timed(command, out=out)[0] for _ in range(runs))
    with tempfile.TemporaryDirectory() as room:
        os.chdir(room)
        written("modules", modules(10))
        seconds = best([program, "simulate", "prism", "modules", "seed", str(SEED), str(STEPS)], "path")
        text, plain = plain_walk(10, STEPS)
        with open("path") as f:
            same = f.read() == text
        print("walk of %d steps, 10 modules: %.2f us a step; plain program %.2f; %s" % (
            STEPS, seconds / STEPS * 1e6, plain / STEPS * 1e6, "the same path" if same else "ANOTHER PATH"))
        with open("jani", "wb") as f:
            f.write(subprocess.run([program, "to-jani", "modules"], stdout=subprocess.PIPE, check=True).stdout)
        seconds = best([program, "simulate", "jani", "jani", "seed", str(SEED), str(STEPS)])
        print("the same, translated to JANI: %.2f us a step" % (seconds / STEPS * 1e6))
        written("choices", many_choices(CHOICES))
        read = best([program, "check", "prism", "choices"])
        seconds = best([program, "show", "prism", "choices", "(0)"])
        print("state of %d choices: %.2f us a choice, %.2f of them for reading the file" % (CHOICES, seconds / CHOICES * 1e6, read / CHOICES * 1e6))
        written("doubling", doubling(17))
        seconds = best([program, "simulate", "prism", "doubling", "seed", str(SEED), str(DOUBLED)])
        print("walk of %d steps over a formula doubled seventeen times: %.0f us a step" % (DOUBLED, seconds / DOUBLED * 1e6))


if __name__ == "__main__":
    main()
