#!/usr/bin/env python3
"""Times `bridge check-rows` and `check-bound`, beside CPython reading the same files.

    bench/rows.py [--program crates/bridge/out/bridge] [--runs 3]

A chain of 200,000 states with 199,999 rows; a million rows, four branches to each of 250 choices of 1,000 states; and one state that
has 60,000 choices, all of them equal, or each with a probability of its own. What is to be reached: at most 5 microseconds a row in the
first two, a growth of at most 2.2 for each doubling, and less than a second for the last, reading its model aside. The reader in Python
splits the lines, numbers the states by a dictionary, and makes a fraction of each probability. And a million rows of 200,000 states with a
bound for each of these: at most twice the time of `check-rows` on the same files.
"""

import os
import subprocess
import sys
import tempfile

from timing import growth, timed, words

READ = """
import fractions, time
start = time.process_time()
with open("s") as f:
    next(f)
    states = {line.rstrip("\\n").split(":", 1)[1]: int(line.split(":", 1)[0]) for line in f}
with open("r") as f:
    next(f)
    rows = []
    for line in f:
        fields = line.rstrip("\\n").split(" ")
        rows.append((int(fields[0]), int(fields[1]), int(fields[2]), fractions.Fraction(fields[3])))
print(time.process_time() - start)
"""


def written(name, text):
    with open(name, "w") as f:
        f.write(text)


def chain(count):
    """A chain of so many states."""
    written("f", "mdp\nmodule m\n  x : [0..%d] init 0;\n  [] x<%d -> (x'=x+1);\nendmodule\n" % (count - 1, count - 1))
    written("s", "(x)\n" + "".join("%d:(%d)\n" % (k, k) for k in range(count)))
    written("r", "%d %d %d\n" % (count, count - 1, count - 1) + "".join("%d 0 %d 1\n" % (k, k + 1) for k in range(count - 1)))
    return count - 1


def branches(choices, states=1000):
    """A thousand states, each with so many choices of four branches, to different states."""
    steps = range(1, choices + 1)
    commands = "".join("  [] true -> %s;\n" % " + ".join("1/4 : (x'=mod(x+%d,%d))" % (part * step, states) for part in range(4)) for step in steps)
    written("f", "mdp\nmodule m\n  x : [0..%d] init 0;\n%sendmodule\n" % (states - 1, commands))
    written("s", "(x)\n" + "".join("%d:(%d)\n" % (k, k) for k in range(states)))
    count = 4 * choices * states
    rows = ("%d %d %d 1/4\n" % (k, step - 1, (k + part * step) % states) for k in range(states) for step in steps for part in range(4))
    written("r", "%d %d %d\n" % (states, choices * states, count) + "".join(rows))
    return count


def bounded(count):
    """So many states, each with two choices of five branches together, and a bound for each of them."""
    branches = ((0, 0, "0.5"), (0, 1, "0.5"), (1, 2, "0.2"), (1, 3, "0.4"), (1, 4, "0.4"))
    commands = "".join("  [] true -> %s;\n" % " + ".join("%s : (x'=%d)" % (weight, to) for number, to, weight in branches if number == choice) for choice in (0, 1))
    written("f", "mdp\nmodule m\n  x : [0..%d] init 0;\n%sendmodule\nlabel \"four\" = x=4;\n" % (count - 1, commands))
    written("s", "(x)\n" + "".join("%d:(%d)\n" % (k, k) for k in range(count)))
    written("r", "%d %d %d\n" % (count, 2 * count, 5 * count) + "".join("%d %d %d %s\n" % (k, *branch) for k in range(count) for branch in branches))
    written("b", "".join("%d:1\n" % k for k in range(count)))
    return 5 * count


def one_state(count, weight):
    """Two states, the first of them with so many choices of two branches, the n-th with the probability `weight(n)`."""
    commands = "".join("  [] x=0 -> %s : (x'=1) + 1-%s : true;\n" % (weight(n), weight(n)) for n in range(count))
    written("f", "mdp\nmodule m\n  x : [0..1] init 0;\n%sendmodule\n" % commands)
    written("s", "(x)\n0:(0)\n1:(1)\n")

    def rows(n):
        upper, lower = weight(n).split("/")
        return "0 %d 0 %d/%s\n0 %d 1 %s\n" % (n, int(lower) - int(upper), lower, n, weight(n))
    written("r", "2 %d %d\n" % (count, 2 * count) + "".join(rows(n) for n in range(count)))


def main():
    program, runs = words("crates/bridge/out/bridge")
    check = [program, "check-rows", "prism", "f", "s", "r"]
    best = lambda command: min((timed(command) for _ in range(runs)), key=lambda t: t[0])
    with tempfile.TemporaryDirectory() as room:
        os.chdir(room)
        for kind, make, sizes in (("chain", chain, (50000, 100000, 200000)), ("branches", branches, (62, 125, 250))):
            before = 0
            for size in sizes:
                rows = make(size)
                seconds, memory = best(check)
                plain = float(subprocess.run([sys.executable, "-c", READ], stdout=subprocess.PIPE, check=True).stdout)
                length = sum(os.path.getsize(name) for name in "fsr")
                print("%-9s %8d rows  %.2f us a row  growth %4s  memory %.1fx the files  reading in Python %.2f" % (
                    kind, rows, seconds / rows * 1e6, growth(seconds, before), memory / length, plain / rows * 1e6), flush=True)
                before = seconds
        rows = bounded(200000)
        rows_alone, with_bounds = best(check), best([program, "check-bound", "prism", "f", "s", "r", "four", "b"])
        print("bounds    %8d rows  %.2f us a row  %.2f times check-rows (%.2f us a row)  memory %.1fx the files" % (
            rows, with_bounds[0] / rows * 1e6, with_bounds[0] / rows_alone[0], rows_alone[0] / rows * 1e6,
            with_bounds[1] / sum(os.path.getsize(name) for name in "fsrb")), flush=True)
        for kind, weight in (("equal", lambda n: "1/2"), ("different", lambda n: "%d/%d" % (n + 1, 100000))):
            one_state(60000, weight)
            seconds = best(check)[0]
            read = best([program, "check", "prism", "f"])[0]
            print("one state of 60000 %s choices: %.2f s, %.2f of them for reading and judging the model" % (kind, seconds, read), flush=True)


if __name__ == "__main__":
    main()
