#!/usr/bin/env python3
"""Times `bridge to-jani` on files of 1 to 16 MB of four kinds, beside checking the same file and CPython's json.load of the result.

    bench/to_jani.py [--program crates/bridge/out/bridge] [--runs 3]

The kinds: many commands of one module; 200 modules that synchronise; formulas that stand in one another; 20,000 actions with an
item each. For each size: the processor seconds of the best run, the growth against the size before, the greatest memory over the
file's size, the seconds of `check prism` on the same file, and those of json.load of what was written. What is to be reached:
growth at most 2.2 for each doubling, memory at most 40 times the file, at most 3 times the time that reading and checking takes.
"""

import os
import tempfile

from timing import LOAD, growth, python, timed, words

STATIONS = 100


def filled(head, line, tail, size, most):
    """A file of these parts with as many lines between them as its size and the limits allow."""
    lines, length, count = list(head), sum(len(it) + 1 for it in head) + len(tail) + 1, 0
    while length < size and count < most:
        lines.append(line(count))
        length += len(lines[-1]) + 1
        count += 1
    return "\n".join([*lines, tail]) + "\n"


def commands(size):
    """One module of 200 variables, whose commands compare and write two of them."""
    head = ["mdp", "module network"]
    for i in range(STATIONS):
        head += ["  station_%04d : [0..99] init 0;" % i, "  channel_%04d : [0..9] init 1;" % i]

    def line(n):
        i, j, k = n % STATIONS, (n // 7) % STATIONS, n % 90
        return "  [] station_%04d=%d & channel_%04d=%d -> (station_%04d'=%d) & (channel_%04d'=%d);" % (
            i, k, j, k % 10, i, k + 1, j, (k + 3) % 10)

    return filled(head, line, "endmodule", size, 190_000)


def modules(size):
    """200 modules, each with commands of its own and of actions that its neighbours have."""
    each = max(1, size // 200 // 90)
    out = ["mdp"]
    for i in range(200):
        out += ["module node_%03d" % i, "  phase_of_node_%03d : [0..99] init 0;" % i]
        for n in range(each):
            action = "" if n % 3 else "step_%03d" % ((i // 2) * 2 % 200)
            out.append("  [%s] phase_of_node_%03d=%d -> 0.5 : (phase_of_node_%03d'=%d) + 0.5 : true;" % (action, i, n % 99, i, n % 99 + 1))
        out.append("endmodule")
    return "\n".join(out) + "\n"


def formulas(size):
    """Formulas that name the one before, used by a command each."""
    count = size // 205
    out = ["mdp", "const int LIMIT;"]
    for i in range(count):
        last = "x" if i % 5 == 0 else "running_total_%06d" % (i - 1)
        out.append("formula running_total_%06d = min(%s + %d, LIMIT);" % (i, last, i % 7))
    out += ["module counter", "  x : [0..1000] init 0;"]
    for i in range(0, count):
        out.append("  [] running_total_%06d < LIMIT & x < 900 -> (x'=min(1000, x + %d));" % (i, i % 5))
    return "\n".join([*out, "endmodule"]) + "\n"


def actions(size):
    """Actions, 20,000 in 16 MB, with a command and an item of a reward structure each."""
    structures, per = max(1, size // 800_000), 1000
    out = ["mdp", "module plant", "  level : [0..99] init 0;"]
    for i in range(structures * per):
        out.append("  [switch_%05d] level=%d -> 0.25 : (level'=%d) + 0.25 : (level'=0) + 0.5 : true;" % (i, i % 99, i % 99 + 1))
    out.append("endmodule")
    for s in range(structures):
        out.append('rewards "energy_%02d"' % s)
        for i in range(s * per, s * per + per):
            out.append("  [switch_%05d] level > %d : level * 2 + %d;" % (i, i % 50, i % 11))
        out.append("endrewards")
    return "\n".join(out) + "\n"


KINDS = [("commands", commands), ("modules", modules), ("formulas", formulas), ("actions", actions)]


def main():
    program, runs = words("crates/bridge/out/bridge")
    print("kind          MB   out MB   seconds  growth  memory  check  json.load")
    with tempfile.TemporaryDirectory() as room:
        for kind, make in KINDS:
            before = None
            for size in (1, 2, 4, 8, 16):
                text = make(min(size * 1_000_000, 16_700_000))
                model, result = os.path.join(room, "f"), os.path.join(room, "out")
                with open(model, "w") as f:
                    f.write(text)
                seconds, memory = min(timed([program, "to-jani", model], 0, result) for _ in range(runs))
                check = min(timed([program, "check", "prism", model])[0] for _ in range(runs))
                load = min(python(LOAD, result) for _ in range(runs))
                print("%-9s %6.1f %8.1f %9.3f %7s %6.1fx %6.3f %10.3f" % (
                    kind, len(text) / 1e6, os.path.getsize(result) / 1e6, seconds, growth(seconds, before),
                    memory / len(text), check, load), flush=True)
                before = seconds


if __name__ == "__main__":
    main()
