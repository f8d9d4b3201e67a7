#!/usr/bin/env python3
"""Times `bridge check prism` beside reading alone, on commands of 1 to 16 MB, formulas in a chain, and copies of a module.

    bench/check_prism.py [--program crates/bridge/out/bridge] [--runs 3]

For each file: the processor seconds of the best run, the growth against the size before, the greatest memory over the file's
size, and the seconds of reading alone, of the same file with a name that is unknown at its end. What is to be reached:
growth at most 2.2 for each doubling, memory at most 20 times the file, at most three times the seconds of reading.
"""

import os
import tempfile

from timing import MEGA, growth, timed, words


def commands(size):
    """About so many bytes of commands, at most 200,000 of them and 2,000,000 nodes."""
    front = "mdp\nmodule process1\n  phase1 : [0..9] init 0;\n  coin1 : [0..1] init 0;\n"
    line = "  [] (phase1=%d) -> 0.5 : (phase1'=%d) & (coin1'=0) + 0.5 : (phase1'=%d) & (coin1'=1);\n"
    lines = [line % (i % 10, (i + 1) % 10, (i + 2) % 10) for i in range(size // len(line % (0, 0, 0)))]
    return front + "".join(lines) + "endmodule\n"


def chain(count):
    """Formulas of which each names the one before."""
    lines = ["formula f%d = f%d;\n" % (i, i - 1) for i in range(count - 1, 0, -1)]
    return "mdp\n" + "".join(lines) + "formula f0 = x;\nmodule m\n  x : [0..9];\n  [] f%d<9 -> (x'=x+1);\nendmodule\n" % (count - 1)


def copies(count):
    """A module and copies of it."""
    lines = ["module process%d = process0 [ pc0=pc%d, coin0=coin%d ] endmodule\n" % (i, i, i) for i in range(1, count)]
    first = "module process0\n  pc0 : [0..1];\n  coin0 : [0..1];\n  [] pc0=0 -> 0.5 : (coin0'=0) & (pc0'=1) + 0.5 : (coin0'=1) & (pc0'=1);\nendmodule\n"
    return "mdp\n" + first + "".join(lines)


def main():
    program, runs = words("crates/bridge/out/bridge")
    print("                MB     check  growth  memory   reading  times")
    with tempfile.TemporaryDirectory() as room:
        os.chdir(room)
        for make, sizes in ((commands, [n * MEGA for n in (1, 2, 4, 8, 15.9)]), (chain, [2500, 5000, 10000]), (copies, [500, 1000, 1998])):
            before = None
            for size in sizes:
                text = make(int(size))
                with open("f", "w") as f:
                    f.write(text)
                with open("unknown", "w") as f:
                    f.write(text + 'label "none" = no_such_name;\n')
                seconds, memory = min(timed([program, "check", "prism", "f"]) for _ in range(runs))
                reading, _ = min(timed([program, "check", "prism", "unknown"], 2) for _ in range(runs))
                print("%-10s %7.2f %9.4f %7s %6.1fx %9.4f %6.1f" % (
                    make.__name__, len(text) / MEGA, seconds, growth(seconds, before), memory / len(text), reading, seconds / reading), flush=True)
                before = seconds


if __name__ == "__main__":
    main()
