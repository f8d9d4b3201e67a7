#!/usr/bin/env python3
"""Times `bridge to-jani` with none, 5,000, 10,000 and 20,000 properties beside a model of 1 MB, and `bridge to-prism-props` on what that writes.

    bench/properties.py [--program crates/bridge/out/bridge] [--runs 3]

The properties take all forms in turn, each with its own name, labels and formulas among their operands. For each number: the processor seconds
of the best run; those of reading both files (the same with a last property that isn't typed, which is refused once both are read); the growth of
what the properties cost against the number before; then the way back, beside `check jani` of the file, which reads its properties as JSON, and its
growth. What is to be reached: a growth of at most 2.2 for each doubling, and at most three times the time of reading both files.
"""

import os
import tempfile

from timing import growth, timed, words

VARIABLES = 100
FORMS = (
    'Pmax=? [ F s_%(i)04d=%(k)d & !"busy_%(j)04d" ]',
    'P>=0.%(k)02d [ s_%(i)04d<%(k)d U<=%(k)d far_%(j)04d ]',
    'Pmin=? [ G "busy_%(i)04d" | c_%(j)04d!=%(d)d ]',
    'P<0.%(k)02d [ F<=(2*%(k)d) c_%(i)04d=%(d)d ]',
    'R{"work"}min=? [ F s_%(i)04d>=%(k)d => far_%(j)04d ]',
    'Pmax=? [ "busy_%(i)04d" W s_%(j)04d+1>%(k)d ]',
)


def model(size):
    """One module of 200 variables with a label and a formula for each pair of them, filled with commands to so many bytes."""
    head = ["mdp", "module network"]
    for i in range(VARIABLES):
        head += ["  s_%04d : [0..99] init 0;" % i, "  c_%04d : [0..9] init 1;" % i]
    tail = ["endmodule"]
    for i in range(VARIABLES):
        tail += ["formula far_%04d = s_%04d > 50 & c_%04d < 5;" % (i, i, i), 'label "busy_%04d" = c_%04d > 3;' % (i, i)]
    tail += ['rewards "work"', "  true : 1;", "endrewards"]
    lines, length = head, sum(len(it) + 1 for it in head + tail)
    n = 0
    while length < size:
        i, j, k = n % VARIABLES, (n // 7) % VARIABLES, n % 90
        lines.append("  [] s_%04d=%d & c_%04d=%d -> (s_%04d'=%d) & (c_%04d'=%d);" % (i, k, j, k % 10, i, k + 1, j, (k + 3) % 10))
        length += len(lines[-1]) + 1
        n += 1
    return "\n".join(lines + tail) + "\n"


def properties(count):
    parts = ({"i": n % VARIABLES, "j": (n // 3) % VARIABLES, "k": 1 + n % 90, "d": n % 10} for n in range(count))
    return "".join('"property_%d": %s;\n' % (n, FORMS[n % len(FORMS)] % it) for n, it in enumerate(parts))


def main():
    program, runs = words("crates/bridge/out/bridge")
    best = lambda command, status=0: min((timed(command, status) for _ in range(runs)), key=lambda t: t[0])[0]
    with tempfile.TemporaryDirectory() as room:
        os.chdir(room)
        with open("f", "w") as f:
            f.write(model(1000000))
        before, back_before = 0, 0
        for count in (0, 5000, 10000, 20000):
            with open("q", "w") as f:
                f.write(properties(count) + "Pmax=? [ F 1 ];\n")
            read = best([program, "to-jani", "f", "q"], 2)
            with open("q", "w") as f:
                f.write(properties(count))
            seconds = best([program, "to-jani", "f", "q"])
            timed([program, "to-jani", "f", "q"], out="j")
            back, back_read = best([program, "to-prism-props", "j"]), best([program, "check", "jani", "j"])
            if count == 0:
                alone, back_alone = seconds, back
            print("%6d properties of %.1f MB: %.3f s, read in %.3f, times %.1f, growth %4s; back %.3f s, check jani %.3f, times %.1f, growth %4s" % (
                count, os.path.getsize("q") / 1e6, seconds, read, seconds / read, growth(seconds - alone, before),
                back, back_read, back / back_read, growth(back - back_alone, back_before)), flush=True)
            before, back_before = seconds - alone, back - back_alone


if __name__ == "__main__":
    main()
