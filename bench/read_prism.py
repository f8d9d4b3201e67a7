#!/usr/bin/env python3
"""Times how `bridge check prism` reads PRISM files of 1 to 16 MB that it refuses for a name once they are read, beside CPython's
ast.parse of a Python file and json.load of a JSON file of the same length.

    bench/read_prism.py [--program crates/bridge/out/bridge] [--runs 3]

The files are of commands as models have them, of dense commands, which have short names and more operators, and of formulas.
For each size: the processor seconds and MB/s of the best run, the growth against the size before, the greatest memory over the file's
size, and the seconds of ast.parse and json.load. What is to be reached: growth at most 2.2 for each doubling, memory at most
20 times the file, less time than both. Then files that are refused before: 16 MB of `(`, and of one long sum.
"""

import os
import tempfile

from timing import LOAD, MEGA, PARSE, growth, python, timed, words

# Commands as PRISM's manual and its models of shared coins have them.
COMMANDS = (
    "  [] (pc1=0) -> 0.5 : (pc1'=1) & (coin1'=0) + 0.5 : (pc1'=1) & (coin1'=1);\n",
    "  [] (pc1=1) & (coin1=0) & (counter>0) -> (counter'=counter-1) & (pc1'=2) & (coin1'=0);\n",
    "  [] (pc1=1) & (coin1=1) & (counter<range) -> (counter'=counter+1) & (pc1'=2) & (coin1'=0);\n",
    "  [] (pc1=2) & (counter<=left) -> (pc1'=3) & (coin1'=0);\n",
    "  [done] (pc1=3) -> (pc1'=3);\n",
)
KINDS = {
    "commands": ("mdp\nmodule coin\n  pc1 : [0..3] init 0;\n  coin1 : [0..1] init 0;\n  counter : [0..99] init 0;\n", "endmodule\nlabel \"done\" = pc1=3;\n",
                 lambda i: COMMANDS[i % len(COMMANDS)]),
    "dense commands": ("mdp\nmodule network\n  x : [0..9] init 0;\n  y : [0..9] init 0;\n", "endmodule\nlabel \"done\" = x=9;\n",
                 lambda i: "  [step] x<%d & (y>%d | !(x=y)) -> 0.25 : (x'=min(x+1,%d)) + 0.75 : (y'=y+1) & (x'=0);\n" % (i % 9 + 1, i % 7, i % 5 + 5)),
    "formulas": ("mdp\nmodule m\n  x : [0..9] init 0;\nendmodule\n", "",
                 lambda i: "formula f%d = x > %d ? (x + %d) * 2 / 3 - mod(x, %d) : floor(%d.5);\n" % (i, i % 10, i, i % 9 + 1, i)),
}


# A name that is declared nowhere: the file is refused once it is read and its names are looked up.
UNKNOWN = 'label "none" = no_such_name;\n'


def file_of(size, front, back, line):
    """A file of about so many bytes: lines between a front and a back."""
    lines = [front]
    length = len(front) + len(back)
    count = 0
    while length < size:
        text = line(count)
        lines.append(text)
        length += len(text)
        count += 1
    lines.append(back)
    return "".join(lines)


def main():
    program, runs = words("crates/bridge/out/bridge")
    os.chdir(tempfile.mkdtemp(prefix="bridge-bench-"))
    for kind, (front, back, line) in KINDS.items():
        print("%s\n    MB   seconds    MB/s  growth  memory  ast.parse  json.load" % kind)
        before = None
        for size in (1, 2, 4, 8, 16):
            text = file_of(size * MEGA, front, back + UNKNOWN, line)
            open("f", "w").write(text)
            open("f.py", "w").write(file_of(len(text), "", "", lambda i: "f%d = (x + %d) * 2 / 3 - mod(x, %d) if x > %d else floor(%d.5)\n" % (i, i, i % 9 + 1, i % 10, i)))
            open("f.json", "w").write(file_of(len(text) - 8, "[", "0]", lambda i: '{"ref":"x%d","value":{"op":"+","left":"y","right":%d}},' % (i % 10, i)))
            seconds, memory = min(timed([program, "check", "prism", "f"], 2) for _ in range(runs))
            print("%6.1f  %8.3f  %6.1f  %6s  %5.1fx  %9.3f  %9.3f" % (
                len(text) / MEGA, seconds, len(text) / MEGA / seconds, growth(seconds, before),
                memory / len(text), python(PARSE, "f.py"), python(LOAD, "f.json")), flush=True)
            before = seconds
    print("refused\n    MB   seconds  memory")
    for name, text in (("(", "mdp const int a = " + "(" * (16 * MEGA)), ("x+x", "mdp const int a = x" + "+x" * (8 * MEGA))):
        open("f", "w").write(text)
        seconds, memory = min(timed([program, "check", "prism", "f"], 2) for _ in range(runs))
        print("%6.1f  %8.3f  %5.1fx  %s" % (len(text) / MEGA, seconds, memory / len(text), name))


if __name__ == "__main__":
    main()
