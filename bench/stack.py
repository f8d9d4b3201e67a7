#!/usr/bin/env python3
"""Tells the least stack with which each form of words ends as it does with ample stack, on the deepest files.

    bench/stack.py [--program crates/bridge/out/bridge]

A stack is given by `ulimit -s`, and the least one that serves is found by halving, to 16 KB.
"""

import argparse
import os
import subprocess
import tempfile

AMPLE, STEP = 1 << 16, 16  # KB

SMALL = "mdp module M x : [0..1]; [] true -> true; endmodule\n"
JANI = '{"jani-version":1,"name":"m","type":"mdp","automata":[{"name":"A","locations":[{"name":"l"}],"initial-locations":["l"],"edges":[' \
    '{"location":"l","guard":{"exp":%s},"destinations":[{"location":"l"}]}]}],"system":{"elements":[{"automaton":"A"}]}%s}'


def guard(text, items=""):
    """A PRISM file with this guard."""
    return "mdp\n%smodule M x : [0..1]; [] %s -> true; endmodule\n" % (items, text)


FORMULAS = "formula f0 = x;\n" + "".join("formula f%d = f%d+1;\n" % (k + 1, k) for k in range(2046))

PRISM_FILES = {
    "1,023 negations": guard("!" * 1023 + "true"),
    "511 pairs of parentheses": guard("(" * 511 + "true" + ")" * 511),
    "1,024 opening parentheses": guard("(" * 1024),
    "512 implications": guard("true" + "=>true" * 511),
    "conditionals in parentheses": guard("(true?" * 170 + "true" + ":true)" * 170),
    "minimum of minimum": guard("min(" * 204 + "x" + ",x)" * 204 + ">=0"),
    "a chain of 2,047 formulas": guard("f2046>0", FORMULAS),
}

# A label to which each of 1,024 locations gives a value, the first one a deep one: the value of the label's translation is a chain of them all.
PARTS = '{"jani-version":1,"name":"m","type":"mdp","variables":[{"name":"r","type":"bool","transient":true,"initial-value":false}],"automata":[' \
    '{"name":"A","locations":[{"name":"l0","transient-values":[{"ref":"r","value":%s}]}%s],"initial-locations":["l0"],"edges":[]}],' \
    '"system":{"elements":[{"automaton":"A"}]}}' % (
        '{"op":"¬","exp":' * 1010 + "true" + "}" * 1010,
        "".join(',{"name":"l%d","transient-values":[{"ref":"r","value":true}]}' % k for k in range(1, 1024)),
    )

# An action that is accepted everywhere, and 1,023 edges with it, the first with a deep guard: the guard of the loop negates the chain of them all.
LOOP = '{"jani-version":1,"name":"m","type":"mdp","actions":[{"name":"a"}],"automata":[{"name":"A","locations":[{"name":"l"}],"initial-locations":["l"],' \
    '"edges":[%s]}],"system":{"elements":[{"automaton":"A","input-enable":["a"]}],"syncs":[{"synchronise":["a"],"result":"a"}]}}' % ",".join(
        '{"location":"l","action":"a","guard":{"exp":%s},"destinations":[{"location":"l"}]}' % it
        for it in ['{"op":"¬","exp":' * 1017 + "true" + "}" * 1017] + ["false"] * 1022)

JANI_FILES = {
    "1,018 negations": JANI % ('{"op":"¬","exp":' * 1018 + "true" + "}" * 1018, ""),
    "sums to the left": JANI % ('{"op":">","right":-1,"left":' + '{"op":"+","right":0,"left":' * 1017 + "1" + "}" * 1018, ""),
    "conditions of conditions": JANI % ('{"op":"ite","then":true,"else":false,"if":' * 1018 + "true" + "}" * 1018, ""),
    "a chain of 1,024 parts": PARTS,
    "a loop beside 1,023 edges": LOOP,
    "1,022 lists in metadata": JANI % ("true", ',"metadata":{"a":' + "[" * 1022 + "]" * 1022 + "}"),
    "1,024 opening brackets": "[" * 1024,
}

BESIDE = {
    "prism": {"q": "P>0 [ F %strue ]\n" % ("!" * 1023), "p": "(x)\n(0)\n", "s": "(x)\n0:(0)\n", "r": "1 1 1\n0 0 0 1\n"},
    "jani": {"p": "(@0)\n(0)\n- (0)\n", "s": "(@0)\n0:(0)\n", "r": "1 1 1\n0 0 0 1\n"},
}

COMMANDS = {
    "prism": ["check prism f", "to-jani f", "to-jani f q", "show prism f (0)", "simulate prism f seed 1 2", "check-path prism f p", "check-rows prism f s r",
              "carry-path prism f p", "specialise prism f"],
    "jani": ["check jani f", "to-prism f", "to-prism-props f", "show jani f (0)", "simulate jani f seed 1 2", "check-path jani f p", "check-rows jani f s r",
             "carry-path jani f p", "specialise jani f"],
}


def run(program, words, stack):
    limit = 'ulimit -s %d; exec "$0" "$@"' % stack
    done = subprocess.run(["/bin/sh", "-c", limit, program] + words.split(), stdin=subprocess.DEVNULL, stdout=subprocess.PIPE, stderr=subprocess.PIPE)
    return done.returncode, done.stdout, done.stderr


def least(program, words):
    """The status, and the least stack that serves."""
    whole = run(program, words, AMPLE)
    low, high = 0, AMPLE
    while high - low > STEP:
        middle = (low + high) // 2
        if run(program, words, middle) == whole:
            high = middle
        else:
            low = middle
    return whole[0], high


def main():
    options = argparse.ArgumentParser(description="Tells the least stack that serves.")
    options.add_argument("--program", default="crates/bridge/out/bridge")
    program = os.path.abspath(options.parse_args().program)
    with tempfile.TemporaryDirectory() as room:
        os.chdir(room)
        for language, files in (("prism", PRISM_FILES), ("jani", JANI_FILES)):
            for name, text in files.items():
                for file, data in dict(BESIDE[language], f=text).items():
                    with open(file, "w") as out:
                        out.write(data)
                for words in COMMANDS[language]:
                    status, stack = least(program, words)
                    print("%-30s %-26s status %d %6d KB" % (name, words, status, stack), flush=True)
        os.chdir("/")


if __name__ == "__main__":
    main()
