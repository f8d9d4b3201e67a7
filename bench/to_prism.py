#!/usr/bin/env python3
"""Times `bridge to-prism` on JANI files of 1 to 16 MB of six kinds, beside checking the same file and CPython's json.load of it.

    bench/to_prism.py [--program crates/bridge/out/bridge] [--runs 3]

The kinds: what `to-jani` writes for the PRISM files of bench/to_jani.py (many commands of one module; 200 modules that synchronise;
formulas that stand in one another; up to 20,000 actions with an item each), of which each is made as long as it has to be for the
wanted length of its translation; many automata with a vector each; one automaton of many locations with an edge and a reward each. For
each size: the processor seconds of the best run, the growth for a doubling of the size before, the greatest memory over the file's
size, the seconds of `check jani` on the same file, how many times as long the translation takes, and the seconds of json.load. What is
to be reached: growth at most 2.2 for each doubling, at most 3 times the time of `check jani`, memory at most 40 times the file.
"""

import math
import os
import subprocess
import tempfile

import to_jani
from timing import LOAD, MEGA, python, timed, words

HEAD = '{"jani-version":1,"name":"m","type":"mdp","actions":[{"name":"a"}],"variables":[%s],"automata":[%s],"system":{"elements":[%s],"syncs":[%s]}}'
REWARD = '{"name":"cost","type":"real","transient":true,"initial-value":0}'
VARIABLE = '{"name":"x","type":{"kind":"bounded","base":"int","lower-bound":0,"upper-bound":9},"initial-value":0}'
AUTOMATON = '{"name":"p%d","variables":[%s],"locations":[%s],"initial-locations":["l0"],"edges":[%s]}'
LOCATION = '{"name":"l%d","transient-values":[{"ref":"cost","value":{"op":"+","left":"x","right":%d}}]}'
EDGE = '{"location":"l%d","action":"a","guard":{"exp":{"op":"=","left":"x","right":%d}},"destinations":[{"location":"l%d","assignments":[{"ref":"x","value":%d}]}]}'


def joined(make, count):
    return ",".join(make(i) for i in range(count))


def edge(i, locations):
    return EDGE % (i, i % 10, (i + 1) % locations, (i + 1) % 10)


def automata(size):
    """Automata with two locations and two edges, and for each a vector that it alone takes part in."""
    count = int((size / 5.1) ** 0.5)
    both = joined(lambda i: edge(i, 2), 2)
    vector = lambda i: '{"synchronise":[%s],"result":"a"}' % joined(lambda n: '"a"' if n == i else "null", count)
    return HEAD % ("", joined(lambda i: AUTOMATON % (i, VARIABLE, '{"name":"l0"},{"name":"l1"}', both), count),
                   joined(lambda i: '{"automaton":"p%d"}' % i, count), joined(vector, count))


def locations(size):
    """One automaton whose locations have an edge and a reward each."""
    count = size // 240
    automaton = AUTOMATON % (0, VARIABLE, joined(lambda i: LOCATION % (i, i % 7), count), joined(lambda i: edge(i, count), count))
    return HEAD % (REWARD, automaton, '{"automaton":"p0"}', '{"synchronise":["a"],"result":"a"}')


def translated(make, ratio):
    """The translations of PRISM files, which are so many times as long as what is asked for."""
    def text(program, size, room):
        model = os.path.join(room, "model")
        with open(model, "w") as f:
            f.write(make(int(size / ratio)))
        return subprocess.run([program, "to-jani", model], stdout=subprocess.PIPE, check=True).stdout
    return text


def written(make):
    return lambda program, size, room: make(size).encode()


KINDS = [
    ("commands", translated(to_jani.commands, 3.35)),
    ("modules", translated(to_jani.modules, 2.85)),
    ("formulas", translated(to_jani.formulas, 2.3)),
    ("actions", translated(to_jani.actions, 0.87)),
    ("automata", written(automata)),
    ("locations", written(locations)),
]


def doubling(seconds, size, before):
    """The growth for each doubling of the size, as text."""
    return "%.2f" % 2 ** (math.log2(seconds / before[0]) / math.log2(size / before[1])) if before else ""


def main():
    program, runs = words("crates/bridge/out/bridge")
    print("kind          MB   out MB   seconds  growth  memory   check  times  json.load")
    with tempfile.TemporaryDirectory() as room:
        model, result = os.path.join(room, "f"), os.path.join(room, "out")
        for kind, make in KINDS:
            before = None
            for size in (1, 2, 4, 8, 15.5):
                text = make(program, int(size * MEGA), room)
                with open(model, "wb") as f:
                    f.write(text)
                seconds, memory = min(timed([program, "to-prism", model], 0, result) for _ in range(runs))
                check = min(timed([program, "check", "jani", model])[0] for _ in range(runs))
                load = min(python(LOAD, model) for _ in range(runs))
                print("%-9s %6.2f %8.2f %9.4f %7s %6.1fx %7.4f %6.1f %10.4f" % (
                    kind, len(text) / MEGA, os.path.getsize(result) / MEGA, seconds, doubling(seconds, len(text), before),
                    memory / len(text), check, seconds / check, load), flush=True)
                before = seconds, len(text)


if __name__ == "__main__":
    main()
