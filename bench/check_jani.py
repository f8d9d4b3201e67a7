#!/usr/bin/env python3
"""Times `bridge check jani` on files of 1 to 16 MB, beside CPython's json.load of the same file.

    bench/check_jani.py [--program crates/bridge/out/bridge] [--runs 3]

The files have many edges, many automata with a vector each, and many locations. For each size: the processor seconds of the best run,
the growth against the size before, the greatest memory over the file's size, and the seconds of json.load. What is to be reached:
growth at most 2.2 for each doubling, memory at most 20 times the file, at most three times the seconds of json.load.
"""

import os
import tempfile

from timing import LOAD, MEGA, growth, python, timed, words

HEAD = '{"jani-version":1,"name":"m","type":"mdp","actions":[{"name":"a"}],"variables":[%s],"automata":[%s],"system":{"elements":[%s],"syncs":[%s]}}'
VARIABLE = '{"name":"x%d","type":{"kind":"bounded","base":"int","lower-bound":0,"upper-bound":9},"initial-value":0}'
AUTOMATON = '{"name":"p%d","locations":[%s],"initial-locations":["l0"],"edges":[%s]}'
EDGE = '{"location":"l%d","action":"a","guard":{"exp":{"op":"=","left":"x%d","right":%d}},"destinations":[{"location":"l%d","assignments":[{"ref":"x%d","value":%d}]}]}'


def edge(i, locations, variables):
    return EDGE % (i % locations, i % variables, i % 10, (i + 1) % locations, i % variables, (i + 1) % 10)


def joined(make, count):
    return ",".join(make(i) for i in range(count))


def file_of(variables, automata, locations, edges, vectors):
    """A file with so many variables, automata with so many locations and edges each, and vectors."""
    automaton = lambda i: AUTOMATON % (i, joined(lambda n: '{"name":"l%d"}' % n, locations), joined(lambda n: edge(n, locations, 1) if automata > 1 else edge(n, locations, variables), edges))
    part = lambda i: '{"synchronise":[%s],"result":"a"}' % joined(lambda n: '"a"' if n == i else "null", automata)
    return HEAD % (joined(lambda i: VARIABLE % i, variables), joined(automaton, automata), joined(lambda i: '{"automaton":"p%d"}' % i, automata), joined(part, vectors))


def edges(size):
    return file_of(100, 1, 10, size // 165, 1)


def automata(size):
    count = int((size / 5.0) ** 0.5)
    return file_of(1, count, 2, 2, count)


def locations(size):
    return file_of(1, 1, size // 19, 1, 1)


def main():
    program, runs = words("crates/bridge/out/bridge")
    print("                MB     check  growth  memory  json.load  times")
    with tempfile.TemporaryDirectory() as room:
        os.chdir(room)
        for make in (edges, automata, locations):
            before = None
            for size in (1, 2, 4, 8, 15.5):
                text = make(int(size * MEGA))
                with open("f", "w") as f:
                    f.write(text)
                seconds, memory = min(timed([program, "check", "jani", "f"]) for _ in range(runs))
                load = min(python(LOAD, "f") for _ in range(runs))
                print("%-10s %7.2f %9.4f %7s %6.1fx %10.4f %6.1f" % (
                    make.__name__, len(text) / MEGA, seconds, growth(seconds, before), memory / len(text), load, seconds / load), flush=True)
                before = seconds


if __name__ == "__main__":
    main()
