#!/usr/bin/env python3
"""Times `read_json` and `write_json` of decimal_json on texts of 1 to 16 MB, beside CPython's json.load and, where RapidJSON's
headers and a C++ compiler are there, beside RapidJSON's tree.

    bench/json.py [--program crates/part_bench/out/part_bench] [--runs 3]

For many small objects (as a JANI file nests them, and flat with the spaces of json.dump), long strings, numbers and an array of
digits, and each size: the processor seconds of a run that only reads the file, the growth against the size before, the greatest
memory over the file's size, the seconds of a run that reads it and writes it back, and the seconds of json.load and RapidJSON for
reading. Each is the best of its runs. The first line tells what a run over the text `null` takes: that is the start of the process,
which json.load, timed inside a running Python, is spared. What is to be reached: growth at most 2.2 for each doubling, memory at most
20 times the file, reading no slower than json.load.
"""

import os
import shutil
import subprocess
import tempfile

from timing import LOAD, MEGA, growth, python, timed, words

TREE = r"""
#include <cstdio>
#include <fstream>
#include <iterator>
#include <string>
#include "rapidjson/document.h"
int main(int, char **words) {
    std::ifstream file(words[1], std::ios::binary);
    std::string text((std::istreambuf_iterator<char>(file)), std::istreambuf_iterator<char>());
    rapidjson::Document tree;
    tree.Parse<rapidjson::kParseFullPrecisionFlag>(text.data(), text.size());
    std::printf("%d\n", tree.HasParseError());
    return tree.HasParseError();
}
"""


def objects(i):
    """A small object, as a JANI file lists variables."""
    return '{"name":"v%d","type":{"kind":"bounded","base":"int","lower-bound":0,"upper-bound":%d},"initial-value":%d}' % (
        i, i % 97, i % 7)


def records(i):
    """A flat object, with the spaces of json.dump."""
    return '%s{"id": %d, "name": "item %d", "on": %s, "weight": %d.5}' % (" " if i else "", i, i, ("true", "false")[i % 2], i % 100)


def strings(i):
    """A string of about a thousand bytes."""
    return '"%s"' % (("the quick brown fox number %d jumps over the lazy dog; " % i) * 20)


def numbers(i):
    """A whole number, a decimal or a number with an exponent."""
    if i % 3 == 0:
        return "%d.%04de-%d" % (i % 1000, i % 9973 + 1, i % 30)
    if i % 3 == 1:
        return "%d" % (i * 7919)
    return "%d.%d" % (i % 100, i % 1000)


def digits(i):
    """A whole number of one digit: the least text that a value can have."""
    return "%d" % (i % 10)


def write_array(make, size, name):
    """Writes an array of about so many bytes, and says how many they are. Little is held, for the memory of a new process
    counts from that of its parent."""
    length, i = 1, 0
    with open(name, "w") as f:
        f.write("[")
        while length < size:
            part = ("," if i else "") + make(i)
            f.write(part)
            length += len(part)
            i += 1
        f.write("]")
    return length + 1


def tree_program(room):
    """A program over RapidJSON's tree, or None where it can't be built."""
    compiler = shutil.which("c++") or shutil.which("g++") or shutil.which("clang++")
    if compiler is None:
        return None
    source, program = os.path.join(room, "tree.cpp"), os.path.join(room, "tree")
    with open(source, "w") as f:
        f.write(TREE)
    built = subprocess.run([compiler, "-O2", "-o", program, source], capture_output=True)
    return program if built.returncode == 0 else None


def main():
    program, runs = words("crates/part_bench/out/part_bench")
    with tempfile.TemporaryDirectory() as room:
        tree = tree_program(room)
        name = os.path.join(room, "null")
        with open(name, "w") as f:
            f.write("null")
        start = min(timed([program, "read", name])[0] for _ in range(10 * runs))
        print("start of the process: %.4f" % start)
        print("                MB     read    MB/s  growth  memory    back  json.load  RapidJSON")
        for make in (objects, records, strings, numbers, digits):
            before = None
            for size in (1, 2, 4, 8, 16):
                name, result = os.path.join(room, "f.json"), os.path.join(room, "out")
                length = write_array(make, size * MEGA, name)
                read, memory = min(timed([program, "read", name]) for _ in range(runs))
                back, held = min(timed([program, name], 0, result) for _ in range(runs))
                load = min(python(LOAD, name) for _ in range(runs))
                other = None if tree is None else min(timed([tree, name])[0] for _ in range(runs))
                print("%-10s %7.1f %8.3f %7.1f %7s %6.1fx %7.3f %10.3f  %9s" % (
                    make.__name__, length / 1e6, read, length / 1e6 / read, growth(read, before),
                    max(memory, held) / length, back, load,
                    "-" if other is None else "%.3f" % other), flush=True)
                before = read


if __name__ == "__main__":
    main()
