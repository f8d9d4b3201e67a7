#!/usr/bin/env python3
"""Counts the instructions that `bridge` runs for each byte of files of 2 MB, beside the numbers that are stored in bench/instructions.txt.

    bench/instructions.py [--program crates/bridge/out/bridge] [--only WORD] [--store]

Instructions don't depend on the machine or on what runs beside: they are counted by valgrind (its callgrind), which has to be at hand. For each command and kind
of file: the instructions a byte of what is read, and how many times those that are stored. With --store they are stored in their place. The status is 1 where a
command takes more than 1.03 times what is stored.
"""

import argparse
import os
import re
import shutil
import subprocess
import sys
import tempfile

import check_jani
import to_jani

TABLE = os.path.join(os.path.dirname(os.path.abspath(__file__)), "instructions.txt")
SIZE = 2_000_000
SLACK = 1.03


def nested(size):
    """One automaton whose edges have guards of 60 levels."""
    guard = '"x0"'
    for k in range(60):
        guard = '{"op":"+","left":%s,"right":%d}' % (guard, k % 10)
    edge = '{"location":"l0","action":"a","guard":{"exp":{"op":"<","left":%s,"right":5}},"destinations":[{"location":"l0"}]}' % guard
    automaton = check_jani.AUTOMATON % (0, '{"name":"l0"}', ",".join([edge] * (size // len(edge))))
    return check_jani.HEAD % (check_jani.VARIABLE % 0, automaton, '{"automaton":"p0"}', '{"synchronise":["a"],"result":"a"}')


PRISM = [("commands", to_jani.commands), ("modules", to_jani.modules), ("formulas", to_jani.formulas), ("actions", to_jani.actions)]
JANI = [("edges", check_jani.edges), ("automata", check_jani.automata), ("locations", check_jani.locations), ("nested", nested)]


def counted(command):
    """How many instructions a command runs."""
    run = ["valgrind", "--tool=callgrind", "--callgrind-out-file=/dev/null", *command]
    ended = subprocess.run(run, stdout=subprocess.DEVNULL, stderr=subprocess.PIPE, text=True)
    if ended.returncode != 0:
        sys.exit("%s ended with status %d" % (" ".join(command), ended.returncode))
    return int(re.search(r"Collected : (\d+)", ended.stderr).group(1))


def rows(program, room):
    """Each command with a kind of file and the file."""
    for kind, make in PRISM:
        model = os.path.join(room, kind)
        with open(model, "w") as file:
            file.write(make(SIZE))
        yield "check prism", kind, [program, "check", "prism", model], model
        yield "to-jani", kind, [program, "to-jani", model], model
    for kind, make in JANI:
        model = os.path.join(room, kind)
        with open(model, "w") as file:
            file.write(make(SIZE))
        yield "check jani", kind, [program, "check", "jani", model], model
    for kind, make in PRISM[:3]:
        source, model = os.path.join(room, kind), os.path.join(room, kind + ".jani")
        with open(source, "w") as file:
            file.write(make(SIZE * 3 // 10))
        with open(model, "wb") as file:
            subprocess.run([program, "to-jani", source], stdout=file, check=True)
        yield "to-prism", kind, [program, "to-prism", model], model


def stored():
    """The numbers of the table, by command and kind."""
    if not os.path.exists(TABLE):
        return {}
    with open(TABLE) as file:
        cells = [line.rsplit(None, 2) for line in file if line.strip() and not line.startswith("#")]
    return {(command, kind): float(number) for command, kind, number in cells}


def main():
    parser = argparse.ArgumentParser()
    parser.add_argument("--program", default="crates/bridge/out/bridge")
    parser.add_argument("--only", default="")
    parser.add_argument("--store", action="store_true")
    given = parser.parse_args()
    if not shutil.which("valgrind"):
        print("nothing is counted: there is no valgrind here")
        return
    known, slower = stored(), False
    print("%-12s %-10s %12s %7s" % ("command", "file", "instructions", "times"))
    with tempfile.TemporaryDirectory() as room:
        for command, kind, run, model in rows(os.path.abspath(given.program), room):
            if given.only not in command + " " + kind:
                continue
            number = counted(run) / os.path.getsize(model)
            before = known.get((command, kind))
            slower |= before is not None and number > SLACK * before
            print("%-12s %-10s %12.1f %7s" % (command, kind, number, "%.2f" % (number / before) if before else ""), flush=True)
            known[command, kind] = number
    if given.store:
        with open(TABLE, "w") as file:
            file.write("# Instructions a byte of files of 2 MB; written by bench/instructions.py --store.\n")
            file.writelines("%-12s %-10s %7.1f\n" % (*key, number) for key, number in known.items())
    elif slower:
        sys.exit(1)


if __name__ == "__main__":
    main()
