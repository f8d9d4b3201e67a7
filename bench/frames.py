#!/usr/bin/env python3
"""Tells which functions of the built program call themselves, alone or in a circle, and how many bytes of stack one turn takes.

    bench/frames.py [--program crates/bridge/out/bridge]

A turn's bytes are read off the machine code: what each function of the circle pushes and reserves as it begins, and 8 for its call.
Of functions that were built for several types the largest is told.
"""

import argparse
import re
import subprocess

CODE = re.compile(r"[0-9a-f]+ <(.+)>:$")
ROOM = re.compile(r"\$0x([0-9a-f]+),%rsp")
CALLED = re.compile(r"<(.+)>$")


def read(program):
    """The bytes that each function takes, and which functions it calls."""
    text = subprocess.run(["objdump", "-d", "--no-show-raw-insn", program], stdout=subprocess.PIPE, check=True).stdout.decode()
    takes, calls, now, begins = {}, {}, None, False
    for line in text.split("\n"):
        head = CODE.match(line)
        if head:
            now, begins = head.group(1), True
            takes[now], calls[now] = 8, set()
        elif now and "\t" in line:
            word, _, rest = line.split("\t")[1].strip().partition(" ")
            room = ROOM.match(rest.strip())
            if word.startswith("push") and begins:
                takes[now] += 8
            elif word.startswith("sub") and room and begins:
                takes[now] += int(room.group(1), 16)
                begins = False
            elif word.startswith("call"):
                called = CALLED.search(rest)
                begins = False
                if called and "+0x" not in called.group(1):
                    calls[now].add(called.group(1))
    return takes, calls


def circles(calls):
    """The functions that reach themselves, each with all that it reaches and that reach it (Tarjan 1972)."""
    number, low, path, found = {}, {}, [], []
    for start in calls:
        if start in number:
            continue
        turns = [(start, iter(calls[start]))]
        number[start] = low[start] = len(number)
        path.append(start)
        while turns:
            one, rest = turns[-1]
            other = next((it for it in rest if it in calls and (it not in number or low[it] is not None)), None)
            if other is None:
                turns.pop()
                if turns:
                    low[turns[-1][0]] = min(low[turns[-1][0]], low[one])
                if low[one] == number[one]:
                    at = path.index(one)
                    found.append(path[at:])
                    for it in path[at:]:
                        low[it] = None
                    del path[at:]
            elif other in number:
                low[one] = min(low[one], number[other])
            else:
                number[other] = low[other] = len(number)
                path.append(other)
                turns.append((other, iter(calls[other])))
    return [it for it in found if len(it) > 1 or it[0] in calls[it[0]]]


def main():
    options = argparse.ArgumentParser(description="Tells the stack that a turn of each recursion takes.")
    options.add_argument("--program", default="crates/bridge/out/bridge")
    takes, calls = read(options.parse_args().program)
    most = {}
    for circle in circles(calls):
        name = ", ".join(sorted({re.sub(r"::<.*>", "", it) for it in circle}))
        most[name] = max(most.get(name, 0), sum(takes[it] for it in circle))
    for name, bytes_ in sorted(most.items(), key=lambda it: (-it[1], it[0])):
        print("%6d %s" % (bytes_, name))


if __name__ == "__main__":
    main()
