#!/usr/bin/env python3
"""Measures what one run of the gate takes from nothing: processor minutes of its parts, and processor seconds of each crate.

    bench/gate.py [--commit HEAD] [--beside COMMIT] [--lanes 4] [--crates NAME ..] [--without-wrong-bodies] [--so-far FILE]

A clean clone of the commit is made in a folder of its own, `rt ci` is run there from nothing with so many lanes, and twice a second the processes below it
are looked at in /proc, each with the crate that it works on. With names only these crates and those below them are proved, where the kit's `rt ci` takes
names; with --without-wrong-bodies the folders must-fail/ are left out. What was seen so far is written into a file each minute, if one is named, since a run may be cut off.

How much a proof takes depends on what runs beside it: up to half as much again. So two states are compared either by runs on one machine, one after
another, with nothing beside them, or by --beside, which runs both at once, each with half of the lanes. Crates that are the same in both show how far the
two runs agree.
"""
import argparse
import collections
import glob
import os
import shutil
import subprocess
import sys
import tempfile
import time

TICKS = os.sysconf("SC_CLK_TCK")


def processes():
    """Yields the number, the parent and the processor seconds of each process."""
    for number in filter(str.isdigit, os.listdir("/proc")):
        try:
            with open(f"/proc/{number}/stat") as file:
                fields = file.read().rpartition(")")[2].split()
        except OSError:
            continue
        yield int(number), int(fields[1]), (int(fields[11]) + int(fields[12])) / TICKS


def below(top):
    """Returns the processor seconds of each process below this one."""
    seen = {number: (parent, seconds) for number, parent, seconds in processes()}
    found = {}
    for number in seen:
        above = number
        while above in seen and above != top:
            above = seen[above][0]
        if above == top and number != top:
            found[number] = seen[number][1]
    return found


def work_of(number):
    """Returns the part of the gate that a process belongs to, and its crate."""
    try:
        with open(f"/proc/{number}/cmdline", "rb") as file:
            words = file.read().decode(errors="replace").split("\0")
        folder = os.readlink(f"/proc/{number}/cwd")
    except OSError:
        return None
    if "--crate-name" not in words:
        return None
    crate = words[words.index("--crate-name") + 1]
    if "rt-edit" in folder:
        return "wrong bodies", crate
    if "--test" in words:
        return "tests", crate
    return ("libraries" if "src/lib.rt" in words else "programs"), crate


def from_nothing(crates):
    """Returns the command that runs the gate from nothing. Kits that keep nothing take no further words."""
    page = subprocess.run(["rt", "doc"], check=True, capture_output=True, text=True).stdout.strip()
    with open(page) as file:
        keeps = "--anew" in file.read()
    if crates and not keeps:
        sys.exit("this kit's rt ci takes no names of crates")
    return ["rt", "ci", "--anew", *crates] if keeps else ["rt", "ci"]


class State:
    """One run of the gate over a clone of a commit, and what its processes have taken."""

    def __init__(self, commit, room, lanes, crates, without_wrong_bodies):
        here = os.path.dirname(os.path.dirname(os.path.abspath(__file__)))
        self.commit, self.log, self.took = commit, os.path.join(room, "log-" + commit), None
        copy = os.path.join(room, "bridge-" + commit)
        subprocess.run(["git", "clone", "-q", here, copy], check=True)
        subprocess.run(["git", "checkout", "-q", commit], cwd=copy, check=True)
        if without_wrong_bodies:
            for folder in glob.glob(f"{copy}/crates/*/must-fail"):
                shutil.rmtree(folder)
        self.works, self.seconds, self.own, self.began = {}, {}, 0, time.time()
        with open(self.log, "w") as out:
            told = {**os.environ, "RT_JOBS": str(lanes)}
            self.run = subprocess.Popen(from_nothing(crates), cwd=copy, env=told, stdout=out, stderr=out)

    def look(self):
        """Notes what the processes below the run have taken until now, and returns whether it goes on."""
        if self.took is not None:
            return False
        for number, taken in below(self.run.pid).items():
            self.works[number] = self.works.get(number) or work_of(number)
            self.seconds[number] = max(taken, self.seconds.get(number, 0))
        ended, status, used = os.wait4(self.run.pid, os.WNOHANG)
        if ended:
            self.run.returncode = os.waitstatus_to_exitcode(status)
            self.own, self.took = used.ru_utime + used.ru_stime, time.time() - self.began
        return not ended

    def show(self, file):
        """Writes the last line of the run, the minutes of each part, and the seconds of each crate."""
        print(f"== {self.commit}", file=file)
        if self.took is not None:
            with open(self.log) as log:
                print(log.read().rstrip().rpartition("\n")[2], file=file)
            print(f"{self.took:.0f} seconds by the clock", file=file)
        show(summed(self.works, self.seconds), file, self.own if self.took is not None else None)


def measure(states, so_far):
    """Looks at the runs until all have ended."""
    written = time.time()
    while any([state.look() for state in states]):
        if so_far and time.time() - written > 60:
            written = time.time()
            with open(so_far, "w") as file:
                for state in states:
                    state.show(file)
        time.sleep(0.5)


def summed(works, seconds):
    """Returns the seconds of each part and crate."""
    total = collections.Counter()
    for number, work in works.items():
        if work:
            total[work] += seconds[number]
    return total


def show(total, file, used=None):
    """Writes the minutes of each part, and the seconds of each crate. What the whole run used is known at its end."""
    parts = collections.Counter()
    for (part, _), seconds in total.items():
        parts[part] += seconds
    if used is not None:
        parts["rt itself, compiling and linking"] = used - sum(parts.values())
    for part, seconds in parts.most_common():
        print(f"{seconds / 60:8.1f} minutes  {part}", file=file)
    print(f"{sum(parts.values()) / 60:8.1f} minutes  in all", file=file)
    for (part, crate), seconds in total.most_common():
        print(f"{seconds:8.1f} seconds  {crate} ({part})", file=file)


def main():
    words = argparse.ArgumentParser(description=__doc__.split("\n")[0])
    words.add_argument("--commit", default="HEAD")
    words.add_argument("--beside")
    words.add_argument("--lanes", type=int, default=4)
    words.add_argument("--crates", nargs="*", default=[])
    words.add_argument("--without-wrong-bodies", action="store_true")
    words.add_argument("--so-far")
    given = words.parse_args()
    commits = [given.commit, given.beside] if given.beside else [given.commit]
    with tempfile.TemporaryDirectory() as room:
        lanes = max(1, given.lanes // len(commits))
        states = [State(it, room, lanes, given.crates, given.without_wrong_bodies) for it in commits]
        measure(states, given.so_far)
        for state in states:
            state.show(sys.stdout)
    sys.exit(max(state.run.returncode for state in states))


if __name__ == "__main__":
    main()
