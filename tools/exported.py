"""What the tools beside this file share: calls of `bridge`, and the files of states, rows and labels that other tools export."""
import os
import re
import subprocess
import sys
from concurrent.futures import ThreadPoolExecutor

HERE = os.path.dirname(os.path.realpath(__file__))
BUILT = os.path.join(HERE, "..", "crates", "bridge", "out", "bridge")


def program():
    """The program: the one that BRIDGE names, else the one that was built here, else `bridge` on the path."""
    return os.environ.get("BRIDGE") or (BUILT if os.path.exists(BUILT) else "bridge")


def bridge(*words):
    """Status, output and standard error of a run of the program."""
    try:
        done = subprocess.run([program(), *words], stdout=subprocess.PIPE, stderr=subprocess.PIPE)
    except OSError as error:
        sys.exit("%s: %s; let BRIDGE name the built program" % (program(), error.strerror))
    err = done.stderr.decode(errors="replace")
    if err.startswith("Object "):
        sys.exit("%s is the command of iproute2; let BRIDGE name the built program" % program())
    return done.returncode, done.stdout.decode(errors="replace"), err


def asked(calls):
    """What the program says to each of these words, several at a time."""
    with ThreadPoolExecutor(max_workers=os.cpu_count() or 1) as pool:
        return list(pool.map(lambda words: bridge(*words), calls))


def language(file):
    """Which language a model's file is of: JSON begins with a brace."""
    with open(file, "rb") as it:
        return "jani" if it.read(4096).lstrip(b"\xef\xbb\xbf \t\r\n").startswith(b"{") else "prism"


def lines(file):
    """The lines of a file that hold something."""
    with open(file, encoding="utf-8") as it:
        return [line for line in it.read().split("\n") if line.strip()]


def read_states(file):
    """The header of a file of states, and the text of each state."""
    found = lines(file)
    return found[0].strip(), [line.split(":", 1)[1].strip() for line in found[1:]]


def read_rows(file):
    """The rows of a file as (state, choice, target, probability's text, label or None), without its first line."""
    for number, line in enumerate(lines(file)[1:], 2):
        parts = line.rstrip("\r").split(" ", 4)
        if len(parts) < 4 or not all(it.isdigit() for it in parts[:3]):
            sys.exit("%s:%d: no row of an mdp: state, choice, target, probability, label" % (file, number))
        yield int(parts[0]), int(parts[1]), int(parts[2]), parts[3], parts[4] if len(parts) > 4 and parts[4] else None


def read_labels(file):
    """For each label of a file of labels the states that have it. PRISM writes `0="init" 1="done"`, and then `5: 1` for each state that has some."""
    found = lines(file)
    names = dict(re.findall(r'(\d+)="([^"]*)"', found[0]))
    marked = {name: set() for name in names.values()}
    for line in found[1:]:
        state, _, numbers = line.partition(":")
        for number in numbers.split():
            marked[names[number]].add(int(state))
    return marked
