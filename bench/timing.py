"""What the programs of this folder share: their words, runs that are timed, and CPython's readers to compare with."""

import argparse
import atexit
import functools
import os
import shutil
import subprocess
import sys
import tempfile

MEGA = 1000000

# Runs a command with its output in a file, and prints the processor seconds that it took, the most memory that it held, and its status. It
# is a program of its own, and small, since a child is counted at least as large as its parent.
RUN = """
#include <fcntl.h>
#include <stdio.h>
#include <sys/resource.h>
#include <sys/wait.h>
#include <unistd.h>
static double seconds(struct timeval t) { return t.tv_sec + t.tv_usec / 1e6; }
int main(int count, char **words) {
    int status;
    struct rusage usage;
    pid_t child = fork();
    if (child == 0) {
        dup2(open(words[1], O_WRONLY | O_CREAT | O_TRUNC, 0666), 1);
        dup2(open("/dev/null", O_WRONLY), 2);
        execv(words[2], words + 2);
        _exit(127);
    }
    wait4(child, &status, 0, &usage);
    printf("%f %ld %d\\n", seconds(usage.ru_utime) + seconds(usage.ru_stime), usage.ru_maxrss * 1024,
           WIFSIGNALED(status) ? -WTERMSIG(status) : WEXITSTATUS(status));
    return 0;
}
"""

LOAD = "import json, time; s = time.process_time(); json.load(open(%r)); print(time.process_time() - s)"
PARSE = "import ast, time; t = open(%r).read(); s = time.process_time(); ast.parse(t); print(time.process_time() - s)"


def words(program):
    """The program to time, as a whole path, and how often."""
    parser = argparse.ArgumentParser()
    parser.add_argument("--program", default=program)
    parser.add_argument("--runs", type=int, default=3)
    given = parser.parse_args()
    return os.path.abspath(given.program), given.runs


@functools.lru_cache(maxsize=None)
def runner():
    """The program RUN, compiled into a folder of its own."""
    at = tempfile.mkdtemp()
    atexit.register(shutil.rmtree, at)
    subprocess.run(["cc", "-O2", "-x", "c", "-o", at + "/run", "-"], input=RUN.encode(), check=True)
    return at + "/run"


def measured(command, out=os.devnull):
    """The processor seconds that a command took, the greatest memory that it held, in bytes, and its status; of a signal the number below 0."""
    told = subprocess.run([runner(), out, *command], stdout=subprocess.PIPE, check=True).stdout.split()
    return float(told[0]), int(told[1]), int(told[2])


def timed(command, status=0, out=os.devnull):
    """The processor seconds that a command took, and the greatest memory that it held, in bytes."""
    seconds, memory, ended = measured(command, out)
    if ended != status:
        sys.exit("%s ended with status %d" % (" ".join(command), ended))
    return seconds, memory


def python(line, name):
    """The processor seconds that CPython takes for LOAD or PARSE on a file."""
    return float(subprocess.run([sys.executable, "-c", line % name], stdout=subprocess.PIPE, check=True).stdout)


def growth(seconds, before):
    """The growth against the size before, as text."""
    return "%.2f" % (seconds / before) if before else ""
