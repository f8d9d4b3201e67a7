#!/usr/bin/env python3
"""Times `bridge specialise` on PRISM files of 0.5 to 4 MB whose commands name an open constant, and on what `to-jani` writes for them, beside `check`.

    bench/specialise.py [--program crates/bridge/out/bridge] [--runs 3]

For each file: the processor seconds of the best run, the growth against the size before, the greatest memory over the file's size, and the
seconds of `check` of the same file. What is to be reached: growth at most 2.2 for each doubling, at most twice the seconds of `check`.
"""

import os
import subprocess
import tempfile

from timing import MEGA, growth, timed, words

LONGEST = 16777216  # of the files that are read


def commands(size):
    """About so many bytes of commands, in which a constant without a value stands."""
    front = "mdp\nconst double p;\nconst int N;\nmodule process1\n  phase1 : [0..9] init 0;\n"
    line = "  [] phase1=%d & N>%d -> p*0.5 : (phase1'=%d) + 1-p*0.5 : (phase1'=%d);\n"
    lines = [line % (i % 10, i % 7, (i + 1) % 10, (i + 2) % 10) for i in range(size // len(line % (0, 0, 0, 0)))]
    return front + "".join(lines) + "endmodule\n"


def main():
    program, runs = words("crates/bridge/out/bridge")
    print("                MB  specialise  growth  memory     check  times")
    with tempfile.TemporaryDirectory() as room:
        os.chdir(room)
        before = {}
        for size in (0.5, 1, 2, 4):
            with open("prism", "w") as f:
                f.write(commands(int(size * MEGA)))
            with open("jani", "w") as f:
                subprocess.run([program, "to-jani", "prism"], stdout=f, check=True)
            for lang in ("prism", "jani"):
                length = os.path.getsize(lang)
                if length > LONGEST:
                    continue
                seconds, memory = min(timed([program, "specialise", lang, lang, "p=1/3", "N=5"]) for _ in range(runs))
                check, _ = min(timed([program, "check", lang, lang]) for _ in range(runs))
                print("%-10s %7.2f %11.4f %7s %6.1fx %9.4f %6.1f" % (
                    lang, length / MEGA, seconds, growth(seconds, before.get(lang)), memory / length, check, seconds / check), flush=True)
                before[lang] = seconds


if __name__ == "__main__":
    main()
