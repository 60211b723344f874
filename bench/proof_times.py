#!/usr/bin/env python3
"""Measures how long the proof of each function of a crate takes: proof_times.py TOP CRATE [WORD..]

Proves the crate from nothing with one job, over the libraries that `rt ci` proved in the clone TOP (tests/prover.py), and prints the
seconds of each function, the longest first, then the check's last line. The words are those of `rattle check`, as `--only FUNCTION`.
The first function to end has the start of the check in its time; any function may have that of a type or of a file of lemmas which it is
the first to need. Run it with little beside it.
"""
import os
import re
import subprocess
import sys
import time

HERE = os.path.dirname(os.path.abspath(__file__))
sys.path.insert(0, os.path.join(os.path.dirname(HERE), "tests"))

from edits import TOP
from prover import Prover

CHECKED = re.compile(r"checked (\S+), \d+ of \d+")


def main(top, crate, *words):
    folder = os.path.join(TOP, "crates", crate)
    root = next(it for it in ("src/lib.rt", "src/main.rt") if os.path.isfile(os.path.join(folder, it)))
    command = [*Prover().command(crate, os.path.abspath(top), root), "--jobs", "1", "--progress", *words]
    times, last, before = [], "", time.time()
    with subprocess.Popen(command, cwd=folder, stdout=subprocess.PIPE, stderr=subprocess.STDOUT, text=True, errors="replace") as ran:
        for line in ran.stdout:
            found = CHECKED.match(line)
            if found:
                now = time.time()
                times.append((now - before, found[1]))
                before = now
            last = line.strip() or last
    for seconds, name in sorted(times, reverse=True):
        print(f"{seconds:8.2f} {name}")
    print(last)
    return ran.returncode


if __name__ == "__main__":
    sys.exit(main(*sys.argv[1:]) if len(sys.argv) > 2 else __doc__)
